"""A stream of a history for another office: what `ship` writes, and what `follow` makes of one, from its format and its rules.

    streams.py CHART TALK FROM    writes the stream of the history of a talk whose replies stand beside it
"""
import struct
import sys

from payloads import NoEntry, entry_of, payload_of

MOST_CHART, MOST_PAYLOAD, MOST_FROM, STEP = 1_048_576, 65_536, 1_500_000, 65_536
# What the program ends with.
STATUSES = dict(OtherChart=14, Gap=15, StreamFault=16, Forked=17, EntryRefused=18)
SAID = dict(OtherChart="other chart", Gap="gap", StreamFault="stream fault", Forked="forked", EntryRefused="entry refused")


class Ended(Exception):
    """Why following ended before the closing byte."""

    def __init__(self, name, **values):
        self.name, self.values = name, values

    def told(self):
        return " ".join([self.name, *("%s=%s" % value for value in self.values.items())])


def drawn_numbers(office, call, made):
    """What an entry drew, by the names of the payload, from the office behind it and its answer."""
    if call["call"] == "voucher":
        return dict(number=made["voucher"], first=len(office.assets) + 1 - len(made["assets"]))
    if call["call"] == "pay_due":
        return dict(payment=office.bonds[call["bond"] - 1]["paid"])
    if call["call"] == "lease":
        return made
    return {} if call["call"] == "collect" else {"number": number for number in made.values()}


def payloads_of(office):
    """The payload of each entry of an office's history, which is taken again for the numbers that each drew."""
    again = type(office)(office.chart)
    for call, _ in office.entries:
        _, made = again.accept(call)
        yield payload_of(call, drawn_numbers(again, call, made))


def record(payload):
    return b"\1" + struct.pack(">I", len(payload)) + payload


def journal_of(chart, payloads, version=2):
    """The file of a journal that has these entries, and nothing behind them."""
    return b"\1" + bytes([version]) + struct.pack(">I", len(chart)) + chart + b"".join(map(record, payloads)) + b"\0"


def with_room(journal):
    """The same with the room that the program leaves behind an entry that it wrote: zeros up to a multiple of 64 KiB."""
    return journal + bytes(-len(journal) % STEP)


def ship(chart, payloads, first):
    return struct.pack(">QI", first, len(chart)) + chart + b"".join(map(record, payloads[first:])) + b"\0"


class Stream:
    """Fields of a stream, each cut short or whole."""

    def __init__(self, text):
        self.text, self.at = text, 0

    def take(self, size):
        if self.at + size > len(self.text):
            raise Ended("StreamFault", offset=self.at)
        self.at += size
        return self.text[self.at - size : self.at]

    def length(self, most):
        place, size = self.at, struct.unpack(">I", self.take(4))[0]
        if size > most:
            raise Ended("StreamFault", offset=place)
        return size

    def more(self):
        """Whether another record stands here; else the stream is at its end."""
        place, byte = self.at, self.take(1)[0]
        if byte > 1:
            raise Ended("StreamFault", offset=place)
        return byte == 1

    def payload(self):
        size = self.length(MOST_PAYLOAD)
        place, text = self.at, self.take(size)
        try:
            return text, entry_of(text)
        except NoEntry:
            raise Ended("StreamFault", offset=place) from None


def differing_at(chart, own):
    return next((at for at, (a, b) in enumerate(zip(chart, own)) if a != b), min(len(chart), len(own)))


class Follower:
    """A second office: its chart as bytes, and its history as payloads."""

    def __init__(self, chart, office, payloads):
        self.chart, self.office, self.payloads = chart, office, list(payloads)

    def follow(self, text):
        """Takes a stream; raises why it ended early. The history is then that of the whole records before."""
        stream = Stream(text)
        first = struct.unpack(">Q", stream.take(8))[0]
        chart = stream.take(stream.length(MOST_CHART))
        if chart != self.chart:
            raise Ended("OtherChart", at=differing_at(chart, self.chart))
        if first > len(self.payloads):
            raise Ended("Gap", **{"from": first, "length": len(self.payloads)})
        place = first
        while stream.more():
            payload, (call, drawn) = stream.payload()
            place += 1
            if place > len(self.payloads):
                self.add(place, payload, call, drawn)
            elif payload != self.payloads[place - 1]:
                raise Ended("Forked", place=place)
        return len(self.payloads)

    def add(self, place, payload, call, drawn):
        """An entry more, where the office takes it and draws the same. One that was refused isn't followed by another."""
        answer = self.office.answer(call)
        if "no" in answer:
            raise Ended("EntryRefused", place=place, refusal=answer["no"]["code"])
        if "was" in answer or drawn != drawn_numbers(self.office, call, answer["ok"]):
            raise Ended("EntryRefused", place=place, refusal=0)
        self.payloads.append(payload)


def outcome(follower, text):
    """The status of `follow` over a stream, what it prints, what it says, and the cause in full."""
    try:
        return 0, "followed %d\n" % follower.follow(text), "", "Done"
    except Ended as ended:
        return STATUSES[ended.name], "", "cityfund: %s\n" % SAID[ended.name], ended.told()


if __name__ == "__main__":
    from answers import calls_in_form, office_of

    its_office = office_of(sys.argv[1])
    for its_call in calls_in_form(sys.argv[2]):
        its_office.answer(its_call)
    with open(sys.argv[1], "rb") as file:
        sys.stdout.buffer.write(ship(file.read(), list(payloads_of(its_office)), int(sys.argv[3])))
