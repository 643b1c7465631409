"""A stream of twenty records with each of its bytes changed, cut off, doubled and lost, followed by a program over journals of no
entry, of ten and of all twenty, against what the independent office makes of it:

    follow.py PROGRAM FOLDER [SEED [all]]

Each stream is followed over one of the three journals, by its place, or over each of them with `all`. What is compared is the status,
what is printed and said, and the journal's bytes. Of every tenth spoiled stream the whole one is followed then, which either gives the
whole history or says that the histories differ.
"""
import collections
import os
import random
import shutil
import sys

TOP = os.path.join(os.path.dirname(os.path.abspath(__file__)), "..", "..")
sys.path.insert(0, os.path.join(TOP, "tests", "office"))
import streams
from answers import office_of_bytes
from cities import Program
from payloads import entry_of

ACCOUNT = dict(fund=1, dept=20, object=510)
EQUIPMENT = dict(fund=1, dept=10, object=710)
TERMS = dict(amount=12000, rate_bp=300, every=12, principals=[6000, 6000])
CALLS = [
    dict(call="adopt", desk=1, fund=1, year=2026, lines=[dict(line=n, amount=10**6) for n in (0, 2, 3)], estimates=[dict(source=1, amount=5)]),
    dict(call="amend", desk=1, fund=1, year=2026, line=3, by=-5),
    dict(call="transfer", desk=1, fund=1, year=2026, to=1, amount=7, **{"from": 0}),
    dict(call="requisition", desk=2, items=[dict(ACCOUNT, amount=700)]),
    dict(call="order", desk=3, vendor=77, requisition=1, items=[dict(ACCOUNT, amount=900), dict(EQUIPMENT, amount=300)]),
    dict(call="change_order", desk=3, order=1, item=1, by=-100, **ACCOUNT),
    dict(call="voucher", desk=4, vendor=77, items=[dict(ACCOUNT, amount=500, order=1, item=1, recorded=400), dict(EQUIPMENT, amount=200)]),
    dict(call="void_voucher", desk=4, voucher=1),
    dict(call="voucher", desk=4, vendor=77, items=[dict(EQUIPMENT, amount=250, order=1, item=2, final=True), dict(ACCOUNT, amount=50)]),
    dict(call="receive", desk=5, source=2, amount=100000),
    dict(call="pay", desk=5, vouchers=[2]),
    dict(call="bill", desk=6, source=1, levy_year=2026, payer=1, amount=5000),
    dict(call="collect", desk=5, bill=1, amount=3000),
    dict(call="write_off", desk=6, bill=1, amount=2000),
    dict(call="asset", desk=7, what="donate", dept=10, object=720, amount=90000),
    dict(call="issue", desk=5, fund=3, **TERMS),
    dict(call="leave", desk=8, what="earn", fund=1, dept=10, amount=900),
    dict(call="interfund", desk=5, what="transfer", to=2, amount=2000, **{"from": 1}),
    dict(call="lease", desk=5, vendor=77, **EQUIPMENT, **TERMS),
    dict(call="close", desk=9, what="month", month="2025-07"),
]


def chart():
    """Rivertown's chart, without its remarks."""
    with open(os.path.join(TOP, "examples", "rivertown", "chart.toml"), "rb") as file:
        return b"".join(line for line in file if line.strip() and not line.startswith(b"#"))


def twenty(text):
    office = office_of_bytes(text)
    for number, call in enumerate(CALLS, 1):
        answer = office.answer(dict(call, key="f%d" % number, on="2025-07-05"))
        assert "ok" in answer, answer
    return list(streams.payloads_of(office))


def spoiled(rng, stream, head):
    """Each spoiled stream, with what was done at which byte; a byte of the head is changed once, others in some ways."""
    for at in range(len(stream) + 1):
        yield "cut at", at, stream[:at]
    for at in range(len(stream)):
        before, byte, behind = stream[:at], stream[at], stream[at + 1 :]
        yield "doubled", at, before + bytes([byte, byte]) + behind
        yield "lost", at, before + behind
        for other in [byte ^ 1, (byte + 1) % 256, rng.choice([n for n in range(256) if n != byte])][: 1 if at < head else 3]:
            yield "changed to %d" % other, at, before + bytes([other]) + behind


class Trial:
    def __init__(self, program, folder, seed):
        self.chart, self.rng, self.counts = chart(), random.Random(seed), collections.Counter(wrong=0)
        self.payloads = twenty(self.chart)
        self.stream = streams.ship(self.chart, self.payloads, 0)
        self.city = Program(program, os.path.join(folder, "city"))

    def wanted(self, own, text):
        """The office's outcome of a stream over these entries, with the payloads and the version that the journal then has."""
        office = office_of_bytes(self.chart)
        for payload in own:
            assert "ok" in office.answer(entry_of(payload)[0])
        follower = streams.Follower(self.chart, office, own)
        return streams.outcome(follower, text), follower.payloads

    def try_one(self, what, own, text, version):
        """Follows a stream over a journal of these entries and of a version; a lease makes it version 2."""
        (status, printed, said, why), payloads = self.wanted(own, text)
        if any(entry_of(payload)[0]["call"] == "lease" for payload in payloads):
            version = 2
        self.counts[why.split(" ")[0]] += 1
        journal = self.city.journal()
        if len(payloads) > len(own):
            journal = streams.with_room(streams.journal_of(self.chart, payloads, version))
        got = self.city.run(["follow"], text)
        if got != (status, printed.encode(), said) or self.city.journal() != journal:
            self.counts["wrong"] += 1
            same = "the same journal" if self.city.journal() == journal else "another journal"
            print("%s, over %d entries: office: %d %s, %d entries; program: %r, %s" % (what, len(own), status, why, len(payloads), got, same))
        return payloads, version

    def follow(self, what, length, text, again):
        own = self.payloads[:length]
        version = 1 if length == 10 else 2
        self.city.write("fund.journal", streams.journal_of(self.chart, own, version))
        payloads, version = self.try_one(what, own, text, version)
        if again:
            self.try_one(what + ", then the whole one", payloads, self.stream, version)

    def run(self, is_all):
        self.follow("the whole stream", 0, self.stream, True)
        for number, (what, at, text) in enumerate(spoiled(self.rng, self.stream, 12 + len(self.chart))):
            for place, length in enumerate((0, 10, 20)):
                if is_all or (number + at) % 3 == place:
                    self.follow("%s %d" % (what, at), length, text, number % 10 == 0)
        return self.counts


def main(program, folder, seed="1", how=""):
    trial = Trial(program, folder, int(seed))
    counts = trial.run(how == "all")
    shutil.rmtree(folder, ignore_errors=True)
    wrong = counts.pop("wrong")
    print("follow: a stream of %d bytes: %s" % (len(trial.stream), ", ".join("%s %d" % count for count in sorted(counts.items()))))
    print("%d streams end otherwise than the office says" % wrong)
    return min(wrong, 1)


if __name__ == "__main__":
    sys.exit(main(*sys.argv[1:]))
