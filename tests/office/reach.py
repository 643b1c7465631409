"""The commands beside desk and found over random histories, a program against the independent office; tests/long/reach.sh calls it:

    reach.py PROGRAM FOLDER TALKS CALLS FIRST

Each talk is over a chart of its own. At some points of it a program prints interest, claims, statements and streams, and other
offices follow it; what it wrote is then sent to its desk.
"""
import collections
import datetime
import json
import os
import random
import shutil
import sys

import streams
from calls import text_of
from cities import Program, office_of_bytes
from claims import GrantRefused, claim, grants_of
from documents import bad_document, good_document, lines_of
from pool import NoShare, days_of, pool
from statements import COMMAND_TITLES
from talks import Talk, toml_of

POINTS, FUND_TYPES = 4, ("special_revenue", "capital_projects", "debt_service", "permanent")


def widen(chart, rng):
    """Funds of all types in any order, and more sources to receive on."""
    funds = chart["fund"]
    for fund in funds:
        fund.pop("balance_class", None)
        fund["type"] = rng.choice(FUND_TYPES)
        if fund["type"] != "permanent" and rng.random() < 0.5:
            fund["balance_class"] = rng.choice(["restricted", "committed", "assigned"])
    general = rng.choice(funds)
    general.pop("balance_class", None)
    general["type"] = "general"
    rng.shuffle(funds)
    for fund in funds:
        kinds = ["general"] * rng.choice([0, 1, 1, 2, 3])
        kinds += ["operating_grant"] if lines_of(chart, fund["id"]) and (fund is general or rng.random() < 0.5) else []
        for kind in kinds:
            number = rng.choice([n for n in rng.sample(range(1, 10000), 300) if n not in [source["id"] for source in chart["source"]]])
            source = dict(id=number, name="Source %d" % number, fund=fund["id"], kind=kind, window=30)
            if kind != "general":
                source["function"] = chart["function"][0]["id"]
            chart["source"].append(source)
    rng.shuffle(chart["source"])


class WideTalk(Talk):
    """A talk in which many vouchers are paid."""

    def __init__(self, seed):
        super().__init__(seed)
        widen(self.chart, self.rng)
        self.weights.update(voucher=20, void_voucher=1, receive=10, pay=16)

    def pay(self):
        number = self.rng.choice([n for n, voucher in enumerate(self.office.vouchers, 1) if voucher["state"] == "open"] or [0])
        if number == 0 or self.chance(0.2):
            return super().pay()
        return dict(desk=1 if self.office.vouchers[number - 1]["desk"] != 1 else 2, vouchers=[number])


class MonthTalk(WideTalk):
    """Calls around one month of 31 days, most of which move cash."""

    def __init__(self, seed):
        super().__init__(seed)
        self.weights = dict(receive=12, interfund=8, voucher=5, pay=6, collect=3, bill=3, issue=2, asset=2, leave=3)
        first = self.begins
        while (first.replace(day=28) + datetime.timedelta(days=4)).replace(day=1) - first != datetime.timedelta(days=31):
            first = (first.replace(day=28) + datetime.timedelta(days=4)).replace(day=1)
        self.month = first
        self.today = first + datetime.timedelta(days=9)

    def day(self):
        return max(self.begins, self.month + datetime.timedelta(days=self.rng.randint(-9, 40)))


class Differs(Exception):
    pass


class Trial:
    """A talk with its cities: the program's own, one that follows it, and what the office says of each."""

    def __init__(self, program, folder, talk):
        self.talk, self.office, self.rng, self.counts = talk, talk.office, talk.rng, collections.Counter()
        self.program, self.folder = program, folder
        self.chart = toml_of(talk.chart).encode()
        self.city, self.second = self.found("first"), self.found("second")

    def found(self, name):
        city = Program(self.program, os.path.join(self.folder, name))
        city.write("chart.toml", self.chart)
        self.same("found", city.run(["found"]), (0, b"founded\n", ""))
        return city

    def same(self, what, got, wanted):
        if got != wanted:
            self.counts["differing"] += 1
            raise Differs("%s\n  office:  %s\n  program: %s" % (what, shown(wanted), shown(got)))

    def command(self, words, wanted, given=b""):
        self.counts[words[0]] += 1
        self.same(" ".join(words), self.city.run(words, given), wanted)

    def say(self, calls):
        """Sends calls to the desk; each is already answered by the office."""
        given = "".join(json.dumps(call, separators=(",", ":")) + "\n" for call, _ in calls)
        status, printed, said = self.city.run(["desk"], given.encode())
        replies = printed.decode().splitlines()
        for (call, wanted), got in zip(calls, replies + [""] * len(calls)):
            self.same(json.dumps(call), got, wanted)
        self.counts["calls"] += len(calls)
        self.same("desk", (status, said), (0, ""))

    def send(self, lines):
        """Sends lines that a command wrote."""
        self.say([(call, text_of(self.office.answer(call))) for call in map(json.loads, lines)])

    # ---- the commands at one point of the talk

    def at_a_point(self):
        self.statements()
        self.send(self.interest()[: self.rng.choice([0, 1, 9])])
        for make in (good_document, bad_document):
            self.send(self.claims(*make(self.rng, self.talk.chart)))
        self.send_near_claims()
        self.payloads = list(streams.payloads_of(self.office))
        self.ship_and_follow()
        self.follow_otherwise()

    def statements(self):
        for year in {self.office.chart["first_year"], min(2199, self.office.open_year() + self.rng.choice([0, 1]))}:
            for kind in [*list(COMMAND_TITLES)[-3:], self.rng.choice(list(COMMAND_TITLES))]:
                self.command(["report", str(year), kind], (0, self.office.text(year, kind).encode(), ""))
                self.command(["report", str(year), kind, "--csv"], (0, self.office.csv(year, kind).encode(), ""))

    def a_month(self):
        """A month of an entry, or one beside it."""
        days = [call["on"] for call, _ in self.office.entries] or ["%d-07-01" % self.office.chart["first_year"]]
        on = datetime.date.fromisoformat(self.rng.choice(days)) + datetime.timedelta(days=self.rng.choice([0, 0, 0, 31, -31]))
        return "%04d-%02d" % (min(2199, max(1970, on.year)), on.month)

    def interest(self):
        """Compares some months, and gives the last one's lines."""
        lines = []
        for month in {self.a_month() for _ in range(4)}:
            amount = self.rng.choice([1, 2, 3, 100, 10**13, self.rng.randint(1, 10**6)])
            desk = self.rng.choice([1, 1, 2, 9999])
            lines = self.pooled(month, amount, desk)
        return lines

    def pooled(self, month, amount, desk):
        try:
            lines = pool(self.office, month, amount, desk)
            assert sum(json.loads(line)["amount"] for line in lines) == amount
            wanted = 0, "".join(lines).encode(), ""
        except NoShare:
            lines, wanted = [], (13, b"", "cityfund: no share\n")
        self.counts["no share"] += wanted[0] == 13
        self.command(["pool", month, str(amount), str(desk)], wanted)
        return lines

    def claims(self, text, ids):
        """Compares the claims of a document's grants, and gives those of one of them."""
        lines, on = [], str(self.talk.today)
        for number in [*ids, 5] if ids else [5]:
            desk = self.rng.choice([1, 2, 9999])
            try:
                lines = claim(self.office, text, number, on, desk)
                wanted = 0, "".join(lines).encode(), ""
            except GrantRefused:
                wanted = 19, b"", "cityfund: grant refused\n"
            self.counts["claim lines"] += len(lines)
            self.counts["grants refused"] += wanted[0] == 19
            self.command(["claim", str(number), on, str(desk)], wanted, text)
        return lines[: self.rng.choice([0, 1, 1, 99])]

    def send_near_claims(self):
        """Bills whose keys are claims of vouchers, or nearly are."""
        keys = ["claim-%d" % self.rng.randint(0, len(self.office.vouchers) + 1), "claim-01", "claim-", "claim-1x", "Claim-1", "claim-+1", "claim-0"]
        keys += ["claim-%d" % (2**32 + 1), "claim-%d" % (2**64 + 1), "claim-" + "9" * 34, "claim-1-1"]
        for key in self.rng.sample(keys, 2):
            source = self.rng.choice(self.talk.chart["source"])["id"]
            call = dict(call="bill", desk=self.rng.choice([1, 2]), key=key, on=str(self.talk.today), source=source)
            call.update(levy_year=self.office.open_year(), payer=1, amount=self.rng.choice([1, 100, self.rng.randint(1, 10**4)]))
            self.say([(call, text_of(self.office.answer(call)))])

    def ship_and_follow(self):
        """The second city takes the stream up to here, and has then the first one's journal."""
        own = len(self.second_payloads) if hasattr(self, "second_payloads") else 0
        for first in {0, self.rng.randint(0, own), self.rng.choice([own, len(self.payloads), len(self.payloads) + 3])}:
            self.command(["ship", str(first)], (0, streams.ship(self.chart, self.payloads, first), ""))
        first = self.rng.choice([0, own, self.rng.randint(0, own)])
        self.follow(self.second, getattr(self, "second_payloads", []), streams.ship(self.chart, self.payloads, first))
        self.second_payloads = self.payloads
        self.same("the journal of the second city", self.second.journal(), self.city.journal())

    def follow(self, city, own, text):
        """Follows a stream in a city with these entries; its journal is then the office's."""
        office = office_of_bytes(self.chart)
        for payload in own:
            assert "ok" in office.answer(streams.entry_of(payload)[0])
        follower = streams.Follower(self.chart, office, own)
        before, had, (status, printed, said, why) = city.journal(), len(own), streams.outcome(follower, text)
        self.counts["follow"] += 1
        self.counts[why.split(" ")[0]] += 1
        self.same("follow: " + why, city.run(["follow"], text), (status, printed.encode(), said))
        version = 2 if before[1] != 1 or has_lease(follower.payloads) else 1
        if len(follower.payloads) > had:
            before = streams.with_room(streams.journal_of(self.chart, follower.payloads, version))
        self.same("the journal behind follow: " + why, city.journal(), before)
        return follower.payloads

    def follow_otherwise(self):
        """Streams that leave entries out, have them twice or in another order, over histories that differ."""
        for number in range(3):
            name = "third%d" % number
            shutil.rmtree(os.path.join(self.folder, name), ignore_errors=True)
            city = self.found(name)
            if self.rng.random() < 0.3:  # a journal of the version before leases
                city.write("fund.journal", city.journal()[:1] + b"\1" + city.journal()[2:])
            own = self.follow(city, [], streams.ship(self.chart, self.payloads[: self.rng.randint(0, 12)], 0))
            sent = self.spoiled(self.payloads[:25])
            own = self.follow(city, own, streams.ship(self.chart, sent, self.rng.choice([0, 0, len(own), self.rng.randint(0, 14)])))
            self.follow(city, own, streams.ship(self.chart, self.payloads, self.rng.randint(0, len(own))))

    def spoiled(self, payloads):
        payloads = list(payloads)
        place = self.rng.randint(0, len(payloads))
        how = self.rng.randint(0, 4)
        if how == 0:
            del payloads[place : place + 1]
        elif how == 1:
            payloads[place:place] = payloads[max(0, place - 1) : place]
        elif how == 2:
            payloads[place:] = payloads[place:][::-1]
        elif how == 3 and place < len(payloads):
            payloads[place] = payloads[place][:-1] + bytes([payloads[place][-1] ^ self.rng.choice([1, 2, 128])])
        return payloads


def has_lease(payloads):
    return any(streams.entry_of(payload)[0]["call"] == "lease" for payload in payloads)


def shown(value):
    return repr(value) if len(repr(value)) < 3000 else repr(value)[:3000] + ".."


def random_talk(trial, calls):
    lines = trial.talk.lines(calls)
    for point in range(POINTS):
        trial.say([line for _, line in zip(range(calls // POINTS), lines)])
        trial.at_a_point()


def random_month(trial, entries=200):
    """So many entries that move cash, and then the month, in several amounts."""
    talk, said = trial.talk, []
    for line in talk.lines(20 * entries):
        said.append(line)
        if len({at for at, _, _ in trial.office.cash_posts}) == entries:
            break
    trial.say(said)
    month = str(talk.month)[:7]
    assert len(days_of(month)) == 31
    for amount in (1, 7, 100, 10**6 + 1, 10**13):
        trial.pooled(month, amount, 5)
    trial.counts["entries of a month"] += len({at for at, _, _ in trial.office.cash_posts})


def attempt(what, program, folder, talk, play, *words):
    trial = None
    try:
        trial = Trial(program, folder, talk)
        play(trial, *words)
    except Differs as difference:
        print("%s: %s" % (what, difference))
        trial = trial or collections.namedtuple("Failed", "counts")(collections.Counter(differing=1))
    finally:
        shutil.rmtree(folder, ignore_errors=True)
    return trial.counts


def main(program, folder, talks, calls, first):
    counts = collections.Counter(differing=0)
    for seed in range(first, first + talks):
        its = os.path.join(folder, str(seed))
        counts += attempt("seed %d" % seed, program, its, WideTalk(seed), random_talk, calls)
        if seed % 4 == 0:
            counts += attempt("month %d" % seed, program, its, MonthTalk(seed), random_month)
    print(", ".join("%s %d" % count for count in sorted(counts.items()) if count[0] != "differing"))
    print("%d talks differ" % counts["differing"])
    return min(counts["differing"], 1)


if __name__ == "__main__":
    sys.exit(main(*sys.argv[1:3], *map(int, sys.argv[3:])))
