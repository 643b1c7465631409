"""Keeps statements and months as files for the page, whose lists are made each minute:

    statement-YEAR-KIND-now.json      a statement that no door gives, of all entries
    statement-YEAR-KIND-DAY.json      a statement through a month's end
    statement-YEAR-KIND-PLACE.json    a statement of the first entries, up to a close
    month-2026-07.json                a month of `books month`

Each has the rows of `books` as they are, of the last three fiscal years that have entries.
`kept.json` names each by its fiscal year, its kind, and its day or place, with the number of
entries that it counts, and what it depends on. A file is made anew where more entries are dated
through its day than when it was made; that of a close never changes. After some seconds no further
one is begun. The next run goes on, first with what is missing, then with what is oldest.
"""
import bisect
import calendar
import sys
import time

from books import Books, Fault
from joins import compact

KINDS = (
    "balance operating budget position activities reconcile changes classes components major"
).split()
NO_DOOR, BY_DAY = KINDS[7:], KINDS[:5]
YEARS, FAULTS = 3, 3


class Calendar:
    """The months of fiscal years, as 2026-07, by the chart."""

    def __init__(self, chart):
        self.first_year, self.first_month = chart["first_year"], chart["first_month"]

    def year(self, day):
        return int(day[:4]) + (int(day[5:7]) >= self.first_month > 1)

    def months(self, year):
        start = (year - (self.first_month > 1)) * 12 + self.first_month - 1
        return [month_of(start + place) for place in range(12)]

    def after(self, closed):
        """The month behind the last closed one; where none is closed, the first of all."""
        if not closed:
            return self.months(self.first_year)[0]
        return month_of(int(closed[-1][:4]) * 12 + int(closed[-1][5:]))


def month_of(count):
    return f"{count // 12:04}-{count % 12 + 1:02}"


def end_of(month):
    return f"{month}-{calendar.monthrange(int(month[:4]), int(month[5:]))[1]}"


def name_of(year, kind, at):
    return f"month-{at}.json" if kind == "month" else f"statement-{year}-{kind}-{at}.json"


class Kept:
    """`days` has the day of each entry, rising; `closed` what each close closed, and its place."""

    def __init__(self, books, folder, chart, days, closed):
        self.books, self.folder, self.calendar = books, folder, Calendar(chart)
        self.days, self.closed, self.count, self.names = days, closed, len(days), {}

    def wanted(self):
        """What is to be kept: its words, its year, kind, and day or place, how many entries it is
        asked of, and what it depends on.
        """
        years = sorted({self.calendar.year(day) for day in self.days})[-YEARS:]
        for year in years[::-1]:
            for kind in NO_DOOR:
                yield ["statement", str(year), kind], (year, kind, "now"), self.count, self.count
            for month in self.calendar.months(year)[::-1]:
                if month <= self.days[-1][:7]:
                    yield from self.of_month(year, month)
        for closed, place in self.closed[::-1]:
            year = self.calendar.year(closed) if "-" in closed else int(closed)
            for kind in KINDS if year in years else ():
                yield ["statement", str(year), kind], (year, kind, place), place, place

    def of_month(self, year, month):
        day = end_of(month)
        through = bisect.bisect_right(self.days, day)
        yield ["month", month], (year, "month", month), self.count, [through, len(self.closed)]
        for kind in BY_DAY:
            words = ["statement", str(year), kind, "--through", day]
            yield words, (year, kind, day), self.count, through

    def make(self, until):
        """Makes what is missing or old, until a moment, and at least one. Gives whether all is
        there.
        """
        kept = {tuple(head): said for *head, said in self.folder.value("kept.json") or []}
        wanted, faults = list(self.wanted()) if self.count else [], 0
        old = [each for each in wanted if kept.get(each[1], [0, None])[1] != each[3]]
        for words, head, entries, mark in sorted(old, key=lambda each: kept.get(each[1], [0])[0]):
            if self.put(words, name_of(*head), entries):
                kept[head] = [entries, mark]
            else:
                faults += 1
            if faults == FAULTS or time.monotonic() >= until:
                break
        # What depends on no entry that was added counts all of them.
        for _, head, entries, mark in wanted:
            if head in kept and kept[head][1] == mark:
                kept[head] = [entries, mark]
        heads = [head for _, head, _, _ in wanted if head in kept]
        self.folder.write("kept.json", compact([[*head, kept[head]] for head in heads]))
        self.folder.keep(("statement-", "month-"), {name_of(*head) for head in heads})
        return all(kept.get(head, [0, None])[1] == mark for _, head, _, mark in wanted)

    def put(self, words, name, entries):
        books = Books(self.books.program, self.books.journal, entries)
        try:
            table = {"names": self.named(words), "rows": list(books.fields(*words))}
        except Fault as fault:
            print(f"lists: {name} isn't made: {fault}", file=sys.stderr)
            return False
        self.folder.write(name, compact(table))
        return True

    def named(self, words):
        """The names of columns are those of the kind, whatever the year and the day."""
        kind = words[2] if words[0] == "statement" else words[0]
        if kind not in self.names:
            self.names[kind] = self.books.names(*words)
        return self.names[kind]
