#!/usr/bin/env python3
"""Makes what the page can't ask of a door, of what `books` prints of a journal:

    lists.py BOOKS JOURNAL FOLDER [VENDORS [SECONDS]]

    chart.json            the chart
    state.json            the entries, the last day, the closed months and years, the files that
                          there are, when this was made, and what couldn't be read
    open.json             what is open, by kind, each with its items; and every asset
    YEAR-entries.json     of the days of a calendar year: place, day, desk, key, call, cents, number
    YEAR-documents.json   of the same days: the columns of `books documents`, with cents
    YEAR-invoices.json    and other papers: papers.py says their columns
    YEAR-fund-ID.json     the ledger of a fiscal year and fund: joins.py says its columns
    kept.json             the statements and months that are kept (kept.py), each a file of its own
    vendors.json          the names of VENDORS, as vendors.py reads them, and what is wrong with it

SECONDS, 45 where they aren't said, behind its start it begins no further statement.

What is open, what a document is and what an entry moved `books` says; here columns are joined
alone. A file is written beside and moved into its place, where its contents changed. Lists are made
anew where the journal has changed. A row that can't be read is skipped, and said on standard error
and in state.json, with the time. All others are listed.
"""
import datetime
import json
import os
import sys
import time
import tomllib

import papers
import vendors
from books import Books, Fault
from joins import compact, Joins
from kept import Calendar, Kept

FORM = 2  # of the files; another number makes all of them anew
SECONDS = 45  # since lists are made each minute
SKIPS = 100  # of rows that can't be read, so many are said; all are counted
TABLES = ("function", "fund", "department", "object", "source", "line", "desk")


class Folder:
    """Where the files of the page stand."""

    def __init__(self, path):
        self.path = path

    def read(self, name):
        try:
            with open(os.path.join(self.path, name), encoding="utf-8") as file:
                return file.read()
        except OSError:
            return None

    def value(self, name):
        try:
            return json.loads(self.read(name) or "null")
        except ValueError:
            return None

    def write(self, name, text):
        """Puts a file into its place whole, where it is another one."""
        if self.read(name) == text:
            return
        new = os.path.join(self.path, name + ".new")
        with open(new, "w", encoding="utf-8") as file:
            file.write(text)
        os.replace(new, os.path.join(self.path, name))

    def keep(self, prefixes, names):
        """Takes away files that begin so and aren't among these."""
        for name in os.listdir(self.path):
            if name.startswith(prefixes) and name not in names:
                os.remove(os.path.join(self.path, name))


class Skips:
    """What of the books couldn't be read, with the time."""

    def __init__(self):
        self.made = datetime.datetime.now(datetime.timezone.utc).isoformat(timespec="seconds")
        self.count, self.said = 0, []

    def each(self, what, rows, take):
        """Gives each row to a function. One that it can't take is skipped."""
        for row in rows:
            try:
                take(row)
            except Exception as fault:  # pylint: disable=broad-except
                self.skip(what, row, fault)

    def skip(self, what, row, fault):
        self.count += 1
        if self.count > SKIPS:
            return
        row = row if isinstance(row, dict) else {}
        key, number = row.get("key", ""), row.get("number") or row.get("place") or ""
        name = f"{row.get('kind') or what} {number}".strip()
        self.said.append({"what": name, "key": key, "time": self.made})
        print(f"lists: {self.made}: {name} ({key}) can't be read: {fault!r}", file=sys.stderr)

    def state(self):
        return {"made": self.made, "skips": self.count, "skipped": self.said}


def pays_debt(line):
    """Whether a call pays a debt. No key has such marks: its quotes are escaped."""
    return '"call":"pay_due"' in line


def lists_of(books, folder):
    """Makes all lists anew, and gives the chart, the days of entries, and what was closed."""
    skips, paper = Skips(), papers.Papers()
    joins = Joins(paper)
    chart = {**{table: [] for table in TABLES}, **tomllib.loads(books.chart())}
    skips.each("entry", books.rows("list"), joins.entry)
    books.entries = len(joins.days)
    skips.each("open document", books.rows("open"), joins.open)
    skips.each("document", books.rows("documents"), joins.document)
    skips.each("ledger row of entry", books.rows("ledger"), joins.ledger)
    skips.each("receipt of entry", joins.collected, paper.entry)
    skips.each("payment of a debt", filter(pays_debt, books.lines("calls")), joins.payment)
    values = {"chart.json": chart, "open.json": joins.open_documents(), **paper.files()}
    files = joins.files() | {name: compact(value) for name, value in values.items()}
    for name, text in files.items():
        folder.write(name, text)
    state = state_of(joins, Calendar(chart)) | skips.state()
    folder.write("state.json", compact(state | {"files": {**joins.years(), **paper.state()}}))
    return chart, sorted(joins.days), joins.closed


def state_of(joins, calendar):
    months = [closed for closed, _ in joins.closed if "-" in closed]
    return {
        "entries": len(joins.days),
        "last": joins.days[-1] if joins.days else "",
        "months": len(months),
        "years": len(joins.closed) - len(months),
        "next": calendar.after(months),
    }


def stamp(journal):
    """What tells whether the journal changed, or what is made of it."""
    found = os.stat(journal)
    return [found.st_size, found.st_mtime_ns, found.st_ino, FORM]


def name_vendors(folder, path=None):
    """Takes the names of vendors. What is wrong with their file is said each time; the old names
    stay.
    """
    names = vendors.taken(path, folder.path)
    if names["fault"]:
        said = f"{names['fault']}. The names that were read before stay."
        print(f"lists: {path}: {said}", file=sys.stderr)
    folder.write("vendors.json", compact(names))


def main():
    if len(sys.argv) not in (4, 5, 6):
        sys.exit(__doc__)
    books, folder = Books(*sys.argv[1:3]), Folder(sys.argv[3])
    seconds = int(sys.argv[5]) if len(sys.argv) == 6 else SECONDS
    name_vendors(folder, *sys.argv[4:5])
    began = time.monotonic()
    now = stamp(books.journal)
    if folder.value("stamp") == [now, True]:
        return
    chart, days, closed = lists_of(books, folder)
    # The stamp was taken before the journal was read, so what was added since is found next time.
    is_whole = Kept(books, folder, chart, days, closed).make(began + seconds)
    folder.write("stamp", compact([now, is_whole]))
    print(f"lists: {len(days)} entries")


if __name__ == "__main__":
    try:
        main()
    except (Fault, OSError) as fault:
        sys.exit(f"lists: {fault}")
