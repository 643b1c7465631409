"""The lists of the page (page/lists.py) of the journal in a folder, beside what `books` says:

    listed.py books BOOKS FOLDER           what is open, each document, the ledger of each line, and
                                           what the next payment of a debt comes to
    listed.py skips BOOKS FOLDER WHAT..    where rows can't be read, that is said, with the time

It says the first difference, with status 1.
"""
import datetime
import json
import os
import subprocess
import sys
from collections import Counter

from records import rows_of

HERE = os.path.dirname(os.path.abspath(__file__))
TOP = os.path.dirname(os.path.dirname(HERE))

PAGE = {"issue": "bond", "lease": "bond"}  # what the page calls what `books` lists
SUMS = {"final": -5, "on_order": -4, "actual": -2}  # of a line, in the columns of its ledger


class Lists:
    def __init__(self, books, folder):
        self.books, self.folder, self.out = books, folder, os.path.join(folder, "lists")
        os.makedirs(self.out, exist_ok=True)
        for name in os.listdir(self.out):
            os.remove(os.path.join(self.out, name))
        words = [os.path.join(TOP, "page", "lists.py"), books, os.path.join(folder, "fund.journal")]
        # Without names of vendors, and with a single statement.
        done = subprocess.run(
            [sys.executable, *words, self.out, "", "0"], capture_output=True, text=True
        )
        if done.returncode:
            sys.exit(f"listed: lists.py ended with {done.returncode}: {done.stderr.strip()}")
        self.said = [line for line in done.stderr.splitlines() if "can't be read" in line]
        self.state, self.open = self.file("state.json"), self.file("open.json")

    def file(self, name):
        with open(os.path.join(self.out, name), encoding="utf-8") as file:
            return json.load(file)

    def lines(self, *words):
        journal = os.path.join(self.folder, "fund.journal")
        done = subprocess.run([self.books, *words, journal], stdout=subprocess.PIPE, check=True)
        return done.stdout.decode().splitlines()

    def rows(self, *words):
        return rows_of(self.books, os.path.join(self.folder, "fund.journal"), *words)

    def of_years(self, kind):
        return [
            row for year in self.state["files"][kind] for row in self.file(f"{year}-{kind}.json")
        ]


def same(what, found, wanted):
    if found != wanted:
        sys.exit(f"listed: {what}: {found} and not {wanted}")


def cents(text):
    return int(text.replace(".", ""))


def opened(lists):
    """What is open, with what is left of it, and each asset."""
    rows = lists.rows("open")
    left = Counter()
    for row in rows:
        if row["call"] != "close":
            left[PAGE.get(row["call"], row["call"]), int(row["number"])] += cents(row["open"])
    listed = {
        (kind, each["number"]): each["left"]
        for kind, found in lists.open.items()
        if kind != "asset"
        for each in found
    }
    # A requisition's or an order's items are open or not each by itself.
    same("what is open", listed, dict(left))
    assets = [
        (int(row["number"]), cents(row["amount"]), row["state"])
        for row in lists.rows("documents", "--kind", "asset")
    ]
    same(
        "assets",
        [(each["number"], each["cents"], each["state"]) for each in lists.open["asset"]],
        assets,
    )
    closed = [row["closed"] for row in rows if row["call"] == "close"]
    same("closed months", lists.state["months"], sum("-" in each for each in closed))


def documents(lists):
    wanted = Counter(
        (row["kind"], int(row["number"]), row["item"], row["state"], row["entries"])
        for row in lists.rows("documents")
    )
    same(
        "documents",
        Counter(
            (row[0], row[1], str(row[2] or ""), row[15], row[18])
            for row in lists.of_years("documents")
        ),
        wanted,
    )
    same(
        "entries",
        sorted(row[0] for row in lists.of_years("entries")),
        list(range(1, len(lists.rows("list")) + 1)),
    )


def lines(lists):
    """The rows of each line come to what the budgetary comparison has of it."""
    found = Counter()
    for year, fund in lists.state["files"]["funds"]:
        for row in lists.file(f"{year}-fund-{fund}.json"):
            found.update(
                {
                    (year, row[13], name): row[place]
                    for name, place in SUMS.items()
                    if row[13] is not None
                }
            )
    wanted = {
        (year, int(row["line"]), name): cents(row[name])
        for year in sorted({year for year, _ in lists.state["files"]["funds"]})
        for row in lists.rows("statement", str(year), "budget")
        if row["line"]
        for name in SUMS
    }
    same(
        "the ledger of lines",
        {key: amount for key, amount in found.items() if amount},
        {key: amount for key, amount in wanted.items() if amount},
    )


def debts(lists):
    """What the next payment of each debt pays, and the accounts of its last one."""
    accounts = {}
    for call in map(json.loads, lists.lines("calls")):
        if call["call"] == "pay_due":
            parts = ("fund", "dept", "principal", "interest")
            accounts[call["bond"]] = [call[part] for part in parts]
    wanted = {
        row["number"]: [
            row["next"],
            [cents(row["due"]) - cents(row["interest"]), cents(row["interest"])],
            accounts.get(int(row["number"]), []),
        ]
        for row in lists.rows("open")
        if row["call"] in PAGE
    }
    same("what debts pay next", lists.file("debts.json"), wanted)


def skips(lists, *skipped):
    moment = datetime.datetime.fromisoformat(lists.state["made"])
    if not 0 <= (datetime.datetime.now(datetime.timezone.utc) - moment).total_seconds() < 600:
        sys.exit(f"listed: made at {lists.state['made']}")
    same(
        "skipped",
        [(each["what"], each["time"]) for each in lists.state["skipped"]],
        [(what, lists.state["made"]) for what in skipped],
    )
    same("the count of skipped", lists.state["skips"], len(skipped))
    same(
        "what is said",
        [
            line.startswith(f"lists: {lists.state['made']}: {what} (")
            for what, line in zip(skipped, lists.said)
        ],
        [True] * len(skipped),
    )
    same("the lines that are said", len(lists.said), len(skipped))


if __name__ == "__main__":
    made = Lists(*sys.argv[2:4])
    skips(made, *sys.argv[4:])
    if sys.argv[1] == "books":
        opened(made)
        documents(made)
        lines(made)
        debts(made)
