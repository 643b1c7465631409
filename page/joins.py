"""Joins the lists of `books` for lists.py: a document with its items, and a row of the ledger with
what its entry was to its document. It adds up the items of one document alone, and follows no rule.

A row of YEAR-documents.json has the columns of `books documents`, and one of YEAR-fund-ID.json
those of LEDGER: `kind` is the document's, and `word` what `books documents` says of the entry.
"""
import json
from collections import defaultdict

ENTRY = "place day desk key call amount number".split()
DOCUMENT = (
    "kind number item day desk key party fund dept object line source year amount left state paid"
    " run entries"
).split()
LEDGER = (
    "place day desk key call kind document item word party fund dept object line source year"
    " appropriated ordered held spent received"
).split()
NUMBERS = set("number item desk party fund dept object line source year place document".split())
AMOUNTS = set(
    "amount left open due interest appropriated ordered held spent received".split()
)
OPEN = ("requisition", "order", "voucher", "bill", "bond", "asset")
# What the page calls what `books` lists under these words.
PAGE = {"issue": "bond", "lease": "bond"}
# The kinds that a row of the ledger may be of, where its number alone doesn't tell. What is held is
# a requisition's.
KINDS = ("voucher", "bill", "bond", "lease", "order")
# The kinds whose items the ledger alone has.
ITEMS = ("requisition", "voucher")


def typed(row):
    """A row with its numbers as integers, its amounts as cents, and nothing in an empty field."""
    return {name: value_of(name, field) for name, field in row.items()}


def value_of(name, field):
    if not field:
        return None
    if name in NUMBERS:
        return int(field)
    return int(field.replace(".", "")) if name in AMOUNTS else field


def compact(value):
    return json.dumps(value, separators=(",", ":"))


class Joins:
    """Takes entries first, then what is open, documents and the ledger."""

    def __init__(self, papers):
        self.papers = papers
        self.days = []  # of entries
        self.closes = {}  # their places, by desk and key
        self.collected = []
        self.closed = []  # what each close closed, and its place
        self.opened = set()  # what is open, by the page's kind and the number
        self.documents = defaultdict(list)  # of those, by kind and number, a row for each item
        self.items = defaultdict(list)  # of those, too
        self.words = {}  # what an entry was to a document: by place, kind, number and item
        self.by_year = {kind: defaultdict(list) for kind in ("entries", "documents")}
        self.ledgers = defaultdict(list)

    # ---- entries

    def entry(self, row):
        self.days.append(row["day"])
        its = typed(row)
        if its["call"] == "close":
            self.closes[its["desk"], its["key"]] = its["place"]
        if its["call"] == "collect":
            self.collected.append(its)
        self.put("entries", its, ENTRY)

    def put(self, kind, its, columns):
        self.by_year[kind][its["day"][:4]].append(compact([its[name] for name in columns]))

    def payment(self, line):
        """A call as `books` prints it, which pays a debt."""
        self.papers.payment(json.loads(line))

    def open(self, row):
        its = typed(row)
        self.papers.open(its)
        if its["call"] == "close":
            self.closed.append((its["closed"], self.closes[its["desk"], its["key"]]))
        else:
            self.opened.add((PAGE.get(its["call"], its["call"]), its["number"]))

    # ---- documents

    def document(self, row):
        its = typed(row)
        kind, number, item = its["kind"], its["number"], its["item"] or 0
        words = [each.rsplit(" ", 1) for each in row["entries"].split("; ")]
        self.words.update(((int(place), kind, number, item), word) for word, place in words)
        self.papers.document(its, [int(place) for _, place in words])
        # `books open` has no assets, so each asset is shown, with its state.
        if kind == "asset" or (PAGE.get(kind, kind), number) in self.opened:
            self.documents[kind, number].append(its)
        self.put("documents", its, DOCUMENT)

    def ledger(self, row):
        its = typed(row)
        self.papers.ledger(its)
        its["kind"], its["word"] = self.said_of(its)
        name = its["kind"], its["document"]
        if its["kind"] == its["call"] and name in self.documents:
            amount = its["held"] + its["spent"]
            self.items[name].append([its["fund"], its["dept"], its["object"], amount])
        self.ledgers[its["year"], its["fund"]].append(compact([its[name] for name in LEDGER]))

    def said_of(self, its):
        """The kind of the document that a row is of, and what the entry was to it."""
        place, number = its["place"], its["document"]
        for kind in ("requisition",) if its["held"] else KINDS:
            for item in (its["item"] or 0, 0):
                word = self.words.get((place, kind, number, item))
                if word:
                    return kind, word
        return None, None

    def shown(self, kind, rows):
        """What is open, by the rows of its items."""
        first, parts = rows[0], ("fund", "dept", "object", "amount")
        names = ("number", "day", "desk", "key", "year", "source", "fund", "state")
        of_rows = [[row[name] for name in parts] for row in rows]
        return {
            **{name: first[name] for name in names},
            "kind": kind,
            "who": first["party"],
            "cents": sum(row["amount"] for row in rows),
            "left": sum(row["left"] for row in rows),
            "items": self.items[kind, first["number"]] if kind in ITEMS else of_rows,
        }

    # ---- files

    def open_documents(self):
        """By the page's kinds and rising number."""
        found = {kind: [] for kind in OPEN}
        for (kind, _), rows in sorted(self.documents.items(), key=lambda each: each[0][1]):
            found[PAGE.get(kind, kind)].append(self.shown(kind, rows))
        return found

    def years(self):
        years = {kind: sorted(map(int, years)) for kind, years in self.by_year.items()}
        return {**years, "funds": sorted(self.ledgers)}

    def files(self):
        """Each file's name, with its text."""
        files = {}
        for kind, years in self.by_year.items():
            files |= {f"{year}-{kind}.json": rows for year, rows in years.items()}
        files |= {f"{year}-fund-{fund}.json": rows for (year, fund), rows in self.ledgers.items()}
        return {name: f"[{','.join(rows)}]" for name, rows in files.items()}
