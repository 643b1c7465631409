"""What each entry of a history moves: a row for each thing that it adds to a control line or a source, and its posts.

A row is the difference between what an item of a document stands for before the entry and behind it, so nothing here follows a
rule of the budget. `History` is the office with these rows; `AsOf` is what stands of it through a day.
"""
import itertools
from dataclasses import dataclass

from calls import Office

MOVED = ("appropriated", "ordered", "held", "spent", "received")


@dataclass
class Row:
    """What an entry moves of a line or a source in a fiscal year, by one item of a document."""

    place: int
    year: int
    line: int | None = None
    source: int | None = None
    account: tuple = ("", "", "")  # fund, department, object
    document: int | str = ""
    item: int | str = ""
    party: int = 0
    appropriated: int = 0
    ordered: int = 0
    held: int = 0
    spent: int = 0
    received: int = 0

    def moves(self):
        return any(getattr(self, name) for name in MOVED)


@dataclass
class Part:
    """What an item of a document stands for."""

    account: tuple
    line: int
    year: int
    state: str
    ordered: int = 0
    held: int = 0
    spent: int = 0


def account_of(item):
    return item["fund"], item["dept"], item["object"]


class History(Office):
    """The office with the rows of its entries, oldest first, and the places (from 1) of its posts and its budget."""

    def __init__(self, chart):
        super().__init__(chart)
        self.rows = []
        self.places = {"fund": [], "gov": []}  # of each post
        self.budgeted = []  # (place, "line" or "source", its number, year, amount): what was adopted
        self.accounts = []  # of each requisition's items

    def accept(self, call):
        touched = self.touched(call) if self.is_new(call) else []
        before = {each: self.parts(*each) for each in touched}
        place, made = super().accept(call)
        if place is None:
            self.note(call, made, before)
        return place, made

    def is_new(self, call):
        return (call["desk"], call["key"]) not in self.keys

    def note(self, call, made, before):
        place = len(self.entries)
        if call["call"] == "requisition":
            self.accounts.append([account_of(item) for item in call["items"]])
        posted = {basis: posts[len(self.places[basis]) :] for basis, posts in self.posts.items()}
        for basis, posts in posted.items():
            self.places[basis] += [place] * len(posts)
        rows = [*self.of_budget(call), *self.of_items(call, made, before), *self.of_spending(call, made), *self.of_sources(call, posted["fund"])]
        for row in rows:
            row.place = place
        self.rows += [row for row in rows if row.moves()]

    # ---- the council

    def of_budget(self, call):
        def row(line, amount):
            its = self.chart["line"][line]
            return Row(0, call["year"], line, account=(its["fund"], its["dept"], its.get("object", "")), appropriated=amount)

        if call["call"] == "adopt":
            for kind in ("line", "source"):
                rows = call[kind + "s" if kind == "line" else "estimates"]
                self.budgeted += [(len(self.entries), kind, each[kind], call["year"], each["amount"]) for each in rows]
            return [row(each["line"], each["amount"]) for each in call["lines"]]
        if call["call"] == "amend":
            return [row(call["line"], call["by"])]
        if call["call"] == "transfer":
            return [row(call["from"], -call["amount"]), row(call["to"], call["amount"])]
        return []

    # ---- the items of documents

    def touched(self, call):
        """The documents whose items the call can move."""
        kind = call["call"]
        if kind == "close" and call["what"] == "month":
            return [("requisition", n + 1) for n in range(len(self.requisitions))] + [("order", n + 1) for n in range(len(self.orders))]
        items = call["items"] if kind == "voucher" else []
        if kind == "void_voucher" and 1 <= call["voucher"] <= len(self.vouchers):
            items = self.vouchers[call["voucher"] - 1]["items"]
        orders = sorted({item["order"] for item in items if "order" in item})
        named = [(name, call[name]) for name in ("requisition", "order", "voucher") if name in call]
        return [each for each in [*named, *(("order", order) for order in orders)] if 1 <= each[1] <= len(self.of(each[0]))]

    def of(self, kind):
        return getattr(self, kind + "s")

    def parts(self, kind, number):
        its = self.of(kind)[number - 1]
        if kind == "requisition":
            stands, accounts = its["state"] == "open", self.accounts[number - 1]
            return [Part(a, i["line"], its["year"], its["state"], held=i["amount"] * stands) for a, i in zip(accounts, its["items"])]
        if kind == "order":
            return [Part(i["account"], i["line"], i["year"], self.item_state(i), ordered=self.open_of(i)) for i in its["items"]]
        stands = its["state"] != "void"
        return [Part(account_of(i), i["line"], its["year"], its["state"], spent=i["amount"] * stands) for i in its["items"]]

    def of_items(self, call, made, before):
        """The rows of the items of documents that were there, and of a new one. What an invoice takes off an order, or a void
        opens of it again, stands in the row of the invoice's item."""
        new = [(kind, made[kind]) for kind in ("requisition", "order", "voucher") if kind in made and call["call"] == kind]
        rows = {each: self.differences(each, before.get(each), self.party_of(call, each)) for each in [*before, *new]}
        for kind, number in list(rows):
            if kind == "voucher":
                for item, its in zip(self.vouchers[number - 1]["items"], rows[kind, number]):
                    if "order" in item:
                        its[0].ordered = sum(row.ordered for row in rows["order", item["order"]][item["item"] - 1])
                rows = {each: of for each, of in rows.items() if each[0] != "order"}
        return [row for of in rows.values() for its in of for row in its]

    def differences(self, document, before, party):
        """Of each item its rows: one, or two where it goes on into another year."""
        found = []
        for place, now in enumerate(self.parts(*document), 1):
            was = before[place - 1] if before else Part(now.account, now.line, now.year, "")
            head = dict(account=now.account, document=document[1], item=place, party=party)
            if (was.line, was.year) == (now.line, now.year):
                moved = {name: getattr(now, name) - getattr(was, name) for name in ("ordered", "held", "spent")}
                found.append([Row(0, now.year, now.line, **head, **moved)])
            else:
                left = Row(0, was.year, was.line, **head, ordered=-was.ordered)
                found.append([left, Row(0, now.year, now.line, **head, ordered=now.ordered, appropriated=now.ordered)])
        return found

    def party_of(self, call, document):
        """The vendor of what is ordered or bought. An order has its vendor also where it releases what was held."""
        kind, number = document
        if kind == "requisition":
            return call.get("vendor", 0)
        return self.orders[number - 1]["vendor"] if kind == "order" else self.parties("voucher", "vendor")[number - 1]

    def parties(self, kind, name):
        """The vendors, or payers, of documents of a kind, by number."""
        return [call[name] for call, _ in self.entries if call["call"] == kind]

    def creditors(self):
        """The vendors of bonds, which have none, and of leases, by number."""
        return [call.get("vendor", 0) for call, _ in self.entries if call["call"] in ("issue", "lease")]

    # ---- debt, leave and leases

    def of_spending(self, call, made):
        if call["call"] == "pay_due":
            amounts = [(call[part], int(made[part])) for part in ("principal", "interest")]
            document, item, party = call["bond"], self.bonds[call["bond"] - 1]["paid"], self.creditors()[call["bond"] - 1]
            year = self.year_at(self.due(self.bonds[document - 1], item)[0])
        elif call["call"] == "leave" and call["what"] == "mature":
            amounts, year, document, item, party = [(call["object"], call["amount"])], self.year_of_call(call), "", "", 0
        elif call["call"] == "lease":
            amounts, year, document, item, party = [(call["object"], call["amount"])], self.year_of_call(call), made["bond"], "", call["vendor"]
        else:
            return []
        accounts = [((call["fund"], call["dept"], each), amount) for each, amount in amounts]
        return [
            Row(0, year, self.line_of(*account, year), account=account, document=document, item=item, party=party, spent=amount)
            for account, amount in accounts
        ]

    # ---- sources

    def of_sources(self, call, posts):
        bill = self.bills[call["bill"] - 1] if call["call"] == "collect" else None
        for year, fund, account, amount in posts:
            if 400000 < account <= 409999:
                row = Row(0, year, source=account - 400000, account=(fund, "", ""), received=-amount)
                yield row if bill is None else self.with_bill(row, call)

    def with_bill(self, row, call):
        row.document = call["bill"]
        row.party = self.parties("bill", "payer")[call["bill"] - 1]
        return row

    # ---- what stands through a day

    def on_month(self):
        """The calendar year and month of the last entry, or of the first day."""
        if not self.entries:
            return self.month_at(0)
        day = self.entries[-1][0]["on"]
        return int(day[:4]), int(day[5:7])

    def through(self, day):
        return AsOf(self, {place for place, (call, _) in enumerate(self.entries, 1) if day is None or call["on"] <= day})


class AsOf(Office):
    """What a history comes to by the posts and moves of some of its entries: its statements that need no register."""

    def __init__(self, history, places):
        super().__init__(history.chart)
        self.rows = [row for row in history.rows if row.place in places]
        for basis, posts in history.posts.items():
            self.posts[basis] = [post for post, place in zip(posts, history.places[basis]) if place in places]
        self.estimates = {(number, year): amount for place, kind, number, year, amount in history.budgeted if kind == "source" and place in places}
        self.originals = {(number, year): amount for place, kind, number, year, amount in history.budgeted if kind == "line" and place in places}
        keyed = sorted(self.rows, key=lambda row: (row.line is None, row.line or 0, row.year))
        self.of_lines = {key: list(rows) for key, rows in itertools.groupby(keyed, key=lambda row: (row.line, row.year))}

    def numbers(self, line, year):
        rows = self.of_lines.get((line, year), [])
        its = {name: sum(getattr(row, name) for row in rows) for name in MOVED}
        room = its["appropriated"] - its["held"] - its["ordered"] - its["spent"]
        return dict(
            original=self.originals.get((line, year), 0), appropriated=its["appropriated"], held=its["held"],
            encumbered=its["ordered"], expended=its["spent"], room=room,
        )
