"""What the page prints of paper, joined of rows that joins.py reads; and what debts pay next.

    YEAR-orders.json     of a calendar year's days: place, day, desk, key, vendor, order, then its
                         items: fund, department, object, cents, and what changes added to them
    YEAR-invoices.json   place, day, desk, key, vendor, cents, voucher, then the place of the entry
                         that ended it, or 0, and its state then, or nothing
    YEAR-receipts.json   place, day, desk, key, bill (0 for none), payer (0 for none), source, cents
    debts.json           of each bond or lease that isn't paid off: the day of its next payment,
                         what that pays of principal and of interest, and the fund, department and
                         objects of its last payment, or none

Which object a payment charged for principal and which for interest its call alone tells.
"""
from collections import defaultdict

HEAD = ("place", "day", "desk", "key")


class Papers:
    def __init__(self):
        self.years = {kind: defaultdict(list) for kind in ("orders", "invoices", "receipts")}
        self.orders, self.bills, self.due, self.accounts = {}, {}, {}, {}

    def put(self, kind, paper):
        self.years[kind][int(paper[1][:4])].append(paper)
        return paper

    def document(self, its, places):
        """A document, with the places of its entries."""
        head = [places[0], *(its[name] for name in HEAD[1:]), its["party"] or 0]
        if its["kind"] == "order":
            order = self.orders.get(its["number"]) or self.put("orders", [*head, its["number"], []])
            self.orders[its["number"]] = order
            order[6].append([its[name] for name in ("fund", "dept", "object", "amount")] + [0])
        elif its["kind"] == "voucher":
            ended = [places[-1], its["state"]] if len(places) > 1 else [0, ""]
            self.put("invoices", [*head, its["amount"], its["number"], *ended])
        elif its["kind"] == "bill":
            self.bills.update(
                (place, [its["number"], its["party"] or 0, its["source"]]) for place in places
            )

    def ledger(self, its):
        """A row of the ledger."""
        if its["call"] == "change_order" and its["document"] in self.orders:
            self.orders[its["document"]][6][its["item"] - 1][4] += its["ordered"]
        elif its["call"] == "receive":
            self.receipt(its, [0, 0, its["source"]], its["received"])

    def entry(self, its):
        """An entry; what it collected is of a bill."""
        if its["call"] == "collect":
            self.receipt(its, self.bills[its["place"]], its["amount"])

    def receipt(self, its, what, amount):
        self.put("receipts", [*(its[name] for name in HEAD), *what, amount])

    def open(self, its):
        """A row of what is open."""
        if its["due"] is not None:
            parts = [its["due"] - its["interest"], its["interest"]]
            self.due[its["number"]] = [its["next"], parts]

    def payment(self, call):
        """A call that pays a debt."""
        parts = ("fund", "dept", "principal", "interest")
        self.accounts[call["bond"]] = [call[part] for part in parts]

    def files(self):
        """Each file's name, with its rows."""
        years = {
            f"{year}-{kind}.json": rows
            for kind, years in self.years.items()
            for year, rows in years.items()
        }
        return {
            **years,
            "debts.json": {
                number: [*due, self.accounts.get(number, [])] for number, due in self.due.items()
            },
        }

    def state(self):
        return {kind: sorted(years) for kind, years in self.years.items()}
