"""The documents of a history, as `books documents` lists them: a row for each number that was ever drawn, with what became of it.

A row has what the document's look says, and the entries that made it so: docs/BOOKS.md ("documents").
"""
from collections import Counter
from dataclasses import dataclass

from moves import History
from statements import money

DOCUMENTS = (
    "kind number item day desk key party fund dept object line source year amount left state paid run entries".split()
)
KINDS = ("requisition", "order", "voucher", "bill", "asset", "bond", "lease", "loan")
DRAWS = ("requisition", "order", "voucher", "bill", "asset", "bond")


class Documents(History):
    """A history that keeps, for each document or order's item, which entries made it what it is."""

    def __init__(self, chart):
        super().__init__(chart)
        self.made_by = {}  # (kind, number, item): [word, place]
        self.paid_by = {}  # (kind, number): the place of its last payment or collection
        self.lent = {}  # by the place of its entry

    def note(self, call, made, before):
        super().note(call, made, before)
        for kind, number, item, word in self.events(call, made, before):
            self.made_by.setdefault((kind, number, item), []).append((word, len(self.entries)))
            if word in ("paid", "collected", "repaid"):
                self.paid_by[kind, number] = len(self.entries)

    # ---- what an entry does to documents

    def events(self, call, made, before):
        events = getattr(self, "by_" + call["call"], None)
        return list(events(call, made, before)) if events else []

    def by_requisition(self, call, made, before):
        yield "requisition", made["requisition"], 0, "entered"

    def by_withdraw(self, call, made, before):
        yield "requisition", call["requisition"], 0, "withdrawn"

    def by_order(self, call, made, before):
        if "requisition" in call:
            yield "requisition", call["requisition"], 0, "ordered"
        for item in range(1, len(call["items"]) + 1):
            yield "order", made["order"], item, "entered"

    def by_change_order(self, call, made, before):
        yield "order", call["order"], call["item"], "changed"

    def by_cancel_order(self, call, made, before):
        for item in range(1, len(before["order", call["order"]]) + 1):
            yield "order", call["order"], item, "cancelled"

    def by_voucher(self, call, made, before):
        yield "voucher", made["voucher"], 0, "entered"
        for item in call["items"]:
            if "order" in item:
                yield "order", item["order"], item["item"], "charged"
        for asset in made["assets"]:
            yield "asset", asset, 0, "entered"

    def by_void_voucher(self, call, made, before):
        yield "voucher", call["voucher"], 0, "voided"
        for item in self.vouchers[call["voucher"] - 1]["items"]:
            if "order" in item:
                yield "order", item["order"], item["item"], "reopened"
        for number, asset in enumerate(self.assets, 1):
            if asset["voucher"] == call["voucher"]:
                yield "asset", number, 0, "voided"

    def by_pay(self, call, made, before):
        for voucher in call["vouchers"]:
            yield "voucher", voucher, 0, "paid"

    def by_bill(self, call, made, before):
        yield "bill", made["bill"], 0, "entered"

    def by_collect(self, call, made, before):
        yield "bill", call["bill"], 0, "collected"

    def by_write_off(self, call, made, before):
        yield "bill", call["bill"], 0, "written off"

    def by_asset(self, call, made, before):
        yield ("asset", made["asset"], 0, "entered") if call["what"] == "donate" else ("asset", call["asset"], 0, "disposed")

    def by_issue(self, call, made, before):
        yield "bond", made["bond"], 0, "entered"

    def by_lease(self, call, made, before):
        yield "asset", made["asset"], 0, "entered"
        yield "bond", made["bond"], 0, "entered"

    def by_pay_due(self, call, made, before):
        yield "bond", call["bond"], 0, "paid"

    def by_interfund(self, call, made, before):
        """A loan's number is the place of its entry. A repayment stands at the last loan before it between the two funds."""
        place = len(self.entries)
        if call["what"] == "loan":
            self.lent[place] = dict(giver=call["from"], taker=call["to"], amount=call["amount"])
            yield "loan", place, 0, "entered"
        if call["what"] == "repay":
            yield "loan", max(number for number, loan in self.lent.items() if (loan["taker"], loan["giver"]) == (call["from"], call["to"])), 0, "repaid"

    def by_close(self, call, made, before):
        for (kind, number), parts in before.items():
            for item, (was, now) in enumerate(zip(parts, self.parts(kind, number)), 1):
                if now.state != was.state and (kind == "order" or item == 1):
                    yield kind, number, item if kind == "order" else 0, now.state
                elif now.year != was.year:
                    yield kind, number, item, "carried"

    # ---- what a document is of

    def entered_by(self, kind, number):
        """The entry that entered a document: its place, and its call."""
        place = next(place for word, place in self.made_by[kind, number, 1 if kind == "order" else 0] if word == "entered")
        return place, self.entries[place - 1][0]


@dataclass
class DocumentFilter:
    """The options of `documents`."""

    kind: str | None = None
    party: int | None = None
    key: str | None = None
    amount: int | None = None

    def words(self):
        names = ("kind", "party", "key", "amount")
        # So a text may begin with a minus.
        return [f"--{name}={getattr(self, name)}" for name in names if getattr(self, name) is not None]

    def takes(self, row, run):
        return (
            (self.kind is None or row["kind"] == self.kind)
            and (self.party is None or row["party"] == self.party)
            and (self.key is None or self.key in row["key"] or self.key in run)
            and (self.amount is None or row["amount"] == self.amount)
        )

    @staticmethod
    def some_of(history):
        """Filters of the history's own values, and ones that find nothing."""
        rows = [row for row, _ in rows_of(history)]
        yield from (DocumentFilter(kind=kind) for kind in KINDS)
        for row in rows[:: max(1, len(rows) // 8)]:
            yield DocumentFilter(key=row["key"])
            yield DocumentFilter(key=row["key"][1:4] or "x", kind=row["kind"])
            yield DocumentFilter(amount=row["amount"])
            yield DocumentFilter(amount=row["amount"] + 1)
            if row["party"] not in ("", 0):
                yield DocumentFilter(party=row["party"])
        runs = [call["key"] for call, _ in history.entries if call["call"] in ("pay", "collect", "pay_due")]
        yield from (DocumentFilter(key=key) for key in runs[:: max(1, len(runs) // 4)])
        yield DocumentFilter(key="no such key")


def row_of(history, kind, number, item=0, account=(None, None, None), **fields):
    """A row, and the key of its last payment or collection."""
    counted = {"lease": "bond"}.get(kind, kind)
    call, words = history.entered_by(counted, number)[1], history.made_by[counted, number, item]
    payment = history.paid_by.get((counted, number))
    paid = history.entries[payment - 1][0] if payment else {"on": "", "key": ""}
    row = dict.fromkeys(DOCUMENTS, "") | dict(kind=kind, number=number, item=item or "", day=call["on"], desk=call["desk"], key=call["key"])
    row |= dict(zip(("fund", "dept", "object"), account)) | fields
    row |= dict(line=None if None in account else history.line_of(*account, row["year"]), paid=paid["on"], run=paid["key"])
    return row | dict(entries="; ".join("%s %d" % each for each in words)), paid["key"]


def shared(items):
    """The fund, department and object that all items have, each where they have one."""
    return [account[0] if len(set(account)) == 1 else None for account in zip(*((i["fund"], i["dept"], i["object"]) for i in items))]


def rows_of(history):
    for kind in KINDS:
        yield from globals()[kind + "_rows"](history)


def requisition_rows(history):
    for number, its in enumerate(history.requisitions, 1):
        items, amount = history.entered_by("requisition", number)[1]["items"], sum(item["amount"] for item in its["items"])
        fields = dict(year=its["year"], amount=amount, left=amount * (its["state"] == "open"), state=its["state"])
        yield row_of(history, "requisition", number, account=shared(items), **fields)


def order_rows(history):
    for number, order in enumerate(history.orders, 1):
        call = history.entered_by("order", number)[1]
        for place, item in enumerate(order["items"], 1):
            fields = dict(party=order["vendor"], year=item["year"], amount=call["items"][place - 1]["amount"])
            fields |= dict(left=history.open_of(item), state=history.item_state(item))
            yield row_of(history, "order", number, place, item["account"], **fields)


def voucher_rows(history):
    for number, its in enumerate(history.vouchers, 1):
        amount, call = sum(item["amount"] for item in its["items"]), history.entered_by("voucher", number)[1]
        fields = dict(party=call["vendor"], year=its["year"], amount=amount, left=amount * (its["state"] == "open"), state=its["state"])
        yield row_of(history, "voucher", number, account=shared(call["items"]), **fields)


def bill_rows(history):
    for number, its in enumerate(history.bills, 1):
        call, left = history.entered_by("bill", number)[1], history.left_of(its)
        fields = dict(party=call["payer"], source=its["source"]["id"], year=its["levy_year"], amount=its["amount"], left=left)
        yield row_of(history, "bill", number, account=(its["source"]["fund"], None, None), state="open" if left else "settled", **fields)


def asset_rows(history):
    for number, its in enumerate(history.assets, 1):
        call = history.entered_by("asset", number)[1]
        left = (its["cost"] - history.depreciation(its, history.closed)) * (its["state"] == "held")
        fields = dict(party=call.get("vendor", 0), year=its["year"], amount=its["cost"], left=left, state=its["state"])
        yield row_of(history, "asset", number, account=asset_account(history, call, number), **fields)


def asset_account(history, call, number):
    if call["call"] == "asset":
        return None, call["dept"], call["object"]
    if call["call"] == "lease":
        return call["fund"], call["dept"], call["object"]
    first = min(n for n, asset in enumerate(history.assets, 1) if history.entered_by("asset", n)[1] is call)
    item = [item for item in call["items"] if history.is_capital(item)][number - first]
    return item["fund"], item["dept"], item["object"]


def debt_rows(history, is_lease):
    for number, its in enumerate(history.bonds, 1):
        if (its["payable"] == 251000) == is_lease:
            kind, call = "lease" if is_lease else "bond", history.entered_by("bond", number)[1]
            account = (call["fund"], call["dept"], call["object"]) if is_lease else (call["fund"], None, None)
            fields = dict(party=call.get("vendor", 0), year=its["year"], amount=its["amount"], left=history.owed_before(its, its["paid"] + 1))
            yield row_of(history, kind, number, account=account, state="open" if its["paid"] < len(its["principals"]) else "repaid", **fields)


def bond_rows(history):
    return debt_rows(history, False)


def lease_rows(history):
    return debt_rows(history, True)


def loan_rows(history):
    """Of a loan the fund is the one that lends, and the party the one that borrows. What is left is at most what is owed in all."""
    owed = Counter()
    for call, *_ in history.entries:
        if call["call"] == "interfund" and call["what"] == "loan":
            owed[call["from"], call["to"]] += call["amount"]
        if call["call"] == "interfund" and call["what"] == "repay":
            owed[call["to"], call["from"]] -= call["amount"]
    for number, loan in history.lent.items():
        call = history.entries[number - 1][0]
        left = min(loan["amount"], owed[loan["giver"], loan["taker"]])
        fields = dict(party=loan["taker"], year=history.year_of_call(call), amount=loan["amount"], left=left, state="open" if left else "repaid")
        yield row_of(history, "loan", number, account=(loan["giver"], None, None), **fields)


def documents(history, asked):
    for row, run in rows_of(history):
        if asked.takes(row, run):
            shown = row | dict(amount=money(row["amount"]), left=money(row["left"]), party=row["party"] or "")
            yield ["" if shown[name] is None else str(shown[name]) for name in DOCUMENTS]
