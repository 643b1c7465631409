"""The lists of `books` as rows of fields, made of a history by itself (moves.py): the ledger, the months, what was paid, a
year's trial balance, what is open. Each is a definition of docs/BOOKS.md over the history's entries, and follows no code of the
program. documented.py has the documents.
"""
import datetime
from dataclasses import fields, dataclass

from moves import MOVED
from statements import money

LEDGER = "place day desk key call document item party fund dept object line source year".split() + [*MOVED, "running"]
MONTH = (
    "part fund fund_name dept dept_name line line_part line_name source source_name budget month year on_order held left percent_left"
    " month_before year_before"
).split()
PAID = "vendor document number key day run amount".split()


def text(value):
    return "" if value is None else str(value)


def guarded(field):
    """A field as a record for a spreadsheet has it: what it would take for a formula has a quote before it, and no amount has."""
    is_amount = field[:1] == "-" and all(sign in "0123456789." for sign in field[1:])
    return "'" + field if field[:1] in ("=", "+", "-", "@", "\t", "\r") and field and not is_amount else field


# ---- the ledger

@dataclass
class LedgerFilter:
    """The options of `ledger`: what isn't given selects nothing."""

    fund: int | None = None
    dept: int | None = None
    object: int | None = None
    line: int | None = None
    source: int | None = None
    vendor: int | None = None
    year: int | None = None
    first: str | None = None
    through: str | None = None

    def words(self):
        names = {each.name: "from" if each.name == "first" else each.name for each in fields(self)}
        return [word for name, option in names.items() if getattr(self, name) is not None for word in ("--" + option, str(getattr(self, name)))]

    def takes(self, row, day):
        fund, dept, obj = row.account
        asked = [(self.fund, fund), (self.dept, dept), (self.object, obj), (self.line, row.line), (self.source, row.source)]
        asked += [(self.vendor, row.party), (self.year, row.year)]
        is_asked = all(wanted is None or wanted == found for wanted, found in asked)
        return is_asked and (self.first is None or self.first <= day) and (self.through is None or day <= self.through)


def ledger(history, asked):
    """Running is what was received so far in a row of a source, and what was spent in one of a line."""
    spent = received = 0
    for row in history.rows:
        call = history.entries[row.place - 1][0]
        if asked.takes(row, call["on"]):
            spent, received = spent + row.spent, received + row.received
            head = [row.place, call["on"], call["desk"], call["key"], call["call"], row.document, row.item, row.party or "", *row.account]
            amounts = [money(getattr(row, name)) for name in MOVED]
            running = spent if row.source is None else received
            yield [text(field) for field in [*head, row.line, row.source, row.year]] + [*amounts, money(running)]


# ---- a month

def month_end(year, month):
    return datetime.date(year + month // 12, month % 12 + 1, 1) - datetime.timedelta(days=1)


class MonthOf:
    """A month, within its fiscal year: what stands through its last day, and through that of the month before."""

    def __init__(self, history, year, month):
        self.history = history
        self.year = history.fiscal_year(year, month)
        self.now = history.through(str(month_end(year, month)))
        self.before = history.through(str(datetime.date(year, month, 1) - datetime.timedelta(days=1)))

    def line(self, number):
        """What stands of a line in the fiscal year, and what was spent of it in the month."""
        now, before = self.now.numbers(number, self.year), self.before.numbers(number, self.year)
        return now, now["expended"] - before["expended"]

    def source(self, number):
        """The estimate of a source, what was received in the month, and in the year through it."""
        rows = [[row.received for row in of.rows if (row.source, row.year) == (number, self.year)] for of in (self.now, self.before)]
        now, before = map(sum, rows)
        return self.now.estimates.get((number, self.year), 0), now - before, now


def part_of(history, number):
    """What a line has of its department: `object 510`, `class 2` or `all objects`, with the years of a fund with two levels."""
    its, fund = history.chart["line"][number], history.row("fund", history.chart["line"][number]["fund"])
    part = next(("%s %d" % (key, its[key]) for key in ("object", "class") if key in its), "all objects")
    if "later_year" in fund:
        part += " (from %d)" % fund["later_year"] if its.get("later") else " (through %d)" % (fund["later_year"] - 1)
    return part, history.row("object", its["object"])["name"] if "object" in its else ""


def percent(left, budget):
    """Hundredths of a per cent, cut off. There are none where the budget isn't above zero."""
    if budget <= 0:
        return ""
    size = abs(left) * 10000 // budget
    return money(-size if left < 0 else size)


class Month:
    """The rows of `month`."""

    def __init__(self, history, text):
        self.history, self.text = history, text
        year, month = map(int, text.split("-"))
        self.is_closed = history.number_of(year, month) < history.closed
        self.this, self.last = MonthOf(history, year, month), MonthOf(history, year - 1, month)

    def rows(self):
        yield self.row("month %s %s" % (self.text, "closed" if self.is_closed else "open"))
        for fund in self.history.by_id("fund"):
            yield from self.of_fund(fund)

    def row(self, part, amounts=None, **fields):
        """Amounts are the budget, month, year, on order, held, left, month before and year before."""
        found = dict.fromkeys(MONTH, "") | {"part": part} | {name: text(value) for name, value in fields.items()}
        if amounts:
            names = "budget month year on_order held left month_before year_before".split()
            found |= {name: money(amount) for name, amount in zip(names, amounts)}
            found["percent_left"] = percent(amounts[5], amounts[0])
        return [found[name] for name in MONTH]

    def of_line(self, number):
        now, month = self.this.line(number)
        before, month_before = self.last.line(number)
        left = now["appropriated"] - now["encumbered"] - now["held"] - now["expended"]
        return [now["appropriated"], month, now["expended"], now["encumbered"], now["held"], left, month_before, before["expended"]]

    def of_source(self, number):
        estimate, month, year = self.this.source(number)
        _, month_before, year_before = self.last.source(number)
        return [estimate, month, year, 0, 0, estimate - year, month_before, year_before]

    def is_shown(self, number, fund):
        """A line of the fund at its level in the fiscal year, or in the one before."""
        line, year = self.history.chart["line"][number], self.this.year
        return line["fund"] == fund["id"] and any(self.history.is_line_of_year(number, each) for each in (year, year - 1))

    def of_fund(self, fund):
        head = dict(fund=fund["id"], fund_name=fund["name"])
        lines = {number: self.of_line(number) for number in range(len(self.history.chart["line"])) if self.is_shown(number, fund)}
        depts = {number: self.history.row("department", self.history.chart["line"][number]["dept"]) for number in lines}
        for number, amounts in lines.items():
            part, name = part_of(self.history, number)
            its = dict(dept=depts[number]["id"], dept_name=depts[number]["name"], line=number, line_part=part, line_name=name)
            yield self.row("line", amounts, **head, **its)
        for dept in self.history.by_id("department"):
            of_dept = [amounts for number, amounts in lines.items() if depts[number]["id"] == dept["id"]]
            if of_dept:
                yield self.row("department", sums_of(of_dept), **head, dept=dept["id"], dept_name=dept["name"])
        yield self.row("fund", sums_of(lines.values()), **head)
        sources = {source["id"]: self.of_source(source["id"]) for source in self.history.by_id("source") if source["fund"] == fund["id"]}
        for number, amounts in sources.items():
            yield self.row("source", amounts, **head, source=number, source_name=self.history.row("source", number)["name"])
        yield self.row("sources", sums_of(sources.values()), **head)


def sums_of(rows):
    return [sum(column) for column in zip([0] * 8, *rows)]


# ---- what is open

def open_row(history, place, number, amount, **fields):
    call = history.entries[place - 1][0]
    party = call.get("vendor", call.get("payer", 0)) or ""
    row = dict(call=call["call"], number=number, item="", day=call["on"], desk=call["desk"], key=call["key"], party=party, year="", line="")
    row |= dict(fund_name="", dept_name="", open=money(amount), next="", due="", interest="", closed="") | fields
    return [text(field) for field in row.values()]


def names_of(history, number):
    line = history.chart["line"][number]
    return dict(line=number, fund_name=history.row("fund", line["fund"])["name"], dept_name=history.row("department", line["dept"])["name"])


def open_rows(history):
    """Items of open requisitions, live items of orders, bills with an amount left, unpaid vouchers, debts with a payment to come, and
    what was closed."""
    places = [(place, *entry) for place, entry in enumerate(history.entries, 1)]
    for place, _, made in places:
        its = history.requisitions[made["requisition"] - 1] if "requisition" in made else None
        for item, part in enumerate(its["items"] if its and its["state"] == "open" else [], 1):
            yield open_row(history, place, made["requisition"], part["amount"], item=item, year=its["year"], **names_of(history, part["line"]))
    for place, _, made in places:
        for item, part in enumerate(history.orders[made["order"] - 1]["items"] if "order" in made else [], 1):
            if history.item_state(part) == "live":
                yield open_row(history, place, made["order"], history.open_of(part), item=item, year=part["year"], **names_of(history, part["line"]))
    for place, _, made in places:
        its = history.bills[made["bill"] - 1] if "bill" in made else None
        if its and history.left_of(its):
            yield open_row(history, place, made["bill"], history.left_of(its), year=its["levy_year"])
    for place, call, made in places:
        its = history.vouchers[made["voucher"] - 1] if call["call"] == "voucher" else None
        if its and its["state"] == "open":
            yield open_row(history, place, made["voucher"], sum(item["amount"] for item in its["items"]), year=its["year"])
    for place, _, made in places:
        its = history.bonds[made["bond"] - 1] if "bond" in made else None
        if its and its["paid"] < len(its["principals"]):
            payment = its["paid"] + 1
            interest = history.coupon(its, payment)
            due = dict(next=history.due(its, payment)[1], due=money(its["principals"][payment - 1] + interest), interest=money(interest))
            yield open_row(history, place, made["bond"], history.owed_before(its, payment), **due)
    for _, call, _ in places:
        if call["call"] == "close":
            yield ["close", "", "", call["on"], str(call["desk"]), call["key"], *[""] * 9, str(call.get("month", call.get("year")))]


# ---- what was paid in a calendar year

def paid(history, year):
    rows = {}
    vouchers, leases = {}, {}
    for place, (call, made) in enumerate(history.entries, 1):
        if call["call"] == "voucher":
            vouchers[made["voucher"]] = call
        if call["call"] == "lease":
            leases[made["bond"]] = call
        if call["on"][:4] != str(year):
            continue
        for number in call["vouchers"] if call["call"] == "pay" else ():
            its = vouchers[number]
            amount = sum(item["amount"] for item in its["items"])
            rows.setdefault(its["vendor"], []).append(["voucher", number, its["key"], call["on"], call["key"], amount])
        if call["call"] == "pay_due" and call["bond"] in leases:
            its = leases[call["bond"]]
            amount = int(made["principal"]) + int(made["interest"])
            rows.setdefault(its["vendor"], []).append(["lease", call["bond"], its["key"], call["on"], call["key"], amount])
    for vendor in sorted(rows):
        yield [str(vendor), "total", "", "", "", "", money(sum(row[-1] for row in rows[vendor]))]
        for *head, amount in rows[vendor]:
            yield [str(vendor), *map(str, head), money(amount)]
