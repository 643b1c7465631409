"""The rules that calls share, each refusing what breaks it: amounts, names, periods and years, budgets, room and cash."""
import json

from state import Books, Refused, unknown

MOST = 10**13  # cents
STATED_YEAR = dict(adopt="year", amend="year", transfer="year", bill="levy_year")


def amounts(call):
    """Each amount of a call with the least that it may be."""
    kind = call["call"]
    if kind == "adopt":
        return [(1, row["amount"]) for row in call["lines"] + call["estimates"]]
    if kind in ("amend", "change_order"):
        return [(1, abs(call["by"]))]
    if kind in ("requisition", "order", "voucher"):
        return [(1, item["amount"]) for item in call["items"]]
    if kind == "asset" and call["what"] == "dispose":
        return [(0, call["proceeds"])]
    if kind in ("issue", "lease"):
        return [(1, call["amount"])] + [(0, part) for part in call["principals"]]
    return [(1, call["amount"])] if "amount" in call else []


def same(call):
    """A call as it is compared with another: without `after`, and with its defaults filled in."""
    call = {k: v for k, v in call.items() if k != "after"}
    if call["call"] == "voucher":
        call["back"] = call.get("back", False)
        call["items"] = [{k: v for k, v in item.items() if (k, v) != ("final", False)} for item in call["items"]]
    return json.dumps(call, sort_keys=True)


class Rules(Books):
    def test_amounts(self, call):
        for least, amount in amounts(call):
            if not least <= amount <= MOST:
                raise Refused("AmountRange", amount=amount)

    def test_periods(self, call, day):
        if self.number_of(day.year, day.month) < self.closed:
            raise Refused("PeriodClosed", month="%04d-%02d" % (day.year, day.month))
        kind, year = call["call"], self.year_of(day)
        self.test_open(year)
        if kind in STATED_YEAR:
            self.test_open(call[STATED_YEAR[kind]])
        if kind in ("collect", "write_off") and self.bills[call["bill"] - 1]["levy_year"] > year:
            raise Refused("YearNotOpen", year=self.bills[call["bill"] - 1]["levy_year"])
        if kind == "close" and call["what"] == "month":
            closing = self.fiscal_year(*map(int, call["month"].split("-")))
            if closing > self.open_year() + 2:
                raise Refused("YearNotOpen", year=closing)
        if kind == "close" and call["what"] == "year" and call["year"] > self.open_year():
            raise Refused("YearNotOpen", year=call["year"])

    def test_open(self, year):
        if year > min(self.open_year() + 2, 2199):
            raise Refused("YearNotOpen", year=year)

    def test_not_closed(self, year):
        if year < self.open_year():
            raise Refused("YearClosed", year=year)

    def test_adopted(self, fund, year):
        if (fund, year) not in self.adopted:
            raise Refused("NotAdopted", fund=fund, year=year)

    def test_room(self, *asks):
        """Each ask is a line, a year and an amount; those of one line and year count together."""
        asked = {}
        for line, year, amount in asks:
            asked[line, year] = asked.get((line, year), 0) + amount
        for (line, year), amount in sorted(asked.items()):
            room = self.numbers(line, year)["room"]
            if 0 < amount > room:
                raise Refused("Exceeds", line=line, asked=amount, room=room)

    def test_cash(self, *takes):
        taken = {}
        for fund, amount in takes:
            taken[fund] = taken.get(fund, 0) + amount
        for fund, amount in sorted(taken.items()):
            if 0 < amount > self.cash(fund):
                raise Refused("CashShort", fund=fund, cash=self.cash(fund), asked=amount)

    # ---- names

    def known_fund(self, fund):
        if not self.row("fund", fund):
            raise unknown("fund", fund)

    def known_dept(self, dept):
        if not self.row("department", dept):
            raise unknown("dept", dept)

    def is_line_of_year(self, line, year):
        rows = self.chart["line"]
        return line < len(rows) and rows[line].get("later", False) == self.is_later(rows[line]["fund"], year)

    def known_line(self, fund, line, year):
        if not self.is_line_of_year(line, year) or self.chart["line"][line]["fund"] != fund:
            raise unknown("line", line)

    def known_source(self, call):
        source = self.row("source", call["source"])
        if not source:
            raise unknown("source", call["source"])
        return source

    def document(self, kind, number):
        rows = getattr(self, kind + "s")
        if not 1 <= number <= len(rows):
            raise unknown(kind, number)
        return rows[number - 1]
