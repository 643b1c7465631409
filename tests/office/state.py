"""What a history comes to, as plain sums over whole lists: control lines, documents, registers, posts and the reconciliation.

An office of its own, written from docs/RULES.md and docs/CALLS.md and not from the program; calls.py has its answers.
"""
import datetime

CODES = {
    name: code + 1
    for code, name in enumerate(
        "DeskUnknown Ahead KeyReused NotThisDesk HistoryFull AmountRange UnknownName PeriodClosed YearNotOpen YearClosed"
        " Adopted NotAdopted DocState SameHand NotOnOrder OverOpen OverReceivable AssetState NotDue LeaveShort MonthOrder"
        " DebtDue WindowOpen Exceeds CashShort".split()
    )
}
CENTS = ("asked", "room", "cash", "open", "left", "amount")


class Refused(Exception):
    def __init__(self, name, **values):
        self.name, self.values = name, values

    def reply(self):
        values = {k: str(v) if k in CENTS else v for k, v in self.values.items()}
        return dict(values, code=CODES[self.name], name=self.name)


def unknown(kind, number):
    return Refused("UnknownName", kind=kind, id=number)


class Books:
    """What a history comes to: documents, registers and posts, with what can be read of them."""

    def __init__(self, chart):
        self.chart = chart
        self.entries, self.keys = [], {}
        self.closed = 0  # months, from the first of the chart's first year
        self.closed_years = 0  # fiscal years, from the chart's first one
        self.adopted, self.original, self.appropriated, self.estimates = {}, {}, {}, {}
        self.requisitions, self.orders, self.vouchers, self.bills = [], [], [], []
        self.assets, self.bonds, self.leave, self.loans = [], [], [], {}
        self.spendings = []  # (line, year, amount): debt payments, matured leave and leases
        self.posts = {"fund": [], "gov": []}  # (year, fund, account, amount)
        self.cash_posts = []  # (place of the entry, from 0, fund, amount)

    # ---- the calendar

    def fiscal_year(self, year, month):
        first = self.chart["first_month"]
        return year if first == 1 or month < first else year + 1

    def year_of(self, day):
        return self.fiscal_year(day.year, day.month)

    def first(self):
        """The first month, counted from year 0."""
        year, month = self.chart["first_year"], self.chart["first_month"]
        return 12 * (year if month == 1 else year - 1) + month - 1

    def number_of(self, year, month):
        return 12 * year + month - 1 - self.first()

    def month_at(self, number):
        return divmod(self.first() + number, 12)[0], divmod(self.first() + number, 12)[1] + 1

    def year_at(self, number):
        return self.chart["first_year"] + number // 12

    def year_end(self, year):
        after = self.month_at(12 * (year + 1 - self.chart["first_year"]))
        return datetime.date(*after, 1) - datetime.timedelta(days=1)

    def open_year(self):
        return self.chart["first_year"] + self.closed_years

    def window_month(self, year):
        """The month of the last day on which a collection can still be revenue of the year, by the longest window."""
        longest = max((source["window"] for source in self.chart["source"]), default=0)
        last = self.year_end(year) + datetime.timedelta(days=longest)
        return last.year, last.month

    # ---- the chart

    def row(self, table, number):
        return next((row for row in self.chart[table] if row["id"] == number), None)

    def is_later(self, fund, year):
        """Whether the fund is controlled at its later level in a fiscal year."""
        row = self.row("fund", fund)
        return "later_level" in row and row["later_year"] <= year

    def line_of(self, fund, dept, number, year):
        later, wanted = self.is_later(fund, year), self.row("object", number)
        level = self.row("fund", fund)["later_level" if later else "level"]
        for line, row in enumerate(self.chart["line"]):
            if (row["fund"], row["dept"], row.get("later", False)) == (fund, dept, later):
                if level == "department" or row.get(level) == wanted["class" if level == "class" else "id"]:
                    return line
        return None

    def account(self, fund, dept, number, year, kinds=None):
        """The line that controls an account in a fiscal year, whose object is of one of these kinds."""
        if not self.row("fund", fund):
            raise unknown("fund", fund)
        if not self.row("department", dept):
            raise unknown("dept", dept)
        wanted = self.row("object", number)
        if not wanted or kinds and wanted["kind"] not in kinds:
            raise unknown("object", number)
        line = self.line_of(fund, dept, number, year)
        if line is None:
            raise unknown("line", number)
        return line

    def function(self, dept):
        return self.row("department", dept)["function"]

    # ---- orders and line numbers

    def is_void(self, voucher):
        return self.vouchers[voucher - 1]["state"] == "void"

    def item_state(self, item):
        uses = [use for use in item["uses"] if not self.is_void(use["voucher"])]
        return "finished" if item["state"] == "live" and any(use["final"] for use in uses) else item["state"]

    def open_of(self, item):
        if self.item_state(item) != "live":
            return 0
        return item["base"] + item["changes"] - sum(u["amount"] for u in item["uses"] if not self.is_void(u["voucher"]))

    def numbers(self, line, year):
        held = sum(
            item["amount"]
            for requisition in self.requisitions if (requisition["state"], requisition["year"]) == ("open", year)
            for item in requisition["items"] if item["line"] == line
        )
        encumbered = sum(
            self.open_of(item) for order in self.orders for item in order["items"]
            if (item["line"], item["year"]) == (line, year)
        )
        expended = sum(
            item["amount"]
            for voucher in self.vouchers if voucher["state"] != "void" and voucher["year"] == year
            for item in voucher["items"] if item["line"] == line
        ) + sum(amount for at, of, amount in self.spendings if (at, of) == (line, year))
        appropriated = self.appropriated.get((line, year), 0)
        return dict(
            original=self.original.get((line, year), 0), appropriated=appropriated, held=held, encumbered=encumbered,
            expended=expended, room=appropriated - held - encumbered - expended,
        )

    def roll(self, year):
        """The end of a fiscal year: what is open of it lapses, or is carried into the next year as the fund's policy says."""
        for requisition in self.requisitions:
            if (requisition["state"], requisition["year"]) == ("open", year):
                requisition["state"] = "lapsed"
        for item in [item for order in self.orders for item in order["items"] if item["year"] == year]:
            if self.item_state(item) == "live":
                left, line = self.open_of(item), self.line_of(*item["account"], year + 1)
                if left == 0 or line is None or self.row("fund", item["account"][0])["policy"] == "lapse":
                    item["state"] = "lapsed"
                else:
                    item.update(year=year + 1, line=line, base=left, changes=0, uses=[])
                    self.appropriate(line, year + 1, left)

    def appropriate(self, line, year, amount):
        self.appropriated[line, year] = self.appropriated.get((line, year), 0) + amount

    # ---- posts

    def post(self, basis, year, fund, *posts):
        for account, amount in posts:
            if amount:
                self.posts[basis].append((year, fund if basis == "fund" else 0, account, amount))
                if (basis, account) == ("fund", 100000):
                    self.cash_posts.append((len(self.entries), fund, amount))

    def post_both(self, year, fund, *posts):
        self.post("fund", year, fund, *posts)
        self.post("gov", year, fund, *posts)

    def balance(self, basis, year, fund, account):
        return sum(a for y, f, code, a in self.posts[basis] if y <= year and (f, code) == (fund, account))

    def of_year(self, basis, year, fund, account):
        return sum(a for y, f, code, a in self.posts[basis] if (y, f, code) == (year, fund, account))

    def cash(self, fund):
        return self.balance("fund", 9999, fund, 100000)

    def total(self, basis, year):
        return sum(amount for y, _, code, amount in self.posts[basis] if y <= year and code < 300000)

    # ---- assets, bonds, leave

    def depreciation(self, asset, closed):
        if asset["life"] == 0 or asset["state"] == "void":
            return 0
        if asset["state"] == "disposed":
            closed = min(closed, asset["closed"])
        served = max(0, closed - asset["service"])
        return asset["cost"] * min(served, asset["life"]) // asset["life"]

    def due(self, bond, payment):
        """The month of a payment, from 1, by number, and its day."""
        month = bond["month"] + payment * bond["every"]
        return month, "%04d-%02d-%02d" % (*self.month_at(month), bond["day"])

    def owed_before(self, bond, payment):
        return bond["amount"] - sum(bond["principals"][: payment - 1])

    def coupon(self, bond, payment):
        return self.owed_before(bond, payment) * bond["rate_bp"] * 30 * bond["every"] // 3600000

    def earned(self, bond, closed):
        """The interest earned by the end of the last closed month: coupons due by then, and days of 30-day months since."""
        last = closed - 1
        if last < bond["month"]:
            return 0
        due = [k + 1 for k in range(len(bond["principals"])) if self.due(bond, k + 1)[0] <= last]
        since = bond["month"] + len(due) * bond["every"]
        days = 30 * (last - since) + (1 - bond["day"]) + 30
        left = self.owed_before(bond, len(due) + 1)
        return sum(self.coupon(bond, k) for k in due) + left * bond["rate_bp"] * days // 3600000

    def paid(self, bond):
        return range(1, bond["paid"] + 1)

    def leave_left(self, fund, dept):
        return sum(amount for _, f, d, amount in self.leave if (f, d) == (fund, dept))

    def closed_to(self, year):
        """How many months of fiscal years up to this one are closed."""
        return max(0, min(self.closed, 12 * (year + 1 - self.chart["first_year"])))

    def reconciliation(self, year):
        """The items that join fund balances and net position, from the registers."""
        closed = self.closed_to(year)
        net = {False: 0, True: 0}  # of assets that the city owns, and of leased ones
        for asset in self.assets:
            if asset["year"] <= year and asset["state"] != "void" and not asset.get("gone", 9999) <= year:
                net[asset["leased"]] += asset["cost"] - self.depreciation(asset, closed)
        unavailable = sum(
            bill["amount"] - sum(a for y, a in bill["settled"] if y <= year) for bill in self.bills if bill["levy_year"] <= year
        )
        owed = {250000: 0, 251000: 0}  # on bonds, and on leases
        accrued = sum(self.earned(bond, closed) for bond in self.bonds)
        for bond in self.bonds:
            owed[bond["payable"]] += bond["amount"] if bond["year"] <= year else 0
            for k in self.paid(bond):
                if self.year_at(self.due(bond, k)[0]) <= year:
                    owed[bond["payable"]] -= bond["principals"][k - 1]
                    accrued -= self.coupon(bond, k)
        return dict(
            fund_balances=self.total("fund", year), capital_assets=net[False], right_to_use=net[True], unavailable=unavailable,
            bonds=-owed[250000], leases=-owed[251000], accrued_interest=-accrued,
            leave=-sum(a for y, _, _, a in self.leave if y <= year), net_position=self.total("gov", year),
        )
