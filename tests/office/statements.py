"""The seven statements of a fiscal year, row by row, from the definitions of docs/STATEMENTS.md; and their text and their CSV."""
from rules import Rules

TITLES = dict(
    balance="Balance sheet",
    operating="Revenues, expenditures and changes",
    budget="Budgetary comparison",
    position="Net position",
    activities="Activities",
    reconcile="Reconciliation to net position",
    changes="Reconciliation to change in net position",
)
# Of the command `report` alone (classes.py).
COMMAND_TITLES = dict(TITLES, classes="Fund balance classes", components="Net position components", major="Major funds")
GRANTS = dict(charges=1, operating_grant=2, capital_grant=3)  # the column of a function's own revenue


class Statements(Rules):
    """Each row is a label with its amounts; a heading has none."""

    def statement(self, year, kind):
        return getattr(self, "rows_of_" + kind)(year)

    def by_id(self, table):
        return sorted(self.chart[table], key=lambda row: row["id"])

    def sources_of(self, fund):
        return [source for source in self.by_id("source") if source["fund"] == fund["id"]]

    # ---- the funds, modified accrual

    def fund_balance(self, year, fund):
        return sum(a for y, f, code, a in self.posts["fund"] if y <= year and f == fund and code < 300000)

    def rows_of_balance(self, year):
        rows = []
        for fund in self.by_id("fund"):
            def through(account):
                return self.balance("fund", year, fund["id"], account)
            rows += [
                (fund["name"],), ("Cash", through(100000)), ("Receivables", through(110000)),
                ("Due from other funds", through(120000)), ("Vouchers payable", -through(200000)),
                ("Debt due", -through(210000)), ("Due to other funds", -through(220000)),
                ("Unavailable revenue", -through(290000)), ("Fund balance", self.fund_balance(year, fund["id"])),
            ]
        return rows + [("Total fund balances", self.total("fund", year))]

    def rows_of_operating(self, year):
        return [row for fund in self.by_id("fund") for row in self.operating_of(year, fund)]

    def operating_of(self, year, fund):
        def posted(account):
            return self.of_year("fund", year, fund["id"], account)
        revenues = [(source["name"], -posted(400000 + source["id"])) for source in self.sources_of(fund)]
        spent = [(function["name"], posted(500000 + function["id"])) for function in self.by_id("function")]
        spent += [("Capital outlay", posted(510000)), ("Debt principal", posted(520000)), ("Debt interest", posted(530000))]
        earned, cost = sum(amount for _, amount in revenues), sum(amount for _, amount in spent)
        given, lent, sold, taken = -posted(600001), -posted(600002), -posted(600003), posted(610001)
        leased = -posted(600004)
        return [
            (fund["name"],), *revenues, ("Total revenues", earned), *spent, ("Total expenditures", cost),
            ("Transfers in", given), ("Transfers out", taken), ("Debt proceeds", lent), ("Leases issued", leased),
            ("Sale of capital assets", sold), ("Net change in fund balance", earned - cost + given - taken + lent + leased + sold),
        ]

    def rows_of_budget(self, year):
        rows = []
        for fund in self.by_id("fund"):
            rows.append((fund["name"],))
            for source in self.sources_of(fund):
                estimate = self.estimates.get((source["id"], year), 0)
                actual = -self.of_year("fund", year, fund["id"], 400000 + source["id"])
                rows.append((source["name"], estimate, estimate, actual, 0, estimate - actual))
            for number, line in enumerate(self.chart["line"]):
                if line["fund"] == fund["id"] and self.is_line_of_year(number, year):
                    its = self.numbers(number, year)
                    shown = (its[name] for name in ("original", "appropriated", "expended", "encumbered", "room"))
                    rows.append(("Line %d" % number, *shown))
        return rows

    # ---- the city as a whole, accrual

    def rows_of_position(self, year):
        def through(account):
            return self.balance("gov", year, 0, account)
        return [
            ("Cash", through(100000)), ("Receivables", through(110000)), ("Capital assets", through(150000)),
            ("Accumulated depreciation", through(159000)), ("Right-to-use assets", through(151000)),
            ("Accumulated amortization", through(159100)), ("Vouchers payable", -through(200000)),
            ("Debt due", -through(210000)), ("Bonds payable", -through(250000)), ("Leases payable", -through(251000)),
            ("Accrued interest", -through(260000)), ("Compensated absences", -through(270000)),
            ("Net position", self.total("gov", year)),
        ]

    def activity(self, year, function):
        """Expenses of a function, its charges, operating grants, and capital grants with donated assets."""
        amounts = [self.of_year("gov", year, 0, 500000 + function["id"]), 0, 0, -self.of_year("gov", year, 0, 450000 + function["id"])]
        for source in self.chart["source"]:
            if source["kind"] in GRANTS and source["function"] == function["id"]:
                amounts[GRANTS[source["kind"]]] -= self.of_year("gov", year, 0, 400000 + source["id"])
        return amounts

    def rows_of_activities(self, year):
        rows = [(function["name"], self.activity(year, function)) for function in self.by_id("function")]
        rows.append(("Interest on debt", [self.of_year("gov", year, 0, 530000), 0, 0, 0]))
        rows.append(("Total", [sum(column) for column in zip(*(amounts for _, amounts in rows))]))
        general = [
            (source["name"], -self.of_year("gov", year, 0, 400000 + source["id"]))
            for source in self.by_id("source") if source["kind"] not in GRANTS
        ]
        general.append(("Gain on sales", -self.of_year("gov", year, 0, 460000)))
        net = [(label, *amounts, amounts[0] - sum(amounts[1:])) for label, amounts in rows]
        return net + general + [("Change in net position", sum(amount for _, amount in general) - net[-1][-1])]

    # ---- what joins them

    def rows_of_reconcile(self, year):
        items = self.reconciliation(year)
        return [
            ("Total fund balances", items["fund_balances"]), ("Capital assets, net", items["capital_assets"]),
            ("Right-to-use assets, net", items["right_to_use"]), ("Unavailable revenue", items["unavailable"]),
            ("Bonds payable", items["bonds"]), ("Leases payable", items["leases"]),
            ("Accrued interest", items["accrued_interest"]), ("Compensated absences", items["leave"]),
            ("Net position", items["net_position"]),
        ]

    def rows_of_changes(self, year):
        kept = [asset for asset in self.assets if asset["state"] != "void"]
        bought = sum(asset["cost"] for asset in kept if asset["year"] == year and asset["voucher"])
        came = [asset for asset in kept if asset["year"] == year and not asset["voucher"]]
        given = sum(asset["cost"] for asset in came if not asset["leased"])
        leased = sum(asset["cost"] for asset in came if asset["leased"])
        worn = {False: 0, True: 0}  # of assets that the city owns, and of leased ones
        for asset in kept:
            worn[asset["leased"]] += self.depreciation(asset, self.closed_to(year)) - self.depreciation(asset, self.closed_to(year - 1))
        sold = sum(asset["cost"] - self.depreciation(asset, self.closed) for asset in kept if asset.get("gone") == year)
        billed = sum(bill["amount"] for bill in self.bills if bill["levy_year"] == year)
        settled = sum(amount for bill in self.bills for at, amount in bill["settled"] if at == year)
        issued = {
            account: sum(bond["amount"] for bond in self.bonds if (bond["year"], bond["payable"]) == (year, account))
            for account in (250000, 251000)
        }
        paid = sum(
            bond["principals"][k - 1] for bond in self.bonds for k in self.paid(bond)
            if self.year_at(self.due(bond, k)[0]) == year
        )
        now, before = self.reconciliation(year), self.reconciliation(year - 1)
        return [
            ("Net change in fund balances", now["fund_balances"] - before["fund_balances"]),
            ("Capital outlay", bought), ("Donated capital assets", given), ("Right-to-use assets", leased),
            ("Depreciation", -worn[False]), ("Amortization", -worn[True]), ("Book value of disposals", -sold),
            ("Change in unavailable revenue", billed - settled), ("Debt proceeds", -issued[250000]),
            ("Leases issued", -issued[251000]), ("Principal paid", paid),
            ("Change in accrued interest", now["accrued_interest"] - before["accrued_interest"]),
            ("Change in compensated absences", -sum(amount for at, _, _, amount in self.leave if at == year)),
            ("Change in net position", now["net_position"] - before["net_position"]),
        ]

    # ---- as text and as CSV

    def text(self, year, kind):
        lines = ["%s: %s, fiscal year %d" % (self.chart["city"], COMMAND_TITLES[kind], year)]
        for label, *amounts in self.statement(year, kind):
            lines.append("".join(["%-40s" % label if amounts else label, *("%20s" % money(amount) for amount in amounts)]))
        return "".join(line + "\n" for line in lines)

    def csv(self, year, kind):
        rows = ([quoted(label), *map(money, amounts)] for label, *amounts in self.statement(year, kind))
        return "".join(",".join(fields + [""] * (6 - len(fields))) + "\n" for fields in rows)


def money(cents):
    return "%s%d.%02d" % ("-" if cents < 0 else "", *divmod(abs(cents), 100))


def quoted(label):
    return '"%s"' % label.replace('"', '""') if "," in label or '"' in label else label
