"""The three statements that the command `report` alone has: classes of fund balances, components of net position, major funds."""
from statements import Statements

CLASSES = ("Nonspendable", "Restricted", "Committed", "Assigned", "Unassigned")
ELEMENTS = ("Assets", "Liabilities", "Revenues", "Expenditures")


class Classes(Statements):
    # ---- GASB Statement 54

    def encumbered(self, year, fund):
        lines = [number for number, line in enumerate(self.chart["line"]) if line["fund"] == fund]
        return sum(self.numbers(number, year)["encumbered"] for number in lines)

    def class_of(self, fund):
        """The class of a positive balance of a fund that is neither general nor permanent."""
        return fund.get("balance_class", "assigned" if fund["type"] == "capital_projects" else "restricted").capitalize()

    def classes(self, year, fund):
        """A fund's balance, each cent in one class."""
        balance, found = self.fund_balance(year, fund["id"]), dict.fromkeys(CLASSES, 0)
        if balance <= 0:
            found["Unassigned"] = balance
        elif fund["type"] == "permanent":
            found["Nonspendable"] = balance
        elif fund["type"] == "general":
            found["Assigned"] = min(self.encumbered(year, fund["id"]), balance)
            found["Unassigned"] = balance - found["Assigned"]
        else:
            found[self.class_of(fund)] = balance
        return found

    def rows_of_classes(self, year):
        rows = []
        for fund in self.by_id("fund"):
            rows += [(fund["name"],), *self.classes(year, fund).items(), ("Fund balance", self.fund_balance(year, fund["id"]))]
        return rows + [("Total fund balances", self.total("fund", year))]

    # ---- GASB Statement 34

    def rows_of_components(self, year):
        items = self.reconciliation(year)
        capital = items["capital_assets"] + items["right_to_use"] + items["bonds"] + items["leases"]  # debts are negative items
        funds = [self.classes(year, fund) for fund in self.chart["fund"]]
        restricted = sum(found["Restricted"] + found["Nonspendable"] for found in funds)
        return [
            ("Net investment in capital assets", capital), ("Restricted", restricted),
            ("Unrestricted", items["net_position"] - capital - restricted), ("Net position", items["net_position"]),
        ]

    def elements(self, year, fund):
        """A fund's assets, liabilities with deferred inflows, revenues and expenditures, each usually positive."""
        def through(*accounts):
            return sum(self.balance("fund", year, fund, account) for account in accounts)
        def of(first, last):
            return sum(a for y, f, account, a in self.posts["fund"] if (y, f) == (year, fund) and first <= account <= last)
        return (
            through(100000, 110000, 120000), -through(200000, 210000, 220000, 290000),
            -of(400001, 409999), of(500000, 530000),
        )

    def rows_of_major(self, year):
        funds = [(fund, self.elements(year, fund["id"])) for fund in self.by_id("fund")]
        totals = [sum(column) for column in zip(*(elements for _, elements in funds))]
        def is_major(fund, elements):
            return fund["type"] == "general" or any(total > 0 and 10 * part >= total for part, total in zip(elements, totals))
        major = [(fund["name"], elements) for fund, elements in funds if is_major(fund, elements)]
        others = [sum(column) for column in zip([0] * 4, *(elements for fund, elements in funds if not is_major(fund, elements)))]
        rows = []
        for name, elements in [*major, ("Other governmental funds", others), ("Total", totals)]:
            rows += [(name,), *zip(ELEMENTS, elements)]
        return rows
