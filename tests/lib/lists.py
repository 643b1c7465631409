"""The lists of `books` of the journal in a folder: beside the looks of a desk there, beside what the independent office (office/) makes
of the same talk under the same chart, and beside the statements of `report`:

    lists.py PROGRAM BOOKS FOLDER CHART TALK    says the first difference, with status 1
"""

import csv
import io
import itertools
import json
import os
import re
import subprocess
import sys
from collections import Counter
from functools import cache

sys.path.insert(0, os.path.join(os.path.dirname(os.path.abspath(__file__)), "..", "office"))
from answers import calls_in_form, office_of  # noqa: E402
from statements import COMMAND_TITLES, money  # noqa: E402

KINDS = tuple(COMMAND_TITLES)
YEARS = range(1971, 2200)

# ---- accounts in the order of a trial balance, by the codes of docs/RULES.md and the words of docs/STATEMENTS.md

OWNED = {100000: "Cash", 110000: "Receivables"}
OWED = {200000: "Vouchers payable", 210000: "Debt due"}
SPENT = {510000: "Capital outlay", 520000: "Debt principal", 530000: "Debt interest"}
FUND_ASSETS = {**OWNED, 120000: "Due from other funds"}
FUND_DEBTS = {**OWED, 220000: "Due to other funds", 290000: "Unavailable revenue"}
FUND_ENDS = {
    **SPENT, 600001: "Transfers in", 610001: "Transfers out", 600002: "Debt proceeds", 600003: "Sale of capital assets",
    600004: "Leases issued",
}
CITY_ASSETS = {
    **OWNED, 150000: "Capital assets", 159000: "Accumulated depreciation", 151000: "Right-to-use assets",
    159100: "Accumulated amortization",
}
CITY_DEBTS = {**OWED, 250000: "Bonds payable", 251000: "Leases payable", 260000: "Accrued interest", 270000: "Compensated absences"}
CITY_ENDS = {530000: "Debt interest", 460000: "Gain on sales"}


def of_functions(office, base, text=""):
    return {base + function["id"]: text + function["name"] for function in office.by_id("function")}


def of_sources(sources):
    return {400000 + source["id"]: source["name"] for source in sources}


def fund_accounts(office, fund):
    return {**FUND_ASSETS, **FUND_DEBTS, **of_sources(office.sources_of(fund)), **of_functions(office, 500000), **FUND_ENDS}


def city_accounts(office):
    gifts = of_functions(office, 450000, "Donated capital assets, ")
    return {**CITY_ASSETS, **CITY_DEBTS, **of_sources(office.by_id("source")), **of_functions(office, 500000), **gifts, **CITY_ENDS}


# ---- what the office has of a talk

def office_after(chart, talk):
    """The office behind the changes of a talk."""
    office = office_of(chart)
    for call in calls_in_form(talk):
        if "desk" in call:
            office.answer(call)
    return office


def balances_of(office, year):
    """The rows of `books balances`: each account whose posts through a fiscal year don't sum to zero."""
    parts = [("fund", fund["id"], fund["name"], fund_accounts(office, fund)) for fund in office.by_id("fund")]
    for basis, fund, name, accounts in [*parts, ("gov", 0, "", city_accounts(office))]:
        for account, its_name in accounts.items():
            if balance := office.balance(basis, year, fund, account):
                yield [basis, str(fund), name, str(account), its_name, money(balance)]


def year_balances_of(office, year):
    """The rows of `books balances --alone`: what accounts below 300000 come to through the year, and all others in it, with what the
    first came to through the year before as the beginning."""
    parts = [("fund", fund["id"], fund["name"], fund_accounts(office, fund)) for fund in office.by_id("fund")]
    for basis, fund, name, accounts in [*parts, ("gov", 0, "", city_accounts(office))]:
        was = {account: office.balance(basis, year - 1, fund, account) for account in accounts}
        amounts = {account: office.balance(basis, year, fund, account) - (was[account] if account >= 300000 else 0) for account in accounts}
        amounts[300000] = -sum(amount for account, amount in was.items() if account < 300000)
        names = {**accounts, 300000: "Opening fund balance" if basis == "fund" else "Opening net position"}
        kept = [account for account in accounts if account < 300000]
        for account in [*kept, 300000, *(account for account in accounts if account > 300000)]:
            if amounts[account]:
                yield [basis, str(fund), name, str(account), names[account], money(amounts[account])]


def paid_of(entries, year):
    """The rows of `books paid`: of each vendor a total, and each voucher and payment of a lease that an entry dated in the year paid.
    An entry is a row of `books list` with its call."""
    vouchers, leases, paid = {}, {}, []
    for row, call in entries:
        if call["call"] == "voucher":
            vouchers[int(row["number"])] = call["vendor"], call["key"], sum(item["amount"] for item in call["items"])
        elif call["call"] == "lease":
            leases[int(row["second"])] = call["vendor"], call["key"]
        elif call["on"].startswith("%d-" % year) and call["call"] == "pay":
            for number in call["vouchers"]:
                vendor, key, amount = vouchers[number]
                paid.append((vendor, "voucher", number, key, call["on"], call["key"], amount))
        elif call["on"].startswith("%d-" % year) and call["call"] == "pay_due" and call["bond"] in leases:
            vendor, key = leases[call["bond"]]
            paid.append((vendor, "lease", call["bond"], key, call["on"], call["key"], cents(row["amount"])))
    for vendor, rows in itertools.groupby(sorted(paid, key=lambda row: row[0]), lambda row: row[0]):
        rows = list(rows)
        yield [str(vendor), "total", "", "", "", "", money(sum(row[-1] for row in rows))]
        for *fields, amount in rows:
            yield [*map(str, fields), money(amount)]


def line_names(office, number):
    """The names of a control line: of its department, its number, its part of the department's objects, and of a single object."""
    line = office.chart["line"][number]
    fund = office.row("fund", line["fund"])
    part = next(("%s %d" % (key, line[key]) for key in ("object", "class") if key in line), "all objects")
    if "later_year" in fund:
        part += " (from %d)" % fund["later_year"] if line.get("later") else " (through %d)" % (fund["later_year"] - 1)
    name = office.row("object", line["object"])["name"] if "object" in line else ""
    return [office.row("department", line["dept"])["name"], str(number), part, name]


# ---- the rows of a statement as `books statement` has them, made of the records of `report`

HEADS = {
    "budget": "section name line part part_name adopted final actual on_order left",
    "activities": "section name expenses charges operating_grants capital_grants net_expense amount",
}


def named_row(office, kind, section, label, amounts):
    """A row of `report` with its section and its names."""
    if kind == "budget":
        is_line = label.startswith("Line ") and label not in [source["name"] for source in office.chart["source"]]
        names = line_names(office, int(label.removeprefix("Line "))) if is_line else [label, "", "", ""]
        return [section, *names, *amounts]
    if kind == "activities":
        return [section, label, *(["", "", "", "", "", amounts[0]] if len(amounts) == 1 else [*amounts, ""])]
    return [section, label, *amounts]


def named_rows(office, kind, records):
    """The rows of a statement with their names. A record without amounts is the heading of the section below it, and the total of all
    funds stands in none."""
    section = ""
    for label, *fields in records:
        amounts = [field for field in fields if field]
        if not amounts:
            section = label
        else:
            is_total = label == "Total fund balances" and kind in ("balance", "classes")
            yield named_row(office, kind, "" if is_total else section, label, amounts)


# ---- what the programs print

# What a spreadsheet takes for a formula: it begins with one of these marks, or with a minus that no amount follows.
FORMULA = re.compile(r"[=+@\t\r]|-(?![\d.]*\Z)")


def guarded(rows):
    """Rows as records for a spreadsheet have them: a formula has a quote before it, and so is a text."""
    return [["'" + field if FORMULA.match(field) else field for field in row] for row in rows]


def printed(folder, *words, given=""):
    return subprocess.run(words, cwd=folder, check=True, capture_output=True, text=True, input=given).stdout


def records_of(text, delimiter=","):
    return list(csv.reader(io.StringIO(text), delimiter=delimiter))


class Different(Exception):
    pass


def same(what, found, wanted):
    """Ends the run where two values differ. Of two lists it names the first place at which they do."""
    if found == wanted:
        return
    if isinstance(found, list) and isinstance(wanted, list):
        for place, (left, right) in enumerate(itertools.zip_longest(found, wanted)):
            if left != right:
                raise Different(f"{what}, at {place}: {left} and not {right}")
    raise Different(f"{what}: {found} and not {wanted}")


def cents(text):
    """An amount in units, as cents."""
    return int(text.replace(".", ""))


def come_to_zero(what, rows):
    """The balances of each fund sum to zero, on either basis."""
    totals = Counter()
    for basis, fund, _, _, _, balance in rows:
        totals[basis, fund] += cents(balance)
    same(what, nonzero(totals), {})


class Lists:
    """The lists of the journal in a folder, and what they are to be."""

    def __init__(self, program, books, folder, office):
        self.program, self.books, self.folder, self.office = program, books, folder, office
        # A list of words is asked for once.
        self.records = cache(lambda *words: records_of(printed(folder, books, *words, "--csv")))
        self.posts = self.rows_of("posts")
        self.years = sorted({int(post["year"]) for post in self.posts} | {office.chart["first_year"]})

    def rows_of(self, *words):
        """The rows of a list, by the names of its columns."""
        head, *rows = self.records(*words)
        return [dict(zip(head, row, strict=True)) for row in rows]

    def looks(self, calls):
        """What a desk shows for each of these looks: nothing where it refuses one."""
        lines = "".join(json.dumps(call) + "\n" for call in calls)
        return [json.loads(line).get("is") for line in printed(self.folder, self.program, "desk", given=lines).splitlines()]

    def test_tabs(self, *words):
        """Without --csv a list has the same fields as they are, with tabs between them and no names of columns above them."""
        exact = records_of(printed(self.folder, self.books, *words), "\t")
        same(f"{' '.join(words)} without --csv", guarded(exact), self.records(*words)[1:])

    # ---- posts

    def test_posts(self):
        """Each entry balances in each fund and year, places rise, and the posts of each account and year sum to those of the office."""
        entries, sums, found = Counter(), Counter(), Counter()
        for post in self.posts:
            amount = cents(post["amount"])
            entries[post["place"], post["basis"], post["fund"], post["year"]] += amount
            found[post["basis"], int(post["year"]), int(post["fund"]), int(post["account"])] += amount
        same("an entry's posts", {key: amount for key, amount in entries.items() if amount}, {})
        places = [int(post["place"]) for post in self.posts]
        same("the order of places", places, sorted(places))
        for basis in ("fund", "gov"):
            for year, fund, account, amount in self.office.posts[basis]:
                sums[basis, year, fund, account] += amount
        same("the posts of accounts by year", nonzero(found), nonzero(sums))

    def test_filters(self):
        """A filter gives the rows that it names."""
        if not self.posts:
            return
        one = self.posts[len(self.posts) // 2]
        for column in ("year", "fund", "account"):
            same(f"posts by {column}", self.rows_of("posts", f"--{column}", one[column]), [post for post in self.posts if post[column] == one[column]])

    # ---- balances

    def test_balances(self, year):
        """A trial balance has the office's rows, each fund's sums to zero, and each account's is its look and the sum of its posts."""
        head, *rows = self.records("balances", str(year))
        same("the columns of a trial balance", head, "basis fund fund_name account account_name balance".split())
        same(f"the balances of {year}", rows, guarded(balances_of(self.office, year)))
        come_to_zero(f"the sums of {year}", rows)
        posted = Counter()
        for post in self.posts:
            posted[post["basis"], post["fund"], post["account"]] += cents(post["amount"]) if int(post["year"]) <= year else 0
        shown = {(basis, fund, account): cents(balance) for basis, fund, _, account, _, balance in rows}
        same(f"the posts through {year}", shown, nonzero(posted))
        keys = sorted(posted)
        asked = [{"call": "account", "basis": basis, "year": year, "fund": int(fund), "account": int(account)} for basis, fund, account in keys]
        same(f"the looks of {year}", [int(look["balance"]) for look in self.looks(asked)], [posted[key] for key in keys])

    def test_year_balances(self, year):
        """A trial balance of a year alone has the office's rows, and each fund's sums to zero."""
        head, *rows = self.records("balances", str(year), "--alone")
        same("the columns of a year's trial balance", head, "basis fund fund_name account account_name balance".split())
        same(f"the balances of {year} alone", rows, guarded(year_balances_of(self.office, year)))
        come_to_zero(f"the sums of {year} alone", rows)

    # ---- what was paid

    def test_paid(self, year):
        """What each vendor was paid in a calendar year, by the calls, and in all by the amounts of the payments."""
        calls = [json.loads(line) for line in printed(self.folder, self.books, "calls").splitlines()]
        listed = list(zip(self.rows_of("list"), calls, strict=True))
        head, *rows = self.records("paid", str(year))
        same("the columns of what was paid", head, "vendor document number key day run amount".split())
        same(f"what was paid in {year}", rows, guarded(paid_of(listed, year)))
        runs = sum(cents(row["amount"]) for row, call in listed if call["call"] == "pay" and call["on"].startswith("%d-" % year))
        same(f"the payments of vouchers of {year}", sum(cents(row[-1]) for row in rows if row[1] == "voucher"), runs)

    # ---- statements

    def test_statement(self, year, kind):
        """A statement has the rows of `report`, with their names."""
        head, *rows = self.records("statement", str(year), kind)
        same(f"the columns of {kind}", head, HEADS.get(kind, "section name amount").split())
        report = printed(self.folder, self.program, "report", str(year), kind, "--csv")
        same(f"the rows of {kind} of {year}", rows, guarded(named_rows(self.office, kind, records_of(report))))

    # ---- what is open

    def open_documents(self, drawn):
        """What is open by the looks at each number."""
        counts = {**drawn, "bond": drawn["issue"] + drawn["lease"]}
        for call in ("requisition", "order", "bill", "voucher", "bond"):
            looks = self.looks([{"call": call, call: number} for number in range(1, counts.get(call, 0) + 1)])
            for number, look in enumerate(looks, 1):
                yield from self.open_of(call, number, look)

    def open_of(self, call, number, look):
        if call == "requisition" and look["state"] == "open":
            return [(call, number, str(place), str(item["line"]), int(item["amount"]), "", "", "") for place, item in enumerate(look["items"], 1)]
        if call == "order":
            items = [(place, item) for place, item in enumerate(look["items"], 1) if item["state"] == "live"]
            return [(call, number, str(place), str(item["line"]), int(item["open"]), "", "", "") for place, item in items]
        if call == "bill" and int(look["left"]):
            return [(call, number, "", "", int(look["left"]), "", "", "")]
        if call == "voucher" and look["state"] == "open":
            return [(call, number, "", "", int(look["amount"]), "", "", "")]
        if call == "bond" and look.get("next"):
            return [(call, number, "", "", int(look["outstanding"]), look["next"], *self.due(number))]
        return []

    def due(self, number):
        """What the independent office asks of a debt's next payment: principal and interest, and the interest alone."""
        bond = self.office.bonds[number - 1]
        interest = self.office.coupon(bond, bond["paid"] + 1)
        return money(bond["principals"][bond["paid"]] + interest), money(interest)

    def test_open(self):
        entries = [json.loads(line) for line in printed(self.folder, self.books, "calls").splitlines()]
        same("the number of entries", len(entries), len(self.office.entries))
        rows = self.rows_of("open")
        found = [
            (
                "bond" if row["call"] in ("issue", "lease") else row["call"], int(row["number"]), row["item"], row["line"],
                cents(row["open"]), row["next"], row["due"], row["interest"],
            )
            for row in rows
            if row["call"] != "close"
        ]
        same("what is open", found, list(self.open_documents(Counter(entry["call"] for entry in entries))))
        closed = [entry.get("month", entry.get("year")) for entry in entries if entry["call"] == "close"]
        same("what is closed", [row["closed"] for row in rows if row["call"] == "close"], [str(period) for period in closed])

    def tests(self):
        """Each test with what it is of."""
        yield self.test_posts, ()
        yield self.test_filters, ()
        yield self.test_open, ()
        for year in (self.years[0] - 1, *self.years, self.years[-1] + 1):
            if year in YEARS:
                yield self.test_balances, (year,)
                yield self.test_year_balances, (year,)
                yield self.test_paid, (year,)
        for year, kind in itertools.product(self.years, KINDS):
            yield self.test_statement, (year, kind)
        first = str(self.years[0])
        for words in (("posts",), ("open",), ("balances", first), ("balances", first, "--alone"), ("paid", first), *(("statement", first, kind) for kind in KINDS)):
            yield self.test_tabs, words


def nonzero(sums):
    return {key: amount for key, amount in sums.items() if amount}


def main(program, books, folder, chart, talk):
    lists = Lists(program, books, folder, office_after(chart, talk))
    for test, of in lists.tests():
        try:
            test(*of)
        except Different as different:
            sys.exit(f"{talk}: {different}")


if __name__ == "__main__":
    main(*sys.argv[1:])
