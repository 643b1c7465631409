"""The laws that tie statements and registers to the ledger, over histories of the independent office.

    python3 tests/office/ties.py [CHART TALK]    prints what differs, and how much was compared

It reads the stored talks of examples/, or the one talk that is named; its replies stand beside it, and
what isn't in form is passed over. Each law is tried for each fiscal year of the talk, at its end, and
where it has fewer than 200 calls after some hundred of them.
"""
import glob
import json
import os
import sys

from answers import calls_in_form, office_of
from classes import CLASSES, ELEMENTS
from stored import JOINED, RIVERTOWN, TOP, talks

LAST = 9999  # through all years
ITEMS = dict(  # the government-wide accounts of each item of the summary reconciliation
    capital_assets=(150000, 159000), right_to_use=(151000, 159100), bonds=(250000,), leases=(251000,),
    accrued_interest=(260000,), leave=(270000,),
)


def items(office, year):
    """Each item of the summary reconciliation, and what its own accounts have."""
    shown = office.reconciliation(year)
    for item, accounts in ITEMS.items():
        yield item, shown[item], sum(office.balance("gov", year, 0, account) for account in accounts)
    funds = (fund["id"] for fund in office.chart["fund"])
    yield "unavailable", shown["unavailable"], -sum(office.balance("fund", year, fund, 290000) for fund in funds)


def comparison(office, year):
    """The actual amounts of a fund's lines and sources on the comparison, and the totals of its operating statement."""
    for fund in office.chart["fund"]:
        totals = {row[0]: row[1] for row in office.operating_of(year, fund)[1:]}
        actual = {True: 0, False: 0}  # of its lines, and of its sources
        for name, _, _, amount, *_ in comparison_part(office, year, fund):
            actual[name.startswith("Line ")] += amount
        yield "expended of fund %d" % fund["id"], actual[True], totals["Total expenditures"]
        yield "revenues of fund %d" % fund["id"], actual[False], totals["Total revenues"]


def comparison_part(office, year, fund):
    """The rows of a fund on the budgetary comparison."""
    rows = iter(office.rows_of_budget(year))
    names = {other["name"] for other in office.chart["fund"]}
    for row in rows:
        if len(row) == 1 and row[0] == fund["name"]:
            break
    for row in rows:
        if len(row) == 1 and row[0] in names:
            break
        yield row


def three_statements(office, year):
    """Assets less liabilities; the classes of a balance, each within it where it isn't below zero; the funds that aren't major."""
    for fund in office.chart["fund"]:
        assets, liabilities, _, _ = office.elements(year, fund["id"])
        balance = office.fund_balance(year, fund["id"])
        yield "balance of fund %d" % fund["id"], assets - liabilities, balance
        found = office.classes(year, fund)
        yield "classes of fund %d" % fund["id"], sum(found.values()), balance
        if balance >= 0:
            yield "classes within fund %d" % fund["id"], all(0 <= found[name] <= balance for name in CLASSES), True
    shown, others, total = shown_funds(office, year)
    elements = [(fund["name"], office.elements(year, fund["id"])) for fund in office.chart["fund"]]
    for place, name in enumerate(ELEMENTS):
        yield "%s of other funds" % name, others[place], sum(of[place] for fund, of in elements if fund not in shown)
        yield "%s of all funds" % name, total[place], sum(of[place] for _, of in elements)


def shown_funds(office, year):
    """The names of the major funds, and the four elements of the others and of all."""
    rows = office.rows_of_major(year)
    parts = [rows[at:at + 1 + len(ELEMENTS)] for at in range(0, len(rows), 1 + len(ELEMENTS))]
    *major, others, total = ((part[0][0], [row[1] for row in part[1:]]) for part in parts)
    return [name for name, _ in major], others[1], total[1]


def open_documents(office, year):
    """What is left of bills, and open vouchers, fund by fund, through all years."""
    for fund in (row["id"] for row in office.chart["fund"]):
        sources = {source["id"] for source in office.chart["source"] if source["fund"] == fund}
        left = sum(bill["amount"] - sum(a for _, a in bill["settled"]) for bill in office.bills if bill["source"]["id"] in sources)
        yield "bills of fund %d" % fund, left, office.balance("fund", LAST, fund, 110000)
        owed = sum(
            item["amount"] for voucher in office.vouchers if voucher["state"] == "open" for item in voucher["items"]
            if office.chart["line"][item["line"]]["fund"] == fund
        )
        yield "vouchers of fund %d" % fund, owed, -office.balance("fund", LAST, fund, 200000)


LAWS = (items, comparison, three_statements, open_documents)


def differing(office, name):
    """What differs after this history, and how many amounts were compared."""
    faults, compared = [], 0
    first = office.chart["first_year"]
    for year in range(first - 1, office.open_year() + 2):
        for law in LAWS:
            for what, one, other in law(office, year):
                compared += 1
                if one != other:
                    faults.append("%s after %d entries, %d: %s: %s and %s" % (name, len(office.entries), year, what, one, other))
    return faults, compared


def history(names, chart):
    """What differs in a talk, or in talks one after another, at some places and at the end."""
    office, faults, compared = office_of(chart), [], 0
    calls = [call for name in names for call in calls_in_form(name)]
    every = max(1, len(calls) // 100)
    for number, call in enumerate(calls, 1):
        office.answer(call)
        if "desk" in call and number % every == 0 and len(calls) < 200 or number == len(calls):
            found, count = differing(office, names[-1])
            faults, compared = faults + found, compared + count
    return faults, compared


def main(chart=None, talk=None):
    if talk:
        told = [([talk], chart)]
    else:
        os.chdir(TOP)
        joined = [(["examples/%s.jsonl" % name for name in names], RIVERTOWN) for names in JOINED]
        told = [([talk], chart) for talk, chart in talks()] + joined
    faults, compared = [], 0
    for names, chart in told:
        found, count = history(names, chart)
        faults, compared = faults + found, compared + count
    print(*faults, sep="\n", end="\n" if faults else "")
    print("%d amounts of %d histories, %d differ" % (compared, len(told), len(faults)))
    return min(len(faults), 1)


if __name__ == "__main__":
    sys.exit(main(*sys.argv[1:]))
