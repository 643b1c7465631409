"""The last fifty fiscal years that there are, month by month: last_years.py FOLDER writes what talks.py does.

One order is carried from year to year into 2200, and each year is closed as soon as its window is.
"""
import calendar
import datetime
import sys

from answers import office_of
from calls import text_of
from talks import write_talk

ACCOUNTS = (dict(fund=1, dept=20, object=510), dict(fund=2, dept=20, object=510))
LINES = (3, 4)


def month_calls(office, year, month):
    """What is said on the last day of a month: the close of the month, and of a year where its window ends."""
    on = "%04d-%02d-%02d" % (year, month, calendar.monthrange(year, month)[1])
    if month == office.chart["first_month"]:
        named = min(2199, office.year_of(datetime.date(year, month, 1)))
        for account, line in zip(ACCOUNTS, LINES):
            budget = [dict(line=line, amount=10**6)]
            yield dict(call="adopt", on=on, fund=account["fund"], year=named, lines=budget, estimates=[])
            yield dict(call="order", on=on, vendor=1, items=[dict(account, amount=1000)])
        yield dict(call="change_order", on=on, order=2, item=1, by=-1, **ACCOUNTS[1])
        yield dict(call="voucher", on=on, vendor=1, items=[dict(ACCOUNTS[1], amount=10, order=2, item=1)])
    yield dict(call="close", on=on, what="year", year=office.open_year())
    yield dict(call="close", on=on, what="month", month=on[:7])
    yield {"call": "order", "order": 2}
    yield {"call": "report", "year": min(2199, office.open_year()), "kind": "budget"}


def lines(office):
    for number in range(12 * (2199 - office.chart["first_year"]) + 19):
        year, month = office.month_at(number)
        for count, call in enumerate(month_calls(office, year, month) if year < 2200 else ()):
            if "on" in call:
                call.update(desk=10, key="%d-%d" % (number, count))
            yield call, text_of(office.answer(call))


def main(folder):
    office = office_of("examples/rivertown/chart.toml")
    office.chart.update(first_year=2150)
    write_talk(folder, office, lines(office))


if __name__ == "__main__":
    main(sys.argv[1])
