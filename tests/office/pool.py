"""The interest of a month by average daily balances: what the command `pool` writes, from the definition.

    pool.py CHART TALK MONTH AMOUNT DESK    prints the receipts over the history of a talk whose replies stand beside it
"""
import calendar
import datetime
import sys

MOST_WEIGHT = 2**64 - 1


class NoShare(Exception):
    pass


def moves(office):
    """Each post on a fund's cash, with the day of its entry."""
    return [(datetime.date.fromisoformat(office.entries[at][0]["on"]), fund, amount) for at, fund, amount in office.cash_posts]


def days_of(month):
    year, number = map(int, month.split("-"))
    return [datetime.date(year, number, day + 1) for day in range(calendar.monthrange(year, number)[1])]


def interest_source(office, fund):
    """The least source of kind general of a fund, or None."""
    return min((row["id"] for row in office.chart["source"] if (row["fund"], row["kind"]) == (fund, "general")), default=None)


def daily_sum(made, fund, month):
    """A fund's cash at the end of each day of a month, summed: day by day, as it is defined."""
    return sum(sum(amount for on, of, amount in made if of == fund and on <= day) for day in days_of(month))


def counted_once(made, fund, month):
    """The same in another way: each post times the days of the month that it stood."""
    days = days_of(month)
    return sum(amount * len([day for day in days if on <= day]) for on, of, amount in made if of == fund)


def share_out(total, weights):
    """Parts of a total by weights: whole parts first, then one each by the largest remainder, of equal ones the first."""
    whole = sum(weights)
    shares = [total * weight // whole for weight in weights]
    by_rest = sorted(range(len(weights)), key=lambda place: (-(total * weights[place] % whole), place))
    for place in by_rest[: total - sum(shares)]:
        shares[place] += 1
    return shares


def weights(office, month):
    """Each fund by id with its weight: none where its sum is negative, or where it has no source to receive on."""
    made, found = moves(office), []
    for fund in sorted(row["id"] for row in office.chart["fund"]):
        its = [move for move in made if move[1] == fund]
        weight = daily_sum(its, fund, month)
        assert weight == counted_once(its, fund, month)
        found.append((fund, max(0, weight) if interest_source(office, fund) else 0))
    return found


def pool(office, month, amount, desk):
    """The lines of a month's receipts; NoShare with the sum of the weights where nothing or too much weighs."""
    weighed = weights(office, month)
    whole = sum(weight for _, weight in weighed)
    if not 1 <= whole <= MOST_WEIGHT:
        raise NoShare(whole)
    shares = share_out(amount, [weight for _, weight in weighed])
    line = '{"amount":%d,"call":"receive","desk":%d,"key":"pool-%s-%d","on":"%s","source":%d}\n'
    return [
        line % (share, desk, month, fund, days_of(month)[-1], interest_source(office, fund))
        for (fund, _), share in zip(weighed, shares) if share > 0
    ]


if __name__ == "__main__":
    from answers import calls_in_form, office_of

    its_office = office_of(sys.argv[1])
    for call in calls_in_form(sys.argv[2]):
        its_office.answer(call)
    try:
        print(*pool(its_office, sys.argv[3], int(sys.argv[4]), int(sys.argv[5])), sep="", end="")
    except NoShare as found:
        sys.exit("no share: the weights come to %s" % found)
