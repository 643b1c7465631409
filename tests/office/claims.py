"""Claims of reimbursement grants: what the command `claim` reads and writes, from its rules.

    claims.py CHART TALK GRANT DATE DESK DOCUMENT    prints the claims over the history of a talk whose replies stand beside it
    claims.py CHART DOCUMENT                         says the first fault of a document of grants, if it has one
"""
import re
import sys
import tomllib

MOST_BYTES, MOST_ROWS = 1_048_576, 64
KEYS = ("id", "source", "payer", "award", "rate_bp", "lines")
RANGES = dict(id=(1, 9999), payer=(0, 2**32 - 1), award=(1, 10**13), rate_bp=(1, 10000))
CLAIM_KEY = re.compile(r"claim-(0|[1-9][0-9]*)")


class GrantRefused(Exception):
    """The first fault of a document; `told` says it in words."""

    def __init__(self, name, **values):
        self.name, self.values = name, values

    def told(self):
        return " ".join([self.name, *("%s=%s" % value for value in self.values.items())])


def is_integer(value, least, most):
    return type(value) is int and least <= value <= most


def table_of(text):
    """The document's top level: TOML 1.0, whose integers have 64 bits."""
    if len(text) > MOST_BYTES:
        raise GrantRefused("TooLong")
    try:
        table = tomllib.loads(text.decode())
    except (UnicodeDecodeError, tomllib.TOMLDecodeError):
        raise GrantRefused("NotToml") from None
    if not all(-(2**63) <= number < 2**63 for number in integers_of(table)):
        raise GrantRefused("NotToml")
    return table


def integers_of(value):
    if isinstance(value, (dict, list)):
        for part in value.values() if isinstance(value, dict) else value:
            yield from integers_of(part)
    elif type(value) is int:
        yield value


def is_right(key, value, row, office):
    """Whether a value fits its key, where those before it do."""
    if key in RANGES:
        return is_integer(value, *RANGES[key])
    if key == "source":
        source = office.row("source", value) if is_integer(value, 1, 9999) else None
        return source is not None and source["kind"] in ("operating_grant", "capital_grant")
    fund = office.row("source", row["source"])["fund"]
    return (
        type(value) is list and 1 <= len(value) <= 64 and all(is_integer(line, 0, len(office.chart["line"]) - 1) for line in value)
        and len(set(value)) == len(value) and all(office.chart["line"][line]["fund"] == fund for line in value)
    )


def grants_of(text, office):
    """The grants of a document of bytes, or its first fault."""
    rows = table_of(text).get("grant", [])
    is_table = type(rows) is list and all(type(row) is dict for row in rows)
    if is_table and len(rows) > MOST_ROWS:
        raise GrantRefused("TooMany")
    if not is_table:
        raise GrantRefused("Bad", at=0, key="grant")
    for at, row in enumerate(rows):
        for key in KEYS:
            if key not in row:
                raise GrantRefused("Missing", at=at, key=key)
            if not is_right(key, row[key], row, office):
                raise GrantRefused("Bad", at=at, key=key)
        if any(row["id"] == before["id"] or row["source"] == before["source"] for before in rows[:at]):
            raise GrantRefused("Twice", at=at)
    return rows


def claim_bills(office):
    """The bills that are claims: the voucher's number as text, the source and the amount of each."""
    for call, _ in office.entries:
        named = CLAIM_KEY.fullmatch(call["key"])
        if call["call"] == "bill" and named:
            yield named.group(1), call["source"], call["amount"]


def eligible(office, grant, voucher):
    its = (item for item in voucher["items"] if item["line"] in grant["lines"])
    return sum(item["amount"] for item in its)


def claims(office, grant, on, desk):
    """The bills of a grant, as lines, through the vouchers by number."""
    billed = list(claim_bills(office))
    left = grant["award"] - sum(amount for _, source, amount in billed if source == grant["source"])
    claimed = {number for number, _, _ in billed}
    line = '{"amount":%d,"call":"bill","desk":%d,"key":"claim-%d","levy_year":%d,"on":"%s","payer":%d,"source":%d}\n'
    made = []
    for number, voucher in enumerate(office.vouchers, 1):
        if voucher["state"] == "paid" and voucher["year"] >= office.open_year() and str(number) not in claimed:
            amount = min(eligible(office, grant, voucher) * grant["rate_bp"] // 10000, left)
            if amount > 0:
                made.append(line % (amount, desk, number, voucher["year"], on, grant["payer"], grant["source"]))
                left -= amount
    return made


def claim(office, text, number, on, desk):
    """What the command writes for a document of bytes, or its fault."""
    named = [grant for grant in grants_of(text, office) if grant["id"] == number]
    if not named:
        raise GrantRefused("Unknown", id=number)
    return claims(office, named[0], on, desk)


def main(chart, *words):
    from answers import calls_in_form, office_of

    office = office_of(chart)
    with open(words[-1], "rb") as file:
        text = file.read()
    try:
        if len(words) == 1:
            grants_of(text, office)
            return
        for call in calls_in_form(words[0]):
            office.answer(call)
        print(*claim(office, text, int(words[1]), words[2], int(words[3])), sep="", end="")
    except GrantRefused as fault:
        sys.exit("grant refused: " + fault.told())


if __name__ == "__main__":
    main(*sys.argv[1:])
