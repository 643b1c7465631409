"""The lines of a generated run, by the rules alone: the calls are drawn anew, and the independent office takes them.

    generated.py CHART N
"""
import sys

from answers import office_of

DAY, VENDOR = "2025-07-01", 1


def account_of(line):
    """The fund, department and object of a control line of Milltown."""
    if line < 30:
        return 1, line // 10 + 1, 101 + line % 10
    if line < 38:
        return 2, 4, 101 + line - 30
    return 3, 4 if line == 38 else 1, 111


def item_of(line, amount):
    fund, department, its_object = account_of(line)
    return {"fund": fund, "dept": department, "object": its_object, "amount": amount}


def first_calls():
    """Budgets of 10^12 cents a line, and 10^13 cents received in each fund."""
    for fund, lines in (1, range(30)), (2, range(30, 38)), (3, range(38, 40)):
        yield {"call": "adopt", "desk": 1, "fund": fund, "year": 2026, "lines": [{"line": line, "amount": 10**12} for line in lines], "estimates": []}
    for source in 4, 5, 6:
        yield {"call": "receive", "desk": 5, "source": source, "amount": 10**13}


def drawn_calls(count):
    """An order, a voucher or a receipt by each number that is drawn; a voucher is on the last order where none named it yet."""
    drawn, orders, line_of_last = count, 0, None
    for _ in range(count):
        drawn = (1103515245 * drawn + 12345) % 2**31
        value = drawn // 65536
        line, kind, amount = value % 40, value // 40 % 4, value + 1
        if kind == 0:
            orders, line_of_last = orders + 1, line
            yield {"call": "order", "desk": 3, "vendor": VENDOR, "items": [item_of(line, amount)]}
        elif kind == 3:
            yield {"call": "receive", "desk": 5, "source": 4, "amount": amount}
        elif kind == 2 and line_of_last is not None:
            item = item_of(line_of_last, amount) | {"order": orders, "item": 1, "final": True}
            line_of_last = None
            yield {"call": "voucher", "desk": 4, "vendor": VENDOR, "items": [item]}
        else:
            yield {"call": "voucher", "desk": 4, "vendor": VENDOR, "items": [item_of(line, amount)]}


def money(cents):
    return "%s%d.%02d" % ("-" if cents < 0 else "", abs(cents) // 100, abs(cents) % 100)


def print_run(chart, count):
    office = office_of(chart)
    last = {"call": "close", "desk": 9, "what": "month", "month": "2025-07"}
    calls = [*first_calls(), *drawn_calls(count), last]
    for number, call in enumerate(calls, 1):
        assert "ok" in office.answer(call | {"key": "g%d" % number, "on": DAY}), call
    print("%-40s%20d" % ("Entries", len(calls)))
    for label, basis in ("Total fund balances", "fund"), ("Net position", "gov"):
        print("%-40s%20s" % (label, money(office.total(basis, 2026))))


if __name__ == "__main__":
    print_run(sys.argv[1], int(sys.argv[2]))
