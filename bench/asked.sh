#!/bin/sh
# What `books` is asked (its lists of documents, ledgers, months, payments, of the first entries and through a day) over a long journal,
# beside `cityfund report`, on the built programs: each list is to take at most three times the report's seconds, and twice its memory.
# The journal has 100,000 entries or as many as the argument says: requisitions, orders, invoices on them and others, payments, bills,
# collections and receipts, of which a part stays open; then the closes of the twelve months, the last of which rolls the year. Each
# command is run three times; the least of its seconds count. The status is 1 where one takes more.
top=$(cd "$(dirname "$0")/.." && pwd)
. "$top/tests/lib/program.sh"
books=${BOOKS:-$(built books)}
scratch=$(mktemp -d) || exit 1
trap 'rm -rf "$scratch"' EXIT
cp "$top/examples/milltown/chart.toml" "$scratch/chart.toml"
cd "$scratch" && PYTHONPATH=$top/tests/office PYTHONDONTWRITEBYTECODE=1 python3 - "$program" "$books" "${1:-100000}" <<'PY'
import os, subprocess, sys, time

from payloads import payload_of
from streams import journal_of

PROGRAM, BOOKS, ENTRIES = sys.argv[1], sys.argv[2], int(sys.argv[3])
RUNS, TIMES, MEMORY = 3, 3.0, 2.0
DAYS = ["2025-%02d-%02d" % (month, day) for month in range(7, 13) for day in range(1, 29)] + ["2026-%02d-%02d" % (month, day) for month in range(1, 7) for day in range(1, 29)]
HALF = str(ENTRIES // 2)
LISTS = [
    ["posts", "--through", "2025-12-31"], ["balances", "2026", "--through", "2025-12-31"], ["balances", "2026", "--alone"],
    *(["statement", "2026", kind, "--through", "2025-12-31"] for kind in ("balance", "operating", "budget", "position", "activities")),
    ["statement", "2026", "balance", "--entries", HALF], ["open", "--entries", HALF], ["list", "--entries", HALF], ["calls", "--entries", HALF],
    ["ledger"], ["ledger", "--csv"], ["ledger", "--line", "30"], ["ledger", "--vendor", "7"], ["ledger", "--through", "2025-12-31"], ["ledger", "--entries", HALF],
    ["documents"], ["documents", "--csv"], ["documents", "--kind", "order"], ["documents", "--key", "99"], ["documents", "--amount", "1000"],
    ["paid", "2025"], ["paid", "2026", "--csv"],
    ["month", "2025-12"], ["month", "2026-06", "--csv"],
]

def calls():
    """Ten entries in turn; what is held, ordered, owed and billed grows."""
    lines = [dict(line=line, amount=10**12) for line in range(30, 38)]
    yield dict(call="adopt", desk=1, fund=2, year=2026, lines=lines, estimates=[]), {}
    number = vouchers = orders = 0
    while True:
        number += 1
        item = dict(fund=2, dept=4, object=101 + number % 8, amount=1000)
        yield dict(call="requisition", desk=2, items=[item, item]), dict(number=2 * number - 1)
        yield dict(call="order", desk=3, vendor=number % 500, requisition=2 * number - 1, items=[item, item]), dict(number=orders + 1)
        orders += 1
        yield dict(call="voucher", desk=4, vendor=number % 500, items=[dict(item, order=orders, item=1, amount=900)]), dict(number=vouchers + 1, first=1)
        yield dict(call="receive", desk=5, source=5, amount=1000), {}
        yield dict(call="pay", desk=5, vouchers=[vouchers + 1]), {}
        yield dict(call="bill", desk=6, source=1, levy_year=2026, payer=number, amount=5000), dict(number=number)
        yield dict(call="collect", desk=5, bill=number, amount=3000), {}
        yield dict(call="requisition", desk=2, items=[item]), dict(number=2 * number)
        yield dict(call="order", desk=3, vendor=7, items=[item]), dict(number=orders + 1)
        orders += 1
        yield dict(call="voucher", desk=4, vendor=7, items=[item]), dict(number=vouchers + 2, first=1)
        vouchers += 2

def entries():
    """The entries, by rising day, and then the closes of the year's months."""
    count = ENTRIES - 12
    for place, (call, drawn) in zip(range(count), calls()):
        yield payload_of(dict(call, key="k%d" % place, on=DAYS[place * len(DAYS) // count]), drawn)
    for month in ["2025-%02d" % month for month in range(7, 13)] + ["2026-%02d" % month for month in range(1, 7)]:
        yield payload_of(dict(call="close", desk=9, key="close-" + month, on="2026-07-15", what="month", month=month), {})

def measured(*words):
    """The least seconds of some runs, the most memory in KiB, the bytes printed, and the status."""
    least, memory, size, status = None, 0, 0, 0
    for _ in range(RUNS):
        start = time.time()
        with open("out", "wb") as out:
            run = subprocess.Popen(words, stdout=out)
            _, ended, used = os.wait4(run.pid, 0)
        took, memory, status = time.time() - start, max(memory, used.ru_maxrss), status or os.waitstatus_to_exitcode(ended)
        least, size = took if least is None else min(least, took), os.path.getsize("out")
    return least, memory, size, status

with open("chart.toml", "rb") as file:
    chart = file.read()
with open("fund.journal", "wb") as file:
    file.write(journal_of(chart, list(entries())))
report, base, _, ended = measured(PROGRAM, "report", "2026", "balance")
print(f"cityfund report 2026 balance: {ENTRIES:,} entries in {report:.2f} s, {base:,} KiB, status {ended}")
more = 0
for words in LISTS:
    took, memory, size, status = measured(BOOKS, *words)
    is_more = took > TIMES * report or memory > MEMORY * base or status != 0
    more += is_more
    print(f"books {' '.join(words)}: {size:,} bytes in {took:.2f} s, {took / report:.2f} times the report; {memory:,} KiB, {memory / base:.2f} times its memory, "
          f"status {status}{'  MORE' if is_more else ''}")
print(f"{len(LISTS)} lists, {more} take more than {TIMES:.0f} times the seconds or {MEMORY:.0f} times the memory of the report")
sys.exit(min(more, 1))
PY
