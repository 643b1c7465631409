#!/bin/sh
# How long the claims of a grant (`claim`) and the three statements of `report` alone take over a long journal, beside the balance sheet, on
# the built program. The journal has an adoption, and receipts, vouchers and their payments in turn, 100,000 entries or as many as the
# argument says; every fourth is a voucher that is paid and claimed. Each command is run three times; the least of its seconds count.
top=$(cd "$(dirname "$0")/.." && pwd)
. "$top/tests/lib/program.sh"
scratch=$(mktemp -d) || exit 1
trap 'rm -rf "$scratch"' EXIT
cp "$top/examples/milltown/chart.toml" "$scratch/chart.toml"
cd "$scratch" && PYTHONPATH=$top/tests/office PYTHONDONTWRITEBYTECODE=1 python3 - "$program" "${1:-100000}" <<'PY'
import subprocess, sys, time

from payloads import payload_of
from streams import journal_of

PROGRAM, ENTRIES = sys.argv[1], int(sys.argv[2])
RUNS = 3
GRANT = b"[[grant]]\nid = 1\nsource = 5\npayer = 9\naward = 10000000000000\nrate_bp = 8000\nlines = [30, 31, 32, 33, 34, 35, 36, 37]\n"
COMMANDS = [
    (["report", "2026", "balance"], b""), (["claim", "1", "2025-07-31", "6"], GRANT), (["report", "2026", "classes"], b""),
    (["report", "2026", "components"], b""), (["report", "2026", "major"], b""),
]

def calls():
    """Each voucher is paid from a receipt; days run through July."""
    lines = [dict(line=line, amount=10**12) for line in range(30, 38)]
    yield dict(call="adopt", desk=1, on="2025-07-01", fund=2, year=2026, lines=lines, estimates=[]), {}
    number = 0
    while True:
        number += 1
        on = "2025-07-%02d" % (number % 31 + 1)
        yield dict(call="receive", desk=5, on=on, source=5, amount=1000), {}
        item = dict(fund=2, dept=4, object=101 + number % 8, amount=1000)
        yield dict(call="voucher", desk=4, on=on, vendor=7, items=[item]), dict(number=number, first=1)
        yield dict(call="pay", desk=5, on=on, vouchers=[number]), {}
        yield dict(call="receive", desk=5, on=on, source=(4, 6)[number % 2], amount=number), {}

def seconds(words, given):
    start = time.time()
    said = subprocess.run([PROGRAM, *words], input=given, stdout=subprocess.PIPE, check=True).stdout
    return time.time() - start, said

with open("chart.toml", "rb") as file:
    chart = file.read()
payloads = [payload_of(dict(call, key="k%d" % place), drawn) for place, (call, drawn) in zip(range(ENTRIES), calls())]
with open("fund.journal", "wb") as file:
    file.write(journal_of(chart, payloads))
took = [min(seconds(words, given)[0] for words, given in [command] * RUNS) for command in COMMANDS]
for (words, given), least in zip(COMMANDS, took):
    lines = seconds(words, given)[1].count(b"\n")
    print(f"{' '.join(words)}: {ENTRIES:,} entries, {lines:,} lines, {least:.2f} s, {least / took[0]:.2f} times the balance sheet")
PY
