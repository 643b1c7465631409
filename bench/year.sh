#!/bin/sh
# What the end of a fiscal year and its statements cost, on the built program: milliseconds the close of a year's last month,
# which rolls it, beside that of the month before it. First over orders that are open and carried; then with 10 open orders
# beside 100,000 orders of later years, of an earlier year, and of the same year but finished: the roll goes once over all
# rows of documents (crates/cf_orders). Then microseconds a look at each statement after 1,000 and after 100,000 vouchers.
# The journal lies in memory (/dev/shm), where a sync costs nothing, so this is the work of the program and of the system's
# calls.
top=$(cd "$(dirname "$0")/.." && pwd)
. "$top/tests/lib/program.sh"
scratch=$(mktemp -d /dev/shm/year.XXXXXX) || exit 1
trap 'rm -rf "$scratch"' EXIT
cp "$top/examples/rivertown/chart.toml" "$scratch/chart.toml"
cd "$scratch" && PYTHONPATH=$top/bench PYTHONDONTWRITEBYTECODE=1 python3 - "$program" <<'PY'
import itertools, os, subprocess, sys, talks

FEW, MANY, LOOKS = 10, 100_000, 200
KINDS = ("balance", "operating", "budget", "position", "activities", "reconcile", "changes")
keys = itertools.count()

def call(word, on, fields):
    return '{"call":"%s","desk":10,"key":"k%d","on":"%s",%s}\n' % (word, next(keys), on, fields)

def adopt(year):
    return call("adopt", "2025-07-01", '"fund":2,"year":%d,"lines":[{"line":4,"amount":10000000000000}],"estimates":[]' % year)

def order(on):
    return call("order", on, '"vendor":77,"items":[{"fund":2,"dept":20,"object":510,"amount":1000}]')

def bill_of(number):
    return call("voucher", "2025-07-05", '"vendor":77,"items":[{"fund":2,"dept":20,"object":510,"amount":1000,"order":%d,"item":1,"final":true}]' % number)

def direct():
    return call("voucher", "2025-07-05", '"vendor":77,"items":[{"fund":2,"dept":20,"object":510,"amount":1}]')

def close(year, month):
    return call("close", "%d-06-30" % year, '"what":"month","month":"%d-%02d"' % (year - (month > 6), month))

def talk(desk, lines):
    """The seconds that these calls took, each of which has to be accepted or shown."""
    seconds, replies = talks.talk(desk, lines)
    for line, reply in zip(lines, replies):
        assert b'"ok"' in reply or b'"is"' in reply, (line, reply)
    return seconds

def fresh_desk():
    """A desk over a journal with budgets of three years, and no other entry."""
    if os.path.exists("fund.journal"):
        os.remove("fund.journal")
    subprocess.run([sys.argv[1], "found"], stdout=subprocess.DEVNULL, check=True)
    desk = subprocess.Popen([sys.argv[1], "desk"], stdin=subprocess.PIPE, stdout=subprocess.PIPE)
    talk(desk, [adopt(2026), adopt(2027), adopt(2028)])
    return desk

def ended(desk):
    desk.stdin.close()
    assert desk.wait() == 0

def rolled(desk, year):
    """Milliseconds of the close of May, and of that of June."""
    talk(desk, [close(year, month) for month in (7, 8, 9, 10, 11, 12, 1, 2, 3, 4)])
    return talk(desk, [close(year, 5)]) * 1e3, talk(desk, [close(year, 6)]) * 1e3

def roll_of(name, lines, year=2026):
    desk = fresh_desk()
    talk(desk, lines)
    if year == 2027:
        rolled(desk, 2026)
    talk(desk, [order("%d-07-05" % (year - 1)) for _ in range(FEW)])
    print("%s: the close of May %.2f ms, of June with the roll %.2f ms" % (name, *rolled(desk, year)))
    ended(desk)

def reports_after(entries):
    desk = fresh_desk()
    talk(desk, [direct() for _ in range(entries)])
    looks = [(kind, talk(desk, ['{"call":"report","year":2026,"kind":"%s"}\n' % kind] * LOOKS)) for kind in KINDS]
    ended(desk)
    print("after %s vouchers a look at" % f"{entries:,}", ", ".join("%s %.0f us" % (kind, seconds / LOOKS * 1e6) for kind, seconds in looks))

for count in (0, 1_000, 10_000, MANY):
    roll_of("%s more open orders" % f"{count:,}", [order("2025-07-05") for _ in range(count)])
beside = "10 open orders beside %s" % f"{MANY:,}"
roll_of(beside + " of later years", [order("2027-07-05") for _ in range(MANY)])
finished = [order("2025-07-05") for _ in range(MANY)] + [bill_of(number) for number in range(1, MANY + 1)]
roll_of(beside + " of the same year, finished", finished)
roll_of(beside + " of the year before, finished", finished, 2027)
for entries in (1_000, MANY):
    reports_after(entries)
PY
