#!/bin/sh
# What calls cost over a short and a long history, on the built program: microseconds a direct voucher, its payment, and
# looks at a line and at an account after 1,000 and after 100,000 accepted entries, vouchers a second, and bytes of memory an
# entry; then microseconds a voucher on an order's item, and its void, after 1,000 and after 100,000 orders; then a bill, a
# collection, a look at a bill, and the reconciliation of the year under way and of the year before, after 1,000 and after 100,000
# bills and as many collections. The journal lies in memory
# (/dev/shm), where a sync costs nothing, so this is the work of the program and of the system's calls; bench/durable.sh has
# the disk's.
top=$(cd "$(dirname "$0")/.." && pwd)
. "$top/tests/lib/program.sh"
scratch=$(mktemp -d /dev/shm/growth.XXXXXX) || exit 1
trap 'rm -rf "$scratch"' EXIT
cp "$top/examples/rivertown/chart.toml" "$scratch/chart.toml"
cd "$scratch" && PYTHONPATH=$top/bench PYTHONDONTWRITEBYTECODE=1 python3 - "$program" <<'PY'
import os, subprocess, sys, talks

ADOPT = ('{"call":"adopt","desk":1,"key":"b","on":"2025-07-01","fund":1,"year":2026,'
         '"lines":[{"line":3,"amount":1000000000}],"estimates":[]}\n')
LOOK = '{"call":"line","line":3,"year":2026}\n'
ACCOUNT = '{"call":"account","basis":"fund","year":2026,"fund":1,"account":200000}\n'
RECONCILE = '{"call":"reconcile","year":2027}\n'
YEAR_BACK = '{"call":"reconcile","year":2026}\n'
RECEIVE = '{"call":"receive","desk":5,"key":"r","on":"2025-07-05","source":1,"amount":1000000000}\n'
BATCH = 20_000

def vouchers(first, count):
    return [('{"call":"voucher","desk":4,"key":"v%d","on":"2025-07-05","vendor":77,'
             '"items":[{"fund":1,"dept":20,"object":510,"amount":1}]}\n' % number) for number in range(first, first + count)]

def orders(count):
    return [('{"call":"order","desk":3,"key":"o%d","on":"2025-07-05","vendor":77,'
             '"items":[{"fund":1,"dept":20,"object":510,"amount":1000}]}\n' % number) for number in range(count)]

def item_vouchers(count, orders):
    return [('{"call":"voucher","desk":4,"key":"v%d","on":"2025-07-05","vendor":77,"items":[{"fund":1,"dept":20,"object":510,'
             '"amount":1,"order":%d,"item":1}]}\n' % (number, number * 7919 % orders + 1)) for number in range(count)]

def voids(count):
    return ['{"call":"void_voucher","desk":4,"key":"w%d","on":"2025-07-06","voucher":%d}\n' % (number, number + 1) for number in range(count)]

def payments(count):
    return ['{"call":"pay","desk":5,"key":"p%d","on":"2025-07-06","vouchers":[%d]}\n' % (number, number + 1) for number in range(count)]

def bills(first, count):
    return ['{"call":"bill","desk":6,"key":"b%d","on":"2025-07-05","source":1,"levy_year":2026,"payer":9,"amount":1000}\n' % number for number in range(first, first + count)]

def collections(first, count, bills):
    return ['{"call":"collect","desk":5,"key":"c%d","on":"2025-07-05","bill":%d,"amount":1}\n' % (number, number * 7919 % bills + 1) for number in range(first, first + count)]

def bill_looks(count, bills):
    return ['{"call":"bill","bill":%d}\n' % (number * 7919 % bills + 1) for number in range(count)]

def talk(desk, lines):
    """The seconds that these calls took, and how many of them were accepted."""
    seconds, replies = talks.talk(desk, lines)
    return seconds, sum(b'"ok"' in reply for reply in replies)

def fresh_desk():
    """A desk over a journal with no entry."""
    if os.path.exists("fund.journal"):
        os.remove("fund.journal")
    subprocess.run([sys.argv[1], "found"], stdout=subprocess.DEVNULL, check=True)
    return subprocess.Popen([sys.argv[1], "desk"], stdin=subprocess.PIPE, stdout=subprocess.PIPE)

def resident(desk):
    with open(f"/proc/{desk.pid}/statm") as pages:
        return int(pages.read().split()[1]) * 4096

for entries in (1_000, 100_000):
    desk = fresh_desk()
    talk(desk, [ADOPT])
    before = resident(desk)
    talk(desk, vouchers(0, entries - 1))
    grown = (resident(desk) - before) / entries
    seconds, accepted = talk(desk, vouchers(entries, BATCH))
    look, _ = talk(desk, [LOOK] * BATCH)
    account, _ = talk(desk, [ACCOUNT] * BATCH)
    talk(desk, [RECEIVE])
    paying, paid = talk(desk, payments(BATCH))
    desk.stdin.close()
    status = desk.wait()
    print(f"after {entries:,} entries: a voucher {seconds / BATCH * 1e6:.1f} us ({BATCH / seconds:,.0f} a second, {accepted:,} accepted), "
          f"a payment {paying / BATCH * 1e6:.1f} us ({paid:,} accepted), a look at a line {look / BATCH * 1e6:.1f} us, "
          f"at an account {account / BATCH * 1e6:.1f} us, {grown:,.0f} bytes an entry, status {status}")

for documents in (1_000, 100_000):
    desk = fresh_desk()
    talk(desk, [ADOPT])
    talk(desk, orders(documents))
    seconds, accepted = talk(desk, item_vouchers(BATCH, documents))
    undone, voided = talk(desk, voids(BATCH))
    desk.stdin.close()
    status = desk.wait()
    print(f"after {documents:,} orders: a voucher on an item {seconds / BATCH * 1e6:.1f} us ({accepted:,} accepted), "
          f"a void {undone / BATCH * 1e6:.1f} us ({voided:,} accepted), status {status}")

for billed in (1_000, 100_000):
    desk = fresh_desk()
    talk(desk, bills(0, billed))
    talk(desk, collections(0, billed, billed))
    seconds, accepted = talk(desk, bills(billed, BATCH))
    taking, collected = talk(desk, collections(billed, BATCH, billed))
    look, _ = talk(desk, bill_looks(BATCH, billed))
    joined, _ = talk(desk, [RECONCILE] * BATCH)
    back, _ = talk(desk, [YEAR_BACK] * BATCH)
    desk.stdin.close()
    status = desk.wait()
    print(f"after {billed:,} bills and collections: a bill {seconds / BATCH * 1e6:.1f} us ({accepted:,} accepted), "
          f"a collection {taking / BATCH * 1e6:.1f} us ({collected:,} accepted), a look at a bill {look / BATCH * 1e6:.1f} us, "
          f"a reconciliation {joined / BATCH * 1e6:.1f} us, of a year back {back / BATCH * 1e6:.1f} us, status {status}")
PY
