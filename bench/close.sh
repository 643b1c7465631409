#!/bin/sh
# What assets, bonds and the close of a month cost, on the built program: microseconds a gift of an asset, a voucher that buys
# one, its void, a disposal and a look at an asset after 1,000 and after 100,000 assets; an issue, a payment, a look at a bond and leave
# earned after 1,000 and after 10,000 bonds; then milliseconds a close of a month over assets in service, 100,000 at most, and
# over 100,000 that are fully worn, void or disposed of, which cost nothing more than none; and the same over bonds. The journal lies in
# memory (/dev/shm), where a sync costs nothing, so this is the work of the program and of the system's calls.
top=$(cd "$(dirname "$0")/.." && pwd)
. "$top/tests/lib/program.sh"
scratch=$(mktemp -d /dev/shm/close.XXXXXX) || exit 1
trap 'rm -rf "$scratch"' EXIT
cp "$top/examples/rivertown/chart.toml" "$scratch/rivertown.toml"
cd "$scratch" && PYTHONPATH=$top/bench PYTHONDONTWRITEBYTECODE=1 python3 - "$program" <<'PY'
import itertools, os, subprocess, sys, talks

BATCH = 1_000
ITEMS = 32
CITY = open("rivertown.toml").read()
MONTHS = ["2025-07", "2025-08", "2025-09", "2025-10", "2025-11", "2025-12", "2026-01", "2026-02", "2026-03", "2026-04", "2026-05"]
keys = itertools.count()

def call(word, desk, fields, on="2025-07-01"):
    return '{"call":"%s","desk":%d,"key":"k%d","on":"%s",%s}\n' % (word, desk, next(keys), on, fields)

def adopt():
    return call("adopt", 1, '"fund":1,"year":2026,"lines":[%s],"estimates":[]' % ",".join('{"line":%d,"amount":1000000000000}' % line for line in (2, 6, 7)))

def gift():
    return call("asset", 7, '"what":"donate","dept":10,"object":710,"amount":123456')

def purchase(items=1):
    return call("voucher", 4, '"vendor":90,"items":[%s]' % ",".join(['{"fund":1,"dept":10,"object":710,"amount":123456}'] * items))

def void(voucher):
    return call("void_voucher", 4, '"voucher":%d' % voucher)

def disposal(asset):
    return call("asset", 7, '"what":"dispose","asset":%d,"fund":1,"proceeds":0' % asset, "2026-06-30")

def issue():
    return call("issue", 5, '"fund":3,"amount":1000,"rate_bp":400,"every":1,"principals":[1000]')

def payment(bond):
    return call("pay_due", 5, '"bond":%d,"fund":1,"dept":10,"principal":810,"interest":820' % bond, "2026-06-30")

def earned():
    return call("leave", 8, '"what":"earn","fund":1,"dept":10,"amount":900')

def close(month):
    return call("close", 9, '"what":"month","month":"%s"' % month, "2026-06-30")

def talk(desk, lines):
    """The seconds that these calls took, each of which has to be accepted or shown."""
    seconds, replies = talks.talk(desk, lines)
    for line, reply in zip(lines, replies):
        assert b'"ok"' in reply or b'"is"' in reply, (line, reply)
    return seconds

def fresh_desk(life):
    """A desk over a journal with a budget and cash, and no other entry; equipment lives so many months."""
    if os.path.exists("fund.journal"):
        os.remove("fund.journal")
    open("chart.toml", "w").write(CITY.replace("\nlife = 3\n", "\nlife = %d\n" % life))
    subprocess.run([sys.argv[1], "found"], stdout=subprocess.DEVNULL, check=True)
    desk = subprocess.Popen([sys.argv[1], "desk"], stdin=subprocess.PIPE, stdout=subprocess.PIPE)
    talk(desk, [adopt(), call("receive", 5, '"source":1,"amount":1000000000000')])
    return desk

def ended(desk):
    desk.stdin.close()
    assert desk.wait() == 0

def buy(desk, assets):
    talk(desk, [purchase(ITEMS) for _ in range(assets // ITEMS)] + [purchase() for _ in range(assets % ITEMS)])

def spread(number, count):
    """Numbers from 1 to the count, far from one another."""
    return number * 7919 % count + 1

def calls_over_assets(assets):
    desk = fresh_desk(1200)
    buy(desk, assets)
    vouchers = assets // ITEMS + assets % ITEMS
    given = talk(desk, [gift() for _ in range(BATCH)])
    bought = talk(desk, [purchase() for _ in range(BATCH)])
    undone = talk(desk, [void(vouchers + 1 + number) for number in range(BATCH)])
    sold = talk(desk, [disposal(spread(number, assets)) for number in range(BATCH)])
    look = talk(desk, ['{"call":"asset","asset":%d}\n' % spread(number, assets) for number in range(BATCH)])
    ended(desk)
    print("after %s assets: a gift %.1f us, a purchase %.1f us, its void %.1f us, a disposal %.1f us, a look %.1f us"
          % (f"{assets:,}", *(seconds / BATCH * 1e6 for seconds in (given, bought, undone, sold, look))))

def calls_over_bonds(bonds):
    desk = fresh_desk(1200)
    talk(desk, [issue() for _ in range(bonds)])
    issued = talk(desk, [issue() for _ in range(BATCH)])
    paid = talk(desk, [payment(spread(number, bonds)) for number in range(BATCH)])
    look = talk(desk, ['{"call":"bond","bond":%d}\n' % spread(number, bonds) for number in range(BATCH)])
    leave = talk(desk, [earned() for _ in range(BATCH)])
    ended(desk)
    print("after %s bonds: an issue %.1f us, a payment %.1f us, a look %.1f us, leave earned %.1f us"
          % (f"{bonds:,}", *(seconds / BATCH * 1e6 for seconds in (issued, paid, look, leave))))

def closes(desk, months):
    """Milliseconds of a close, the middle one of these months."""
    return sorted(talk(desk, [close(month)]) * 1e3 for month in months)[len(months) // 2]

def close_in_service(assets):
    desk = fresh_desk(1200)
    buy(desk, assets)
    print("a close over %s assets in service: %.2f ms" % (f"{assets:,}", closes(desk, MONTHS)))
    ended(desk)

def close_over_gone(name, assets, life, calls):
    """Closes after the month in which the assets left service."""
    desk = fresh_desk(life)
    buy(desk, assets)
    talk(desk, calls(assets) + [close(MONTHS[0])])
    print("a close over %s assets that are %s: %.2f ms" % (f"{assets:,}", name, closes(desk, MONTHS[1:])))
    ended(desk)

def close_over_bonds(bonds):
    desk = fresh_desk(1200)
    talk(desk, [issue() for _ in range(bonds)])
    live = closes(desk, MONTHS[:1])
    talk(desk, [payment(number) for number in range(1, bonds + 1)] + [close(MONTHS[1])])
    print("a close over %s bonds: %.2f ms; where all are paid: %.2f ms" % (f"{bonds:,}", live, closes(desk, MONTHS[2:])))
    ended(desk)

for assets in (1_000, 100_000):
    calls_over_assets(assets)
for bonds in (1_000, 10_000):
    calls_over_bonds(bonds)
for assets in (0, 1_000, 10_000, 100_000):
    close_in_service(assets)
close_over_gone("fully worn", 100_000, 1, lambda _: [])
close_over_gone("void", 100_000, 1200, lambda assets: [void(number) for number in range(1, assets // ITEMS + assets % ITEMS + 1)])
close_over_gone("disposed of", 100_000, 1200, lambda assets: [disposal(number) for number in range(1, assets + 1)])
for bonds in (1_000, 10_000):
    close_over_bonds(bonds)
PY
