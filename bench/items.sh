#!/bin/sh
# What the items of a call cost, on the built program: microseconds of the processor a call of one item and of 32 items, all
# on one control line or each on its own: direct vouchers, orders, vouchers on an order's items, and voids of both. Then how
# long a desk takes to open a journal of 20,000 vouchers of 32 items, or as many as its argument says. The journal lies in
# memory (/dev/shm), where a sync costs nothing. Prints a row a call, with the times of 32 items over those of one; where
# calls are too few for the processor's clock, 0.
top=$(cd "$(dirname "$0")/.." && pwd)
. "$top/tests/lib/program.sh"
scratch=$(mktemp -d /dev/shm/items.XXXXXX) || exit 1
trap 'rm -rf "$scratch"' EXIT
cd "$scratch" && python3 - "$program" "${1:-20000}" <<'PY'
import os, resource, subprocess, sys, threading, time

PROGRAM, CALLS = sys.argv[1], int(sys.argv[2])
ITEMS = 32

def table(name, rows):
    return "".join(f"[[{name}]]\n{row}\n" for row in rows)

def chart():
    """One fund, whose 32 objects have a control line each."""
    return ('city = "Items"\nfirst_year = 2026\nfirst_month = 7\n'
            + table("function", ['id = 1\nname = "General government"'])
            + table("fund", ['id = 1\nname = "General Fund"\ntype = "general"\nlevel = "object"\npolicy = "lapse"'])
            + table("department", ['id = 10\nname = "Administration"\nfunction = 1'])
            + table("object", [f'id = {501 + n}\nname = "Object {n}"\nclass = 5\nkind = "current"' for n in range(ITEMS)])
            + table("line", [f'fund = 1\ndept = 10\nobject = {501 + n}' for n in range(ITEMS)])
            + table("desk", ['id = 1\nname = "Council"\nroles = ["council"]',
                             'id = 3\nname = "Purchasing"\nroles = ["purchasing"]',
                             'id = 4\nname = "Payables"\nroles = ["payables"]']))

ADOPT = ('{"call":"adopt","desk":1,"key":"b","on":"2025-07-01","fund":1,"year":2026,"lines":['
         + ",".join(f'{{"line":{n},"amount":1000000000000}}' for n in range(ITEMS)) + '],"estimates":[]}\n')

def accounts(count, apart):
    return [f'"fund":1,"dept":10,"object":{501 + (n if apart else 0)}' for n in range(count)]

def direct(number, count, apart):
    items = ",".join(f'{{{account},"amount":1}}' for account in accounts(count, apart))
    return f'{{"call":"voucher","desk":4,"key":"v{number}","on":"2025-07-05","vendor":77,"items":[{items}]}}\n'

def order(number, count, apart):
    items = ",".join(f'{{{account},"amount":1000}}' for account in accounts(count, apart))
    return f'{{"call":"order","desk":3,"key":"o{number}","on":"2025-07-05","vendor":77,"items":[{items}]}}\n'

def on_order(number, count, apart):
    items = ",".join(f'{{{account},"amount":1,"order":{number},"item":{n}}}'
                     for n, account in enumerate(accounts(count, apart), 1))
    return f'{{"call":"voucher","desk":4,"key":"v{number}","on":"2025-07-05","vendor":77,"items":[{items}]}}\n'

def void(number, count, apart):
    return f'{{"call":"void_voucher","desk":4,"key":"w{number}","on":"2025-07-06","voucher":{number}}}\n'

def processor_seconds(desk):
    with open(f"/proc/{desk.pid}/stat") as fields:
        return int(fields.read().rsplit(")", 1)[1].split()[11]) / os.sysconf("SC_CLK_TCK")

def talk(desk, lines):
    """Microseconds a call, in user mode, and how many were accepted."""
    text = "".join(lines).encode()
    before = processor_seconds(desk)
    writer = threading.Thread(target=lambda: (desk.stdin.write(text), desk.stdin.flush()))
    writer.start()
    replies = [desk.stdout.readline() for _ in lines]
    writer.join()
    return (processor_seconds(desk) - before) / len(lines) * 1e6, sum(b'"ok"' in reply for reply in replies)

def fresh_desk():
    if os.path.exists("fund.journal"):
        os.remove("fund.journal")
    subprocess.run([PROGRAM, "found"], stdout=subprocess.DEVNULL, check=True)
    desk = subprocess.Popen([PROGRAM, "desk"], stdin=subprocess.PIPE, stdout=subprocess.PIPE)
    assert talk(desk, [ADOPT])[1] == 1
    return desk

def opening():
    before = resource.getrusage(resource.RUSAGE_CHILDREN).ru_utime
    subprocess.run([PROGRAM, "desk"], stdin=subprocess.DEVNULL, check=True)
    return resource.getrusage(resource.RUSAGE_CHILDREN).ru_utime - before

def over(cost, one):
    return f"{cost / one if one else 0:.1f} times"

def run(calls, count, apart):
    """Microseconds a call of each kind, with a void of each voucher at the end, and the seconds of opening before it."""
    desk = fresh_desk()
    costs = []
    for call in calls:
        cost, accepted = talk(desk, [call(number, count, apart) for number in range(1, CALLS + 1)])
        assert accepted == CALLS, (call.__name__, accepted)
        costs.append(cost)
    desk.stdin.close()
    desk.wait()
    seconds = opening()
    desk = subprocess.Popen([PROGRAM, "desk"], stdin=subprocess.PIPE, stdout=subprocess.PIPE)
    talk(desk, ['{"call":"line","line":0,"year":2026}\n'])
    cost, accepted = talk(desk, [void(number, count, apart) for number in range(1, CALLS + 1)])
    assert accepted == CALLS, ("void", accepted)
    desk.stdin.close()
    desk.wait()
    return costs + [cost], seconds

open("chart.toml", "w").write(chart())
for calls, names in (([direct], ["a direct voucher", "its void"]), ([order, on_order], ["an order", "a voucher on its items", "its void"])):
    shapes = [run(calls, count, apart) for count, apart in ((1, False), (ITEMS, False), (ITEMS, True))]
    for row, name in enumerate(names):
        one, same, apart = (costs[row] for costs, _ in shapes)
        print(f"{name}: {one:.1f} us with 1 item, {same:.1f} us ({over(same, one)}) with {ITEMS} on one line, "
              f"{apart:.1f} us ({over(apart, one)}) with {ITEMS} each on its own")
    opened = ", ".join(f"{seconds:.2f} s" for _, seconds in shapes)
    print(f"a journal of {CALLS * len(calls):,} such calls before the voids opens in {opened}")
PY
