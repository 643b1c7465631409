#!/bin/sh
# How long a journal with the largest chart takes to be founded and to be opened, and what a voucher costs under it and
# under the small example chart, on the built program. The journal lies in memory (/dev/shm), where a sync costs nothing.
# Prints two rows.
top=$(cd "$(dirname "$0")/.." && pwd)
. "$top/tests/lib/program.sh"
scratch=$(mktemp -d /dev/shm/chart.XXXXXX) || exit 1
trap 'rm -rf "$scratch"' EXIT
cd "$scratch" && python3 - "$program" "$top" <<'PY'
import os, shutil, subprocess, sys, time

def table(name, count, row):
    return "".join(f"[[{name}]]\n" + row(n) for n in range(1, count + 1))

def largest():
    funds = lambda n: f'id = {n}\nname = "Fund {n}"\ntype = "{"general" if n == 1 else "special_revenue"}"\nlevel = "object"\npolicy = "lapse"\n'
    return ('city = "Largest"\nfirst_year = 2026\nfirst_month = 7\n'
        + table("function", 64, lambda n: f'id = {n}\nname = "Function {n}"\n')
        + table("fund", 64, funds)
        + table("department", 256, lambda n: f'id = {n}\nname = "Department {n}"\nfunction = 1\n')
        + table("object", 512, lambda n: f'id = {n}\nname = "Object {n}"\nclass = 1\nkind = "current"\n')
        + table("source", 256, lambda n: f'id = {n}\nname = "Source {n}"\nfund = 1\nkind = "charges"\nfunction = 1\nwindow = 30\n')
        + table("line", 4096, lambda n: f'fund = 1\ndept = {(n - 1) // 512 + 1}\nobject = {(n - 1) % 512 + 1}\n')
        + table("desk", 64, lambda n: f'id = {n}\nname = "Desk {n}"\nroles = ["council", "payables"]\n'))

def run(word, text):
    start = time.time()
    done = subprocess.run([sys.argv[1], word], input=text.encode(), stdout=subprocess.PIPE)
    return time.time() - start, done.stdout.count(b'"ok"'), done.returncode

def talk(council, payables, line, dept, item):
    yield (f'{{"call":"adopt","desk":{council},"key":"b","on":"2025-07-01","fund":1,"year":2026,'
           f'"lines":[{{"line":{line},"amount":1000000000}}],"estimates":[]}}\n')
    for n in range(50_000):
        yield (f'{{"call":"voucher","desk":{payables},"key":"v{n}","on":"2025-07-05","vendor":7,'
               f'"items":[{{"fund":1,"dept":{dept},"object":{item},"amount":1}}]}}\n')

shutil.copy(sys.argv[2] + "/examples/rivertown/chart.toml", "chart.toml")
charts = [("Rivertown", None, (1, 4, 3, 20, 510)), ("largest", largest(), (64, 64, 4095, 8, 512))]
for name, text, accounts in charts:
    if text:
        open("chart.toml", "w").write(text)
    founded, _, status = run("found", "")
    opened, _, _ = run("desk", "")
    seconds, accepted, _ = run("desk", "".join(talk(*accounts)))
    print(f"{name}: founded in {founded:.3f} s (status {status}), opened in {opened:.3f} s, "
          f"a voucher {(seconds - opened) / 50_000 * 1e6:.1f} us, {accepted:,} accepted")
    os.remove("fund.journal")
PY
