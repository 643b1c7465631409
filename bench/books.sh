#!/bin/sh
# How fast `books` lists a long journal, its posts, its balances, what is open and a statement, and takes out its calls, on the built
# programs. The journal has an adoption and 100,000 direct vouchers of one item, or as many as its argument says. Prints the seconds of each command,
# the least of three runs, with entries a second and how many times that is of what `cityfund report` takes over the same journal.
top=$(cd "$(dirname "$0")/.." && pwd)
. "$top/tests/lib/program.sh"
books=${BOOKS:-$(built books)}
scratch=$(mktemp -d) || exit 1
trap 'rm -rf "$scratch"' EXIT
cp "$top/examples/rivertown/chart.toml" "$scratch/chart.toml"
cd "$scratch" && PYTHONPATH=$top/bench PYTHONDONTWRITEBYTECODE=1 python3 - "$program" "$books" "${1:-100000}" <<'PY'
import os, resource, subprocess, sys, time

import journals

PROGRAM, BOOKS, VOUCHERS = sys.argv[1], sys.argv[2], int(sys.argv[3])
RUNS = 3

def seconds(*words):
    """The least seconds of some runs, whose output is left in a file; and the status."""
    least, status = None, 0
    for _ in range(RUNS):
        start = time.time()
        with open("out", "wb") as out:
            status = status or subprocess.run(words, stdout=out).returncode
        took = time.time() - start
        least = took if least is None else min(least, took)
    return least, status

size = journals.write(VOUCHERS)
report, _ = seconds(PROGRAM, "report", "2026", "balance")
print(f"cityfund report 2026 balance: {VOUCHERS + 1:,} entries of {size:,} bytes in {report:.2f} s")
for words in (["calls"], ["list"], ["list", "--csv"], ["check"], ["posts"], ["posts", "--account", "100000"], ["balances", "2026"], ["open"],
              ["statement", "2026", "budget"]):
    took, status = seconds(BOOKS, *words)
    print(f"books {' '.join(words)}: {os.path.getsize('out'):,} bytes in {took:.2f} s: {(VOUCHERS + 1) / took:,.0f} entries a second, "
          f"{took / report:.2f} times the report, status {status}")
print(f"{resource.getrusage(resource.RUSAGE_CHILDREN).ru_maxrss:,} KiB at most")
PY
