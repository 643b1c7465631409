#!/bin/sh
# What a history costs that is as long as one may be, on the built program: how long a desk takes to open a journal of 150,000 and of
# 1,500,000 entries of one item, what a voucher costs after 1,000 entries and after all but 5,000, and the memory of a full history of
# vouchers of 32 items. The journals lie in memory (/dev/shm), some 800 MB at most, and their bytes are written here. It is to be: ten
# times at most, 1.3 times at most, under 7 GB. Where there is cc, a voucher is also measured with each sync a sleep of 85 microseconds: the
# microseconds in its two syncs and beside them, and its share of half the syncs of a file that keeps its length. Takes some minutes; a
# first argument takes the place of 1,500,000.
top=$(cd "$(dirname "$0")/.." && pwd)
. "$top/tests/lib/program.sh"
scratch=$(mktemp -d /dev/shm/limit.XXXXXX) || exit 1
trap 'rm -rf "$scratch"' EXIT
cp "$top/examples/rivertown/chart.toml" "$scratch/chart.toml"
cd "$scratch" && PYTHONPATH=$top/bench PYTHONDONTWRITEBYTECODE=1 python3 - "$program" "${1:-1500000}" <<'PY'
import os, subprocess, sys, threading, time

import journals
import syncs

PROGRAM, MOST = sys.argv[1], int(sys.argv[2])
CALLS, SLEEP = 1_500, 85


def opened(entries, items=1):
    """The median seconds of five openings of a journal of so many entries, the memory of the last in GB, the journal's bytes, the status."""
    size, taken = journals.write(entries - 1, items), []
    for _ in range(5):
        start = time.time()
        pid = os.spawnv(os.P_NOWAIT, "/bin/sh", ["sh", "-c", f'exec "{PROGRAM}" desk < /dev/null'])
        _, status, usage = os.wait4(pid, 0)
        taken.append(time.time() - start)
    return sorted(taken)[2], usage.ru_maxrss * 1024 / 1e9, size, os.waitstatus_to_exitcode(status)


def vouchers(first):
    return "".join('{"call":"voucher","desk":4,"key":"w%d","on":"2025-07-05","vendor":77,"items":[{"fund":1,"dept":20,"object":510,"amount":1}]}\n'
                   % number for number in range(first, first + CALLS))


def call(entries, measured=None, tools=None):
    """Microseconds of a voucher behind so many entries, once the journal is open: the least of three runs of calls. Where a measure is
    given each sync is a sleep, and each run is added to it."""
    journals.write(entries - 1)
    environment = measured.times.environment if measured else None
    desk = subprocess.Popen([PROGRAM, "desk"], env=environment, stdin=subprocess.PIPE, stdout=subprocess.PIPE, text=True, bufsize=1)
    desk.stdin.write('{"call":"line","line":3,"year":2026}\n')
    desk.stdin.flush()
    desk.stdout.readline()
    best = None
    for turn in range(3):
        limit = tools.limit(".", CALLS, SLEEP) if measured else 0
        if measured:
            measured.times.begin()
        start = time.time()
        writing = threading.Thread(target=lambda: (desk.stdin.write(vouchers(turn * CALLS)), desk.stdin.flush()))
        writing.start()
        said = [desk.stdout.readline() for _ in range(CALLS)]
        writing.join()
        taken = time.time() - start
        best = min(taken, best or 1e9)
        if measured:
            measured.times.end()
            measured.add(CALLS, taken, limit)
        assert all('"ok"' in line for line in said), said[0]
    desk.stdin.close()
    desk.wait()
    return best / CALLS * 1e6


short, _, _, _ = opened(MOST // 10)
long, memory, size, status = opened(MOST)
print(f"limit: {MOST // 10:,} entries open in {short:.2f} s, {MOST:,} in {long:.2f} s: {long / short:.1f} times (10 at most), {size:,} bytes, {memory:.2f} GB, status {status}")
first, last = call(1_000), call(MOST - 5_000)
print(f"  a voucher after 1,000 entries {first:.1f} us, after {MOST - 5_000:,} {last:.1f} us: {last / first:.2f} times (1.3 at most)")
if syncs.are_there():
    os.mkdir("tools")
    tools = syncs.Tools(os.path.abspath("tools"))
    for entries in (1_000, MOST - 5_000):
        measured = syncs.Measured(syncs.Times(tools, f"times{entries}", SLEEP))
        call(entries, measured, tools)
        print(f"  a voucher after {entries:,}, syncs of {SLEEP} us: {measured.said()}")
seconds, memory, size, status = opened(MOST, 32)
print(f"  {MOST:,} entries of 32 items: {size:,} bytes open in {seconds:.1f} s and take {memory:.2f} GB (7 at most), status {status}")
PY
