#!/bin/sh
# Accepted calls a second through a desk on a real disk, in turn with half the syncs of a file on the same disk that keeps its length, in
# one run. Each accepted call is two writes and two syncs, so a desk that waits for nothing but the disk accepts half as many calls
# as the disk syncs. Said are the microseconds of a call, those inside its two syncs and those beside them, and the share of that limit;
# the time to open the journal is taken off. The files lie in a folder made in the folder of the argument, or in bench/. Syncs are
# timed by a library that is put before the system's, so it needs cc. The same program is measured in turn over a journal without room,
# whose writes of room that library cuts off. Where OTHER names another program it is measured in turn too.
top=$(cd "$(dirname "$0")/.." && pwd)
. "$top/tests/lib/program.sh"
command -v cc > /dev/null || { echo "durable: skipped: there is no cc"; exit 0; }
scratch=$(mktemp -d "${1:-$top/bench}/durable.XXXXXX") || exit 1
trap 'rm -rf "$scratch"' EXIT
cp "$top/examples/rivertown/chart.toml" "$scratch/chart.toml"
cd "$scratch" && PYTHONPATH=$top/bench PYTHONDONTWRITEBYTECODE=1 python3 - "$program" ${OTHER:+"$OTHER"} <<'PY'
import os, shutil, subprocess, sys, time

import syncs

TURNS, CALLS = 5, 2000
ADOPT = '{"call":"adopt","desk":1,"key":"b","on":"2025-07-01","fund":1,"year":2026,"lines":[{"line":3,"amount":1000000000}],"estimates":[]}\n'


class Desk:
    """A desk of a program in a folder of its own."""

    def __init__(self, number, program, tools, room=True):
        self.program, self.folder, self.accepted = program, str(number), 0
        os.mkdir(self.folder)
        shutil.copy("chart.toml", self.folder)
        self.times = syncs.Times(tools, f"desk{number}", room=room)
        self.measured = syncs.Measured(self.times)
        subprocess.run([program, "found"], cwd=self.folder, stdout=subprocess.DEVNULL, check=True)
        self.run([ADOPT])

    def run(self, lines):
        start = time.time()
        done = subprocess.run([self.program, "desk"], cwd=self.folder, env=self.times.environment, input="".join(lines).encode(),
                              stdout=subprocess.PIPE, check=True)
        return time.time() - start, done.stdout.count(b'"ok"')

    def turn(self, turn, limit):
        opening, _ = self.run([])
        self.times.begin()
        seconds, ok = self.run('{"call":"voucher","desk":4,"key":"v%d-%d","on":"2025-07-05","vendor":77,'
                               '"items":[{"fund":1,"dept":20,"object":510,"amount":1}]}\n' % (turn, number) for number in range(CALLS))
        self.times.end()
        self.measured.add(ok, seconds - opening, limit)
        self.accepted += ok


os.mkdir("tools")
tools = syncs.Tools(os.path.abspath("tools"))
own, *other = sys.argv[1:]
desks = {"a desk": Desk(0, own, tools), "a desk without room": Desk(1, own, tools, room=False)}
desks.update((f"a desk of {name}", Desk(2, name, tools)) for name in other)
for turn in range(TURNS):
    limit = tools.limit(".", CALLS)
    for desk in desks.values():
        desk.turn(turn, limit)
for name, desk in desks.items():
    print(f"{name}: {desk.measured.said()} ({desk.accepted:,} of {TURNS * CALLS:,} accepted)")
PY
