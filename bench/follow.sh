#!/bin/sh
# How fast a history is shipped and followed, on the built program. The history has an adoption and 2,000 direct vouchers of one item that
# are followed into an empty journal, as many as the first argument says; beside it a desk takes the same calls on the same disk, in
# turn, three times each. Then 100,000, or as many as the second argument says, which stand in both journals, are shipped and followed again:
# that takes the opening of the journal, which a desk on empty input shows, and the comparison; and nothing may be written. Prints
# the rates and the peak memory. Where TMPDIR is in memory the first part shows what following costs beside the disk.
top=$(cd "$(dirname "$0")/.." && pwd)
. "$top/tests/lib/program.sh"
scratch=$(mktemp -d) || exit 1
trap 'rm -rf "$scratch"' EXIT
cp "$top/examples/rivertown/chart.toml" "$scratch/chart.toml"
cd "$scratch" && PYTHONPATH=$top/bench PYTHONDONTWRITEBYTECODE=1 python3 - "$program" "${1:-2000}" "${2:-100000}" <<'PY'
import os, pathlib, shutil, statistics, subprocess, sys, time

import journals

PROGRAM, NEW, OLD = sys.argv[1], int(sys.argv[2]), int(sys.argv[3])
SINK = subprocess.DEVNULL

ADOPT = ('{"call":"adopt","desk":1,"key":"b","on":"2025-07-01","fund":1,"year":2026,'
         '"lines":[{"line":3,"amount":1000000000}],"estimates":[]}\n')
VOUCHER = ('{"call":"voucher","desk":4,"key":"v%d","on":"2025-07-05","vendor":77,'
           '"items":[{"fund":1,"dept":20,"object":510,"amount":1}]}\n')

def folder(name):
    path = pathlib.Path(name)
    shutil.rmtree(path, ignore_errors=True)
    path.mkdir()
    shutil.copy("chart.toml", path)
    return path

def timed(words, path, given, got=SINK):
    """The seconds of a run over a file, and its peak memory in KiB."""
    start = time.monotonic()
    with open(given, "rb") as file:
        run = subprocess.Popen([PROGRAM, *words], cwd=path, stdin=file, stdout=got)
        _, status, used = os.wait4(run.pid, 0)
    if status != 0:
        sys.exit(f"follow: {words} ended with {status >> 8}")
    return time.monotonic() - start, used.ru_maxrss

def made(vouchers):
    """A folder with a journal of so many vouchers, and the file of its stream."""
    path = folder("first")
    os.chdir(path)
    journals.write(vouchers)
    os.chdir("..")
    with open("stream", "wb") as file:
        seconds, peak = timed(["ship", "0"], path, os.devnull, file)
    return path, seconds, peak

made(NEW)
with open("calls", "w") as file:
    file.write(ADOPT)
    file.writelines(VOUCHER % number for number in range(1, NEW + 1))
rates = {"desk": [], "follow": []}
for _ in range(3):
    for command, given in [("desk", "calls"), ("follow", "stream")]:
        path = folder("copy")
        subprocess.run([PROGRAM, "found"], cwd=path, stdout=SINK, check=True)
        rates[command].append((NEW + 1) / timed([command], path, given)[0])
desk, follow = (statistics.median(rates[command]) for command in ("desk", "follow"))
print(f"new: {NEW + 1:,} entries: desk {desk:,.0f} a second, follow {follow:,.0f} a second: {follow / desk:.2f} of it")

path, seconds, peak = made(OLD)
opened, alone = min(timed(["desk"], path, os.devnull) for _ in range(3))
print(f"open: {OLD + 1:,} entries in {opened:.2f} s, {alone:,} KiB at most")
print(f"ship: {seconds:.2f} s with the opening, {peak:,} KiB at most, {os.path.getsize('stream'):,} bytes")
before = (path / "fund.journal").stat().st_mtime_ns
again, peak = min(timed(["follow"], path, "stream") for _ in range(3))
written = (path / "fund.journal").stat().st_mtime_ns != before
print(f"again: {again:.2f} s with the opening: {(OLD + 1) / max(again - opened, 0.001):,.0f} records a second beside it, {peak:,} KiB at most, "
      f"{'the journal was written' if written else 'nothing written'}")
sys.exit(written)
PY
