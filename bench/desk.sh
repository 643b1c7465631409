#!/bin/sh
# Lines a second and peak memory of the desk's loop, on the built program: form replies and looks over an empty
# history, so nothing is written to the journal. Prints two rows.
top=$(cd "$(dirname "$0")/.." && pwd)
. "$top/tests/lib/program.sh"
scratch=$(mktemp -d) || exit 1
trap 'rm -rf "$scratch"' EXIT
cp "$top/examples/rivertown/chart.toml" "$scratch/chart.toml"
(cd "$scratch" && "$program" found > /dev/null) || exit 1
lines=400000
yes 'hello' | head -n $lines > "$scratch/forms"
yes '{"call":"line","line":3,"year":2026}' | head -n $lines > "$scratch/looks"
for talk in forms looks; do
    (cd "$scratch" && python3 - "$program" $talk $lines <<'PY'
import resource, subprocess, sys, time
program, talk, lines = sys.argv[1], sys.argv[2], int(sys.argv[3])
start = time.time()
with open(talk) as given, open("got", "w") as got:
    status = subprocess.run([program, "desk"], stdin=given, stdout=got).returncode
seconds = time.time() - start
peak = resource.getrusage(resource.RUSAGE_CHILDREN).ru_maxrss
print(f"{talk}: {lines / seconds:,.0f} lines a second, {peak:,} KiB at most, status {status}")
PY
    )
done
