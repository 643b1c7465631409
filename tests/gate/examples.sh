#!/bin/sh
# Runs the examples through the launcher and compares what it prints with the replies beside them: each talk of
# examples/, or the talks that are named, over a journal of its own, founded with the chart of Rivertown, or with the
# chart that stands beside it, with the statements that stand beside a talk. The journal of each talk is read by its
# format alone (journal.py). Then, where no talk is named: a journal that an earlier program wrote (examples/older/), a
# month's interest that is shared among the funds (examples/pooled/), a year of one grant (examples/grants/), the day of
# examples/two-runs/ by two desks, one after the other, what founding and opening refuse, where the doors of `serve`
# listen (listens.py), and how long they wait for a silent peer (waits.py).
cd "$(dirname "$0")/../.." || exit 1
top=$(pwd)
. tests/lib/program.sh
scratch=$(mktemp -d) || exit 1
trap 'rm -rf "$scratch"' EXIT
# The launcher runs the program from a folder of its own, as it does at a city without the sources.
city=$scratch/city
mkdir -p "$city/out"
cp cityfund "$city/cityfund"
cp "$program" "$city/out/cityfund"
. tests/lib/expect.sh
tried=$city/cityfund folder=$scratch

# talk LINES REPLIES: a desk over the journal that is there.
talk() {
    (cd "$scratch" && "$city/cityfund" desk < "$top/$1" > got)
    status=$?
    [ "$status" -eq 0 ] && diff "$scratch/got" "$2"
    verdict "$1: status $status" $?
}

# statements TALK: each stored statement beside a talk is what a report over its journal prints, as text or as records.
statements() {
    for report in "${1%.jsonl}".reports/*; do
        [ -e "$report" ] || continue
        name=$(basename "$report")
        kind=${name#*-}
        set -- "${name%%-*}" "${kind%.*}"
        [ "${kind#*.}" = txt ] || set -- "$@" --csv
        (cd "$scratch" && "$city/cityfund" report "$@" > got)
        status=$?
        [ "$status" -eq 0 ] && diff "$scratch/got" "$report"
        verdict "report $* is $report: status $status" $?
    done
}

# fresh CITY: no journal, and the city's chart.
fresh() {
    rm -f "$scratch/fund.journal"
    cp "examples/$1/chart.toml" "$scratch/chart.toml"
}

for lines in ${*:-examples/*.jsonl examples/*/*.jsonl}; do
    case $lines in
    examples/*/*) chart=$(dirname "$lines")/chart.toml ;;
    *) chart=examples/rivertown/chart.toml ;;
    esac
    # Talks that go on where another one ended come below.
    [ -e "$chart" ] || continue
    fresh "$(basename "$(dirname "$chart")")"
    expect "found for $lines" 0 founded found
    talk "$lines" "${lines%.jsonl}.replies"
    python3 tests/lib/journal.py "$scratch/fund.journal" "$lines" "${lines%.jsonl}.replies"
    verdict "the journal of $lines, read by its format" $?
    statements "$lines"
done
[ $# -eq 0 ] || { summary "$*"; exit; }

# A large run, which needs no journal: it prints the same twice.
mkdir "$scratch/run"
(cd "$scratch/run" && "$city/cityfund" generate 100000 > first && "$city/cityfund" generate 100000 > second && cmp first second)
verdict "generate 100000 twice" $?
[ "$(head -n 1 "$scratch/run/first" | tr -s ' ')" = "Entries 100007" ] && [ "$(ls "$scratch/run" | wc -l)" -eq 2 ]
verdict "the lines of generate 100000, and no other file" $?

# byte AT VALUE: sets a byte of the journal, by an octal number.
byte() {
    printf "\\$2" | dd of="$scratch/fund.journal" bs=1 seek="$1" conv=notrunc 2> /dev/null
}

# version NUMBER: the journal's byte 1.
version() {
    [ "$(od -A n -t u1 -j 1 -N 1 "$scratch/fund.journal" | tr -d ' ')" = "$1" ]
    verdict "a journal of version $1" $?
}

# A journal that an earlier program wrote, of version 1: this one writes the same for its talk but for the version, and opens it with
# the same answers and nothing lost.
fresh rivertown
expect "found for an older journal" 0 founded found
version 2
talk examples/older/quarter.jsonl examples/older/quarter.replies
byte 1 001
size=$(wc -c < examples/older/quarter.journal)
head -c "$size" "$scratch/fund.journal" | cmp - examples/older/quarter.journal &&
    [ "$(tail -c +$((size + 1)) "$scratch/fund.journal" | tr -d '\000' | wc -c)" -eq 0 ] && [ $(($(wc -c < "$scratch/fund.journal") % 65536)) -eq 0 ]
verdict "the journal of examples/older/quarter.jsonl is the older one, with room behind it" $?
cp examples/older/quarter.journal "$scratch/fund.journal"
talk examples/older/looks.jsonl examples/older/looks.replies
cmp "$scratch/fund.journal" examples/older/quarter.journal
verdict "the older journal stays" $?
# It goes on as it is, until its first lease, which only version 2 has: byte 1 becomes 2, and no other byte of it changes.
talk examples/older/more.jsonl examples/older/more.replies
version 1
cp "$scratch/fund.journal" "$scratch/before"
talk examples/older/lease.jsonl examples/older/lease.replies
version 2
last=$(python3 tests/lib/journal.py --end "$scratch/before")
for journal in before fund.journal; do
    tail -c +3 "$scratch/$journal" | head -c $((last - 2)) > "$scratch/$journal.part"
done
cmp "$scratch/before.part" "$scratch/fund.journal.part"
verdict "a lease leaves the records of an older journal" $?
for kind in jsonl replies; do
    cat examples/older/quarter.$kind examples/older/looks.$kind examples/older/more.$kind examples/older/lease.$kind > "$scratch/all.$kind"
done
python3 tests/lib/journal.py "$scratch/fund.journal" "$scratch/all.jsonl" "$scratch/all.replies"
verdict "the older journal with a lease, read by its format" $?
# Version 1 has no lease, and each other value of byte 1 is version 2.
byte 1 001
expect "a lease in version 1" 9 "cityfund: damaged at $last" desk
byte 1 377
expect "another byte 1" 0 "" desk

# claim DATE LINES: what is claimed of the grant of examples/grants/ on that day is these lines, and the journal stays.
claim() {
    cp "$scratch/fund.journal" "$scratch/before"
    (cd "$scratch" && "$city/cityfund" claim 7 "$1" 6 < "$top/examples/grants/grants.toml" > got)
    status=$?
    [ "$status" -eq 0 ] && diff "$scratch/got" "$2" && cmp "$scratch/fund.journal" "$scratch/before"
    verdict "the claim of $1: status $status" $?
}

# A year of one grant. A claim's lines are a talk as they were written, and the same claim after it writes nothing.
fresh rivertown
expect "found for a grant" 0 founded found
talk examples/grants/autumn.jsonl examples/grants/autumn.replies
claim 2026-01-15 examples/grants/january.jsonl
talk examples/grants/january.jsonl examples/grants/january.replies
claim 2026-01-15 /dev/null
talk examples/grants/spring.jsonl examples/grants/spring.replies
claim 2026-04-15 examples/grants/april.jsonl
talk examples/grants/april.jsonl examples/grants/april.replies
talk examples/grants/summer.jsonl examples/grants/summer.replies
claim 2026-07-21 /dev/null
expect "a claim of no day" 2 "cityfund: bad words" claim 7 2026-02-30 6

# refused FAULT: the document of the scratch folder is refused, and nothing is written.
refused() {
    said=$(cd "$scratch" && "$city/cityfund" claim 7 2026-01-15 6 2>&1 < document)
    status=$?
    [ "$status" -eq 19 ] && [ "$said" = "cityfund: grant refused" ]
    verdict "a document of grants with $1: status $status: $said" $?
}

# Documents with each fault, over a history of which the whole one claims three lines.
fresh rivertown
expect "found for documents of grants" 0 founded found
talk examples/grants/autumn.jsonl examples/grants/autumn.replies
claim 2026-01-15 examples/grants/january.jsonl
grants=examples/grants/grants.toml
: > "$scratch/document" && refused "no grant"
sed 's/^id = 7/id = 8/' "$grants" > "$scratch/document" && refused "another grant"
{ cat "$grants" && head -c 1048576 /dev/zero | tr '\0' '\n'; } > "$scratch/document" && refused "more than 1,048,576 bytes"
echo "[[grant]" > "$scratch/document" && refused "no TOML"
echo "grant = 7" > "$scratch/document" && refused "a grant that is no table"
cat "$grants" "$grants" > "$scratch/document" && refused "a grant twice"
{ cat "$grants" && sed 's/^id = 7/id = 8/' "$grants"; } > "$scratch/document" && refused "a source twice"
for id in $(seq 1 65); do sed "s/^id = 7/id = $id/" "$grants"; done > "$scratch/document" && refused "65 grants"
for key in id source payer award rate_bp lines; do
    sed "/^$key = /d" "$grants" > "$scratch/document" && refused "no $key"
    sed "s/^$key = .*/$key = true/" "$grants" > "$scratch/document" && refused "a $key of another type"
done
for fault in "id = 0" "id = 10000" "source = 1" "source = 4" "payer = -1" "payer = 4294967296" "award = 0" "award = 10000000000001" \
    "rate_bp = 0" "rate_bp = 10001" "lines = []" "lines = [3]" "lines = [8]" "lines = [4, 4]"; do
    sed "s/^${fault%% *} = .*/$fault/" "$grants" > "$scratch/document" && refused "$fault"
done
# A month's interest, shared among the funds: what `pool` writes a desk enters, and a second sending is answered as the first and
# adds nothing.
fresh rivertown
expect "found for a month without cash" 0 founded found
expect "pool without cash" 13 "cityfund: no share" pool 2025-07 100 5
expect "words of no pool" 2 "cityfund: bad words" pool 2025-13 100 5
fresh milltown
expect "found for a month's interest" 0 founded found
talk examples/milltown/pool.jsonl examples/milltown/pool.replies
cp "$scratch/fund.journal" "$scratch/before"
(cd "$scratch" && "$city/cityfund" pool 2025-07 100 5 > got) && cmp "$scratch/got" examples/pooled/lines.jsonl
verdict "the lines of pool" $?
cmp -s "$scratch/fund.journal" "$scratch/before"
verdict "the journal after pool" $?
talk examples/pooled/lines.jsonl examples/pooled/lines.replies
cp "$scratch/fund.journal" "$scratch/before"
talk examples/pooled/again.jsonl examples/pooled/again.replies
cmp -s "$scratch/fund.journal" "$scratch/before"
verdict "the journal after the lines of pool once more" $?

fresh rivertown
expect "found for two runs" 0 founded found
talk examples/two-runs/morning.jsonl examples/two-runs/morning.replies
# The journal has the chart, so the desk needs no other.
rm "$scratch/chart.toml"
talk examples/two-runs/afternoon.jsonl examples/two-runs/afternoon.replies
cp "$scratch/fund.journal" "$scratch/before"

expect "found without a chart" 4 "cityfund: read fault" found
cp examples/rivertown/chart.toml "$scratch/chart.toml"
expect "found again" 8 "cityfund: already founded" found
expect "other words" 2 "cityfund: bad words" desk found
expect "words of no report" 2 "cityfund: bad words" report 02026 balance
expect "a desk without lines" 0 "" desk
cmp -s "$scratch/fund.journal" "$scratch/before"
verdict "the journal stays" $?

# A second desk, while the first waits for a line.
rm -f "$scratch/got"
mkfifo "$scratch/lines"
(cd "$scratch" && "$city/cityfund" desk < lines > got) &
exec 3> "$scratch/lines"
printf '%s\n' '{"call":"line","line":3,"year":2026}' >&3
until [ -s "$scratch/got" ] || ! kill -0 $! 2> /dev/null; do sleep 0.1; done
expect "a second desk" 6 "cityfund: disk fault" desk
expect "a report beside a desk" 6 "cityfund: disk fault" report 2026 balance
exec 3>&-
wait $!
verdict "the first desk goes on" $?
cmp -s "$scratch/fund.journal" "$scratch/before"
verdict "the journal of two desks stays" $?

# A journal whose first byte is damaged isn't founded over.
printf '\000' | dd of="$scratch/fund.journal" bs=1 conv=notrunc 2> /dev/null
expect "a desk without a first byte" 7 "cityfund: not founded" desk
expect "found without a first byte" 1 \
    "cityfund: fund.journal doesn't begin as a journal, and may still hold entries: move it away first" found
printf '\001' | dd of="$scratch/fund.journal" bs=1 conv=notrunc 2> /dev/null
cmp -s "$scratch/fund.journal" "$scratch/before"
verdict "the journal without a first byte stays" $?

# A head that is cut short behind the version.
head -c 5 "$scratch/before" > "$scratch/fund.journal"
expect "a head cut short" 9 "cityfund: damaged at 1" desk
expect "a report of a head cut short" 9 "cityfund: damaged at 1" report 2026 balance

fresh rivertown
expect "a desk without a journal" 7 "cityfund: not founded" desk
expect "a report without a journal" 7 "cityfund: not founded" report 2026 balance
expect "pool without a journal" 7 "cityfund: not founded" pool 2025-07 100 5
[ ! -e "$scratch/fund.journal" ]
verdict "no journal is made" $?
# A property tax window of 61 days breaks the chart's rule of 60 (GASB Codification P70).
sed 's/^window = 60$/window = 61/' examples/rivertown/chart.toml > "$scratch/chart.toml"
expect "a window of 61" 3 "cityfund: chart refused" found
expect "a desk after a refused chart" 7 "cityfund: not founded" desk

# The doors of `serve` listen at their ports of 127.0.0.1 and nowhere else.
fresh rivertown
expect "found for doors" 0 founded found
(cd "$scratch" && python3 "$top/tests/lib/listens.py" "$city/out/cityfund")
verdict "where doors listen" $?

# A door waits ten seconds for a peer that is silent.
fresh rivertown
expect "found for patience" 0 founded found
(cd "$scratch" && python3 "$top/tests/lib/waits.py" "$city/out/cityfund")
verdict "how long doors wait" $?

# Two doors are served at once.
fresh rivertown
expect "found for a meeting" 0 founded found
(cd "$scratch" && python3 "$top/tests/lib/meeting.py" "$city/out/cityfund")
verdict "two doors whose callers wait for each other" $?

summary examples
