#!/bin/sh
# Tries ./try with an rt that is a stub: what it shows of a talk, which journal it hands over, what it
# says of each fault, and that nothing is left behind, also where it is stopped. Where rt built the
# program, the journal is compared with the one that `found` makes.
cd "$(dirname "$0")/../.." || exit 1
top=$(pwd)
scratch=$(mktemp -d) || exit 1
trap 'rm -rf "$scratch"' EXIT
city=$scratch/city
KEPT=$scratch/kept
export KEPT
. tests/lib/expect.sh

mkdir -p "$scratch/kit" "$scratch/bare" "$scratch/tmp" "$KEPT" "$city/crates/cityfund"
cp try "$city/try"
ln -s "$top/examples" "$city/examples"
# The stub keeps what it is handed, answers by the file `replies`, and ends with the status of the file
# `status`. Where there is no such file it works until it is told to stop.
cat > "$scratch/kit/rt" << 'STUB'
#!/bin/sh
[ "$(basename "$PWD"): $1 $2 $4 $5" = "cityfund: try --data -- desk" ] || exit 64
cp "${3#fund.journal=}" "$KEPT/journal" && cat > "$KEPT/calls" && cat "$KEPT/replies" && cat "$KEPT/notes" >&2
[ ! -f "$KEPT/status" ] || exit "$(cat "$KEPT/status")"
trap ': > "$KEPT/ended"; exit 143' TERM
: > "$KEPT/working"
while :; do sleep 0.1; done
STUB
# So that no run waits a whole second for the stub.
printf '#!/bin/sh\nexec "%s" 0.1\n' "$(command -v sleep)" > "$scratch/kit/sleep"
chmod +x "$scratch/kit/rt" "$scratch/kit/sleep"
# All that ./try needs but rt.
for name in basename cat cmp cp date dirname head mktemp paste readlink rm sed sh sleep tail wc; do
    ln -s "$(command -v "$name")" "$scratch/bare/$name"
done

# answers STATUS REPLIES NOTE: what the stub does from now on.
answers() {
    cp "$2" "$KEPT/replies"
    echo "$3" > "$KEPT/notes"
    echo "$1" > "$KEPT/status"
}

# run WORDS..: ./try in the folder of the city, with the stub on the path, in place of this shell. The
# files `shown` and `said` get what it shows and what it says.
run() {
    cd "$city" && PATH=$scratch/kit:$scratch/bare TMPDIR=$scratch/tmp exec ./try "$@" > "$scratch/shown" 2> "$scratch/said"
}

# tried NAME STATUS LAST-NOTE WORDS..: runs ./try with these words. It leaves nothing behind.
tried() {
    name=$1 wanted=$2 note=$3
    shift 3
    (run "$@")
    status=$?
    [ "$status" -eq "$wanted" ] && [ "$(tail -n 1 "$scratch/said")" = "try: $note" ]
    verdict "$name: status $status: $(cat "$scratch/said")" $?
    [ -z "$(ls -A "$scratch/tmp")" ] && [ "$(ls -A "$city" | xargs)" = "crates examples try" ] && [ -z "$(ls -A "$city/crates/cityfund")" ]
    verdict "$name: nothing is left" $?
}

# said NAME TEXT: a line of what ./try said.
said() {
    grep -qxF "try: $2" "$scratch/said"
    verdict "$1: $(cat "$scratch/said")" $?
}

# shows NAME TALK: each call with its reply is shown, and the stub got the calls.
shows() {
    sed 's/^/> /' "$2.jsonl" > "$scratch/asked" &&
        sed 's/^/< /' "$2.replies" | paste -d '\n' "$scratch/asked" - | cmp - "$scratch/shown" && cmp "$2.jsonl" "$KEPT/calls"
    verdict "$1: each call with its reply" $?
}

. "$top/tests/lib/built.sh"
program=${PROGRAM:-$(built cityfund)}
# journal CITY: the journal that the stub got is the one that `found` makes of the city's chart.
journal() {
    [ -x "$program" ] || return
    rm -rf "$scratch/found" && mkdir "$scratch/found" && cp "examples/$1/chart.toml" "$scratch/found"
    (cd "$scratch/found" && "$program" found > /dev/null) && cmp "$scratch/found/fund.journal" "$KEPT/journal"
    verdict "the journal of $1 is a founded one" $?
}

last="an hour on four processors, about 100 minutes on two."
first=examples/first-day
answers 0 $first.replies "run=ended status=0"
tried "a first day" 0 "$last"
shows "a first day" $first
said "a first day is the stored one" "these are the replies that stand in $first.replies."
said "what isn't claimed" "nothing was proved. ./build proves every crate and then builds the programs: it takes about"
journal rivertown
answers 0 examples/fairview/lease.replies "run=ended status=0"
tried "a talk with a chart beside it" 0 "$last" examples/fairview/lease.jsonl
shows "a talk with a chart beside it" examples/fairview/lease
journal fairview
answers 0 $first.replies "run=ended status=0"
tried "a talk that goes on" 0 "$last" examples/two-runs/afternoon.jsonl
said "a talk that goes on can't be tried" "ended can't be tried alone: here each talk begins with an empty journal."
(run - < $first.jsonl)
verdict "the calls of the input" $?
shows "the calls of the input" $first

tried "two words" 1 "failed: the words are ./try [FILE], where FILE may be - for the calls of the input" one two
tried "no such file" 1 "failed: there is no file examples/none.jsonl" examples/none.jsonl
tried "a folder" 1 "failed: there is no file examples" examples
head -n 2 $first.replies > "$scratch/part"
answers 4 "$scratch/part" "error: the program stopped"
tried "a run that fails" 1 "failed: rt try ended with status 4"
grep -qx "error: the program stopped" "$scratch/said" && [ "$(wc -l < "$scratch/shown")" -eq 4 ]
verdict "what it said before, and the replies that came" $?
: > "$scratch/part"
answers 9 "$scratch/part" "cityfund: damaged at 6"
tried "a chart with a fault" 1 "failed: rt try ended with status 9"
said "a chart with a fault is named" "the chart examples/rivertown/chart.toml has a fault: docs/CHART.md lists them."
mv "$scratch/kit/rt" "$scratch/stub"
tried "no rt" 1 "failed: there is no rt on the path: it comes with the Rattle kit"
mv "$scratch/stub" "$scratch/kit/rt"

# Stopped while rt works: rt is ended, and its end waited for.
rm "$KEPT/status"
run &
until [ -e "$KEPT/working" ] || ! kill -0 $! 2> /dev/null; do sleep 0.1; done
kill -TERM $!
wait $!
[ $? -eq 130 ] && [ -e "$KEPT/ended" ] && [ -z "$(ls -A "$scratch/tmp")" ]
verdict "a run that is stopped leaves nothing: $(cat "$scratch/said")" $?
said "a run that is stopped" "stopped: nothing is left behind."

summary try
