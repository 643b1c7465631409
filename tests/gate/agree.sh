#!/bin/sh
# Random talks over random charts, answered by the program and by the independent office of tests/office (Python), line by line:
#
#     tests/gate/agree.sh [TALKS [CALLS [FIRST]]]
#
# Generated runs of some sizes, a talk through the last fifty fiscal years, and 100 talks of 1,500 calls where nothing else is said,
# from the seed FIRST (1) on. It prints the calls that were compared, and the first lines of each talk that differs, with its seed.
# Before all that the office answers the stored talks of examples/, prints their statements, and answers the stored commands, which needs
# no program, the laws that tie statements and registers to the ledger are tried over these talks (ties.py), and the quotes of docs/ are
# looked up in the talks: `tests/gate/agree.sh 0` does this alone. The largest generated run comes with 100 talks or more.
cd "$(dirname "$0")/../.." || exit 1
top=$(pwd)
stored=0
python3 tests/office/stored.py || stored=1
python3 tests/office/commands.py tests/commands || stored=1
python3 tests/office/ties.py || stored=1
python3 tests/gate/quotes.py || stored=1
[ "$stored" -eq 0 ] && echo "the stored talks and statements agree"
[ "${1:-100}" -gt 0 ] || exit "$stored"
. tests/lib/program.sh
talks=${1:-100} calls=${2:-1500} first=${3:-1}
[ -w /dev/shm ] && export TMPDIR=/dev/shm # where syncs cost nothing
scratch=$(mktemp -d) || exit 1
trap 'rm -rf "$scratch"' EXIT
compared=0
differing=0

# printed: the program prints the statements beside the talk as the office did.
printed() {
    for report in [0-9]*-*.*; do
        kind=${report#*-}
        set -- "${report%%-*}" "${kind%.*}"
        [ "${kind#*.}" = txt ] || set -- "$@" --csv
        "$program" report "$@" | cmp -s - "$report" || { echo "report $*"; return 1; }
    done
}

# compare NAME: the program answers the talk that stands in the scratch folder as the office did, and prints its statements.
compare() {
    if (cd "$scratch/talk" && "$program" found > /dev/null && "$program" desk < talk.jsonl > got) &&
        cmp -s "$scratch/talk/got" "$scratch/talk/talk.replies" && (cd "$scratch/talk" && printed); then
        compared=$((compared + $(wc -l < "$scratch/talk/got")))
    else
        differing=$((differing + 1))
        echo "$1:"
        paste "$scratch/talk/talk.jsonl" "$scratch/talk/talk.replies" "$scratch/talk/got" |
            awk -F '\t' '$2 != $3 { print $1; print "  office:  " $2; print "  program: " $3; if (++n == 3) exit }'
    fi
    rm -rf "$scratch/talk"
}

python3 tests/office/last_years.py "$scratch/talk" || exit 1
compare "the last years"
for count in 1 2 3 40 1000 $([ "$talks" -lt 100 ] || echo 5000); do
    python3 tests/office/generated.py examples/milltown/chart.toml "$count" > "$scratch/generated"
    "$program" generate "$count" | cmp -s - "$scratch/generated" || { echo "generate $count differs"; differing=$((differing + 1)); }
done
seed=$first
while [ "$seed" -lt $((first + talks)) ]; do
    python3 tests/office/talks.py "$seed" "$calls" "$scratch/talk" || exit 1
    compare "seed $seed"
    seed=$((seed + 1))
done
echo "$compared calls agree, $differing talks differ"
[ "$stored" -eq 0 ] && [ "$differing" -eq 0 ]
