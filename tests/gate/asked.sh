#!/bin/sh
# Tries what `books` is asked: its lists of the first entries, through a day, of a calendar year, and by each filter, on the
# journals of the examples, at ten places and ten days of each (lib/asked.py). The independent office makes each list of the talk's
# calls alone, and writes the journals, too. Then that a row which is changed, lost or moved is seen; that a sheet takes no key for a
# formula; and what is refused. BOOKS names another program than the one that rt built last.
cd "$(dirname "$0")/../.." || exit 1
top=$(pwd)
. tests/lib/listing.sh

# asked TALK [PLACES DAYS]: compares, and leaves the talk's journal in the scratch folder.
asked() {
    python3 tests/lib/asked.py "$books" "$scratch" "$(chart_of "$1")" "$@"
}

for talk in examples/*.jsonl examples/*/*.jsonl; do
    [ -e "$(chart_of "$talk")" ] || continue
    said=$(asked "$talk")
    verdict "$said" $?
done

# ---- a row that is changed, lost or moved

# changed SCRIPT WORDS..: where the list of these words goes through sed with this script, that is seen.
changed() {
    filter "$@"
    shift
    said=$(books=$scratch/changed && asked "$talk" 4 4)
    [ $? -eq 1 ] && [ "${said##*, }" = "1 differ" ]
    verdict "$* with $script is seen: $said" $?
}

talk=examples/year-roll.jsonl
asked "$talk" 1 1 > "$scratch/said"
changed '5d' ledger --csv
changed '4{h;d};5G' ledger --csv
changed '3s/0\.00,/0.01,/' ledger --csv
changed '3s/,[^,]*$/,/' documents --csv
changed '6d' documents --csv
changed '2s/lapsed/live/' documents --csv

# ---- keys that a sheet would take for a formula

cat > "$scratch/keys.jsonl" << 'CALLS'
{"call":"adopt","desk":1,"key":"=1+2","on":"2025-07-01","fund":1,"year":2026,"lines":[{"line":0,"amount":100000}],"estimates":[]}
{"call":"receive","desk":5,"key":"-x","on":"2025-07-02","source":2,"amount":50000}
{"call":"voucher","desk":4,"key":"+1","on":"2025-07-02","vendor":0,"items":[{"fund":1,"dept":10,"object":510,"amount":100}]}
{"call":"voucher","desk":4,"key":"-5.00","on":"2025-07-03","vendor":7,"items":[{"fund":1,"dept":10,"object":510,"amount":200}]}
{"call":"voucher","desk":4,"key":"'=1","on":"2025-07-03","vendor":7,"items":[{"fund":1,"dept":10,"object":510,"amount":300}]}
{"call":"pay","desk":5,"key":"@\"a\",b","on":"2025-07-04","vouchers":[1,3]}
CALLS
said=$(python3 tests/lib/asked.py "$books" "$scratch" examples/rivertown/chart.toml "$scratch/keys.jsonl")
verdict "$said" $?
[ "$(cd "$scratch" && "$books" paid 2025 --csv | sed -n '3p;4p')" = "0,voucher,1,'+1,2025-07-04,\"'@\"\"a\"\",b\",1.00
7,total,,,,,3.00" ]
verdict "keys with a quote before them" $?

# ---- what is refused

# refused STATUS TEXT WORDS..: the status, and what is said behind `books: `; TEXT may be its beginning.
refused() {
    wanted=$1 text=$2
    shift 2
    said=$(cd "$scratch" && "$books" "$@" 2>&1 > "$scratch/printed")
    status=$?
    [ "$status" -eq "$wanted" ] && [ "${said#"books: $text"}" != "$said" ] && [ ! -s "$scratch/printed" ]
    verdict "$*: status $status: $said" $?
}

for words in "ledger --through" "ledger --from" "posts --through" "balances 2026 --through" "statement 2026 balance --through"; do
    for day in 1970-12-31 2025-02-29 2025-7-01 2200-01-01 today; do
        refused 20 "no such day" $words $day
    done
done
for words in list calls check lines open documents "paid 2025" posts "balances 2026" "statement 2026 classes" ledger; do
    refused 22 "entries refused: 7 asked, the journal has 6" $words --entries 7
done
for words in "posts --fund 9" "ledger --fund 9" "ledger --source 9999 --fund 9" "posts --fund 9 --through 2025-07-03" "posts --fund 9 --entries 0"; do
    refused 21 "no such fund: 9" $words
done
refused 21 "no such department: 9999" ledger --dept 9999 --line 0
refused 21 "no such object: 9999" ledger --object 9999 --csv
refused 21 "no such line: 4095" ledger --line 4095
refused 21 "no such source: 9999" ledger --source 9999 --from 2025-07-01
for words in "posts --through" "balances 2026 --through" "statement 2026 balance --through" "ledger --through" "ledger --from"; do
    refused 23 "before the first fiscal year: 2025-06-30" $words 2025-06-30
done
(cd "$scratch" && "$books" posts --fund 0 --through 2025-07-01 && "$books" ledger --from 2025-07-01 --through 2025-07-01) > "$scratch/printed"
verdict "the fund 0 of posts, and the first day" $?
for kind in reconcile changes classes components major; do
    refused 2 "bad words" statement 2026 $kind --through 2026-01-01
done
for words in "open --through 2026-01-01" "documents --fund 1" "documents --kind cheque" "statement 1970 balance --through 2026-01-01" "ledger --kind bill" \
    "paid 1970" "paid 2200" "list --through 2026-01-01" "chart --entries 1" "posts --alone"; do
    refused 2 "bad words" $words
done
summary asked
