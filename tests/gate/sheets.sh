#!/bin/sh
# Makes calls of the sheets of examples/clients/ and compares them with those that stand beside them, whose replies the independent office
# gives; then sheets with a fault, each of which is named with its row and column. Where rt built the program, the calls are sent to it
# twice: the second time each is answered with its place, and nothing is added. Before all that fields.py compares docs/CALLS.md with the
# program's source and with the stored talks, and page/tables.py the page's tables with docs/.
cd "$(dirname "$0")/../.." || exit 1
top=$(pwd)
scratch=$(mktemp -d) || exit 1
trap 'rm -rf "$scratch"' EXIT
. tests/lib/expect.sh
from_csv=examples/clients/from_csv.py
PYTHONDONTWRITEBYTECODE=1
export PYTHONDONTWRITEBYTECODE

python3 tests/gate/fields.py
verdict "the tables of docs/CALLS.md" $?
python3 page/tables.py --check
verdict "the tables of the page" $?

# ---- the sheets

# made SHEET TOTALS WORDS..: the calls of the sheet are the stored ones, and come to the totals.
made() {
    name=$1 wanted=$2
    shift 2
    "$from_csv" "$@" < "examples/clients/$name.csv" > "$scratch/$name.jsonl" 2> "$scratch/said"
    [ $? -eq 0 ] && [ "$(cat "$scratch/said")" = "$wanted" ] && cmp "$scratch/$name.jsonl" "examples/clients/$name.jsonl"
    verdict "$name.csv: $(cat "$scratch/said")" $?
}

made budget "from_csv: 5 adopt, lines 29,995,000.00, estimates 22,200,000.00" \
    call=adopt desk=1 on=2025-07-01 year=2026 'key=fy26-fund{fund}'
made vouchers "from_csv: 5 voucher, items 288,718.34" call=voucher desk=4 'key=inv-{vendor}-{invoice}'
made payments "from_csv: 4 receive, amount 4,851,312.50
from_csv: 2 pay" desk=5 'key={document}'
for kind in jsonl replies; do
    cat examples/clients/budget.$kind examples/clients/vouchers.$kind examples/clients/payments.$kind > "$scratch/all.$kind"
done
python3 tests/office/answers.py examples/harborview/chart.toml "$scratch/all.jsonl" "$scratch/all.replies"
verdict "what the office answers to the sheets' calls" $?
# As spreadsheets write it: a byte order mark, ends of lines as under Windows, empty rows and columns.
sed 's/$/,,\r/; 1s/^/\xef\xbb\xbf/; 3s/^/,,,,,,,,,\r\n/' examples/clients/vouchers.csv |
    "$from_csv" call=voucher desk=4 'key=inv-{vendor}-{invoice}' 2> /dev/null | cmp - examples/clients/vouchers.jsonl
verdict "a sheet as a spreadsheet writes it" $?

# ---- what is refused

python3 tests/gate/sheets.py
verdict "sheets with a fault" $?
printf 'key,amount\na,1.00\nb,12.345\n' | "$from_csv" call=receive desk=5 on=2025-07-05 source=1 > "$scratch/got" 2> "$scratch/said"
status=$?
[ "$status" -eq 1 ] && [ ! -s "$scratch/got" ] &&
    [ "$(cat "$scratch/said")" = "from_csv: row 3, amount: 12.345 is no amount of money, as 1234.50 or 1,234.50" ]
verdict "no call of a sheet with a fault is written: status $status: $(cat "$scratch/said")" $?

# ---- a second sending

. tests/lib/built.sh
program=${PROGRAM:-$(built cityfund)}
if [ ! -x "$program" ]; then
    echo "sheets: skipped: there is no program to send the calls to"
    summary sheets
    exit
fi
. tests/lib/program.sh
cp examples/harborview/chart.toml "$scratch/chart.toml"
(cd "$scratch" && "$program" found > /dev/null && "$program" desk < all.jsonl > got && cp fund.journal first.journal &&
    "$program" desk < all.jsonl > again)
verdict "the calls are sent twice" $?
cmp "$scratch/got" "$scratch/all.replies"
verdict "the first replies" $?
[ "$(grep -c '"ok":.*"was":' "$scratch/again")" -eq "$(wc -l < "$scratch/all.jsonl")" ] && cmp "$scratch/first.journal" "$scratch/fund.journal"
verdict "the second time each is answered with its place, and nothing is added" $?
summary sheets
