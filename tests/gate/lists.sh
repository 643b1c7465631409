#!/bin/sh
# Tries the lists of `books` on the journals of the examples (lists.py): posts and balances beside
# the looks of a desk and beside what the independent office makes of the same talk, row by row;
# what is open beside the looks at each number, with what that office asks of a debt's next payment;
# and each statement beside the records of `report`, with the names of funds and control lines. Then
# that a row which is changed, lost or moved is seen; lists of Rivertown's first day and the ledger
# of a line of the town, worked by hand; and that the lists of the page (page/lists.py, tried by
# listed.py) have what is open, each document and the ledger of each line, and go on where a row
# can't be read. BOOKS names another program than the one that rt built last.
cd "$(dirname "$0")/../.." || exit 1
top=$(pwd)
. tests/lib/program.sh
. tests/lib/listing.sh

# founded TALK: the journal of a talk of examples/, and `chart` names its chart.
founded() {
    chart=$(chart_of "$1")
    [ -e "$chart" ] || return 1
    rm -f "$scratch/fund.journal"
    cp "$chart" "$scratch/chart.toml"
    (cd "$scratch" && "$program" found > /dev/null 2>&1 && "$program" desk < "$top/$1" > /dev/null)
}

for talk in examples/*.jsonl examples/*/*.jsonl; do
    founded "$talk" || continue
    python3 tests/lib/lists.py "$program" "$books" "$scratch" "$chart" "$talk"
    verdict "the lists of $talk" $?
    python3 tests/lib/listed.py books "$books" "$scratch"
    verdict "the page's lists of $talk" $?
done

# ---- a row that is changed, lost or moved

# changed SCRIPT WORDS..: where the list of these words goes through sed with this script, it is named as other than what it is to be.
changed() {
    filter "$@"
    shift
    said=$(python3 tests/lib/lists.py "$program" "$scratch/changed" "$scratch" "$chart" "$talk" 2>&1)
    status=$?
    [ "$status" -eq 1 ] && [ "${said#"$talk: "}" != "$said" ]
    verdict "$* with $script: status $status: $said" $?
}

talk=examples/a-year.jsonl
founded "$talk"
changed '5s/\.00$/.01/' posts --csv
changed '3d' posts --csv
changed '3s/\.00$/.01/' balances 2026 --csv
changed '4d' balances 2026 --csv
changed '2{h;d};3G' balances 2026 --csv
changed '3s/Receivables/Cash/' balances 2026 --csv
changed '2d' balances 2026 --alone --csv
changed '3s/\.00$/.01/' paid 2025 --csv
changed '2{h;d};3G' paid 2025 --csv
changed '2d' open --csv
changed '3s/^General Fund/Street Fund/' statement 2026 balance --csv
changed '4s/Administration/Streets/' statement 2026 budget --csv
changed '4s/object 510/object 520/' statement 2026 budget --csv
changed '5s/0\.00/0.01/' statement 2026 budget --csv
changed '6d' statement 2026 operating --csv
changed '3{h;d};4G' statement 2026 activities --csv
changed '2s/\t/ /' statement 2026 reconcile

# ---- two lists of Rivertown's first day

founded examples/first-day.jsonl
expect "what moved cash in the first day" 0 "4	2025-07-06	5	r1	receive		fund	2026	1	General Fund	100000	Cash	1000.00
4	2025-07-06	5	r1	receive		gov	2026	0		100000	Cash	1000.00
5	2025-07-06	5	p1	pay		fund	2026	1	General Fund	100000	Cash	-600.00
5	2025-07-06	5	p1	pay		gov	2026	0		100000	Cash	-600.00" posts --account 100000
# The first day is of the first year, so a year alone has the same balances.
balances="basis,fund,fund_name,account,account_name,balance
fund,1,General Fund,100000,Cash,400.00
fund,1,General Fund,110000,Receivables,900.00
fund,1,General Fund,200000,Vouchers payable,-400.00
fund,1,General Fund,290000,Unavailable revenue,-900.00
fund,1,General Fund,400001,Property tax,-1000.00
fund,1,General Fund,500002,Public works,1000.00
gov,0,,100000,Cash,400.00
gov,0,,110000,Receivables,900.00
gov,0,,200000,Vouchers payable,-400.00
gov,0,,400001,Property tax,-1900.00
gov,0,,500002,Public works,1000.00"
expect "the balances of the first day" 0 "$balances" balances 2026 --csv
expect "the balances of the first day's year alone" 0 "$balances" balances 2026 --alone --csv
expect "the balances of the year behind the first day's" 0 "basis,fund,fund_name,account,account_name,balance
fund,1,General Fund,100000,Cash,400.00
fund,1,General Fund,110000,Receivables,900.00
fund,1,General Fund,200000,Vouchers payable,-400.00
fund,1,General Fund,290000,Unavailable revenue,-900.00
gov,0,,100000,Cash,400.00
gov,0,,110000,Receivables,900.00
gov,0,,200000,Vouchers payable,-400.00
gov,0,,300000,Opening net position,-900.00" balances 2027 --alone --csv
expect "what vendors were paid in the first day's year" 0 "vendor,document,number,key,day,run,amount
77,total,,,,,600.00
77,voucher,1,v1,2025-07-06,p1,600.00" paid 2025 --csv
expect "what vendors were paid in the year before" 0 "vendor,document,number,key,day,run,amount" paid 2024 --csv
expect "what is open of the first day" 0 "call,number,item,day,desk,key,party,year,line,fund_name,dept_name,open,next,due,interest,closed
bill,1,,2025-07-06,6,l1,5,2026,,,,900.00,,,,
voucher,2,,2025-07-05,4,v2,77,2026,,,,400.00,,,," open --csv

# ---- a ledger that was worked by hand

# gate/books/streets.csv is the ledger of line 53, Streets in the Street Fund, over the town's year.
# It was worked by hand, row by row, from the calls and replies of examples/town as text, and by no
# program. What its rows of 2026 spend, 1430370.70, is Line 53 of the town's stored comparison.
founded examples/town/year.jsonl
(cd "$scratch" && "$books" ledger --line 53 --csv) | diff tests/gate/books/streets.csv -
verdict "the ledger of Streets, worked by hand" $?

# ---- what a spreadsheet takes for a formula

# A key and a fund's name that are formulas have a quote before them in records, and stand as they are with tabs. An amount below
# zero stays, and so does a key that is one.
chart=$scratch/named.toml
sed 's/^name = "General Fund"$/name = "=1+1"/' examples/rivertown/chart.toml > "$chart"
cp "$chart" "$scratch/chart.toml"
rm -f "$scratch/fund.journal"
for key in '=1+1' '+1' '-1+1' '@SUM(1)' '=1,2' '-' '-1.5' plain; do
    echo '{"call":"receive","desk":5,"key":"'"$key"'","on":"2025-07-05","source":1,"amount":100}'
done > "$scratch/formulas.jsonl"
(cd "$scratch" && "$program" found > /dev/null 2>&1 && "$program" desk < formulas.jsonl > formulas.replies && ! grep -v '"ok"' formulas.replies)
verdict "keys that are formulas" $?
python3 tests/lib/lists.py "$program" "$books" "$scratch" "$chart" "$scratch/formulas.jsonl"
verdict "the lists of keys and a name that are formulas" $?
said=$(cd "$scratch" && "$books" list --csv | sed '1d; s/^[0-9]*,2025-07-05,5,//; s/,receive,1.00,,$//' | xargs -d '\n')
[ "$said" = "'=1+1 '+1 '-1+1 '@SUM(1) \"'=1,2\" - -1.5 plain" ]
verdict "formulas in records: $said" $?
said=$(cd "$scratch" && "$books" list | cut -f 4 | xargs)
[ "$said" = "=1+1 +1 -1+1 @SUM(1) =1,2 - -1.5 plain" ]
verdict "formulas with tabs: $said" $?
said=$(cd "$scratch" && "$books" posts --account 400001 --csv | sed -n '1p; 2p')
[ "$said" = "place,day,desk,key,call,number,basis,year,fund,fund_name,account,account_name,amount
1,2025-07-05,5,'=1+1,receive,,fund,2026,1,'=1+1,400001,Property tax,-1.00" ]
verdict "a post of an entry whose key is a formula: $said" $?
said=$(cd "$scratch" && { "$books" statement 2026 balance --csv | sed -n 2p; "$program" report 2026 balance --csv | sed -n 1p; } | xargs -d '\n')
[ "$said" = "'=1+1,Cash,8.00 =1+1,,,,," ]
verdict "a fund whose name is a formula: $said" $?

# ---- the lists of the page

# An order's last invoice, the close of June, its void, and another invoice of the year before on the item that is open again: after
# each of them the lists have what is open.
for count in 5 18 19 22 23 26 27; do
    head -n "$count" examples/reopened-order.jsonl > "$scratch/part.jsonl"
    rm -f "$scratch/fund.journal"
    cp examples/rivertown/chart.toml "$scratch/chart.toml"
    (cd "$scratch" && "$program" found > /dev/null 2>&1 && "$program" desk < part.jsonl > /dev/null)
    python3 tests/lib/listed.py books "$books" "$scratch"
    verdict "the page's lists of a reopened order, after $count calls" $?
done
# Two rows that can't be read: each is skipped and said, and all others are listed.
cat > "$scratch/changed" << PROGRAM
#!/bin/sh
"$books" "\$@" | case "\$*" in
*--csv*) cat ;;
documents*) sed '1s/\t[0-9]*\.[0-9]*\t/\tmuch\t/' ;;
ledger*) sed '2s/\t2026\t/\tyear\t/' ;;
*) cat ;;
esac
PROGRAM
chmod +x "$scratch/changed"
python3 tests/lib/listed.py skips "$scratch/changed" "$scratch" "order 1" "ledger row of entry 2"
verdict "the page's lists past what can't be read" $?

summary lists
