#!/bin/sh
# Tries the program `books` on the journals of the examples: their calls, sent to a desk over a newly founded journal, make the
# same file; a Rivertown journal moves to a chart with a line and a desk more; a journal that is cut at any byte gives the
# whole entries before the cut; payments have their amounts; the lines of a fund with a later level say their years; the vouchers of
# a grant stand as they were worked out by hand, and each fault of its document is named; an entry that the office refuses is named. Then what it refuses, and an output that fails. BOOKS names another program than the one that rt built last.
cd "$(dirname "$0")/../.." || exit 1
top=$(pwd)
. tests/lib/program.sh
. tests/lib/listing.sh
mkdir "$scratch/first" "$scratch/again"
folder=$scratch/first

# found FOLDER CHART: a newly founded journal.
found() {
    rm -f "$scratch/$1/fund.journal"
    cp "$2" "$scratch/$1/chart.toml"
    (cd "$scratch/$1" && "$program" found > /dev/null 2>&1)
}

# ---- charts with a fault, and what each command prints of a journal

python3 tests/gate/said.py "$program" "$books" tests/gate/books
verdict "what books says of charts and journals" $?

# ---- the calls of a journal make it again

for talk in examples/*.jsonl examples/*/*.jsonl; do
    chart=$(chart_of "$talk")
    [ -e "$chart" ] || continue
    found first "$chart"
    (cd "$scratch/first" && "$program" desk < "$top/$talk" > /dev/null && "$books" calls > calls && "$books" chart > "$scratch/chart.toml")
    found again "$scratch/chart.toml"
    (cd "$scratch/again" && "$program" desk < "$scratch/first/calls" > replies) &&
        cmp "$scratch/first/fund.journal" "$scratch/again/fund.journal" &&
        ! grep -q '"no"' "$scratch/again/replies"
    verdict "the calls of $talk make its journal again" $?
done

# ---- a longer chart: rows at the end keep all numbers

found first examples/rivertown/chart.toml
(cd "$scratch/first" && "$program" desk < "$top/examples/first-day.jsonl" > /dev/null && "$books" calls > calls)
cp examples/rivertown/chart.toml "$scratch/longer.toml"
cat >> "$scratch/longer.toml" << 'ROWS'

[[line]]
fund = 2
dept = 10

[[desk]]
id = 50
name = "Second cashier"
roles = ["treasury"]
ROWS
found again "$scratch/longer.toml"
(cd "$scratch/again" && "$program" desk < "$scratch/first/calls" > replies && ! grep -q '"no"' replies &&
    "$books" list > list && "$books" list ../first/fund.journal | cmp - list)
verdict "a journal moves to a longer chart with the same numbers" $?

# ---- amounts of payments

mkdir "$scratch/debt"
cp examples/rivertown/chart.toml "$scratch/first/chart-alone.toml"
[ "$(cd "$scratch/first" && "$books" list | awk -F '\t' '$5 == "pay" { print $6 }')" = "600.00" ]
verdict "the amount of a payment of vouchers" $?
found debt examples/rivertown/chart.toml
cat > "$scratch/debt/in" << 'CALLS'
{"call":"adopt","desk":1,"key":"b1","on":"2025-07-01","fund":1,"year":2026,"lines":[{"line":6,"amount":300000},{"line":7,"amount":100000}],"estimates":[]}
{"call":"receive","desk":5,"key":"r1","on":"2025-07-15","source":2,"amount":50000}
{"call":"issue","desk":5,"key":"i1","on":"2025-07-15","fund":1,"amount":200000,"rate_bp":600,"every":1,"principals":[150000,50000]}
{"call":"pay_due","desk":5,"key":"d1","on":"2025-08-20","bond":1,"fund":1,"dept":10,"principal":810,"interest":820}
{"call":"pay_due","desk":5,"key":"d2","on":"2025-09-20","bond":1,"fund":1,"dept":10,"principal":810,"interest":820}
CALLS
# Interest of 30 days: 2,000.00 at 6 % is 10.00, and 500.00 is 2.50.
[ "$(cd "$scratch/debt" && "$program" desk < in > replies && "$books" list | awk -F '\t' '$5 == "pay_due" { print $6, $7 }')" = "1510.00 1
502.50 2" ]
verdict "the amounts of payments of a debt" $?

# ---- the lines of a chart's own file

(cd "$scratch/first" && "$books" lines > lines-of && "$books" lines chart-alone.toml | cmp - lines-of)
verdict "the lines of a chart's file" $?

# ---- a later level of control

found again examples/fairview/chart.toml
expect "a fund that changes its level" 0 "city: Fairview
first fiscal year: 2026
first month: 7
functions: 2
funds: 3
departments: 3
objects: 7
sources: 3
lines: 10
desks: 10
fund 1 is controlled by department from 2027" check-chart ../again/chart.toml
(cd "$scratch/again" && "$books" lines | sed -n '4p;5p;9p' > got &&
    printf '3\t1\tGeneral Fund\t20\tStreets\tobject 510 (through 2026)\tSupplies
4\t2\tStreet Fund\t20\tStreets\tall objects\t
8\t1\tGeneral Fund\t20\tStreets\tall objects (from 2027)\t\n' | cmp - got)
verdict "which years a line is of" $?

# ---- grants

# rows NAME TEXT: how the vouchers of grant 7 stand in the journal of the folder `grants`.
rows() {
    folder=$scratch/grants
    expect "$1" 0 "$2" claims 7
    folder=$scratch/first
}

# said TALK: the desk takes a talk of examples/grants/.
said() {
    (cd "$scratch/grants" && "$program" desk < "$top/examples/grants/$1.jsonl" > replies && cmp replies "$top/examples/grants/$1.replies")
    verdict "the talk $1 of a grant" $?
}

# document FAULT TEXT: the document of the folder `grants` is refused with these words, by both commands.
document() {
    folder=$scratch/grants
    expect "a document of grants with $1" 19 "books: grants refused: $2" check-grants document
    expect "the same for its claims" 19 "books: grants refused: $2" claims 7 document
    folder=$scratch/first
}

mkdir "$scratch/grants"
found grants examples/rivertown/chart.toml
cp examples/grants/grants.toml "$scratch/grants"
said autumn
rows "how the vouchers of a grant stand" "1	2025-09-10	2026	10000.00	8000.00	claimable	8000.00		12000.00
2	2025-10-06	2026	4000.55	3200.44	claimable	3200.44		8799.56
4	2025-11-14	2026	7333.33	5866.66	claimable	5866.66		2932.90
5	2025-12-05	2026	600.00	480.00	unpaid			2932.90
6	2025-12-19	2026	5000.00	4000.00	unpaid			2932.90"
said january
rows "the same with three of them claimed" "1	2025-09-10	2026	10000.00	8000.00	claimed		1	2932.90
2	2025-10-06	2026	4000.55	3200.44	claimed		2	2932.90
4	2025-11-14	2026	7333.33	5866.66	claimed		3	2932.90
5	2025-12-05	2026	600.00	480.00	unpaid			2932.90
6	2025-12-19	2026	5000.00	4000.00	unpaid			2932.90"
said spring
[ "$(cd "$scratch/grants" && "$books" claims 7 --csv | sed -n '1p;6p')" = "voucher,day,year,eligible,share,state,amount,bill,left
6,2025-12-19,2026,5000.00,4000.00,claimable,2932.90,,0.00" ]
verdict "a claim that the award cuts, as records" $?
said april
said summer
[ "$(cd "$scratch/grants" && "$books" claims 7 | tail -n 1)" = "7	2026-06-10	2026	700.00	560.00	nothing left			0.00" ]
verdict "a voucher past the award" $?
folder=$scratch/grants
expect "a document of grants" 0 "grants: 1
grant 7: source 3, payer 9, award 20000.00, rate_bp 8000, lines 1" check-grants
: > "$scratch/grants/document"
expect "a document without a grant" 0 "grants: 0" check-grants document
expect "a grant that the document hasn't" 19 "books: grants refused: no grant 8" claims 8
expect "no document" 4 "books: read fault" check-grants nowhere
expect "a grant that is no number" 2 "books: bad words" claims 07
expect "records of no list" 2 "books: bad words" check-grants --csv
mkdir "$scratch/alone"
cp "$scratch/grants/grants.toml" "$scratch/alone"
folder=$scratch/alone
expect "no journal beside the document" 4 "books: read fault" check-grants
folder=$scratch/first
grants=examples/grants/grants.toml
document=$scratch/grants/document
{ cat "$grants" && head -c 1048576 /dev/zero | tr '\0' '\n'; } > "$document" && document "more than 1,048,576 bytes" "longer than 1048576 bytes"
echo "[[grant]" > "$document" && document "no TOML" "no TOML document"
echo "grant = 7" > "$document" && document "a grant that is no table" "grant 0 has a bad grant"
cat "$grants" "$grants" > "$document" && document "a grant twice" "grant 1 (id 7) stands twice"
{ cat "$grants" && sed 's/^id = 7/id = 8/' "$grants"; } > "$document" && document "a source twice" "grant 1 (id 8) stands twice"
for id in $(seq 1 65); do sed "s/^id = 7/id = $id/" "$grants"; done > "$document" && document "65 grants" "more than 64 grants"
sed '/^id = /d' "$grants" > "$document" && document "no id" "grant 0 has no id"
for fault in "id = true" "id = 0" "id = 10000"; do
    sed "s/^id = .*/$fault/" "$grants" > "$document" && document "$fault" "grant 0 has a bad id"
done
for key in source payer award rate_bp lines; do
    sed "/^$key = /d" "$grants" > "$document" && document "no $key" "grant 0 (id 7) has no $key"
    sed "s/^$key = .*/$key = true/" "$grants" > "$document" && document "a $key of another type" "grant 0 (id 7) has a bad $key"
done
for fault in "source = 1" "source = 4" "payer = -1" "payer = 4294967296" "award = 0" "award = 10000000000001" "rate_bp = 0" "rate_bp = 10001" \
    "lines = []" "lines = [3]" "lines = [8]" "lines = [4, 4]"; do
    sed "s/^${fault%% *} = .*/$fault/" "$grants" > "$document" && document "$fault" "grant 0 (id 7) has a bad ${fault%% *}"
done

# ---- a journal that is cut

entries=$("$books" list "$scratch/first/fund.journal" | wc -l)
size=$(wc -c < "$scratch/first/fund.journal")
in_use=$(($(python3 tests/lib/journal.py --end "$scratch/first/fund.journal") + 1))
[ "$("$books" check "$scratch/first/fund.journal" | tail -n 2)" = "bytes in use: $in_use
bytes of room: $((size - in_use))" ]
verdict "the bytes in use and those of room" $?
python3 - "$books" "$scratch/first/fund.journal" "$scratch/first/calls" << 'PY'
import struct, subprocess, sys

BOOKS, JOURNAL, CALLS = sys.argv[1:]
data, calls = open(JOURNAL, "rb").read(), open(CALLS, "rb").read().splitlines(True)
chart = 6 + struct.unpack(">I", data[2:6])[0]
gates = [chart]
while data[gates[-1]] == 1:
    gates.append(gates[-1] + 5 + struct.unpack(">I", data[gates[-1] + 1:gates[-1] + 5])[0])
wrong = 0
for cut in [*range(0, gates[-1] + 10), *range(gates[-1] + 10, len(data), 4096), len(data)]:
    open(JOURNAL + ".cut", "wb").write(data[:cut])
    run = subprocess.run([BOOKS, "calls", JOURNAL + ".cut"], stdout=subprocess.PIPE, stderr=subprocess.PIPE)
    whole = sum(gate < cut for gate in gates[1:])
    if cut <= 1:
        wanted = (7, b"")
    elif cut <= chart:
        wanted = (9, b"")
    else:
        # A cut at the end of a record's payload leaves no gate behind it, so that entry isn't whole.
        wanted = (0 if cut > gates[-1] or data[gates[whole]] != 1 else 13, b"".join(calls[:whole]))
    if (run.returncode, run.stdout) != wanted:
        wrong += 1
        print(f"cut at {cut}: {run.returncode} {run.stdout} {run.stderr}, not {wanted}")
sys.exit(wrong > 0)
PY
verdict "a journal of $entries entries, cut at each of its $in_use bytes in use, and in its room" $?

# ---- the first entries of a journal: each list says what it says of a journal that ends there

mkdir "$scratch/front"
for n in 0 1 4 "$entries"; do
    found front examples/rivertown/chart.toml
    (cd "$scratch/front" && head -n "$n" "$scratch/first/calls" | "$program" desk > replies)
    for words in list calls lines open posts "balances 2026" "statement 2026 budget"; do
        (cd "$scratch/front" && "$books" $words > "$scratch/front-of" && "$books" $words ../first/fund.journal --entries "$n" | cmp - "$scratch/front-of")
        verdict "$words of the first $n entries" $?
    done
done

# ---- an entry that the office refuses: its place is named, and its call is printed

python3 - "$books" "$scratch/first/fund.journal" "$scratch/first/calls" << 'PY'
import struct, subprocess, sys

BOOKS, JOURNAL, CALLS = sys.argv[1:]
data, calls = open(JOURNAL, "rb").read(), open(CALLS, "rb").read().splitlines(True)
gates = [6 + struct.unpack(">I", data[2:6])[0]]
while data[gates[-1]] == 1:
    gates.append(gates[-1] + 5 + struct.unpack(">I", data[gates[-1] + 1:gates[-1] + 5])[0])


def check(name, bytes, code, out, err):
    open(JOURNAL + ".forged", "wb").write(bytes)
    run = subprocess.run([BOOKS, "check", JOURNAL + ".forged"], stdout=subprocess.PIPE, stderr=subprocess.PIPE)
    got = (run.returncode, run.stdout, run.stderr.decode())
    if got != (code, out, err):
        print(f"{name}: {got}, not {(code, out, err)}")
    return got == (code, out, err)


# Without its first entry the second, a voucher, is of a budget that wasn't adopted; with the last one twice it is a repeat.
first = data[:gates[0]] + data[gates[1]:]
last = data[gates[-2]:gates[-1]]
twice = data[:gates[-1]] + last + data[gates[-1]:]
held = [check("no budget", first, 9, calls[1], f"books: damaged at {gates[0]}: entry 1 is refused: 12 NotAdopted\n"),
        check("a repeat", twice, 9, calls[-1], f"books: damaged at {gates[-1]}: entry {len(calls) + 1} is a repeat, or draws other numbers\n")]
sys.exit(not all(held))
PY
verdict "an entry that the office refuses" $?

# ---- what is refused, and that nothing changes

cp "$scratch/first/fund.journal" "$scratch/before"
mkdir "$scratch/first/folder"
echo "no journal" > "$scratch/first/text"
: > "$scratch/first/empty"
expect "no file" 4 "books: read fault" calls nowhere
expect "a folder" 4 "books: read fault" calls folder
expect "an empty file" 7 "books: not founded: the file has 0 bytes" list empty
expect "no journal" 7 "books: not founded: the file has 11 bytes" check text
expect "no chart for lines" 7 "books: not founded: the file has 11 bytes" lines text
expect "no chart" 3 "books: chart refused: no TOML document" check-chart text
expect "no words" 2 "books: bad words"
expect "an unknown command" 2 "books: bad words" print
expect "two files" 2 "books: bad words" list fund.journal fund.journal
expect "records of another command" 2 "books: bad words" calls --csv
expect "an unknown option" 2 "books: bad words" list --tsv
expect "an option of another command" 2 "books: bad words" open --fund 1
expect "entries of a chart" 2 "books: bad words" check-chart --entries 1
expect "a day that is none" 20 "books: no such day" posts --through 2026-02-30
expect "a day before 1971" 20 "books: no such day" balances 2026 --through 1970-12-31
expect "a month that is none" 20 "books: no such day" month 2026-13
expect "more entries than there are" 22 "books: entries refused: $((entries + 1)) asked, the journal has $entries" list --entries $((entries + 1))
expect "entries of no journal" 7 "books: not founded: the file has 11 bytes" list text --entries 0
sed 's/^window = 60$/window = 61/' examples/rivertown/chart.toml > "$scratch/first/window.toml"
sed 's/^level = "department"$/level = "dept"/' examples/rivertown/chart.toml > "$scratch/first/level.toml"
expect "a bad level, with the id of its row" 3 "books: chart refused: fund 1 (id 2) has a bad level" check-chart level.toml
expect "the lines of a chart that is refused" 3 "books: chart refused: fund 1 (id 2) has a bad level" lines level.toml
expect "a window of 61 days" 3 "books: chart refused: source 1 has a window of 61 days" check-chart window.toml
"$books" --help > "$scratch/help" 2> "$scratch/err" && grep -q '^books calls' "$scratch/help" && [ ! -s "$scratch/err" ]
verdict "help" $?
[ "$("$books" --version)" = "books 1" ]
verdict "version" $?
# An output that fails: nothing can be written to /dev/full.
for words in list calls chart lines check --help; do
    said=$(cd "$scratch/first" && "$books" $words 2>&1 > /dev/full)
    status=$?
    [ "$status" -eq 5 ] && [ "$said" = "books: write fault" ]
    verdict "an output that fails, of $words: status $status: $said" $?
done
cmp -s "$scratch/first/fund.journal" "$scratch/before"
verdict "the journal stays" $?

# The first record's gate is opened in front of what is no entry.
printf '\003' | dd of="$scratch/first/fund.journal" bs=1 seek="$(($(wc -c < examples/rivertown/chart.toml) + 11))" conv=notrunc 2> /dev/null
expect "a damaged entry" 13 "books: damaged at $(($(wc -c < examples/rivertown/chart.toml) + 6)): what stands before is given, and $((size - $(wc -c < examples/rivertown/chart.toml) - 6)) bytes are lost" calls
expect "the same, checked" 9 "books: damaged at $(($(wc -c < examples/rivertown/chart.toml) + 6)): no record of a journal stands there" check

# A journal that a desk holds is read.
cp "$scratch/before" "$scratch/first/fund.journal"
mkfifo "$scratch/first/lines"
(cd "$scratch/first" && "$program" desk < lines > got) &
exec 3> "$scratch/first/lines"
printf '%s\n' '{"call":"line","line":3,"year":2026}' >&3
until [ -s "$scratch/first/got" ] || ! kill -0 $! 2> /dev/null; do sleep 0.1; done
(cd "$scratch/first" && "$books" calls | cmp - calls)
verdict "a journal that a desk holds" $?
exec 3>&-
wait $!

summary books
