#!/bin/sh
# Tries `serve` over real doors of this machine: its words and how it ends before a link is served, and then by serve.py the texts
# of serve.links byte for byte, a day that a desk answers alike, two doors at once, what one door sees of the other, slow, silent
# and broken links, and each way in which it ends.
cd "$(dirname "$0")/../.." || exit 1
top=$(pwd)
. tests/lib/program.sh
books=${BOOKS:-$(built books)}
scratch=$(mktemp -d) || exit 1
trap 'rm -rf "$scratch"' EXIT
. tests/lib/expect.sh
tried=$program folder=$scratch

# ---- words

while read -r words; do
    expect "serve $words" 2 "cityfund: bad words" serve $words
done <<'WORDS'

--port 8100
--port 8100 --doors 2
--port 8100 --links 2
--port 1023 --doors 1 --links 1
--port 65001 --doors 1 --links 1
--port 8100 --doors 0 --links 1
--port 8100 --doors 17 --links 1
--port 8100 --doors 1 --links 0
--port 8100 --doors 1 --links 1000001
--port 08100 --doors 1 --links 1
--port +8100 --doors 1 --links 1
--port 8100 --doors 1 --links 1 --links 1
--port 8100 --doors 1 --links 1 more
--port 8100 --doors 1 --links 1 --help
--port 8100 --doors --links 1
WORDS

# ---- no journal, and a damaged one

expect "no journal" 7 "cityfund: not founded" serve --port 8100 --doors 1 --links 1
[ ! -e "$scratch/fund.journal" ]
verdict "no journal is made" $?
cp examples/rivertown/chart.toml "$scratch/chart.toml"
(cd "$scratch" && "$program" found > /dev/null)
# A head that is cut short behind the version.
head -c 5 "$scratch/fund.journal" > "$scratch/before"
cp "$scratch/before" "$scratch/fund.journal"
expect "a head cut short" 9 "cityfund: damaged at 1" serve --doors=1 --links=1 --port=8100
cmp -s "$scratch/fund.journal" "$scratch/before"
verdict "the journal stays" $?

# ---- over the doors

(cd "$scratch" && python3 "$top/tests/long/serve.py" "$program" "$books")
verdict "the doors" $?
summary serve
