# Read by tests/long/operate.sh, with `top`, `scratch`, `city`, `program` and `first` set, while a
# journal is served: backup.sh beside desks at work, over a clock that is wrong for once, over a
# journal that lost entries, and what docs/OPERATE.md does with the last copy.

# copy STATUS TEXT: backup.sh ends so, and says a line that has the text. `clock` is a moment that
# it takes for now.
copy() {
    said=$(PATH=$scratch/clock:$PATH clock=$clock CITYFUND=$city sh examples/operate/backup.sh "$scratch/serving" "$scratch/copies" 2>&1)
    status=$?
    [ "$status" -eq "$1" ] && echo "$said" | grep -q "$2"
    verdict "a copy that ends with $1 and says $2: status $status: $said" $?
}

mkdir "$scratch/copies" "$scratch/clock"
cat > "$scratch/clock/date" << 'CLOCK'
#!/bin/sh
[ -z "$clock" ] || { echo "$clock"; exit; }
exec /bin/date "$@"
CLOCK
chmod +x "$scratch/clock/date"
url=http://127.0.0.1:$first
examples/clients/desk.sh "$url" < examples/clients/council.jsonl > "$scratch/got"
copy 0 "entries: 1 "
# The clock is wrong for one copy. The next one is made all the same, and it is said once; those
# behind it are as ever.
clock=2099-01-01T000000Z
copy 0 "2099-01-01T000000Z.journal: .*entries: 1 "
clock=
copy 1 "the clock went back: the copy before this one is 2099-01-01T000000Z.journal"
sleep 1
# The desks are at work meanwhile.
for number in $(seq 500); do
    echo '{"call":"voucher","desk":4,"key":"v'"$number"'","on":"2025-07-05","vendor":77,"items":[{"fund":1,"dept":20,"object":510,"amount":1}]}'
done > "$scratch/many"
CITYFUND_TRIES=1 examples/clients/desk.py "$url" < "$scratch/many" > "$scratch/got" &
sending=$!
copy 0 "last day"
wait "$sending"
verdict "the calls while it was copied: status $?" "$?"
sleep 1
copy 0 "entries: 501 "
(cd "$scratch/copies" && sha256sum --check --status checksums && [ "$(ls | wc -l)" -eq 6 ])
verdict "five copies, with their checksums" $?
# The last copy, in its place: what was answered is there.
mkdir "$scratch/restored"
cp "$scratch/copies/$(tail -n 1 "$scratch/copies/checksums" | cut -d ' ' -f 3)" "$scratch/restored/fund.journal"
said=$(echo '{"call":"line","line":3,"year":2026,"after":501}' | (cd "$scratch/restored" && "$program" desk))
[ "$said" = '{"at":501,"is":{"appropriated":"100000","encumbered":"0","expended":"500","held":"0","original":"100000","room":"99500"}}' ]
verdict "a restored journal: $said" $?
# What docs/OPERATE.md prints is of the last copy.
opt=$city
said=$(cd "$scratch" && eval "$(cd "$top" && code print)" | head -n 1; "$books" check "$scratch/print/fund.journal" | sed -n 's/^entries: //p')
[ "$said" = "Rivertown: Balance sheet, fiscal year 2026
501" ]
verdict "a statement of the last copy: $said" $?
# Where nobody reads them these copies are lost entries, too.
mv "$scratch/copies/checksums" "$scratch/checksums"
copy 1 "has copies, and no line in checksums"
mv "$scratch/checksums" "$scratch/copies/checksums"
# A journal that lost its last entries: the closed gate of the first one ends it. The copies before
# are more than it has.
stop_serving
(cd "$scratch/serving" && rm fund.journal && "$program" found > /dev/null && "$program" desk < "$top/examples/clients/council.jsonl" > /dev/null)
sleep 1
copy 1 "entries of .* aren't in the journal"
echo no journal > "$scratch/serving/fund.journal"
copy 1 "isn't sound"
