#!/bin/sh
# Copies the journal of the folder JOURNAL to the folder COPIES, while the desks are at work, and tries the copy:
#
#     backup.sh JOURNAL COPIES [LOG]
#
# The copy is kept as the moment's name with .journal, with its checksum in COPIES/checksums, once the rules judged each entry again,
# all entries of the last copy were found in it, and a desk opened it in a folder of its own. Else it says what is wrong, keeps
# the copy that it made as refused.journal, and ends with 1. The last copy is that of the last line
# of checksums, whatever its name: a clock that was wrong once gives a copy a name of its own. Where
# the new name isn't above the last one the copy is kept, the script says so, and it ends with 1.
# CITYFUND names the folder of the programs (/opt/cityfund).
city=${CITYFUND:-/opt/cityfund}
journal=$1/fund.journal
copies=$2
umask 077

fail() {
    [ ! -e "$scratch/fund.journal" ] || mv -f "$scratch/fund.journal" "$copies/refused.journal"
    echo "backup: failed: $1" >&2
    exit 1
}

# LOG is the log of who entered what (docs/OPERATE.md). It is copied before the journal, so that
# each of its lines has its entry there, and kept beside the journal's copy as .trail, with its
# checksum in COPIES/checksums-trail, where its chain is whole and the last copy is the beginning of
# it. Else the journal's copy is kept all the same, the log's is kept as refused.trail, and the
# script ends with 1.

# copy_log: what is wrong with the log's copy in the scratch folder, or nothing.
copy_log() {
    head -n "$(wc -l < "$log")" "$log" > "$scratch/trail" || { echo "$log can't be copied"; return; }
    "$city/examples/operate/trail" --check "$scratch/trail" > "$scratch/chain" 2> "$scratch/said"
    status=$?
    # With 5 the clock went back, or the proxy's file was another one: the log tells it, and is
    # whole.
    [ "$status" -eq 0 ] || [ "$status" -eq 5 ] || { echo "$log: $(head -n 1 "$scratch/said")"; return; }
    old=$(tail -n 1 "$copies/checksums-trail" 2> /dev/null | cut -d ' ' -f 3)
    [ -n "$old" ] || return
    (cd "$copies" && tail -n 1 checksums-trail | sha256sum --check --status) || { echo "$old isn't what it was: see its checksum"; return; }
    head -c "$(wc -c < "$copies/$old")" "$scratch/trail" | cmp -s - "$copies/$old" || echo "lines of $old aren't in $log"
}

# keep_log NAME: keeps the log's copy under this name, and says what it has, or what is wrong.
keep_log() {
    if [ -n "$wrong" ]; then
        [ ! -e "$scratch/trail" ] || mv -f "$scratch/trail" "$copies/refused.trail"
        echo "backup: failed: $wrong" >&2
        return 1
    fi
    mv "$scratch/trail" "$copies/$1" && (cd "$copies" && sha256sum "$1" >> checksums-trail && sync "$1" checksums-trail) || return 1
    echo "backup: $1: $(tr '\n' ' ' < "$scratch/chain")"
}

[ $# -eq 2 ] || [ $# -eq 3 ] || { echo "backup.sh JOURNAL COPIES [LOG]" >&2; exit 2; }
log=$3
scratch=$(mktemp -d "$copies/trial.XXXXXX") || exit 1
trap 'rm -rf "$scratch"' EXIT
trap 'exit 1' HUP INT TERM

[ -z "$log" ] || wrong=$(copy_log)

# A desk that takes an entry back in the very moment, after a fault of the disk, can make a copy look damaged: then another is made.
tries=3
until cp "$journal" "$scratch/fund.journal" && "$city/books" check "$scratch/fund.journal" > "$scratch/has"; do
    tries=$((tries - 1))
    [ "$tries" -gt 0 ] || fail "$journal can't be copied, or isn't sound"
    sleep 1
done

# The last copy. Without a line there must be no copy either.
named=$(tail -n 1 "$copies/checksums" 2> /dev/null | cut -d ' ' -f 3-)
[ -n "$named" ] || [ -z "$(find "$copies" -maxdepth 1 -name '2*.journal' | head -n 1)" ] || fail "$copies has copies, and no line in checksums"
last=$copies/$named
if [ -n "$named" ]; then
    (cd "$copies" && tail -n 1 checksums | sha256sum --check --status) || fail "$last isn't what it was: see its checksum"
    "$city/books" calls "$last" > "$scratch/before" && "$city/books" calls "$scratch/fund.journal" > "$scratch/now" ||
        fail "the calls of $last can't be read"
    head -n "$(wc -l < "$scratch/before")" "$scratch/now" | cmp -s - "$scratch/before" || fail "entries of $last aren't in the journal"
fi

(cd "$scratch" && "$city/cityfund" desk < /dev/null) || fail "no desk opens the copy"

# A copy is named by its second: where one of this second is there, the next second is waited for.
tries=3
name=$(date -u +%Y-%m-%dT%H%M%SZ).journal
while [ -e "$copies/$name" ] && [ "$tries" -gt 0 ]; do
    tries=$((tries - 1))
    sleep 1
    name=$(date -u +%Y-%m-%dT%H%M%SZ).journal
done
[ ! -e "$copies/$name" ] || fail "$name is there"
mv "$scratch/fund.journal" "$copies/$name" && (cd "$copies" && sha256sum "$name" >> checksums && sync "$name" checksums) ||
    fail "$copies can't be written"
echo "backup: $name: $(tr '\n' ' ' < "$scratch/has")"
status=0
[ -z "$log" ] || keep_log "${name%.journal}.trail" || status=1
# The names of copies are moments, and rise.
[ -z "$named" ] || [ "$(printf '%s\n%s\n' "$named" "$name" | sort | tail -n 1)" = "$name" ] || {
    echo "backup: failed: the clock went back: the copy before this one is $named" >&2
    status=1
}
exit "$status"
