#!/bin/bash
# Ships the journal of the folder JOURNAL to a second machine, on which COMMAND runs `cityfund follow`, while the desks are at work:
#
#     ship.sh JOURNAL WORK COMMAND..
#
# WORK is a folder of its own, in which what the second machine answered last is kept (followed).
# Its last entry is compared, and those behind it are sent; without that file all are compared. It
# prints what the second machine answers, 4096 bytes of it at most, and ends with the status of
# `cityfund follow` there, or with that of `cityfund ship` here where that failed; docs/OPERATE.md
# says what each wants. CITYFUND names the folder of the programs (/opt/cityfund).
city=${CITYFUND:-/opt/cityfund}
umask 077
[ $# -ge 3 ] || { echo "ship.sh JOURNAL WORK COMMAND.." >&2; exit 2; }
journal=$1/fund.journal
work=$2
shift 2

fail() {
    echo "ship: failed: $1" >&2
    exit "${2:-1}"
}

mkdir -p "$work" && cd "$work" || exit 1
exec 9> lock && flock --nonblock 9 || fail "another one is at work"

# A desk that takes an entry back in the very moment, after a fault of the disk, can make a copy look damaged: then another is made.
tries=3
until cp "$journal" fund.journal && has=$("$city/books" check fund.journal); do
    tries=$((tries - 1))
    [ "$tries" -gt 0 ] || fail "$journal can't be copied, or isn't sound" 9
    sleep 1
done
here=$(sed -n 's/^entries: //p' <<< "$has")
there=$(sed -n 's/^followed //p' followed 2> /dev/null)
[ "${there:-0}" -le "$here" ] || fail "the second machine has $there entries, and $journal has $here: see docs/OPERATE.md" 17
from=$((${there:-0} > 0 ? there - 1 : 0))

"$city/cityfund" ship "$from" | "$@" | head -c 4096 > answer
status=("${PIPESTATUS[@]}")
rm -f fund.journal
if [ "${status[*]}" != "0 0 0" ]; then
    # What the second machine has is asked anew: the next run compares all entries. A stream that was cut here is a fault there (16), and
    # a second machine that stops early is a fault of writing here (5).
    rm -f followed
    code=${status[1]}
    [ "${status[0]}" -eq 0 ] || [ "${status[0]}" -eq 5 ] || { [ "$code" -ne 0 ] && [ "$code" -ne 16 ]; } || code=${status[0]}
    fail "cityfund ship ended with ${status[0]} here, and cityfund follow with ${status[1]} there" "$code"
fi
grep -qxE 'followed [0-9]{1,7}' answer && [ "$(wc -l < answer)" -eq 1 ] || { rm -f followed; fail "the second machine answered other than 'followed N'"; }
mv answer followed
cat followed
