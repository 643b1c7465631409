#!/bin/sh
# Attacks what stands around the program as docs/OPERATE.md sets it up, twice: with the mends of the
# table tests/lib/mends taken out, and with them. Prints what each attack came to in both. It runs
# in a network of its own, which has a loopback device alone, and ends by itself within minutes.
# Root runs it, with nginx, curl, openssl, nftables, htpasswd and python3.
cd "$(dirname "$0")/../.." || exit 1
top=$(pwd)
PATH=$PATH:/usr/sbin:/sbin
. tests/lib/program.sh
books=${BOOKS:-$(built books)}
[ -x "$books" ] || { echo "there is no program books: run ./build" >&2; exit 1; }
[ "$(id -u)" -eq 0 ] || { echo "attacks: skipped: not root"; exit 0; }
for tool in nginx openssl curl nft unshare setpriv htpasswd bash ps; do
    command -v "$tool" > /dev/null || { echo "attacks: skipped: there is no $tool"; exit 0; }
done
if [ "$1" != inside ]; then
    unshare --net true || { echo "attacks: skipped: no network of its own"; exit 0; }
    PROGRAM=$program BOOKS=$books exec unshare --net sh "$0" inside
fi
. tests/lib/proxying.sh
. tests/lib/code.sh
[ -e $module ] || { echo "attacks: skipped: there is no $module"; exit 0; }
# Whatever happens, all that was started ends.
trap 'kill $bounding $serving $proxy $door 2> /dev/null; rm -rf "$base"' EXIT
trap 'echo "attacks: it takes too long" >&2; exit 1' HUP INT TERM
(trap 'kill $!; exit' TERM; sleep 1200 & wait $!; kill $$) 2> /dev/null &
bounding=$!
base=$(mktemp -d) || exit 1
chmod 755 "$base"
python3 -c 'import fcntl, socket, struct; fcntl.ioctl(socket.socket(), 0x8914, struct.pack("16sh", b"lo", 0x41))'
ulimit -n "$(ulimit -Hn)"
PYTHONDONTWRITEBYTECODE=1 PYTHONPATH=$top/tests/lib
export PYTHONDONTWRITEBYTECODE PYTHONPATH
attacks="python3 $top/tests/lib/attacks.py"
. tests/lib/attacking.sh

for stand in without with; do
    stood "$stand"
    for attack in $all; do
        $attack > "$base/figure" 2> "$base/$stand/fault"
        figure=$(head -n 1 "$base/figure")
        echo "$attack|${figure:-nothing came of it: $(tail -n 1 "$base/$stand/fault")}" >> "$base/$stand.figures"
    done
    fell
done

# The table.
status=0
for attack in $all; do
    echo "$(eval "echo \"\$told_$attack\"")"
    for stand in without with; do
        figure=$(sed -n "s/^$attack|//p" "$base/$stand.figures")
        printf '    %-8s %s\n' "$stand" "$figure"
        case $figure in nothing\ came*) status=1 ;; esac
    done
    eval "wanted=\$held_$attack"
    sed -n "s/^$attack|//p" "$base/with.figures" | grep -qE -- "$wanted" || { status=1; echo "    failed: with the mends it isn't $wanted"; }
    ! sed -n "s/^$attack|//p" "$base/without.figures" | grep -qE -- "$wanted" || { status=1; echo "    failed: without the mends it is no other"; }
done
echo "attacks: $(echo $all | wc -w) attacks, status $status"
exit $status
