#!/bin/sh
# Takes each mend of what stands around the program (the table tests/lib/mends) out of a copy of the
# repository, one at a time, and runs the part of a test that guards it: the test must fail by the
# case that the table names. With words only those mends whose heads have one. Root runs it, with
# what tests/long/operate.sh and tests/gate/package.sh ask for, in two hours at most.
cd "$(dirname "$0")/../.." || exit 1
top=$(pwd)
PATH=$PATH:/usr/sbin:/sbin
. tests/lib/program.sh
BOOKS=${BOOKS:-$(built books)}
PROGRAM=$program
export PROGRAM BOOKS PATH
[ -x "$BOOKS" ] || { echo "there is no program books: run ./build" >&2; exit 1; }
[ "$(id -u)" -eq 0 ] || { echo "mends: skipped: not root"; exit 0; }
for tool in nginx openssl curl nft unshare setpriv systemd-analyze htpasswd flock node dpkg-deb; do
    command -v "$tool" > /dev/null || { echo "mends: skipped: there is no $tool"; exit 0; }
done
scratch=$(mktemp -d) || exit 1
trap 'rm -rf "$scratch"' EXIT
trap 'exit 1' HUP INT TERM
chmod 755 "$scratch"
PYTHONPATH=$top/tests/lib PYTHONDONTWRITEBYTECODE=1 python3 tests/lib/mends.py try tests/lib/mends "$top" "$scratch" "$@"
