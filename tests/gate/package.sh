#!/bin/sh
# Makes a package by ./package of the programs that were built last, installs it into a root of its own, runs a first day there, from a
# folder without sources or kit; installs an older one over it while desks are at work behind the
# proxy, and the newer one again; and removes it. Skipped, and said so, where there is no dpkg-deb
# or nothing is built.
cd "$(dirname "$0")/../.." || exit 1
top=$(pwd)
PATH=$PATH:/usr/sbin:/sbin
. tests/lib/built.sh
program=${PROGRAM:-$(built cityfund)}
books=${BOOKS:-$(built books)}
for file in "$program" "$books"; do
    [ -x "$file" ] || { echo "package: skipped: nothing is built: there is no $file"; exit 0; }
done
command -v dpkg-deb > /dev/null || { echo "package: skipped: there is no dpkg-deb"; exit 0; }
scratch=$(mktemp -d) || exit 1
trap 'kill $serving $proxy 2> /dev/null; rm -rf "$scratch"' EXIT
. tests/lib/expect.sh

# The repository as ./build leaves it, without the sources.
city=$scratch/city
mkdir -p "$city/out" "$scratch/desk" "$scratch/root"
cp -R cityfund books package README.md CHANGELOG.md docs examples page "$city/"
cp "$program" "$city/out/cityfund"
cp "$books" "$city/out/books"

# refused TEXT WORDS..: ./package makes nothing, and says why.
refused() {
    text=$1
    shift
    said=$("$city/package" "$@" 2>&1)
    status=$?
    [ "$status" -eq 1 ] && [ "$said" = "package: failed: $text" ] && [ -z "$(find "$city/out" -name '*.deb')" ]
    verdict "refused by '$text': status $status: $said" $?
}

refused "'' is no version: say one, as ./package 1.2"
refused "'next' is no version: say one, as ./package 1.2" next
refused "the words are ./package [VERSION]" 1 2
mkdir -p "$city/crates/books/src"
: > "$city/crates/books/src/main.rt"
touch -d '1 minute' "$city/crates/books/src/main.rt"
refused "a source is newer than out/cityfund: run $city/build" 1.2
rm -r "$city/crates"
mv "$city/out/books" "$scratch/books"
refused "there is no program out/books yet: run $city/build" 1.2
mv "$scratch/books" "$city/out/books"

# versions TEXT: what both launchers say.
versions() {
    said=$("$city/cityfund" --version; "$city/books" --version)
    [ "$said" = "cityfund $1
books $1" ]
    verdict "the version: $said" $?
}

versions unknown
echo 1.1 > "$city/out/version"
versions 1.1
touch -d '1 minute' "$city/out/cityfund" "$city/out/books"
versions unknown
rm "$city/out/version"
touch "$city/out/cityfund" "$city/out/books"

made=$city/out/cityfund_1.2_$(dpkg --print-architecture).deb
said=$("$city/package" 1.2)
[ "$said" = "package: made out/$(basename "$made")" ] && [ -f "$made" ]
verdict "made: $said" $?
cp "$made" "$scratch/first.deb"
ln -s "$city/package" "$scratch/package"
"$scratch/package" 1.2 > "$scratch/said" && cmp "$scratch/first.deb" "$made"
verdict "the same twice, and by a link" $?

# An older one, in which what guards the doors differs.
cp "$city/examples/operate/desk.js" "$scratch/desk.js"
sed -i 's/not your desk/not your desk, by 0.9/' "$city/examples/operate/desk.js"
older=$city/out/cityfund_0.9_$(dpkg --print-architecture).deb
"$city/package" 0.9 > "$scratch/said"
verdict "an older one: $(cat "$scratch/said")" $?
mv "$older" "$scratch/older.deb"
cp "$scratch/desk.js" "$city/examples/operate/desk.js"

# ---- what is in it

dpkg-deb --fsys-tarfile "$made" | tar -tv > "$scratch/list"
! grep -vE '^[-dl]r[-w]xr-xr-x root/root|^-rw-r--r-- root/root' "$scratch/list"
verdict "all belongs to root, and others only read" $?
! awk '{ print $6 }' "$scratch/list" | grep -vE '^\./(opt/(cityfund/.*)?|usr/(lib/(systemd/(system/(cityfund(-asked|-page|-ship|-trail)?\.(service|timer))?)?)?)?)?$'
verdict "all stands in /opt/cityfund but the units" $?
mkdir "$scratch/raw"
dpkg-deb --raw-extract "$made" "$scratch/raw"
# In the programs themselves stands what the compiler wrote.
! grep -rlF --exclude-dir=out -e "$scratch" -e "$top" "$scratch/raw"
verdict "no path of this machine" $?
(cd "$scratch/raw" && md5sum --check --status DEBIAN/md5sums)
verdict "the checksums" $?
ls "$scratch/raw/DEBIAN" | xargs | grep -qx "control md5sums"
verdict "no script that runs" $?

# ---- installed, on the machine of another root where this user is root

if [ "$(id -u)" -eq 0 ]; then
    mkdir -p "$scratch/root/var/lib/dpkg/info" "$scratch/root/var/lib/dpkg/updates" "$scratch/root/var/lib/dpkg/triggers"
    : > "$scratch/root/var/lib/dpkg/status"
    # The other root has no libraries of its own, so what the package depends on isn't asked for.
    dpkg --root="$scratch/root" --log=/dev/null --force-depends --install "$made" > "$scratch/said" 2>&1
    verdict "installed: $(cat "$scratch/said")" $?
    said=$(dpkg --root="$scratch/root" --verify cityfund 2>&1)
    verdict "verified: $said" "$?"
else
    echo "package: not root: unpacked, and not removed"
    dpkg-deb --extract "$made" "$scratch/root"
fi
there=$scratch/root/opt/cityfund
missing=$(grep -ohE '/opt/cityfund/[a-z./]+' "$scratch/root/usr/lib/systemd/system/"*.service | sort -u | while read -r file; do
    [ -x "$scratch/root$file" ] || echo "$file"
done)
[ -z "$missing" ]
verdict "what the units run: $missing" $?

missing=$(cd "$there/examples/operate" && for unit in *.service *.timer; do
    cmp -s "$unit" "$scratch/root/usr/lib/systemd/system/$unit" || echo "$unit"
done)
[ -z "$missing" ]
verdict "the units: $missing" $?

# ---- a first day

ln -s "$there/cityfund" "$there/books" "$scratch/desk/"
cp "$there/examples/rivertown/chart.toml" "$scratch/desk/"
rm -rf "$city"
tried=$scratch/desk/cityfund folder=$scratch/desk
expect "its version" 0 "cityfund 1.2" --version
expect "found" 0 founded found
(cd "$scratch/desk" && ./cityfund desk < "$there/examples/first-day.jsonl" | cmp - "$there/examples/first-day.replies")
verdict "a first day" $?
(cd "$scratch/desk" && ./cityfund report 2026 balance | cmp - "$there/examples/first-day.reports/2026-balance.txt")
verdict "its statement" $?
[ "$(cd "$scratch/desk" && ./books check)" = "last day: 2025-07-06
entries: 6
closed months: 0
closed years: 0
bytes in use: 2755
bytes of room: 62781" ]
verdict "its books" $?
if command -v python3 > /dev/null; then
    "$there/examples/clients/from_csv.py" call=voucher desk=4 'key=inv-{vendor}-{invoice}' < "$there/examples/clients/vouchers.csv" \
        2> "$scratch/said" | cmp - "$there/examples/clients/vouchers.jsonl"
    verdict "calls of a sheet there: $(cat "$scratch/said")" $?
fi

# ---- an older version over it and the newer one again, at work: what is the city's stays, what
# guards the doors is the package's

# at_work VERSION TEXT: the doors and the proxy start from what is installed. What was entered is
# there, and another desk's call is refused with this text.
at_work() {
    kill $serving 2> /dev/null && wait $serving 2> /dev/null
    (cd "$work" && exec "$there/cityfund" serve --port "$first" --doors 4 --links 100000) > /dev/null &
    serving=$!
    placed nginx.conf > "$etc.conf"
    kill -HUP $proxy
    said=$("$there/cityfund" --version)
    [ "$said" = "cityfund $1" ]
    verdict "at work: $said" $?
    for try in $(seq 100); do
        said=$(asked council "$adopt")
        case $said in *no\ door*) sleep 0.2 ;; *) break ;; esac
    done
    echo "$said" | grep -q '"was":1'
    verdict "what was entered, under $1: $said" $?
    for try in $(seq 50); do
        said=$(asked payables "$adopt")
        [ "$said" != "{\"proxy\":\"$2\"}" ] || break
        sleep 0.2
    done
    [ "$said" = "{\"proxy\":\"$2\"}" ]
    verdict "the proxy under $1: $said" $?
}

# asked USER CALL: what the proxy answers.
asked() {
    curl --silent --max-time 60 --cacert "$etc/tls/certificate.pem" --netrc-file "$etc/$1.netrc" "$url/calls" --data "$2"
}

# installed_over VERSION FILE: the package is installed over the other one, and what is the city's
# is as it was.
installed_over() {
    (cd "$scratch/root" && find etc "$work" -type f -exec md5sum {} + > "$scratch/sums")
    dpkg --root="$scratch/root" --log=/dev/null --force-depends --install "$2" > "$scratch/said" 2>&1 &&
        (cd "$scratch/root" && md5sum --check --status "$scratch/sums") && [ "$(wc -l < "$scratch/sums")" -ge 8 ]
    verdict "$1 over the other one: $(cat "$scratch/said")" $?
}

. tests/lib/proxying.sh
if [ "$(id -u)" -eq 0 ] && command -v nginx openssl curl python3 > /dev/null && [ -e $module ]; then
    installed=$there etc=$scratch/root/etc/cityfund work=$scratch/root/var/lib/cityfund
    adopt='{"desk":1,"call":"adopt","key":"b1","on":"2025-07-01","fund":1,"year":2026,"lines":[{"line":3,"amount":100000}],"estimates":[]}'
    mkdir -p "$etc" "$work"
    first=$(PYTHONPATH=$top/tests/lib python3 -c 'import doors; print(doors.free_ports(4))')
    desks="roads 20;"
    proxying council payables
    # What proxying makes of a city is nginx's part, too: that one is read from what is installed.
    mv "$etc/cityfund.conf" "$etc.conf"
    sed "s|$etc/cityfund.conf|$etc.conf|" "$etc/nginx.conf" > "$scratch/nginx.conf" && rm "$etc/nginx.conf"
    kill $proxy && wait $proxy 2> /dev/null
    nginx -c "$scratch/nginx.conf" 2> "$scratch/said" &
    proxy=$!
    cp "$there/examples/rivertown/chart.toml" "$work/"
    (cd "$work" && "$there/cityfund" found > /dev/null && echo "$adopt" | "$there/cityfund" desk > /dev/null)
    at_work 1.2 "not your desk"
    installed_over 0.9 "$scratch/older.deb"
    at_work 0.9 "not your desk, by 0.9"
    installed_over 1.2 "$scratch/first.deb"
    at_work 1.2 "not your desk"
    kill $serving $proxy
    said=$(sed -n 's/^roads/roads/p' "$etc/desks.conf")
    [ "$said" = "roads 20;" ]
    verdict "the city's users: $said" $?
else
    echo "package: skipped: no upgrade at work: not root, or nginx isn't there"
fi

# ---- removed: nothing of it is left, and the journal stays

if [ "$(id -u)" -eq 0 ]; then
    dpkg --root="$scratch/root" --log=/dev/null --purge cityfund > "$scratch/said" 2>&1 &&
        [ ! -e "$scratch/root/opt" ] && [ ! -e "$scratch/root/usr" ] && [ -s "$scratch/desk/fund.journal" ]
    verdict "removed: $(cat "$scratch/said") $(ls "$scratch/root")" $?
fi
summary package
