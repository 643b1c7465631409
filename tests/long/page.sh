#!/bin/sh
# The page (docs/PAGE.md) in a real browser: headless Chromium, over nginx with the files of examples/operate/ and a `serve` of this machine.
# A town's first month is entered through the forms; then answers that are lost, pages that are closed, two pages at once, another user
# in the same browser, the program killed; what it shows, prints and gives out; keyboard, labels, contrast, a phone. What isn't
# installed is skipped, and said so. On Debian: chromium, nginx, libnginx-mod-http-js, curl, openssl. With PICTURES=docs/page the pictures
# of docs/PAGE.md are made anew.
cd "$(dirname "$0")/../.." || exit 1
top=$(pwd)
if [ -z "$PARTS" ]; then
    # What is asked of the books has a city of its own, whose first months are open.
    PARTS="entering faults slips runs looking traps words" sh "$top/tests/long/page.sh" &&
        PARTS="spans asking" sh "$top/tests/long/page.sh"
    exit
fi
PATH=$PATH:/usr/sbin
PYTHONDONTWRITEBYTECODE=1
export PYTHONDONTWRITEBYTECODE
scratch=$(mktemp -d) || exit 1
trap 'kill $proxy 2> /dev/null; rm -rf "$scratch"' EXIT
. tests/lib/expect.sh

python3 page/tables.py --check
verdict "the page's tables are those of docs/" $?

# The lists are made of what `books` prints, whose words docs/BOOKS.md has.
for tool in chromium nginx openssl curl; do
    command -v "$tool" > /dev/null || { echo "page: skipped: there is no $tool"; summary page; exit; }
done
. tests/lib/proxying.sh
[ -e $module ] || { echo "page: skipped: there is no $module"; summary page; exit; }
. tests/lib/built.sh
program=${PROGRAM:-$(built cityfund)}
BOOKS=${BOOKS:-$(built books)}
export BOOKS
for file in "$program" "$BOOKS"; do
    [ -x "$file" ] || { echo "page: skipped: nothing is built: there is no $file"; summary page; exit; }
done

# A chart whose names have what a page must not take for markup; for pictures, as it is.
mkdir "$scratch/journal"
if [ -n "$PICTURES" ]; then
    cp examples/harborview/chart.toml "$scratch/journal/"
else
    sed -e "s|^name = \"Parks\"|name = 'Parks \\& \"Trees\" <East>'|" -e "s|^name = \"Grants Fund\"|name = 'Grants <b>\\& Aid</b>'|" \
        examples/harborview/chart.toml > "$scratch/journal/chart.toml"
fi
(cd "$scratch/journal" && "$program" found > "$scratch/said")
verdict "founded: $(cat "$scratch/said")" $?
first=$(PYTHONPATH=tests/lib python3 -c 'import doors; print(doors.free_ports(4))')
desks=" invoices 14; deputy 15; roads 20; second 4;"
proxying council streets purchasing payables treasury revenue assets payroll controller invoices deputy roads second auditor
python3 tests/page/page.py "$url" "$scratch/journal" "$etc/page" "$program" "$first" $PICTURES
verdict "the page" $?
summary page
