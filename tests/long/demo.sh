#!/bin/sh
# examples/operate/demo: founds a city, enters its year, serves it behind nginx, and leaves nothing
# behind where it is stopped or a part of it is missing. Not part of the merge gate. What isn't
# installed is skipped, and said so.
cd "$(dirname "$0")/../.." || exit 1
top=$(pwd)
PATH=$PATH:/usr/sbin
scratch=$(mktemp -d) || exit 1
trap 'kill "$demo" 2> /dev/null; wait "$demo" 2> /dev/null; rm -rf "$scratch"' EXIT
. tests/lib/expect.sh
. tests/lib/built.sh
PROGRAM=${PROGRAM:-$(built cityfund)}
BOOKS=${BOOKS:-$(built books)}
TMPDIR=$scratch/folder
export PROGRAM BOOKS TMPDIR
for tool in nginx openssl curl; do
    command -v "$tool" > /dev/null || { echo "demo: skipped: there is no $tool"; summary demo; exit; }
done
[ -e /usr/lib/nginx/modules/ngx_http_js_module.so ] || { echo "demo: skipped: nginx has no njs"; summary demo; exit; }
for file in "$PROGRAM" "$BOOKS"; do
    [ -x "$file" ] || { echo "demo: skipped: nothing is built: there is no $file"; summary demo; exit; }
done

# began: starts it, and waits until it has said everything. Sets `demo` and `url`.
began() {
    mkdir -p "$TMPDIR"
    : > "$scratch/said"
    python3 examples/operate/demo > "$scratch/said" 2>&1 &
    demo=$!
    for try in $(seq 600); do
        grep -q "Ctrl-C" "$scratch/said" && break
        kill -0 "$demo" 2> /dev/null || break
        sleep 0.5
    done
    url=$(grep -o 'https://localhost:[0-9]*' "$scratch/said")
}

# asked USER PATH: what the proxy answers a user.
asked() {
    curl --silent --insecure --user "$1:$(awk -v user="$1" '$1 == user { print $2 }' "$scratch/said")" "$url$2"
}

for signal in TERM INT HUP; do
    began
    [ "$(asked treasury /whoami)" = '{"user":"treasury","desk":5}' ]
    verdict "its user: $(cat "$scratch/said")" $?
    asked treasury /desk/ | grep -q '<title>City funds</title>'
    verdict "its page" $?
    asked auditor /desk/data/state.json | grep -q '"skips":0'
    verdict "its lists" $?
    asked auditor /desk/data/vendors.json | grep -q '"fault":""'
    verdict "its vendors" $?
    day=$(asked auditor /desk/data/state.json | sed 's/.*"last":"\([0-9-]*\)".*/\1/')
    asked auditor "/asked?year=2027&kind=balance&entries=100&through=$day" | grep -q '^{"names":\["section","name","amount"\],"rows":\[\['
    verdict "its statements" $?
    kill "-$signal" "$demo"
    wait "$demo"
    verdict "it ends by $signal" $?
    [ -z "$(ls "$TMPDIR")" ] && ! curl --silent --insecure --output "$scratch/none" "$url/"
    verdict "nothing is left behind after $signal: $(ls "$TMPDIR")" $?
done

# A part that ends by itself: all of it ends.
began
kill "$(cat "$TMPDIR"/cityfund-demo-*/nginx.pid)"
wait "$demo"
[ $? -eq 1 ] && grep -q "nginx ended with status" "$scratch/said" && [ -z "$(ls "$TMPDIR")" ]
verdict "without nginx: $(tail -n 1 "$scratch/said")" $?

said=$(PROGRAM=/none top=/none python3 examples/operate/demo "$scratch" 2>&1)
[ $? -eq 1 ] && [ "$said" = "demo: $scratch isn't empty" ]
verdict "a folder that isn't empty: $said" $?
summary demo
