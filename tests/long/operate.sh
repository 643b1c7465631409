#!/bin/sh
# Runs the files of examples/operate/ at a `serve` of this machine: nginx with TLS and passwords, in
# which only ports and paths are others, asked by curl and by the clients of examples/clients/; the
# copy of a journal while it is written to; the packet filter in a network of its own; what systemd
# says of the units; and what docs/OPERATE.md makes with rights. What isn't installed is skipped,
# and said so. On Debian: nginx, libnginx-mod-http-js, apache2-utils, curl, openssl, nftables,
# systemd.
#
#     operate.sh [PART..]
#
# The parts: units wall links watch rights sheets doors copies; callers answers bodies page slow
# clients rate log, for which nginx stands before the doors; trails drill. Without a word all are
# run.
parts=$*
cd "$(dirname "$0")/../.." || exit 1
top=$(pwd)
PATH=$PATH:/usr/sbin
. tests/lib/program.sh
books=${BOOKS:-$(built books)}
scratch=$(mktemp -d) || exit 1
trap 'kill $serving $proxy $keeping $making 2> /dev/null; rm -rf "$scratch"' EXIT
. tests/lib/expect.sh

# missing TOOL..: says which tool isn't there.
missing() {
    for tool in "$@"; do
        command -v "$tool" > /dev/null || { echo "operate: skipped: there is no $tool"; return 0; }
    done
    return 1
}

# part NAME..: whether one of these parts is asked for.
part() {
    for each in "$@"; do
        case " ${parts:-$each} " in *" $each "*) return 0 ;; esac
    done
    return 1
}

# The programs' folder, as at a city without the sources.
city=$scratch/city
mkdir -p "$city/out"
cp -R cityfund books page examples/operate/doors.sh "$city/"
cp "$program" "$city/out/cityfund"
cp "$books" "$city/out/books"
mkdir -p "$city/examples/operate"
cp examples/operate/trail examples/operate/trail.py "$city/examples/operate/"

# ---- the units

if part units && ! missing systemd-analyze; then
    units=$(cd examples/operate && ls ./*.service ./*.timer)
    for unit in $units; do
        sed "s|/opt/cityfund/|$city/|g" "examples/operate/$unit" > "$scratch/$unit"
    done
    cp examples/operate/ship.sh "$city/"
    for unit in $units; do
        said=$(systemd-analyze verify --man=no "$scratch/$unit" 2>&1)
        [ -z "$said" ]
        verdict "the unit $unit: $said" $?
    done
fi

# has UNIT LINE: a unit has this line.
has() {
    grep -qxF -- "$2" "examples/operate/$1"
    verdict "the unit $1 has $2" $?
}

if part units; then
    has cityfund.service "Requires=nftables.service"
    has cityfund.service "After=local-fs.target nftables.service"
    has cityfund.service "TimeoutStartSec=15min"
    has cityfund-ship.service "StateDirectory=cityfund-ship"
    has cityfund-asked.service "RuntimeDirectoryMode=0750"
    has cityfund-asked.service "PrivateNetwork=yes"
    grep -q '^ExecStart=.* ssh .* -o ServerAliveInterval=15 ' examples/operate/cityfund-ship.service
    verdict "a link to the second machine that breaks without a word is noticed" $?
fi

# ---- the packet filter, in a network of its own

# ended: the parts that are scripts of their own, and the sums.
ended() {
    ! part trails || { sh tests/long/trails.sh; verdict "the log without a proxy" $?; }
    ! part drill || { sh tests/long/drill.sh; verdict "the drill" $?; }
    summary operate
    exit
}

. tests/lib/code.sh
if missing curl python3; then
    ended
fi
part wall links watch && . tests/lib/walling.sh
part rights && . tests/lib/setting-up.sh
if part sheets && ! missing node; then
    cp page/site/cells.js "$scratch/cells.mjs"
    node tests/lib/cells.mjs "$scratch/cells.mjs" > "$scratch/said" 2>&1
    verdict "the cells of the page's sheets: $(head -n 3 "$scratch/said")" $?
fi
. tests/lib/serving.sh
. tests/lib/proxying.sh
part doors copies && serving 4 100000

# ---- the doors are counted: of this user's that listen, until all do or the program has ended

# doors STATUS LISTENING PORT DOORS WORDS..: what doors.sh says.
doors() {
    wanted=$1 text="cityfund: $2 of $4 doors listen"
    shift 2
    said=$(sh examples/operate/doors.sh "$@")
    status=$?
    [ "$status" -eq "$wanted" ] && [ "$said" = "$text" ]
    verdict "doors: status $status: $said" $?
}

if part doors; then
    doors 0 4 "$first" 4
    doors 1 1 "$((first + 3))" 2 1
    MAINPID=2147483647 doors 1 0 1 4
fi

# ---- copies

part copies && . tests/lib/copying.sh

# ---- the proxy

if ! part callers answers bodies page slow clients rate log; then
    ended
elif missing nginx openssl; then
    ended
elif [ ! -e $module ]; then
    echo "operate: skipped: there is no $module"
    ended
fi
serving 4 100000
proxying council payables treasury auditor

# asked NAME USER CODE BODY WORDS..: curl with these words as this user, or as nobody where it is -; BODY is a pattern of grep.
asked() {
    name=$1 user=$2 wanted=$3 body=$4
    shift 4
    [ "$user" = - ] || set -- --netrc-file "$etc/$user.netrc" "$@"
    said=$(curl --silent --show-error --max-time 60 --cacert "$etc/tls/certificate.pem" --write-out '\n%{http_code}' "$@" 2>&1)
    [ "$(echo "$said" | tail -n 1)" = "$wanted" ] && echo "$said" | grep -q -- "$body"
    verdict "$name by $user: $said" $?
}

adopt='"call":"adopt","key":"b1","on":"2025-07-01","fund":1,"year":2026,"lines":[{"line":3,"amount":100000}],"estimates":[]'
calls=$url/calls
# What `callers` enters at its end.
part callers || curl --silent --output /dev/null --data "{\"desk\":1,$adopt}" "http://127.0.0.1:$first/calls"

if part callers; then
    # Who may.
    asked "a look without a password" - 401 "" "$url/lines/3/2026"
    asked "a call without a password" - 401 "" "$calls" --data "{\"desk\":1,$adopt}"
    asked "a wrong password" - 401 "" --user "council:payables's word" "$calls" --data "{\"desk\":1,$adopt}"
    asked "an unknown user" - 401 "" --user "nobody:" "$url/lines/3/2026"
    asked "another desk's call" payables 403 '^{"proxy":"not your desk"}$' "$calls" --data "{\"desk\":1,$adopt}"
    asked "a call of a user without a desk" auditor 403 '^{"proxy":"not your desk"}$' "$calls" --data "{\"desk\":1,$adopt}"
    asked "desk 0 of a user without a desk" auditor 403 "" "$calls" --data "{\"desk\":0,$adopt}"
    asked "no desk of a user without a desk" auditor 403 "" "$calls" --data "{\"desk\":null,$adopt}"
    asked "its own desk after another's" payables 409 '"name":"NotThisDesk"' "$calls" --data "{\"desk\":1,$adopt,\"desk\":4}"
    asked "another's desk after its own" payables 403 "" "$calls" --data "{\"desk\":4,$adopt,\"desk\":1}"
    asked "another's desk, written otherwise" payables 403 "" "$calls" --data "{\"desk\":4,$adopt,\"\\u0064esk\":1}"
    asked "another's call in a list" payables 400 '^{"form":"json"}$' "$calls" --data "[{\"desk\":1,$adopt}]"
    asked "a desk that is a text" payables 403 "" "$calls" --data "{\"desk\":\"1\",$adopt}"
    asked "a desk that is a list" payables 403 "" "$calls" --data "{\"desk\":[4],$adopt}"
    asked "a desk behind a prototype" payables 400 '{"form":"fields","name":"desk"}' "$calls" --data "{\"__proto__\":{\"desk\":4},$adopt}"
    asked "another path to the calls" payables 403 "" --path-as-is "$url/lines/../calls" --data "{\"desk\":1,$adopt}"
    asked "a path in percents" payables 403 "" "$url/%63alls" --data "{\"desk\":1,$adopt}"
    asked "two slashes" payables 403 "" "$url//calls" --data "{\"desk\":1,$adopt}"
    asked "a call to a look's path" payables 403 "" "$url/lines/3/2026" --data "{\"desk\":1,$adopt}"
    asked "another's call in chunks" payables 403 "" "$calls" --header 'Transfer-Encoding: chunked' --data "{\"desk\":1,$adopt}"
    # A page of another site, in a browser that was told the council's password: its form of the type text/plain is JSON, since the = between
    # the field's name and its value stands in a text of the call, and of two keys the last one counts.
    printf '{"key":"=","desk":1,%s}\r\n' "$adopt" > "$scratch/forged"
    foreign='^{"proxy":"a foreign page"}$'
    set -- --header 'Content-Type: text/plain' --data-binary "@$scratch/forged" "$calls"
    asked "a foreign page's call" council 403 "$foreign" --header 'Origin: https://elsewhere.example' "$@"
    asked "a call of a page that hides its origin" council 403 "$foreign" --header 'Origin: null' "$@"
    asked "a call of a page without TLS" council 403 "$foreign" --header "Origin: http://localhost:$port" "$@"
    asked "a call of a page of another port" council 403 "$foreign" --header 'Origin: https://localhost' "$@"
    asked "a call of two origins" council 403 "$foreign" --header "Origin: $url" --header 'Origin: https://elsewhere.example' "$@"
    asked "a foreign page's call, by the other field" council 403 "$foreign" --header 'Sec-Fetch-Site: cross-site' "$@"
    asked "a call of a neighbour's page" council 403 "$foreign" --header 'Sec-Fetch-Site: same-site' "$@"
    asked "a foreign page's call with our origin" council 403 "$foreign" --header "Origin: $url" --header 'Sec-Fetch-Site: cross-site' "$@"
    asked "a call of a page that another user opened" council 403 '^{"proxy":"not this user"}$' --header 'Cityfund-User: payables' \
        --data "{\"desk\":1,$adopt}" "$calls"
    asked "nothing was added" council 200 '^{"at":0,' "$url/lines/3/2026"
    asked "the council's own call" council 200 '^{"at":1,"ok":{}}$' "$calls" --data "{\"desk\":1,$adopt}"
fi

if part answers; then
    # What passes.
    asked "a look as a call" auditor 200 '^{"at":1,"is":{"appropriated":"100000",' "$calls" --data '{"call":"line","line":3,"year":2026,"after":1}'
    asked "a report" auditor 200 '^{"at":1,"is":{"rows":' "$url/reports/2026/balance"
    asked "a body in chunks" council 200 '"was":1' --header 'Transfer-Encoding: chunked' "$calls" --data "{\"desk\":1,$adopt}"
    asked "many fields" council 200 '"was":1' $(seq -f '--header x%g:1' 60) "$calls" --data "{\"desk\":1,$adopt}"
    asked "a call of a page of its own" council 200 '"was":1' --header "Origin: $url" --header 'Sec-Fetch-Site: same-origin' "$calls" --data "{\"desk\":1,$adopt}"
    asked "a call of a page that its user opened" council 200 '"was":1' --header 'Cityfund-User: council' "$calls" --data "{\"desk\":1,$adopt}"
    asked "a call that waits for 100" council 200 '"was":1' --header 'Expect: 100-continue' "$calls" --data "{\"desk\":1,$adopt}"
    asked "no JSON" council 400 '^{"form":"json"}$' "$calls" --data hello
    asked "no JSON object" council 400 '^{"form":"json"}$' "$calls" --data null
    asked "nothing" council 400 '^{"form":"json"}$' "$calls" --data ''
    asked "no call" council 400 '^{"form":"call"}$' "$calls" --data '{"call":"x"}'
    printf '%262144s' '{"call":"line","line":3,"year":2026}' > "$scratch/long"
    asked "the longest body" council 200 '^{"at":1,' "$calls" --data-binary "@$scratch/long"
    asked "the longest body in chunks" council 200 '^{"at":1,' --header 'Transfer-Encoding: chunked' "$calls" --data-binary "@$scratch/long"
    echo >> "$scratch/long"
    asked "a body that is too long" council 413 '^{"form":"long"}$' "$calls" --data-binary "@$scratch/long"
    asked "a look at the calls" council 405 '^{"form":"method"}$' "$calls"
    asked "no route" council 404 '^{"form":"route"}$' "$url/nothing"
    asked "no TLS" - 400 "" "http://localhost:$port/lines/3/2026"

    # What browsers are told with each answer.
    for path in lines/3/2026 reports/2026/balance whoami desk/ nothing; do
        said=$(curl --silent --output /dev/null --dump-header - --cacert "$etc/tls/certificate.pem" --netrc-file "$etc/auditor.netrc" "$url/$path" | tr -d '\r')
        missed=$(for field in 'Strict-Transport-Security: max-age=31536000' 'X-Content-Type-Options: nosniff' \
            'Cross-Origin-Resource-Policy: same-origin' 'Cache-Control: no-'; do
            [ "$(echo "$said" | grep -c "^$field")" -eq 1 ] || echo "$field"
        done)
        [ -z "$missed" ]
        verdict "the fields of /$path: without $missed" $?
    done
    said=$(curl --silent --output /dev/null --write-out '%{http_code} %{redirect_url}' "http://localhost:$plain/desk/?a=1")
    [ "$said" = "301 https://localhost/desk/?a=1" ]
    verdict "a bare name: $said" $?
fi

if part bodies; then
    # Bodies that take njs long to read, by the names of one object: none is read.
    names() { python3 -c 'import sys; print("{" + ",".join(f"\"n{i:06}\":1" for i in range(int(sys.argv[1]))) + "}")' "$1"; }
    names 10000 > "$scratch/wide"
    asked "an object of 10,000 names" council 400 '^{"proxy":"no call has this form"}$' "$calls" --data-binary "@$scratch/wide"
    { printf '[1,{"a":'; names 10000; printf '}]'; } > "$scratch/wide"
    asked "an object of 10,000 names in another" council 400 '^{"proxy":"no call has this form"}$' "$calls" --data-binary "@$scratch/wide"
    { printf '{"a":"\\"{}","b":{}'; names 10000 | sed 's/^{/,/'; } > "$scratch/wide"
    asked "an object of 10,000 names behind marks in a text" council 400 '^{"proxy":"no call has this form"}$' "$calls" --data-binary "@$scratch/wide"
    python3 -c 'print("{\"a\":" * 1000 + "1" + "}" * 1000)' > "$scratch/wide"
    asked "objects 1,000 deep" council 400 '^{"proxy":"no call has this form"}$' "$calls" --data-binary "@$scratch/wide"
    { printf '{"desk":1,"key":"'; names 10000 | tr -d '"\n'; printf '",%s}' "$adopt"; } > "$scratch/wide"
    asked "marks in a text" council 200 '"was":1' "$calls" --data-binary "@$scratch/wide"
    python3 -c 'import json; print(json.dumps({"call": "adopt", "desk": 1, "key": "b2", "on": "2025-07-01", "fund": 1, "year": 2026, "lines": [{"line": n, "amount": 1} for n in range(4096)], "estimates": []}))' > "$scratch/wide"
    asked "an adoption of 4,096 lines" council 409 '"name":' "$calls" --data-binary "@$scratch/wide"
fi

if part page; then
    # The page.
    echo '{}' > "$etc/page/chart.json"
    asked "the page without a password" - 401 "" "$url/desk/"
    asked "the page" auditor 200 "^Content-Security-Policy: default-src 'none'; script-src 'self'" --head "$url/desk/"
    asked "a file of the page" auditor 200 "^'use strict'\|import" "$url/desk/page.js"
    asked "a list of the page" auditor 200 '^{}$' "$url/desk/data/chart.json"
    asked "a list without a password" - 401 "" "$url/desk/data/chart.json"
    asked "a file that isn't the page's" auditor 404 "" --path-as-is "$url/desk/../desk.js"
    asked "a file above the page" auditor 404 "" "$url/desk/tables.py"
    asked "a change of the page" council 403 "" --request PUT --data x "$url/desk/page.js"
    # A file that the program's user puts there as a link isn't given out.
    ln -s "$etc/passwords" "$etc/page/linked.json"
    asked "a list that is a link" auditor 403 "" "$url/desk/data/linked.json"
    asked "who asks" payables 200 '^{"user":"payables","desk":4}$' "$url/whoami"
    asked "who asks without a desk" auditor 200 '^{"user":"auditor","desk":0}$' "$url/whoami"
    asked "who asks without a password" - 401 "" "$url/whoami"
    asked "signing out" payables 401 "You are signed out" "$url/signout"

    # A statement that the page asks for, made by page/asked.py behind its socket.
    question="$url/asked?year=2026&kind=balance&entries=1"
    asked "a statement that nobody makes" auditor 502 '^{"proxy":"no door"}$' "$question"
    page/asked.py "$books" "$scratch/serving/fund.journal" "$etc/asked/door" &
    making=$!
    for try in $(seq 100); do [ ! -S "$etc/asked/door" ] || break; sleep 0.1; done
    asked "a statement" auditor 200 '^{"names":\["section","name","amount"\],"rows":\[\["General Fund","Cash","0.00"\],' "$question"
    asked "a statement through a day" auditor 200 '^{"names":' "$question&through=2025-07-18"
    asked "a statement without a password" - 401 "" "$question"
    asked "a statement for a foreign page" auditor 403 '^{"proxy":"a foreign page"}$' --header 'Sec-Fetch-Site: cross-site' "$question"
    asked "a question with a body" auditor 200 '^{"names":' --request GET --data x "$question"
    asked "a change of a statement" council 403 "" --data x "$question"
    asked "a question with another word" auditor 400 '"fault":"journal"' "$question&journal=/etc/passwd"
    asked "a question with a word twice" auditor 400 '"fault":"entries"' "$question&entries=0"
    asked "a question whose path is in percents" auditor 404 "" "$url/%61sked?year=2026&kind=balance&entries=1"
    kill $making
fi

if part slow; then
    # A caller that sends slowly holds up nobody: nginx takes a door once it has the whole call.
    for slow in 1 2 3 4 5 6 7 8; do
        (printf '{"call":"x'; sleep 4) | curl --silent --max-time 10 --output /dev/null --cacert "$etc/tls/certificate.pem" \
            --netrc-file "$etc/council.netrc" --header 'Transfer-Encoding: chunked' --upload-file - --request POST "$calls" &
    done
    sleep 0.5
    asked "a look beside eight slow callers" auditor 200 '^{"at":1,' --max-time 2 "$url/lines/3/2026"
    # A link that asks nothing more is one of the 200 that its address may hold.
    said=$(python3 tests/lib/holding.py idle "$port" 25)
    [ "$said" -le 20 ]
    verdict "a link that asks nothing: ended after $said seconds" $?
fi

if part clients; then
    # A day by each client, over TLS with a password.
    export CITYFUND_CA="$etc/tls/certificate.pem" CITYFUND_NETRC="$etc/payables.netrc"
    for client in examples/clients/desk.sh examples/clients/desk.py; do
        "$client" "$url" < examples/clients/payables.jsonl > "$scratch/$(basename "$client")"
        status=$?
        [ "$status" -eq 1 ]
        verdict "the day by $client: status $status" $?
    done
    diff "$scratch/desk.sh" examples/clients/payables.replies
    verdict "the replies of the day by desk.sh" $?
    [ "$(grep -c '"ok".*"was"' "$scratch/desk.py")" -eq 3 ]
    verdict "the replies of the day again by desk.py" $?
    for client in examples/clients/desk.sh examples/clients/desk.py; do
        "$client" "$url" < examples/clients/council.jsonl > "$scratch/got" 2> "$scratch/said"
        status=$?
        [ "$status" -eq 2 ] && [ ! -s "$scratch/got" ] && grep -q '403 {"proxy":"not your desk"}' "$scratch/said"
        verdict "another desk's day by $client: status $status: $(cat "$scratch/said")" $?
    done
fi

if part rate; then
    # One user asks for more than its rate. It still gets the page's files, and another one at the
    # same address goes on.
    said=$(python3 tests/lib/hasty.py "$url" "$etc")
    [ "$said" = "bounded 200 200 200 200" ]
    verdict "a user's rate: $said" $?
    sleep 3
fi

if part clients; then
    # The program starts anew under the proxy: a client tries again until it is there.
    stop_serving
    asked "no door" auditor 502 '^{"proxy":"no door"}$' "$url/lines/3/2026"
    "examples/clients/desk.py" "$url" < examples/clients/payables.jsonl > "$scratch/got" &
    sending=$!
    sleep 1
    start_serving 4 100000
    wait "$sending"
    [ "$(grep -c '"ok".*"was"' "$scratch/got")" -eq 3 ]
    verdict "a day across a start" $?
fi

# ---- who entered what, and the second machine

part log && . tests/lib/trailing.sh
ended
