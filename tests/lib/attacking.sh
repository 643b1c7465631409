# Read by tests/long/attacks.sh: the stand of examples/operate/ at the real ports of a network of
# its own, and the attacks on it. Each function of `all` prints what it came to; told_NAME is what
# it tries, and held_NAME a pattern of what it comes to with the mends.

adopt='{"desk":1,"call":"adopt","key":"b1","on":"2025-07-01","fund":1,"year":2026,"lines":[{"line":3,"amount":100000}],"estimates":[]}'
site=443 bare=80 first=8101 url=https://localhost:443

# voucher KEY: a call of payables.
voucher() {
    printf '{"call":"voucher","desk":4,"key":"%s","on":"2025-07-05","vendor":77,"items":[{"fund":1,"dept":20,"object":510,"amount":1}]}\n' "$1"
}

# asked USER WORDS..: what the proxy answers.
asked() {
    user=$1
    shift
    curl --silent --max-time 30 --insecure --netrc-file "$etc/$user.netrc" "$@"
}

# stood HOW: the stand, from a copy of the repository's files, out of which the mends are taken or
# not. Sets its folders, and what runs.
stood() {
    scratch=$base/$1 copy=$base/$1/opt etc=$base/$1/etc installed=$base/$1/opt opt=$base/$1/opt made=$base/$1/made
    mkdir -p "$copy/out" "$etc" "$made/tls" "$scratch/nginx/modules-enabled" "$scratch/nginx/conf.d"
    (cd "$top" && cp -R cityfund books package README.md CHANGELOG.md docs examples page tests "$copy/")
    cp "$program" "$copy/out/cityfund" && cp "$books" "$copy/out/books"
    [ "$1" = with ] || python3 "$top/tests/lib/mends.py" out "$top/tests/lib/mends" "$copy" F1 F2 F3 F4 F5 F6 F7 F8 F9 F10 W L
    cd "$copy" || exit 1
    cp examples/operate/*.sh .
    printf 'events {\n\tworker_connections 768;\n}\n' > "$scratch/nginx/nginx.conf"
    eval "$(code worker_connections)"
    held=$(sed -n 's/.*worker_connections \([0-9]*\);/\1/p' "$scratch/nginx/nginx.conf")
    cp examples/operate/desk.js "$etc/desk.js"
    desks="deputy 4;" proxying council payables treasury auditor deputy
    # The certificate is that of the page's line.
    eval "$(code 'openssl req' | sed 's/funds\.example/localhost/g')" 2> /dev/null
    cp "$made/tls/key.pem" "$made/tls/certificate.pem" "$etc/tls/"
    kill -HUP "$proxy"
    sed "s|/etc/cityfund/|$etc/|" examples/operate/cityfund.nft > "$etc/cityfund.nft"
    sed 's/^\(define cityfund_program =\).*/\1 daemon/' examples/operate/etc/doors.nft > "$etc/doors.nft"
    nft --file "$etc/cityfund.nft"
    mkdir "$scratch/serving" && cp examples/rivertown/chart.toml "$scratch/serving/"
    (cd "$scratch/serving" && "$copy/cityfund" found > /dev/null && echo "$adopt" | "$copy/cityfund" desk > /dev/null)
    chown -R daemon "$scratch/serving"
    served
}

# served: the doors, of the user daemon, until each that can listens.
served() {
    (cd "$scratch/serving" && exec setpriv --reuid=daemon --regid=daemon --clear-groups "$copy/out/cityfund" serve --port $first --doors 4 --links 1000000) \
        > /dev/null 2>&1 &
    serving=$!
    for try in $(seq 100); do
        ! curl --silent --output /dev/null --max-time 1 http://127.0.0.1:8104/ || break
        sleep 0.1
    done
}

ended() {
    kill $1 && wait $1
} 2> /dev/null

fell() {
    ended $serving
    ended $proxy
    nft flush ruleset
    cd "$top" || exit 1
}

entries() {
    "$copy/books" check "$scratch/serving/fund.journal" | sed -n 's/^entries: //p'
}

# ---- from outside, without a password

all="silent greetings"
told_silent="F1: 3,200 links from one address that begin TLS and say no more, while a desk at another address asks"
held_silent="^20 of 20 looks"
silent() { $attacks silent; }

told_greetings="F8: greetings of TLS by one address, as many as it can"
held_greetings=" [0-2]\.[0-9]* ms each"
greetings() { $attacks greetings $proxy; }

# ---- users of the machine

all="$all forged flushed builder passwords"
told_forged="F2: a user of the machine listens at the first door's port before the program starts; 12 vouchers come through the proxy"
held_forged="^0 of 12"
forged() {
    ended $serving
    $attacks forge nobody $first &
    door=$!
    # 8101 is 1FA5 there, and 0A says that it listens.
    for try in $(seq 100); do grep -q '0100007F:1FA5 00000000:0000 0A' /proc/net/tcp && break; sleep 0.1; done
    had=$(entries)
    served
    for number in $(seq 12); do asked payables "$url/calls" --data "$(voucher "forged$number")"; echo; done > "$scratch/answers"
    echo "$(grep -c 4711 "$scratch/answers") of 12 answers are forged, $(($(entries) - had)) vouchers are entered"
    ended $door
    ended $serving
    served
}

told_flushed="F9, F11: the packet filter is flushed, the program starts, and a page of another site in a browser there posts a call to a door"
held_flushed="^the doors don't start; watch.sh: [1-9]"
flushed() {
    nft flush ruleset
    if eval "$(sed -n 's/^ExecStartPre=+//p' examples/operate/cityfund.service)" > /dev/null 2>&1; then
        said=$(setpriv --reuid=nobody --clear-groups curl --silent --max-time 5 -H 'Origin: https://elsewhere.example' -H 'Content-Type: text/plain' \
            --data "$(voucher flushed)" http://127.0.0.1:$first/calls)
        said="the doors start, and one answers $said"
    else
        said="the doors don't start"
    fi
    echo "$said; watch.sh: $(watched | grep -c filter) lines"
    nft --file "$etc/cityfund.nft"
}

watched() {
    (cd "$scratch" && CITYFUND_ETC=$etc CITYFUND_USER=daemon CITYFUND_JOURNAL=$scratch/serving/fund.journal MAINPID=$serving sh "$copy/watch.sh" $first 4)
}

told_builder="F4: files of /opt/cityfund that whoever built the programs may change, after the lines of \"Setting up\""
held_builder="^0 "
builder() {
    opt=$scratch/set
    mkdir "$opt" "$scratch/built"
    cp -R cityfund books page docs examples README.md CHANGELOG.md "$scratch/built/" && mkdir "$scratch/built/out" && chown -R nobody "$scratch/built"
    text=$(code 'cityfund books out page')
    (cd "$scratch/built" && eval "$text")
    echo "$(find "$opt" -user nobody | wc -l) files"
    opt=$copy
}

told_passwords="the rights of the passwords' file after each line of \"Setting up\" that writes it"
held_passwords="^640 $"
passwords() {
    (umask 022; code /passwords | while read -r line; do
        echo word | eval "$(echo "$line" | sed 's/htpasswd /htpasswd -i /')" > /dev/null 2>&1
        stat -c %a "$made/passwords"
    done | sort -u | tr '\n' ' ')
    echo
}

# ---- users of the proxy

all="$all names rate linked fields formula"
told_names="F7: a user posts an object of 10,000 names of one hash, then six of them at once, and another user asks beside them"
held_names="^one takes 0\.[01]"
names() {
    [ -e "$base/names" ] || $attacks names 10000 > "$base/names"
    before=$($attacks worked $proxy)
    asked treasury --output /dev/null "$url/calls" --data-binary "@$base/names"
    after=$($attacks worked $proxy)
    posting=
    for number in $(seq 6); do
        asked treasury --output /dev/null "$url/calls" --data-binary "@$base/names" &
        posting="$posting $!"
    done
    sleep 0.2
    beside=$(asked auditor --output /dev/null --write-out '%{time_total}' "$url/lines/3/2026")
    wait $posting
    echo "one takes $(echo "$before $after" | awk '{ printf "%.2f", $2 - $1 }') s of a processor; a look beside six of them takes $beside s"
}

told_rate="F7: a user at one address asks 600 times, 80 times a second at most"
held_rate="^[1-5]?[0-9]?[0-9] of 600"
rate() { $attacks rate; }

told_linked="the program's user makes a link to the passwords in the folder of the page's lists, and a user asks for it"
held_linked="^0 "
linked() {
    ln -sf "$etc/passwords" "$etc/page/p.json"
    echo "$(asked auditor "$url/desk/data/p.json" | grep -c '\$apr1\$') hashes of passwords are given out"
}

told_fields="fields that keep a browser to TLS and from taking or keeping an answer, which are missing in five answers"
held_fields="^0 "
fields() {
    for path in lines/3/2026 reports/2026/balance whoami desk/ nothing; do
        asked auditor --output /dev/null --dump-header - "$url/$path" | tr -d '\r' > "$scratch/head"
        for field in Strict-Transport-Security X-Content-Type-Options Cross-Origin-Resource-Policy Cache-Control; do
            grep -q "^$field: " "$scratch/head" || echo "$field"
        done
    done > "$scratch/missed"
    echo "$(wc -l < "$scratch/missed") of 20"
}

told_formula="F10: the key =1+1 in a sheet of the page (under Node)"
held_formula="^'=1"
formula() {
    cp page/site/cells.js "$scratch/cells.mjs"
    (cd "$scratch" && node --input-type=module -e 'import {cell} from "./cells.mjs"; console.log(cell("=1+1"))')
}

# ---- who entered what

all="$all who log"
told_who="F3: two users of one desk enter ten vouchers each: for how many one can say who it was"
held_who="^20 of 20"
who() {
    for number in $(seq 10); do
        for user in payables deputy; do asked "$user" --output /dev/null "$url/calls" --data "$(voucher "by-$user$number")"; done
    done
    sleep 1
    : >> "$etc/entered"
    rm -f "$scratch/log"
    examples/operate/trail.py "$etc/entered" "$scratch/log" --once
    CITYFUND=$copy examples/operate/trail "$scratch/serving/fund.journal" "$scratch/log" > "$scratch/rows" 2> /dev/null
    echo "$(awk -F'\t' '$4 == "by-" $8 substr($4, 4 + length($8)) && $8 != "" && $7 != "" { n++ } END { print n + 0 }' "$scratch/rows") of 20"
}

told_log="a log of 20 lines in which one was changed, or the last 5 were cut off: what trail says"
held_log="^line 10 changed: line 11, status 3; 5 lines cut off: no line, status 3"
log() { (cd "$scratch" && $attacks log "$copy"); }

# ---- upgrades, copies, and the second machine

all="$all upgraded clock moved answered stopped"
told_upgraded="F5: desk.js is mended in /opt/cityfund and nginx reads its files again: what another desk's call is answered with"
held_upgraded="mended"
upgraded() {
    sed -i 's/not your desk/not your desk, mended/' examples/operate/desk.js
    kill -HUP "$proxy"
    sleep 2
    asked payables "$url/calls" --data "$adopt"
    echo
    sed -i 's/not your desk, mended/not your desk/' examples/operate/desk.js
}

told_clock="F6: one copy under the clock of 2099; then the journal loses 7 entries that were copied, and goes on with others"
held_clock="^status 1: .*aren't in the journal"
clock() {
    mkdir -p "$scratch/one" "$scratch/kept" "$scratch/clock"
    cp examples/rivertown/chart.toml "$scratch/one/"
    printf '#!/bin/sh\n[ -z "$clock" ] || { echo "$clock"; exit; }\nexec /bin/date "$@"\n' > "$scratch/clock/date"
    chmod +x "$scratch/clock/date"
    (cd "$scratch/one" && "$copy/cityfund" found && echo "$adopt" | "$copy/cityfund" desk) > /dev/null
    cp "$scratch/one/fund.journal" "$scratch/rolled"
    clock=2099-01-01T000000Z backed > /dev/null
    for number in 1 2 3 4 5 6 7; do voucher "lost$number"; done | (cd "$scratch/one" && "$copy/cityfund" desk) > /dev/null
    backed > /dev/null
    sleep 1
    cp "$scratch/rolled" "$scratch/one/fund.journal"
    for number in 1 2 3 4 5 6 7 8 9; do voucher "other$number"; done | (cd "$scratch/one" && "$copy/cityfund" desk) > /dev/null
    said=$(backed)
    echo "status $?: $(echo "$said" | cut -d : -f 2- | sed "s|$scratch/||g" | cut -c 2-110 | tr '\n' ' ')"
}

backed() {
    PATH=$scratch/clock:$PATH clock=$clock CITYFUND=$copy sh examples/operate/backup.sh "$scratch/one" "$scratch/kept" 2>&1
}

told_moved="the journal is moved away under the program and a copy put in its place, and a change is entered"
held_moved="watch.sh: the program doesn't write into"
moved() {
    mv "$scratch/serving/fund.journal" "$scratch/serving/away" && cp -p "$scratch/serving/away" "$scratch/serving/fund.journal"
    said=$(asked payables "$url/calls" --data "$(voucher moved)")
    echo "answered $said; watch.sh: $(watched | sed -n "s|$scratch/||; s/^watch: //; /journal/p")"
    mv "$scratch/serving/away" "$scratch/serving/fund.journal"
}

told_answered="a second machine answers 20,000,000 bytes: what is kept of it on the journal's disk"
held_answered="^([0-3]?[0-9]{1,3}|40[0-9][0-9]) bytes"
answered() {
    mkdir -p "$scratch/shipping" "$scratch/shipped"
    printf '#!/bin/sh\n[ "$1" != check ] || echo "entries: 3"\n' > "$scratch/shipping/books"
    cp "$scratch/shipping/books" "$scratch/shipping/cityfund"
    chmod +x "$scratch/shipping/books" "$scratch/shipping/cityfund"
    : > "$scratch/shipping/fund.journal"
    CITYFUND=$scratch/shipping bash examples/operate/ship.sh "$scratch/shipping" "$scratch/shipped" sh -c 'exec head -c 20000000 /dev/zero' > /dev/null 2>&1
    echo "$(cat "$scratch/shipped/"* | wc -c) bytes"
}

told_stopped="a stream to the second machine that stops without an end: how long follow holds its journal there (840 seconds are 2 here)"
held_stopped="^ended after"
stopped() {
    printf '#!/bin/sh\nexec cat > /dev/null\n' > "$scratch/follow"
    chmod +x "$scratch/follow"
    forced=$(code restrict,command= | sed -e 's/.*command="\([^"]*\)".*/\1/' -e 's/timeout [0-9]*/timeout 2/' -e "s|/var/lib/cityfund|$scratch|" \
        -e "s|$copy/cityfund follow|./follow|")
    began=$(date +%s)
    sleep 9 | { timeout 8 sh -c "$forced; exit \$?"; date +%s > "$scratch/ended"; }
    took=$(($(cat "$scratch/ended") - began))
    [ "$took" -lt 8 ] && echo "ended after $took seconds" || echo "still held after 8 seconds"
}
