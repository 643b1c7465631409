# Read by tests/long/operate.sh once nginx stands before the doors of a journal that is served
# (proxying.sh), with asked and verdict at hand: who entered what, from the proxy's line to the copy
# of the log. `city` is the folder of the programs.

trail=$city/examples/operate/trail
log=$scratch/trail.log
copied=$scratch/copied

# start_keeping: what the unit runs, in the background. Sets `keeping`.
start_keeping() {
    "$trail.py" "$etc/entered" "$log" 2> "$scratch/kept" &
    keeping=$!
}

# lines COUNT: waits until the log has so many lines, and says whether it has no more.
lines() {
    for try in $(seq 100); do
        [ "$(cat "$log" 2> /dev/null | wc -l)" -lt "$1" ] || break
        sleep 0.1
    done
    sleep 0.3
    has=$(cat "$log" | wc -l)
    [ "$has" -eq "$1" ]
    verdict "$2: $has lines, not $1" $?
}

# line NUMBER PATTERN: a line of the log.
line() {
    sed -n "$1p" "$log" | grep -qE -- "$2"
    verdict "line $1 has $2: $(sed -n "$1p" "$log")" $?
}

# joined STATUS TEXT: trail over the served journal ends so, and says the text.
joined() {
    CITYFUND=$city "$trail" "$scratch/serving/fund.journal" "$log" > "$scratch/rows" 2> "$scratch/said"
    status=$?
    [ "$status" -eq "$1" ] && grep -q -- "$2" "$scratch/said"
    verdict "the trail: status $status, not $1 with $2: $(cat "$scratch/said")" $?
}

# row PLACE WORDS: a row of it ends with these words, the time aside.
row() {
    cut -f 1,4,5,8- "$scratch/rows" | tr '\t' ' ' | grep -qxF -- "$1"
    verdict "the row $1 in $(cut -f 1,4,5,8- "$scratch/rows" | tr '\t' ' ')" $?
}

# voucher KEY [CENTS]: a call of payables; the key as it stands in a JSON text.
voucher() {
    printf '{"call":"voucher","desk":4,"key":"%s","on":"2025-07-05","vendor":77,"items":[{"fund":1,"dept":20,"object":510,"amount":%d}]}\n' \
        "$1" "${2:-1}"
}

# ---- a line for each change that is accepted, and for nothing else

stop_serving
kill "$proxy"
wait "$proxy" 2> /dev/null
serving 4 100000
rm -f "$log" "$etc/entered"
desks="deputy 4;" proxying council payables treasury auditor deputy
calls=$url/calls
start_keeping
asked "an adoption" council 200 '^{"at":1,"ok":{}}$' "$calls" --data "{\"desk\":1,$adopt}"
asked "a look" payables 200 '^{"at":1,' "$url/lines/3/2026"
asked "a look as a call" payables 200 '^{"at":1,' "$calls" --data '{"call":"line","line":3,"year":2026}'
asked "a refusal" payables 409 '"name":"Exceeds"' "$calls" --data "$(voucher v0 100001)"
asked "no call in form" payables 400 '"form"' "$calls" --data '{"desk":4,"call":"voucher"}'
asked "another desk's call" payables 403 '"not your desk"' "$calls" --data "{\"desk\":1,$adopt}"
lines 1 "one change was accepted"
line 1 "^{\"line\":1,\"before\":\"0{64}\",\"end\":[0-9]+,\"time\":\"$(date -u +%Y-%m)-[0-9T:]+\\+00:00\",\"user\":\"council\",\"address\":\"127.0.0.1\",\"desk\":1,\"key\":\"b1\",\"place\":1,"
line 1 "\"body\":\"$(printf '{"desk":1,%s}' "$adopt" | sha256sum | cut -d ' ' -f 1)\""
# Two users of one desk, and a key with marks.
asked "a voucher" payables 200 '^{"at":2,"ok"' "$calls" --data "$(voucher v1)"
asked "a deputy's voucher" deputy 200 '^{"at":3,"ok"' "$calls" --data "$(voucher 'v\"\\<2>')"
# The same call again, by another user, written otherwise: no second entry, and a line of its own.
asked "the same again" deputy 200 '"was":2' "$calls" --data "$(voucher v1 | sed 's/,/ , /; s/^{/{"after":2,"back":false,/')"
lines 4 "three changes and a repeat"
line 4 '"user":"deputy".*"key":"v1","place":2,.*"repeat":true'
joined 0 "3 entries, 0 of them without a line"
row "1 b1 adopt council 127.0.0.1 entered"
row "2 v1 voucher payables 127.0.0.1 entered"
row "2 v1 voucher deputy 127.0.0.1 repeat"
row '3 "v""\<2>" voucher deputy 127.0.0.1 entered'

# ---- what is entered past the proxy, callers that go away, and doors that don't answer

said=$(voucher bare | curl --silent --data @- "http://127.0.0.1:$first/calls")
[ "$said" = '{"at":4,"ok":{"assets":[],"voucher":3}}' ]
verdict "a call at a bare door: $said" $?
joined 0 "4 entries, 1 of them without a line"
cut -f 4- "$scratch/rows" | grep -qx "bare	voucher	0.01				no line"
verdict "its row: $(tail -n 1 "$scratch/rows")" $?
python3 - "$port" > "$scratch/got" 2>&1 << 'PY'
import base64, socket, ssl, struct, sys, time
tls = ssl.create_default_context()
tls.check_hostname, tls.verify_mode = False, ssl.CERT_NONE
word = base64.b64encode(b"payables:payables's word")
for number in range(10):
    body = b'{"call":"voucher","desk":4,"key":"gone%d","on":"2025-07-05","vendor":77,"items":[{"fund":1,"dept":20,"object":510,"amount":1}]}' % number
    with tls.wrap_socket(socket.create_connection(("127.0.0.1", int(sys.argv[1])))) as link:
        link.sendall(b"POST /calls HTTP/1.1\r\nHost: localhost\r\nAuthorization: Basic %s\r\nContent-Length: %d\r\n\r\n%s" % (word, len(body), body))
        time.sleep(0.02)
        link.setsockopt(socket.SOL_SOCKET, socket.SO_LINGER, struct.pack("ii", 1, 0))
PY
verdict "callers that go away: $(cat "$scratch/got")" $?
sleep 1
# However many of them a door got, each that it took has its line.
"$books" list "$scratch/serving/fund.journal" | grep -c '	gone' > "$scratch/gone"
joined 0 "$((4 + $(cat "$scratch/gone"))) entries, 1 of them without a line"
[ "$(cat "$scratch/gone")" -gt 0 ]
verdict "some of them were taken" $?
# While the keeper is down, and over a start of the program: nothing is lost, and a call without an
# answer is told by what was sent.
kill "$keeping"
wait "$keeping" 2> /dev/null
stop_serving
asked "no door" deputy 502 '^{"proxy":"no door"}$' "$calls" --data "$(voucher late)"
start_serving 4 100000
asked "the same once the door is there" payables 200 '^{"at":.*"ok"' "$calls" --data "$(voucher late)"
asked "and again" payables 200 '"was":' "$calls" --data "$(voucher late)"
start_keeping
had=$(wc -l < "$etc/entered")
lines "$had" "what came while the keeper was down"
joined 0 " 1 without an answer, 0 without their entry"
[ "$(grep -c '	late	' "$scratch/rows")" -eq 2 ]
verdict "the rows of that call: $(grep '	late	' "$scratch/rows")" $?
# A door that takes a call and doesn't answer: a stand-in takes the call, the program takes it at
# the machine, and the answer never comes.
stop_serving
python3 - "$first" "$scratch/serving" "$program" "$scratch/listening" << 'PY' &
import socket, subprocess, sys
listening = socket.create_server(("127.0.0.1", int(sys.argv[1])))
open(sys.argv[4], "w").close()
listening.settimeout(60)
link, _ = listening.accept()
text = b""
while b"}]}" not in text:
    text += link.recv(65536)
subprocess.run([sys.argv[3], "desk"], cwd=sys.argv[2], input=text.split(b"\r\n\r\n", 1)[1] + b"\n", stdout=subprocess.DEVNULL)
link.close()
PY
mute=$!
for try in $(seq 300); do
    [ ! -e "$scratch/listening" ] || break
    sleep 0.1
done
asked "an answer that is lost" deputy 502 '^{"proxy":"no door"}$' "$calls" --data "$(voucher lost)"
wait "$mute"
start_serving 4 100000
lines "$((had + 1))" "a change without an answer"
joined 0 " 2 without an answer, 0 without their entry"
row "$(tail -n 1 "$scratch/rows" | cut -f 1) lost voucher deputy 127.0.0.1 unanswered"

# ---- the digest of a call is that of the entry, whatever the call: a year of all desks, each call by the user of its desk

stop_serving
kill "$proxy" "$keeping"
wait "$proxy" "$keeping" 2> /dev/null
serving 4 100000
rm -f "$log" "$etc/entered"
proxying council streets purchasing payables treasury revenue assets payroll controller
python3 - "$url" "$etc" examples/a-year.jsonl examples/reopened-order.jsonl << 'PY' > "$scratch/got"
import json, os, sys
sys.path.insert(0, "examples/clients")
from desk import Desk
url, etc, *talks = sys.argv[1:]
users = "council streets purchasing payables treasury revenue assets payroll controller".split()
desks = [Desk(url, 3, f"{etc}/{user}.netrc", f"{etc}/tls/certificate.pem") for user in users]
for line in open(talks[0], encoding="utf-8"):
    call = json.loads(line)
    print(desks[call.get("desk", 1) - 1].send(line.rstrip("\n"))[1])
PY
diff "$scratch/got" examples/a-year.replies > "$scratch/said"
verdict "a year of all desks: $(head -n 3 "$scratch/said")" $?
"$trail.py" "$etc/entered" "$log" --once
joined 0 "$(grep -c '"ok"' examples/a-year.replies) entries, 0 of them without a line"

# ---- the log's copy

# copy_log STATUS TEXT: backup.sh with the log ends so, and says the text.
copy_log() {
    said=$(CITYFUND=$city sh examples/operate/backup.sh "$scratch/serving" "$copied" "$log" 2>&1)
    status=$?
    [ "$status" -eq "$1" ] && echo "$said" | grep -qE -- "$2"
    verdict "a copy with the log: status $status, not $1 with $2: $said" $?
    sleep 1
}

mkdir "$copied"
copy_log 0 "^backup: .*\.trail: lines: [0-9]+ last: .* digest: [0-9a-f]{64}"
printf '{"line":' >> "$log"
copy_log 0 "^backup: .*\.trail: lines: "
"$trail.py" "$etc/entered" "$log" --once 2> "$scratch/said"
(cd "$copied" && sha256sum --check --status checksums checksums-trail && [ "$(ls | wc -l)" -eq 6 ])
verdict "two copies of both, with their checksums: $(ls "$copied" | xargs)" $?
last=$(tail -n 1 "$copied/checksums-trail" | cut -d ' ' -f 3)
said=$(CITYFUND=$city "$trail" "$copied/${last%.trail}.journal" "$copied/$last" 2>&1 > "$scratch/got")
verdict "the trail of a copy: $said" $?
cp "$log" "$scratch/log"
sed -i '3s/"user":"/"user":"x/' "$log"
copy_log 1 "line 4: the chain is broken"
[ -e "$copied/refused.trail" ] && [ "$(wc -l < "$copied/checksums")" -eq 3 ] && [ "$(wc -l < "$copied/checksums-trail")" -eq 2 ]
verdict "the journal is copied all the same" $?
head -n 5 "$scratch/log" > "$log"
copy_log 1 "lines of .*\.trail aren't in"
rm "$log"
copy_log 1 "trail.log can't be copied"
cp "$scratch/log" "$log"
copy_log 0 "^backup: .*\.trail: lines: "
