#!/bin/sh
# Runs the clients of examples/clients/ at the doors of a `serve`: each answers the council's morning and the payables' day as stored beside
# them; the same where every second reply is lost, before or after the call was taken; and the day sent again adds nothing. Skipped
# where there is no curl.
cd "$(dirname "$0")/../.." || exit 1
top=$(pwd)
for tool in curl python3; do
    command -v $tool > /dev/null || { echo "clients: skipped: there is no $tool"; exit 0; }
done
. tests/lib/program.sh
books=${BOOKS:-$(built books)}
scratch=$(mktemp -d) || exit 1
trap 'kill $serving $losing 2> /dev/null; rm -rf "$scratch"' EXIT
. tests/lib/expect.sh
. tests/lib/serving.sh

# day CLIENT NAME STATUS: the client sends the lines; its replies, without the places of repeats, are the stored ones.
day() {
    "$1" "$url" < "examples/clients/$2.jsonl" > "$scratch/got"
    status=$?
    [ "$status" -eq "$3" ] && sed 's/,"was":[0-9]*}/}/' "$scratch/got" | diff - "examples/clients/$2.replies"
    verdict "$2 by $1 at $url: status $status" $?
}

# lose PORT DOOR: forwards each link from the port to the door, and loses every second one: by turns before the door has the call, and
# after the door answered it.
lose() {
    PYTHONPATH=$top/tests/lib exec python3 - "$1" "$2" <<'PY'
import itertools, socket, sys
from doors import Link
port, door = map(int, sys.argv[1:])
listener = socket.create_server(("127.0.0.1", port))
for number in itertools.count():
    caller, _ = listener.accept()
    with caller, Link(door) as link:
        request = b""
        while b"\r\n\r\n" not in request:
            request += caller.recv(1 << 16)
        head, _, body = request.partition(b"\r\n\r\n")
        size = int(head.lower().partition(b"content-length: ")[2].split(b"\r\n")[0])
        while len(body) < size:
            piece = caller.recv(1 << 16)
            request, body = request + piece, body + piece
        if number % 4 == 1:
            continue
        link.send(request)
        link.end()
        answer = link.all()
        if number % 4 != 3:
            caller.sendall(answer)
PY
}

for client in examples/clients/desk.sh examples/clients/desk.py; do
    serving 2 100
    # The council at one door, the payables at the other: a look of theirs sees what they did, wherever it is asked.
    url=http://127.0.0.1:$first
    day "$client" council 0
    url=http://127.0.0.1:$((first + 1))
    day "$client" payables 1
    cp "$scratch/serving/fund.journal" "$scratch/before"
    "$client" "$url" < examples/clients/payables.jsonl > "$scratch/got"
    [ "$(grep -c '"ok".*"was"' "$scratch/got")" -eq 3 ] && cmp "$scratch/before" "$scratch/serving/fund.journal"
    verdict "the day again by $client" $?
    stop_serving

    serving 2 100
    (lose "$((first + 2))" "$first") &
    losing=$!
    url=http://127.0.0.1:$((first + 2))
    day "$client" council 0
    day "$client" payables 1
    cmp "$scratch/before" "$scratch/serving/fund.journal"
    verdict "each call once, though replies are lost, by $client" $?
    kill "$losing"
    wait "$losing" 2> /dev/null
    stop_serving

    CITYFUND_TRIES=1 "$client" "$url" < examples/clients/payables.jsonl > "$scratch/got" 2> "$scratch/said"
    status=$?
    [ "$status" -eq 2 ] && [ ! -s "$scratch/got" ] && grep -q '^desk: line 1 has no answer: ' "$scratch/said"
    verdict "no door for $client: status $status: $(cat "$scratch/said")" $?
done
summary clients
