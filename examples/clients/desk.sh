#!/bin/sh
# Sends calls to a city's doors by curl, one a line of the input, and prints the answer to each on one line, as a desk does:
#
#     desk.sh URL < calls > replies
#
# where URL is that of a door, as http://127.0.0.1:8101, or of the proxy before them. CITYFUND_NETRC names a file with the user and
# the password (`machine HOST login USER password PASSWORD`), CITYFUND_CA the certificate of the proxy where curl doesn't know it.
#
# A call whose answer doesn't come is sent again as it was, with its key: it is then answered with its place, `was`, or taken
# now, and never twice. A look asks by `after` for a history in which all that was answered before is seen.
# The status is 0 where all was taken, 1 where a line was refused or in no form, and 2 where a line has no answer: then the lines
# from that one on weren't sent, and can be, all of the input again just as well.
url=$1
tries=${CITYFUND_TRIES:-8}
refused=0
seen=0
number=0

# ask TEXT: sets code, 000 where no answer came, and reply.
ask() {
    answer=$(printf '%s' "$1" | curl --silent --max-time 60 --write-out '\n%{http_code}' --header 'Expect:' \
        --header 'Content-Type: application/json' ${CITYFUND_NETRC:+--netrc-file "$CITYFUND_NETRC"} \
        ${CITYFUND_CA:+--cacert "$CITYFUND_CA"} --data-binary @- "$url/calls") || answer="
000"
    code=$(printf '%s\n' "$answer" | tail -n 1)
    reply=$(printf '%s\n' "$answer" | head -n 1)
}

stop() {
    echo "desk: line $number has no answer: $1" >&2
    exit 2
}

[ -n "$url" ] || { echo "desk.sh URL < calls > replies" >&2; exit 2; }
while IFS= read -r line || [ -n "$line" ]; do
    number=$((number + 1))
    case $line in
    *'"desk"'* | *'"key"'* | *'"after"'*) ;;
    *\}) line="${line%\}},\"after\":$seen}" ;;
    esac
    left=$tries
    pause=1
    while :; do
        ask "$line"
        case $code in
        200 | 400 | 409 | 413) break ;;
        000 | 429 | 5??) ;;
        *) stop "$code $reply" ;;
        esac
        left=$((left - 1))
        [ "$left" -gt 0 ] || stop "$code $reply"
        sleep "$pause"
        pause=$((pause * 2))
    done
    printf '%s\n' "$reply"
    [ "$code" -eq 200 ] || refused=1
    at=$(printf '%s\n' "$reply" | sed -n 's/^{"at":\([0-9]*\),.*/\1/p')
    [ "${at:-0}" -le "$seen" ] || seen=$at
done
exit "$refused"
