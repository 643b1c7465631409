#!/bin/sh
# Waits until all doors listen, and says how many do:
#
#     doors.sh PORT DOORS [SECONDS]
#
# The unit runs it after each start. A door whose port another program holds stays shut, and the program says nothing of it until
# its other doors have ended; so doors are counted that belong to this user. It ends with 1 where some don't listen after so many
# seconds (60), or once the program that systemd started (MAINPID) has ended.
left=${3:-60}
ports=$(for port in $(seq "$1" $(($1 + $2 - 1))); do printf ' 0100007F:%04X ' "$port"; done)
while :; do
    listening=$(awk -v user="$(id -u)" -v ports="$ports" '$4 == "0A" && $8 == user && index(ports, " " $2 " ") { n++ } END { print n + 0 }' \
        /proc/net/tcp)
    [ "$listening" -lt "$2" ] && [ "$left" -gt 0 ] && { [ -z "$MAINPID" ] || kill -0 "$MAINPID" 2> /dev/null; } || break
    left=$((left - 1))
    sleep 1
done
echo "cityfund: $listening of $2 doors listen"
[ "$listening" -eq "$2" ]
