#!/bin/sh
# Says what is wrong around the doors, a line each, and then ends with 1; where nothing is wrong it
# says nothing. Root runs it:
#
#     watch.sh [PORT DOORS]
#
# It looks whether the packet filter stands before the doors (8101 and 4 of them) and before the
# proxy, whether each door is the program's, whether the program writes into the journal that is in
# its place, and whether the certificate is good for 30 days more. What a city has elsewhere is told
# by CITYFUND_ETC (/etc/cityfund), CITYFUND_USER (cityfund), CITYFUND_JOURNAL
# (/var/lib/cityfund/fund.journal) and MAINPID (that of cityfund.service).
port=${1:-8101} doors=${2:-4}
user=${CITYFUND_USER:-cityfund}
journal=${CITYFUND_JOURNAL:-/var/lib/cityfund/fund.journal}
certificate=${CITYFUND_ETC:-/etc/cityfund}/tls/certificate.pem
pid=${MAINPID:-$(systemctl show --property MainPID --value cityfund)}
wrong=0

say() {
    echo "watch: $1"
    wrong=1
}

# as USER COMMAND..: without root's rights.
as() {
    as_user=$1
    shift
    setpriv --reuid="$as_user" --regid="$(id -g "$as_user")" --clear-groups "$@"
}

# A door that lets nobody in resets the link at once; a busy one that the filter doesn't guard lets
# it wait.
as nobody curl --silent --output /dev/null --max-time 5 "http://127.0.0.1:$port/"
[ $? -eq 7 ] || say "every user of this machine reaches the doors: the packet filter doesn't stand before them"
nft list chain inet cityfund links > /dev/null 2>&1 || say "the packet filter doesn't bound the links to the proxy"
said=$(as "$user" "$(dirname "$0")/doors.sh" "$port" "$doors" 0) || say "$said"
# Of a file that was moved away and another put in its place, the program goes on in the first.
found=$(find -L "/proc/${pid:-0}/fd" -maxdepth 1 -samefile "$journal" 2> /dev/null)
[ -n "$found" ] || say "the program doesn't write into $journal"
openssl x509 -checkend 2592000 -noout -in "$certificate" > /dev/null 2>&1 || say "$certificate ends within 30 days, or can't be read"
exit $wrong
