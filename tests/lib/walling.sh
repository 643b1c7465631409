# Read by tests/long/operate.sh, with `top`, `scratch` and `city` set: the packet filter of
# examples/operate/ in a network of its own. Root and the proxy's user reach a door, nobody else;
# nobody but the program is a door; and an address holds no more links than it may.

# walled COMMAND: runs it where the filter stands, with the user daemon for the program's; the
# loopback device is up there.
walled() {
    (cd "$scratch/wall" && unshare --net sh -c '
        python3 -c "import fcntl, socket, struct; fcntl.ioctl(socket.socket(), 0x8914, struct.pack(\"16sh\", b\"lo\", 0x41))"
        nft --file cityfund.nft && nft --file cityfund.nft || exit 7
        door="python3 $1/tests/lib/door.py"
        '"$1" sh "$top" 2> "$scratch/said" | tr -d "'" | xargs)
}

if ! missing nft unshare setpriv && ! unshare --net true 2> "$scratch/said"; then
    echo "operate: skipped: no network of its own: $(cat "$scratch/said")"
elif ! missing nft unshare setpriv > "$scratch/said"; then
    chmod 755 "$scratch"
    mkdir -p "$scratch/wall/tls"
    sed "s|/etc/cityfund/|$scratch/wall/|" examples/operate/cityfund.nft > "$scratch/wall/cityfund.nft"
    sed 's/^\(define cityfund_program =\).*/\1 daemon/; s/192.0.2.1/127.0.0.9/' examples/operate/etc/doors.nft > "$scratch/wall/doors.nft"
    cp examples/operate/watch.sh examples/operate/doors.sh "$scratch/wall/"

    if part wall; then
        said=$(walled '
            $door daemon 8101 & one=$!
            $door nobody 8102 & two=$!
            for user in root www-data nobody; do
                setpriv --reuid=$user --clear-groups curl --silent --output /dev/null --retry 10 --retry-delay 1 \
                    $([ $user = nobody ] || echo --retry-connrefused) http://127.0.0.1:8101/
                echo "$user $?"
            done
            # 8102 is 1FA6 there, and 0A says that it listens.
            for try in $(seq 100); do grep -q "0100007F:1FA6 00000000:0000 0A" /proc/net/tcp && break; sleep 0.1; done
            setpriv --reuid=www-data --clear-groups curl --silent --max-time 2 --output /dev/null http://127.0.0.1:8102/
            echo "forged $?"
            kill $one $two')
        [ "$said" = "root 0 www-data 0 nobody 7 forged 28" ]
        verdict "the wall: $said $(tail -n 1 "$scratch/said")" $?

        # The unit asks whether the filter stands before it starts the doors.
        asks=$(sed -n 's/^ExecStartPre=+//p' examples/operate/cityfund.service)
        said=$(walled "${asks:-true} > asked 2>&1; echo there \$?; nft delete table inet cityfund; ${asks:-true} > asked 2>&1; echo gone \$?")
        [ "$said" = "there 0 gone 1" ]
        verdict "the unit without the filter: $said" $?
    fi

    if part links; then
        # The links of one address, of another one, and of one behind which many callers stand. Of
        # IPv6 the first 64 bits are an address.
        for version in 4 6; do
            [ "$version" = 4 ] || grep -q . /proc/net/if_inet6 || { echo "operate: skipped: there is no IPv6"; continue; }
            said=$(walled "python3 $top/tests/lib/holding.py held $version")
            [ "$said" = "held 200 beside 50 shared 250" ]
            verdict "the links of an address of IPv$version: $said $(tail -n 1 "$scratch/said")" $?
            said=$(walled "python3 $top/tests/lib/holding.py opened $version")
            [ "$said" = "opened" ]
            verdict "the links that an address of IPv$version opens: $said $(tail -n 1 "$scratch/said")" $?
        done
    fi

    if part watch; then
        # What watch.sh says: of a machine where all is well, then of one fault after another.
        openssl req -x509 -newkey ec -pkeyopt ec_paramgen_curve:P-256 -nodes -days 31 -subj /CN=localhost -keyout "$scratch/wall/tls/key.pem" \
            -out "$scratch/wall/tls/certificate.pem" 2> /dev/null
        openssl req -x509 -key "$scratch/wall/tls/key.pem" -days 29 -subj /CN=localhost -out "$scratch/wall/old.pem" 2> /dev/null
        said=$(walled '
            echo entries > fund.journal
            sleep 600 3< fund.journal & pid=$!
            $door daemon 8101 & one=$!
            $door daemon 8102 & two=$!
            export CITYFUND_ETC=. CITYFUND_USER=daemon CITYFUND_JOURNAL=fund.journal MAINPID=$pid
            MAINPID= setpriv --reuid=daemon --clear-groups ./doors.sh 8101 2 10 > /dev/null
            watched() { sh ./watch.sh 8101 "$1" > told; echo "$2 $? $(cut -d : -f 2- told | cut -c 2-30)"; }
            watched 2 well
            watched 3 doors
            mv fund.journal before; cp before fund.journal; watched 2 journal; mv before fund.journal
            cp tls/certificate.pem new.pem; cp old.pem tls/certificate.pem; watched 2 certificate; cp new.pem tls/certificate.pem
            nft delete chain inet cityfund output; watched 2 open; nft --file cityfund.nft
            nft flush chain inet cityfund input; nft delete chain inet cityfund links; watched 2 links
            kill $pid $one $two')
        [ "$said" = "well 0 doors 1 cityfund: 2 of 3 doors listen journal 1 the program doesnt write int certificate 1 ./tls/certificate.pem ends wi open 1 every user of this machine re links 1 the packet filter doesnt bou" ]
        verdict "watching: $said $(cat "$scratch/said")" $?
    fi
fi
