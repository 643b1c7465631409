# Read by tests/long/operate.sh, with `top` and `scratch` set and `code` at hand: what
# docs/OPERATE.md makes with rights, by its own lines.

opt=$scratch/opt
mkdir -p "$scratch/made/tls" "$scratch/nginx/modules-enabled"

# The programs that root runs belong to root, whoever built them.
if [ "$(id -u)" -eq 0 ]; then
    mkdir "$scratch/opt" "$scratch/built"
    cp -R cityfund books page docs examples README.md CHANGELOG.md "$scratch/built/" && mkdir "$scratch/built/out" && chown -R nobody "$scratch/built"
    (cd "$scratch/built" && eval "$(code 'cityfund books out page')")
    said=$(find "$scratch/opt" ! -user root | head -n 3)
    [ -x "$scratch/opt/cityfund" ] && [ -z "$said" ]
    verdict "the programs belong to root: $said" $?
fi

# What guards the doors is read from there, and what the city chose stands in files that no upgrade
# touches.
guarded() {
    eval "$(code "$1")"
    file=$(grep -o '/[^"; ]*' "$2")
    [ "${file#"$scratch/opt/"}" != "$file" ] && [ -f "$top${file#"$scratch/opt"}" ]
    verdict "what $1 reads: $file" $?
}

mkdir -p "$scratch/nginx/conf.d"
guarded 'nftables.conf' "$scratch/nftables.conf"
guarded 'conf.d/cityfund.conf' "$scratch/nginx/conf.d/cityfund.conf"
if [ -d "$scratch/opt" ]; then
    echo "roads 20;" > "$scratch/made/desks.conf"
    eval "$(code 'examples/operate/etc/')"
    said=$(cat "$scratch/made/desks.conf")
    [ "$said" = "roads 20;" ] && [ "$(ls "$scratch/made" | xargs)" = "desks.conf doors.conf doors.nft site.conf tls" ]
    verdict "what the city chose: $said $(ls "$scratch/made" | xargs)" $?
fi

# The passwords are read by the proxy alone, at each moment.
if [ "$(id -u)" -eq 0 ] && ! missing htpasswd; then
    said=$(code /passwords | while read -r line; do
        (umask 022; echo "a word" | eval "$(echo "$line" | sed 's/htpasswd /htpasswd -i /')" > /dev/null 2>&1) || echo "failed: $line"
        stat -c '%a %U %G' "$scratch/made/passwords"
    done | sort -u)
    [ "$said" = "640 root www-data" ] && grep -q '^council:\$2y\$' "$scratch/made/passwords"
    verdict "the passwords: $said" $?
fi

# The key is one with which many callers are greeted.
if ! missing openssl; then
    eval "$(code 'openssl req')" 2> "$scratch/said"
    openssl x509 -noout -text -in "$scratch/made/tls/certificate.pem" | grep -q prime256v1 && [ "$(stat -c %a "$scratch/made/tls/key.pem")" = 600 ]
    verdict "the certificate: $(tail -n 1 "$scratch/said")" $?
fi

# nginx has links for many addresses, and as many files as they need.
printf 'events {\n\tworker_connections 768;\n}\n' > "$scratch/nginx/nginx.conf"
eval "$(code worker_connections)"
eval "$(code worker_rlimit_nofile)"
grep -q 'worker_connections 8192;' "$scratch/nginx/nginx.conf" && grep -q 'worker_rlimit_nofile 32768;' "$scratch"/nginx/modules-enabled/*
verdict "the links that nginx has" $?

# The second machine's `follow` doesn't wait for ever.
mkdir -p "$scratch/second"
printf '#!/bin/sh\nexec cat > /dev/null\n' > "$scratch/second/follow"
chmod +x "$scratch/second/follow"
forced=$(code restrict,command= | sed -e 's/.*command="\([^"]*\)".*/\1/' -e 's/timeout [0-9]*/timeout 1/' -e "s|/var/lib/cityfund|$scratch/second|" \
    -e "s|$scratch/opt/cityfund follow|./follow|")
sleep 12 | timeout 6 sh -c "$forced; exit \$?"
status=$?
[ "$status" -eq 124 ] && [ -n "${forced##*timeout 6*}" ] && [ -z "${forced##*timeout 1*}" ]
verdict "a stream that stops: status $status of $forced" $?

# What the second machine answers takes no room here.
if ! missing flock bash; then
    mkdir -p "$scratch/shipping" "$scratch/shipped"
    printf '#!/bin/sh\n[ "$1" != check ] || echo "entries: 3"\n' > "$scratch/shipping/books"
    cp "$scratch/shipping/books" "$scratch/shipping/cityfund"
    chmod +x "$scratch/shipping/books" "$scratch/shipping/cityfund"
    : > "$scratch/shipping/fund.journal"
    # answered STATUS COMMAND: the second machine answers by this command, ship.sh ends so, and its
    # folder has little.
    answered() {
        CITYFUND=$scratch/shipping bash examples/operate/ship.sh "$scratch/shipping" "$scratch/shipped" sh -c "$2" > "$scratch/got" 2> "$scratch/said"
        status=$?
        size=$(cat "$scratch/shipped/"* | wc -c)
        [ "$status" -eq "$1" ] && [ "$size" -le 4096 ]
        verdict "the answer of '$2': status $status, $size bytes kept: $(cat "$scratch/said")" $?
    }
    answered 0 'echo followed 3'
    answered 1 'echo followed 3; echo more'
    answered 1 'head -c 4000 /dev/zero'
    answered 141 'exec head -c 20000000 /dev/zero'
fi
