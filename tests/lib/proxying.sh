# Read by the scripts of tests/ that put nginx before a `serve`, with `top`, `scratch` and `first`
# set, the first of four ports: the files of examples/operate/, in which only ports, paths and the
# users of spare desks are others. `desks` has these users' lines. `site` and `bare` name the ports
# with and without TLS, and `held` the links that a process of nginx has; without them ports are
# free ones, and links nginx's.

module=/usr/lib/nginx/modules/ngx_http_js_module.so

# placed FILE: the text of a file of examples/operate/, with the paths of this try in place of those
# of a city. `installed` names another folder that stands for /opt/cityfund than this checkout.
placed() {
    sed -e "s|/etc/cityfund/|$etc/|g" -e "s|/opt/cityfund/|${installed:-$top}/|g" -e "s|/var/lib/cityfund-page|$etc/page|g" \
        -e "s|/run/cityfund-asked|$etc/asked|g" -e "s|/var/log/nginx/|$etc/|g" -e "s|/var/log/cityfund/|$etc/|g" \
        -e "s|listen 80 |listen 127.0.0.1:$plain |" -e "s|listen 443 |listen 127.0.0.1:$port |" \
        -e "s|127.0.0.1:8101|127.0.0.1:$first|" -e "s|127.0.0.1:8102|127.0.0.1:$((first + 1))|" \
        -e "s|127.0.0.1:8103|127.0.0.1:$((first + 2))|" -e "s|127.0.0.1:8104|127.0.0.1:$((first + 3))|" "${installed:-$top}/examples/operate/$1"
}

# proxying USER..: these users with a word each, and nginx before the doors. Sets `etc`, its folder,
# `url`, `plain`, the port without TLS, and `proxy`, the process.
proxying() {
    etc=${etc:-$scratch/etc}
    mkdir -p "$etc/tls" "$etc/page" "$etc/asked"
    port=${site:-$(PYTHONPATH=$top/tests/lib python3 -c 'import doors; print(doors.free_ports(2))')}
    plain=${bare:-$((port + 1))}
    url=https://localhost:$port
    openssl req -x509 -newkey ec -pkeyopt ec_paramgen_curve:P-256 -nodes -days 1 -subj /CN=localhost -addext subjectAltName=DNS:localhost \
        -keyout "$etc/tls/key.pem" -out "$etc/tls/certificate.pem" 2> /dev/null
    for user in "$@"; do
        echo "$user:$(openssl passwd -apr1 "$user's word")"
        printf 'machine localhost login %s password "%s"\n' "$user" "$user's word" > "$etc/$user.netrc"
    done > "$etc/passwords"
    for file in desks.conf doors.conf site.conf; do
        placed "etc/$file" > "$etc/$file"
    done
    echo "$desks" >> "$etc/desks.conf"
    placed nginx.conf > "$etc/cityfund.conf"
    {
        [ "$(id -u)" -ne 0 ] || echo "user root;"
        echo "load_module $module; pid $scratch/nginx.pid; error_log $scratch/error.log; worker_processes 2; daemon off; events { ${held:+worker_connections $held;} }"
        echo "http { access_log off; client_body_temp_path $scratch/temp; proxy_temp_path $scratch/temp; fastcgi_temp_path $scratch/temp;"
        echo "uwsgi_temp_path $scratch/temp; scgi_temp_path $scratch/temp; include $etc/cityfund.conf; }"
    } > "$etc/nginx.conf"
    nginx -c "$etc/nginx.conf" 2> "$scratch/said" &
    proxy=$!
    for try in $(seq 100); do
        curl --silent --output /dev/null --insecure "$url/" && break
        sleep 0.1
    done
}
