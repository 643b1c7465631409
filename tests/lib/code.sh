# Read by tests/long/operate.sh and tests/long/attacks.sh, with `scratch` set.

# code TEXT: the lines of code of docs/OPERATE.md that have this text, with those that go on from
# them, for folders of this try. `opt` is that of the programs, `made` that of the city's files.
code() {
    awk -v text="$1" '/^    / { line = line substr($0, 5); if (sub(/\\$/, "", line)) next; if (index(line, text)) print line; line = "" }' docs/OPERATE.md |
        sed -e "s|/opt/cityfund|$opt|g" -e "s|/etc/cityfund|${made:-$scratch/made}|g" -e "s|/etc/nginx|$scratch/nginx|g" \
            -e "s|/etc/nftables|$scratch/nftables|g" -e "s|/backup/cityfund|$scratch/copies|g"
}
