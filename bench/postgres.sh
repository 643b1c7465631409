#!/bin/sh
# Accepted vouchers a second of PostgreSQL beside those of `serve`, in turn on the same disk: one client beside one door, and eight
# clients beside eight doors, each on a line of its own and waiting for each answer. PostgreSQL takes a voucher by a function in PL/pgSQL, which
# looks its key up, tries the line's room, and writes the entry and two posts, with synchronous_commit on; it listens on a socket in a
# folder alone. Its clients share syncs, and doors don't. Skipped where PostgreSQL or cc isn't there. The files lie in a folder made in
# the folder of the argument, or in /var/tmp, which a user without rights must reach: PostgreSQL refuses to run as root.
top=$(cd "$(dirname "$0")/.." && pwd)
PATH=$PATH:$(find /usr/lib/postgresql /usr/pgsql* -maxdepth 2 -name bin -type d 2> /dev/null | sort -V | tail -n 1)
for tool in initdb postgres psql pgbench cc; do
    command -v $tool > /dev/null || { echo "postgres: skipped: there is no $tool"; exit 0; }
done
. "$top/tests/lib/program.sh"
scratch=$(mktemp -d "${1:-/var/tmp}/postgres.XXXXXX") || exit 1
as() { "$@"; }
if [ "$(id -u)" -eq 0 ]; then
    user=$(id -un postgres 2> /dev/null || echo nobody)
    as() { setpriv --reuid="$user" --regid="$(id -g "$user")" --clear-groups "$@"; }
    chmod 755 "$scratch"
fi
mkdir "$scratch/data" "$scratch/ours" && { [ "$(id -u)" -ne 0 ] || chown "$user" "$scratch/data"; }
lock=$scratch/data/base/postmaster.pid
trap '[ ! -e "$lock" ] || { kill -INT "$(head -n 1 "$lock")"; wait; }; rm -rf "$scratch"' EXIT
cd "$scratch/data" || exit 1
as initdb --pgdata="$scratch/data/base" --auth=trust --username=bench > /dev/null || exit 1
as postgres -D "$scratch/data/base" -c listen_addresses= -c unix_socket_directories="$scratch/data" -c synchronous_commit=on > "$scratch/log" 2>&1 &
tries=100
until psql -h "$scratch/data" -U bench -c "select 1" postgres > /dev/null 2>&1; do
    tries=$((tries - 1))
    [ "$tries" -gt 0 ] || { cat "$scratch/log"; exit 1; }
    sleep 0.1
done
psql -q -v ON_ERROR_STOP=1 -h "$scratch/data" -U bench postgres << 'SQL' || exit 1
create table line (id int primary key, appropriated bigint not null, expended bigint not null);
create table entry (at bigserial primary key, key text not null unique, day date not null, vendor bigint not null, line int not null, amount bigint not null);
create table post (entry bigint not null, account int not null, amount bigint not null);
create sequence number;
insert into line select id, 1000000000, 0 from generate_series(0, 7) id;
create function voucher(key_said text, day_said date, vendor_said bigint, line_said int, amount_said bigint) returns bigint language plpgsql as $$
declare
    place bigint;
begin
    select at into place from entry where key = key_said;
    if found then
        return place;
    end if;
    update line set expended = expended + amount_said where id = line_said and expended + amount_said <= appropriated;
    if not found then
        raise exception 'no room';
    end if;
    insert into entry (key, day, vendor, line, amount) values (key_said, day_said, vendor_said, line_said, amount_said) returning at into place;
    insert into post values (place, 500001, amount_said), (place, 200000, -amount_said);
    return place;
end
$$;
SQL
echo "select voucher('v' || nextval('number'), '2025-07-05', 77, :client_id, 1);" > "$scratch/voucher.sql"
PYTHONPATH=$top/tests/lib:$top/bench PYTHONDONTWRITEBYTECODE=1 python3 - "$program" "$top/examples/rivertown/chart.toml" "$scratch" << 'PY'
import os, re, subprocess, sys

import syncs
from city import ACCOUNTS, found
from doors import Serve

PROGRAM, CHART, FOLDER = sys.argv[1:]
TURNS, SECONDS, CALLS = 5, 3, 4000


def clients(count):
    """Vouchers a second of so many clients of PostgreSQL."""
    said = subprocess.run(["pgbench", "-h", f"{FOLDER}/data", "-U", "bench", "-n", "-M", "prepared", "-c", str(count), "-T", str(SECONDS),
                           "-f", f"{FOLDER}/voucher.sql", "postgres"], stdout=subprocess.PIPE, text=True, check=True).stdout
    return float(re.search(r"tps = ([0-9.]+)", said)[1])


os.mkdir(f"{FOLDER}/tools")
tools = syncs.Tools(f"{FOLDER}/tools")
for count in (1, 8):
    found(PROGRAM, CHART, f"{FOLDER}/ours/{count}")
    measured = syncs.Measured(syncs.Times(tools, f"doors{count}"))
    serve = Serve(PROGRAM, count, 1000, env=measured.times.environment)
    for door in range(count):
        serve.link(door).close()
    theirs = []
    for turn in range(TURNS):
        limit = tools.limit(f"{FOLDER}/ours", CALLS)
        measured.times.begin()
        seconds = tools.callers(serve.first, CALLS // count, f"p{turn}", ACCOUNTS[:count])
        measured.times.end()
        measured.add(CALLS, seconds, limit)
        theirs.append(clients(count))
    serve.kill()
    rate = sum(theirs) / TURNS
    many = "s" * (count > 1)
    print(f"{count} door{many}: {measured.said()}")
    print(f"{count} client{many} of PostgreSQL: {rate:,.0f} a second ({min(theirs):,.0f} to {max(theirs):,.0f}); "
          f"ours are {measured.calls / measured.seconds / rate:.2f} of that")
PY
