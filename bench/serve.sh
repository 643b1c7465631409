#!/bin/sh
# What `serve` does a second over real links of this machine, all in one run:
#  - looks over a kept-alive link at one door, beside nginx answering a fixed text of as many bytes over one on one worker (by
#    wrk; skipped where wrk or nginx isn't there);
#  - accepted calls at one door and at eight, each on a line of its own and waiting for its answer, by callers in C: the microseconds of
#    a call, those inside its two syncs and those beside them, and its share of half the syncs of a file that keeps its length. First on
#    this disk, and then with the journal in memory (/dev/shm) and each sync a sleep of 85, 300 and 2,000 microseconds: a disk that is
#    shared moves, and a sleep doesn't. Syncs are timed, and made sleeps, by a library that is put before the system's (skipped where
#    cc isn't there). Where OTHER names another program it is measured in turn with the first;
#  - accepted calls at one door and at eight, sent many at a time, where the journal lies in memory (/dev/shm);
#  - the time of a call there after 1,000 entries and after 100,000.
# The files that are synced lie in a folder made in the folder of the argument, or in bench/. The callers run on the same processors.
top=$(cd "$(dirname "$0")/.." && pwd)
PATH=$PATH:/usr/sbin
. "$top/tests/lib/program.sh"
scratch=$(mktemp -d "${1:-$top/bench}/serve.XXXXXX") || exit 1
memory=$(mktemp -d -p /dev/shm) || exit 1
trap 'rm -rf "$scratch" "$memory"' EXIT
PYTHONPATH=$top/tests/lib:$top/bench PYTHONDONTWRITEBYTECODE=1 timeout 1800 python3 - "$program" "$top/examples/rivertown/chart.toml" "$scratch" "$memory" "${OTHER:-}" <<'PY'
import atexit, json, multiprocessing, os, re, shutil, subprocess, sys, time

import city
import syncs
from city import ACCOUNTS
from doors import Link, Serve, free_ports, get, post

PROGRAM, CHART, DISK, MEMORY, OTHER = sys.argv[1:]
PROGRAMS = [("", PROGRAM)] + [(" of the other program", OTHER)] * bool(OTHER)
DOORS, SECONDS = 8, 5
NGINX = """pid nginx.pid; error_log nginx.log; worker_processes 1; daemon off; events {}
http {
    access_log off;
    keepalive_requests 100000000;
    client_body_temp_path t; proxy_temp_path t; fastcgi_temp_path t; uwsgi_temp_path t; scgi_temp_path t;
    default_type application/json;
    server { listen 127.0.0.1:PORT; location / { return 200 'TEXT'; } }
}
"""
fork = multiprocessing.get_context("fork")
numbers = iter(range(1, 1 << 30))

def found(folder, program=PROGRAM):
    city.found(program, CHART, folder)

def voucher(door):
    fund, dept, object_ = ACCOUNTS[door]
    return post(json.dumps({"call": "voucher", "desk": 4, "key": f"v{next(numbers)}", "on": "2025-07-05", "vendor": 77,
                            "items": [{"fund": fund, "dept": dept, "object": object_, "amount": 1}]}))

def speak(port, calls, most, go, times):
    """Sends calls over a link, at most so many without their answers."""
    link = Link(port)
    go.wait()
    for at in range(0, len(calls), most):
        batch = calls[at:at + most]
        link.send(b"".join(batch))
        while link.rest.count(b'"ok"') < len(batch) or not link.rest.endswith(b"}"):
            if not link.more() or b'"no"' in link.rest or b'"form"' in link.rest:
                sys.exit(f"not accepted: {link.rest[-300:]}")
        link.rest = b""
    times.put(time.time())

def seconds(serve, doors, count, most):
    """The seconds in which so many doors accept so many calls each."""
    go, times = fork.Barrier(doors + 1), fork.Queue()
    calls = [[voucher(door) for _ in range(count)] for door in range(doors)]
    speakers = [fork.Process(target=speak, args=(serve.first + door, calls[door], most, go, times)) for door in range(doors)]
    for speaker in speakers:
        speaker.start()
    go.wait()
    start = time.time()
    last = max(times.get(timeout=300) for _ in speakers)
    for speaker in speakers:
        speaker.join()
    return last - start

def opened(doors, env=None, program=PROGRAM):
    """A serve whose doors listen."""
    serve = Serve(program, doors, 1000, env=env)
    for door in range(doors):
        serve.link(door).close()
    return serve

def wrk(port, path):
    words = ["wrk", "-t1", "-c1", f"-d{SECONDS}s", f"http://127.0.0.1:{port}{path}"]
    said = subprocess.run(words, stdout=subprocess.PIPE, text=True).stdout
    return float(re.search(r"Requests/sec: *([0-9.]+)", said)[1])

def nginx_of(text):
    """nginx that answers each request by this text, on one worker, and its port."""
    port = free_ports(1)
    with open("nginx.conf", "w") as file:
        file.write(NGINX.replace("PORT", str(port)).replace("TEXT", text))
    process = subprocess.Popen(["nginx", "-p", os.getcwd(), "-c", "nginx.conf"], stderr=subprocess.DEVNULL)
    atexit.register(process.terminate)
    return process, port

def looks():
    found(f"{DISK}/looks")
    missing = [tool for tool in ("wrk", "nginx") if not shutil.which(tool)]
    if missing:
        print(f"looks: skipped: there is no {missing[0]}")
        return
    serve = opened(1)
    path = "/lines/3/2026"
    with serve.link(0) as link:
        text = link.ask(get(path)).body
    nginx, port = nginx_of(text)
    with Link(port, nginx) as link:
        if link.ask(get(path)) is None:
            sys.exit("nginx doesn't answer")
    ours, theirs = [], []
    for _ in range(3):  # in turn, so that both meet the machine as it is then
        ours.append(wrk(serve.first, path))
        theirs.append(wrk(port, path))
    nginx.terminate()
    nginx.wait()
    serve.kill()
    door, fixed = max(ours), max(theirs)
    print(f"looks at one door: {door:,.0f} a second; nginx, a fixed text of {len(text)} bytes: {fixed:,.0f}; {door / fixed:.2f} of it")

def synced(what, tools, folder, doors, calls, sleep=None):
    """So many calls at each of so many doors, in turn with the limit, and with the other program."""
    serves, turns = [], 5
    for number, (name, program) in enumerate(PROGRAMS):
        found(f"{folder}/{number}", program)
        measured = syncs.Measured(syncs.Times(tools, f"times{number}", sleep))
        serves.append((name, measured, opened(doors, measured.times.environment, program)))
    for _ in range(turns):
        limit = tools.limit(folder, calls * doors, sleep)
        for _, measured, serve in serves:
            measured.times.begin()
            seconds = tools.callers(serve.first, calls, f"v{next(numbers)}", ACCOUNTS[:doors])
            measured.times.end()
            measured.add(calls * doors, seconds, limit)
    for name, measured, serve in serves:
        serve.kill()
        print(f"{what}, {doors} door{'s' * (doors > 1)}{name}: {measured.said()}")

def durable():
    if not syncs.are_there():
        print("accepted calls: skipped: there is no cc")
        return
    os.mkdir(f"{MEMORY}/tools")
    tools = syncs.Tools(f"{MEMORY}/tools")
    for doors in (1, DOORS):
        synced("this disk", tools, f"{DISK}/synced", doors, 4000 // doors)
    for sleep in (85, 300, 2000):
        for doors in (1, DOORS):
            synced(f"syncs of {sleep:,} us", tools, f"{MEMORY}/synced", doors, 100000 // sleep // doors * 2, sleep)

def in_memory():
    rates = {}
    for doors in (1, DOORS):
        found(f"{MEMORY}/journal")
        serve = opened(doors)
        count = 80000 // doors
        rates[doors] = doors * count / seconds(serve, doors, count, 64)
        serve.kill()
    print(f"accepted calls, the journal in memory: {rates[1]:,.0f} a second at one door, {rates[DOORS]:,.0f} at {DOORS}")

def growth():
    found(f"{MEMORY}/journal")
    serve = opened(1)
    have, times = 3, []
    for entries in (1000, 100000):
        while have < entries:
            count = min(10000, entries - have)
            seconds(serve, 1, count, 64)
            have += count
        times.append(min(seconds(serve, 1, 500, 1) for _ in range(5)) / 500 * 1e6)
        have += 2500
    serve.kill()
    few, many = times
    print(f"a call after 1,000 entries: {few:.1f} us; after 100,000: {many:.1f} us; {many / few:.2f} times")

looks()
durable()
in_memory()
growth()
PY
