#!/bin/sh
# Kills `serve` at random moments (kill -9) under the streams of eight doors, 100 times or as often as its argument says, over one
# journal. After each kill the journal must have every call that was answered, at the place that its answer told; and beside them
# at most one call of each door, the next one of its stream, which was in hand and has no answer. The next `serve` must open that
# journal with all its entries. This is of the program alone: what the system had taken of a write outlives the program, so it
# shows nothing of a power cut. It stops after twenty minutes. Not part of the merge gate.
top=$(cd "$(dirname "$0")/../.." && pwd)
. "$top/tests/lib/program.sh"
books=${BOOKS:-$(built books)}
scratch=$(mktemp -d) || exit 1
trap 'rm -rf "$scratch"' EXIT
cp "$top/examples/rivertown/chart.toml" "$scratch/chart.toml"
cd "$scratch" && PYTHONPATH=$top/tests/lib timeout 1200 python3 - "$program" "$books" "${1:-100}" <<'PY'
import contextlib, itertools, json, random, subprocess, sys, threading, time

from doors import Serve, calls_of

PROGRAM, BOOKS, ROUNDS = sys.argv[1], sys.argv[2], int(sys.argv[3])
DOORS = 8
LONGEST = 0.4  # seconds from the first answer of a round to its kill
ACCOUNTS = [(1, 10, 510), (1, 10, 520), (1, 10, 710), (1, 20, 510), (2, 20, 510), (3, 20, 710), (2, 20, 520), (3, 20, 720)]

def adoptions():
    for fund, lines in ((1, (0, 1, 2, 3)), (2, (4,)), (3, (5,))):
        yield {"call": "adopt", "desk": 1, "key": f"b{fund}", "on": "2025-07-01", "fund": fund, "year": 2026,
               "lines": [{"line": line, "amount": 1000000000} for line in lines], "estimates": []}

def call(door, number):
    fund, dept, object_ = ACCOUNTS[door]
    return {"call": "voucher", "desk": 4, "key": f"v{door}-{number}", "on": "2025-07-05", "vendor": 77,
            "items": [{"fund": fund, "dept": dept, "object": object_, "amount": 1}]}

class Stream(threading.Thread):
    """The calls of a door from a number on, one after another until the link breaks; the places of those that were answered."""

    def __init__(self, serve, door, first):
        super().__init__()
        self.serve, self.door, self.first, self.places, self.wrong = serve, door, first, [], []

    def run(self):
        with contextlib.suppress(OSError), self.serve.link(self.door) as link:
            for number in itertools.count(self.first):
                code, reply = link.call(call(self.door, number))
                if code is None:
                    return
                if code != 200 or "ok" not in reply or "was" in reply:
                    self.wrong.append(f"call {number} of door {self.door}: {code} {reply}")
                    return
                self.places.append(reply["at"])

def round_of(nexts, length):
    """Serves until it is killed at a random moment. Gives the streams, and what was wrong."""
    serve = Serve(PROGRAM, DOORS, 1000000)
    try:
        with serve.link(0) as link:
            code, reply = link.call({"call": "line", "line": 0, "year": 2026, "after": length})
    except OSError as fault:
        sys.exit(f"kill-serve: serve doesn't open a journal of {length} entries: {fault}, {serve.end()}")
    wrong = [] if code == 200 and reply["at"] == length else [f"opened with {code} {reply}, not with {length} entries"]
    streams = [Stream(serve, door, nexts[door]) for door in range(DOORS)]
    for stream in streams:
        stream.start()
    time.sleep(random.uniform(0, LONGEST))
    serve.kill()
    for stream in streams:
        stream.join()
    return streams, wrong + [text for stream in streams for text in stream.wrong]

def check(streams, before):
    """What is wrong with the journal after a kill, its entries, and how many calls more than answered ones it has at each door."""
    entries, whole = calls_of(BOOKS)
    wrong = [] if whole else ["the journal is damaged"]
    if entries[:len(before)] != before:
        wrong.append("an entry of an earlier round isn't there")
    left = dict(enumerate(entries[len(before):], len(before) + 1))
    for stream in streams:
        for number, place in enumerate(stream.places, stream.first):
            if left.pop(place, None) != call(stream.door, number):
                wrong.append(f"call {number} of door {stream.door} isn't the entry at {place}")
    more = [stream.first + len(stream.places) for stream in streams]
    extra = [0] * DOORS
    for place, entry in left.items():
        door = next((door for door in range(DOORS) if entry == call(door, more[door])), None)
        if door is None or extra[door]:
            wrong.append(f"the entry at {place} was neither answered nor in hand: {entry}")
        else:
            extra[door] = 1
    return wrong, entries, extra

subprocess.run([PROGRAM, "found"], stdout=subprocess.DEVNULL, check=True)
adopted = "".join(json.dumps(call) + "\n" for call in adoptions()).encode()
subprocess.run([PROGRAM, "desk"], input=adopted, stdout=subprocess.DEVNULL, check=True)
entries, _ = calls_of(BOOKS)
nexts, failed, most, answered = [1] * DOORS, 0, 0, 0
for number in range(1, ROUNDS + 1):
    streams, wrong = round_of(nexts, len(entries))
    faults, entries, extra = check(streams, entries)
    if wrong + faults:
        failed += 1
        print(f"round {number}: " + "; ".join((wrong + faults)[:5]))
    most, answered = max(most, sum(extra)), answered + sum(len(stream.places) for stream in streams)
    nexts = [stream.first + len(stream.places) + more for stream, more in zip(streams, extra)]
# At the end the rules judge every entry again.
if subprocess.run([BOOKS, "check"], stdout=subprocess.DEVNULL).returncode != 0:
    failed += 1
    print("at the end: the journal is damaged")
print(f"kill-serve: {answered:,} calls answered, {len(entries):,} entries, at most {most} calls more after a kill")
print(f"kill-serve: {ROUNDS} rounds, {failed} failed")
sys.exit(failed != 0)
PY
