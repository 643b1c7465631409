#!/bin/sh
# Kills the desk at random moments (kill -9) under a stream of accepted calls, 100 times or as often as its argument
# says, over one journal. After each kill the next desk must have every call that was answered, each at the place that
# it was answered with, and at most one call more, the next one of the stream. This is of the program alone: what the
# system had taken of a write outlives the program, so it shows nothing of a power cut. Not part of the merge gate.
top=$(cd "$(dirname "$0")/../.." && pwd)
. "$top/tests/lib/program.sh"
scratch=$(mktemp -d) || exit 1
trap 'rm -rf "$scratch"' EXIT
cp "$top/examples/rivertown/chart.toml" "$scratch/chart.toml"
cd "$scratch" && python3 - "$program" "${1:-100}" <<'PY'
import itertools, json, random, subprocess, sys, threading

PROGRAM, ROUNDS = sys.argv[1], int(sys.argv[2])
LONGEST = 0.4  # seconds from the start of a desk to its kill

def call(number):
    if number == 1:
        return ('{"call":"adopt","desk":1,"key":"b","on":"2025-07-01","fund":1,"year":2026,'
                '"lines":[{"line":3,"amount":1000000000}],"estimates":[]}\n')
    return ('{"call":"voucher","desk":4,"key":"v%d","on":"2025-07-05","vendor":77,'
            '"items":[{"fund":1,"dept":20,"object":510,"amount":1}]}\n' % number)

class Desk:
    def __init__(self):
        self.process = subprocess.Popen([PROGRAM, "desk"], stdin=subprocess.PIPE, stdout=subprocess.PIPE)

    def ask(self, line):
        try:
            self.process.stdin.write(line.encode())
            self.process.stdin.flush()
        except OSError:
            return {}
        return json.loads(self.process.stdout.readline() or "{}")

    def close(self):
        try:
            self.process.stdin.close()
        except OSError:
            pass
        return self.process.wait()

def stream(desk, first):
    """Sends calls without end, kills the desk at a random moment, and gives the answers that were whole."""
    def send():
        try:
            for number in itertools.count(first):
                desk.process.stdin.write(call(number).encode())
        except OSError:
            pass
    sender = threading.Thread(target=send)
    timer = threading.Timer(random.uniform(0, LONGEST), desk.process.kill)
    timer.start()
    sender.start()
    said = desk.process.stdout.read()
    sender.join()
    timer.join()
    desk.process.wait()
    return [json.loads(line) for line in said.split(b"\n")[:-1]]

def check(last, first):
    """What is wrong with the journal after the calls up to the last were answered, and how many calls more it has. Those
    from the first to the last are sent again."""
    desk = Desk()
    length = desk.ask('{"call":"line","line":3,"year":2026,"after":%d}\n' % last).get("at", -1)
    wrong = [] if length in (last, last + 1) else [f"{length} calls after {last} were answered"]
    for number in range(first, last + 1):
        reply = desk.ask(call(number))
        if "ok" not in reply or reply.get("was") != number:
            wrong.append(f"call {number}: {reply}")
    if length == last + 1:
        reply = desk.ask(call(length))
        if "ok" not in reply or reply.get("was") != length:
            wrong.append(f"the call that wasn't answered: {reply}")
    if desk.close() != 0:
        wrong.append("the desk ended badly")
    return wrong, length - last

if subprocess.run([PROGRAM, "found"], stdout=subprocess.DEVNULL).returncode != 0:
    sys.exit("kill: not founded")
last = more = failed = 0
for number in range(1, ROUNDS + 1):
    answers = stream(Desk(), last + 1)
    wrong = [f"{answer}" for place, answer in enumerate(answers, last + 1)
             if "ok" not in answer or "was" in answer or answer.get("at") != place]
    last += len(answers)
    faults, extra = check(last, max(1, last - 9))
    if wrong + faults:
        failed += 1
        print(f"round {number}: " + "; ".join((wrong + faults)[:5]))
    # A call more is in the history from now on.
    more += extra == 1
    last += extra
# At the end each call is sent again.
faults, extra = check(last, 1)
if faults or extra:
    failed += 1
    print("at the end: " + "; ".join(faults[:5]))
print(f"kill: {last:,} calls, {more} rounds with the call that wasn't answered")
print(f"kill: {ROUNDS} rounds, {failed} failed")
sys.exit(failed != 0)
PY
