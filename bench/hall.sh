#!/bin/sh
# What a call costs in the office that threads share. The program of crates/cases_runs keeps the journal in its own memory
# (cf_disk's MemDisk, no file, link or pipe), opens the office, and times all calls together by its own clock: each is read from its line of
# JSON, answered, and its reply written as text. Finding the journal and opening it isn't counted.
#  - vouchers one after another through `post` by one thread, beside the same calls settled by the book of a desk over the same
#    office: at most 1.3 times as long, also where the time that reading the lines takes is taken off both
#  - the same of vouchers of 32 items over four lines
#  - the vouchers of one item by four threads, each on a line of its own: all together no slower than by one thread
#  - a voucher after 1,000 entries and after 100,000: at most 1.3 times as long
# What is compared is timed in turn, and the least time of each counts. Build the program first: rt run in crates/cases_runs. PROGRAM
# names another one, by its whole path.
top=$(cd "$(dirname "$0")/.." && pwd)
program=${PROGRAM:-$top/crates/cases_runs/out/cases_runs}
if [ ! -x "$program" ]; then
    echo "there is no program: rt run in crates/cases_runs builds it" >&2
    exit 1
fi
scratch=$(mktemp -d) || exit 1
trap 'rm -rf "$scratch"' EXIT
cp "$top/examples/rivertown/chart.toml" "$scratch/chart.toml"
cd "$scratch" && timeout 1200 python3 - "$program" <<'PY'
import json, re, subprocess, sys

TURNS, CALLS, FEW, ITEMS = 7, 40_000, 2_000, 32
ACCOUNTS = {0: (1, 10, 510), 1: (1, 10, 520), 3: (1, 20, 510), 4: (2, 20, 510)}  # line: fund, department, object
LINES = list(ACCOUNTS)
ROOM = 10 ** 12

def adoption(fund, lines):
    return json.dumps({"call": "adopt", "desk": 1, "key": f"b{fund}", "on": "2025-07-01", "fund": fund, "year": 2026,
                       "lines": [{"line": line, "amount": ROOM} for line in lines], "estimates": []})

def item(line):
    fund, dept, object_ = ACCOUNTS[line]
    return {"fund": fund, "dept": dept, "object": object_, "amount": 1}

def voucher(number, *lines):
    return json.dumps({"call": "voucher", "desk": 4, "key": f"v{number}", "on": "2025-07-05", "vendor": 77,
                       "items": [item(line) for line in lines]})

ADOPTIONS = [adoption(1, [0, 1, 3]), adoption(2, [4])]

def vouchers(first, count):
    """Vouchers on the four lines in turn."""
    return [voucher(number, LINES[number % 4]) for number in range(first, first + count)]

def nanoseconds(before, callers, word):
    """How long the callers' calls took, after the calls of a desk: nanoseconds a call."""
    script = ["halls", "chart chart.toml", *before]
    for calls in callers:
        script += ["caller", *calls]
    done = subprocess.run([sys.argv[1]], input="\n".join(script + [word, ""]), stdout=subprocess.PIPE, text=True)
    said = re.search(r"^= (\d+) (entries|calls), (\d+) ns$", done.stdout, re.MULTILINE)
    calls = sum(map(len, callers))
    if not said or int(said[1]) != (calls if said[2] == "calls" else calls + len(before)):
        sys.exit(f"not accepted: {done.stdout[-300:]}")
    return int(said[3]) / calls

def least(*runs):
    """The least time of each of these runs, which are made in turn."""
    times = [[nanoseconds(*run) for run in runs] for _ in range(TURNS)]
    return [min(column) for column in zip(*times)]

def say(what, one, other, most):
    ratio = other / one
    print(f"{what}: {ratio:.2f} times ({'at most' if ratio <= most else 'MORE THAN'} {most})")
    return ratio <= most

calls = vouchers(0, CALLS)
apart = [calls[place::4] for place in range(4)]
long = [voucher(number, *(LINES * (ITEMS // 4))) for number in range(CALLS // ITEMS)]
read, desk, post, four = least((ADOPTIONS, [calls], "time read"), (ADOPTIONS, [calls], "time desk"), (ADOPTIONS, [calls], "time"),
                               (ADOPTIONS, apart, "time"))
print(f"a voucher: {desk / 1000:.2f} us by a desk's book, {post / 1000:.2f} us by one thread through post, {four / 1000:.2f} us by "
      f"four threads on four lines together; reading its line {read / 1000:.2f} us of each")
long_read, long_desk, long_post = least(*((ADOPTIONS, [long], word) for word in ("time read", "time desk", "time")))
print(f"a voucher of {ITEMS} items: {long_desk / 1000:.2f} us by a desk's book, {long_post / 1000:.2f} us by one thread through post; "
      f"reading its line {long_read / 1000:.2f} us of each")
few, many = least(*((ADOPTIONS + vouchers(0, entries - 2), [vouchers(entries, FEW)], "time") for entries in (1_000, 100_000)))
print(f"a voucher through post after 1,000 entries: {few / 1000:.2f} us; after 100,000: {many / 1000:.2f} us")
held = [say("post by one thread, beside a desk's book", desk, post, 1.3),
        say("the same without the reading", desk - read, post - read, 1.3),
        say(f"{ITEMS} items, post beside a desk's book", long_desk, long_post, 1.3),
        say("the same without the reading", long_desk - long_read, long_post - long_read, 1.3),
        say("four threads on four lines, beside one", post, four, 1.0),
        say("after 100,000 entries, beside 1,000", few, many, 1.3)]
sys.exit(0 if all(held) else 1)
PY
