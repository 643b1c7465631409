"""Who entered what (docs/OPERATE.md), without a proxy: trail.py over files that a proxy might have
written, and `trail` over logs that were changed or cut, are of another journal, or of a clock that goes
back:

    trails.py PROGRAM BOOKS    run by tests/long/trails.sh in a folder of its own
"""
import json
import os
import pathlib
import random
import resource
import shutil
import signal
import subprocess
import sys
import time

import doors

TOP = pathlib.Path(__file__).resolve().parents[2]
sys.dont_write_bytecode = True
sys.path.insert(0, str(TOP / "examples" / "operate"))
import trail as keeping  # noqa: E402

PROGRAM, BOOKS = sys.argv[1:]
TRAIL, KEEPER = TOP / "examples/operate/trail", TOP / "examples/operate/trail.py"
USERS = {1: "council", 4: "payables", 5: "treasury", 6: "=revenue"}
verdicts = doors.Verdicts("trails")
expect, same = verdicts.verdict, verdicts.same

# `trail` finds `books` in the folder of the programs.
os.makedirs("city")
with open("city/books", "w", encoding="utf-8") as launcher:
    launcher.write(f'#!/bin/sh\nexec "{BOOKS}" "$@"\n')
os.chmod("city/books", 0o755)


# ---- journals, the proxy's lines, and logs of them

def journal(name, talk, lines=None):
    """A journal in a folder of its own, of the first calls of a talk of examples/ under Rivertown's
    chart, or of these.
    """
    folder = pathlib.Path(name)
    folder.mkdir()
    shutil.copy(TOP / "examples/rivertown/chart.toml", folder)
    given = lines if lines is not None else (TOP / "examples" / talk).read_bytes()
    subprocess.run([PROGRAM, "found"], cwd=folder, check=True, stdout=subprocess.DEVNULL)
    subprocess.run([PROGRAM, "desk"], cwd=folder, check=True, input=given, stdout=subprocess.DEVNULL)
    return folder / "fund.journal"


def calls_of(path):
    return [json.loads(line) for line in subprocess.run([BOOKS, "calls", path], check=True, stdout=subprocess.PIPE).stdout.splitlines()]


def line_of(place, call, minute, **more):
    """What the proxy writes of an accepted call."""
    plain = json.dumps(call, sort_keys=True, separators=(",", ":")).encode()
    fields = {
        "time": f"2026-03-02T{9 + minute // 60:02}:{minute % 60:02}:00+00:00", "user": USERS[call["desk"]], "address": "192.0.2.7",
        "desk": call["desk"], "key": call["key"], "place": place, "body": keeping.digest(json.dumps(call).encode()), **more,
    }
    if place:
        fields["call"] = keeping.digest(plain)
    return json.dumps(fields, separators=(",", ":")).encode() + b"\n"


def kept(name, entered):
    """The log that trail.py makes of these bytes."""
    pathlib.Path(name + ".entered").write_bytes(entered)
    ran = keeper(name + ".entered", name)
    expect(f"the log {name}", ran.returncode == 0 and not ran.stderr, ran.stderr)
    return pathlib.Path(name).read_bytes().splitlines(keepends=True)


def keeper(entered, log, **more):
    return subprocess.run([KEEPER, entered, log, "--once"], capture_output=True, text=True, **more)


def trail(*words):
    return subprocess.run([TRAIL, *words], capture_output=True, text=True, env={**os.environ, "CITYFUND": "city"})


def asked(name, status, text, *words):
    """`trail` with these words ends so, and says a line on standard error that begins so; no text,
    no finding.
    """
    ran = trail(*words)
    found = [line for line in ran.stderr.splitlines() if line.startswith("trail: line ") or text and line.startswith(text)]
    expect(name, ran.returncode == status and (any(line.startswith(text) for line in found) if text else not found), f"{ran.returncode} {ran.stderr}")
    return ran


def written(name, lines):
    pathlib.Path(name).write_bytes(b"".join(lines))
    return name


# ---- the rows: entered, again, without an answer, at the machine itself

first = journal("first", "first-day.jsonl")
calls = calls_of(first)
same("the entries of the first day", [call["key"] for call in calls], ["b1", "v1", "v2", "r1", "p1", "l1"])
entered = [
    line_of(1, calls[0], 0),
    line_of(2, calls[1], 1),
    line_of(2, calls[1], 2, repeat=True, user="deputy", address="192.0.2.8"),
    line_of(0, calls[2], 3),
    line_of(3, calls[2], 4, repeat=True),
    line_of(0, {"desk": 4, "key": "never"}, 5),
    line_of(6, calls[5], 6),
    line_of(4, calls[3], 7),
]
log = kept("log", b"".join(entered))
ran = asked("the first day", 0, "", first, "log")
rows = [line.split("\t") for line in ran.stdout.splitlines()]
same("its rows", [[row[0], row[3], row[5], *row[6:]] for row in rows], [
    ["1", "b1", "1000.00", "2026-03-02T09:00:00+00:00", "council", "192.0.2.7", "entered"],
    ["2", "v1", "600.00", "2026-03-02T09:01:00+00:00", "payables", "192.0.2.7", "entered"],
    ["2", "v1", "600.00", "2026-03-02T09:02:00+00:00", "deputy", "192.0.2.8", "repeat"],
    ["3", "v2", "400.00", "2026-03-02T09:03:00+00:00", "payables", "192.0.2.7", "unanswered"],
    ["3", "v2", "400.00", "2026-03-02T09:04:00+00:00", "payables", "192.0.2.7", "repeat"],
    ["4", "r1", "1000.00", "2026-03-02T09:07:00+00:00", "treasury", "192.0.2.7", "entered"],
    ["5", "p1", "600.00", "", "", "", "no line"],
    ["6", "l1", "900.00", "2026-03-02T09:06:00+00:00", "=revenue", "192.0.2.7", "entered"],
])
same("its sums", ran.stderr.splitlines()[:2], [
    "trail: 6 entries, 1 of them without a line", "trail: 8 lines, 2 of repeats, 2 without an answer, 0 without their entry",
])
digest = keeping.digest(log[-1][:-1])
same("its digest", ran.stderr.splitlines()[2], f"trail: the digest of line 8: {digest}")
ran = asked("the first day as records", 0, "", "--csv", first, "log")
same("their names", ran.stdout.splitlines()[0], "place,day,desk,key,call,amount,time,user,address,how")
expect("a user that a spreadsheet would take for a formula", ",'=revenue," in ran.stdout, ran.stdout)
ran = asked("the log alone", 0, "", "--check", "log")
same("what it has", ran.stdout, f"lines: 8\nlast: 2026-03-02T09:07:00+00:00\ndigest: {digest}\n")
expect("the first line is behind none", json.loads(log[0])["before"] == "0" * 64)
same("a line says the digest of the one before", json.loads(log[4])["before"], keeping.digest(log[3][:-1]))
asked("a log of nothing", 0, "", first, written("nothing", []))

# ---- a log that was changed, cut or put together

BROKEN = "the chain is broken: "
changed = log[:]
changed[2] = changed[2].replace(b"deputy", b"nobody")
asked("a changed line", 3, f"trail: line 4: {BROKEN}it has another digest of the line before it", "--check", written("bad", changed))
asked("a changed line beside the journal", 3, f"trail: line 4: {BROKEN}", first, "bad")
asked("a line taken out", 3, f"trail: line 4: {BROKEN}it is numbered 5 behind 3", "--check", written("bad", log[:3] + log[4:]))
asked("the first line taken out", 3, f"trail: line 1: {BROKEN}it is numbered 2 behind 0", "--check", written("bad", log[1:]))
put = keeping.front(4, keeping.digest(log[2][:-1]), 1000) + entered[7][1:]
asked("a line put in", 3, f"trail: line 5: {BROKEN}it is numbered 4 behind 4", "--check", written("bad", log[:3] + [put] + log[3:]))
asked("a line in the place of another", 3, f"trail: line 5: {BROKEN}it has another digest of the line before it", "--check", written("bad", log[:3] + [put] + log[4:]))
asked("two lines in each other's place", 3, f"trail: line 3: {BROKEN}it is numbered 4 behind 2", "--check", written("bad", log[:2] + [log[3], log[2]] + log[4:]))
asked("a line that is none", 3, f"trail: line 6: {BROKEN}it isn't a line of such a log", "--check", written("bad", log[:5] + [b"{}\n"] + log[5:]))
asked("a cut line", 3, f"trail: line 8: {BROKEN}the log is cut within it", "--check", written("bad", log[:7] + [log[7][:-9]]))
asked("a cut line without its end alone", 3, f"trail: line 8: {BROKEN}the log is cut within it", first, written("bad", log[:7] + [log[7][:-1]]))
asked("no log", 3, f"trail: line 1: {BROKEN}it isn't a line of such a log", first, first)
# The first break is told, and the others are counted.
changed = [line.replace(b"192.0.2.7", b"192.0.2.9") for line in log]
ran = asked("each line changed", 3, f"trail: line 2: {BROKEN}", "--check", written("bad", changed))
same("and told once", [line for line in ran.stderr.splitlines() if "line 3" in line or "more lines" in line], ["trail: 5 more lines don't follow the one before them"])
# The chain can't show what has no line behind it: that a digest which was written down shows.
cut = written("cut", log[:6])
asked("the last lines taken out", 0, "", "--check", cut)
asked("the last lines taken out, by the digest", 3, f"trail: no line has the digest {digest}", "--check", cut, digest)
asked("the digest of the last line", 0, "", "--check", "log", digest)
asked("the digest of an earlier line", 0, "", "--check", "log", keeping.digest(log[3][:-1]))
changed = log[:7] + [log[7].replace(b"treasury", b"deputy")]
asked("the last line changed", 0, "", "--check", written("bad", changed))
asked("the last line changed, by the digest", 3, f"trail: no line has the digest {digest}", "--check", "bad", digest)
remade = kept("remade", b"".join(entered[:2] + entered[3:]))
asked("a chain that was made anew, by the digest", 3, f"trail: no line has the digest {digest}", "--check", "remade", digest)

# ---- the log of another journal, and answers that were lost

other = journal("other", "reopened-order.jsonl")
ran = asked("another journal", 4, "trail: line 1: b1 of desk 1, entry 1 to council at 2026-03-02T09:00:00+00:00: the journal has fy26-streets of desk 1 there: ", other, "log")
told = [line.split(":")[1] for line in ran.stderr.splitlines() if "the log of another journal" in line]
same("each of its lines", told, [" line 1", " line 2", " line 3", " line 5", " line 7", " line 8"])
expect("and that none is of this one", "trail: no line of the log is of this journal\n" in ran.stderr, ran.stderr)
front = journal("front", None, b"".join(json.dumps(call).encode() + b"\n" for call in calls[:3]))
ran = asked("a journal that was restored from an older copy", 4, "trail: line 7: l1 of desk 6, entry 6 to =revenue at 2026-03-02T09:06:00+00:00: "
            "the journal has 3 entries, and not this one: an answer that was lost", front, "log")
expect("and the next one", "trail: line 8: r1 of desk 5, entry 4 " in ran.stderr and "trail: line 5:" not in ran.stderr, ran.stderr)
again = journal("again", None, b"".join(json.dumps(call).encode() + b"\n" for call in [*calls[:3], calls[5], calls[3]]))
ran = asked("and sent again", 4, "trail: line 8: r1 of desk 5, entry 4 to treasury at 2026-03-02T09:07:00+00:00: the journal has it as entry 5", again, "log")
kept("twice", b"".join(entered[:3]) + line_of(2, calls[1], 8))
asked("and sent again to the same place", 4, "trail: line 4: v1 of desk 4, entry 2 to payables at 2026-03-02T09:08:00+00:00: "
      "it was entered before, so the journal went back between them", first, "twice")
altered = [dict(call, vendor=78) if call["key"] == "v2" else call for call in calls]
forged = journal("forged", None, b"".join(json.dumps(call).encode() + b"\n" for call in altered))
asked("an entry that isn't what was sent", 4, "trail: line 5: v2 of desk 4, entry 3 to payables at 2026-03-02T09:04:00+00:00: the entry isn't the call that was sent", forged, "log")

# ---- a clock that goes back

back = kept("back", entered[0] + entered[7] + entered[1] + entered[2])
asked("a clock that goes back", 5, "trail: line 3: the clock goes back, from 2026-03-02T09:07:00+00:00 to 2026-03-02T09:01:00+00:00", first, "back")
asked("a clock that goes back, without a journal", 5, "trail: line 3: the clock goes back", "--check", "back")
seconds = [line_of(1, calls[0], 0, time="2026-03-02T10:00:08+01:00"), line_of(2, calls[1], 0, time="2026-03-02T09:00:03+00:00")]
kept("seconds", b"".join(seconds))
asked("the clocks of two processes, and another zone", 0, "", first, "seconds")

# ---- what the proxy wrote and can't be read

kept("odd", entered[0] + b"\xff\x00nonsense\n" + b"\n" + b'{"line":1,"before":"","end":2}\n' + entered[1])
ran = asked("lines that can't be read", 5, "trail: line 2: what the proxy wrote can't be read: ", first, "odd")
same("each of them", [line.split(":")[1] for line in ran.stderr.splitlines() if "can't be read" in line], [" line 2", " line 3", " line 4"])
same("and the others are joined", [line.split("\t")[9] for line in ran.stdout.splitlines()][:2], ["entered", "entered"])
for name, fields in (("time", {"time": "today"}), ("zone", {"time": "2026-03-02T09:00:00"}), ("desk", {"desk": "1"}), ("user", {"user": None})):
    kept("odd-" + name, line_of(1, calls[0], 0, **fields))
    asked(f"a line without its {name}", 5, "trail: line 1: what the proxy wrote can't be read: ", first, "odd-" + name)

# ---- journals that can't be read, and words

damaged, data, at = pathlib.Path("damaged.journal"), bytearray(first.read_bytes()), 0
at = 6 + int.from_bytes(data[2:6], "big")
for _ in range(5):
    at += 5 + int.from_bytes(data[at + 1:at + 5], "big")
data[at + 5] = 99  # the last entry's kind
damaged.write_bytes(data)
ran = asked("a damaged journal", 4, "trail: line 7: ", damaged, "log")
expect("and that it is damaged", f"trail: the journal isn't whole: books: damaged at {at}: what stands before is given" in ran.stderr, ran.stderr)
same("and what stands before is joined", [line.split("\t")[0] for line in ran.stdout.splitlines()], ["1", "2", "2", "3", "3", "4", "5"])
asked("a damaged journal without the lines of what was lost", 1, "trail: the journal isn't whole: books: damaged", damaged, cut)
ran = trail("nothing", "log")
same("no journal", (ran.returncode, ran.stdout, "not founded" in ran.stderr), (1, "", True))
ran = trail(first, "nowhere")
same("a log that isn't there", (ran.returncode, ran.stdout, ran.stderr), (1, "", "trail: nowhere: No such file or directory\n"))
ran = subprocess.run([TRAIL, first, "log"], capture_output=True, text=True, env={**os.environ, "CITYFUND": "nowhere"})
same("no program", (ran.returncode, ran.stderr), (1, "trail: nowhere/books: No such file or directory\n"))
for words in ([], ["log"], [first, "log", "--cvs"], ["--check"], ["--check", "log", digest, "more"], ["--csv", first, "log", "--csv"]):
    ran = trail(*words)
    expect(f"the words {words}", ran.returncode == 2 and ran.stdout == "" and "trail --check LOG [DIGEST]" in ran.stderr, ran.stderr)

# ---- trail.py: it begins where it ended, whenever that was

whole = pathlib.Path("log").read_bytes()
for stop in range(len(entered) + 1):
    pathlib.Path("in").write_bytes(b"".join(entered[:stop]))
    pathlib.Path("out").unlink(missing_ok=True)
    keeper("in", "out")
    with open("in", "ab") as more:
        more.write(b"".join(entered[stop:]))
    ran = keeper("in", "out")
    expect(f"stopped behind line {stop}", pathlib.Path("out").read_bytes() == whole and not ran.stderr, ran.stderr)
random.seed(61)
for _ in range(20):
    size = random.randrange(len(whole))
    pathlib.Path("out").write_bytes(whole[:size])
    ran = keeper("in", "out")
    ends = whole[:size].endswith(b"\n") or size == 0
    expect(f"stopped within a line, at byte {size}", pathlib.Path("out").read_bytes() == whole and (ends or "without an end is taken back" in ran.stderr), ran.stderr)
pathlib.Path("in").write_bytes(b"".join(entered)[:-5])
pathlib.Path("out").unlink()
keeper("in", "out")
same("a line that the proxy is writing", pathlib.Path("out").read_bytes(), b"".join(log[:7]))

# Killed while it is at work, ten times.
many = b"".join(line_of(place, calls[0], 0, key=f"k{place}") for place in range(1, 20001))
pathlib.Path("in").write_bytes(many)
pathlib.Path("out").unlink()
for _ in range(10):
    working = subprocess.Popen([KEEPER, "in", "out"], stderr=subprocess.DEVNULL)
    time.sleep(random.uniform(0.05, 0.3))
    working.kill()
    working.wait()
keeper("in", "out")
asked("a log of a keeper that was killed", 0, "", "--check", "out")
same("and all its lines", b"".join(b'{"time' + line.split(b',"time', 1)[1] for line in pathlib.Path("out").read_bytes().splitlines(keepends=True)), many)

# It follows while the proxy writes, ends by a signal, and one is at work at a time.
pathlib.Path("in").unlink()
pathlib.Path("out").unlink()
working = subprocess.Popen([KEEPER, "in", "out"], stderr=subprocess.PIPE, text=True)
for line in entered:
    with open("in", "ab") as more:
        more.write(line[:50])
        more.flush()
        time.sleep(0.05)
        more.write(line[50:])
for _ in range(100):
    if pathlib.Path("out").exists() and pathlib.Path("out").read_bytes() == whole:
        break
    time.sleep(0.1)
same("what was written while it followed", pathlib.Path("out").read_bytes(), whole)
ran = keeper("in", "out")
same("two at work", (ran.returncode, ran.stderr), (1, "trail.py: out: another one is at work\n"))

# ---- a file of the proxy that isn't the one that was followed

def marks(name, text, count):
    """The log has all these lines, and a mark that says this."""
    for _ in range(100):
        found = pathlib.Path("out").read_bytes().splitlines()
        if len(found) == count:
            break
        time.sleep(0.1)
    told = [json.loads(line)["mark"] for line in found if b'"mark"' in line]
    expect(name, len(found) == count and told and told[-1] == text, found)
    asked(name + ", told", 5, f"trail: line {[b'mark' in line for line in found].index(True) + 1}: 2", first, "out")


os.rename("in", "in.1")
pathlib.Path("in").write_bytes(entered[0])
marks("the proxy's file was moved away", "in is another file now: it is read from its beginning", 10)
os.truncate("in", 0)
with open("in", "ab") as more:
    more.write(entered[1])
marks("it was cut", "in isn't the file that was followed, or was changed: it is read from its beginning", 12)
working.send_signal(signal.SIGTERM)
working.wait()
pathlib.Path("in").write_bytes(entered[2] * 3)
keeper("in", "out")
marks("it was another one while nobody followed", "in isn't the file that was followed, or was changed: it is read from its beginning", 16)
shutil.copy("out", "before")
pathlib.Path("in").unlink()
ran = keeper("in", "out")
same("it isn't there", (ran.returncode, ran.stderr, pathlib.Path("out").read_bytes()), (0, "", pathlib.Path("before").read_bytes()))

# ---- a log that can't be written, and one that isn't a log

def bounded():
    signal.signal(signal.SIGXFSZ, signal.SIG_IGN)
    resource.setrlimit(resource.RLIMIT_FSIZE, (2500, 2500))


pathlib.Path("in").write_bytes(b"".join(entered[:4]))
pathlib.Path("out").unlink()
keeper("in", "out")
had = pathlib.Path("out").read_bytes()
pathlib.Path("in").write_bytes(b"".join(entered))
ran = keeper("in", "out", preexec_fn=bounded)
same("no room", (ran.returncode, ran.stderr, pathlib.Path("out").read_bytes()), (1, "trail.py: out can't be written: File too large\n", had))
keeper("in", "out")
same("room again", pathlib.Path("out").read_bytes(), whole)
for text in (b"hello\n", b"{}\n", b'{"line":"1","before":"","end":1}\n', log[0] + b"\n"):
    pathlib.Path("out").write_bytes(text)
    ran = keeper("in", "out")
    same(f"a log that ends with {text[-20:]}", (ran.returncode, pathlib.Path("out").read_bytes()), (3, text))
ran = subprocess.run([KEEPER, "in"], capture_output=True, text=True)
expect("the words of trail.py", ran.returncode == 2 and "trail.py ENTERED LOG" in ran.stderr, ran.stderr)

# ---- how long it takes

pathlib.Path("in").write_bytes(b"".join(line_of(place, calls[0], 0, key=f"k{place}") for place in range(1, 20001)))
pathlib.Path("out").unlink()
began = time.time()
keeper("in", "out")
kept_in = time.time() - began
began = time.time()
ran = trail("--check", "out")
print(f"trails: 20,000 lines kept in {kept_in:.1f} s and checked in {time.time() - began:.1f} s, {os.stat('out').st_size // 20000} bytes each")
expect("a long log", ran.returncode == 0 and ran.stdout.startswith("lines: 20000\n"), ran.stderr)

sys.exit(verdicts.status())
