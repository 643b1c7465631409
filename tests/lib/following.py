"""Run by follow.sh, in a folder of its own: following.py PROGRAM BOOKS SHIP-SCRIPT ROUNDS [LIBRARY]."""
import os
import pathlib
import random
import shutil
import struct
import subprocess
import sys
import time

import journals

PROGRAM, BOOKS, SCRIPT, ROUNDS, LIBRARY = sys.argv[1], sys.argv[2], sys.argv[3], int(sys.argv[4]), (sys.argv[5:] + [""])[0]
LONGEST = 0.25  # seconds from the start of a run to its kill
CHART = pathlib.Path("chart.toml").read_bytes()

ADOPT = ('{"call":"adopt","desk":1,"key":"b1","on":"2025-07-01","fund":1,"year":2026,'
         '"lines":[{"line":3,"amount":100000}],"estimates":[]}\n')
VOUCHER = ('{"call":"voucher","desk":4,"key":"v%d","on":"2025-07-05","vendor":77,'
           '"items":[{"fund":1,"dept":20,"object":510,"amount":%d}]}\n')
CALLS = [ADOPT, VOUCHER % (1, 60000), VOUCHER % (2, 40000)]
LOOK = '{"call":"line","line":3,"year":2026}\n'

passed = failed = 0


def verdict(name, holds, said=""):
    global passed, failed
    if holds:
        passed += 1
    else:
        failed += 1
        print(f"failed: {name}: {said}")


class Folder:
    """A folder with a journal of its own."""

    def __init__(self, name, calls=(), chart=CHART):
        self.path = pathlib.Path(name)
        shutil.rmtree(self.path, ignore_errors=True)
        self.path.mkdir()
        (self.path / "chart.toml").write_bytes(chart)
        self.run("found")
        if calls:
            self.run("desk", "".join(calls).encode())

    @property
    def journal(self):
        return self.path / "fund.journal"

    def run(self, *words, **more):
        """Runs the program: bytes behind the words are its input."""
        given = [word for word in words if isinstance(word, bytes)]
        return subprocess.run([PROGRAM, *[word for word in words if isinstance(word, str)]], cwd=self.path,
                              input=b"".join(given), stdout=subprocess.PIPE, stderr=subprocess.PIPE, **more)

    def ship(self, first):
        ran = self.run("ship", str(first))
        verdict(f"ship {first}", ran.returncode == 0, ran.stderr)
        return ran.stdout

    def entries(self):
        """How many entries the journal has, judged again by all rules; -1 where it is damaged."""
        ran = subprocess.run([BOOKS, "check", str(self.journal)], stdout=subprocess.PIPE, stderr=subprocess.PIPE)
        if ran.returncode != 0:
            return -1
        return int(next(line for line in ran.stdout.decode().splitlines() if line.startswith("entries: "))[9:])

    def calls(self):
        return subprocess.run([BOOKS, "calls", str(self.journal)], stdout=subprocess.PIPE).stdout

    def expect(self, name, stream, status, said, entries):
        """Follows a stream: the status, what is printed on both, and how many entries there are then."""
        ran = self.run("follow", stream)
        verdict(name, (ran.returncode, (ran.stdout + ran.stderr).decode(), self.entries()) == (status, said, entries),
                f"{ran.returncode} {ran.stdout} {ran.stderr} {self.entries()}")


def records(stream):
    """Where each record of a stream begins, and where the closing byte stands."""
    at = 12 + struct.unpack(">I", stream[8:12])[0]
    while stream[at] == 1:
        yield at
        at += 5 + struct.unpack(">I", stream[at + 1:at + 5])[0]
    yield at


def with_room(journal):
    """A journal's bytes with room up to a multiple of 64 KiB, as the program leaves it behind an entry that it wrote."""
    return journal + bytes(-len(journal) % 65536)


def front(copy, whole):
    """Whether a folder's history is a front of another's."""
    return whole.calls().startswith(copy.calls()) and copy.entries() >= 0


# ---- what is shipped, and how following ends

first = Folder("first", CALLS)
stream = first.ship(0)
places = list(records(stream))
verdict("three records", len(places) == 4 and places[-1] == len(stream) - 1, places)

copy = Folder("copy")
copy.expect("followed", stream, 0, "followed 3\n", 3)
verdict("the same bytes", copy.journal.read_bytes() == first.journal.read_bytes())
before = (copy.journal.stat().st_mtime_ns, copy.journal.read_bytes())
time.sleep(0.02)
copy.expect("followed again", stream, 0, "followed 3\n", 3)
verdict("and nothing written", before == (copy.journal.stat().st_mtime_ns, copy.journal.read_bytes()))
copy.expect("with more behind it", stream + b"more", 0, "followed 3\n", 3)

cut = places[2] + 5 + 7
copy = Folder("cut")
copy.expect("cut inside the third payload", stream[:cut], 16, "cityfund: stream fault\n", 2)
said = copy.run("desk", LOOK.encode()).stdout.decode()
verdict("and the line is spent by two", '"at":2,' in said and '"expended":"60000"' in said, said)
copy.expect("and then whole", stream, 0, "followed 3\n", 3)
copy = Folder("open")
copy.expect("cut in front of the closing byte", stream[:-1], 16, "cityfund: stream fault\n", 3)
copy = Folder("empty")
for size in [0, 7, 11, 12, 40]:
    copy.expect(f"{size} bytes", stream[:size], 16, "cityfund: stream fault\n", 0)
copy.expect("a record's byte", stream[:places[0]] + b"\x02" + stream[places[0] + 1:], 16, "cityfund: stream fault\n", 0)
copy.expect("without its first record", stream[:places[0]] + stream[places[1]:], 18, "cityfund: entry refused\n", 0)
copy.expect("behind two entries", first.ship(2), 15, "cityfund: gap\n", 0)
copy.expect("another chart", stream[:12] + bytes([stream[12] ^ 1]) + stream[13:], 14, "cityfund: other chart\n", 0)
copy = Folder("forked", [ADOPT, VOUCHER % (1, 50000)])
copy.expect("another voucher at 2", stream, 17, "cityfund: forked\n", 2)
copy = Folder("later", CALLS[:2])
copy.expect("from 2", first.ship(2), 0, "followed 3\n", 3)
copy.expect("from 3", first.ship(3), 0, "followed 3\n", 3)
copy.expect("from 9", first.ship(9), 15, "cityfund: gap\n", 3)
for words in [["ship"], ["ship", "-1"], ["ship", "1500001"], ["ship", "01"], ["follow", "0"]]:
    ran = copy.run(*words)
    verdict(" ".join(words), ran.returncode == 2 and ran.stdout == b"", ran)
copy = pathlib.Path("none")
copy.mkdir()
ran = subprocess.run([PROGRAM, "follow"], cwd=copy, input=stream, stdout=subprocess.PIPE)
verdict("no journal", ran.returncode == 7 and ran.stdout == b"", ran)

# ---- the script of the first machine

city = pathlib.Path("city")
city.mkdir()
for name, program in [("cityfund", PROGRAM), ("books", BOOKS)]:
    (city / name).symlink_to(program)
environment = {**os.environ, "CITYFUND": str(city.resolve())}


def shipped(name, folder, status, said):
    ran = subprocess.run([SCRIPT, folder.path.resolve(), "work", "sh", "-c", f"cd {copy.path.resolve()} && {PROGRAM} follow"],
                         env=environment, stdout=subprocess.PIPE, stderr=subprocess.PIPE)
    verdict(f"ship.sh: {name}", (ran.returncode, ran.stdout.decode()) == (status, said), ran)


first, copy = Folder("first", CALLS[:2]), Folder("copy")
shipped("all", first, 0, "followed 2\n")
shipped("nothing new", first, 0, "followed 2\n")
first.run("desk", CALLS[2].encode())
shipped("one more", first, 0, "followed 3\n")
verdict("ship.sh: the same bytes", copy.journal.read_bytes() == first.journal.read_bytes())
shipped("a shorter journal", Folder("shorter", CALLS[:2]), 17, "")
shipped("another last entry", Folder("other", CALLS[:2] + [VOUCHER % (9, 1)]), 17, "")
shipped("all compared", first, 0, "followed 3\n")
shutil.rmtree("work")

# ---- a stop at each disk call

if LIBRARY:
    number, ended = 0, 99
    while ended == 99 and number < 100:
        number += 1
        copy = Folder("stopped")
        ended = copy.run("follow", stream, env={**os.environ, "LD_PRELOAD": LIBRARY, "STOP_AT": str(number)}).returncode
        verdict(f"stop {number}: status", ended in (99, 0), ended)
        verdict(f"stop {number}: a front", front(copy, first))
        copy.expect(f"stop {number}: followed again", stream, 0, "followed 3\n", 3)
    print(f"following: {number - 1} stops at disk calls")

# ---- kills

ENTRIES = 400
os.chdir(first.path)
journals.write(ENTRIES - 1)
os.chdir("..")
whole = first.ship(0)


def until_whole(copy, kill, rounds):
    """Follows until the whole stream is there; the process `kill` picks is killed at random moments. Says how often one was."""
    killed = 0
    for _ in range(rounds):
        with open("stream", "wb") as file:
            file.write(whole)
        shipping = subprocess.Popen([PROGRAM, "ship", "0"], cwd=first.path, stdout=subprocess.PIPE)
        following = subprocess.Popen([PROGRAM, "follow"], cwd=copy.path, stdin=shipping.stdout, stdout=subprocess.PIPE,
                                     stderr=subprocess.PIPE)
        shipping.stdout.close()
        time.sleep(random.uniform(0, LONGEST))
        picked = shipping if kill == "ship" else following
        running = picked.poll() is None
        if running:
            picked.kill()
        said, error = following.communicate()
        shipping.wait()
        if running and picked.returncode == -9:
            killed += 1
        if kill == "ship":
            ok = following.returncode in (0, 16)
        else:
            ok = following.returncode in (0, -9)
        verdict(f"{kill} killed: how following ended", ok, (following.returncode, error))
        verdict(f"{kill} killed: a front", front(copy, first))
        if following.returncode == 0:
            copy = Folder(copy.path.name)
    copy.expect(f"{kill} killed: followed again", whole, 0, f"followed {ENTRIES}\n", ENTRIES)
    verdict(f"{kill} killed: the same bytes", copy.journal.read_bytes() == with_room(first.journal.read_bytes()))
    return killed


for kill in ["follow", "ship"]:
    print(f"following: {kill} was killed {until_whole(Folder('killed'), kill, ROUNDS)} times in {ROUNDS} rounds")

# ---- a journal of version 1

chart = subprocess.run([BOOKS, "chart", "older.journal"], stdout=subprocess.PIPE).stdout
older = Folder("older", chart=chart)
shutil.copy("older.journal", older.journal)
count = older.entries()
copy = Folder("older-copy", chart=chart)
bytes_ = bytearray(copy.journal.read_bytes())
bytes_[1] = 1
copy.journal.write_bytes(bytes_)
copy.expect("version 1", older.ship(0), 0, f"followed {count}\n", count)
verdict("version 1 stays", copy.journal.read_bytes() == with_room(older.journal.read_bytes()))

print(f"following: {passed} passed, {failed} failed")
sys.exit(failed != 0)
