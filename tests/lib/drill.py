"""The drill of tests/long/drill.sh, in a folder of its own: drill.py PROGRAM BOOKS ROUNDS."""
import itertools
import json
import os
import pathlib
import random
import shutil
import signal
import subprocess
import sys
import threading
import time

import doors

TOP = pathlib.Path(__file__).resolve().parents[2]
OPERATE = TOP / "examples" / "operate"
PROGRAM, BOOKS, ROUNDS = sys.argv[1], sys.argv[2], int(sys.argv[3])
verdicts = doors.Verdicts("drill")
expect, same = verdicts.verdict, verdicts.same

# The programs' folder, as at a city without the sources.
os.makedirs("city/examples/operate")
for name, program in (("cityfund", PROGRAM), ("books", BOOKS)):
    pathlib.Path("city", name).write_text(f'#!/bin/sh\nexec "{program}" "$@"\n', encoding="utf-8")
    os.chmod(f"city/{name}", 0o755)
for name in ("trail", "trail.py"):
    shutil.copy(OPERATE / name, "city/examples/operate")
CITY = {**os.environ, "CITYFUND": os.path.abspath("city")}
sys.path.insert(0, str(OPERATE))
import trail as keeping  # noqa: E402

ADOPTIONS = [
    {"call": "adopt", "desk": 1, "key": f"b{fund}", "on": "2025-07-01", "fund": fund, "year": 2026,
     "lines": [{"line": line, "amount": 1000000000} for line in lines], "estimates": []} for fund, lines in ((1, (0, 1, 2, 3)), (2, (4,)))
]
ITEM = {"fund": 1, "dept": 10, "object": 510, "amount": 1}


def voucher(number):
    return {"call": "voucher", "desk": 4, "key": f"inv-{number}", "on": "2025-07-05", "vendor": 77, "items": [ITEM]}


def order(number):
    return {"call": "order", "desk": 3, "key": f"po-{number}", "on": "2025-07-05", "vendor": 77, "items": [{**ITEM, "fund": 2, "dept": 20}]}


def receipt(number):
    return {"call": "receive", "desk": 5, "key": f"dep-{number}", "on": "2025-07-05", "source": 1, "amount": 100}


def bill(number):
    return {"call": "bill", "desk": 6, "key": f"tax-{number}", "on": "2025-07-05", "source": 1, "levy_year": 2026, "payer": 9, "amount": 100}


class Machine:
    """A folder with a journal, and the program that serves it."""

    def __init__(self, name, chart=TOP / "examples/rivertown/chart.toml"):
        self.path = pathlib.Path(name).resolve()
        shutil.rmtree(self.path, ignore_errors=True)
        self.path.mkdir()
        self.serving = None
        if chart:
            shutil.copy(chart, self.path / "chart.toml")
            subprocess.run([PROGRAM, "found"], cwd=self.path, check=True, stdout=subprocess.DEVNULL)

    def serve(self):
        """Serves, and gives the first port. A group of its own: it is ended with all that runs
        beside it.
        """
        first = doors.free_ports(4)
        words = [PROGRAM, "serve", "--port", str(first), "--doors", "4", "--links", "1000000"]
        self.serving = subprocess.Popen(words, cwd=self.path, stdout=subprocess.DEVNULL, stderr=subprocess.DEVNULL, start_new_session=True)
        for door in range(4):
            doors.Link(first + door, self.serving).__exit__()
        return first

    def kill(self):
        ended(self.serving)

    def books(self, *words):
        return subprocess.run([BOOKS, *words, self.path / "fund.journal"], check=True, capture_output=True, text=True).stdout

    def calls(self):
        return [json.loads(line) for line in self.books("calls").splitlines()]

    def entries(self):
        """How many entries the journal has, judged again by all rules."""
        return int(next(line for line in self.books("check").splitlines() if line.startswith("entries: "))[9:])


def ended(process):
    """Kills a process with its group."""
    if process and process.poll() is None:
        os.killpg(process.pid, signal.SIGKILL)
        process.wait()


class Desk(threading.Thread):
    """A desk at a door of its own: it writes each call down before it sends it, and its place when
    it was answered.
    """

    def __init__(self, make, door):
        super().__init__(daemon=True)
        self.make, self.door, self.first = make, door, None
        self.sent, self.places = [], {}

    def run(self):
        try:
            with doors.Link(self.first + self.door) as link:
                for number in itertools.count(1):
                    self.sent.append(self.make(number))
                    code, reply = link.call(self.sent[-1])
                    if code is None:
                        return
                    self.places[self.sent[-1]["key"]] = reply["at"]
        except OSError:
            pass

    def send_again(self, first):
        """All that was sent, in order: the replies."""
        with doors.Link(first + self.door) as link:
            return [link.call(call)[1] for call in self.sent]


class Repeated(threading.Thread):
    """A script that runs again and again, as the timer has it: the status and the last line of each
    run that ended.
    """

    def __init__(self, pause, *words):
        super().__init__(daemon=True)
        self.pause, self.words, self.runs, self.process, self.is_over = pause, words, [], None, False

    def run(self):
        while not self.is_over:
            self.process = subprocess.Popen(self.words, stdout=subprocess.PIPE, stderr=subprocess.STDOUT, env=CITY, text=True, start_new_session=True)
            said = self.process.communicate()[0]
            if not self.is_over:
                self.runs.append((self.process.returncode, said.strip().splitlines()[-1:]))
            time.sleep(self.pause)

    def kill(self):
        self.is_over = True
        ended(self.process)

    def done(self):
        return [said[0] for status, said in self.runs if status == 0 and said]


def wait(name, until):
    for _ in range(600):
        if until():
            return
        time.sleep(0.1)
    sys.exit(f"drill: {name}: it takes too long")


def follow_ended(second):
    """The second machine's `follow` ends by itself once the stream is cut: its link is that of a
    machine that is gone.
    """
    pid = second.path / "pid"
    wait("follow", lambda: not pid.exists() or not os.path.exists(f"/proc/{pid.read_text().strip()}"))


def went_on(name, machine, desks, kept):
    """Serves from a machine's journal: each desk sends all again, what is there is answered with `was`, the rest is taken now, and nothing is
    there twice. Gives the seconds until the first door served, and until all was sent."""
    began = time.time()
    first = machine.serve()
    opened = time.time() - began
    for desk in desks:
        replies = desk.send_again(first)
        was = [reply.get("was") for reply in replies]
        there = [desk.places.get(call["key"], 0) for call in desk.sent]
        held = all(reply.get("ok") is not None for reply in replies) and all(
            w == place for w, place in zip(was, there) if 0 < place <= kept) and all(w is None or w <= kept for w in was)
        expect(f"{name}: the calls of desk {desk.sent[0]['desk']} again", held, replies[-1])
    seconds = time.time() - began
    machine.kill()
    keys = [(call["desk"], call["key"]) for call in machine.calls()]
    expect(f"{name}: nothing is there twice", len(keys) == len(set(keys)))
    same(f"{name}: all calls are there", len(keys), len(ADOPTIONS) + sum(len(desk.sent) for desk in desks))
    expect(f"{name}: the rules judge it", machine.entries() == len(keys))
    return opened, seconds


def named(name, machine, log, kept, desks):
    """`trail` over the log of the first machine names each answer that the journal hasn't, and no
    other: by its place, desk and key.
    """
    ran = subprocess.run([TRAIL, machine.path / "fund.journal", log], env=CITY, capture_output=True, text=True)
    told = sorted(line.split(": ")[2].split(" to ")[0] for line in ran.stderr.splitlines() if "an answer that was lost" in line)
    lost = sorted(f"{key} of desk {desk.sent[0]['desk']}, entry {place}" for desk in desks for key, place in desk.places.items() if place > kept)
    same(f"{name}: what was lost is named", told, lost)
    same(f"{name}: the status", ran.returncode, 4 if lost else 0)
    return len(lost)


TRAIL = "city/examples/operate/trail"


def kept_log(desks):
    """The log of who entered what, as the proxy's lines of all answers make it."""
    answered = {place: call for each in desks for call in each.sent if (place := each.places.get(call["key"]))}
    with open("entered", "w", encoding="utf-8") as file:
        for place, call in sorted(answered.items()):
            plain = json.dumps(call, sort_keys=True, separators=(",", ":")).encode()
            fields = {"time": "2026-03-02T09:00:00+00:00", "user": f"desk{call['desk']}", "address": "192.0.2.7", "desk": call["desk"],
                      "key": call["key"], "place": place, "body": keeping.digest(plain), "call": keeping.digest(plain)}
            print(json.dumps(fields, separators=(",", ":")), file=file)
    pathlib.Path("log").unlink(missing_ok=True)
    subprocess.run([TRAIL + ".py", "entered", "log", "--once"], check=True)
    return "log"


def drill(number):
    first, second = Machine("first"), Machine("second")
    adopted = "".join(json.dumps(call) + "\n" for call in ADOPTIONS).encode()
    subprocess.run([PROGRAM, "desk"], cwd=first.path, input=adopted, check=True, stdout=subprocess.DEVNULL)
    for name in ("work", "copies"):
        shutil.rmtree(name, ignore_errors=True)
        os.mkdir(name)
    desks = [Desk(make, door) for door, make in enumerate((voucher, order, receipt, bill))]
    port = first.serve()
    following = f"cd '{second.path}' && echo $$ > pid && exec '{PROGRAM}' follow"
    shipping = Repeated(0.3, OPERATE / "ship.sh", first.path, "work", "setsid", "--wait", "sh", "-c", following)
    copying = Repeated(1.1, OPERATE / "backup.sh", first.path, "copies")
    for each in desks:
        each.first = port
        each.start()
    shipping.start()
    copying.start()
    wait("the first run of ship.sh and of backup.sh", lambda: len(shipping.done()) > 1 and copying.done())
    time.sleep(random.uniform(0, 5))

    # The first machine is gone, with all that ran there.
    first.kill()
    gone = time.time()
    shipping.kill()
    copying.kill()
    for each in desks:
        each.join()
    answered = sum(len(each.places) for each in desks)
    log = kept_log(desks)

    # What the second machine has: at least what it told last, and it is the beginning of what the
    # first one accepted.
    follow_ended(second)
    shipped = int(shipping.done()[-1].split()[1])
    calls, there = first.calls(), second.calls()
    looked = time.time() - gone
    expect("what was shipped is there", len(there) >= shipped and there == calls[:len(there)], f"{shipped} were followed, {len(there)} are there")
    expect("each answer is an entry of the first machine", all(
        calls[place - 1] == call for each in desks for call in each.sent if (place := each.places.get(call["key"]))))
    expect("and beside them at most a call of each desk", len(calls) - answered - len(ADOPTIONS) <= len(desks), f"{len(calls)} and {answered}")
    lost = named("the second machine", second, log, len(there), desks)
    opened, seconds = went_on("the second machine", second, desks, len(there))
    print(f"drill {number}: {answered} answered; {len(shipping.done())} runs of ship.sh, the last told {shipped}; the second machine has {len(there)}, "
          f"{lost} answers weren't shipped; looked at after {looked:.1f} s, served after {opened:.1f} s, all sent again after {seconds:.1f} s")

    # The last copy, in a folder of its own.
    restored = Machine("restored", None)
    copy = pathlib.Path("copies", pathlib.Path("copies/checksums").read_text(encoding="utf-8").splitlines()[-1].split()[1])
    ran = subprocess.run(["sha256sum", "--check", "--status", "checksums"], cwd="copies")
    shutil.copy(copy, restored.path / "fund.journal")
    kept = restored.entries()
    said = next(line for line in reversed(copying.done()) if copy.name in line) if any(copy.name in line for line in copying.done()) else ""
    expect("the last copy", ran.returncode == 0 and restored.calls() == calls[:kept] and f"entries: {kept} " in (said or f"entries: {kept} "), said)
    lost = named("the copy", restored, log, kept, desks)
    opened, seconds = went_on("the copy", restored, desks, kept)
    print(f"drill {number}: the last of {len(copying.done())} copies has {kept}, {lost} answers came after it; served after {opened:.1f} s, "
          f"all sent again after {seconds:.1f} s")


began = time.time()
for count in range(1, ROUNDS + 1):
    drill(count)
print(f"drill: {ROUNDS} rounds in {(time.time() - began) / 60:.1f} minutes")
sys.exit(verdicts.status())
