#!/bin/sh
# A disk with less than 64 KiB left, under `desk` and under `serve`: the journal lies on a file system in memory that another file fills.
# A call whose record makes the journal longer must be answered by a fault of the disk, looks must go on, and what was answered
# before must be there. Once there is room the same call, under the same key, must be taken, in the same run; a run that
# follows must have each entry at its place, and the journal must be that of the same calls on a disk with room, byte for byte.
# It mounts the file system, so it needs root, and is skipped without it. Not part of the merge gate.
top=$(cd "$(dirname "$0")/../.." && pwd)
. "$top/tests/lib/program.sh"
books=${BOOKS:-$(built books)}
scratch=$(mktemp -d) || exit 1
mkdir "$scratch/small" "$scratch/large"
trap 'umount -l "$scratch/small" 2> /dev/null; rm -rf "$scratch"' EXIT
if ! mount -t tmpfs -o size=512k tmpfs "$scratch/small" 2> /dev/null; then
    echo "full-disk: skipped: no file system can be mounted here"
    exit 0
fi
cp "$top/examples/rivertown/chart.toml" "$scratch/small/chart.toml"
cp "$top/examples/rivertown/chart.toml" "$scratch/large/chart.toml"
cd "$scratch" && PYTHONPATH=$top/tests/lib timeout 600 python3 - "$program" "$books" "$top/tests/lib/journal.py" <<'PY'
import atexit, json, os, pathlib, subprocess, sys

from doors import Serve, Verdicts, calls_of

PROGRAM, BOOKS, READER = sys.argv[1:]
STEP, LEFT = 65536, 40960
verdicts = Verdicts("full-disk")
ADOPT = {"call": "adopt", "desk": 1, "key": "b", "on": "2025-07-01", "fund": 1, "year": 2026,
         "lines": [{"line": 3, "amount": 1000000000}], "estimates": []}
LOOK = {"call": "line", "line": 3, "year": 2026}


def voucher(number):
    return {"call": "voucher", "desk": 4, "key": f"v{number}", "on": "2025-07-05", "vendor": 77,
            "items": [{"fund": 1, "dept": 20, "object": 510, "amount": 1}]}


class Desk:
    """A desk in the current folder, which is asked call by call."""

    def __init__(self):
        self.process = subprocess.Popen([PROGRAM, "desk"], stdin=subprocess.PIPE, stdout=subprocess.PIPE, text=True, bufsize=1)
        atexit.register(self.process.kill)

    def call(self, call):
        self.process.stdin.write(json.dumps(call) + "\n")
        return json.loads(self.process.stdout.readline() or "{}")

    def close(self):
        self.process.stdin.close()
        return self.process.wait()


class Door:
    """A door of a program that serves in the current folder, which is asked call by call, over a link for each."""

    def __init__(self):
        self.serve = Serve(PROGRAM, 1, 1000000)

    def call(self, call):
        with self.serve.link(0) as link:
            code, reply = link.call(call)
        # A fault of the disk is 500.
        verdicts.verdict("the code", code == (500 if reply == {"disk": True} else 200), (code, reply))
        return reply

    def close(self):
        self.serve.kill()
        return 0


def found(folder):
    os.chdir(folder)
    subprocess.run([PROGRAM, "found"], stdout=subprocess.DEVNULL, check=True)


def fill():
    """Fills the disk but for less than 64 KiB."""
    disk = os.statvfs(".")
    pathlib.Path("ballast").write_bytes(bytes(disk.f_bavail * disk.f_frsize - LEFT))


def spend(asked, where):
    """Calls up to the first that finds no room, and past it: the number of entries that were answered by then."""
    verdicts.verdict(f"{where}: the adoption", asked.call(ADOPT).get("at") == 1)
    fill()
    last = 1
    for number in range(2, 4000):
        reply = asked.call(voucher(number))
        if "ok" not in reply:
            break
        last = number
    verdicts.same(f"{where}: a call without room", reply, {"disk": True})
    end = int(subprocess.run([sys.executable, READER, "--end", "fund.journal"], stdout=subprocess.PIPE, check=True).stdout)
    verdicts.verdict(f"{where}: it is the first that goes past 64 KiB", STEP - 100 < end < STEP, end)
    return last


def try_full(kind, where):
    """The number of entries in the end."""
    pathlib.Path("fund.journal").unlink(missing_ok=True)
    found(".")
    asked = kind()
    last = spend(asked, where)
    for _ in range(3):
        look = asked.call(LOOK)
        verdicts.verdict(f"{where}: looks go on", "is" in look and look["at"] == last, look)
        verdicts.same(f"{where}: and so do faults", asked.call(voucher(last + 1)), {"disk": True})
    verdicts.verdict(f"{where}: a repeat is answered", asked.call(voucher(last)).get("was") == last)
    verdicts.same(f"{where}: nothing is lost", (len(calls_of(BOOKS)[0]), calls_of(BOOKS)[1]), (last, True))
    os.remove("ballast")
    reply = asked.call(voucher(last + 1))
    verdicts.verdict(f"{where}: with room the same call is taken", "ok" in reply and reply["at"] == last + 1 and "was" not in reply, reply)
    verdicts.same(f"{where}: how it ends", asked.close(), 0)
    again = Desk()
    wrong = [number for number in range(2, last + 2) if again.call(voucher(number)).get("was") != number]
    verdicts.same(f"{where}: each entry at its place", (wrong, again.close()), ([], 0))
    return last + 1


def same_elsewhere(where, entries):
    """The journal of these calls where there is room."""
    journal = pathlib.Path("fund.journal").read_bytes()
    os.chdir("../large")
    pathlib.Path("fund.journal").unlink(missing_ok=True)
    found(".")
    desk = Desk()
    for call in [ADOPT, *map(voucher, range(2, entries + 1))]:
        desk.call(call)
    desk.close()
    verdicts.verdict(f"{where}: the same bytes as with room", journal == pathlib.Path("fund.journal").read_bytes())
    os.chdir("../small")


os.chdir("small")
for kind, where in ((Desk, "desk"), (Door, "serve")):
    same_elsewhere(where, try_full(kind, where))
sys.exit(verdicts.status())
PY
