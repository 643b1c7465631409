"""Short runs of the commands, to which each growth is refused in its turn:
`wanting.py CITYFUND BOOKS FOLDER`, where FOLDER has the library refuse.so. Read by
tests/long/wanting.sh, which says what is shown."""
import collections
import os
import pathlib
import shutil
import struct
import subprocess
import sys

from doors import Verdicts

CITYFUND, BOOKS, FOLDER = sys.argv[1:]
FOLDER = pathlib.Path(FOLDER)
EXAMPLES = pathlib.Path(__file__).resolve().parents[2] / "examples"
MEMORY = 12

Command = collections.namedtuple("Command", "program words input writes status", defaults=(b"", False, 0))

ADOPT = (b'{"call":"adopt","desk":1,"key":"b1","on":"2025-07-01","fund":1,"year":2026,'
         b'"lines":[{"line":3,"amount":100000}],"estimates":[]}\n')
VOUCHER = (b'{"call":"voucher","desk":4,"key":"v1","on":"2025-07-05","vendor":77,'
           b'"items":[{"fund":1,"dept":20,"object":510,"amount":60000}]}\n')


class Folder:
    """A folder with a chart, and a journal or none, which each run finds as it was."""

    def __init__(self, name, chart, talk=None):
        self.path = FOLDER / name
        self.path.mkdir()
        shutil.copy(EXAMPLES / chart / "chart.toml", self.path / "chart.toml")
        self.journal = self.path / "fund.journal"
        if talk is not None:
            self.run(Command(CITYFUND, ["found"]))
            self.run(Command(CITYFUND, ["desk"], talk))
        self.kept = self.bytes()

    def bytes(self):
        return self.journal.read_bytes() if self.journal.exists() else None

    def back(self):
        if self.kept is None:
            self.journal.unlink(missing_ok=True)
        else:
            self.journal.write_bytes(self.kept)

    def run(self, command, refused=0):
        """Status, output and notice of a run to which this growth is refused, or none, and how many
        it asked for."""
        count = FOLDER / "count"
        count.write_bytes(bytes(16))
        env = {**os.environ, "LD_PRELOAD": str(FOLDER / "refuse.so"), "REFUSE_COUNT": str(count),
               "REFUSE_FIRST": str(refused), "REFUSE_LAST": str(refused)}
        run = subprocess.run([command.program, *command.words], cwd=self.path, env=env, input=command.input,
                             stdout=subprocess.PIPE, stderr=subprocess.PIPE)
        asked = struct.unpack("QQ", count.read_bytes())[0]
        return (run.returncode, run.stdout, run.stderr), asked


def fault_of(folder, command, plain, got):
    """What is wrong with a run to which a growth was refused, or None."""
    (status, out, said), (plain_status, plain_out, plain_said) = got, plain
    name = pathlib.Path(command.program).name.removesuffix(".bin")
    if status == MEMORY:
        if said not in (f"{name}: no memory\n".encode(), b"") or not plain_out.startswith(out):
            return f"no memory, and yet {out} and {said}"
    elif status == plain_status and out == b'{"memory":true}\n':
        pass  # a desk that had no memory for its one call
    elif (status, out) != (plain_status, plain_out) or said not in (plain_said, b""):
        return f"status {status}, {out} and {said}, not {plain}"
    if not command.writes:
        return None if folder.bytes() == folder.kept else "the journal is another"
    return None


def try_command(verdicts, title, folder, command):
    """Each growth of a command is refused in its turn. Gives how many there are."""
    folder.back()
    plain, asked = folder.run(command)
    whole = folder.bytes()
    verdicts.same(f"{title}: nothing is refused", plain[0], command.status)
    verdicts.verdict(f"{title}: growths are seen", asked > 0, "none: the library isn't in front of those of the program")
    said = 0
    for number in range(1, asked + 1):
        folder.back()
        got, _ = folder.run(command, number)
        fault = fault_of(folder, command, plain, got)
        said += got[0] == MEMORY or b'{"memory":true}' in got[1]
        if fault is None and command.writes and folder.bytes() != whole:
            again, _ = folder.run(command)
            fault = None if again[0] in (0, command.status) and folder.bytes() == whole else f"the same run again: {again}"
        verdicts.verdict(f"{title}: growth {number}", fault is None, fault)
    return asked, said


def shipped(folder):
    return folder.run(Command(CITYFUND, ["ship", "0"]))[0][1]


def changed(stream):
    """The stream with another byte where the payload of the last record begins."""
    at, last = 12 + struct.unpack(">I", stream[8:12])[0], 0
    while stream[at] == 1:
        last, at = at, at + 5 + struct.unpack(">I", stream[at + 1:at + 5])[0]
    return stream[:last + 5] + b"\xff" + stream[last + 6:]


def main():
    new = Folder("new", "rivertown")
    founded = Folder("founded", "rivertown", b"")
    day = Folder("day", "rivertown", ADOPT + VOUCHER)
    other = Folder("other", "milltown", b"")
    claimed = Folder("claimed", "rivertown", (EXAMPLES / "grants" / "autumn.jsonl").read_bytes())
    shutil.copy(EXAMPLES / "grants" / "grants.toml", claimed.path)
    pooled = Folder("pooled", "milltown", (EXAMPLES / "milltown" / "pool.jsonl").read_bytes())
    grants = (EXAMPLES / "grants" / "grants.toml").read_bytes()
    stream = shipped(day)
    runs = [
        ("found", new, Command(CITYFUND, ["found"], writes=True)),
        ("found again", founded, Command(CITYFUND, ["found"], status=8)),
        ("desk", founded, Command(CITYFUND, ["desk"], ADOPT, True)),
        ("desk without a journal", new, Command(CITYFUND, ["desk"], ADOPT, status=7)),
        ("report", day, Command(CITYFUND, ["report", "2026", "position"])),
        ("pool", pooled, Command(CITYFUND, ["pool", "2025-07", "100", "5"])),
        ("pool without cash", founded, Command(CITYFUND, ["pool", "2025-07", "100", "5"], status=13)),
        ("claim", claimed, Command(CITYFUND, ["claim", "7", "2026-01-15", "6"], grants)),
        ("claim of another grant", claimed, Command(CITYFUND, ["claim", "8", "2026-01-15", "6"], grants, status=19)),
        ("ship", day, Command(CITYFUND, ["ship", "0"])),
        ("follow", founded, Command(CITYFUND, ["follow"], stream, True)),
        ("follow what stands", day, Command(CITYFUND, ["follow"], stream)),
        ("follow a payload that is changed", day, Command(CITYFUND, ["follow"], changed(stream), status=16)),
        ("follow a stream that is cut", day, Command(CITYFUND, ["follow"], stream[:-1], status=16)),
        ("follow another chart", other, Command(CITYFUND, ["follow"], stream, status=14)),
        ("generate", new, Command(CITYFUND, ["generate", "2"])),
        ("books list", day, Command(BOOKS, ["list"])),
        ("books calls", day, Command(BOOKS, ["calls"])),
        ("books check", day, Command(BOOKS, ["check"])),
        ("books claims", claimed, Command(BOOKS, ["claims", "7"])),
        ("books of no journal", day, Command(BOOKS, ["check", "chart.toml"], status=7)),
    ]
    verdicts = Verdicts("wanting")
    for title, folder, command in runs:
        asked, said = try_command(verdicts, title, folder, command)
        print(f"wanting: {title}: {asked} growths, of which {said} are said")
    sys.exit(verdicts.status())


main()
