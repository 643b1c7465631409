"""The mends of what stands around the program, by a table (tests/lib/mends): tests/long/mends.sh takes
them out one at a time, tests/long/attacks.sh some at once.

    mends.py try TABLE TOP COPY [WORD..]   copies the repository TOP to COPY; then each mend whose
                                           head has a word, or each, is taken out there and tried
    mends.py out TABLE COPY WORD..         takes the mends out of a copy whose heads begin with a
                                           word

A mend passes where its test fails without it by the case that the table names, and didn't fail by
that case before. Of what can't be mended a page says what to do: that passes where the page says
it.
"""
import contextlib
import pathlib
import shutil
import subprocess
import sys

import doors

NAMES = ("examples", "tests", "page", "docs", "cityfund", "books", "package", "README.md", "CHANGELOG.md")
MOST = 900  # seconds of one test


class Mend:
    """A mend: its head, its test with the case that guards it, and the edits that take it out; or
    the page that says what to do, with its words.
    """

    def __init__(self, head):
        self.head, self.test, self.fails, self.page, self.says, self.edits = head, "", "", "", "", []

    def read(self, name, text):
        if name == "file":
            self.edits.append([text, "", ""])
        elif name in ("old", "new"):
            if name == "old":
                self.edits.append([self.edits[-1][0], "", ""])
            self.edits[-1][1 if name == "old" else 2] = text.replace("↵", "\n")
        elif name in ("test", "fails", "page", "says"):
            setattr(self, name, text)
        else:
            sys.exit(f"mends: {self.head}: there is no '{name}:'")

    def taken_out(self, copy):
        """Takes it out; gives what stood in each file."""
        were = {}
        for name, old, new in self.edits:
            if not old:
                continue  # the line that names the file
            path = copy / name
            text = path.read_text(encoding="utf-8")
            were.setdefault(path, text)
            if text.count(old) != 1:
                put_back(were)
                raise ValueError(f"its text stands {text.count(old)} times in {name}: {old}")
            path.write_text(text.replace(old, new), encoding="utf-8")
        return were


def put_back(were):
    for path, text in were.items():
        path.write_text(text, encoding="utf-8")


def read(table):
    mends = []
    for line in pathlib.Path(table).read_text(encoding="utf-8").splitlines():
        name, _, text = line.partition(": ")
        if line.startswith("== "):
            mends.append(Mend(line[3:]))
        elif mends and line and not line.startswith("#"):
            mends[-1].read(name.removesuffix(":"), text)
    return mends


def copied(top, copy):
    for name in NAMES:
        source = top / name
        if source.is_dir():
            shutil.copytree(source, copy / name, symlinks=True, ignore=shutil.ignore_patterns("__pycache__", "out"))
        else:
            shutil.copy(source, copy / name)


def failures(copy, test):
    """The cases by which a test fails, and its last line."""
    try:
        ran = subprocess.run(["sh", *test.split()], cwd=copy / "tests", capture_output=True, text=True, timeout=MOST, errors="replace")
    except subprocess.TimeoutExpired:
        return ["failed: it goes on"], "it goes on"
    lines = ran.stdout.splitlines()
    return [line for line in lines if line.startswith("failed: ")], (lines or ran.stderr.splitlines() or [""])[-1]


def told(mend, copy):
    """Whether the page says it, and what it doesn't."""
    text = " ".join((copy / mend.page).read_text(encoding="utf-8").split())
    return mend.says in text, f"{mend.page} says: {mend.says}" if mend.says in text else f"{mend.page} doesn't say: {mend.says}"


def tried(mend, copy, befores):
    """Whether its case fails without it, and the text that says which."""
    if mend.page:
        return told(mend, copy)
    wanted = "failed: " + mend.fails
    if mend.test not in befores:
        befores[mend.test] = failures(copy, mend.test)
    if any(line.startswith(wanted) for line in befores[mend.test][0]):
        return False, f"{mend.test} fails with the mend, too: {mend.fails}"
    try:
        were = mend.taken_out(copy)
    except ValueError as fault:
        return False, str(fault)
    found, last = failures(copy, mend.test)
    put_back(were)
    line = next((line for line in found if line.startswith(wanted)), None)
    if line:
        return True, f"refused as it should: {line.removeprefix('failed: ')[:150]}"
    return False, f"{mend.test} doesn't fail by '{mend.fails}': {'; '.join(found)[:300] or last}"


def main(what, table, *words):
    if what == "out":
        copy, *heads = words
        for mend in read(table):
            if mend.edits and mend.head.split(" ")[0] in heads:
                # Another one may have taken its text out with its own.
                with contextlib.suppress(ValueError):
                    mend.taken_out(pathlib.Path(copy))
        return 0
    top, copy, *some = words
    copied(pathlib.Path(top), pathlib.Path(copy))
    verdicts, befores = doors.Verdicts("mends"), {}
    for mend in read(table):
        if not some or any(word in mend.head for word in some):
            holds, text = tried(mend, pathlib.Path(copy), befores)
            verdicts.verdict(mend.head, holds, text)
            if holds:
                print(f"{mend.head}: {text}", flush=True)
    for test, (found, last) in befores.items():
        verdicts.verdict(f"{test} with all mends", not found, "; ".join(found)[:300])
    return verdicts.status()


if __name__ == "__main__":
    sys.exit(main(*sys.argv[1:]))
