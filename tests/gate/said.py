"""What `books` says of charts and journals: plays a script over the built programs, and compares what is printed.

    said.py CITYFUND BOOKS FOLDER      plays FOLDER/stdin, whose output is to be FOLDER/stdout

| Line of the script | What it does |
|---|---|
| `# ..` | a heading |
| `{..` | a line for the next desk |
| `chart FILE` | the chart for the next `found`, a file beside the script |
| `check OLD => NEW` | prints the exit code and the notice of `books check-chart` for that chart with a change, in which `;` is the end of a line |
| `books WORD ..` | prints what `books` prints of the journal with these words, its exit code and its notice |
| `run found`, `run desk` | a run: prints what it says, how it ended, and the length of the journal |
| `empty`, `cut N`, `add BYTE ..` | changes the journal |
| `keep`, `same` | remembers it, prints whether it is the same |
"""
import difflib
import os
import subprocess
import sys
import tempfile


def read(path):
    with open(path, encoding="utf-8") as file:
        return file.read()


class Stage:
    """A folder with a journal, and what the next run takes."""

    def __init__(self, cityfund, books, cases, folder):
        self.cityfund, self.books, self.cases, self.folder = cityfund, books, cases, folder
        self.chart, self.lines, self.kept, self.out = "", [], b"", []

    def path(self, name):
        return os.path.join(self.folder, name)

    def journal(self):
        with open(self.path("fund.journal"), "rb") as file:
            return file.read()

    def write(self, data):
        with open(self.path("fund.journal"), "wb") as file:
            file.write(data)

    def ran(self, words):
        given = "".join(self.lines).encode()
        return subprocess.run(words, cwd=self.folder, input=given, capture_output=True, check=False)

    def ended(self, run):
        return " ".join([str(run.returncode), run.stderr.decode().strip()]).strip()

    def play_run(self, word):
        if word == "found":
            with open(self.path("chart.toml"), "w", encoding="utf-8") as file:
                file.write(self.chart)
            if not self.journal():
                os.remove(self.path("fund.journal"))
        run = self.ran([self.cityfund, word])
        self.lines = []
        self.out.append(f"{run.stdout.decode()}= {self.ended(run)}; {len(self.journal())} bytes")

    def play_check(self, change):
        old, _, new = change.partition(" => ")
        before, _, after = self.chart.partition(old)
        with open(self.path("changed.toml"), "w", encoding="utf-8") as file:
            file.write(f"{before}{new}{after}".replace(";", "\n"))
        self.out.append("  " + self.ended(self.ran([self.books, "check-chart", "changed.toml"])))

    def play_books(self, words):
        run = self.ran([self.books, *words.split()])
        self.out.append(f"{run.stdout.decode()}  {self.ended(run)}")

    def play(self, line):
        self.out.append(line)
        verb, _, rest = line.partition(" ")
        if line.startswith("{"):
            self.lines.append(line + "\n")
        elif verb == "chart":
            self.chart = read(os.path.join(self.cases, rest))
        elif verb == "check":
            self.play_check(rest)
        elif verb == "books":
            self.play_books(rest)
        elif verb == "run":
            self.play_run(rest)
        elif verb == "empty":
            self.write(b"")
        elif verb == "cut":
            self.write(self.journal()[:int(rest)])
        elif verb == "add":
            self.write(self.journal() + bytes(map(int, rest.split())))
        elif verb == "keep":
            self.kept = self.journal()
        elif verb == "same":
            self.out.append(f"= the journal is {'the same' if self.journal() == self.kept else 'another'}")


def main(cityfund, books, cases):
    with tempfile.TemporaryDirectory() as folder:
        stage = Stage(cityfund, books, cases, folder)
        for line in read(os.path.join(cases, "stdin")).splitlines():
            stage.play(line)
    got = "".join(it + "\n" for it in stage.out).splitlines()
    wanted = read(os.path.join(cases, "stdout")).splitlines()
    print("\n".join(difflib.unified_diff(wanted, got, "stored", "printed", lineterm="", n=2)), end="")
    return got != wanted


if __name__ == "__main__":
    sys.exit(main(*sys.argv[1:]))
