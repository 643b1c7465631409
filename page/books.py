"""Runs `books`, which only reads a journal, for lists.py and asked.py."""
import csv
import subprocess


class Fault(Exception):
    """What couldn't be read or written."""


class Books:
    """What `books` prints of a journal's first entries; of all, where their number isn't said."""

    def __init__(self, program, journal, entries=None):
        self.program, self.journal, self.entries = program, journal, entries

    def command(self, *words):
        """The words of a list: the program first, the journal last."""
        at = [] if self.entries is None else ["--entries", str(self.entries)]
        return [self.program, *words, *at, self.journal]

    def lines(self, *words):
        """The lines of a list, as they come. Where the program fails a fault follows the last."""
        pipes = {"stdout": subprocess.PIPE, "stderr": subprocess.PIPE}
        with subprocess.Popen(self.command(*words), encoding="utf-8", **pipes) as run:
            yield from run.stdout
            said = run.stderr.read().strip()
        # 13: what stands before a damage is given. That the journal is damaged the service says.
        if run.returncode not in (0, 13):
            raise Fault(f"books {' '.join(words)} ended with {run.returncode}: {said}")

    def chart(self):
        return "".join(Books(self.program, self.journal).lines("chart"))

    def fields(self, *words):
        """A list's rows. With tabs they are exact: records guard a spreadsheet from formulas."""
        return csv.reader(self.lines(*words), delimiter="\t")

    def names(self, *words):
        """The names of a list's columns, which stand above its records alone."""
        records = csv.reader(list(Books(self.program, self.journal, 0).lines(*words, "--csv")))
        for names in records:
            return names
        raise Fault(f"books {' '.join(words)} names no columns")

    def rows(self, *words):
        """A list's rows as dictionaries."""
        names = self.names(*words)
        for fields in self.fields(*words):
            if len(fields) != len(names):
                raise Fault(f"books {' '.join(words)}: {len(fields)} fields, not {len(names)}")
            yield dict(zip(names, fields))
