"""Cities that take commands: one whose program runs in a folder, and one of the independent office, which answers in its place."""
import datetime
import json
import os
import re
import subprocess

import streams
from answers import office_of_bytes
from calls import text_of
from claims import MOST_BYTES, GrantRefused, claim
from payloads import entry_of
from pool import NoShare, pool
from statements import COMMAND_TITLES

NUMBER = re.compile(r"[1-9][0-9]*")


class Program:
    """A folder of its own in which the program runs."""

    def __init__(self, program, folder):
        self.program, self.folder = program, folder
        os.makedirs(folder, exist_ok=True)

    def path(self, name):
        return os.path.join(self.folder, name)

    def write(self, name, text):
        with open(self.path(name), "wb") as file:
            file.write(text)

    def read(self, name):
        with open(self.path(name), "rb") as file:
            return file.read()

    def journal(self):
        return self.read("fund.journal") if os.path.exists(self.path("fund.journal")) else b""

    def run(self, words, given=b""):
        """The status of a command, what it prints and what it says."""
        done = subprocess.run([self.program, *words], cwd=self.folder, input=given, capture_output=True)
        return done.returncode, done.stdout, done.stderr.decode()


class Model:
    """The independent office in the place of a program and its folder."""

    def __init__(self):
        self.files, self.office, self.chart, self.version = {}, None, b"", 2
        self.payloads = []

    def write(self, name, text):
        self.files[name] = text

    def read(self, name):
        return self.files[name]

    def journal(self):
        return streams.journal_of(self.chart, self.payloads, self.version) if self.office else b""

    def run(self, words, given=b""):
        values = self.values(words)
        if values is None:
            return refused(2, "bad words")
        if words[0] not in ("found", "generate") and not self.office:
            return refused(7, "not founded")
        return getattr(self, "run_" + words[0])(given, *values)

    def values(self, words):
        """The values of a command's words, or None where they are of no command."""
        if not words or words[0] not in FORMS:
            return None
        kinds, said = FORMS[words[0]], list(words[1:])
        if words[0] == "report" and said.count("--csv") == 1:
            said.remove("--csv")
            kinds = (*kinds, lambda word: True)
            said.append("")
        found = [kind(word) for kind, word in zip(kinds, said)]
        return None if len(said) != len(kinds) or None in found else found

    # ---- the commands

    def run_found(self, given):
        if self.office:
            return refused(8, "already founded")
        self.chart, self.payloads, self.version = self.files["chart.toml"], [], 2
        self.office = office_of_bytes(self.chart)
        return 0, b"founded\n", ""

    def run_desk(self, given):
        replies = "".join(text_of(self.office.answer(json.loads(line))) + "\n" for line in given.decode().splitlines())
        self.payloads = list(streams.payloads_of(self.office))
        if any(call["call"] == "lease" for call, _ in self.office.entries):
            self.version = 2
        return 0, replies.encode(), ""

    def run_report(self, given, year, kind, as_csv=False):
        return 0, (self.office.csv if as_csv else self.office.text)(year, kind).encode(), ""

    def run_pool(self, given, month, amount, desk):
        try:
            return 0, "".join(pool(self.office, month, amount, desk)).encode(), ""
        except NoShare:
            return refused(13, "no share")

    def run_claim(self, given, grant, on, desk):
        try:
            return 0, "".join(claim(self.office, given[: MOST_BYTES + 1], grant, on, desk)).encode(), ""
        except GrantRefused:
            return refused(19, "grant refused")

    def run_ship(self, given, first):
        return 0, streams.ship(self.chart, self.payloads, first), ""

    def run_follow(self, given):
        follower = streams.Follower(self.chart, self.office, self.payloads)
        status, printed, said, _ = streams.outcome(follower, given)
        self.take(follower.payloads)
        return status, printed.encode(), said

    def take(self, payloads):
        """The office anew over these payloads."""
        self.office, self.payloads = office_of_bytes(self.chart), list(payloads)
        for payload in self.payloads:
            call, _ = entry_of(payload)
            assert "ok" in self.office.answer(call)
            if call["call"] == "lease":
                self.version = 2


def refused(status, said):
    return status, b"", "cityfund: %s\n" % said




# ---- words

def number(least, most):
    def read(word):
        found = int(word) if word == "0" or NUMBER.fullmatch(word) else None
        return found if found is not None and least <= found <= most else None

    return read


def month(word):
    its = re.fullmatch(r"(\d{4})-(\d\d)", word, re.ASCII)
    return word if its and 1970 <= int(its[1]) <= 2199 and 1 <= int(its[2]) <= 12 else None


def day(word):
    try:
        its = re.fullmatch(r"\d{4}-\d\d-\d\d", word, re.ASCII) and datetime.date.fromisoformat(word)
        return word if its and 1970 <= its.year <= 2199 else None
    except ValueError:
        return None


def kind(word):
    return word if word in COMMAND_TITLES else None


ID = number(1, 9999)
FORMS = dict(
    found=(), desk=(), report=(number(1971, 2199), kind), pool=(month, number(1, 10**13), ID), claim=(ID, day, ID),
    ship=(number(0, streams.MOST_FROM),), follow=(),
)
