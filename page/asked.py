#!/usr/bin/env python3
"""Makes a statement when the page asks for it: through any day, or at any entry. lists.py keeps
those of months and closes alone.

    asked.py BOOKS JOURNAL SOCKET [SECONDS]

It listens at a socket in a folder that the proxy alone reaches. The proxy has checked the user.

    GET /asked?year=2026&kind=budget&entries=310&through=2026-03-18

has the answer {"names": [..], "rows": [[..]]}, as `books statement` prints them of the journal's
first 310 entries. `through` may be left out. `entries` is always said, so a question has one answer
for good. Each other answer is {"fault": word, "says": sentence}:

    400   `fault` is the word that is unknown, missing, said twice or out of form
    404   another path
    500   `books` failed; standard error says how
    503   WAITING callers are there already, or this one waited for a third of SECONDS
    504   the statement wasn't there after SECONDS (60)

`books` makes one statement at a time, and is ended where its caller has gone. No file is written.
"""
import contextlib
import csv
import datetime
import http.server
import io
import os
import re
import select
import selectors
import socket
import socketserver
import subprocess
import sys
import threading
import time

from books import Books
from joins import compact
from kept import BY_DAY, KINDS

SECONDS, WAITING = 60, 8
HEAD = 5  # seconds until the head of a request is there
MOST = 8 * 2**20  # bytes of `books`; the longest chart has a statement of two million
REFUSED = (20, 22, 23)  # the statuses of `books` for a day and for a number of entries
PATH = "/asked"


class Answer(Exception):
    """An answer without a statement."""

    def __init__(self, code, fault, says):
        super().__init__(code)
        self.code, self.said = code, {"fault": fault, "says": says}


class Gone(Exception):
    """The caller has gone."""


# ---- the question


def is_day(text):
    try:
        day = datetime.date.fromisoformat(text)
    except ValueError:
        return False
    return day.isoformat() == text and 1971 <= day.year <= 2199


def is_number(text, least, most):
    return re.fullmatch("0|[1-9][0-9]{0,6}", text) and least <= int(text) <= most


WORDS = {
    "year": ("a fiscal year from 1971 to 2199", lambda text: is_number(text, 1971, 2199)),
    "kind": (f"one of {', '.join(KINDS)}", lambda text: text in KINDS),
    "entries": ("a number from 0 to 1500000", lambda text: is_number(text, 0, 1500000)),
    "through": ("a day from 1971 to 2199, as 2026-03-31", is_day),
}


def question(query):
    """The words of a query, each once and in form. Nothing of it is decoded."""
    asked = {}
    for part in query.split("&"):
        name, _, text = part.partition("=")
        if name not in WORDS:
            said = f"There is no such word: the words are {', '.join(WORDS)}."
            raise Answer(400, name[:40], said)
        if name in asked:
            raise Answer(400, name, f"The word {name} stands twice.")
        form, is_form = WORDS[name]
        if not is_form(text):
            raise Answer(400, name, f"The word {name} is {form}.")
        asked[name] = text
    for name in WORDS:
        if name not in asked and name != "through":
            raise Answer(400, name, f"The word {name} is missing.")
    if "through" in asked and asked["kind"] not in BY_DAY:
        raise Answer(400, "through", f"Through a day there are {', '.join(BY_DAY)} alone.")
    return asked


# ---- the statement


def printed(command, until, is_there):
    """The status of a command, and what it prints and says, where that comes until a moment and
    the caller is there.
    """
    pipes = {"stdin": subprocess.DEVNULL, "stdout": subprocess.PIPE, "stderr": subprocess.PIPE}
    with subprocess.Popen(command, **pipes) as run, selectors.DefaultSelector() as ready:
        said = {run.stdout: b"", run.stderr: b""}
        for pipe in said:
            ready.register(pipe, selectors.EVENT_READ)
        try:
            while ready.get_map():
                for key, _ in ready.select(0.1):
                    piece = os.read(key.fd, 1 << 16)
                    said[key.fileobj] += piece
                    if not piece:
                        ready.unregister(key.fileobj)
                check(sum(map(len, said.values())), until, is_there)
        except (Answer, Gone):
            run.kill()
            raise
    return run.returncode, *(text.decode("utf-8", "replace") for text in said.values())


def check(size, until, is_there):
    if size > MOST:
        raise Answer(500, "books", f"The statement has more than {MOST} bytes.")
    if time.monotonic() > until:
        raise Answer(504, "time", "It takes too long. Whoever runs the machine can print it.")
    if not is_there():
        raise Gone


class Statements:
    """Makes one statement after another."""

    def __init__(self, program, journal, seconds):
        self.program, self.journal, self.seconds = program, journal, seconds
        self.turn, self.places = threading.Lock(), threading.BoundedSemaphore(WAITING)
        self.names = {}  # of columns, by kind

    def answer(self, asked, is_there):
        busy = Answer(503, "busy", "Other statements are being made. Ask again in a minute.")
        if not self.places.acquire(blocking=False):
            raise busy
        try:
            if not self.turn.acquire(timeout=self.seconds / 3):
                raise busy
            try:
                return self.made(asked, time.monotonic() + self.seconds, is_there)
            finally:
                self.turn.release()
        finally:
            self.places.release()

    def made(self, asked, until, is_there):
        words = ["statement", asked["year"], asked["kind"]]
        if asked["kind"] not in self.names:
            # They stand above records alone, and are those of the kind.
            heads = self.lines(0, [*words, "--csv"], until, is_there)
            self.names[asked["kind"]] = next(csv.reader(heads))
        through = ["--through", asked["through"]] if "through" in asked else []
        rows = self.lines(asked["entries"], words + through, until, is_there)
        rows = list(csv.reader(rows, delimiter="\t"))
        return {"names": self.names[asked["kind"]], "rows": rows}

    def lines(self, entries, words, until, is_there):
        command = Books(self.program, self.journal, entries).command(*words)
        status, text, said = printed(command, until, is_there)
        said = said.strip()
        if status in REFUSED:
            raise Answer(400, "books", f"The books refuse it: {said.removeprefix('books: ')}.")
        if status:
            print(f"asked: {' '.join(command)} ended with {status}: {said}", file=sys.stderr)
            raise Answer(500, "books", "The books can’t be read. Tell whoever runs the page.")
        return io.StringIO(text, newline="")


# ---- the listener


class Caller(http.server.BaseHTTPRequestHandler):
    timeout = HEAD

    def do_GET(self):
        path, _, query = self.path.partition("?")
        try:
            if path != PATH:
                raise Answer(404, "path", f"There is {PATH} alone.")
            code, said = 200, self.server.statements.answer(question(query), self.is_there)
        except Answer as answer:
            code, said = answer.code, answer.said
        body = compact(said).encode()
        self.send_response(code)
        self.send_header("Content-Type", "application/json")
        self.send_header("Content-Length", str(len(body)))
        self.end_headers()
        self.wfile.write(body)

    def is_there(self):
        """Whether the caller still waits: it says no more, and hasn't closed its link."""
        if not select.select([self.connection], [], [], 0)[0]:
            return True
        return self.connection.recv(1, socket.MSG_PEEK) != b""

    def log_message(self, *_):
        """The proxy's log has each request."""


class Listener(socketserver.ThreadingMixIn, socketserver.UnixStreamServer):
    daemon_threads, request_queue_size = True, 64

    def handle_error(self, request, client_address):
        """A caller that has gone is no fault."""
        if not isinstance(sys.exc_info()[1], (Gone, OSError)):
            super().handle_error(request, client_address)


def main():
    if len(sys.argv) not in (4, 5):
        sys.exit(__doc__)
    path, seconds = sys.argv[3], float(sys.argv[4]) if len(sys.argv) == 5 else SECONDS
    with contextlib.suppress(FileNotFoundError):
        os.unlink(path)
    with Listener(path, Caller) as listener:
        listener.statements = Statements(*sys.argv[1:3], seconds)
        listener.serve_forever()


if __name__ == "__main__":
    try:
        main()
    except OSError as fault:
        sys.exit(f"asked: {fault}")
