#!/usr/bin/env python3
"""Keeps what the proxy writes of accepted changes in a log in which each line has the digest of the line
before:

    trail.py ENTERED LOG            follows ENTERED, the proxy's file, and appends its lines to LOG
    trail.py ENTERED LOG --once     appends the lines that are there, and ends

It begins behind the last line that LOG has, so what the proxy wrote while it wasn't at work comes
then. A line of LOG is a line of ENTERED with three fields in front:

    line       its number
    before     the SHA-256 digest of the line before without its newline; 64 zeros for the first line
    end        where its line ends in ENTERED

So one ENTERED gives one LOG, byte for byte. Two lines aren't the proxy's: `mark` says that ENTERED is
another file than it was, or was changed, and `bad` has a line that is no JSON object.

The status is 1 where a file can't be read or written, 2 for bad words, and 3 where LOG ends with a line
that isn't of such a log. Then nothing was appended, and a person must look. docs/OPERATE.md, "Who
entered what".
"""
import datetime
import fcntl
import hashlib
import json
import os
import sys
import time

FIRST = "0" * 64
PIECE = 1 << 20
WAIT = 0.2  # seconds


def digest(line):
    """The digest of a line's bytes, without its newline."""
    return hashlib.sha256(line).hexdigest()


class Fault(Exception):
    """What the run ends for: its text, and the status."""

    def __init__(self, text, status=1):
        super().__init__(text)
        self.status = status


def fields_of(line):
    """The fields of a line, or None where it is no JSON object."""
    try:
        fields = json.loads(line)
    except (ValueError, RecursionError):
        return None
    return fields if isinstance(fields, dict) else None


def front(number, before, end):
    return b'{"line":%d,"before":"%s","end":%d,' % (number, before.encode(), end)


def is_kept(fields):
    """Whether the fields are those of a line of the log."""
    return all(type(fields.get(name)) is kind for name, kind in (("line", int), ("before", str), ("end", int)))


def taken(line, fields):
    """The line of ENTERED that a line of the log has."""
    if "bad" in fields:
        return str(fields["bad"]).encode("latin-1", "replace")
    return b"{" + line[len(front(fields["line"], fields["before"], fields["end"])):]


class Log:
    """The log, held against a second hand: how many lines it has, the digest of the last one, and
    where that ends in ENTERED.
    """

    def __init__(self, path):
        self.path = path
        self.file = os.open(path, os.O_RDWR | os.O_CREAT | os.O_APPEND, 0o640)
        try:
            fcntl.flock(self.file, fcntl.LOCK_EX | fcntl.LOCK_NB)
        except BlockingIOError:
            raise Fault(f"{path}: another one is at work") from None
        self.lines, self.before, self.end, self.last = 0, FIRST, 0, b""
        last = self.last_line()
        if last is not None:
            self.resume(last)

    def last_line(self):
        """The last whole line, or None. What stands behind it was being written when the machine
        stopped, and is cut off: ENTERED has it.
        """
        size = os.fstat(self.file).st_size
        at, tail = size, b""
        while at > 0 and tail.count(b"\n") < 2:
            at = max(0, at - PIECE)
            tail = os.pread(self.file, size - at, at)
        cut = len(tail) - (tail.rfind(b"\n") + 1)
        if cut:
            say(f"{self.path}: a line of {cut} bytes without an end is taken back")
            os.ftruncate(self.file, size - cut)
        whole = tail[: len(tail) - cut]
        return whole[:-1].rpartition(b"\n")[2] if whole else None

    def resume(self, last):
        fields = fields_of(last)
        if fields is None or not is_kept(fields):
            raise Fault(f"{self.path}: its last line isn't one of such a log, so nothing is appended", 3)
        self.lines, self.before, self.end = fields["line"], digest(last), fields["end"]
        if "mark" not in fields:
            self.last = taken(last, fields)

    def append(self, lines):
        """Appends lines of ENTERED, and waits until the disk has them."""
        self.write((line, len(line) + 1, as_kept(line)) for line in lines)

    def mark(self, text):
        """Appends a line of its own, behind which ENTERED is read from its beginning."""
        say(text)
        now = datetime.datetime.now(datetime.timezone.utc).isoformat(timespec="seconds")
        self.write([(b"", -self.end, json.dumps({"time": now, "mark": text}, separators=(",", ":")).encode())])

    def write(self, rows):
        made, state = [], (self.lines, self.before, self.end, self.last)
        for line, step, kept in rows:
            self.lines, self.end, self.last = self.lines + 1, self.end + step, line
            made.append(front(self.lines, self.before, self.end) + kept[1:])
            self.before = digest(made[-1])
        size = os.fstat(self.file).st_size
        data = b"".join(line + b"\n" for line in made)
        try:
            while data:
                data = data[os.write(self.file, data):]
            os.fsync(self.file)
        except OSError as fault:
            os.ftruncate(self.file, size)
            self.lines, self.before, self.end, self.last = state
            raise Fault(f"{self.path} can't be written: {fault.strerror}") from None


def as_kept(line):
    """A line of ENTERED as it is kept: itself, or its bytes as a text where it is no JSON object.
    """
    fields = fields_of(line) if line.startswith(b'{"') else None
    if fields and not {"line", "before", "end", "mark", "bad"} & fields.keys():
        return line
    return json.dumps({"bad": line.decode("latin-1")}, separators=(",", ":")).encode()


class Entered:
    """The proxy's file, of which the log says how far it was taken."""

    def __init__(self, path, log):
        self.path, self.log = path, log
        self.file = open(path, "rb", buffering=0)

    def is_same(self):
        """Whether the last line that was taken still stands there."""
        had = self.log.end - len(self.log.last) - 1
        return self.log.end == 0 or had >= 0 and os.pread(self.file.fileno(), len(self.log.last) + 1, had) == self.log.last + b"\n"

    def take(self):
        """Appends the whole lines that are there; whether there was one."""
        self.file.seek(self.log.end)
        piece = self.file.read(PIECE)
        while b"\n" not in piece and len(piece) % PIECE == 0 and (more := self.file.read(PIECE)):
            piece += more
        lines = piece.split(b"\n")[:-1]
        if lines:
            self.log.append(lines)
        return bool(lines)

    def is_moved(self):
        """Whether another file has its name."""
        try:
            found = os.stat(self.path)
        except FileNotFoundError:
            return False
        own = os.fstat(self.file.fileno())
        return (found.st_dev, found.st_ino) != (own.st_dev, own.st_ino)


def opened(path, log):
    """The proxy's file, or None where there is none yet."""
    try:
        return Entered(path, log)
    except FileNotFoundError:
        return None


def follow(path, log, is_once):
    entered = opened(path, log)
    while True:
        if entered is not None and not entered.is_same():
            log.mark(f"{path} isn't the file that was followed, or was changed: it is read from its beginning")
        elif entered is not None and entered.take():
            continue
        elif entered is not None and entered.is_moved():
            # A process of nginx may write a last line into the old file.
            time.sleep(1)
            if not entered.take():
                log.mark(f"{path} is another file now: it is read from its beginning")
                entered = opened(path, log)
        elif is_once:
            return
        else:
            time.sleep(WAIT)
            entered = entered or opened(path, log)


def say(text):
    print(f"trail.py: {text}", file=sys.stderr, flush=True)


def main(words):
    if len(words) not in (2, 3) or words[2:] not in ([], ["--once"]):
        print(__doc__, file=sys.stderr)
        return 2
    try:
        follow(words[0], Log(words[1]), len(words) == 3)
    except Fault as fault:
        say(fault)
        return fault.status
    except OSError as fault:
        say(f"{fault.filename or words[0]}: {fault.strerror}")
        return 1
    return 0


if __name__ == "__main__":
    sys.exit(main(sys.argv[1:]))
