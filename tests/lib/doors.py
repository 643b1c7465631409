"""A `serve` that is started, spoken to over its doors and watched to its end: read by the scripts of tests/ and bench/."""
import atexit
import collections
import contextlib
import fcntl
import json
import os
import random
import socket
import subprocess
import sys
import tempfile
import time

PATIENCE = 30  # seconds that an answer, a start or an end is waited for

Answer = collections.namedtuple("Answer", "code fields body")


# Two programs that pick ports at the same time could pick the same ones: the second waits until the first has ended.
TURN = open(os.path.join(tempfile.gettempdir(), f"cityfund-ports-{os.getuid()}"), "w")


def free_ports(count):
    """The first of so many ports in a row at which nobody listens."""
    fcntl.flock(TURN, fcntl.LOCK_EX)
    while True:
        first = random.randrange(12000, 30000)  # below those that the system gives to callers
        with contextlib.ExitStack() as held, contextlib.suppress(OSError):
            for port in range(first, first + count):
                held.enter_context(socket.socket()).bind(("127.0.0.1", port))
            return first


class Serve:
    """The program, serving so many links at each of so many doors in the current folder, with this environment or the caller's."""

    def __init__(self, program, doors, links, first=None, out=subprocess.PIPE, env=None):
        self.doors, self.first = doors, first or free_ports(doors)
        words = ["serve", "--port", str(self.first), "--doors", str(doors), "--links", str(links)]
        self.process = subprocess.Popen([program, *words], stdout=out, stderr=subprocess.PIPE, env=env)
        atexit.register(self.process.kill)

    def link(self, door):
        """A link at a door, from 0, as soon as the door listens."""
        return Link(self.first + door, self.process)

    def kill(self):
        self.process.kill()
        self.process.communicate()

    def end(self):
        """The status and all that was printed and said, once the program ends by itself; a status of None where it doesn't."""
        try:
            said = self.process.communicate(timeout=PATIENCE)
        except subprocess.TimeoutExpired:
            self.kill()
            return None, "", "it goes on"
        return (self.process.returncode, *((text or b"").decode() for text in said))

    def end_served(self, links):
        """Ends this run too, with a sentence, where the program doesn't end after so many links."""
        status, out, said = self.end()
        if (status, out, said) != (0, f"served {links} links\n", ""):
            sys.exit(f"serve ended with {status}, {out!r} and {said!r}")


class Link:
    """A connection to a port. Where a process is told, a port that refuses is tried again while that process runs."""

    def __init__(self, port, process=None):
        until = time.time() + PATIENCE
        while True:
            try:
                self.socket = socket.create_connection(("127.0.0.1", port), timeout=PATIENCE)
                break
            except ConnectionRefusedError:
                if process is None or process.poll() is not None or time.time() > until:
                    raise
                time.sleep(0.005)
        self.socket.setsockopt(socket.IPPROTO_TCP, socket.TCP_NODELAY, 1)
        self.rest = b""

    def __enter__(self):
        return self

    def __exit__(self, *_):
        self.close()

    def close(self):
        self.socket.close()

    def send(self, data):
        self.socket.sendall(data)

    def end(self):
        """Tells the peer that no more comes."""
        with contextlib.suppress(OSError):
            self.socket.shutdown(socket.SHUT_WR)

    def reset(self):
        """Ends the link at once, whatever was sent or is still to be read."""
        self.socket.setsockopt(socket.SOL_SOCKET, socket.SO_LINGER, b"\1\0\0\0\0\0\0\0")
        self.close()

    def more(self):
        """Whether more bytes came, before the peer ended the link."""
        try:
            piece = self.socket.recv(1 << 16)
        except ConnectionError:
            piece = b""
        self.rest += piece
        return bool(piece)

    def all(self):
        """All bytes up to the end of the link."""
        while self.more():
            pass
        return self.rest

    def answer(self):
        """The next answer, or None where the link ends before it is whole."""
        while b"\r\n\r\n" not in self.rest:
            if not self.more():
                return None
        head, _, self.rest = self.rest.partition(b"\r\n\r\n")
        status, *lines = head.decode("latin-1").split("\r\n")
        fields = {name.lower(): value for name, value in (line.split(": ", 1) for line in lines)}
        size = int(fields["content-length"])
        while len(self.rest) < size:
            if not self.more():
                return None
        body, self.rest = self.rest[:size], self.rest[size:]
        return Answer(int(status.split(" ")[1]), fields, body.decode())

    def ask(self, data):
        """The answer to a request."""
        with contextlib.suppress(ConnectionError):
            self.send(data)
        return self.answer()

    def call(self, call):
        """The answer to a call, as its code and what its body says; two times None where none came."""
        answer = self.ask(post(json.dumps(call)))
        return (answer.code, json.loads(answer.body)) if answer else (None, None)


def post(body):
    body = body if isinstance(body, bytes) else body.encode()
    return b"POST /calls HTTP/1.1\r\nHost: a\r\nContent-Length: %d\r\n\r\n" % len(body) + body


def get(path):
    return f"GET {path} HTTP/1.1\r\nHost: a\r\n\r\n".encode()


def calls_of(books):
    """The entries of the journal in the current folder, each as its call, and whether the journal is whole."""
    done = subprocess.run([books, "calls"], stdout=subprocess.PIPE)
    return [json.loads(line) for line in done.stdout.splitlines()], done.returncode == 0


class Verdicts:
    """Counts what holds, and says what doesn't."""

    def __init__(self, name):
        self.name, self.passed, self.failed = name, 0, 0

    def verdict(self, name, holds, said=""):
        if holds:
            self.passed += 1
        else:
            self.failed += 1
            print(f"failed: {name}: {said}")

    def same(self, name, got, wanted):
        self.verdict(name, got == wanted, f"{got!r}, not {wanted!r}")

    def status(self):
        """Says the counts; 1 where something failed."""
        print(f"{self.name}: {self.passed} passed, {self.failed} failed")
        return int(self.failed > 0)
