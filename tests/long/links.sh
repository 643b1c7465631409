#!/bin/sh
# Sends generated links to a `serve` of four doors: random bytes, requests with bytes changed, doubled and lost, texts that are
# cut or closed anywhere, resets before the answer; 10,000 links or as many as the first argument says, drawn from the seed of
# the second. Between them each door is asked good calls, whose answers must be the right ones. In the end the journal has each
# call that an answer told as accepted, at its place, and no other than calls that were sent; `serve` has ended by itself, and says
# that it served as many links as there were. It stops after ten minutes. Not part of the merge gate.
top=$(cd "$(dirname "$0")/../.." && pwd)
. "$top/tests/lib/program.sh"
books=${BOOKS:-$(built books)}
scratch=$(mktemp -d) || exit 1
trap 'rm -rf "$scratch"' EXIT
cp "$top/examples/rivertown/chart.toml" "$scratch/chart.toml"
cd "$scratch" && PYTHONPATH=$top/tests/lib timeout 600 python3 - "$program" "$books" "${1:-10000}" "${2:-1}" <<'PY'
import contextlib, itertools, json, random, re, subprocess, sys, threading

from doors import Serve, calls_of, get, post

PROGRAM, BOOKS, LINKS, SEED = *sys.argv[1:3], int(sys.argv[3]), int(sys.argv[4])
DOORS, GOOD = 4, 8  # a good call after so many links
ACCOUNTS = [(10, 510), (10, 520), (10, 710), (20, 510)]
PER_DOOR = -(-LINKS // DOORS)

def voucher(door, number):
    dept, object_ = ACCOUNTS[door]
    return {"call": "voucher", "desk": 4, "key": f"v{door}-{number}", "on": "2025-07-05", "vendor": 77,
            "items": [{"fund": 1, "dept": dept, "object": object_, "amount": 1}]}

class Caller(threading.Thread):
    """Speaks at one door. It keeps the texts of the calls that it sent, by key, and the places that answers told."""

    def __init__(self, serve, door):
        super().__init__()
        self.serve, self.door, self.draw = serve, door, random.Random(SEED * DOORS + door)
        self.numbers, self.seen = itertools.count(1), 1
        self.sent, self.told, self.wrong, self.answers = [], [], [], 0

    def run(self):
        for number in range(PER_DOOR):
            try:
                self.good() if number % GOOD == GOOD - 1 or number == PER_DOOR - 1 else self.bad()
            except OSError as fault:
                self.wrong.append(f"link {number}: {fault!r}")
                if self.serve.process.poll() is not None:
                    return

    def good(self):
        """A call, its repeat, and a look that must see it."""
        call = voucher(self.door, next(self.numbers))
        self.sent.append(call)
        with self.serve.link(self.door) as link:
            (code, reply), again = link.call(call), link.call(call)
            at = reply["at"] if code == 200 else None
            self.told.append((at, call))
            if not at or again != (200, {**reply, "at": again[1].get("at"), "was": at}) or again[1]["at"] < at:
                self.wrong.append(f"{call['key']}: {code} {reply}, then {again}")
            look = link.call({"call": "line", "line": self.door, "year": 2026, "after": at or 0})
            if look[0] != 200 or look[1]["at"] < (at or 0):
                self.wrong.append(f"a look after {at}: {look}")

    def request(self):
        """A request, mostly in form."""
        kind = self.draw.randrange(4)
        if kind == 0:
            return get(self.draw.choice(["/lines/3/2026", "/reports/2026/balance", "/calls", "/", "/lines/9/9", "/lines/70000/2026"]))
        if kind == 1:
            return post(self.draw.randbytes(self.draw.randrange(300)))
        call = voucher(self.door, next(self.numbers))
        self.sent.append(call)
        return post(json.dumps(call))

    def changed(self, text):
        """The text with a few bytes changed, doubled or lost. A call that this makes is kept as sent."""
        text = bytearray(text)
        for _ in range(self.draw.randrange(1, 5)):
            at = self.draw.randrange(len(text))
            kind = self.draw.randrange(4)
            if kind == 0:
                text[at] = self.draw.randrange(256)
            elif kind == 1:
                text[at:at] = text[at:at + self.draw.randrange(1, 40)]
            elif kind == 2:
                del text[at:at + self.draw.randrange(1, 10)]
            else:
                text[at] ^= 1 << self.draw.randrange(8)
        with contextlib.suppress(ValueError, IndexError):
            body = re.split(rb"\n\r?\n", text, maxsplit=1)[1].decode(errors="replace")
            self.sent.append(json.JSONDecoder().raw_decode(body)[0])
        return bytes(text)

    def text(self):
        kind = self.draw.randrange(6)
        if kind == 0:
            return self.draw.randbytes(self.draw.choice([1, 20, 300, 20000]))
        if kind == 1:
            return self.changed(self.request())
        if kind == 2:
            return b"GET / HTTP/1.1\r\nHost: a\r\n" + b"x: y\r\n" * self.draw.choice([60, 70, 5000])
        if kind == 3:
            size, body = self.draw.choice([0, 5, 262144, 262145, 10**30]), b"[" * self.draw.choice([0, 3, 300000])
            return b"POST /calls HTTP/1.1\r\nHost: a\r\nContent-Length: %d\r\n\r\n" % size + body
        return b"".join(self.request() for _ in range(self.draw.randrange(1, 5)))

    def bad(self):
        text = self.text()
        if self.draw.randrange(2):
            text = text[:self.draw.randrange(len(text) + 1)]
        with self.serve.link(self.door) as link, contextlib.suppress(ConnectionError):
            at = 0
            while at < len(text):
                size = self.draw.choice([1, 7, 100, 1 << 20])
                link.send(text[at:at + size] if at < 200 else text[at:])
                at = at + size if at < 200 else len(text)
            how = self.draw.randrange(4)
            if how == 0:
                return  # closed, with answers unread
            if how == 1:
                return link.reset()
            link.end()
            if how == 2:
                self.read(link)
            else:
                self.answers += bool(link.more())

    def read(self, link):
        """Reads all answers. An accepted call is found among those sent by its number."""
        while answer := link.answer():
            self.answers += 1
            reply = json.loads(answer.body)
            if answer.code == 200 and "voucher" in reply.get("ok", {}) and "was" not in reply:
                self.told.append((reply["at"], None))
            elif answer.code not in (200, 400, 404, 405, 409, 413, 501):
                self.wrong.append(f"{answer}")

subprocess.run([PROGRAM, "found"], stdout=subprocess.DEVNULL, check=True)
first = {"call": "adopt", "desk": 1, "key": "b", "on": "2025-07-01", "fund": 1, "year": 2026,
         "lines": [{"line": line, "amount": 1000000000} for line in range(DOORS)], "estimates": []}
subprocess.run([PROGRAM, "desk"], input=json.dumps(first).encode(), stdout=subprocess.DEVNULL, check=True)
serve = Serve(PROGRAM, DOORS, PER_DOOR)
callers = [Caller(serve, door) for door in range(DOORS)]
for caller in callers:
    caller.start()
for caller in callers:
    caller.join()
wrong = list(itertools.chain.from_iterable(caller.wrong for caller in callers))
# A connection that was broken before the door took it may not count as a link: what is left is given now.
for caller in callers:
    with contextlib.suppress(OSError):
        for _ in range(PER_DOOR):
            if serve.process.poll() is not None:
                break
            with serve.link(caller.door) as link:
                link.socket.settimeout(1)
                link.ask(get("/"))
status, out, said = serve.end()
if (status, out, said) != (0, f"served {DOORS * PER_DOOR} links\n", ""):
    wrong.append(f"the end: {status} {out!r} {said!r}")
entries, whole = calls_of(BOOKS)
if not whole:
    wrong.append("the journal is damaged")
sent = {json.dumps({k: v for k, v in call.items() if k != "after"}, sort_keys=True)
        for caller in callers for call in caller.sent if isinstance(call, dict)}
told = sorted((at or 0, call and call["key"]) for caller in callers for at, call in caller.told)
if len({at for at, _ in told}) != len(told):
    wrong.append("two calls were told one place")
for at, key in told:
    if not 1 < at <= len(entries) or key not in (None, entries[at - 1]["key"]):
        wrong.append(f"the entry at {at} isn't {key}")
for at, entry in enumerate(entries[1:], 2):
    if json.dumps(entry, sort_keys=True) not in sent:
        wrong.append(f"the entry at {at} was never sent: {entry}")
if len({(entry["desk"], entry["key"]) for entry in entries}) != len(entries):
    wrong.append("an entry is there twice")
answers = sum(caller.answers for caller in callers)
print(f"links: {DOORS * PER_DOOR:,} links, {answers:,} answers to bad ones, {len(entries):,} entries, {len(told):,} told")
for text in wrong[:10]:
    print("failed: " + text)
print(f"links: {len(wrong)} failed")
sys.exit(bool(wrong))
PY
