"""Tries `serve` over real doors, in a folder with Rivertown's chart that is the current one: run by serve.sh.

    serve.py PROGRAM BOOKS
"""
import json
import os
import re
import socket
import subprocess
import sys
import threading
import time

sys.path.insert(0, os.path.join(os.path.dirname(os.path.abspath(__file__)), "..", "lib"))
from doors import PATIENCE, Link, Serve, Verdicts, calls_of, free_ports, get, post

PROGRAM, BOOKS = sys.argv[1:]
TESTS = os.path.dirname(os.path.abspath(__file__))
REASONS = {200: "OK", 400: "Bad Request", 404: "Not Found", 405: "Method Not Allowed", 409: "Conflict",
           413: "Content Too Large", 500: "Internal Server Error", 501: "Not Implemented", 503: "Service Unavailable"}
EMPTY = {"appropriated": "0", "encumbered": "0", "expended": "0", "held": "0", "original": "0", "room": "0"}
verdicts = Verdicts("doors")


def adopt(amounts, key="b1"):
    return {"call": "adopt", "desk": 1, "key": key, "on": "2025-07-01", "fund": 1, "year": 2026,
            "lines": [{"line": line, "amount": amount} for line, amount in amounts], "estimates": []}


def voucher(key, object_, amount, dept=10):
    return {"call": "voucher", "desk": 4, "key": key, "on": "2025-07-05", "vendor": 77,
            "items": [{"fund": 1, "dept": dept, "object": object_, "amount": amount}]}


def look(line, **after):
    return {"call": "line", "line": line, "year": 2026, **after}


def desk(lines):
    """The replies of a desk over the journal that is there, and its status."""
    text = "".join(json.dumps(line) + "\n" if isinstance(line, dict) else line for line in lines)
    done = subprocess.run([PROGRAM, "desk"], input=text.encode(), stdout=subprocess.PIPE, stderr=subprocess.DEVNULL)
    return done.stdout.decode().splitlines(), done.returncode


def found(*calls):
    """A newly founded journal that has these calls."""
    if os.path.exists("fund.journal"):
        os.remove("fund.journal")
    subprocess.run([PROGRAM, "found"], stdout=subprocess.DEVNULL, check=True)
    desk(calls)


def ends(name, serve, status, out, said=""):
    verdicts.same(f"{name}: the end", serve.end(), (status, out, said))


# ---- the texts of serve.links, each over a link of its own

def text_of(line):
    """The bytes of a line of serve.links."""
    data = re.sub(r"\{\{(.+?)\*(\d+)\}\}", lambda found: found[1] * int(found[2]), line)
    return data.encode().decode("unicode_escape").encode("latin-1")


def answer_of(line):
    """The bytes of an answer of serve.links."""
    mark, code, after, allow, body = line.split(" ", 4)
    fields = [f"HTTP/1.1 {code} {REASONS[int(code)]}", "content-type: application/json", f"content-length: {len(body)}"]
    fields += [f"allow: {allow}"] * (allow != "-") + ["connection: close"] * (after == "closed")
    return "".join(field + "\r\n" for field in fields) + "\r\n" + body * (mark != "<HEAD")


def stored_links():
    """The links of serve.links: the name, the text and the answers."""
    with open(os.path.join(TESTS, "serve.links")) as file:
        blocks = [block.splitlines() for block in file.read().strip().split("\n\n")]
    for name, *lines in blocks[1:]:
        text = b"".join(post(text_of(line[2:])) if line[0] == "+" else text_of(line[2:]) for line in lines if line[0] in ">+")
        yield name, text, "".join(answer_of(line) for line in lines if line[0] == "<").encode()


def texts():
    links = list(stored_links())
    found(adopt([(3, 100000)]))
    serve = Serve(PROGRAM, 1, 2 * len(links))
    for name, text, wanted in links:
        for pieces in ([text], [text[at:at + 7] for at in range(0, min(len(text), 700), 7)] + [text[700:]]):
            with serve.link(0) as link:
                try:
                    for piece in pieces:
                        link.send(piece)
                except ConnectionError:
                    pass  # a link that was closed; its answer is there
                link.end()
                verdicts.same(f"{name}, in {len(pieces)} pieces", link.all(), wanted)
    ends("the stored texts", serve, 0, f"served {2 * len(links)} links\n")
    verdicts.same("the stored texts add nothing", len(calls_of(BOOKS)[0]), 1)


# ---- a talk over a link is that of a desk

def a_day():
    with open(os.path.join(TESTS, "../../examples/first-day.jsonl")) as talk:
        calls = talk.read().splitlines()
    found()
    replies, _ = desk(call + "\n" for call in calls)
    with open("fund.journal", "rb") as journal:
        wanted = journal.read()
    found()
    serve = Serve(PROGRAM, 2, len(calls) // 2)
    for number, (call, reply) in enumerate(zip(calls, replies, strict=True)):
        # A look at another door than that of the last change may say so by `after` alone.
        with serve.link(0 if number < len(calls) // 2 else 1) as link:
            answer = link.ask(post(call))
        code = 400 if '"form"' in reply else 409 if '"no":' in reply else 200
        verdicts.same(f"line {number + 1} of the first day", answer and (answer.code, answer.body), (code, reply))
    ends("the first day", serve, 0, f"served {len(calls) // 2 * 2} links\n")
    with open("fund.journal", "rb") as journal:
        verdicts.verdict("the first day's journal is that of a desk", journal.read() == wanted)


# ---- two doors

def two_doors_at_once():
    """Two links take what two lines have, in opposite order: only one voucher finds room."""
    found(adopt([(0, 100000), (1, 100000)]))
    serve = Serve(PROGRAM, 2, 1)
    said, go = {}, threading.Barrier(2)

    def speak(door, objects):
        items = [{"fund": 1, "dept": 10, "object": object_, "amount": 10000} for object_ in objects]
        order = {"call": "order", "desk": 3, "key": f"o{door}", "on": "2025-07-05", "vendor": 77, "items": items}
        with serve.link(door) as link:
            go.wait(PATIENCE)
            said[door] = [link.call(order), link.call(voucher(f"v{door}", 510, 80000))]

    speakers = [threading.Thread(target=speak, args=at) for at in enumerate([(510, 520), (520, 510)])]
    for speaker in speakers:
        speaker.start()
    for speaker in speakers:
        speaker.join()
    ends("two doors at once", serve, 0, "served 2 links\n")
    answers = [answer for answers in said.values() for answer in answers]
    places = sorted(reply["at"] for code, reply in answers if code == 200)
    refused = [reply for code, reply in answers if code == 409]
    verdicts.same("two orders and a voucher are accepted", places, [2, 3, 4])
    no = {"asked": "80000", "code": 24, "line": 0, "name": "Exceeds", "room": "0"}
    verdicts.same("the other voucher is refused", refused, [{"at": 4, "no": no}])
    verdicts.same("the orders are accepted", [said[door][0][0] for door in (0, 1)], [200, 200])
    replies, _ = desk([look(0)])
    verdicts.same("the line has no room", json.loads(replies[0])["is"]["room"], "0")


def one_line_at_many_doors():
    """Four doors spend on one line at once, together more than it has: each voucher is answered, and as many find room as there is."""
    found(adopt([(0, 100)]))
    serve = Serve(PROGRAM, 4, 1)
    said, go = {}, threading.Barrier(4)

    def speak(door):
        with serve.link(door) as link:
            go.wait(PATIENCE)
            said[door] = [link.call(voucher(f"v{door}-{number}", 510, 1)) for number in range(40)]

    speakers = [threading.Thread(target=speak, args=(door,)) for door in range(4)]
    for speaker in speakers:
        speaker.start()
    for speaker in speakers:
        speaker.join()
    ends("one line at many doors", serve, 0, "served 4 links\n")
    answers = [answer for answers in said.values() for answer in answers]
    verdicts.same("each voucher is answered", len(answers), 160)
    places = sorted(reply["at"] for code, reply in answers if code == 200)
    verdicts.same("the line's room is spent, each cent of it once", places, list(range(2, 102)))
    no = {"at": 101, "no": {"asked": "1", "code": 24, "line": 0, "name": "Exceeds", "room": "0"}}
    verdicts.same("the others find no room", [answer for answer in answers if answer[0] != 200], [(409, no)] * 60)


def half_a_call():
    """A link that has sent half of a call holds up no other door: the call is judged once the rest has come."""
    found(adopt([(0, 100000)]))
    serve = Serve(PROGRAM, 2, 1)
    call = post(json.dumps(voucher("v1", 510, 60000)))
    with serve.link(0) as half, serve.link(1) as other:
        half.send(call[:-20])
        code, reply = other.call(voucher("v2", 510, 60000))
        verdicts.same("a call at the other door", (code, reply and reply["at"]), (200, 2))
        half.send(call[-20:])
        answer = half.answer()
        no = {"asked": "60000", "code": 24, "line": 0, "name": "Exceeds", "room": "40000"}
        verdicts.same("the rest of the call", answer and (answer.code, json.loads(answer.body)), (409, {"at": 2, "no": no}))
    ends("half a call", serve, 0, "served 2 links\n")


def after_across_doors():
    found(adopt([(0, 100000)]))
    serve = Serve(PROGRAM, 2, 1)
    with serve.link(0) as first, serve.link(1) as second:
        for number in range(1, 201):
            code, reply = first.call(voucher(f"v{number}", 510, 1))
            seen = second.call(look(0, after=reply["at"]))
            wanted = {"appropriated": "100000", "encumbered": "0", "expended": str(number), "held": "0", "original": "100000",
                      "room": str(100000 - number)}
            if (code, seen) != (200, (200, {"at": number + 1, "is": wanted})):
                verdicts.same(f"voucher {number} is seen at the other door", (code, seen), wanted)
                break
        else:
            verdicts.verdict("each of 200 vouchers is seen at the other door", True)
        no = {"after": 202, "code": 2, "length": 201, "name": "Ahead"}
        verdicts.same("what no door has seen", second.call(look(0, after=202)), (409, {"at": 201, "no": no}))
        # A report by its path, and the same by a call.
        path, call = second.ask(get("/reports/2026/budget")), second.call({"call": "report", "year": 2026, "kind": "budget", "after": 201})
        verdicts.same("a report by its path", path and (path.code, json.loads(path.body)), call)
    ends("after across doors", serve, 0, "served 2 links\n")


def one_link_at_a_door():
    """A link waits until the one before it at its door has ended; the other door goes on meanwhile."""
    found()
    serve = Serve(PROGRAM, 2, 2)
    with serve.link(0) as slow, serve.link(0) as behind, serve.link(1) as other:
        slow.send(b"GET /lines/0/2026 HT")
        behind.send(get("/lines/0/2026"))
        verdicts.same("the other door answers", other.call(look(0)), (200, {"at": 0, "is": EMPTY}))
        behind.socket.settimeout(0.5)
        try:
            behind.more()
            verdicts.verdict("a second link waits", False, behind.rest)
        except socket.timeout:
            verdicts.verdict("a second link waits", True)
        behind.socket.settimeout(PATIENCE)
        slow.send(b"TP/1.1\r\nHost: a\r\n\r\n")
        verdicts.same("the slow link is answered", slow.answer().code, 200)
        slow.end()
        answer = behind.answer()
        verdicts.same("then the second", answer and answer.code, 200)
    serve.link(1).close()
    ends("a link at a time", serve, 0, "served 4 links\n")


def slow_and_silent():
    """A link that sends a byte a second holds up no other door. A silent one holds its own for ten seconds."""
    found()
    serve = Serve(PROGRAM, 3, 2)
    done = threading.Event()

    def drip(link):
        for byte in get("/lines/0/2026"):
            if done.wait(1):
                return
            link.send(bytes([byte]))

    with serve.link(0) as slow, serve.link(1) as silent, serve.link(1) as behind, serve.link(2) as other:
        dripping = threading.Thread(target=drip, args=(slow,))
        dripping.start()
        start = time.time()
        worst = 0
        for _ in range(100):
            asked = time.time()
            other.call(look(0))
            worst = max(worst, time.time() - asked)
        verdicts.verdict("looks at another door don't wait for a slow link", worst < 1, f"{worst:.2f} s")
        answer = behind.ask(get("/lines/0/2026"))
        waited = time.time() - start
        verdicts.same("a link behind a silent one is answered", answer and answer.code, 200)
        verdicts.verdict("after its patience", 8 < waited < 15, f"{waited:.1f} s")
        verdicts.same("the silent one gets nothing", silent.all(), b"")
        done.set()
        dripping.join()
    serve.link(0).close()
    serve.link(2).close()
    ends("slow and silent links", serve, 0, "served 6 links\n")


def untaken():
    """A link whose answers nobody takes is ended, and then the link behind it is answered. Each write
    waits ten seconds for room, and one that found room for a part of its bytes is followed by another."""
    found()
    serve = Serve(PROGRAM, 1, 2)
    start = time.time()
    with serve.link(0) as stuck:
        stuck.socket.setsockopt(socket.SOL_SOCKET, socket.SO_RCVBUF, 4096)
        stuck.socket.settimeout(1)
        try:
            while True:
                stuck.socket.send(1000 * get("/reports/2026/operating"))
        except socket.timeout:
            pass
        with serve.link(0) as behind:
            behind.socket.settimeout(2 * PATIENCE)
            answer = behind.ask(get("/lines/0/2026"))
    waited = time.time() - start
    verdicts.same("a link behind one that takes nothing is answered", answer and answer.code, 200)
    verdicts.verdict("after its patience, for a few writes", 10 <= waited < 45, f"{waited:.1f} s")
    ends("a link that takes nothing", serve, 0, "served 2 links\n")


def lost_replies():
    """A call whose reply is lost stays: its repeat, at another door, says where it was."""
    found(adopt([(0, 100000)]))
    serve = Serve(PROGRAM, 2, 20)
    for number in range(1, 20):
        call = voucher(f"v{number}", 510, 1)
        link = serve.link(0)
        link.send(post(json.dumps(call)))
        if number % 2:
            link.end()
            link.close()
        else:
            link.more()
            link.reset()
        # The next link at the door is served once that one has ended, and by then its call was taken.
        with serve.link(0 if number == 19 else 1) as other:
            code, reply = other.call(call)
        places = (reply.get("at"), reply.get("was", reply.get("at"))) if code == 200 else None
        verdicts.same(f"voucher {number} is there once", places, (number + 1, number + 1))
    for door in (1, 1):
        serve.link(door).close()
    ends("lost replies", serve, 0, "served 40 links\n")
    verdicts.same("each call is there once", [call["key"] for call in calls_of(BOOKS)[0]], ["b1"] + [f"v{n}" for n in range(1, 20)])


# ---- how it ends

def a_door_that_cannot_open():
    """A port that is taken ends its own door; the other one is served to its end."""
    found()
    first = free_ports(2)
    with socket.socket() as taken:
        taken.bind(("127.0.0.1", first))
        taken.listen()
        serve = Serve(PROGRAM, 2, 2, first)
        for _ in range(2):
            with serve.link(1) as link:
                verdicts.same("the other door answers", link.call(look(0)), (200, {"at": 0, "is": EMPTY}))
        ends("a door that can't open", serve, 10, "", "cityfund: door fault\n")


def no_room_for_the_last_line():
    found()
    with open("/dev/full", "wb") as full:
        serve = Serve(PROGRAM, 1, 1, out=full)
        with serve.link(0) as link:
            link.call(adopt([(3, 5)]))
        ends("an output that is full", serve, 5, "", "cityfund: write fault\n")
    verdicts.same("the call is in the journal all the same", len(calls_of(BOOKS)[0]), 1)


def beside_a_desk():
    """One program works on a journal at a time, whichever is first."""
    found()
    serve = Serve(PROGRAM, 1, 1)
    with serve.link(0) as link:
        link.call(look(0))
        verdicts.same("a desk beside serve", desk([look(0)]), ([], 6))
        second = Serve(PROGRAM, 1, 1)
        ends("a second serve", second, 6, "", "cityfund: disk fault\n")
    ends("the first serve", serve, 0, "served 1 links\n")
    verdicts.same("a desk after serve", desk([look(0)])[1], 0)


for part in (texts, a_day, two_doors_at_once, one_line_at_many_doors, half_a_call, after_across_doors, one_link_at_a_door,
             slow_and_silent, untaken, lost_replies, a_door_that_cannot_open, no_room_for_the_last_line, beside_a_desk):
    try:
        part()
    except (OSError, AttributeError, TypeError, KeyError) as fault:
        verdicts.verdict(part.__name__, False, repr(fault))
sys.exit(verdicts.status())
