"""Reads a journal by docs/JOURNAL.md alone, and compares its entries with the accepted lines of a talk.

    journal.py JOURNAL                   prints each entry as its call, one a line
    journal.py --end JOURNAL             prints the place of the first closed gate, where the history ends
    journal.py JOURNAL TALK REPLIES      says where an entry isn't the call that was accepted at its place, and ends with 1; so it does
                                         where something else than zeros up to a multiple of 64 KiB stands behind entries
"""

import datetime
import json
import struct
import sys


class Fields:
    """The fields of a journal, from its front on."""

    def __init__(self, bytes_, at):
        self.bytes, self.at = bytes_, at

    def take(self, size):
        taken = self.bytes[self.at : self.at + size]
        if len(taken) < size:
            raise SystemExit(f"the journal ends in a field at {self.at}")
        self.at += size
        return taken

    def b(self):
        return self.take(1)[0]

    def h(self):
        return struct.unpack(">H", self.take(2))[0]

    def w(self):
        return struct.unpack(">I", self.take(4))[0]

    def d(self):
        return struct.unpack(">Q", self.take(8))[0]

    def signed(self):
        return -self.d() if self.b() == 1 else self.d()

    def month(self):
        return f"{self.h():04}-{self.b():02}"

    def list(self, item):
        return [item() for _ in range(self.h())]

    def named(self, text):
        """The fields of a text of names, each with its kind: `fund:h amount:d`."""
        return {name: getattr(self, kind)() for name, kind in (field.split(":") for field in text.split())}

    def account(self):
        return self.named("fund:h dept:h object:h amount:d")

    def voucher_item(self):
        item = self.account()
        if self.b() == 1:
            item |= self.named("order:w item:h")
            how = self.b()
            if how == 1:
                item["recorded"] = self.d()
            elif how == 2:
                item["final"] = True
        return item

    def terms(self):
        call = self.named("rate_bp:h every:b")
        return call | {"principals": self.list(self.d)}


def adopt(f):
    call = f.named("fund:h year:h")
    call["lines"] = f.list(lambda: f.named("line:h amount:d"))
    call["estimates"] = f.list(lambda: f.named("source:h amount:d"))
    return call


def order(f):
    call = f.named("vendor:w")
    if f.b() == 1:
        call["requisition"] = f.w()
    return call | {"items": f.list(f.account), "drawn": {"order": f.w()}}


def voucher(f):
    call = f.named("vendor:w")
    if f.b() == 1:
        call["back"] = True
    return call | {"items": f.list(f.voucher_item), "drawn": {"voucher": f.w(), "first asset": f.w()}}


def asset(f):
    if f.b() == 1:
        return {"what": "dispose"} | f.named("asset:w fund:h proceeds:d")
    return {"what": "donate"} | f.named("dept:h object:h amount:d") | {"drawn": {"asset": f.w()}}


def issue(f):
    return f.named("fund:h amount:d") | f.terms() | {"drawn": {"bond": f.w()}}


def lease(f):
    return f.named("vendor:w") | f.account() | f.terms() | {"drawn": f.named("asset:w bond:w")}


def leave(f):
    what = ("earn", "use", "mature")[f.b()]
    return {"what": what} | f.named("fund:h dept:h" + " object:h" * (what == "mature") + " amount:d")


def interfund(f):
    return {"what": ("transfer", "loan", "repay")[f.b()]} | f.named("from:h to:h amount:d")


def close(f):
    return {"what": "month", "month": f.month()} if f.b() == 0 else {"what": "year", "year": f.h()}


def plain(text, drawn=""):
    def read(f):
        call = f.named(text)
        return call | {"drawn": f.named(drawn)} if drawn else call

    return read


KINDS = [
    ("adopt", adopt),
    ("amend", plain("fund:h year:h line:h by:signed")),
    ("transfer", plain("fund:h year:h from:h to:h amount:d")),
    ("requisition", lambda f: {"items": f.list(f.account), "drawn": {"requisition": f.w()}}),
    ("withdraw", plain("requisition:w")),
    ("order", order),
    ("change_order", plain("order:w item:h fund:h dept:h object:h by:signed")),
    ("cancel_order", plain("order:w")),
    ("voucher", voucher),
    ("void_voucher", plain("voucher:w")),
    ("pay", lambda f: {"vouchers": f.list(f.w)}),
    ("bill", plain("source:h levy_year:h payer:w amount:d", "bill:w")),
    ("collect", plain("bill:w amount:d")),
    ("receive", plain("source:h amount:d")),
    ("write_off", plain("bill:w amount:d")),
    ("asset", asset),
    ("issue", issue),
    ("pay_due", plain("bond:w fund:h dept:h principal:h interest:h", "payment:h")),
    ("leave", leave),
    ("interfund", interfund),
    ("close", close),
    ("lease", lease),
]
MOST = {1: 21, 2: 22}  # the last kind of each version


def entry(f, version):
    kind, desk = f.b(), f.h()
    if not 1 <= kind <= MOST[version]:
        raise SystemExit(f"no entry of kind {kind} in version {version}")
    key = f.take(f.b()).decode()
    on = datetime.date(1970, 1, 1) + datetime.timedelta(days=f.w())
    word, read = KINDS[kind - 1]
    return {"call": word, "desk": desk, "key": key, "on": on.isoformat()} | read(f)


def entries(journal):
    """The entries, and the place of the first closed gate."""
    f = Fields(journal, 0)
    if f.b() != 1:
        raise SystemExit("no founded journal")
    version = 1 if f.b() == 1 else 2
    f.take(f.w())
    found = []
    while f.b() == 1:
        end = f.w() + f.at
        found.append(entry(f, version))
        if f.at != end:
            raise SystemExit(f"entry {len(found)} ends at {f.at}, not at {end}")
    return found, f.at - 1


def accepted(talk, replies):
    """The calls of a talk that were accepted, with what they drew, by their place."""
    calls = {}
    for line, reply in zip(talk, replies):
        reply = json.loads(reply)
        if "ok" not in reply or "was" in reply:
            continue
        call = {name: value for name, value in json.loads(line).items() if value is not False and name != "after"}
        if "items" in call:
            call["items"] = [{n: v for n, v in item.items() if v is not False} for item in call["items"]]
        calls[reply["at"]] = (call, reply["ok"])
    return calls


def main():
    with open(sys.argv[-1 if sys.argv[1] == "--end" else 1], "rb") as file:
        journal = file.read()
    found, end = entries(journal)
    if sys.argv[1] == "--end":
        print(end)
        return 0
    if len(sys.argv) == 2:
        for call in found:
            print(json.dumps(call, separators=(",", ":")))
        return 0
    with open(sys.argv[2], "rb") as talk, open(sys.argv[3], "rb") as replies:
        calls = accepted(talk, replies)
    differ = set(calls) ^ set(range(1, len(found) + 1))
    for place, call in enumerate(found, 1):
        drawn = call.pop("drawn", {})
        sent, made = calls.get(place, (None, {}))
        known = all(made[name] == number for name, number in drawn.items() if name in made)
        if call != sent or not known:
            differ.add(place)
    for place in sorted(differ):
        print(f"entry {place} isn't the call that was accepted there")
    has_room = not any(journal[end:]) and (not found or len(journal) % 65536 == 0)
    if not has_room:
        print(f"what stands from {end} on isn't room")
    return 0 if has_room and not differ else 1


sys.exit(main())
