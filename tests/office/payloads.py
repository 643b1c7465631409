"""An entry as the bytes of a journal's payload, version 2 (docs/JOURNAL.md), both ways.

The fields of each kind stand in one table. What is read is an entry only where its values are in form.
"""
import datetime
import struct

from forms import PERIODS

MOST = 10**13
SIZES = dict(b=">B", h=">H", w=">I", d=">Q")
ACCOUNT = "fund:h dept:h object:h amount:d"
TERMS = "rate_bp:h every:b principals:d*"
KINDS = dict(
    adopt="fund:h year:h lines:(line:h amount:d)* estimates:(source:h amount:d)*",
    amend="fund:h year:h line:h by:S",
    transfer="fund:h year:h from:h to:h amount:d",
    requisition="items:A* number:w",
    withdraw="requisition:w",
    order="vendor:w requisition:?w items:A* number:w",
    change_order="order:w item:h fund:h dept:h object:h by:S",
    cancel_order="order:w",
    voucher="vendor:w back:B items:V* number:w first:w",
    void_voucher="voucher:w",
    pay="vouchers:w*",
    bill="source:h levy_year:h payer:w amount:d number:w",
    collect="bill:w amount:d",
    receive="source:h amount:d",
    write_off="bill:w amount:d",
    asset=dict(donate="dept:h object:h amount:d number:w", dispose="asset:w fund:h proceeds:d"),
    issue="fund:h amount:d " + TERMS + " number:w",
    pay_due="bond:w fund:h dept:h principal:h interest:h payment:h",
    leave=dict(earn="fund:h dept:h amount:d", use="fund:h dept:h amount:d", mature=ACCOUNT),
    interfund=dict.fromkeys(("transfer", "loan", "repay"), "from:h to:h amount:d"),
    close=dict(month="month:M", year="year:h"),
    lease="vendor:w " + ACCOUNT + " " + TERMS + " asset:w bond:w",
)
DRAWN = dict(number="number", first="first", payment="payment")  # and a lease's asset and bond


class NoEntry(Exception):
    """The bytes are no entry's payload."""


def fields(text):
    """A text of fields, each a name with its kind, where blanks in brackets part nothing."""
    depth, names = 0, [""]
    for sign in text:
        depth += (sign == "(") - (sign == ")")
        if sign == " " and depth == 0:
            names.append("")
        else:
            names[-1] += sign
    return [name.split(":", 1) for name in names]


def is_drawn(call, name):
    return name in DRAWN or call == "lease" and name in ("asset", "bond")


# ---- writing

def pack(kind, value):
    return struct.pack(SIZES[kind], value)


def written(kind, value):
    """The bytes of one field."""
    if kind.endswith("*"):
        inner = kind[:-1]
        return pack("h", len(value)) + b"".join(written(inner, part) for part in value)
    if kind.startswith("("):
        return b"".join(written(k, value[name]) for name, k in fields(kind[1:-1]))
    if kind.startswith("?"):
        return b"\0" if value is None else b"\1" + written(kind[1:], value)
    if kind == "A":
        return written("(%s)" % ACCOUNT, value)
    if kind == "V":
        return written("A", value) + written_use(value)
    if kind == "S":
        return pack("b", int(value < 0)) + pack("d", abs(value))
    if kind == "B":
        return pack("b", int(bool(value)))
    if kind == "M":
        return pack("h", int(value[:4])) + pack("b", int(value[5:]))
    return pack(kind, value)


def written_use(item):
    if "order" not in item:
        return b"\0"
    how = b"\2" if item.get("final") else b"\1" + pack("d", item["recorded"]) if "recorded" in item else b"\0"
    return b"\1" + pack("w", item["order"]) + pack("h", item["item"]) + how


def payload_of(call, drawn):
    """The payload of a call with the numbers that it drew, by their names."""
    word, kinds = call["call"], list(KINDS)
    body = KINDS[word]
    head = struct.pack(">BHB", kinds.index(word) + 1, call["desk"], len(call["key"])) + call["key"].encode()
    head += pack("w", (datetime.date.fromisoformat(call["on"]) - datetime.date(1970, 1, 1)).days)
    if isinstance(body, dict):
        head += pack("b", list(body).index(call["what"]))
        body = body[call["what"]]
    values = {**call, **{name: drawn[name] for name, _ in fields(body) if is_drawn(word, name)}}
    return head + b"".join(written(kind, values.get(name)) for name, kind in fields(body))


# ---- reading

class Bytes:
    def __init__(self, text):
        self.text, self.at = text, 0

    def take(self, size):
        if self.at + size > len(self.text):
            raise NoEntry("it is cut short")
        self.at += size
        return self.text[self.at - size : self.at]

    def unpack(self, kind):
        return struct.unpack(SIZES[kind], self.take(struct.calcsize(SIZES[kind])))[0]

    def choice(self, most):
        found = self.unpack("b")
        need(found <= most)
        return found

    def read(self, kind):
        if kind.endswith("*"):
            return [self.read(kind[:-1]) for _ in range(self.unpack("h"))]
        if kind.startswith("("):
            return {name: self.read(k) for name, k in fields(kind[1:-1])}
        if kind.startswith("?"):
            return self.read(kind[1:]) if self.choice(1) else None
        if kind == "A":
            return self.read("(%s)" % ACCOUNT)
        if kind == "V":
            return {**self.read("A"), **self.use()}
        if kind == "S":
            return (-1) ** self.choice(1) * self.unpack("d")
        if kind == "B":
            return bool(self.choice(1))
        if kind == "M":
            return "%04d-%02d" % (self.unpack("h"), self.unpack("b"))
        return self.unpack(kind)

    def use(self):
        if not self.choice(1):
            return {}
        its, how = dict(order=self.unpack("w"), item=self.unpack("h")), self.choice(2)
        return its | ({}, dict(recorded=self.unpack("d")) if how == 1 else {}, dict(final=True))[how]


def need(holds):
    if not holds:
        raise NoEntry("it is against a rule of form")


def entry_of(payload):
    """The call of a payload and what it drew, or NoEntry."""
    text = Bytes(payload)
    kind, desk = text.unpack("b"), text.unpack("h")
    need(1 <= kind <= len(KINDS))
    key, day = text.take(text.unpack("b")), text.unpack("w")
    need(1 <= len(key) <= 40 and all(0x21 <= byte <= 0x7E for byte in key))
    need(day <= (datetime.date(2199, 12, 31) - datetime.date(1970, 1, 1)).days)
    on = datetime.date(1970, 1, 1) + datetime.timedelta(days=day)
    word, body = list(KINDS.items())[kind - 1]
    call, drawn = dict(call=word, desk=desk, key=key.decode(), on=str(on)), {}
    if isinstance(body, dict):
        call["what"] = list(body)[text.choice(len(body) - 1)]
        body = body[call["what"]]
    for name, its in fields(body):
        (drawn if is_drawn(word, name) else call)[name] = text.read(its)
    need(text.at == len(payload))
    if call.get("requisition", 0) is None:
        del call["requisition"]
    test_form(call, on)
    return call, drawn


def is_amount(cents, least=1):
    return least <= cents <= MOST


def test_form(call, on):
    """The ranges of a call's values and its rules of form, with the limits of amounts."""
    for name in ("year", "levy_year"):
        need(name not in call or 1971 <= call[name] <= 2199)
    for name in ("amount", "by"):
        need(name not in call or is_amount(abs(call[name])))
    need("proceeds" not in call or is_amount(call["proceeds"], 0))
    if "month" in call:
        year, month = map(int, call["month"].split("-"))
        need(1970 <= year <= 2199 and 1 <= month <= 12)
    if call["call"] in ("transfer", "interfund"):
        need(call["from"] != call["to"])
    if call["call"] == "change_order":
        need(call["item"] >= 1)
    if call["call"] == "pay":
        need(1 <= len(call["vouchers"]) <= 64 and is_distinct(call["vouchers"]))
    if call["call"] == "adopt":
        test_rows(call["lines"], "line", 4096)
        test_rows(call["estimates"], "source", 256)
    if "items" in call:
        test_items(call["items"])
    if "principals" in call:
        test_terms(call, on)


def is_distinct(values):
    return len(set(values)) == len(values)


def test_rows(rows, name, most):
    need(len(rows) <= most and is_distinct([row[name] for row in rows]) and all(is_amount(row["amount"]) for row in rows))


def test_items(items):
    need(1 <= len(items) <= 32)
    need(all(is_amount(item["amount"]) and is_amount(item.get("recorded", 1)) for item in items))
    need(is_distinct([(item["order"], item["item"]) for item in items if "order" in item]))


def test_terms(call, on):
    principals, term = call["principals"], call["every"] * len(call["principals"])
    need(on.day <= 28 and call["rate_bp"] <= 10000 and call["every"] in PERIODS)
    need(1 <= len(principals) <= 120 and sum(principals) == call["amount"] and all(is_amount(part, 0) for part in principals))
    need(12 * on.year + on.month - 1 + term <= 12 * 2199 + 11)
    need(call["call"] != "lease" or term > 12)
