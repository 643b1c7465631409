"""Random documents of grants over a chart: good ones, and ones with a fault, in many spellings of TOML 1.0."""
import json

from claims import MOST_BYTES

GRANT_KINDS = ("operating_grant", "capital_grant")


def lines_of(chart, fund):
    return [number for number, line in enumerate(chart["line"]) if line["fund"] == fund]


def good_rows(rng, chart, most=4):
    """Grants on different sources; none where the chart has no source for one."""
    sources = [source for source in chart["source"] if source["kind"] in GRANT_KINDS and lines_of(chart, source["fund"])]
    rng.shuffle(sources)
    ids = rng.sample(range(1, 10000), most)
    rows = []
    for number, source in zip(ids, sources[: rng.randint(1, most)]):
        lines = lines_of(chart, source["fund"])
        rows.append(
            dict(
                id=rng.choice([number, number, 1, 9999]) if not rows else number, source=source["id"], payer=rng.choice([0, 9, 2**32 - 1]),
                award=rng.choice([1, rng.randint(1, 10**4), rng.randint(1, 10**6), 10**13]),
                rate_bp=rng.choice([1, 3333, 8000, 10000, rng.randint(1, 10000)]),
                lines=rng.sample(lines, min(64, rng.choice([1, len(lines), rng.randint(1, len(lines))]))),
            )
        )
    return rows


# ---- spelling

def number_text(rng, value):
    spelled = [str(value)] * 6
    if type(value) is int and value >= 0:
        spelled += [hex(value), oct(value), bin(value), "+%d" % value, "{:_}".format(value)]
    return rng.choice(spelled)


def value_text(rng, value):
    if isinstance(value, Raw):
        return value.text
    if isinstance(value, list):
        between = rng.choice([", ", ",", ",\n    ", ", # one more\n  "])
        end = rng.choice(["", ","]) if value else ""
        return "[%s%s]" % (between.join(value_text(rng, part) for part in value), end)
    if isinstance(value, bool) or not isinstance(value, int):
        return json.dumps(value)
    return number_text(rng, value)


class Raw:
    """A value that is written as it stands."""

    def __init__(self, text):
        self.text = text


def key_text(rng, key):
    return rng.choice([key, key, key, '"%s"' % key, "'%s'" % key])


def document_text(rng, rows):
    """The rows as tables or as one inline list, with remarks, blank lines and unknown keys between them."""
    head = rng.choice(["", "# Grants\n", 'remark = "any"\n\n', "[[donor]]\nid = 0\n\n", "\n\n"])
    if rng.random() < 0.2:
        tables = ("{ %s }" % ", ".join("%s = %s" % (key_text(rng, key), inline(rng, value)) for key, value in shuffled(rng, row)) for row in rows)
        text = rng.choice(["", "# Grants\n", 'remark = "any"\n\n']) + "grant = [%s]\n" % ",\n".join(tables)
    else:
        text = head
        for row in rows:
            text += rng.choice(["[[grant]]\n", "[[ grant ]]  # one\n", '[["grant"]]\n'])
            for key, value in shuffled(rng, row):
                text += "%s%s = %s\n" % (rng.choice(["", "", "  "]), key_text(rng, key), value_text(rng, value))
            text += rng.choice(["\n", "", "# next\n", 'note = "\\u00e9"\n', "since = 2025-07-01\n", "sub.part = [1.5, inf]\n"])
    return text.replace("\n", "\r\n") if rng.random() < 0.1 else text


def inline(rng, value):
    """A value on one line, as inline tables have it."""
    return "[%s]" % ", ".join(value_text(rng, part) for part in value) if isinstance(value, list) else value_text(rng, value)


def shuffled(rng, row):
    items = list(row.items())
    rng.shuffle(items)
    return items


def good_document(rng, chart):
    rows = good_rows(rng, chart)
    return document_text(rng, rows).encode(), [row["id"] for row in rows]


# ---- faults

def wrong_values(rng, chart, key, row):
    """Values that a key can't have."""
    least, most = dict(id=(1, 9999), source=(1, 9999), payer=(0, 2**32 - 1), award=(1, 10**13), rate_bp=(1, 10000), lines=(0, 0))[key]
    wrong = ["7", True, Raw("7.0"), Raw("1e3"), Raw("{}"), Raw("2025-07-01"), Raw("inf"), [], [7], least - 1, most + 1, -1, 2**63 - 1, -(2**63)]
    if key == "source":
        wrong += [source["id"] for source in chart["source"] if source["kind"] not in GRANT_KINDS] + [9998]
    if key == "lines":
        others = [number for number, line in enumerate(chart["line"]) if number not in lines_of(chart, fund_of(chart, row))]
        wrong = wrong[:7] + [[], row["lines"] + [row["lines"][0]], row["lines"] + [len(chart["line"])], [65535], [-1], ["1"], [True], [[1]]]
        wrong += [row["lines"] + [Raw("1.0")], [65536 + row["lines"][0]], list(range(65)), *([row["lines"] + others[:1]] if others else [])]
    return wrong


def fund_of(chart, row):
    return next(source["fund"] for source in chart["source"] if source["id"] == row["source"])


def with_wrong_value(rng, chart, rows):
    row = rng.choice(rows)
    key = rng.choice(list(row))
    row[key] = rng.choice(wrong_values(rng, chart, key, row))


def with_missing(rng, chart, rows):
    row = rng.choice(rows)
    del row[rng.choice(list(row))]


def with_twice(rng, chart, rows):
    again = dict(rng.choice(rows))
    if rng.random() < 0.5:
        again["id"] = rng.choice([n for n in range(1, 99) if n not in [row["id"] for row in rows]])
    rows.append(again)


def with_too_many(rng, chart, rows):
    rows += [dict(rng.choice(rows)) for _ in range(65 - len(rows))]


def broken_text(rng, text):
    """What is no TOML document of 64-bit integers in UTF-8, or too long a one."""
    return rng.choice(
        [
            text + b"grant", text + b"[[grant]\n", text + b"remark = 'a\n", text + b"# \xff\n", text + b"# \x00\n", text + b"a = 1\na = 2\n",
            text + b"n = 9223372036854775808\n", text + b"n = 01\n", text + b"[grant]\n", text + b"n = 1979-13-01\n", b"=\n" + text,
            text + b"#" * (MOST_BYTES + 1 - len(text)), text + b"n = _1\n", text + b"n = +0x1\n", text + b"n = \n", text + b"\r",
        ]
    )


def bad_document(rng, chart):
    """A document with one fault, and the ids that its rows had."""
    rows = good_rows(rng, chart)
    ids = [row["id"] for row in rows]
    if rng.random() < 0.25:
        return broken_text(rng, document_text(rng, rows).encode()), ids
    rng.choice([with_wrong_value, with_wrong_value, with_wrong_value, with_missing, with_missing, with_twice, with_too_many])(rng, chart, rows)
    return document_text(rng, rows).encode(), ids
