#!/usr/bin/env python3
"""The tables of docs/CALLS.md, for a program that makes calls: the fields of each changing call, with their types.

    tables.py [CALLS.md]      prints each call with its fields, a line each

It stops at a cell that it can't read. tests/gate/fields.py finds where the tables and the program differ.
"""
import os
import re
import sys
from collections import namedtuple

CALLS = os.path.join(os.path.dirname(os.path.abspath(__file__)), "..", "..", "docs", "CALLS.md")
TYPES = ("n16", "n32", "cents", "by", "year", "day", "month", "true or false")
# `only` has the words of `what` with which a field stands, or nothing; `words` those that a choice has, `parts` the fields of a list's
# elements, or the type alone where an element is a number, and `least` and `most` how many elements there are.
Field = namedtuple("Field", "name type optional only words parts least most", defaults=(False, (), (), (), 0, 0))
# What each changing call has before its own fields.
HEAD = (Field("desk", "n16"), Field("key", "text"), Field("on", "day"))
KEY = re.compile("[!-~]{1,40}")


class Unread(Exception):
    """What stands in the tables and can't be read."""


def rows(page, title):
    """The cells of the table below a title."""
    part = re.search(rf"^## {title}\n(.*?)(?=^## |\Z)", page, re.M | re.S)
    lines = [line for line in part.group(1).split("\n") if line.startswith("|")] if part else []
    return [[cell.strip() for cell in line.strip("|").split("|")] for line in lines[2:]]


def element(kind, values):
    """The fields of an element: `{"line":n16,"amount":cents}`, or what the table of values says of an item."""
    if kind in TYPES:
        return kind
    text = kind if kind.startswith("`") else values.get(kind.removesuffix("s"), "")
    needed = [Field(*pair) for pair in re.findall(r'"(\w+)":(\w+)', text)]
    if not needed and text.startswith("an account item"):
        needed = list(element("account items", values))
    extra = re.findall(r"`(\w+)` \(?(n16|n32|cents|true)\b", text)
    parts = needed + [Field(name, "true or false" if kind == "true" else kind, True) for name, kind in extra]
    if not parts or {part.type for part in parts} - set(TYPES):
        raise Unread(f"the elements {kind}")
    return tuple(parts)


def lists(form, names, values):
    """The lists of a call by what its rules of form say of them; a list that isn't named is the only one."""
    found = {}
    for name, least, most, kind in re.findall(
        r"(?:(\w+): )?(?:up to|(\d+) to) (\d+) (?:of )?(?:distinct )?(`\{[^`]*\}`|\w+ items|cents|n32)", form
    ):
        if name or len(names) == 1:
            found[name or names[0]] = dict(parts=element(kind, values), least=int(least or 0), most=int(most))
    return found


def field(text, only=()):
    found = re.fullmatch(r"(?:with `(\w+)` )?(\w+)(?: (\w+|true or false))?( \(optional\))?", text)
    if not found:
        raise Unread(f"the field {text}")
    word, name, kind, optional = found.groups()
    kind = kind or (name if name in TYPES else "list")
    if kind not in (*TYPES, "list"):
        raise Unread(f"the type of {text}")
    return Field(name, kind, bool(optional), (word,) if word else only)


def fields(cell):
    """The fields of a call. Where a word `what` comes first, words can have fields of their own behind `then`."""
    if not cell.startswith("`what`: "):
        return [field(text) for text in cell.split(", ")]
    made, words = [], []
    for part in cell.removeprefix("`what`: ").split("; "):
        choice = re.fullmatch(r"(?:or )?(`\w+`(?:(?:, | or )`\w+`)*)(?:, then (.*))?", part)
        given = tuple(re.findall(r"`(\w+)`", choice.group(1))) if choice else ()
        words += given
        own = choice.group(2) if choice else part
        made += [field(text, given if choice else ()) for text in own.split(", ")] if own else []
    return [Field("what", "choice", words=tuple(words)), *made]


def calls(name=CALLS):
    """Each changing call with its fields, in the order of the table."""
    with open(name, encoding="utf-8") as file:
        page = file.read()
    values = {kind: text for kind, text, *_ in rows(page, "Values")}
    made, known = {}, {}
    table = [(call.strip("`"), fields(cell), form) for call, _, cell, form, *_ in rows(page, "Changing calls")]
    for call, own, form in table:
        known[call] = lists(form, [f.name for f in own if f.type == "list"], values)
    for call, own, form in table:
        for place, f in enumerate(own):
            if f.type == "list":
                # A call that says nothing of a list's elements has them as another call has.
                said = [known[call], *known.values()]
                like = next((of[f.name] for of in said if f.name in of), None)
                if like is None:
                    raise Unread(f"the elements of {f.name} of {call}")
                own[place] = f._replace(**like)
        made[call] = tuple(own)
    return made


def main():
    for call, own in calls(*sys.argv[1:]).items():
        print(call, *(f.name + ("?" if f.optional else "") for f in own))


if __name__ == "__main__":
    try:
        main()
    except (OSError, Unread) as fault:
        sys.exit(f"tables: {fault}")
