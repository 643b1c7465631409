"""The tables of docs/CALLS.md are what the program reads: its changing calls and looks by their words, the fields of each in their order,
with types, words and counts, as the sources of crates/cf_calls (the table of calls) and crates/cf_json have them; and what the stored
talks of examples/ accept is in the tables, with each call and each word of them in some talk.

    python3 tests/gate/fields.py
"""
import glob
import json
import os
import re
import sys

TOP = os.path.join(os.path.dirname(os.path.abspath(__file__)), "..", "..")
sys.path.insert(0, os.path.join(TOP, "examples", "clients"))
import tables

# The readers of values, with the types that the docs have for them.
KINDS = dict(
    N16="n16", N32="n32", Count="cents", Amount="cents", By="by", Year="year", MonthText="month", DayText="day", Flag="true or false"
)


def source(name, crate="cf_json"):
    """A source file with each call on one line, whatever the layout."""
    with open(os.path.join(TOP, "crates", crate, "src", name), encoding="utf-8") as file:
        return re.sub(r",?\s*\)", ")", re.sub(r"\(\s+", "(", file.read()))


class Source:
    """What the readers of cf_json read."""

    def __init__(self):
        self.words = source("words.rt")
        rows = re.findall(r'(ActKind::\w+) => call\("(\w+)"', source("kind.rt", "cf_calls"))
        self.changes = {word: kind for kind, word in rows}
        assert rows and len(self.changes) == len(rows)
        self.statements = dict(re.findall(r'"(\w+)" => Some\((Kind::\w+)\)', source("statement.rt", "cf_base")))
        assert self.statements
        self.bodies = {}
        for file in ("acts.rt", "looks.rt", "items.rt"):
            text = source(file)
            self.bodies[file] = dict(re.findall(r"^(?:pub )?fn (\w+)\(.*?^\{(.*?)^\}", text, re.M | re.S))
            for name, body in re.findall(r"^impl FieldKind for (\w+) \{(.*?)^\}", text, re.M | re.S):
                self.bodies[file][name] = body

    def table(self, name):
        """The words of a table with the variants that they stand for."""
        found = re.search(rf"const {name}: \[[^;]*; (\d+)\] = \[(.*?)\];", self.words, re.S)
        words = re.findall(r'\("(\w+)", (\w+::\w+)\)', found.group(2))
        assert len(words) == int(found.group(1)), name
        return dict(words)

    def choice(self, kind):
        """The words of a field that is one of some words: those of a table, or those that `Kind::named` knows."""
        read = re.search(rf"impl FieldKind for {kind} \{{.*?(?:read_word\(&(\w+), value\)|Kind::named\()", self.words, re.S)
        return self.table(read.group(1)) if read.group(1) else self.statements

    def fields(self, file, body, what=None):
        """The fields that a body of a reader reads, in order; of the arms of a match on words that of `what`."""
        arms = re.split(r"(\w+Word::\w+) =>", body)
        if len(arms) > 1:
            body = arms[0] + "".join(arm for name, arm in zip(arms[1::2], arms[2::2]) if name == what)
        for way, kind, name, least, most, inner in re.findall(
            r'\b(need|may|list|part|maybe_part)::<(\w+)>\((?:alloc, )?value, "(\w+)"(?:, (\d+), (\d+))?\)|\b(\w+)\([\w, ]*\bvalue\)', body
        ):
            if inner:
                yield from self.fields(file, self.bodies[file].get(inner, ""), what)
            elif way == "list":
                yield tables.Field(name, "list", parts=self.parts(kind), least=int(least), most=int(most))
            elif kind in KINDS:
                yield tables.Field(name, KINDS[kind], way.startswith("may"))
            else:
                yield tables.Field(name, "choice", words=tuple(self.choice(kind)))

    def parts(self, kind):
        """What stands in a list: fields, or a type alone."""
        body = self.bodies["items.rt"][kind]
        alone = re.search(r"\b(\w+)::read\(value\)", body)
        return KINDS[alone.group(1)] if alone else tuple(self.fields("items.rt", body))

    def arm(self, file, reader, variant):
        """The expression for a variant of a call or a look."""
        return re.search(rf"\b{variant} => (.*?)(?=\n        \w+::|\n    \}}|\Z)", self.bodies[file][reader], re.S).group(1)

    def change(self, call, what):
        """The fields of a changing call, where it has words with one of them."""
        arm = self.arm("acts.rt", "act_of", self.changes[call])
        first = next(self.fields("acts.rt", arm))
        word = self.choice_of(arm)[what] if first.type == "choice" else None
        return tuple(self.fields("acts.rt", arm, word))

    def choice_of(self, arm):
        reader = self.bodies["acts.rt"][re.search(r"(\w+)\(alloc, value\)", arm).group(1)]
        return self.choice(re.search(r"need::<(\w+)>", reader).group(1))

    def look(self, look):
        return tuple(self.fields("looks.rt", self.arm("looks.rt", "read_of", self.table("LOOKS")[look])))


def looks():
    """Each look of the docs with its fields."""
    with open(tables.CALLS, encoding="utf-8") as file:
        page = file.read()
    for word, cell, *_ in tables.rows(page, "Looks"):
        made = []
        for text in re.split(r", (?![^(]*\))", cell):
            name, words = text.split(" ")[0], re.findall(r"`(\w+)`", text)
            made.append(tables.Field(name, "choice", words=tuple(words)) if words else tables.field(text))
        yield word.strip("`"), tuple(made)


def with_word(fields, what):
    """The fields of a call with a word, as the source has them."""
    return tuple(field._replace(only=()) for field in fields if not field.only or what in field.only)


def words_of(fields):
    return fields[0].words if fields[0].type == "choice" else (None,)


def shown(fields):
    """Fields as they are printed."""
    made = []
    for field in fields:
        inner = field.parts if isinstance(field.parts, str) else shown(field.parts)
        count = f" of {field.least} to {field.most} ({inner})" if field.type == "list" else ""
        words = f" {'|'.join(field.words)}" if field.words else ""
        made.append(f"{field.name} {field.type}{count}{words}{' (optional)' if field.optional else ''}")
    return ", ".join(made)


def differences(said, program):
    """Where the tables and the source differ."""
    for what, docs, words in ("changing calls", said, program.changes), ("looks", dict(looks()), program.table("LOOKS")):
        for word in sorted(docs.keys() ^ words.keys()):
            yield f"{what}: {word} stands in {'the tables' if word in docs else 'the source'} alone"
    for call in said.keys() & program.changes.keys():
        for what in words_of(said[call]):
            docs, own = with_word(said[call], what), program.change(call, what)
            if docs != own:
                yield f"{call} {what or ''}\n  docs:   {shown(docs)}\n  source: {shown(own)}"
    for look, docs in looks():
        if look in program.table("LOOKS") and docs != program.look(look):
            yield f"the look {look}\n  docs:   {shown(docs)}\n  source: {shown(program.look(look))}"


def misfits(fields, given):
    """The names that an object has and the tables don't, and those that it lacks."""
    wrong = given.keys() ^ {field.name for field in fields if not field.optional or field.name in given}
    for field in fields:
        if field.type == "list" and not isinstance(field.parts, str):
            wrong = wrong.union(*(misfits(field.parts, element) for element in given.get(field.name, ())))
    return wrong


def accepted():
    """The changing calls of the stored talks that were accepted."""
    for talk in sorted(glob.glob(os.path.join(TOP, "examples/**/*.jsonl"), recursive=True)):
        with open(talk, "rb") as lines, open(talk.removesuffix(".jsonl") + ".replies", "rb") as replies:
            for line, reply in zip(lines, replies, strict=True):
                if b'"ok":' in reply:
                    yield os.path.relpath(talk, TOP), json.loads(line)


def untold(said):
    """What accepted calls have that isn't in the tables, the first of each kind, and what of the tables no talk has."""
    missing = {(call, what) for call, fields in said.items() for what in words_of(fields)}
    wrong = {}
    for talk, call in accepted():
        name, what = call.pop("call"), call.get("what")
        missing.discard((name, what))
        call.pop("after", None)
        names = misfits((*tables.HEAD, *with_word(said[name], what)), call) if name in said else {"call"}
        if names:
            wrong.setdefault((name, what), f"{talk}: {call['key']}: {name}: the tables have otherwise: {', '.join(sorted(names))}")
    yield from wrong.values()
    for name, what in sorted(missing, key=str):
        yield f"no stored talk has an accepted call {name} {what or ''}"


def main():
    said = tables.calls()
    faults = [*differences(said, Source()), *untold(said)]
    for fault in faults:
        print(fault)
    if not faults:
        print(f"fields: {len(said)} changing calls and {len(dict(looks()))} looks are as the program reads them")
    return min(len(faults), 1)


if __name__ == "__main__":
    sys.exit(main())
