"""Makes docs/CLAUSES.md of docs/PROVED.md and the sources, or checks that it is up to date.

    python3 tests/gate/proved.py            writes docs/CLAUSES.md
    python3 tests/gate/proved.py --check    says what differs, and ends with 1 where something does

docs/PROVED.md has the promises, written by hand. The second cell of a row of its tables names what carries
the promise, each name between backquotes:

    crate::function    a function (crate::Type::function, crate::Trait::function) of crates/CRATE/src;
                       names behind it are names of its clauses. With no name behind it: all its clauses
    crate::Type        a type; what carries the promise is the invariant of its values
    crate/specs/X.antt a file of definitions, or crate/proofs/X.antt a file of laws; names behind it are
                       definitions or laws there, `Name.field` is a field of a record

A function or a definition is in docs/CLAUSES.md where docs/PROVED.md names it, and only there. It stands
below the heading of docs/PROVED.md that names it first, with its text as the source has it. So a clause or
a definition that changes changes docs/CLAUSES.md, and the check names the headings whose sentences
are to be read again.
"""
import difflib
import functools
import glob
import os
import re
import sys
import textwrap

TOP = os.path.join(os.path.dirname(os.path.abspath(__file__)), "..", "..")
PAGE = os.path.join(TOP, "docs", "PROVED.md")
MADE = os.path.join(TOP, "docs", "CLAUSES.md")

HEAD = """# Clauses and definitions

`tests/gate/proved.py` makes this page of `docs/PROVED.md` and the sources. Don't edit it: change a
source, run `python3 tests/gate/proved.py`, and read the sentences of `docs/PROVED.md` again whose
headings it names.

A function or a definition is here where `docs/PROVED.md` names it, below the heading that names it
first. `requires` is a condition that callers must meet, `ensures` a clause that holds when the
function returns. `x.old` and `x.new` are an argument's value before and after the call, `x.now` is
that of one that stays. A line of more than 100 columns goes on below, further in.
"""


class Unknown(Exception):
    """A name of docs/PROVED.md that no source has."""


def read(path):
    with open(path, encoding="utf-8") as file:
        return file.read()


# ---- sources

# What braces don't count in: comments, texts, and letters between quotes.
APART = re.compile(r"//[^\n]*|/\*.*?\*/|\"(?:[^\"\\]|\\.)*\"|(?<![\w'])b?'(?:[^'\\\n]|\\[^\n]{1,8}?)'", re.S)


def masked(text):
    """The text with blanks for comments, texts and letters, so that only code has braces."""
    return APART.sub(lambda found: re.sub(r"[^\n]", " ", found.group()), text)


def closing(text, start):
    """The place behind the bracket that closes the one at `start`."""
    depth = 0
    for place in range(start, len(text)):
        if text[place] in "([{":
            depth += 1
        elif text[place] in ")]}":
            depth -= 1
            if depth == 0:
                return place + 1
    raise ValueError(f"no closing bracket: {text[start:start + 60]!r}")


CLAUSE = re.compile(r"(requires|ensures)(?:\s+(\w+))?\s*(?=\{)")


def parameters(code, start):
    """The place of the bracket of a function's parameters, behind those of its types."""
    place, depth = start, 0
    while code[place] != "(" or depth:
        depth += (code[place] == "<") - (code[place] == ">" and code[place - 1] not in "-=")
        place += 1
    return place


def clauses(code, text, start):
    """The clauses of a function whose name ends at `start`: kind, name and text, as the source has it."""
    made, place = [], closing(code, parameters(code, start))
    while code[place] not in "{;":
        clause = CLAUSE.match(code, place) if not code[place - 1].isalnum() else None
        if clause:
            end = closing(code, clause.end())
            made.append((clause.group(1), clause.group(2) or "", text[place:end]))
            place = end
        else:
            place = closing(code, place) if code[place] in "([" else place + 1
    return made


def about(text, start):
    """The doc comment above an item, on one line."""
    said = []
    for line in reversed(text[:start].split("\n")[:-1]):
        if line.strip().startswith("///"):
            said.append(line.strip()[3:].strip())
        elif not line.strip().startswith("#["):
            break
    return " ".join(reversed(said))


@functools.cache
def items(crate):
    """What a crate's sources have, by the names Type::function, function and Type: the doc comment and the clauses."""
    made = {}
    for path in sorted(glob.glob(os.path.join(TOP, "crates", crate, "src", "**", "*.rt"), recursive=True)):
        text = read(path)
        code = masked(text)
        owners = []
        for found in re.finditer(r"^[ \t]*(?:pub(?:\(crate\))? )?(?:unsafe )?(impl|trait)\b([^{;]*)\{", code, re.M):
            owners.append((found.start(), closing(code, found.end() - 1), owner_of(*found.groups())))
        for found in re.finditer(r"\bfn (\w+)", code):
            inside = [name for start, end, name in owners if start < found.start() < end]
            name = "::".join([*inside[-1:], found.group(1)])
            line = text.rfind("\n", 0, found.start()) + 1
            made.setdefault(name, []).append((about(text, line), clauses(code, text, found.end())))
        for start, end, name in owners:
            for found in re.finditer(r"ghost (invariant) = \{", code[start:end]):
                opened = start + found.end() - 1
                clause = "invariant " + text[opened:closing(code, opened)]
                made.setdefault(name, []).append((about_type(text, name), [("invariant", "", clause)]))
    return made


def item(crate, name):
    """The doc comment and the clauses of a function or a type."""
    found = items(crate).get(name, [])
    if len(found) != 1:
        raise Unknown(f"crates/{crate}/src has {'no' if not found else len(found)} {name}")
    return found[0]


def owner_of(kind, head):
    """The type or trait that an `impl` or a `trait` is of."""
    head = re.sub(r"<[^<>]*(?:<[^<>]*>[^<>]*)*>", "", head.split(" where")[0]).split(":" if kind == "trait" else "\0")[0]
    return head.split(" for ")[-1].strip().split("::")[-1]


def about_type(text, name):
    found = re.search(rf"^pub(?:\(crate\))? (?:struct|enum) {name}\b", text, re.M)
    return about(text, found.start()) if found else ""


# ---- definitions

def definition(path, name):
    """The text of a definition, with the comment above it; of a law what it states."""
    full = os.path.join(TOP, "crates", path)
    if not os.path.exists(full):
        raise Unknown(f"no file crates/{path}")
    lines = read(full).split("\n")
    start = re.compile(rf"\s*(?:(?:pub|abbrev|unfoldable|record|data|module) )*{re.escape(name)}(?=[ :({{]|$)")
    at = next((n for n, line in enumerate(lines) if start.match(line) and not line.lstrip().startswith("--")), None)
    if at is None:
        raise Unknown(f"crates/{path} has no {name}")
    inner = len(lines[at]) - len(lines[at].lstrip())
    end = at + 1
    while end < len(lines) and lines[end].strip() and not ends_before(lines[end], inner, name, "/proofs/" in path):
        end += 1
    while at and lines[at - 1].lstrip().startswith("-- ") and not lines[at - 1].startswith("-- ---"):
        at -= 1
    return "\n".join(line[inner:] for line in lines[at:end])


def ends_before(line, inner, name, law):
    """Whether a line is no longer of the definition: a law ends with what it states."""
    if len(line) - len(line.lstrip()) > inner:
        return False
    return law or not re.match(rf"\s*{re.escape(name)}(?= |$)", line)


# ---- the page

class Wanted:
    """What the page names, each with the headings that name it, and each name that no source has."""

    def __init__(self):
        self.order = {}
        self.headings = {}
        self.faults = []

    def add(self, heading, key):
        if key not in self.headings:
            self.order.setdefault(heading, []).append(key)
        self.headings.setdefault(key, [])
        if heading not in self.headings[key]:
            self.headings[key].append(heading)

    def row(self, heading, cell):
        marker, lost = None, False
        for span in re.findall(r"`([^`]+)`", cell):
            lost = lost and "::" not in span and not span.endswith(".antt")
            try:
                marker = None if lost else self.span(heading, marker, span)
            except Unknown as fault:
                lost = True
                self.faults.append(f"docs/PROVED.md, \"{heading}\": {fault}")

    def span(self, heading, marker, span):
        if "::" in span:
            crate, name = span.split("::", 1)
            item(crate, name)
            self.add(heading, (crate, name))
            return crate, name
        if span.endswith(".antt"):
            if not os.path.exists(os.path.join(TOP, "crates", span)):
                raise Unknown(f"no file crates/{span}")
            return span, None
        if marker is None:
            raise Unknown(f"{span} stands behind no function and no file")
        first, name = marker
        if name is None:
            main, *fields = span.split(".")
            text = definition(first, main)
            for field in fields:
                if not re.search(rf"^\s+(?:pub )?{re.escape(field)}\b", text, re.M):
                    raise Unknown(f"{main} of crates/{first} has no {field}")
            self.add(heading, (first, "", main))
        elif span not in [clause for _, clause, _ in item(first, name)[1]]:
            raise Unknown(f"{first}::{name} has no clause {span}")
        return marker


def wanted():
    made, heading = Wanted(), ""
    for line in read(PAGE).split("\n"):
        if line.startswith("#"):
            heading = line.lstrip("# ")
        elif line.startswith("|") and not set(line) <= set("|- "):
            cells = [cell.strip() for cell in line.strip("|").split(" | ")]
            if len(cells) == 2:
                made.row(heading, cells[1])
    return made


# ---- what is made

def wrapped(text, behind=""):
    """A text in lines of at most 100 columns, whatever its layout in the source."""
    return textwrap.fill(" ".join(text.split()), 100, subsequent_indent=behind, break_long_words=False, break_on_hyphens=False)


def broken(text):
    """A definition with its lines of more than 100 columns broken at blanks, and further in below."""
    made = []
    for line in text.split("\n"):
        inner = line[:len(line) - len(line.lstrip())]
        behind = inner + ("-- " if line.lstrip().startswith("-- ") else "    ")
        parts = textwrap.wrap(line.strip(), 100, initial_indent=inner, subsequent_indent=behind,
                              break_long_words=False, break_on_hyphens=False)
        made.extend(parts if len(line) > 100 else [line])
    return "\n".join(made)


def section(key):
    """What the page has of a function, a type or a definition."""
    if len(key) == 3:
        path, _, name = key
        return f"### `{name}` of {path}\n\n```\n{broken(definition(path, name))}\n```\n"
    crate, name = key
    said, found = item(crate, name)
    shown = "\n".join(wrapped(text, "    ") for _, _, text in found)
    first = re.split(r"(?<=[.:]) (?=[A-Z])", said)[0]
    return f"### `{crate}::{name}`\n\n" + (f"{wrapped(first)}\n\n" if first else "") + f"```\n{shown}\n```\n"


def page(asked):
    made = [HEAD]
    for heading, keys in asked.order.items():
        made.append(f"## {heading}\n")
        made.extend(section(key) for key in keys)
    return "\n".join(made)


def parts(text):
    """The sections of a made page by their heads."""
    return dict(zip((found := re.split(r"^### (.*)$", text, flags=re.M))[1::2], found[2::2]))


def differences(asked, old, new):
    """What differs, with the headings of docs/PROVED.md that rest on it."""
    before, after = parts(old), parts(new)
    for key, headings in asked.headings.items():
        head = section(key).split("\n")[0][4:]
        if before.get(head, "").split("\n## ")[0].rstrip() != after[head].split("\n## ")[0].rstrip():
            yield f"{head} changed: read again in docs/PROVED.md: " + "; ".join(headings)
    for head in before.keys() - after.keys():
        yield f"{head} is no longer named in docs/PROVED.md"


def main(words):
    asked = wanted()
    for fault in asked.faults:
        print(fault)
    if asked.faults:
        return 1
    new = page(asked)
    old = read(MADE) if os.path.exists(MADE) else ""
    if words != ["--check"]:
        for line in differences(asked, old, new):
            print(line)
        with open(MADE, "w", encoding="utf-8") as file:
            file.write(new)
        return 0
    if old == new:
        functions = sum(1 for key in asked.headings if len(key) == 2)
        print(f"proved: {functions} functions and {len(asked.headings) - functions} definitions are as docs/CLAUSES.md has them")
        return 0
    said = list(differences(asked, old, new))
    print("\n".join(said or ["docs/CLAUSES.md has another order or head:"]))
    print("\n".join(list(difflib.unified_diff(old.split("\n"), new.split("\n"), "docs/CLAUSES.md", "the sources", lineterm="", n=1))[:60]))
    print("python3 tests/gate/proved.py writes the page anew")
    return 1


if __name__ == "__main__":
    sys.exit(main(sys.argv[1:]))
