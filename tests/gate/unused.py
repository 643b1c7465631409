"""What nothing cites: definitions, lemmas, functions, types and imports of the crates, to a fixed point.

    python3 tests/gate/unused.py [CRATE..]

prints each item and import that nothing cites, with its file and line, of these crates alone where some are named. It
ends with 1 where there is one.

What a run or a verdict needs is cited: each `main`, each test, what the methods of traits do, and each answer
to a goal. From these on an item cites the items whose names stand in it as whole words: those of its file, and
those that its file imports, also by a file that only passes names on. The code of a function cites the functions and types of all crates, its clauses only
definitions. A comment cites nothing, nor does an import. What is left over is cited by nothing, or only by what
nothing cites.

tests/gate/unused.txt has the items that stay, a line each: the path of the file below crates/ or a pattern
of paths, the name or `*`, and why. An item that it names is cited.
"""
import collections
import fnmatch
import functools
import os
import re
import sys

import pages

HERE = os.path.dirname(os.path.abspath(__file__))

WORD = re.compile(r"[A-Za-z_][\w'\-≢≡]*")
NAME = r"[^\s(){}.,;:]+"
# How an item of definitions or laws begins, behind its indent.
BEGINS = re.compile(rf"(?:(?:pub|abbrev|unfoldable|opaque) )*(?:(?:record|data|ruleset) ({NAME})|({NAME}) :(?= |$))")
LAWS = ("crates/*/specs/**/*.antt", "crates/*/proofs/**/*.antt")
SOURCES = ("crates/*/src/**/*.rt",)

Item = collections.namedtuple("Item", "path line count name text root")


def blank(found):
    return re.sub(r"[^\n]", " ", found.group())


# ---- definitions and laws

class Laws:
    """The items of a file of definitions or laws. What stands in a module's head belongs to each of its items."""

    def __init__(self, path):
        self.path = path
        self.lines = bare(path).split("\n")
        self.made = []
        # The indents of the modules around a line, with their heads, and whether the last head goes on.
        self.heads = [(-2, "")]
        self.open = False
        self.start = None
        for place, line in enumerate(self.lines):
            if line.strip():
                self.take(place, line)
        self.end(len(self.lines))

    def take(self, place, line):
        indent = len(line) - len(line.lstrip())
        if self.open:
            self.heads[-1] = (self.heads[-1][0], self.heads[-1][1] + line + "\n")
            self.open = not line.rstrip().endswith("where")
            return
        if indent <= self.heads[-1][0]:
            self.end(place)
        while indent <= self.heads[-1][0]:
            self.heads.pop()
        if indent > self.heads[-1][0] + 2:
            return
        if re.match(r"\s*(?:module|mutual)\b", line):
            self.end(place)
            self.heads.append((indent, self.heads[-1][1] + line + "\n"))
            self.open = "module" in line and not line.rstrip().endswith("where")
        elif re.match(r"\s*(?:(?:pub )?(?:use|mod)|infixl?|infixr) ", line):
            self.end(place)
        elif found := BEGINS.match(line.strip()):
            self.end(place)
            self.start = (place, found.group(1) or found.group(2))

    def end(self, place):
        """Ends the item that is being read, if one is."""
        if self.start is None:
            return
        start, name = self.start
        while not self.lines[place - 1].strip():
            place -= 1
        text = "\n".join(self.lines[start:place])
        self.made.append(Item(self.path, start + 1, place - start, name, self.heads[-1][1] + text, self.is_root(name, text)))
        self.start = None

    def is_root(self, name, text):
        """Whether it answers a goal: what a verdict needs of a function, a loop or a type."""
        if "/TheSendSync/" in self.path:
            return True
        if self.path.endswith("/Proof.antt"):
            return name.endswith("_spec")
        return self.path.endswith(("/Answers.antt", "/Invariants.antt")) and ": goal." in text.split("\n")[0]


@functools.cache
def bare(path):
    """A file's text with blanks for comments."""
    if path.endswith(".antt"):
        return re.sub(r"(?m)(?:^|(?<=\s))--.*$", blank, pages.read(path))
    return APART.sub(blank, pages.read(path))


# ---- sources

# What names nothing and has no braces that count: comments, texts, and letters between quotes.
APART = re.compile(r"//[^\n]*|\"(?:[^\"\\]|\\.)*\"|(?<![\w'])b?'(?:[^'\\\n]|\\[^\n]{1,8}?)'", re.S)
DEFINES = re.compile(r"^[ \t]*(?:pub(?:\(crate\))? )?(?:const |unsafe )*(fn|struct|enum|trait|const) (\w+)", re.M)
METHODS = re.compile(r"^[ \t]*(?:unsafe )?(?:impl\b[^{;]*?\bfor\b[^{;]*|(?:pub )?trait\b[^{;]*)\{", re.M)
USE = re.compile(r"^[ \t]*(?:pub(?:\(crate\))? )?(?:ghost )?(?:pub )?use ([^;]*);", re.M)


GHOST = re.compile(r"(?:\b(?:requires|ensures|decreases|prove)\b[^{;}]*|\bghost \w+(?: = |: ))\{")


def run_part(text):
    """A source's text with blanks for its clauses and ghost members: what stands there is no call."""
    made, place = list(text), 0
    while found := GHOST.search(text, place):
        place = min(pages.closing(text, found.end() - 1) + 1, len(text))
        made[found.start():place] = " " * (place - found.start())
    return "".join(made)


def past(code, start):
    """The place behind the item that begins at `start`: its body, or the semicolon that ends it."""
    depth = 0
    for place in range(start, len(code)):
        depth += (code[place] in "([{") - (code[place] in ")]}")
        ends = code[place] == ";" or code[place] == "}" and not re.match(r"\s*(?:requires|ensures|where|decreases|\{)", code[place + 1:place + 200])
        if depth == 0 and ends:
            return place + 1
    return len(code)


def sources(path):
    """The items of a file of source. What stands in none of them, as the methods of traits, is one item, which is needed."""
    code = USE.sub(blank, bare(path))
    methods = [(found.start(), past(code, found.start())) for found in METHODS.finditer(code)]
    made, rest, behind = [], list(code), 0
    for found in DEFINES.finditer(code):
        start, (kind, name) = found.start(), found.groups()
        if start < behind or kind != "trait" and any(begin < start < end for begin, end in methods):
            continue
        end = past(code, start) if kind != "trait" else code.index("{", start)
        behind = end
        body = code[start:end]
        test = code[:start].rstrip().endswith("#[test]")
        made.append(Item(path, code.count("\n", 0, start) + 1, body.count("\n") + 1, name, body, test or name == "main"))
        rest[start:end] = " " * (end - start)
    return [*made, Item(path, 0, 0, "", "".join(rest), True)]


# ---- who cites whom

def module_of(path):
    """The module of a file of definitions or laws, as imports name it."""
    return path[len("crates/"):-len(".antt")].replace("/", ".")


@functools.cache
def passed_on(module):
    """The module of each name that a module passes on from another one."""
    path = f"crates/{module.replace('.', '/')}.antt"
    if not os.path.exists(path):
        return {}
    found = re.findall(r"(?m)^(?:unfoldable )?pub use Rattle\.([\w.]+)\.\{([^}]*)\}", bare(path))
    return {name.strip(): home for home, names in found for name in names.split(",")}


@functools.cache
def imports(path):
    """The items that a file imports, by the names that it has for them: the module and the name, or the module and None for all of it."""
    made = collections.defaultdict(list)
    for module, names, alias in re.findall(r"(?m)\buse Rattle\.([\w.]+?)(?:\.\{([^}]*)\})?(?: as (\w+))?(?=;|\s*$)", bare(path)):
        for one in filter(None, names.split(",")):
            name, _, other = one.strip().partition(" as ")
            made[other or name].append((passed_on(module).get(name, module), name))
        if not names:
            above, _, last = module.rpartition(".")
            made[alias or last] += [(module, None), (above, last)]
    for named in re.findall(r"using\(([^)]*)\)", bare(path)):
        for one in named.split(","):
            above, _, last = one.strip().replace("crate::", path.split("/")[1] + "::").replace("::", ".").rpartition(".")
            made[last].append((above, last))
    return made


@functools.cache
def is_word(name):
    return bool(WORD.fullmatch(name))


def has(text, said, name):
    """Whether a text, of these words, has a name, or each part of one with places."""
    if is_word(name):
        return name in said
    if name == "◌>>=◌" and "do" in said:
        return True
    return all(part in text for part in name.split("◌"))


class House:
    """All items of the crates, and which are cited."""

    def __init__(self):
        self.items = [item for path in pages.files(*LAWS) for item in Laws(path).made]
        self.items += [item for path in pages.files(*SOURCES) for item in sources(path)]
        self.said = [set(WORD.findall(item.text)) for item in self.items]
        self.named, self.here, self.code = (collections.defaultdict(list) for _ in range(3))
        for number, item in enumerate(self.items):
            if item.path.endswith(".rt"):
                self.code[item.name].append(number)
            else:
                self.named[module_of(item.path), item.name].append(number)
                self.here[item.path].append(number)

    def cited_by(self, number):
        """The items that an item cites."""
        item, said = self.items[number], self.said[number]
        if item.path.endswith(".rt"):
            for word in set(WORD.findall(run_part(item.text))):
                yield from self.code.get(word, ())
        for other in self.here[item.path]:
            if has(item.text, said, self.items[other].name):
                yield other
        for name, those in imports(item.path).items():
            if has(item.text, said, name):
                for module, only in those:
                    for word in said if only is None else [only]:
                        yield from self.named.get((module, word), ())

    def unused(self):
        stay = [(f"crates/{place}", name) for place, name, _ in exceptions()]
        work = [number for number, item in enumerate(self.items)
                if item.root or any(fnmatch.fnmatch(item.path, place) and name in ("*", item.name) for place, name in stay)]
        found = set(work)
        while work:
            for other in self.cited_by(work.pop()):
                if other not in found:
                    found.add(other)
                    work.append(other)
        return [item for number, item in enumerate(self.items) if number not in found]


def exceptions():
    with open(os.path.join(HERE, "unused.txt"), encoding="utf-8") as file:
        for line in file:
            if line.strip() and not line.startswith("#"):
                yield line.split(None, 2)


# ---- imports

@functools.cache
def traits():
    """The traits of the sources, and one of std: a file that imports one may call its methods alone."""
    return {"Read", *(name for path in pages.files(*SOURCES) for name in re.findall(r"\btrait (\w+)", bare(path)))}


def unused_imports(path):
    """The names that a file imports and doesn't have elsewhere, each with its line."""
    code = bare(path)
    use = USE if path.endswith(".rt") else re.compile(r"(?m)^use (.*)$")
    rest = use.sub(blank, code)
    said = set(WORD.findall(rest))
    for found in use.finditer(code):
        listed = re.search(r"\{([^}]*)\}", found.group(1))
        names = listed.group(1).split(",") if listed else [re.split(r"[.:]", found.group(1))[-1]]
        for one in names:
            name = one.strip().split(" as ")[-1]
            shown = found.group().lstrip().startswith("pub") or name in ("", "self", "*") or name in traits()
            if not shown and not has(rest, said, name):
                yield path, code.count("\n", 0, found.start()) + 1, name


def main(crates):
    def is_asked(path):
        return not crates or path.split("/")[1] in crates

    items = [one for one in House().unused() if is_asked(one.path)]
    names = [one for path in pages.files(*LAWS, *SOURCES) if is_asked(path) for one in unused_imports(path)]
    for item in items:
        print(f"{item.path}:{item.line}: {item.name} ({item.count} lines)")
    for path, line, name in names:
        print(f"{path}:{line}: import {name}")
    if items or names:
        print(f"tests/gate/unused.py: nothing cites {len(items)} items and {len(names)} imports: take them out")
        return 1
    print("unused: each definition, lemma, function, type and import of the crates is cited")
    return 0


if __name__ == "__main__":
    sys.exit(main(sys.argv[1:]))
