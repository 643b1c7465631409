"""The pages beside the sources and beside each other.

    python3 tests/gate/pages.py            says what isn't so, and ends with 1 where something isn't
    python3 tests/gate/pages.py --words    the words of each page, and of all, without docs/CLAUSES.md

It checks that
- crates.txt has a crate below those that it uses, and names the libraries that files of the crate name, and
  no others; docs/ARCHITECTURE.md lists the same crates in the same groups and order;
- each file and each name of the tables of docs/NEW-CALL.md is there, and its counts are right; its files of source
  have the order of crates.txt, and each file with a match on acts is among them;
- a page, a heading of a page, a script or a folder that a page names is there;
- no two pages share a run of nine words, and no line is longer than 100 columns. Rows of tables,
  lines of code and headings are left aside; of docs/CLAUSES.md every line counts;
- as many lines of source and of definitions are longer than that as WIDE says, which may only fall.
  Imports are left aside.
"""
import collections
import functools
import glob
import os
import re
import sys

TOP = os.path.join(os.path.dirname(os.path.abspath(__file__)), "..", "..")
MADE = "docs/CLAUSES.md"
# The crates whose files with a match on acts are a call's own: what it is, and what reads and writes it.
OWN = ("cf_calls", "cf_codec", "cf_json", "cf_json_calls")
# The lines of more than 100 columns that the crates have: printed texts, and tables in comments.
WIDE = 32


@functools.cache
def read(path):
    with open(os.path.join(TOP, path), encoding="utf-8") as file:
        return file.read()


@functools.cache
def files(*patterns):
    """The files of the patterns below the top, without those that rt made."""
    found = sorted(path for one in patterns for path in glob.glob(os.path.join(TOP, one), recursive=True))
    return [os.path.relpath(path, TOP) for path in found if "/out/" not in path]


def pages():
    return {path: read(path) for path in files("README.md", "CHANGELOG.md", "docs/*.md")}


# ---- crates.txt

def crates():
    """The lines of crates.txt: each crate with its group and what it uses."""
    group, made = "", {}
    for line in read("crates.txt").split("\n"):
        head = re.match(r"# (\w+): ", line)
        group = head.group(1) if head else group
        name, _, uses = line.partition("#")[0].strip().partition(":")
        if name:
            made[name] = (group, uses.split())
    return made


def named(crate):
    """The libraries that files of a crate name."""
    text = "\n".join(read(path) for path in files(f"crates/{crate}/**/*.rt", f"crates/{crate}/**/*.antt"))
    return set(re.findall(r"\bRattle\.(\w+)", text)) | set(re.findall(r"(?<![\w:])(\w+)::", text)) | set(re.findall(r"\buse (\w+);", text))


def crate_faults(lines):
    below = set()
    for name, (_, uses) in lines.items():
        for other in uses:
            if other in lines and other not in below:
                yield f"crates.txt: {name} stands above {other}, which it uses"
        below.add(name)
        has = named(name)
        for other in sorted(set(uses) - has):
            yield f"crates.txt: no file of {name} names {other}"
        for other in sorted(one for one in has & set(lines) if one.startswith("cf_") and one not in (*uses, name)):
            yield f"crates.txt: {name} doesn't name {other}, which its files do"


def listed():
    """The crates of the table of docs/ARCHITECTURE.md, each with its group."""
    group, made = "", []
    part = read("docs/ARCHITECTURE.md").split("\n## The crates\n")[1].split("\n## ")[0]
    for first in re.findall(r"^\| (\S+) \|", part, re.M):
        if first.startswith("**"):
            group = first.strip("*")
        elif first.startswith("`"):
            made.append((first.strip("`"), group))
    return made


# ---- docs/NEW-CALL.md

def has_name(path, name):
    """Whether a file of source has a function, a type or a value of the name, or one of definitions a definition."""
    text = read(path)
    if path.endswith(".rt"):
        return re.search(rf"\b(?:fn|enum|struct|trait|const) {name}\b", text)
    return re.search(rf"^\s*(?:(?:pub|abbrev|unfoldable|record|data) )*{name}(?=[ :({{])", text, re.M)


def where(span):
    """The path of a file that a page names, from the top or from crates/."""
    return next((path for path in (span, f"crates/{span}") if os.path.exists(os.path.join(TOP, path))), None)


def cells(page):
    """The files of each cell of a page's tables, each with the names after it. A file alone lies beside the one before it."""
    for line in page.split("\n"):
        if not line.startswith("| ") or "." not in line:
            continue
        for cell in line.strip("|").split(" | "):
            path = ""
            for span in re.findall(r"`([^`]+)`", cell):
                if re.fullmatch(r"[\w./-]+/[\w./-]+", span):
                    path = where(span) or span
                    yield path, None
                elif path and re.fullmatch(r"[\w-]+\.\w+", span):
                    path = os.path.join(os.path.dirname(path), span)
                    yield path, None
                elif path and re.fullmatch(r"\w+", span):
                    yield path, span


def call_faults():
    page = read("docs/NEW-CALL.md")
    for path, name in cells(page):
        if not os.path.exists(os.path.join(TOP, path)):
            yield f"docs/NEW-CALL.md: no file {path}"
        elif name and os.path.isfile(os.path.join(TOP, path)) and not has_name(path, name):
            yield f"docs/NEW-CALL.md: {path} has no {name}"
    numbers = [str(counted(word, kind)) for word in ("Receive", "Lease") for kind in ("src", "specs", "proofs")]
    said = re.search(r"stands in (\d+) files of source, (\d+) of definitions and (\d+) of proofs; `lease` in (\d+), (\d+)\s+and (\d+)", spaced(page))
    if not said or list(said.groups()) != numbers:
        yield f"docs/NEW-CALL.md: receive and lease stand in {', '.join(numbers)} files"
    yield from match_faults(page)


def match_faults(page):
    """What the page says of the matches on acts and kinds, of their files, and of the definitions."""
    whole, silent = matches()
    files_of = {path for path, _, _ in whole}
    others = {path for path in files_of if path.split("/")[1] not in OWN}
    said = re.search(
        r"Of (\d+) matches on `Act` or `ActKind` (\d+) list all (\d+)\.\*\* Of their (\d+) files (\d+) are the call's own "
        r"\([\d, ]+\)\. In the other (\d+) `receive` does something in (\d+), and `lease` in (\d+);", spaced(page))
    numbers = [len(whole) + len(silent), len(whole), len(variants("Act")), len(files_of), len(files_of) - len(others), len(others)]
    numbers += [len(others & {path for path, _, arms in whole if does(word, arms)}) for word in ("Receive", "Lease")]
    if not said or [int(one) for one in said.groups()] != numbers:
        yield f"docs/NEW-CALL.md: matches, those that list all, acts, files, own, others, receive, lease: {numbers}"
    if not re.search(rf"Of the definitions {definitions()} list all", spaced(page)):
        yield f"docs/NEW-CALL.md: {definitions()} definitions list all acts or kinds"
    for _, name, _ in silent:
        if f"`{name}`" not in page:
            yield f"docs/NEW-CALL.md: {name} lists not every act"
    shown = [path for path, name in cells(page) if path.endswith(".rt") and not name]
    for path in sorted({path for path, _, _ in whole + silent}.difference(shown)):
        yield f"docs/NEW-CALL.md: {path} matches on acts, and no row names it"
    order = list(crates())
    places = [order.index(path.split("/")[1]) for path in shown if os.path.exists(os.path.join(TOP, path))]
    if places != sorted(places):
        yield "docs/NEW-CALL.md: its files of source don't stand in the order of crates.txt"


def spaced(text):
    return " ".join(text.split())


def counted(word, kind):
    """How many files have a word; of proofs those of all folders."""
    kinds = {"src": "rt", "specs": "antt", "proofs": "antt"}
    return sum(1 for path in files(f"crates/*/{kind}/**/*.{kinds[kind]}") if re.search(rf"\b{word}\b", read(path)))


# The head of an arm, with brackets in brackets in brackets.
ARM = re.compile(r"(?:\((?:[^(){}]|\((?:[^(){}]|\([^(){}]*\))*\))*\)|[^{},;=()])+?=>")


@functools.cache
def variants(name):
    """The variants of an enumeration of cf_calls."""
    text = "\n".join(read(f"crates/cf_calls/src/{file}.rt") for file in ("acts", "kind"))
    return frozenset(re.findall(r"^    (\w+)\b[(,]", re.search(rf"^pub enum {name} \{{(.*?)^\}}", text, re.M | re.S).group(1), re.M))


def matches():
    """The functions with a match on acts or their kinds, with their files and what their arms name: those that list all, and
    those with a default."""
    whole, silent = [], []
    for path in files("crates/*/src/**/*.rt"):
        text = read(path)
        for found in re.finditer(r"\bmatch [^{;]+? \{", text):
            body = text[found.end():closing(text, found.end() - 1)]
            arms = [set(re.findall(r"\b(Act|ActKind)::(\w+)", arm)) for arm in ARM.findall(body)]
            named = set().union(*arms)
            if not named:
                continue
            listed = [{one for kind, one in named if kind == name} == variants(name) for name in ("Act", "ActKind")]
            name = re.findall(r"fn (\w+)", text[:found.start()])[-1]
            (whole if any(listed) else silent).append((path, name, arms))
    return whole, silent


def does(word, arms):
    """Whether an act stands in an arm of a match that isn't the one for all that do nothing there, which is the longest."""
    rest = max(arms, key=len)
    return any((kind, word) in arm for kind in ("Act", "ActKind") for arm in arms if arm is not rest or len(arm) == 1)


@functools.cache
def definitions():
    """How many definitions have no line but those that name acts, or kinds, and so name all."""
    count = 0
    for path in files("crates/*/specs/**/*.antt"):
        lines = collections.defaultdict(list)
        for part in re.split(r"\n(?=\S)", read(path)):
            head = re.split(r" =\s", part)[0]
            if head != part and re.match(r"\w+ ", head):
                lines[head.split()[0]].append(variants("Act").intersection(re.findall(r"\w+", head)))
        count += sum(1 for found in lines.values() if all(found) and set().union(*found) == variants("Act"))
    return count


def closing(text, start):
    """The place of the brace that closes the one at `start`."""
    depth = 0
    for place in range(start, len(text)):
        depth += (text[place] == "{") - (text[place] == "}")
        if depth == 0:
            return place
    return len(text)


# ---- what pages name

SHOWN = ("README.md", "docs/", "tests/", "bench/", "examples/", "crates/", "page/", "build", "package", ".ci/run", "cityfund", "books")


def headings(text):
    """The headings of a page, and the bold words that paragraphs begin with."""
    return re.findall(r"^#+ (.*)$", text, re.M) + re.findall(r"^(?:- )?\*\*([^*]+?)\.?\*\*", text, re.M)


def link_faults(all_pages):
    for path, text in all_pages.items():
        flat = spaced(re.sub(r"^    .*$", "", text, flags=re.M))
        for span in re.findall(r"`([\w./-]+/[\w./-]*)`", flat):
            # A word in capitals stands for a name.
            if span.startswith(SHOWN[1:7]) and not re.search(r"/[A-Z]+(/|$)", span) and not os.path.exists(os.path.join(TOP, span)):
                yield f"{path}: there is no {span}"
        for page, heading in re.findall(r"`((?:docs/)?[\w-]+\.md)`,? \(?\"([^\"]+)\"", flat):
            target = page if page in all_pages else f"docs/{page}"
            if target not in all_pages:
                yield f"{path}: there is no {page}"
            elif heading not in headings(all_pages[target]):
                yield f"{path}: {target} has no heading \"{heading}\""
        for heading in re.findall(r"(?<!` )\((?:see )?\"([A-Z][^\"]+)\"\)", flat):
            if heading not in headings(text):
                yield f"{path}: it has no heading \"{heading}\""
        for target, anchor in re.findall(r"\]\(([\w./-]+\.md)(?:#([\w-]*))?\)", text):
            target = os.path.normpath(os.path.join(os.path.dirname(path), target))
            if target not in all_pages:
                yield f"{path}: there is no {target}"
            elif anchor and anchor not in [anchored(one) for one in re.findall(r"^#+ (.*)$", all_pages[target], re.M)]:
                yield f"{path}: {target} has no heading with the anchor {anchor}"


def anchored(heading):
    """The anchor of a heading, as pages of Markdown have it."""
    return re.sub(r"[^\w -]", "", heading.lower()).replace(" ", "-")


# ---- measures

def words(all_pages):
    made = {path: len(text.split()) for path, text in all_pages.items()}
    for path, count in made.items():
        print(f"{count:7} {path}")
    print(f"{sum(made.values()) - made.get(MADE, 0):7} all but {MADE}")


# ---- what stands twice, and long lines

APART = re.compile(r"^(?:\||    |#|!\[).*$", re.M)


def shared_faults(all_pages):
    """The runs of nine words that two pages share, headings in quotes aside."""
    found = collections.defaultdict(set)
    for path, text in all_pages.items():
        if path == MADE:
            continue
        prose = re.sub(r'"[^"]*"', " \0 ", APART.sub(" \0 ", text))
        for part in prose.split("\0"):
            said = re.findall(r"[\w'-]+", part.lower())
            for place in range(len(said) - 8):
                found[tuple(said[place:place + 9])].add(path)
    for run, paths in found.items():
        if len(paths) > 1:
            yield f"{', '.join(sorted(paths))} have both: {' '.join(run)}"


def line_faults(all_pages):
    for path, text in all_pages.items():
        shown = text if path == MADE else APART.sub("", text)
        for number, line in enumerate(shown.split("\n"), 1):
            if len(line) > 100:
                yield f"{path}: line {number} has {len(line)} columns: run tests/lib/fill.py {path}"


def wide_faults():
    found = collections.Counter()
    for path in files("crates/*/src/**/*.rt", "crates/*/specs/**/*.antt"):
        lines = read(path).split("\n")
        found[path] = sum(1 for line in lines if len(line) > 100 and not re.match(r"((ghost|pub|unfoldable pub) )?use ", line.strip()))
    if found.total() != WIDE:
        most = ", ".join(f"{path} ({count})" for path, count in found.most_common(3))
        yield f"tests/gate/pages.py: {found.total()} lines of crates have more than 100 columns, and WIDE says {WIDE}: {most}"


def main(said):
    all_pages = pages()
    if "--words" in said:
        return words(all_pages)
    lines = crates()
    faults = [*crate_faults(lines), *call_faults(), *link_faults(all_pages)]
    faults += [*shared_faults(all_pages), *line_faults(all_pages), *wide_faults()]
    if listed() != [(name, group) for name, (group, _) in lines.items()]:
        faults.append("docs/ARCHITECTURE.md: its table hasn't the crates of crates.txt, in their groups and order")
    for fault in faults:
        print(fault)
    if not faults:
        print(f"pages: {len(lines)} crates and {len(all_pages)} pages name what is there")
    return min(len(faults), 1)


if __name__ == "__main__":
    sys.exit(main(sys.argv[1:]))
