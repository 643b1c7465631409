"""What README.md and the pages of docs/ quote stands in the stored talks and statements of examples/: each call with its reply, each
statement whole below its title, and without a title rows that follow one another.

    python3 tests/gate/quotes.py
"""
import glob
import itertools
import re
import sys


def lines_of(name):
    with open(name) as file:
        return file.read().splitlines()


def stored_pairs():
    for talk in glob.glob("examples/**/*.jsonl", recursive=True):
        yield from zip(lines_of(talk), lines_of(talk.removesuffix(".jsonl") + ".replies"), strict=True)


def quoted(page):
    """The indented lines of a page, with their numbers."""
    return [(number, line[4:]) for number, line in enumerate(lines_of(page), 1) if line.startswith("    ")]


def unknown_quotes(page, pairs):
    """Replies that no stored talk has, or not to the call above them. A call may go on on a further line, which begins with blanks."""
    said = {}
    replies = {reply for _, reply in pairs}
    for number, line in quoted(page):
        if line.startswith("> "):
            said = {number: line[2:]}
        elif line.startswith("  ") and number - 1 in said:
            said = {number: said[number - 1] + line.strip()}
        elif line.startswith('< {"at"'):
            call = said.get(number - 1)
            if line[2:] not in replies or call is not None and (call, line[2:]) not in pairs:
                yield number


def broken_statements(page, statements):
    """Titles of statements that are quoted, and don't go on as a stored statement of that title does."""
    lines = lines_of(page)
    for number, line in enumerate(lines):
        titled = [whole for whole in statements if line == "    " + whole[0]]
        if titled and not any([text[4:] for text in lines[number : number + len(whole)]] == whole for whole in titled):
            yield number + 1


def rows_apart(page, statements):
    """Rows of a statement without its title, as those of one fund, that no stored statement has in this order."""
    lines = quoted(page)
    for _, block in itertools.groupby(enumerate(lines), lambda one: one[1][0] - one[0]):
        numbers, rows = zip(*(one for _, one in block))
        if re.fullmatch(r"\S[^\t]{38,} -?\d+\.\d\d", rows[-1]) and not any(
            list(rows) == whole[place : place + len(rows)] for whole in statements for place in range(len(whole))
        ):
            yield numbers[0]


def main():
    pairs = set(stored_pairs())
    statements = [lines_of(name) for name in glob.glob("examples/**/*.reports/*.txt", recursive=True)]
    faults = 0
    for page in ["README.md", *sorted(glob.glob("docs/*.md"))]:
        for number in [*unknown_quotes(page, pairs), *broken_statements(page, statements), *rows_apart(page, statements)]:
            print("%s:%d: not in the stored talks and statements" % (page, number))
            faults += 1
    return min(faults, 1)


if __name__ == "__main__":
    sys.exit(main())
