"""Fills the paragraphs and lists of pages to lines of at most 100 columns. Tables, code and headings
stay as they are.

    python3 tests/lib/fill.py PAGE..
"""
import re
import sys
import textwrap

HEAD = re.compile(r"(\s*)((?:- |\d+\. )?)(.*)")
ITEM = re.compile(r"\s*(- |\d+\. )")


def filled(block):
    """The lines of a paragraph or of an item of a list."""
    inner, mark, first = HEAD.match(block[0]).groups()
    text = " ".join([first, *block[1:]])
    behind = inner + " " * len(mark)
    return textwrap.wrap(" ".join(text.split()), 100, initial_indent=inner + mark,
                         subsequent_indent=behind, break_long_words=False, break_on_hyphens=False)


def stays(line, block):
    """Whether a line is no prose: code, a row, a heading, a picture, or nothing."""
    if not line.strip() or re.match(r"\||#|!\[|       ", line):
        return True
    return line.startswith("    ") and not (block and ITEM.match(block[0]))


def page(text):
    made, block, fenced = [], [], False
    for line in [*text.split("\n"), ""]:
        fenced ^= line.startswith("```")
        apart = fenced or line.startswith("```") or stays(line, block)
        if block and (apart or ITEM.match(line)):
            made.extend(filled(block))
            block = []
        if apart:
            made.append(line)
        else:
            block.append(line)
    return "\n".join(made[:-1])


for path in sys.argv[1:]:
    with open(path, encoding="utf-8") as file:
        was = file.read()
    with open(path, "w", encoding="utf-8") as file:
        file.write(page(was))
