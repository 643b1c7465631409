#!/usr/bin/env python3
"""Makes site/tables.json, by which the page shows its forms and says answers in words, of the tables of docs/: the calls with their
fields (CALLS.md), the refusals with what to do next (RULES.md), and what the page calls all of these (PAGE.md).

    tables.py            writes site/tables.json
    tables.py --check    says where it isn't what the docs have, and ends with 1

It stops at a cell that it can't read, and at a call, a word or a field of several words that PAGE.md
has no name for: then docs and page can't drift apart. A field of one word is called by its name.
"""
import json
import os
import re
import sys

TOP = os.path.join(os.path.dirname(os.path.abspath(__file__)), "..")
sys.path.insert(0, os.path.join(TOP, "examples", "clients"))
import tables

MADE = os.path.join(TOP, "page", "site", "tables.json")
REFUSALS = 25


def page(name):
    with open(os.path.join(TOP, "docs", name), encoding="utf-8") as file:
        return file.read()


def tables_below(text, title):
    """The tables below a title, each as its rows of cells, without heads."""
    part = re.search(rf"^## {title}\n(.*?)(?=^## |\Z)", text, re.M | re.S)
    if not part:
        raise tables.Unread(f"there is no chapter {title}")
    found = re.findall(r"(?:^\|.*\n)+", part.group(1), re.M)
    return [[[cell.strip() for cell in line.strip("|").split("|")] for line in table.strip().split("\n")[2:]] for table in found]


def bare(cell):
    return cell.strip("`")


def named(names, word, what):
    if word not in names:
        raise tables.Unread(f"docs/PAGE.md has no name for the {what} {word}")
    return names.pop(word)


class Names:
    """What docs/PAGE.md calls calls, fields, words of choices and roles. A row of it that nothing takes is a fault too."""

    def __init__(self):
        calls, fields, words = tables_below(page("PAGE.md"), "What the forms say")
        self.calls = {bare(call): (title, paper, bare(key)) for call, title, paper, key in calls}
        self.fields = {bare(name): (label, hint) for name, label, hint in fields}
        self.words = {bare(word): label for word, label in words}

    def call(self, word):
        return named(self.calls, word, "call")

    def field(self, name):
        """Its label and its hint. One without a row is called by its name."""
        return self.fields.get(name) or (name.capitalize(), "")


def field_of(field, names, used):
    label, hint = names.field(field.name)
    if not label.isalpha() and field.name not in names.fields:
        raise tables.Unread(f"docs/PAGE.md has no name for the field {field.name}")
    used.add(field.name)
    made = {"name": field.name, "type": field.type, "label": label}
    if hint:
        made["hint"] = hint
    if field.optional:
        made["optional"] = True
    if field.only:
        made["only"] = list(field.only)
    if field.words:
        used.update(field.words)
        made["words"] = {word: names.words[word] if word in names.words else named(names.words, word, "word") for word in field.words}
    if field.type == "list":
        made["least"], made["most"] = field.least, field.most
        made["parts"] = field.parts if isinstance(field.parts, str) else [field_of(part, names, used) for part in field.parts]
    return made


def calls():
    names, used = Names(), {"on"}
    roles = {bare(row[0]): row[1] for row in tables_below(page("CALLS.md"), "Changing calls")[0]}
    made = {}
    for call, fields in tables.calls().items():
        title, paper, key = names.call(call)
        made[call] = {"role": roles[call], "title": title, "key": key, "fields": [field_of(field, names, used) for field in fields]}
        if paper:
            made[call]["paper"] = paper
        unknown = set(re.findall(r"\{([\w/]+)\}", key))
        known = {field.name for field in fields} | {"on", "paper"}
        if not {word for each in unknown for word in each.split("/")} <= known or ("{paper}" in key) != bool(paper):
            raise tables.Unread(f"the key of {call}: {key}")
    left = [*names.calls, *(name for name in names.fields if name not in used), *(word for word in names.words if word not in used)]
    if left:
        raise tables.Unread(f"docs/PAGE.md names what no call has: {', '.join(left)}")
    return made


def refusals():
    """The refusals with what to do, what rules 13 and 18 say by state, and the replies before any rule."""
    text = page("RULES.md")
    rules, states, assets = tables_below(text, "The rules")
    made = {name: {"code": int(code), "broken": broken, "todo": todo} for code, name, broken, todo in rules if code.isdigit()}
    if sorted(each["code"] for each in made.values()) != list(range(1, REFUSALS + 1)):
        raise tables.Unread("the rules of docs/RULES.md")
    by_state = [[kind, bare(word), todo] for kind, cell, todo in states for word in cell.split(", ")]
    of_assets = [[bare(word), of, todo] for word, of, todo in assets]
    replies = {}
    for reply, todo in tables_below(text, "Before any rule")[0]:
        said = re.match(r'`\{"(\w+)":(?:"(\w+)"|true)', reply)
        replies[said.group(2) or said.group(1)] = todo
    return {"refusals": made, "states": by_state, "assetStates": of_assets, "replies": replies}


def main():
    made = json.dumps({"calls": calls(), **refusals()}, indent=1, ensure_ascii=False) + "\n"
    if sys.argv[1:] == ["--check"]:
        with open(MADE, encoding="utf-8") as file:
            same = file.read() == made
        print("tables: the page has the tables of docs/" if same else "tables: page/site/tables.json isn't what docs/ say: run page/tables.py")
        return int(not same)
    with open(MADE, "w", encoding="utf-8") as file:
        file.write(made)
    return 0


if __name__ == "__main__":
    try:
        sys.exit(main())
    except (OSError, tables.Unread) as fault:
        sys.exit(f"tables: {fault}")
