#!/usr/bin/env python3
"""Makes calls of a sheet, which desk.py, desk.sh or a desk then send:

    from_csv.py [NAME=TEXT ..] < sheet.csv > calls.jsonl

The first row names the columns: call, desk, key, on, and the call's fields as docs/CALLS.md has them. NAME=TEXT is a column with the
same text in each row, in which {COLUMN} is the row's cell of another column. So a key is made of what names the document, and a sheet
that is sent again, with new rows or without, does nothing twice:

    from_csv.py call=voucher desk=4 'key=inv-{vendor}-{invoice}' < vouchers.csv > vouchers.jsonl

Amounts are money with two places, 1234.50 or 1,234.50. Rows that follow one another with the same call, desk and key are one call,
each with an element of its list: an item, a budget line or an estimate, the number of a voucher. A column whose name begins with # is
for the reader alone. A cell that can't be read is named with its row and column, and then no call is written. Else what the calls come
to is said on standard error, to be compared with the sheet. CITYFUND_CALLS names a docs/CALLS.md elsewhere.
"""
import csv
import datetime
import io
import json
import os
import re
import sys

import tables

RANGES = {"n16": (0, 65535), "n32": (0, 4294967295), "year": (1971, 2199)}
TRUTHS = {"x": True, "yes": True, "true": True, "no": False, "false": False}
WORD = tables.Field("call", "text")
DESK, KEY, ON = tables.HEAD


class Fault(Exception):
    """What is wrong with the sheet, and where."""


def money(text, signed):
    """The cents of an amount that is written as money."""
    found = re.fullmatch(r"(-?)([0-9]+|[0-9]{1,3}(?:,[0-9]{3})+)\.([0-9]{2})", text)
    if not found or found[1] and not signed:
        raise Fault(f"{text} is no amount of money, as 1234.50 or 1,234.50")
    digits = found[2].replace(",", "") + found[3]
    if len(digits) > 18:
        raise Fault(f"{text} is too large")
    return int(found[1] + digits)


def number(text, least, most):
    if not re.fullmatch("[0-9]{1,10}", text) or not least <= int(text) <= most:
        raise Fault(f"{text} is no number from {least} to {most}")
    return int(text)


def day(text):
    try:
        found = datetime.date.fromisoformat(text)
    except ValueError:
        found = None
    if not found or found.isoformat() != text or not 1970 <= found.year <= 2199:
        raise Fault(f"{text} is no day, as 2025-07-01")
    return text


def month(text):
    try:
        return day(text + "-01")[:7]
    except Fault:
        raise Fault(f"{text} is no month, as 2025-07") from None


def value(field, text):
    """What a cell says for a field."""
    if field.type in ("cents", "by"):
        return money(text, field.type == "by")
    if field.type in RANGES:
        return number(text, *RANGES[field.type])
    if field.type == "day":
        return day(text)
    if field.type == "month":
        return month(text)
    if field.type == "true or false":
        if text.lower() not in TRUTHS:
            raise Fault(f"{text} is neither yes nor no")
        return TRUTHS[text.lower()]
    if field.type == "choice" and text not in field.words:
        raise Fault(f"{text} is none of {', '.join(field.words)}")
    if field == KEY and not tables.KEY.fullmatch(text):
        raise Fault(f"{text} isn't 1 to 40 letters, digits and marks without a blank")
    return text


class Row:
    """A row of the sheet. A cell is taken out when it is read, so what is left at the end has no place in the call."""

    def __init__(self, number, cells):
        self.number, self.cells, self.spent = number, cells, set()

    def fault(self, column, text):
        return Fault(f"row {self.number}, {column}: {text}")

    def fill(self, words):
        """Adds the columns of the words."""
        given = dict(self.cells)

        def cell(found):
            if found[1] not in given:
                raise self.fault(found[1], "it is empty, and another column is made of it")
            self.spent.add(found[1])
            return given[found[1]]

        for name, text in words.items():
            if name in given:
                raise self.fault(name, "the sheet and the words both have it")
            self.cells[name] = re.sub(r"\{([^{}]*)\}", cell, text)

    def take(self, field, needed):
        """What the row says for a field, or nothing where it isn't needed."""
        text = self.cells.pop(field.name, "")
        if not text and needed:
            raise self.fault(field.name, "it is empty")
        try:
            return value(field, text) if text else None
        except Fault as fault:
            raise self.fault(field.name, fault) from None

    def elements(self, field):
        """What the row adds to a list: an element, or numbers with blanks between them. Of two lists it is that whose first field is
        there."""
        if isinstance(field.parts, str):
            texts = self.cells.pop(field.name, "").split() or [""]
            one = tables.Field(field.name, field.parts)
            return [Row(self.number, {field.name: text}).take(one, True) for text in texts]
        if not field.least and field.parts[0].name not in self.cells:
            return []
        made = {part.name: self.take(part, not part.optional) for part in field.parts}
        return [{name: found for name, found in made.items() if found is not None}]

    def put_into(self, call, fields):
        """Puts what the row says into its call."""
        for field in (ON, *fields):
            if field.only and call["what"] not in field.only:
                continue
            if field.type == "list":
                call.setdefault(field.name, []).extend(self.elements(field))
                if len(call[field.name]) > field.most:
                    raise self.fault(field.name, f"{call['call']} {call['key']} has more than {field.most}")
                continue
            found = self.take(field, field.name not in call and not field.optional)
            if found is not None and call.setdefault(field.name, found) != found:
                raise self.fault(field.name, f"{found} isn't what an earlier row of {call['key']} has")
        for column in self.cells.keys() - self.spent:
            raise self.fault(column, f"{call['call']} has no place for {self.cells[column]}")


def rows(file):
    """The rows of a sheet, without those that are empty and what is for the reader alone."""
    reader = csv.reader(file, strict=True)
    columns, place = None, 0
    try:
        for place, cells in enumerate(reader, 1):
            cells = [cell.strip() for cell in cells]
            if columns is None:
                columns = cells
                if len(cells) == 1 and re.search("[;\t]", cells[0]):
                    raise Fault("row 1: there is one column: the sheet needs commas between its columns")
                if any(name and cells.count(name) > 1 for name in cells):
                    raise Fault("row 1: two columns have one name")
                continue
            named = {name: cell for name, cell in zip(columns, cells) if cell and not name.startswith("#")}
            if named.pop("", None) or any(cells[len(columns):]):
                raise Fault(f"row {place}: a cell stands in a column without a name")
            if named:
                yield Row(place, named)
    except csv.Error as fault:
        raise Fault(f"row {place + 1}: {fault}") from None


def calls_of(file, words, fields):
    """The calls of a sheet, one after another."""
    begun, last = {}, None
    for row in rows(file):
        row.fill(words)
        head = {field.name: row.take(field, True) for field in (WORD, DESK, KEY)}
        if head["call"] not in fields:
            raise row.fault("call", f"{head['call']} is no changing call of docs/CALLS.md")
        own = fields[head["call"]]
        same = (head["desk"], head["key"])
        first, call = begun.setdefault(same, (row.number, head))
        goes_on = same == last and call["call"] == head["call"] and any(field.type == "list" for field in own)
        if first != row.number and not goes_on:
            raise row.fault("key", f"{head['key']} is that of row {first}")
        row.put_into(call, own)
        last = same
    return [call for _, call in begun.values()]


def totals(calls, fields):
    """What the calls of each name come to."""
    for name in dict.fromkeys(call["call"] for call in calls):
        same = [call for call in calls if call["call"] == name]
        said = [f"{len(same)} {name}"]
        for field in fields[name]:
            found = [call[field.name] for call in same if field.name in call]
            if field.type == "list" and field.parts != "n32":
                found = [e if isinstance(e, int) else e["amount"] for elements in found for e in elements]
            elif field.type not in ("cents", "by"):
                continue
            cents = sum(found)
            said.append(f"{field.name} {'-' if cents < 0 else ''}{abs(cents) // 100:,}.{abs(cents) % 100:02}")
        yield ", ".join(said)


def main():
    words = dict(word.split("=", 1) for word in sys.argv[1:] if "=" in word)
    if len(words) < len(sys.argv) - 1:
        sys.exit(__doc__)
    fields = tables.calls(os.environ.get("CITYFUND_CALLS", tables.CALLS))
    # Spreadsheets put a byte order mark before the first name.
    calls = calls_of(io.TextIOWrapper(sys.stdin.buffer, "utf-8-sig", "replace", newline=""), words, fields)
    for call in calls:
        print(json.dumps(call, separators=(",", ":")))
    for line in totals(calls, fields):
        print(f"from_csv: {line}", file=sys.stderr)


if __name__ == "__main__":
    try:
        main()
    except (Fault, OSError, tables.Unread) as fault:
        sys.exit(f"from_csv: {fault}")
