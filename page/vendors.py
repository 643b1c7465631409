"""Reads a city's list of vendors, a sheet of comma-separated values in UTF-8, for lists.py:

    vendor,name,address
    612,Acme Paving,"12 Mill Road
    Harborview"

The first row names the columns. A vendor is a number from 0 to 4294967295 and stands once. A name has
1 to 80 letters, an address at most 300, in lines; the address may be left out. Where a cell has a
fault its row and column are said, and nothing of the file is taken.
"""
import csv
import io
import json
import os
import re

COLUMNS = ["vendor", "name", "address"]
LARGEST, MOST, SIZE = 2**32 - 1, 100_000, 16 * 2**20
NAME, ADDRESS = 80, 300
CELL, END = re.compile(r'"[^"]*(?:""[^"]*)*"(?!")|[^",\r\n][^,\r\n]*|'), re.compile(r",|\r\n|\r|\n|\Z")


class Fault(Exception):
    """What is wrong with a list, by row and column."""


def fault(place, column, said):
    """Says what is wrong with a cell; a column beyond those that are named has its number alone."""
    name = f" ({COLUMNS[column - 1]})" if column <= len(COLUMNS) else ""
    raise Fault(f"row {place}, column {column}{name}: {said}")


def sheet(text):
    """The rows of a sheet of comma-separated values."""
    rows = []
    try:
        for row in csv.reader(io.StringIO(text, newline=""), strict=True):
            rows.append(row)
    except csv.Error as said:
        fault(*(broken(text) or (len(rows) + 1, 1)), f"it isn't comma-separated values: {said}")
    return rows


def broken(text):
    """The row and column of the first cell whose quotes can't be read."""
    at, row, column = 0, 1, 1
    while at < len(text):
        at = CELL.match(text, at).end()
        end = END.match(text, at)
        if not end:
            return row, column
        at = end.end()
        row, column = (row, column + 1) if end.group() == "," else (row + 1, 1)
    return None


def read(path):
    """The vendors of a file, each as its number, its name and the lines of its address."""
    with open(path, "rb") as file:
        data = file.read(SIZE + 1)
    if len(data) > SIZE:
        raise Fault(f"the file has more than {SIZE} bytes")
    # A byte that isn't UTF-8 becomes a mark of its own, by which its cell is found.
    rows = sheet(data.removeprefix(b"\xef\xbb\xbf").decode("utf-8", "surrogateescape"))
    heads = rows[0] if rows else []
    if heads not in (COLUMNS[:2], COLUMNS):
        wrong = next((at for at, name in enumerate(COLUMNS) if heads[at:at + 1] != [name]), len(COLUMNS))
        fault(1, wrong + 1, "the columns are to be vendor,name or vendor,name,address")
    if len(rows) > MOST:
        raise Fault(f"it has more than {MOST} rows")
    seen, vendors = {}, []
    for place, row in enumerate(rows[1:], 2):
        if row:
            vendors.append(vendor(place, row, len(heads), seen))
    return vendors


def vendor(place, row, width, seen):
    """A row's vendor, where nothing is wrong with it."""
    for column, cell in enumerate(row, 1):
        if any("\udc80" <= letter <= "\udcff" for letter in cell):
            fault(place, column, "it isn't UTF-8")
    if len(row) != width:
        fault(place, min(len(row), width) + 1, f"the row has {len(row)} columns, and {width} are named")
    number, name = row[0].strip(), row[1].strip()
    if not (number.isascii() and number.isdigit() and len(number) <= 10 and int(number) <= LARGEST):
        fault(place, 1, f"{row[0]!r} is no number from 0 to {LARGEST}")
    if int(number) in seen:
        fault(place, 1, f"vendor {number} stands in row {seen[int(number)]} already")
    seen[int(number)] = place
    if not 1 <= len(name) <= NAME or not name.isprintable():
        fault(place, 2, f"a name has 1 to {NAME} letters, in one line")
    address = [line.strip() for line in row[2].splitlines()] if width == 3 else []
    if width == 3 and (len(row[2]) > ADDRESS or not all(line.isprintable() for line in address)):
        fault(place, 3, f"an address has at most {ADDRESS} letters, in lines")
    return [int(number), name, *(line for line in address if line)]


def taken(path, folder):
    """What vendors.json is to have: the vendors of the file, or those that were read before with what is wrong now."""
    if not path or not os.path.exists(path):
        return {"vendors": [], "fault": ""}
    try:
        return {"vendors": read(path), "fault": ""}
    except (Fault, OSError) as fault:
        try:
            with open(os.path.join(folder, "vendors.json"), encoding="utf-8") as file:
                old = json.load(file)["vendors"]
        except (OSError, ValueError):
            old = []
        return {"vendors": old, "fault": str(fault)}
