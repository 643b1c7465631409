"""What the page shows beside what the books print: rows of lists, and statements."""
import json
import os

from looking import money
from records import rows_of

CELLS = ".map(row => [...row.children].map(cell => cell.textContent))"
ROWS = "[...document.querySelectorAll('{} tbody tr')]" + CELLS
# The columns of a statement that are no amounts.
WORDS = ("section", "name", "line", "part", "part_name")


def books(stand, *words):
    """The rows of a list as dictionaries."""
    return rows_of(stand.books, os.path.join(stand.journal, "fund.journal"), *words)


def cents(text):
    return int(text.replace(".", "").replace(",", "") or 0)


def go(clerk, address, until):
    clerk.page.do(f"location.hash = {json.dumps(address)}; true")
    return clerk.page.until(until)


def statement(stand, clerk, address, text, *words):
    """Compares the statement at an address, once its span has a text, with the books' own of these
    words. Gives the span.
    """
    clerk.page.do("document.getElementById('report').replaceChildren(); true")
    span = "document.querySelector('#report .span')?.textContent"
    said = go(clerk, address, f"{span}?.includes({json.dumps(text)}) && {span}")
    rows = books(stand, "statement", *words)
    names = [name for name in rows[0] if name not in WORDS]
    wanted = [[money(cents(row[name])) for name in names if row[name]] for row in rows]
    found = [row for row in clerk.page.do(ROWS.format("#report")) if any(row[1:])]
    stand.same(
        f"the statement {address}", [[cell for cell in row[1:] if cell] for row in found], wanted
    )
    return said
