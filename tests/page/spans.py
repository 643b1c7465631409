"""Statements that no list keeps: through any day and at any entry, printed and as a sheet;
questions out of form; callers at once, one that goes, one that waits too long; and a page without
what makes them.
"""
import csv
import os
import shutil
import tempfile
import time

from looking import ON_PAPER, SHEETS
from shown import books, cents, go, statement

BY_DAY = ("balance", "operating", "budget", "position", "activities")
OTHERS = ("reconcile", "changes", "classes", "components", "major")
DAY, TEXT, PLACE = "2025-07-18", "Through July 18, 2025, entries 1 to {}.", 123
AT = f"As it stood at entry {PLACE}, entries 1 to {PLACE}."
SAID = "document.querySelector('#report .said')?.textContent"
GOOD = "year=2026&kind=budget&entries=40"


def run(stand):
    stand.make_lists(5)
    clerk = stand.clerk("auditor")
    days(stand, clerk)
    places(stand, clerk)
    chosen(stand, clerk)
    printed(stand, clerk)
    refused(stand, clerk)
    told(stand, clerk)
    turns(stand, clerk)
    gone(stand, clerk)
    late(stand, clerk)
    away(stand, clerk)
    clerk.page.close()


def days(stand, clerk):
    """Through a day in the middle of a month, what was entered later left out."""
    count = stand.entries()
    for kind in BY_DAY:
        words = ["2026", kind, "--through", DAY]
        said = statement(stand, clerk, f"#statements/2026/{kind}/{DAY}", "Through", *words)
        stand.same(f"the span of {kind} through a day", said, TEXT.format(count))
    words = ["2026", "budget", "--through", DAY, "--entries", str(PLACE)]
    said = statement(stand, clerk, f"#statements/2026/budget/{DAY}/{PLACE}", "Through", *words)
    stand.same("the span of a day at an entry", said, TEXT.format(PLACE))
    # An entry for an earlier day counts from then on, and the lists don't have it yet.
    taken = {"desk": 5, "key": "late-day", "on": "2025-08-12", "source": 4, "amount": 12300}
    stand.holds("one entry more", "ok" in stand.ask({"call": "receive", **taken}))
    go(clerk, "#lines", "document.querySelectorAll('#lines-table tr').length > 10")
    address = "#statements/2026/balance/2025-08-12"
    said = statement(
        stand, clerk, address, "Through", "2026", "balance", "--through", "2025-08-12"
    )
    stand.holds(
        "what was entered just now counts", said.endswith(f"entries 1 to {count + 1}."), said
    )


def places(stand, clerk):
    """At an entry that closes nothing."""
    stand.holds("it is no close", stand.calls()[PLACE - 1]["call"] != "close")
    for kind in (*BY_DAY, *OTHERS):
        words = ["2026", kind, "--entries", str(PLACE)]
        said = statement(stand, clerk, f"#statements/2026/{kind}/{PLACE}", "entry", *words)
        stand.same(f"the span of {kind} at an entry", said, AT)
    words = ["2027", "classes", "--entries", str(stand.entries())]
    statement(stand, clerk, "#statements/2027/classes", "As of", *words)


def chosen(stand, clerk):
    """By the fields: they are there where neither a month nor a close is chosen."""
    title = "document.querySelector('#report h2')?.textContent.includes('Budgetary comparison')"
    go(clerk, "#statements/2026/budget", title)
    hidden = "document.getElementById('report-through').closest('.field').hidden"
    stand.holds("no day is asked for now", clerk.page.do(hidden))
    clerk.choose("report-at", "other")
    said = clerk.page.until(SAID)
    stand.holds("a day or an entry is", not clerk.page.do(hidden) and said.startswith("Choose"), said)
    clerk.choose("report-through", DAY)
    clerk.page.until("document.querySelectorAll('#report tbody tr').length > 5")
    stand.same(
        "what was chosen is the address",
        clerk.page.until("location.hash.includes('07-18') && location.hash"),
        f"#statements//budget/{DAY}",
    )
    stand.picture(clerk.page, "statement-through")
    clerk.choose("report-entries", str(PLACE))
    clerk.page.until(f"location.hash.endsWith('/{PLACE}')")
    clerk.page.do("history.back(); true")
    clerk.page.until("document.getElementById('report-entries').value === ''")
    clerk.choose("report-at", "now")
    clerk.page.until("document.querySelector('#report .span')?.textContent.startsWith('As of')")
    stand.holds("now, without a day", clerk.page.do(hidden))


WIDER = (
    "[...document.querySelectorAll('#report, #report *')]"
    ".filter(node => node.getBoundingClientRect().right > {} + 1).map(node => node.tagName)"
)


def printed(stand, clerk):
    """With the city, the title and the span on A4 and Letter; and as a sheet."""
    span = "document.querySelector('#report .span')?.textContent.startsWith('Through')"
    go(clerk, f"#statements/2026/budget/{DAY}/{PLACE}", span)
    said = clerk.text("report")
    title = "Harborview: Budgetary comparison, fiscal year 2026" + TEXT.format(PLACE)
    stand.holds("city, title, day and entries", said.startswith(title), said[:200])
    for sheet, (_, _, wide) in SHEETS.items():
        clerk.page.size(wide, 1000)
        clerk.page.media(media="print")
        stand.same(f"a statement through a day on {sheet}", clerk.page.do(WIDER.format(wide)), [])
        stand.same(f"without its form on {sheet}", clerk.page.do(ON_PAPER), 0)
        clerk.page.media(media="")
        clerk.page.send("Emulation.clearDeviceMetricsOverride")
    clerk.page.size(390, 844, True)
    stand.holds("on a phone", clerk.page.do("document.documentElement.scrollWidth") <= 390)
    clerk.page.send("Emulation.clearDeviceMetricsOverride")
    folder = tempfile.mkdtemp()
    context = stand.context("auditor")
    more = {"behavior": "allow", "downloadPath": folder, "browserContextId": context}
    stand.browser.send("Browser.setDownloadBehavior", **more)
    clerk.page.do("document.getElementById('report-csv').click()")
    path = os.path.join(folder, f"2026-budget-{DAY}-{PLACE}.csv")
    stand.waited(lambda: os.path.exists(path), 10)
    with open(path, newline="", encoding="utf-8") as file:
        sheet = [row[2:] for row in list(csv.reader(file))[1:]]
    shutil.rmtree(folder)
    rows = books(stand, "statement", "2026", "budget", "--through", DAY, "--entries", str(PLACE))
    names = ("adopted", "final", "actual", "on_order", "left")
    stand.same(
        "its sheet",
        [[cents(text) for text in row] for row in sheet],
        [[cents(row[name]) for name in names] for row in rows],
    )


# ---- questions out of form

WRONG = {
    "": "",
    "year=2026&kind=budget": "entries",
    "year=2026&entries=40": "kind",
    "kind=budget&entries=40": "year",
    GOOD + "&": "",
    GOOD + "&file=/etc/passwd": "file",
    GOOD + "&entries=41": "entries",
    GOOD + "&%65ntries=41": "%65ntries",
    GOOD + ";through=2025-07-18": "entries",
    "year=1970&kind=budget&entries=40": "year",
    "year=02026&kind=budget&entries=40": "year",
    "year=2026%20&kind=budget&entries=40": "year",
    "year=2026&kind=--csv&entries=40": "kind",
    "year=2026&kind=../budget&entries=40": "kind",
    "year=2026&kind=month&entries=40": "kind",
    "year=2026&kind=budget&entries=-1": "entries",
    "year=2026&kind=budget&entries=040": "entries",
    "year=2026&kind=budget&entries=1500001": "entries",
    "year=2026&kind=budget&entries=4e1": "entries",
    "year=2026&kind=budget&entries=%D9%A4": "entries",
    GOOD + "&through=2025-02-30": "through",
    GOOD + "&through=20250718": "through",
    GOOD + "&through=2025-7-18": "through",
    GOOD + "&through=2025-W29-5": "through",
    GOOD + "&through=0001-07-18": "through",
    GOOD + "&through=": "through",
    "year=2026&kind=reconcile&entries=40&through=2025-07-18": "through",
    "year=2026&kind=budget&entries=1500000": "books",
    GOOD + "&through=1990-07-18": "books",
}
ASK = (
    "fetch('/asked{}', {{cache: 'no-store'}})"
    ".then(async answer => [answer.status, await answer.json()])"
)


def refused(stand, clerk):
    """What isn't in form is named, and nothing is made."""
    for query, fault in WRONG.items():
        code, said = clerk.page.do(ASK.format("?" + query))
        named = [code, said.get("fault")] == [400, fault] and said["says"].endswith(".")
        stand.holds(f"the question {query!r}", named and "names" not in said, [code, said])
    code, said = clerk.page.do(ASK.format("?" + GOOD))
    stand.holds("the one in form", code == 200 and sorted(said) == ["names", "rows"], said)
    stand.same("another path", clerk.page.do(ASK.format("/x?" + GOOD)), [404, {"form": "route"}])
    change = f"fetch('/asked?{GOOD}', {{method: 'POST', body: 'x'}}).then(said => said.status)"
    stand.same("a change", clerk.page.do(change), 403)


def told(stand, clerk):
    """The page shows why there is no statement."""
    for address, words in (
        ("reconcile/2025-07-18", "Through a day there are balance, operating, budget, position"),
        ("budget/1990-07-18", "before the first fiscal year: 1990-07-18"),
        ("budget/99999", f"99999 asked, the journal has {stand.entries()}"),
        ("budget/many", "entries is a number from 0 to 1500000"),
    ):
        clerk.page.do("document.getElementById('report').replaceChildren(); true")
        said = go(clerk, f"#statements/2026/{address}", SAID)
        stand.holds(f"no statement {address}", words in said, said)


# ---- callers at once

BOTH = "Promise.all([40, 41, 42].map(count => fetch(`/asked?year=2026&kind=budget&entries=${count}`)"
BOTH += ".then(async answer => [answer.status, (await answer.json()).says || ''])))"


def turns(stand, clerk):
    """One statement is made at a time. Who waits too long is told."""
    stand.slow(0.5)
    began = time.time()
    said = clerk.page.do(BOTH)
    took = time.time() - began
    stand.holds("one after another", took >= 1.5 and [each[0] for each in said] == [200] * 3, said)
    stand.slow(4)
    said = sorted(clerk.page.do(BOTH))
    busy = [503, "Other statements are being made. Ask again in a minute."]
    stand.same("who waits too long", said, [[200, ""], busy, busy])
    stand.slow(0)


def gone(stand, clerk):
    """A statement that nobody waits for any more isn't made: the next one needn't wait."""
    stand.slow(8)
    go(clerk, "#statements/2026/budget/50", "/being made/.test(document.body.textContent)")
    stand.waited(lambda: False, 1)
    stand.slow(0)
    began = time.time()
    words = ["2026", "budget", "--entries", "51"]
    statement(stand, clerk, "#statements/2026/budget/51", "at entry 51", *words)
    stand.holds("the next one comes at once", time.time() - began < 5, time.time() - began)


def late(stand, clerk):
    """One that takes too long is given up, and the next one comes."""
    stand.answer(2)
    stand.slow(4)
    said = go(clerk, "#statements/2026/budget/52", SAID)
    stand.same("too long", said, "It takes too long. Whoever runs the machine can print it.")
    stand.slow(0)
    words = ["2026", "budget", "--entries", "53"]
    statement(stand, clerk, "#statements/2026/budget/53", "at entry 53", *words)
    stand.answer()


def away(stand, clerk):
    """Without what makes them the page says so, and shows the others."""
    stand.silence()
    said = go(clerk, "#statements/2026/budget/54", SAID)
    stand.same("nobody makes it", said, "The statement can’t be made now: the program isn’t there.")
    go(clerk, "#statements/2026/budget", "document.querySelectorAll('#report tr').length > 5")
    stand.same("now", clerk.page.do("location.hash"), "#statements/2026/budget")
    stand.answer()
