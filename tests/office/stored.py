"""The independent office over the stored talks of examples/: each reply, and each statement that is stored beside a talk.

    python3 tests/office/stored.py    prints what differs
"""
import glob
import os
import sys

from answers import calls_in_form, differing, office_of
from claims import claim
from pool import pool

TOP = os.path.join(os.path.dirname(os.path.abspath(__file__)), "..", "..")
RIVERTOWN = os.path.join("examples", "rivertown", "chart.toml")
# Talks that go on where the one before ended.
JOINED = (
    ("two-runs/morning", "two-runs/afternoon"),
    ("older/quarter", "older/looks", "older/more", "older/lease"),
    ("grants/autumn", "grants/january", "grants/spring", "grants/april", "grants/summer"),
)
# The claims of examples/grants: the talks before each, its day, and the lines that it writes.
CLAIMS = (
    (("autumn",), "2026-01-15", "january"),
    (("autumn", "january"), "2026-01-15", None),
    (("autumn", "january", "spring"), "2026-04-15", "april"),
    (("autumn", "january", "spring", "april", "summer"), "2026-07-21", None),
)


def lines_of(name):
    with open(name) as file:
        return file.readlines()


def talks():
    """Each talk that has a chart, with that."""
    for talk in sorted(glob.glob("examples/*.jsonl") + glob.glob("examples/*/*.jsonl")):
        chart = RIVERTOWN if os.path.dirname(talk) == "examples" else os.path.join(os.path.dirname(talk), "chart.toml")
        if os.path.exists(chart):
            yield talk, chart


def differing_replies(names, chart):
    """The lines of talks, one after another, that the office answers otherwise."""
    office = office_of(chart)
    for name in names:
        for number in differing(office, lines_of(name), lines_of(name.removesuffix(".jsonl") + ".replies")):
            yield "%s: line %d differs" % (name, number)


def differing_statements(talk, chart):
    """The stored statements of a talk that the office prints otherwise, as text or as records."""
    reports = sorted(glob.glob(talk.removesuffix(".jsonl") + ".reports/*"))
    office = office_of(chart)
    for call in calls_in_form(talk) if reports else ():
        office.answer(call)
    for report in reports:
        name, form = os.path.splitext(os.path.basename(report))
        year, kind = name.split("-")
        with open(report, newline="") as file:
            if file.read() != (office.csv if form == ".csv" else office.text)(int(year), kind):
                yield "%s: the office says otherwise" % report


def differing_claims(talks, on, lines):
    """The claim on a day over these talks, where the office makes another one."""
    office = office_of(RIVERTOWN)
    for talk in talks:
        for call in calls_in_form("examples/grants/%s.jsonl" % talk):
            office.answer(call)
    with open("examples/grants/grants.toml", "rb") as file:
        made = list(claim(office, file.read(), 7, on, 6))
    if made != (lines_of("examples/grants/%s.jsonl" % lines) if lines else []):
        yield "the claim of %s: the office says otherwise" % on


def differing_shares():
    """The shares of the month of examples/pooled, where the office makes others."""
    office = office_of("examples/milltown/chart.toml")
    for call in calls_in_form("examples/milltown/pool.jsonl"):
        office.answer(call)
    if list(pool(office, "2025-07", 100, 5)) != lines_of("examples/pooled/lines.jsonl"):
        yield "the lines of pool: the office says otherwise"


def main():
    os.chdir(TOP)
    faults = []
    for talk, chart in talks():
        faults += [*differing_replies([talk], chart), *differing_statements(talk, chart)]
    faults += [fault for names in JOINED for fault in differing_replies(["examples/%s.jsonl" % name for name in names], RIVERTOWN)]
    faults += [fault for of_claim in CLAIMS for fault in differing_claims(*of_claim)]
    faults += differing_shares()
    print(*faults, sep="\n", end="\n" if faults else "")
    return min(len(faults), 1)


if __name__ == "__main__":
    sys.exit(main())
