"""The page in a real browser, over `serve` and nginx: run by tests/long/page.sh, which says where they are.

    page.py URL JOURNAL LISTS PROGRAM FIRSTPORT [PICTURES]

URL is the proxy's, JOURNAL the folder of a journal that is founded with Harborview's chart, LISTS the folder of the page's lists, PROGRAM is
served from FIRSTPORT on at four doors. With PICTURES the pictures of docs/PAGE.md are written there. The variable PARTS names the
parts; without the first one the month is sent to a door.
"""
import os
import sys

HERE = os.path.dirname(os.path.abspath(__file__))
sys.path[:0] = [HERE, os.path.join(os.path.dirname(HERE), "lib")]
import asking
import entering
import faults
import looking
import runs
import slips
import spans
import traps
import words
from stand import Stand


def main():
    stand = Stand(*sys.argv[1:])
    try:
        parts = os.environ.get("PARTS", "entering faults slips runs looking traps words").split()
        if "entering" not in parts:
            entering.send(stand)
        for part in (entering, faults, slips, runs, looking, traps, words, spans, asking):
            if part.__name__ in parts:
                part.run(stand)
        stand.verdicts.same("no fault in the console of a page", stand.logs(), [])
    finally:
        stand.end()
    return stand.verdicts.status()


if __name__ == "__main__":
    sys.exit(main())
