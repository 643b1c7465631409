"""The commands at their bounds, a program against the independent office; tests/long/reach.sh calls it:

    bounds.py PROGRAM FOLDER
"""
import os
import shutil
import sys
import tomllib

import streams
from calls import Office
from cities import Program
from claims import MOST_BYTES, GrantRefused, claim
from payloads import payload_of
from pool import MOST_WEIGHT, NoShare, pool
from talks import toml_of

TOP = os.path.join(os.path.dirname(os.path.abspath(__file__)), "..", "..")
MOST = 10**13


def chart_of(name):
    with open(os.path.join(TOP, "examples", name, "chart.toml"), "rb") as file:
        return file.read()


class Bounds:
    def __init__(self, program, folder):
        self.program, self.folder, self.tried, self.wrong = program, folder, 0, 0

    def city(self, name, chart, payloads=()):
        """A city whose journal has these entries."""
        city = Program(self.program, os.path.join(self.folder, name))
        city.write("fund.journal", streams.journal_of(chart, payloads))
        return city

    def compare(self, what, got, wanted):
        self.tried += 1
        if got != wanted:
            self.wrong += 1
            print("%s\n  office:  %r\n  program: %r" % (what, wanted, got))

    # ---- interest

    def receipts(self, whole):
        """Receipts of Milltown's fees whose weights of July come to this: most stand 31 days, the rest one day."""
        many, rest = divmod(whole, 31 * MOST)
        amounts = [("2025-07-01", MOST)] * many + [("2025-07-31", MOST)] * (rest // MOST) + [("2025-07-31", rest % MOST)]
        for number, (on, amount) in enumerate(amounts, 1):
            yield dict(call="receive", desk=5, key="r%d" % number, on=on, source=4, amount=amount)

    def weights(self):
        chart = chart_of("milltown")
        for whole in (MOST_WEIGHT, MOST_WEIGHT + 1):
            office = Office(tomllib.loads(chart.decode()))
            calls = list(self.receipts(whole))
            for call in calls:
                assert "ok" in office.answer(call)
            try:
                wanted = 0, "".join(pool(office, "2025-07", MOST, 5)).encode(), ""
            except NoShare:
                wanted = 13, b"", "cityfund: no share\n"
            city = self.city("weights", chart, [payload_of(call, {}) for call in calls])
            self.compare("weights that come to %d, by %d entries" % (whole, len(calls)), city.run(["pool", "2025-07", str(MOST), "5"]), wanted)

    def months(self):
        """Months of each length, and the first and last one that can be named."""
        chart, office = chart_of("milltown"), None
        for on in ("2025-07-01", "2027-06-30"):
            office = office or Office(tomllib.loads(chart.decode()))
            for source in (4, 6):
                assert "ok" in office.answer(dict(call="receive", desk=5, key="%s-%d" % (on, source), on=on, source=source, amount=source * 1000))
        city = self.city("months", chart, list(streams.payloads_of(office)))
        for month in ("2028-02", "2027-02", "2025-09", "2100-02", "2199-12", "2027-06", "1970-01", "2025-06"):
            try:
                wanted = 0, "".join(pool(office, month, 1001, 5)).encode(), ""
            except NoShare:
                wanted = 13, b"", "cityfund: no share\n"
            self.compare("interest of " + month, city.run(["pool", month, "1001", "5"]), wanted)

    # ---- grants

    def grants(self):
        """As many grants as there can be, one more, and documents as long as they can be, and a byte longer."""
        chart = tomllib.loads(chart_of("rivertown").decode())
        for number in range(100, 165):
            chart["source"].append(dict(id=number, name="Grant", fund=2, kind="operating_grant", function=2, window=60))
        office, text = Office(chart), toml_of(chart).encode()
        for call in self.paid_voucher():
            assert "ok" in office.answer(call), call
        city = self.city("grants", text, list(streams.payloads_of(office)))
        row = "[[grant]]\nid = %d\nsource = %d\npayer = 9\naward = 5000\nrate_bp = 9999\nlines = [4]\n"
        rows = [row % (number, number) for number in range(100, 165)]
        whole = "".join(rows[:64]).encode()
        longest = whole + b"#" * (MOST_BYTES - len(whole))
        for what, document in (
            ("64 grants", whole), ("65 grants", "".join(rows).encode()), ("a document of the most bytes", longest),
            ("a document of a byte more", longest + b"#"), ("a much longer document", longest * 3),
            ("a document of a byte more that ends its last line", longest[:-1] + b"\n\n"),
        ):
            try:
                wanted = 0, "".join(claim(office, document, 163, "2025-07-06", 6)).encode(), ""
            except GrantRefused:
                wanted = 19, b"", "cityfund: grant refused\n"
            self.compare(what, city.run(["claim", "163", "2025-07-06", "6"], document), wanted)

    def paid_voucher(self):
        yield dict(call="adopt", desk=1, key="b", on="2025-07-01", fund=2, year=2026, lines=[dict(line=4, amount=10000)], estimates=[])
        yield dict(call="receive", desk=5, key="r", on="2025-07-01", source=3, amount=10000)
        item = dict(fund=2, dept=20, object=510, amount=4001)
        yield dict(call="voucher", desk=4, key="v", on="2025-07-01", vendor=1, items=[item])
        yield dict(call="pay", desk=5, key="p", on="2025-07-01", vouchers=[1])

    # ---- streams

    def froms(self):
        """Streams from far behind a history's end, which another office of that length can't follow."""
        chart = chart_of("rivertown")
        calls = [dict(call="receive", desk=5, key="r%d" % number, on="2025-07-01", source=1, amount=1) for number in range(3)]
        city = self.city("froms", chart, [payload_of(call, {}) for call in calls])
        payloads = [payload_of(call, {}) for call in calls]
        for first in (0, 1, 3, 4, 1_500_000):
            wanted = streams.ship(chart, payloads, first)
            self.compare("ship %d" % first, city.run(["ship", str(first)]), (0, wanted, ""))
        before = city.journal()
        for first, status in ((3, 0), (4, 15), (2**32 + 3, 15), (2**63, 15), (2**64 - 1, 15)):
            said = ("", "cityfund: gap\n")[status > 0]
            printed = b"" if status else b"followed 3\n"
            self.compare("follow from %d" % first, city.run(["follow"], streams.ship(chart, [], first)), (status, printed, said))
        self.compare("bytes behind a stream", city.run(["follow"], streams.ship(chart, payloads, 0) + b"\1more"), (0, b"followed 3\n", ""))
        self.compare("the journal of all these", city.journal(), before)


def main(program, folder):
    bounds = Bounds(program, folder)
    for trial in (bounds.weights, bounds.months, bounds.grants, bounds.froms):
        trial()
    shutil.rmtree(folder, ignore_errors=True)
    print("bounds: %d as the office says, %d otherwise" % (bounds.tried - bounds.wrong, bounds.wrong))
    return min(bounds.wrong, 1)


if __name__ == "__main__":
    sys.exit(main(*sys.argv[1:]))
