"""What the page finds and adds up: documents, entries, ledgers, a line's documents, months, and the
statements that are kept; and an order that a void opens again behind the close of its year.
"""
import csv
import os
import shutil
import tempfile

from looking import money, ON_PAPER, SHEETS
from runs import name_vendors
from shown import books, CELLS, cents, go, ROWS, statement

MOVED = ("appropriated", "ordered", "held", "spent")
LOOK = {
    "appropriated": "appropriated",
    "ordered": "encumbered",
    "held": "held",
    "spent": "expended",
}
TEXT = "document.getElementById('{}').textContent"


def run(stand):
    debt(stand)
    name_vendors(stand)
    stand.make_lists(60)
    clerk = stand.clerk("auditor")
    found(stand, clerk)
    entry(stand, clerk)
    line(stand, clerk)
    ledgers(stand, clerk)
    month(stand, clerk)
    statements(stand, clerk)
    clerk.page.close()
    reopened(stand)


def debt(stand):
    """A bond whose first payment is made of lines 63 and 64."""
    bond = stand.ask(
        {
            "call": "issue",
            "desk": 5,
            "key": "bond-asking",
            "on": "2025-08-12",
            "fund": 4,
            "amount": 30000,
            "rate_bp": 425,
            "every": 1,
            "principals": [10000, 20000],
        }
    )["ok"]["bond"]
    stand.ask(
        {
            "call": "collect",
            "desk": 5,
            "key": "collect-2-asking",
            "on": "2025-08-12",
            "bill": 2,
            "amount": 200000,
        }
    )
    stand.ask(
        {
            "call": "pay_due",
            "desk": 5,
            "key": "debt-asking-1",
            "on": "2025-09-12",
            "bond": bond,
            "fund": 5,
            "dept": 11,
            "principal": 811,
            "interest": 821,
        }
    )


def said_with(words, name):
    """The text of a part of the page, once it has these words."""
    text = TEXT.format(name)
    return f"/{words}/.test({text}) && {text}"


def search(clerk, text):
    clerk.view("find")
    clerk.choose("find-text", text)
    clerk.page.do(
        "document.getElementById('find-said').textContent = ''; "
        "document.getElementById('find-form').requestSubmit()"
    )
    clerk.page.until("/found/.test(document.getElementById('find-said').textContent)")
    return clerk.page.do(ROWS.format("#find-table"))


def found(stand, clerk):
    """A paid invoice by its key, its number, its vendor, its amount and its payment run."""
    row = next(
        row for row in books(stand, "documents", "--kind", "voucher") if row["state"] == "paid"
    )
    name = f"Voucher {row['number']}"
    wanted = [name, row["day"], row["key"]]
    for what, text in (
        ("a part of its key", row["key"][1:].upper()),
        ("its number", row["number"]),
        ("its own name", name.lower()),
        ("its vendor", row["party"]),
        ("its amount", money(cents(row["amount"]))),
        ("its payment run", row["run"]),
    ):
        rows = search(clerk, text)
        mine = [each for each in rows if each[:3] == wanted]
        became = f"paid on {row['paid']} by {row['run']}"
        stand.holds(
            f"a paid invoice by {what}",
            len(mine) == 1 and mine[0][5] == became and mine[0][4] == money(cents(row["amount"])),
            mine or rows[:3],
        )
    ways = clerk.page.do(
        "[...[...document.querySelectorAll('#find-table tbody tr')]"
        f".find(row => row.children[0].textContent === '{name}')"
        ".querySelectorAll('a')].map(a => a.hash)"
    )
    stand.same(
        "a way to each of its entries",
        ways,
        ["#entry/" + each.rsplit(" ", 1)[1] for each in row["entries"].split("; ")],
    )
    stand.picture(clerk.page, "find")
    stand.same(
        "what isn't there",
        [search(clerk, "no-such-key"), clerk.text("find-said")[:11]],
        [[], "None found."],
    )
    stand.same("a search has an address", clerk.page.do("location.hash"), "#find/no-such-key")
    bill = next(row for row in books(stand, "documents", "--kind", "bill"))
    stand.holds(
        "a bill by its payer",
        any(each[2] == bill["key"] for each in search(clerk, bill["party"])),
        bill["party"],
    )
    asset = next(row for row in books(stand, "documents", "--kind", "asset"))
    mine = [each for each in search(clerk, asset["key"]) if each[0] == f"Asset {asset['number']}"]
    stand.same("an asset's own cost", [each[4] for each in mine], [money(cents(asset["amount"]))])


def entry(stand, clerk):
    row = next(
        row for row in books(stand, "documents", "--kind", "voucher") if row["state"] == "paid"
    )
    place = row["entries"].rsplit(" ", 1)[1]
    said = go(
        clerk,
        f"#entry/{place}",
        said_with("Documents of this entry", "entry-sheet"),
    )
    stand.holds(
        "an entry",
        row["run"] in said and f"entry {place}" in said and row["key"] in said,
        said[:300],
    )
    said = go(
        clerk,
        "#entry/1",
        said_with("What it moved", "entry-sheet"),
    )
    stand.holds(
        "what an entry moved",
        "receive-1" in said and "4,100,000.00" in said and "The next entry" in said,
        said[:300],
    )
    said = go(
        clerk,
        "#entry/99999",
        "/isn’t in the lists/.test(document.getElementById('entry-sheet').textContent) && 'yes'",
    )
    stand.same("an entry that isn't there", said, "yes")
    search(clerk, row["key"])
    clerk.page.do("document.querySelector('#find-table a').focus(); document.activeElement.click()")
    clerk.page.until("!document.getElementById('entry').hidden")
    stand.same("the keyboard is at the entry", clerk.page.do("document.activeElement.id"), "main")


# The view whose button a mouse would hit there.
HIT = (
    "(({x, y}) => document.elementFromPoint(x + 9, y + 9)?.dataset.view || '')"
    "(document.querySelector('nav [data-view=month]').getBoundingClientRect())"
)


def line(stand, clerk):
    """The documents of a line come to its numbers, with what was freed and payments of debts."""
    for number in (44, 46, 53, 63, 64):
        clerk.view(
            "lines", f"Boolean(document.querySelector('#lines-table button[title$=\" {number}\"]'))"
        )
        clerk.page.do(
            f"document.querySelector('#lines-table button[title$=\" {number}\"]').click()"
        )
        clerk.page.until("Boolean(document.querySelector('#line-table tr.sum'))")
        rows = clerk.page.do(ROWS.format("#line-table"))
        look = stand.ask({"call": "line", "line": number, "year": 2026})["is"]
        wanted = [money(look[LOOK[name]]) for name in MOVED]
        stand.same(f"the documents of line {number} come to its numbers", rows[-1][-4:], wanted)
        sums = [sum(cents(row[place]) for row in rows[:-1]) for place in range(-4, 0)]
        stand.same(f"row by row: line {number}", [money(each) for each in sums], wanted)
        if number == 44:
            stand.holds(
                "what an invoice frees of its order",
                any(row[2] == "Enter an invoice" and row[-3].startswith("-") for row in rows),
                rows[:4],
            )
            clerk.page.do("document.querySelector('#line-table a').click(); true")
            clerk.page.until("!document.getElementById('entry').hidden")
            at = clerk.page.do(HIT)
            stand.same("from a line's documents to an entry, which can be left", at, "month")
        if number == 64:
            stand.holds(
                "a payment of a debt",
                any(
                    row[2] == "Pay a bond or a lease: paid"
                    and row[3] == "debt-asking-1"
                    and row[-1]
                    for row in rows
                ),
                rows,
            )
        clerk.page.do("document.getElementById('line').close()")


def ledgers(stand, clerk):
    rows = books(stand, "ledger", "--year", "2026")
    vendor = next(row["party"] for row in rows if row["call"] == "voucher")
    payer = next((row["party"] for row in rows if row["call"] == "collect"), vendor)
    day = sorted(row["day"] for row in rows)[len(rows) // 2]
    for by, of, option in (
        ("line", "44", "line"),
        ("department", "20", "dept"),
        ("party", vendor, "party"),
        ("party", payer, "party"),
        ("source", "7", "source"),
        ("fund", "2", "fund"),
    ):
        wanted = [row for row in rows if row[option] == of]
        for through, kept in (("", wanted), (day, [row for row in wanted if row["day"] <= day])):
            address = f"#ledger/2026/{by}/{of}" + (f"//{through}" if through else "")
            clerk.page.do("document.getElementById('ledger-table').replaceChildren(); true")
            go(clerk, address, "Boolean(document.querySelector('#ledger-table tr.sum'))")
            shown = clerk.page.do(ROWS.format("#ledger-table"))
            sums = [money(sum(cents(row[name]) for row in kept)) for name in (*MOVED, "received")]
            places = [row["place"] for row in kept][::-1]
            stand.same(
                f"the ledger of {by} {of} {through}",
                [[row[0] for row in shown[:-1]], shown[-1][-5:]],
                [places, sums],
            )
    said = clerk.text("ledger-table")
    stand.holds(
        "its span",
        f"Through August 1, 2025, entries 1 to {stand.entries()}." in said
        or f"entries 1 to {stand.entries()}." in said,
        said[:200],
    )
    last = int(rows[len(rows) // 2]["place"])
    clerk.page.do("document.getElementById('ledger-table').replaceChildren(); true")
    go(
        clerk,
        f"#ledger/2026/fund/1///{last}",
        "Boolean(document.querySelector('#ledger-table tr.sum'))",
    )
    shown = clerk.page.do(ROWS.format("#ledger-table"))
    stand.same(
        "a ledger at an entry",
        [row[0] for row in shown[:-1]],
        [row["place"] for row in rows if row["fund"] == "1" and int(row["place"]) <= last][::-1],
    )
    stand.picture(clerk.page, "ledger")
    printed(stand, clerk, "ledger-table", f"#ledger/2026/fund/1///{last}", 20)
    sheets(stand, clerk, "ledger-csv", "2026-ledger-fund-1.csv", len(shown))


def sheets(stand, clerk, button, name, count):
    """A sheet with so many rows."""
    folder = tempfile.mkdtemp()
    stand.browser.send(
        "Browser.setDownloadBehavior",
        behavior="allow",
        downloadPath=folder,
        browserContextId=stand.context("auditor"),
    )
    clerk.page.do(f"document.getElementById('{button}').click()")
    path = os.path.join(folder, name)
    stand.waited(lambda: os.path.exists(path), 10)
    with open(path, newline="", encoding="utf-8") as file:
        sheet = list(csv.reader(file))
    shutil.rmtree(folder)
    stand.same(f"the sheet {name}", len(sheet), count)
    return sheet


WIDER = (
    "[...document.querySelectorAll('#{0}, #{0} *')]"
    ".filter(node => node.getBoundingClientRect().right > {1} + 1)"
    ".map(node => node.tagName + ' ' + node.textContent.slice(0, 30)).slice(0, 3)"
)


# What the lists have of a ledger and of a month comes with amounts of nearly a trillion.
LARGE = """(() => { const real = window.fetch; window.fetch = async (...words) => { const answer = await real(...words);
    const isLedger = /^data\\/\\d+-fund-/.test(words[0]), isMonth = /^data\\/month-/.test(words[0]);
    if (!isLedger && !isMonth) return answer;
    const said = await answer.json(), isAmount = at => isMonth && said.names[at] !== 'percent_left';
    const large = (text, at) => isAmount(at) && /^-?\\d+\\.\\d\\d$/.test(text) ? '-999999999999.99' : text;
    const rows = isLedger ? said.map(row => [...row.slice(0, -5), ...Array(5).fill(-99999999999999)])
        : {...said, rows: said.rows.map(row => row.map(large))};
    return new Response(JSON.stringify(rows)); }; window.small = () => { window.fetch = real; }; })(); true"""
# The size of a table's letters, and what it were however large its amounts are.
SIZES = """(table => { const size = () => getComputedStyle(table).fontSize, now = size(), its = table.style.getPropertyValue('--wide');
    table.style.setProperty('--wide', '1'); const other = size(); table.style.setProperty('--wide', its); return [now, other];
    })(document.querySelector('#%s table'))"""


def printed(stand, clerk, name, address, count):
    """On A4 and Letter, upright and on its side, nothing is wider than the sheet, nor with amounts
    of nearly a trillion. It has the city and the entries.
    """
    go(clerk, address, f"document.querySelectorAll('#{name} tbody tr').length > {count}")
    said = clerk.text(name)
    stand.holds(
        f"{name} has the city and the entries",
        said.startswith("Harborview: ") and "ntries 1 to " in said,
        said[:200],
    )
    sheets_of(stand, clerk, name, "")
    clerk.page.do(LARGE)
    clerk.page.do(f"document.getElementById('{name.replace('table', 'form')}').requestSubmit()")
    clerk.page.until(f"/-999,999,999,999\\.99/.test({TEXT.format(name)})")
    sheets_of(stand, clerk, name, " with the largest amounts")
    clerk.page.do("window.small(); true")


def sheets_of(stand, clerk, name, more):
    """The widths of a table on each sheet. Ordinary amounts don't make letters smaller."""
    for sheet, (_, high, wide) in SHEETS.items():
        for width in (wide, int(high * 96) - 91):
            clerk.page.size(width, 1000)
            clerk.page.media(media="print")
            what = f"{name}{more} on {sheet}, {width} pixels"
            stand.same(what, clerk.page.do(WIDER.format(name, width)), [])
            stand.same(f"without the form: {what}", clerk.page.do(ON_PAPER), 0)
            size, other = clerk.page.do(SIZES % name)
            stand.holds(f"letters of {what}", more or size == other, [size, other])
            clerk.page.media(media="")
            clerk.page.send("Emulation.clearDeviceMetricsOverride")


AMOUNTS = (
    "budget",
    "month",
    "year",
    "on_order",
    "held",
    "left",
    "percent_left",
    "month_before",
    "year_before",
)


def month(stand, clerk):
    if not any(each[1] == "month" for each in kept(clerk)):
        stand.holds("a month is kept", False, kept(clerk)[:3])
        return
    said = go(
        clerk,
        "#month/2025-07",
        said_with("July 2025 by department", "month-table"),
    )
    rows = books(stand, "month", "2025-07")
    shown = clerk.page.do(
        "[...document.querySelectorAll('#month-table tr.part')]" + CELLS
    )
    of = lambda row: [
        row[name] if name == "percent_left" else money(cents(row[name])) for name in AMOUNTS
    ]
    stand.same(
        "a month by department",
        [[row[0], *(cell.replace("▼ ", "") for cell in row[2:])] for row in shown],
        [[row["dept_name"], *of(row)] for row in rows if row["part"] == "department"],
    )
    stand.holds(
        "its entries and its state",
        f"Entries 1 to {stand.entries()}." in said and ("closed" in said or "open" in said),
        said[:200],
    )
    stand.picture(clerk.page, "month")
    before = clerk.page.do("document.querySelectorAll('#month-table tbody tr').length")
    clerk.page.do("document.getElementById('month-lines').click()")
    clerk.page.until(f"document.querySelectorAll('#month-table tbody tr').length > {before + 20}")
    clerk.page.do("document.getElementById('month-lines').click()")
    go(
        clerk,
        "#month/2025-07/20",
        "document.querySelectorAll('#month-table tbody tr').length < 8 && 'yes'",
    )
    stand.holds(
        "a department's month",
        "Police" in clerk.text("month-table") and "Fleet" not in clerk.text("month-table"),
        clerk.text("month-table")[:300],
    )
    printed(stand, clerk, "month-table", "#month/2025-07", 20)
    go(
        clerk,
        "#month/2025-07/20",
        "document.querySelectorAll('#month-table tbody tr').length < 8 && 'yes'",
    )
    sheet = sheets(
        stand, clerk, "month-csv", "month-2025-07.csv", 1 + sum(row["dept"] == "20" for row in rows)
    )
    stand.same("its columns", sheet[0], list(rows[0]))


def kept(clerk):
    return clerk.page.do(
        "fetch('/desk/data/kept.json', {cache: 'no-store'}).then(answer => answer.json())"
    )


def statements(stand, clerk):
    """Each kind that is kept, with its rows and its span."""
    spans = {}
    for year, kind, at, (entries, _) in kept(clerk):
        if kind != "month" and year == 2026:
            spans.setdefault(
                "now" if at == "now" else "place" if isinstance(at, int) else "day", []
            ).append((kind, at, entries))
    for span, wanted in spans.items():
        stand.holds(
            f"statements kept: {span}",
            len({kind for kind, *_ in wanted}) == {"now": 3, "place": 10, "day": 5}[span],
            wanted[:3],
        )
        for kind, at, entries in {kind: each for each in wanted for kind in [each[0]]}.values():
            words = {"day": ["--through", at], "place": ["--entries", str(at)]}.get(span, [])
            text = {"now": "As of", "day": "Through", "place": "As it stood at entry"}[span]
            address = f"#statements/2026/{kind}/{at}"
            said = statement(stand, clerk, address, text, "2026", kind, *words)
            stand.holds(
                f"its entries: {kind} {at}", said.endswith(f"entries 1 to {entries}."), said
            )
    stand.same("each span", sorted(spans), ["day", "now", "place"])


def closed(stand, month_):
    """The answer to the close of a month, once the debts that are due in it are paid."""
    for count in range(99):
        said = stand.ask(
            {
                "call": "close",
                "desk": 9,
                "key": f"close-back-{month_}",
                "on": "2026-07-10",
                "what": "month",
                "month": month_,
            }
        )
        no = said.get("no", {})
        if no.get("name") != "DebtDue":
            break
        paid = stand.ask(
            {
                "call": "pay_due",
                "desk": 5,
                "key": f"debt-back-{month_}-{count}",
                "on": no["day"],
                "bond": no["bond"],
                "fund": 5,
                "dept": 11,
                "principal": 811,
                "interest": 821,
            }
        )
        if "ok" not in paid:
            return paid
    return said


def reopened(stand):
    """An order's last invoice, the closes of its year, its void, and another invoice of the year
    before on the item that is open again.
    """
    order = stand.ask(
        {
            "call": "order",
            "desk": 3,
            "key": "po-back",
            "on": "2025-08-12",
            "vendor": 641,
            "items": [{"fund": 1, "dept": 13, "object": 511, "amount": 5000}],
        }
    )["ok"]["order"]
    item = {"fund": 1, "dept": 13, "object": 511, "order": order, "item": 1}
    last = stand.ask(
        {
            "call": "voucher",
            "desk": 4,
            "key": "inv-641-back-1",
            "on": "2026-06-20",
            "vendor": 641,
            "items": [{**item, "amount": 4000, "final": True}],
        }
    )["ok"]["voucher"]
    for month_ in [f"2025-{month:02}" for month in range(8, 13)] + [
        f"2026-{month:02}" for month in range(1, 7)
    ]:
        said = closed(stand, month_)
        stand.holds(f"{month_} is closed", "ok" in said, said)
    stand.ask(
        {"call": "void_voucher", "desk": 4, "key": "void-back", "on": "2026-07-11", "voucher": last}
    )
    new = stand.ask(
        {
            "call": "voucher",
            "desk": 4,
            "key": "inv-641-back-2",
            "on": "2026-07-12",
            "vendor": 641,
            "back": True,
            "items": [{**item, "amount": 1000}],
        }
    )
    stand.holds("an invoice of the year before", "ok" in new, new)
    stand.make_lists()
    clerk = stand.clerk("purchasing")
    rows = search(clerk, "po-back")
    stand.same(
        "the order that is open again is found",
        [(row[0], row[5]) for row in rows],
        [(f"Order {order}, item 1", "live, 40.00 left")],
    )
    go(
        clerk,
        "#open/order",
        "/po-back/.test(document.getElementById('open-table').textContent) && 'yes'",
    )
    stand.holds(
        "and is open", "40.00 open" in clerk.text("open-table"), clerk.text("open-table")[-200:]
    )
    rolled(stand, clerk)
    stand.same(
        "no row was skipped", clerk.page.do("document.getElementById('skipped').textContent"), ""
    )
    clerk.page.close()


def rolled(stand, clerk):
    """What the close of a year carried or let lapse stands among the documents of its line."""
    rows = [row for row in books(stand, "ledger") if row["call"] == "close" and row["line"]]
    number = rows[0]["line"]
    for year in sorted({int(row["year"]) for row in rows if row["line"] == number}):
        go(clerk, f"#lines/{year}", f"/fiscal year {year}/.test({TEXT.format('lines-table')})")
        clerk.page.do(f"document.querySelector('#lines-table button[title$=\" {number}\"]').click()")
        clerk.page.until("Boolean(document.querySelector('#line-table tr.sum'))")
        shown = clerk.page.do(ROWS.format("#line-table"))
        look = stand.ask({"call": "line", "line": int(number), "year": year})["is"]
        wanted = [money(look[LOOK[name]]) for name in MOVED]
        stand.same(f"line {number} of {year} behind the roll", shown[-1][-4:], wanted)
        words = {row[2].rpartition(": ")[2] for row in shown}
        stand.holds(f"carried or lapsed in {year}", words & {"carried", "lapsed"}, sorted(words))
        clerk.page.do("document.getElementById('line').close()")
