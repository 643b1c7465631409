"""What the page shows, prints and gives out: lines, what is open, statements, the council's picture; names, labels, contrast, keys, widths."""
import csv
import glob
import json
import os
import shutil
import tempfile
import time

KINDS = {"balance": 1, "operating": 1, "budget": 5, "position": 1, "activities": 5, "reconcile": 1, "changes": 1}
VIEWS = ("enter", "lines", "open", "find", "ledger", "month", "statements", "council", "sent")
DONE = {"enter": "true", "lines": "document.querySelectorAll('#lines-table tr').length > 10", "open": "document.getElementById('open-said').textContent.includes('open')",
        "statements": "document.querySelectorAll('#report tr').length > 5", "council": "document.querySelectorAll('#council-picture tr').length > 5",
        "find": "true", "ledger": "document.querySelectorAll('#ledger-table tr').length > 1", "month": "document.querySelectorAll('#month-table tr').length > 10",
        "sent": "true"}


def run(stand):
    stand.make_lists(30)
    clerk = stand.clerk("auditor")
    alone = "may only look" in clerk.text("who") and clerk.page.do("document.querySelector('nav [data-view=enter]').hidden")
    stand.holds("who has no desk may only look", alone, clerk.text("who"))
    lines(stand, clerk)
    statements(stand, clerk)
    printed(stand, clerk)
    council(stand, clerk)
    clerk.page.close()
    opened(stand)
    reached(stand)
    by_keys(stand)
    pictures(stand)


def money(cents):
    cents = int(cents)
    return f"{'-' if cents < 0 else ''}{abs(cents) // 100:,}.{abs(cents) % 100:02}"


def lines(stand, clerk):
    clerk.view("lines", DONE["lines"])
    clerk.choose("lines-year", "2026")
    clerk.page.until(DONE["lines"])
    shown = clerk.page.do("""[...document.querySelectorAll('#lines-table tbody tr')].filter(row => row.querySelector('button'))
        .map(row => [row.querySelector('button').title.split(' ').pop(), ...[...row.querySelectorAll('td.amount')].map(cell => cell.textContent)])""")
    wanted = []
    for label, *amounts in stand.ask({"call": "report", "year": 2026, "kind": "budget"})["is"]["rows"]:
        if label.startswith("Line "):
            line = stand.ask({"call": "line", "line": int(label[5:]), "year": 2026})["is"]
            wanted.append([label[5:], *(money(line[name]) for name in ("appropriated", "expended", "encumbered", "held", "room"))])
    stand.same("lines with what is spent, ordered, held and left", sorted(shown, key=lambda row: int(row[0])), sorted(wanted, key=lambda row: int(row[0])))
    stand.holds("names that look like markup", stand.pictures or "Parks & \"Trees\" <East>" in clerk.text("lines-table") and "Grants <b>& Aid</b>" in clerk.text("lines-table"))
    clerk.page.do("document.querySelector('#lines-table button[title$=\" 44\"]').click()")
    clerk.page.until("document.querySelectorAll('#line-table tr').length > 1")
    said = clerk.text("line-name")
    stand.holds("the documents of a line", clerk.page.do("document.getElementById('line').open") and "Police, Fuel, fiscal year 2026 (line 44)" in said, said)
    stand.picture(clerk.page, "line")
    clerk.page.do("document.getElementById('line').close()")
    clerk.choose("lines-fund", "1")
    stand.picture(clerk.page, "lines")


def statements(stand, clerk):
    """Each statement has the rows that a door gives, with names; and so has its sheet."""
    folder = tempfile.mkdtemp()
    stand.browser.send("Browser.setDownloadBehavior", behavior="allow", downloadPath=folder, browserContextId=stand.context("auditor"))
    clerk.view("statements", DONE["statements"])
    clerk.choose("report-year", "2026")
    for kind, width in KINDS.items():
        clerk.choose("report-kind", kind)
        title = {"budget": "Budgetary comparison", "activities": "Activities"}.get(kind)
        rows = stand.ask({"call": "report", "year": 2026, "kind": kind})["is"]
        clerk.page.until(f"document.querySelector('#report h2')?.textContent === {json.dumps('Harborview: ' + rows['title'] + ', fiscal year 2026')}")
        shown = clerk.page.do("[...document.querySelectorAll('#report tbody tr')].map(row => [...row.children].map(cell => cell.textContent))")
        wanted = [["", *map(money, amounts)][-len(amounts):] if amounts else [] for _, *amounts in rows["rows"]]
        stand.same(f"the statement {kind}", [[cell for cell in row[1:] if cell] for row in shown], wanted)
        stand.holds(f"its names: {kind}", title is None or clerk.page.do("document.querySelectorAll('#report thead th').length") == width)
        if kind == "budget":
            stand.holds("its lines by name", not any(row[0].startswith("Line ") for row in shown), shown[:3])
        clerk.page.do("document.getElementById('report-csv').click()")
        name = os.path.join(folder, f"2026-{kind}.csv")
        stand.waited(lambda: os.path.exists(name))
        with open(name, newline="", encoding="utf-8") as file:
            sheet = list(csv.reader(file))
        got = [[cell for cell in row[2:] if cell] for row in sheet[1:]]
        stand.same(f"its sheet: {kind}", got, [[each.replace(",", "") for each in row] for row in wanted if row])
    shutil.rmtree(folder)


# Widths in CSS pixels of a sheet less its margins of 12 mm: A4 and Letter, upright.
SHEETS = {"A4": (8.27, 11.69, 703), "Letter": (8.5, 11, 725)}
WIDER = """(wide => [...document.querySelectorAll('#report, #report *, #council-picture, #council-picture *')]
    .filter(node => node.getBoundingClientRect().right > wide + 1).map(node => node.tagName + ' ' + node.textContent.slice(0, 30)).slice(0, 3))(%d)"""


ON_PAPER = "[...document.querySelectorAll('form, button, nav')].filter(node => node.getClientRects().length).length"


def printed(stand, clerk):
    """No statement is wider than a sheet, and a sheet is made of it."""
    for name, (width, height, wide) in SHEETS.items():
        for kind in KINDS:
            clerk.page.media(media="")
            clerk.view("statements", DONE["statements"])
            clerk.choose("report-kind", kind)
            clerk.page.until(f"document.querySelectorAll('#report thead th').length === {KINDS[kind]} && document.querySelectorAll('#report tbody tr').length > 5")
            clerk.page.size(wide, 1000)
            clerk.page.media(media="print")
            stand.same(f"{kind} on {name}", clerk.page.do(WIDER % wide), [])
            stand.same(f"the form isn't on {name}", clerk.page.do(ON_PAPER), 0)
            clerk.page.do("document.querySelectorAll('#report td.amount').forEach(cell => { cell.textContent = '-100,000,000,000.00'; })")
            stand.same(f"{kind} with the largest amounts on {name}", clerk.page.do(WIDER % wide), [])
        clerk.page.media(media="")
        clerk.page.do("document.querySelector('nav [data-view=council]').click()")
        clerk.page.until(DONE["council"])
        clerk.page.media(media="print")
        stand.same(f"the council's picture on {name}", clerk.page.do(WIDER % wide), [])
    clerk.page.media(media="")
    clerk.page.send("Emulation.clearDeviceMetricsOverride")
    clerk.view("statements", DONE["statements"])
    clerk.choose("report-kind", "budget")
    clerk.page.until("document.querySelectorAll('#report thead th').length === 5")
    scratch = tempfile.mkdtemp()
    for name, (width, height, _) in SHEETS.items():
        path = os.path.join(scratch, name + ".pdf")
        clerk.page.pdf(path, width, height)
        stand.holds(f"a sheet {name}", os.path.getsize(path) > 5000)
    shutil.rmtree(scratch)


def council(stand, clerk):
    clerk.view("council", DONE["council"])
    clerk.choose("council-year", "2026")
    clerk.page.until(DONE["council"])
    shown = clerk.page.do("[...document.querySelectorAll('#council-picture tbody tr')].map(row => row.textContent.slice(0, 12))")
    bars = clerk.page.do("document.querySelectorAll('#council-picture svg rect').length")
    stand.holds("a picture of each fund", len(shown) == 5 and bars >= 5 * 6, [shown, bars])
    stand.picture(clerk.page, "council")


def opened(stand):
    """What is open has its state from a door: what was ended since the lists were made isn't shown."""
    clerk = stand.clerk("purchasing")
    numbers = "[...document.querySelectorAll('#open-table tbody tr')].map(row => row.children[0].textContent)"
    orders = {number: stand.ask({"call": "order", "order": number}) for number in range(1, 9)}
    live = [str(number) for number, said in orders.items() if any(item["state"] == "live" for item in said.get("is", {}).get("items", ()))]
    clerk.view("open", DONE["open"])
    clerk.choose("open-kind", "order")
    clerk.page.until(f"document.querySelectorAll('#open-table tbody tr').length === {len(live)}")
    stand.same("open orders", sorted(clerk.page.do(numbers)), live)
    stand.picture(clerk.page, "open")
    stand.ask({"call": "cancel_order", "desk": 3, "key": "cancel-order-2", "on": "2025-08-12", "order": 2})
    clerk.page.do("document.querySelector('#open-form button').click()")
    clerk.page.until(f"document.querySelectorAll('#open-table tbody tr').length === {len(live) - 1}")
    stand.same("without one that ended since", sorted(clerk.page.do(numbers)), [number for number in live if number != "2"])
    clerk.page.do("document.querySelector('#open-table button').click()")
    clerk.page.until("document.getElementById('enter').hidden === false && /open, of 2026/.test(document.querySelector('.refers')?.textContent)")
    stand.holds("a form from there, with what the number names", clerk.page.do("document.getElementById('call').value") == "change_order")
    for kind in ("requisition", "voucher", "bill", "asset", "bond"):
        clerk.view("open")
        clerk.choose("open-kind", kind)
        clerk.page.until(DONE["open"])
        wanted = {"requisition": 0, "voucher": 0, "bill": 40, "asset": 5, "bond": 0}[kind]
        said = clerk.page.until("!document.getElementById('open-said').textContent.startsWith('Asking') && document.querySelectorAll('#open-table tbody tr').length + '.'")
        stand.holds(f"open: {kind}", int(said[:-1]) >= wanted, said)
    clerk.page.close()


CONTRAST = """(() => {
    const light = c => { const [r, g, b] = c.map(v => { v /= 255; return v <= .03928 ? v / 12.92 : ((v + .055) / 1.055) ** 2.4; }); return .2126 * r + .7152 * g + .0722 * b; };
    const parse = text => { const m = /color\\(srgb ([\\d.]+) ([\\d.]+) ([\\d.]+)(?: \\/ ([\\d.]+))?\\)/.exec(text);
        if (m) return [m[1] * 255, m[2] * 255, m[3] * 255, m[4] === undefined ? 1 : +m[4]];
        const n = (text.match(/[\\d.]+/g) || [0, 0, 0, 0]).map(Number); return [n[0], n[1], n[2], n[3] === undefined ? 1 : n[3]]; };
    const behind = node => { const stack = []; for (let at = node; at; at = at.parentElement) { const c = parse(getComputedStyle(at).backgroundColor); if (c[3] > 0) stack.push(c); if (c[3] === 1) break; }
        let base = stack.length && stack.at(-1)[3] === 1 ? stack.pop() : [255, 255, 255, 1];
        for (const c of stack.reverse()) base = base.map((v, n) => n === 3 ? 1 : v * (1 - c[3]) + c[n] * c[3]); return base; };
    const found = [];
    for (const node of document.querySelectorAll('body *')) {
        if (node.closest('[hidden],datalist,option') || !node.getClientRects().length || getComputedStyle(node).visibility === 'hidden') continue;
        if (![...node.childNodes].some(n => n.nodeType === 3 && n.data.trim()) && !['INPUT', 'SELECT', 'TEXTAREA'].includes(node.tagName)) continue;
        const isSvg = node.namespaceURI.endsWith('svg'), text = parse(isSvg ? getComputedStyle(node).fill : getComputedStyle(node).color), back = behind(node);
        const [a, b] = [light(text), light(back)].sort((x, y) => y - x), ratio = (a + .05) / (b + .05);
        if (ratio < 4.5) found.push(node.tagName + '.' + node.className + ' ' + node.textContent.slice(0, 20) + ' ' + ratio.toFixed(2));
    }
    return found;
})()"""
SIDEWAYS = "[...document.querySelectorAll('.scroll')].filter(node => node.getClientRects().length && node.scrollWidth > node.clientWidth + 1).length"
PICTURES = {("enter", "light", 390): "enter-phone", ("lines", "light", 390): "lines-phone", ("lines", "dark", 1280): "lines-dark"}
NAMELESS = ("textbox", "combobox", "checkbox", "button", "link", "listbox", "spinbutton", "Date", "table", "img", "dialog")


def reached(stand):
    """In light and dark, wide and on a phone: contrast, names for who reads by ear, and no view wider than the window."""
    clerk = stand.clerk("payables")
    page = clerk.page
    clerk.fill({"call": "voucher", "on": "2025-08-12", "vendor": 700, "items": [{"fund": 1, "dept": 10, "object": 511, "amount": 99999999}]})
    page.until("Boolean(document.querySelector('#room .said'))")
    for scheme in ("light", "dark"):
        page.media(prefers_color_scheme=scheme)
        for width, height in ((1280, 900), (390, 844), (320, 640)):
            page.size(width, height, width < 500)
            for view in VIEWS:
                clerk.view(view, DONE[view])
                place = f"{view}, {scheme}, {width} pixels"
                stand.same(f"contrast: {place}", page.do(CONTRAST), [])
                stand.holds(f"width: {place}", page.do("document.documentElement.scrollWidth") <= width, page.do("document.documentElement.scrollWidth"))
                if width < 500:
                    stand.same(f"nothing sideways: {place}", page.do(SIDEWAYS), 0)
                if name := PICTURES.get((view, scheme, width)):
                    stand.picture(page, name)
    page.media()
    page.send("Emulation.clearDeviceMetricsOverride")
    for view in VIEWS:
        clerk.view(view, DONE[view])
        nodes = page.send("Accessibility.getFullAXTree")["nodes"]
        unnamed = [node["role"]["value"] for node in nodes if not node["ignored"] and node["role"]["value"] in NAMELESS and not node.get("name", {}).get("value")]
        stand.same(f"names for who reads by ear: {view}", unnamed, [])
    page.close()


def by_keys(stand):
    """A bill is entered by the keyboard alone."""
    clerk = stand.clerk("revenue")
    page = clerk.page
    page.do("document.getElementById('call').focus(); true")
    clerk.choose("call", "bill")
    before = stand.entries()
    typed = {"on": "08122025", "paper": "T-88001", "source": "1 P", "levy_year": "2026", "payer": "88001", "amount": "250.00", "key": ""}
    reached_by_tab = []
    for name, text in typed.items():
        # A day has three places of its own, and a button.
        for _ in range(6):
            page.key("Tab", windowsVirtualKeyCode=9)
            reached_by_tab.append(page.do("document.activeElement.name"))
            if reached_by_tab[-1] == name:
                break
        if name == "levy_year":
            page.do("document.activeElement.select(); true")
        for letter in text:
            page.send("Input.dispatchKeyEvent", type="char", text=letter)
    stand.same("the fields by Tab", list(dict.fromkeys(reached_by_tab)), list(typed))
    page.key("Enter", code="Enter", text="\r", windowsVirtualKeyCode=13)
    page.until("document.getElementById('said').textContent")
    stand.holds("a bill by keys alone", "Taken, as entry" in clerk.said() and stand.entries() == before + 1, clerk.said())
    page.close()


def pictures(stand):
    """Of forms, for docs/PAGE.md."""
    if not stand.pictures:
        return
    clerk = stand.desk(14)
    clerk.fill({"call": "voucher", "on": "2025-08-12", "vendor": 612, "items": [
        {"fund": 1, "dept": 13, "object": 511, "amount": 14820}, {"fund": 1, "dept": 40, "object": 522, "amount": 9275}]}, paper="A-20417")
    clerk.page.until("document.querySelectorAll('#room tbody tr').length === 2")
    stand.picture(clerk.page, "form", whole=True)
    clerk.send()
    clerk.fill({"call": "voucher", "on": "2025-07-12", "vendor": 612, "items": [{"fund": 1, "dept": 13, "object": 511, "amount": 100}]}, paper="A-20418")
    clerk.send()
    clerk.page.until("document.querySelectorAll('#room tbody tr').length === 1")
    clerk.page.do("scrollTo(0, 0); new Promise(go => requestAnimationFrame(() => requestAnimationFrame(() => go(true))))")
    stand.picture(clerk.page, "answers", whole=True)
    clerk.page.close()
