"""What a trial of the page by its users found: each has a case here. It stands last of those that enter
something, since it closes a month. The variable TRAPS names some of the cases alone."""
import json
import os

import looking
import words
from runs import named
from slips import AHEAD, DAY, HOUR, SAID, SUBMIT, VALUE, invoice, prepared

FORM = "document.getElementById('form').textContent"
ROWS = "[...document.querySelectorAll('{} tbody tr')].map(row => [...row.children].map(cell => cell.textContent))"
RELOADED = "document.readyState === 'complete' && document.body?.dataset.ready === 'yes' && !window.clerk"
# The bodies that a page posts from here on.
LISTEN = "window.bodies = []; { const real = window.fetch; window.fetch = (...words) => { window.bodies.push(words[1]?.body || words[0]); return real(...words); }; } true"


def run(stand):
    with open(os.path.join(stand.journal, "vendors.csv"), "w", encoding="utf-8") as file:
        file.write(named(stand, 'vendor,name,address\n650,"Acme <b>& Sons</b>","12 Mill Road\nHarborview"\n651,Ü. Olsen,\n'))
    stand.make_lists()
    names = os.environ.get("TRAPS", "")
    for part in (names_in_forms, council, items, bills, debts, orders, assets, repeats, newly_entered, every_draft, classes, old, narrow, kept,
                 years, closed):
        if not names or part.__name__ in names.split():
            part(stand)


def order_of(stand, key, vendor, *items):
    parts = ("fund", "dept", "object", "amount")
    call = {"call": "order", "desk": 3, "key": key, "on": DAY, "vendor": vendor, "items": [dict(zip(parts, item)) for item in items]}
    return stand.ask(call)["ok"]["order"]


def names_in_forms(stand):
    """A vendor's name stands beside its number, is found by a part of it, and isn't sent."""
    clerk = stand.desk(4)
    page = clerk.page
    page.do(LISTEN)
    clerk.fill({"call": "voucher", "on": DAY, "vendor": 650})
    name = named(stand, "Acme <b>& Sons</b>")
    beside = "document.getElementById('form').elements.vendor.box.querySelector('.refers').textContent"
    stand.same("a vendor's name beside its number", page.do(beside), f"{name}, 12 Mill Road, Harborview")
    page.do("clerk.set(document.getElementById('form').elements.vendor, '999')")
    stand.same("a number that no vendor has", page.do(beside), "The city’s list of vendors has no such number")
    page.do("clerk.set(document.getElementById('form').elements.vendor, 'olsen')")
    offered = "[...document.getElementById('known-vendor').options].map(each => each.value + ' ' + each.label).join()"
    stand.same("a vendor by a part of its name", page.do(offered), "651 Ü. Olsen")
    stand.same("its number, where one alone has that part", page.do(VALUE.format("vendor")), "651")
    said = clerk.enter(invoice("inv-650-named", 4, vendor=650))
    stand.holds("an answer names its vendor", f"11.00, vendor 650 {name}, 2025-08-12" in said, said)
    bodies = page.do("window.bodies")
    stand.holds("no name is sent", any("inv-650-named" in body for body in bodies) and not any("Acme" in body for body in bodies), bodies)
    page.close()


def council(stand):
    """What an amendment adds, both lines of a transfer, and estimates from a sheet."""
    clerk = stand.clerk("council")
    page = clerk.page
    clerk.fill({"call": "amend", "on": DAY, "year": 2026, "fund": 1, "line": 0, "by": 3500000})
    page.until("document.querySelectorAll('#room tbody tr').length === 1")
    (line, _, room, asked, left, lacks), = page.do(ROWS.format("#room"))
    now = int(stand.ask({"call": "line", "line": 0, "year": 2026})["is"]["room"])
    wanted = ["General Fund: Mayor and Council, Salaries", looking.money(now), "adds 35,000.00", looking.money(now + 3500000), ""]
    stand.same("an amendment adds", [line, room, asked, left, lacks], wanted)
    clerk.fill({"call": "transfer", "on": DAY, "year": 2026, "fund": 1, "from": 6, "to": 7, "amount": 2500})
    page.until("document.querySelectorAll('#room tbody tr').length === 2")
    stand.same("a transfer shows both lines", [row[3] for row in page.do(ROWS.format("#room"))], ["25.00", "adds 25.00"])
    clerk.fill({"call": "adopt", "on": DAY, "year": 2027, "fund": 1})
    page.do("clerk.set(document.getElementById('form').elements['paste-estimates'], 'Property tax\\t$ 1,000.00\\n4\\t20.00\\n')")
    page.do("[...document.querySelectorAll('#form button')].filter(b => b.textContent === 'Put them in')[1].click()")
    got = page.do("[1, 4].map(id => document.getElementById('form').elements['estimates-' + id].value).join(' ')")
    stand.same("estimates from a sheet", got, "1,000.00 20.00")
    page.close()


def items(stand):
    """The item of an order is needed where an order is named; a change of an order has its items as choices."""
    number = order_of(stand, "po-traps", 650, (1, 13, 511, 5000), (1, 40, 522, 700))
    stand.make_lists()
    clerk = stand.desk(4)
    clerk.fill({"call": "voucher", "on": DAY, "items": [{"order": number}]})
    label = "document.querySelector('.item [name=item]').box.querySelector('label').textContent"
    stand.same("the item isn't called optional", clerk.page.do(label), "Item")
    name = named(stand, "Acme <b>& Sons</b>")
    stand.same("the order in full", clerk.page.do("document.querySelector('.item .note').textContent"), f"Order {number}: po-traps, vendor 650 {name}")
    said = clerk.page.do("document.getElementById('form').elements.vendor.box.querySelector('.refers').textContent")
    stand.holds("and its vendor by name", said.startswith(name), said)
    out = "[...document.querySelectorAll('#form .away:not([hidden])')]"
    stand.same("the only item can't be taken out", clerk.page.do(f"{out}.length"), 0)
    clerk.page.do("for (let n = 0; n < 2; n++) document.querySelector('#form fieldset.list > button').click()")
    clerk.page.do(f"{out}[0].click()")
    named_ = clerk.page.do(f"{out}.map(each => [each.closest('.item'), each].map(node => node.getAttribute('aria-label')).join())")
    stand.same("items are named by their places", named_, ["Item 1,Take item 1 out", "Item 2,Take item 2 out"])
    clerk.page.close()
    clerk = stand.clerk("purchasing")
    clerk.fill({"call": "change_order", "on": DAY, "order": number})
    said = clerk.page.until("/7.00 open/.test(document.getElementById('form').elements.namedItem('item').textContent) && "
                            "document.getElementById('form').elements.namedItem('item').textContent")
    stand.holds("a change's items with what is open", "1: City Clerk, Office supplies, 50.00 open" in said, said)
    clerk.page.do("clerk.set(document.getElementById('form').elements.namedItem('item'), '2')")
    got = clerk.page.do("['fund', 'dept', 'object'].map(name => document.getElementById('form').elements.namedItem(name).value).join()")
    stand.same("and the account of the item", got, "1,40,522")
    clerk.page.close()


def bills(stand):
    """All that is left of a bill by a button; a form from Open; its party and amount in the answer."""
    bill = stand.ask({"call": "bill", "desk": 6, "key": "bill-traps", "on": DAY, "source": 1, "levy_year": 2026, "payer": 5151, "amount": 12345})["ok"]["bill"]
    stand.ask({"call": "collect", "desk": 5, "key": "collect-traps", "on": DAY, "bill": bill, "amount": 345})
    stand.make_lists()
    clerk = stand.clerk("treasury")
    clerk.fill({"call": "collect", "on": DAY, "bill": bill}, paper="9")
    said = clerk.page.until(f"/All that is left/.test({FORM}) && document.querySelector('.refers').textContent")
    stand.holds("a bill with its payer", said.startswith("bill-traps, payer 5151: 120.00 left of Property tax 2026"), said)
    clerk.page.do("document.querySelector('.refers button').click()")
    stand.same("all that is left", clerk.page.do(VALUE.format("amount")), "120.00")
    said = clerk.send()
    stand.holds("a collection's amount and party", f"120.00, payer 5151, bill {bill}, 2025-08-12 12:" in said, said)
    said = prepared(clerk, {"call": "interfund", "on": DAY, "what": "loan", "from": 1, "to": 3, "amount": 100}, paper="T-1")
    stand.holds("moved cash takes two steps", said.startswith("Move cash, a loan: 1.00, General Fund to Grants"), said)
    clerk.page.close()
    clerk = stand.clerk("payroll")
    said = prepared(clerk, {"call": "leave", "on": DAY, "what": "earn", "fund": 1, "dept": 20, "amount": 100}, paper="P-1")
    stand.holds("so has leave", said.startswith("Enter leave, earned: 1.00, General Fund: Police, on August 12, 2025."), said)
    clerk.page.close()


def debts(stand):
    """What is due of a bond is what the program takes."""
    bond = stand.ask({"call": "issue", "desk": 5, "key": "bond-traps", "on": DAY, "fund": 4, "amount": 30001, "rate_bp": 425, "every": 3, "principals": [10000, 20001]})["ok"]["bond"]
    stand.ask({"call": "collect", "desk": 5, "key": "collect-2-traps", "on": DAY, "bill": 2, "amount": 50000})
    stand.make_lists()
    clerk = stand.clerk("treasury")
    call = {"call": "pay_due", "on": "2025-11-12", "bond": bond, "fund": 5, "dept": 11, "principal": 811, "interest": 821}
    clerk.fill({"call": "pay_due", "on": "2025-11-12", "bond": bond})
    said = clerk.page.until("/of principal and/.test(document.querySelector('.refers').textContent) && document.querySelector('.refers').textContent")
    paid = stand.ask({**call, "desk": 5, "key": "debt-traps"})["ok"]
    total = looking.money(int(paid["principal"]) + int(paid["interest"]))
    due = f"{total} ({looking.money(paid['principal'])} of principal and {looking.money(paid['interest'])} of interest)"
    stand.holds("the sum that is due", said.endswith(f"300.01 owed, next payment November 12, 2025, of {due}"), [said, due])
    said = prepared(clerk, {**call, "on": "2026-02-12"})
    stand.holds("not while the lists lack the last payment", said.startswith(f"Pay what is due of bond or lease {bond}"), said)
    stand.make_lists()
    clerk.page.do(AHEAD.format(0))
    clerk.page.do("location.hash = '#open/bond'; true")
    rows = ROWS.format("#open-table")
    said = clerk.page.until(f"{rows}.find(row => row[0] === '{bond}')?.[5].includes('principal') && {rows}.find(row => row[0] === '{bond}')[5]")
    stand.holds("a bond that is open, with what is due", said.startswith("200.01 owed, next payment February 12, 2026, of 202."), said)
    clerk.view("enter")
    said = prepared(clerk, {**call, "on": "2026-02-12"})
    paid = stand.ask({**call, "desk": 5, "key": "debt-traps-2", "on": "2026-02-12"})["ok"]
    total = looking.money(int(paid["principal"]) + int(paid["interest"]))
    stand.holds("and in the sentence", said.startswith(f"Pay {total} (200.01 of principal and {looking.money(paid['interest'])} of interest) of bond"), said)
    clerk.page.close()


def orders(stand):
    """A purchase order with its changes, and one that has ended."""
    number = order_of(stand, "po-ended", 650, (1, 13, 511, 5000), (1, 40, 522, 700))
    stand.ask({"call": "change_order", "desk": 3, "key": "po-ended-up", "on": DAY, "order": number, "item": 1, "fund": 1, "dept": 13, "object": 511, "by": 250})
    clerk = stand.clerk("purchasing")
    clerk.page.do(f"location.hash = '#paper/order/{number}'; true")
    said = clerk.page.until("/isn’t in the lists/.test(document.getElementById('paper-sheet').textContent) && document.getElementById('paper-sheet').textContent")
    stand.holds("an order that the lists don't have yet", f"Order {number} isn’t in the lists yet" in said, said)
    clerk.view("open")
    stand.ask({"call": "cancel_order", "desk": 3, "key": "po-ended-off", "on": DAY, "order": number})
    stand.make_lists()
    clerk.page.do(AHEAD.format(0))
    clerk.page.until("document.getElementById('open-said').textContent.includes('open')")
    clerk.page.do(f"location.hash = '#paper/order/{number}'; true")
    clerk.page.until("document.querySelectorAll('#paper-sheet tbody tr').length === 3")
    rows = [row[2:] for row in clerk.page.do(ROWS.format("#paper-sheet"))]
    stand.same("an order that has ended, with its changes", rows,
               [["50.00", "2.50", "52.50", "cancelled"], ["7.00", "0.00", "7.00", "cancelled"], ["57.00", "2.50", "59.50", ""]])
    clerk.page.close()


def assets(stand):
    """Of several assets of one invoice each has its own cost."""
    made = stand.ask({"call": "voucher", "desk": 4, "key": "inv-assets", "on": DAY, "vendor": 650, "items": [
        {"fund": 4, "dept": 40, "object": 712, "amount": 3000}, {"fund": 4, "dept": 40, "object": 712, "amount": 500}]})
    numbers = made["ok"]["assets"]
    stand.make_lists()
    clerk = stand.clerk("assets")
    clerk.view("open")
    clerk.choose("open-kind", "asset")
    clerk.page.until(f"document.querySelector('#open-table tbody th')?.textContent === '{numbers[-1]}'")
    rows = {row[0]: row[4] for row in clerk.page.do(ROWS.format("#open-table"))}
    stand.same("each asset has its own cost", [rows.get(str(number)) for number in numbers], ["30.00", "5.00"])
    clerk.page.close()


def repeats(stand):
    """The same invoice in other letters, sent from this browser a moment ago; what a void takes back."""
    clerk = stand.desk(14)
    said = clerk.enter(invoice("inv-640-NEW-1", 14))
    stand.holds("an invoice", "Taken" in said, said)
    said = prepared(clerk, invoice("inv-640-new-1", 14))
    stand.holds("the same one a moment later", "Desk Payables B entered inv-640-NEW-1 on August 12, 2025" in said, said)
    number = stand.ask({**invoice("inv-640-NEW-1", 14), "desk": 14})["ok"]["voucher"]
    said = clerk.enter({"call": "void_voucher", "key": "void-new-1", "on": DAY, "voucher": number})
    stand.holds("a void has its amount and party", f"11.00, vendor 640, voucher {number}, 2025-08-12 12:" in said, said)
    said = clerk.enter(invoice("inv-640-new-1", 14))
    stand.holds("once it is void it goes at once", "Taken" in said and clerk.page.do("clerk.asked") == "", said)
    clerk.page.close()


def newly_entered(stand):
    """Vouchers that are entered while a payment run is open come into its list, and what is ticked stays."""
    first = stand.ask(invoice("inv-640-late-1", 4))["ok"]["voucher"]
    stand.make_lists()
    clerk = stand.clerk("treasury")
    clerk.fill({"call": "pay", "on": DAY, "vouchers": [first]}, paper="50")
    second = stand.ask(invoice("inv-640-late-2", 4))["ok"]["voucher"]
    stand.make_lists()
    clerk.page.do(f"document.getElementById('form').elements.namedItem('voucher-{first}').focus(); true")
    clerk.page.do(AHEAD.format(0))
    there = f"document.getElementById('form').elements.namedItem('voucher-{second}')"
    stand.holds("a new voucher comes into the run", clerk.page.until(f"Boolean({there})"))
    stand.same("the keyboard stays at its voucher", clerk.page.do("document.activeElement.name"), f"voucher-{first}")
    stand.same("and what was ticked stays", clerk.page.do("[...document.querySelectorAll('#form .run input:checked')].map(each => each.value).join()"), str(first))
    clerk.page.close()


def half(stand):
    """A call of each kind, by who enters it."""
    order = order_of(stand, "po-half", 650, (1, 13, 511, 5000), (1, 40, 522, 700))
    made = [stand.ask(invoice(f"inv-half-{place}", 4))["ok"]["voucher"] for place in range(2)]
    line = {"fund": 1, "dept": 13, "object": 511}
    debt = {"fund": 4, "amount": 900, "rate_bp": 425, "every": 12, "principals": [300, 600]}
    return {
        "council": [{"call": "adopt", "year": 2027, "fund": 1, "lines": [{"line": 0, "amount": 100}, {"line": 3, "amount": 5}], "estimates": [{"source": 1, "amount": 7}]},
                    {"call": "amend", "year": 2026, "fund": 1, "line": 3, "by": -500}, {"call": "transfer", "year": 2026, "fund": 1, "from": 6, "to": 7, "amount": 25}],
        "roads": [{"call": "requisition", "items": [{"fund": 2, "dept": 30, "object": 513, "amount": 1}, {"fund": 2, "dept": 32, "object": 521, "amount": 2}]},
                  {"call": "withdraw", "requisition": 4}],
        "purchasing": [{"call": "order", "vendor": 650, "items": [{**line, "amount": 7}]}, {"call": "change_order", "order": order, "item": 2, "by": 100},
                       {"call": "cancel_order", "order": order}],
        "payables": [{"call": "voucher", "vendor": 650, "back": True, "items": [{"order": order, "item": 2, "amount": 70, "final": True}, {**line, "amount": 8}]},
                     {"call": "void_voucher", "voucher": made[0]}],
        "treasury": [{"call": "pay", "vouchers": made}, {"call": "collect", "bill": 2, "amount": 5}, {"call": "receive", "source": 4, "amount": 9}, {"call": "issue", **debt},
                     {"call": "lease", "vendor": 651, "dept": 40, "object": 712, **debt}, {"call": "interfund", "what": "repay", "from": 3, "to": 1, "amount": 4},
                     {"call": "pay_due", "bond": 1, "fund": 5, "dept": 11, "principal": 811, "interest": 821}],
        "revenue": [{"call": "bill", "source": 1, "levy_year": 2025, "payer": 6, "amount": 3}, {"call": "write_off", "bill": 2, "amount": 5}],
        "assets": [{"call": "asset", "what": "dispose", "asset": 5, "fund": 1, "proceeds": 0}],
        "payroll": [{"call": "leave", "what": "mature", "fund": 1, "dept": 20, "object": 504, "amount": 6}],
        "controller": [{"call": "close", "what": "year", "year": 2026}],
    }


READ = """JSON.stringify([...document.getElementById('form').elements].filter(i => i.name && !/^run-/.test(i.name))
    .map(i => [i.name, i.type === 'checkbox' ? i.checked : i.value]))"""


def every_draft(stand):
    """The form of each call, half filled in, survives another view and a reload."""
    calls, kinds = half(stand), set()
    stand.make_lists()
    for user, own in calls.items():
        clerk = stand.clerk(user)
        page = clerk.page
        wanted = {}
        for call in own:
            clerk.fill({**call, "on": "2025-08-11"})
            wanted[call["call"]] = page.do(READ)
        clerk.view("open")
        page.send("Page.reload")
        page.until(RELOADED)
        clerk.begin()
        clerk.view("enter")
        for name, read in wanted.items():
            page.do(f"document.getElementById('call').value = '{name}'; document.getElementById('call').dispatchEvent(new Event('change')); true")
            got = page.do(READ)
            stand.holds(f"half a form: {name}", got == read, [got, read])
            kinds.add(name)
        page.close()
    stand.same("half a form of each call", len(kinds), 22)


CLASSES = """(async chart => { const {Chart} = await import('/desk/chart.js'), its = new Chart(chart);
    return its.line.map((line, number) => [line.class, its.lineName(number)]).filter(([id]) => id !== undefined); })(%s)"""


def classes(stand):
    """A class of objects is called by its objects."""
    clerk = stand.clerk("auditor")
    chart = words.chart_of("fairview")
    got = clerk.page.do(CLASSES % json.dumps(chart))
    first = {id: next(row["name"] for row in chart["object"] if row.get("class") == id) for id, _ in got}
    stand.holds("a class by its objects", got and all(f"class {id} ({first[id]}" in name for id, name in got), got)
    clerk.page.close()


OLD = """(async chart => { const [{Words}, {Chart}, tables] = await Promise.all([import('/desk/words.js'), import('/desk/chart.js'),
    fetch('/desk/tables.json').then(answer => answer.json())]);
    return ['2026-07', '2026-05'].map(next => new Words(tables, new Chart(chart), {state: {next}}).of({no: {name: 'PeriodClosed', month: '2026-05'}}, 'voucher').todo);
})(%s)"""


def old(stand):
    """An invoice of a closed year is told of its tick; one of an open year isn't."""
    clerk = stand.desk(4)
    told, other = clerk.page.do(OLD % json.dumps(words.chart_of("harborview")))
    stand.holds("an invoice of a closed year", told.endswith("There it counts in fiscal year 2027, unless “Of the year before” is ticked."), told)
    stand.holds("one of an open year", "Of the year before" not in other, other)
    clerk.page.close()


def narrow(stand):
    """On a phone nothing scrolls sideways: papers, statements, a line's documents, the forms of a budget and of a debt."""
    order = order_of(stand, "po-narrow", 650, (1, 13, 511, 5000))
    stand.make_lists()
    run = max(place for place, call in enumerate(stand.calls(), 1) if call["call"] == "pay")
    clerk = stand.clerk("council")
    page = clerk.page
    for width in (390, 320):
        page.size(width, 800, True)
        menu(stand, page, width)
        for address in (f"paper/order/{order}", f"paper/run/{run}"):
            page.do(f"location.hash = '#{address}'; true")
            page.until("document.querySelectorAll('#paper-sheet tbody tr').length > 1")
            stand.same(f"nothing sideways: {address.rsplit('/', 1)[0]}, {width} pixels", page.do(looking.SIDEWAYS), 0)
            stand.holds(f"width: {address.rsplit('/', 1)[0]}, {width} pixels", page.do("document.documentElement.scrollWidth") <= width)
            page.do("document.getElementById('paper-sheet').replaceChildren(); true")
        for kind in looking.KINDS:
            clerk.view("statements", looking.DONE["statements"])
            clerk.choose("report-kind", kind)
            page.until(f"document.querySelectorAll('#report thead th').length === {looking.KINDS[kind]} && document.querySelectorAll('#report tbody tr').length > 5")
            stand.same(f"nothing sideways: {kind}, {width} pixels", page.do(looking.SIDEWAYS), 0)
        clerk.view("lines", looking.DONE["lines"])
        page.do("document.querySelector('#lines-table button[title$=\" 44\"]').click()")
        page.until("document.querySelectorAll('#line-table tr').length > 1")
        stand.same(f"nothing sideways: documents of a line, {width} pixels", page.do(looking.SIDEWAYS), 0)
        page.do("document.getElementById('line').close(); true")
        clerk.view("enter")
        clerk.fill({"call": "adopt", "on": DAY, "year": 2027, "fund": 1, "lines": [{"line": 0, "amount": 100}]})
        page.until("document.querySelectorAll('#form .sums td').length > 3")
        stand.same(f"nothing sideways: a budget's totals, {width} pixels", page.do(looking.SIDEWAYS), 0)
    page.close()


def menu(stand, page, width):
    """On a phone the head is one line, and a button shows the views."""
    stand.holds(f"a head of one line, {width} pixels", page.do("document.querySelector('header').getBoundingClientRect().height") < 60)
    shown = "document.querySelector('nav').getClientRects().length"
    stand.same("the views are hidden", page.do(shown), 0)
    page.do("document.getElementById('menu').click()")
    stand.holds("and shown by a button", page.do(shown) and page.do("document.getElementById('menu').getAttribute('aria-expanded')") == "true")
    stand.same(f"contrast of the views, {width} pixels", page.do(looking.CONTRAST), [])
    page.do("document.querySelector('nav [data-view=council]').click()")
    stand.same("which a choice hides again", [page.do(shown), page.do("document.getElementById('council').hidden")], [0, False])
    stand.same("and the keyboard is at the view", page.do("document.activeElement.id"), "main")


# Answered calls of a user, as the browser keeps them.
FILL = """(() => { const some = localStorage.length; for (let n = 0; n < %d; n++) {
    const call = {call: 'receive', key: 'old-' + n, on: '2025-07-01', made: '2025-07-01T12:00:00.000Z', about: '1.00, Fines',
        text: '{"call":"receive","desk":5,"key":"old-' + n + '","on":"2025-07-01","source":4,"amount":100}', reply: {at: 1, ok: {}}};
    localStorage.setItem('call treasury 5 2025-07-01T00:00:' + String(n).padStart(6, '0'), JSON.stringify(call)); }
    return some; })()"""
COUNT = 8000
# How often a page reads from what the browser keeps.
READS = "window.reads = 0; { const real = Storage.prototype.getItem; Storage.prototype.getItem = function (id) { window.reads++; return real.call(this, id); }; } true"


def kept(stand):
    """With thousands of kept calls a call is sent without reading them, and it is said how full the browser is before it is."""
    clerk = stand.clerk("treasury")
    clerk.page.do(FILL % COUNT)
    clerk.page.go(stand.url + "/desk/?kept")
    clerk.begin()
    clerk.fill({"call": "receive", "key": "deposit-kept", "on": DAY, "source": 4, "amount": 100})
    clerk.page.do(READS)
    said = clerk.send()
    reads = clerk.page.do("window.reads")
    stand.holds(f"a call beside {COUNT} kept ones reads none of them", "Taken" in said and reads < 100, [reads, said])
    clerk.view("sent", "/percent/.test(document.getElementById('sent-room').textContent)")
    said = clerk.text("sent-room")
    stand.holds("how full the browser is", "calls are kept" in said and int(said.split()[4]) > 20, said)
    clerk.page.do("document.getElementById('sent-forget').click()")
    said = clerk.text("sent-said")
    stand.holds("old ones are forgotten", int(said.split()[0]) >= COUNT and clerk.page.do("localStorage.length") < COUNT, said)
    clerk.page.close()


def years(stand):
    """Views open at today's year, whatever the last entry's is, and on waking in another one at that."""
    said = stand.ask({"call": "receive", "desk": 5, "key": "deposit-2028", "on": "2028-06-12", "source": 4, "amount": 100})
    stand.holds("a deposit of a later year", "ok" in said, said)
    stand.make_lists()
    clerk = stand.clerk("council")
    page = clerk.page
    shown = "['lines-year', 'report-year', 'council-year'].map(id => document.getElementById(id).value).join()"
    stand.same("views open at today's year", page.do(shown), "2026,2026,2026")
    clerk.view("statements", looking.DONE["statements"])
    clerk.choose("report-year", "2028")
    clerk.view("lines", looking.DONE["lines"])
    page.do(AHEAD.format(330 * 24 * HOUR))
    page.until("document.getElementById('lines-year').value === '2027'")
    stand.same("on waking in another year at that", page.do(shown), "2027,2028,2027")
    stand.holds("and the view is shown anew", page.until("/fiscal year 2027/.test(document.getElementById('lines-table').textContent)"))
    page.close()


def closed(stand):
    """A month that this browser closed isn't proposed again."""
    clerk = stand.clerk("controller")
    page = clerk.page
    page.do("sessionStorage.setItem('ahead', 24 * 3600 * 1000 * 24); true")
    page.go(stand.url + "/desk/?closed#enter/close")
    clerk.begin()
    stand.same("a month that has ended", page.do(VALUE.format("month")), "2025-08")
    said = clerk.enter({"call": "close", "what": "month", "month": "2025-08"})
    stand.holds("is closed, and said with its name and time", "close-2025-08 Taken, as entry" in said and "August 2025, 2025-09-05 12:" in said, said)
    stand.same("and isn't proposed again", page.do(VALUE.format("month")), "")
    page.do("sessionStorage.removeItem('ahead')")
    page.close()
