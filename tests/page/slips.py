"""Slips that the page asks about before a call is sent, what it never proposes, and half-filled forms, which nothing loses."""
import looking

DAY = "2025-08-12"  # the browser's
SAID = "document.getElementById('prepared').hidden ? '' : document.getElementById('prepared').textContent"
VALUE = "document.getElementById('form').elements.namedItem('{}').value"
SUBMIT = "document.getElementById('form').requestSubmit()"
AHEAD = "window.ahead += {}; dispatchEvent(new Event('focus')); true"
HOUR = 3600 * 1000


def run(stand):
    stand.make_lists()
    closes(stand)
    days(stand)
    invoices(stand)
    drafts(stand)
    addresses(stand)
    council(stand)
    items(stand)


def prepared(clerk, call, **more):
    """What is said of a call before it is sent."""
    clerk.fill(call, **more)
    clerk.page.do(SUBMIT)
    return clerk.page.until(SAID)


def closes(stand):
    clerk = stand.clerk("controller")
    page, before = clerk.page, stand.entries()
    stand.same("no month is proposed before it has ended", page.do(VALUE.format("month")), "")
    said = prepared(clerk, {"call": "close", "what": "month", "month": "2025-08"})
    stand.holds("a close is said in a sentence", said.startswith("Close August 2025, 19 days before it ends."), said)
    stand.holds("with what is owed by then", "through August 31, 2025 may still be owed." in said and "fiscal year" not in said, said)
    for scheme in ("light", "dark"):
        page.media(prefers_color_scheme=scheme)
        stand.same(f"contrast of the sentence: {scheme}", page.do(looking.CONTRAST), [])
    page.media()
    page.key("Enter", code="Enter", text="\r", windowsVirtualKeyCode=13)
    stand.holds("one more Enter sends nothing", stand.entries() == before and page.do(SAID), stand.entries() - before)
    page.do("clerk.set(document.getElementById('form').elements.month, '2025-07')")
    stand.same("a change of the form takes the sentence back", page.do(SAID), "")
    page.do("sessionStorage.setItem('ahead', 24 * 3600 * 1000 * 24); document.querySelector('#form .buttons button[type=button]').click()")
    page.go(stand.url + "/desk/?later#enter/close")
    clerk.begin()
    stand.same("a month that has ended is proposed", page.do(VALUE.format("month")), "2025-08")
    page.do("sessionStorage.removeItem('ahead')")
    page.close()


def days(stand):
    clerk = stand.clerk("treasury")
    page = clerk.page
    deposit = {"call": "receive", "source": 4, "amount": 12345}
    clerk.fill(deposit, paper="77")
    stand.same("the day is today's", page.do(VALUE.format("on")), DAY)
    page.do(AHEAD.format(24 * HOUR))
    stand.same("after a night it is the new one", page.do(VALUE.format("on")), "2025-08-13")
    page.do("clerk.set(document.getElementById('form').elements.on, '2025-08-05')")
    page.do(AHEAD.format(24 * HOUR))
    stand.same("a day that was chosen stays", page.do(VALUE.format("on")), "2025-08-05")
    page.do(AHEAD.format(-48 * HOUR))
    before = stand.entries()
    said = prepared(clerk, {**deposit, "on": "2028-08-05"}, paper="78")
    stand.holds("a day of another year is asked", "Receive 123.45, Fines, on August 5, 2028." in said and "fiscal year 2029, and today is in 2026" in said, said)
    page.do("document.querySelector('#prepared .go').click()")
    stand.holds("and asked twice", "tick it" in page.do(SAID) and stand.entries() == before, page.do(SAID))
    said = prepared(clerk, {**deposit, "on": "2025-09-12"}, paper="79")
    stand.holds("so is one 31 days away", "31 days from today" in said, said)
    said = prepared(clerk, {**deposit, "on": "2025-09-11"}, paper="79")
    stand.holds("and not one 30 days away", "from today" not in said and "Receive 123.45" in said, said)
    before = stand.entries()
    prepared(clerk, {**deposit, "on": DAY}, paper="keys")
    for name, more in (("Tab", {}), ("Enter", {"text": "\r"})):
        page.key(name, windowsVirtualKeyCode={"Tab": 9, "Enter": 13}[name], **more)
    stand.holds("by keys: Tab and Enter send it", stand.waited(lambda: stand.entries() == before + 1), page.do(SAID))
    clerk.fill({**deposit, "on": "0202-08-12"}, paper="80")
    said = clerk.send()
    stand.holds("a year that is none", "The year of the day is 202: it is from 1970 to 2199" in said, said)
    said = clerk.enter({**deposit, "on": DAY, "key": "deposit-81"})
    taken = said.startswith("deposit-81 Taken, as entry") and "123.45, Fines, 2025-08-12 12:" in said
    stand.holds("what was taken has its amount, party and time", taken, said)
    clerk.view("sent", "document.querySelectorAll('#sent-table tr').length > 1")
    stand.holds("so has Sent", "123.45, Fines" in clerk.text("sent-table"), clerk.text("sent-table")[:200])
    page.close()


def invoice(key, desk, vendor=640, **item):
    return {"call": "voucher", "desk": desk, "key": key, "on": DAY, "vendor": vendor,
            "items": [{"fund": 1, "dept": 40, "object": 522, "amount": 1100, **item}]}


def invoices(stand):
    stand.ask(invoice("inv-640-TW-1", 4))
    order = stand.ask({"call": "order", "desk": 3, "key": "po-slips", "on": DAY, "vendor": 641,
                       "items": [{"fund": 1, "dept": 13, "object": 511, "amount": 5000}]})["ok"]["order"]
    stand.make_lists()
    clerk = stand.desk(14)
    before = stand.entries()
    for key in ("inv-640-TW-1", "inv-640-tw-1"):
        said = prepared(clerk, invoice(key, 14))
        same = "Desk Payables A entered inv-640-TW-1 on August 12, 2025" in said and "looks like the same invoice" in said
        stand.holds(f"the same invoice at another desk: {key}", same, said)
    said = prepared(clerk, invoice("inv-999-1", 14, vendor=999, fund=1, dept=13, object=511, order=order, item=1))
    stand.holds("an invoice on another vendor's order", f"Order {order} (po-slips) is of vendor 641, and the invoice is of vendor 999" in said, said)
    stand.same("nothing was entered", stand.entries(), before)
    said = clerk.enter(invoice("inv-640-TW-2", 14))
    stand.holds("another invoice goes at once", "Taken" in said and clerk.page.do("clerk.asked") == "", [said, clerk.page.do("clerk.asked")])
    clerk.page.close()


def drafts(stand):
    clerk = stand.desk(14)
    page = clerk.page
    call = invoice("", 14, vendor=655)
    del call["key"]
    call["items"].append({"fund": 1, "dept": 13, "object": 511, "amount": 2200})
    clerk.fill({**call, "on": "2025-08-07"}, paper="H-1")
    read = "JSON.stringify([...document.getElementById('form').elements].filter(i => i.name).map(i => [i.name, i.value]))"
    half = page.do(read)
    clerk.choose("call", "void_voucher")
    clerk.choose("call", "voucher")
    stand.same("half an invoice survives another form", page.do(read), half)
    clerk.view("council")
    page.send("Page.reload")
    page.until("document.readyState === 'complete' && document.body?.dataset.ready === 'yes' && !window.clerk")
    clerk.begin()
    stand.same("a reload stays at its view", page.do("!document.getElementById('council').hidden"), True)
    clerk.view("enter")
    stand.same("half an invoice survives a reload", page.do(read), half)
    said = clerk.send()
    stand.holds("and is sent", "inv-655-H-1 Taken" in said, said)
    empty = page.until("document.getElementById('form').elements.paper.value === '' && 'empty'")
    stand.same("then the form is new", empty + page.do(VALUE.format("on")), "empty" + DAY)
    page.close()


def addresses(stand):
    clerk = stand.desk(14)
    page = clerk.page
    page.do("location.hash = '#statements/2026/budget'; true")
    page.until("document.querySelector('#report h2')?.textContent.includes('fiscal year 2026')")
    stand.same("an address shows its view", page.do("document.getElementById('report-kind').value"), "budget")
    clerk.view("open", "!document.getElementById('open').hidden")
    stand.same("a view has its address", page.do("location.hash"), "#open/requisition")
    page.do("history.back(); true")
    stand.holds("back goes back", page.until("!document.getElementById('statements').hidden"))
    clerk.view("lines", "!document.getElementById('lines').hidden")
    stand.same("today's year isn't part of an address", [page.do("location.hash"), page.do("document.getElementById('lines-year').value")], ["#lines", "2026"])
    page.do("history.back(); true")
    page.until("!document.getElementById('statements').hidden")
    page.do("location.hash = '#main'; true")
    stand.holds("another one changes nothing", page.do("!document.getElementById('statements').hidden"))
    page.close()


PASTED = "Mayor and Council\tSalaries\t190,000.00\n10\t503\t65000.00\nFinance, Salaries\t1.00\n3\t5.00\n"


def council(stand):
    """A budget is pasted from a sheet, with the year before beside it; where a row can't be read nothing is put in."""
    clerk = stand.clerk("council")
    page = clerk.page
    clerk.fill({"call": "adopt", "on": DAY, "year": 2027, "fund": 1})
    paste = "clerk.set(document.getElementById('form').elements['paste-lines'], %s); [...document.querySelectorAll('#form button')].find(b => b.textContent === 'Put them in').click()"
    page.until("/2026: /.test(document.getElementById('form').textContent)")
    values = "[0, 1, 4, 3].map(line => document.getElementById('form').elements['lines-' + line].value).join(' ')"
    for bad, said in (("10\t503\t1.5", "row 2: 1.5 is no amount"), ("Zoo\tSalaries\t1.00", "row 2: Zoo, Salaries is no line of this fund"),
                      ("0\t1.00", "row 2: 0 stands twice")):
        page.do(paste % repr(f"0\t1.00\n{bad}"))
        stand.holds(f"a sheet with a fault: {said}", said in clerk.text("form") and page.do(values).strip() == "", clerk.text("form")[:200])
    page.do(paste % repr(PASTED))
    stand.same("a sheet is pasted", page.do(values), "190,000.00 65,000.00 1.00 5.00")
    said = page.do("document.querySelector('#form .sums').textContent")
    was = sum(int(stand.ask({"call": "line", "line": line, "year": 2026})["is"]["appropriated"]) for line in range(4))
    wanted = "Mayor and Council255,005.00" + looking.money(was) + looking.money(25500500 - was)
    stand.holds("with totals by department", wanted in said, [wanted, said[:200]])
    said = prepared(clerk, {"call": "adopt", "on": DAY, "year": 2027, "fund": 2, "lines": [{"line": 53, "amount": 100}]})
    stand.holds("and said before it is sent", "Adopt the budget of Street Fund for fiscal year 2027: 1.00 in 1 line" in said, said)
    page.close()


def items(stand):
    """An order's items are choices with what is open, and a disposal starts from Open."""
    order = stand.ask({"call": "order", "desk": 3, "key": "po-items", "on": DAY, "vendor": 642,
                       "items": [{"fund": 1, "dept": 13, "object": 511, "amount": 5000}, {"fund": 1, "dept": 40, "object": 522, "amount": 700}]})["ok"]["order"]
    stand.make_lists()
    clerk = stand.desk(14)
    clerk.fill({"call": "voucher", "on": DAY, "items": [{"order": order}]})
    said = clerk.page.until("/7.00 open/.test(document.querySelector('.item [name=item]').textContent) && document.querySelector('.item [name=item]').textContent")
    stand.holds("an order's items with what is open", "1: City Clerk, Office supplies, 50.00 open" in said and "2: " in said, said)
    stand.same("its vendor", clerk.page.do(VALUE.format("vendor")), "642")
    clerk.page.close()
    debts(stand)
    clerk = stand.clerk("assets")
    clerk.page.do("location.hash = '#open/asset'; true")
    clerk.page.until("Boolean(document.querySelector('#open-table button'))")
    number = clerk.page.do("document.querySelector('#open-table button').click(), document.getElementById('form').elements.asset.value")
    stand.holds("a disposal from Open", clerk.page.do(VALUE.format("what")) == "dispose" and number, number)
    clerk.page.close()


def debts(stand):
    """A bond gives the accounts of its last payment, and the sum that is due."""
    bond = stand.ask({"call": "issue", "desk": 5, "key": "bond-slips", "on": DAY, "fund": 4, "amount": 30000, "rate_bp": 425, "every": 1, "principals": [10000, 20000]})["ok"]["bond"]
    stand.ask({"call": "collect", "desk": 5, "key": "collect-2-debts", "on": DAY, "bill": 2, "amount": 20000})
    stand.ask({"call": "pay_due", "desk": 5, "key": "debt-slips-1", "on": "2025-09-12", "bond": bond, "fund": 5, "dept": 11, "principal": 811, "interest": 821})
    stand.make_lists()
    clerk = stand.clerk("treasury")
    clerk.fill({"call": "pay_due", "on": DAY, "bond": bond})
    said = clerk.page.until("/of 200.70 .200.00 of principal and 0.70 of interest/.test(document.getElementById('form').textContent) && "
                            "['fund', 'dept', 'principal', 'interest'].map(name => document.getElementById('form').elements.namedItem(name).value).join()")
    stand.same("a bond's accounts, and the sum that is due", said, "5,11,811,821")
    clerk.page.close()
