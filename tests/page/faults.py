"""What goes wrong at a desk: amounts that are none, lines without room, answers that are lost, pages that are closed, two pages at once, the
program killed, another user in the same browser. Nothing is entered twice, and nothing of one user is sent as another's."""
import json

DAY = "2025-08-12"


def voucher(key, *items, vendor=620, **more):
    """An invoice with items of [fund, department, object, cents]."""
    names = ("fund", "dept", "object", "amount")
    return {"call": "voucher", "desk": 4, "key": key, "on": DAY, "vendor": vendor, **more, "items": [dict(zip(names, item)) for item in items]}


def utilities(key, cents=1000):
    return voucher(key, (1, 40, 522, cents))


def keys(stand):
    return [call["key"] for call in stand.calls()]


def run(stand):
    clerk = stand.desk(4)
    amounts(stand, clerk)
    full(stand, clerk)
    room(stand, clerk)
    lost(stand, clerk)
    clerk = closed(stand, clerk)
    both(stand, clerk)
    turns(stand)
    killed(stand, clerk)
    others(stand, clerk)


def amounts(stand, clerk):
    """What is no amount is said at its field, and nothing is sent."""
    before = stand.entries()
    for text in ("1.234,50", "12,34", "1234.5", "-5.00", "1e3", "0.00", "100,000,000,000.01", "5 0", "٣.٠٠", ""):
        clerk.fill(utilities("no-amount"))
        clerk.page.do(f"document.querySelector('.item [name=amount]').value = {json.dumps(text)}")
        said = clerk.send()
        where = clerk.page.do("document.activeElement.name + document.activeElement.getAttribute('aria-invalid')")
        stand.holds(f"the amount {text!r}", said.startswith("Nothing was sent.") and where == "amounttrue", [said, where])
    stand.same("nothing was entered", stand.entries(), before)
    for text, cents in (("1,234.50", 123450), ("99", 9900), ("90000000000.07", 9000000000007)):
        clerk.fill(utilities("amount"))
        clerk.page.do(f"clerk.set(document.querySelector('.item [name=vendor],[name=vendor]'), '620')")
        got = clerk.page.do(f"import('/desk/money.js').then(m => m.json({{amount: m.cents({json.dumps(text)})}}))")
        stand.same(f"the amount {text!r}", got, '{"amount":%d}' % cents)


FILL = '''(() => { for (let size = 1 << 20, n = 0; size; ) { try { localStorage.setItem('x' + n, 'y'.repeat(size)); n++; } catch { size >>= 1; } }
    return Object.keys(localStorage).length; })()'''


def full(stand, clerk):
    """A browser that has no room to write a call down: then it isn't sent."""
    before = stand.entries()
    clerk.page.do(FILL)
    said = clerk.enter(utilities("full-1"))
    stand.holds("a browser without room", said.startswith("Nothing was sent: the browser can’t keep the call") and stand.entries() == before, said)
    clerk.page.do("Object.keys(localStorage).filter(name => name.startsWith('x')).forEach(name => localStorage.removeItem(name))")
    said = clerk.enter(utilities("full-1"))
    stand.holds("with room again", "Taken, as entry" in said and stand.entries() == before + 1, said)


def room(stand, clerk):
    """The room of each line stands beside the form, and all lines that lack it are said at once."""
    call = voucher("short-1", (1, 10, 511, 99999999), (1, 11, 511, 100), (1, 12, 511, 99999999), (1, 13, 511, 99999999))
    clerk.fill(call)
    said = clerk.page.until("document.querySelector('#room .said')?.textContent")
    stand.holds("lines that lack room", said.startswith("3 lines lack room") and "Human Resources, Office supplies lacks" in said and "Finance" not in said, said)
    if stand.pictures:
        clerk.page.do("document.getElementById('said').replaceChildren()")
        # The picture is as high as the page was when it was drawn last.
        clerk.page.do("new Promise(go => requestAnimationFrame(() => requestAnimationFrame(() => go(true))))")
        stand.picture(clerk.page, "room", whole=True)
    before = stand.entries()
    said = clerk.send()
    why = "Refused: General Fund: Mayor and Council, Office supplies has 3,600.00 left, and this asks 999,999.99. Nothing was entered."
    stand.holds("a refusal in words", why in said and "The line lacks 996,399.99." in said and "“Transfer an appropriation”" in said, said)
    stand.same("nothing was entered", stand.entries(), before)


# Each answer to a call with this key is lost, so many times.
LOSE = """(() => { const real = window.fetch; let lost = 0; window.fetch = async (...words) => { const answer = await real(...words);
    if (words[0] === '/calls' && words[1].body.includes('"key":"%s"') && lost++ < %d) throw new TypeError('lost'); return answer; }; })()"""


def lost(stand, clerk):
    clerk.page.do(LOSE % ("lost-1", 2))
    before = stand.entries()
    said = clerk.enter(utilities("lost-1"))
    stand.holds("an answer that is lost twice", "It was taken before" in said and stand.entries() == before + 1, said)
    said = clerk.enter(utilities("lost-1"))
    stand.holds("the same call again", "It was taken before" in said and stand.entries() == before + 1, said)
    said = clerk.enter(utilities("lost-1", 1001))
    known = "has used the key before" in said and "Enter an invoice, lost-1" in said
    stand.holds("another call under its key", known and stand.entries() == before + 1, said)


# A call with this key is written down, and the page is closed before it is sent.
HANG = """(() => { const real = window.fetch; window.fetch = (...words) =>
    words[0] === '/calls' && words[1].body.includes('"key":"%s"') ? new Promise(() => {}) : real(...words); })()"""


def closed(stand, clerk):
    clerk.page.do(HANG % "closed-1")
    clerk.fill(utilities("closed-1"))
    clerk.page.do("document.getElementById('form').requestSubmit()")
    clerk.page.until("document.getElementById('waiting').textContent.includes('closed-1')")
    clerk.page.close()
    stand.holds("a call under way when its page is closed", "closed-1" not in keys(stand))
    clerk = stand.desk(4)
    stand.holds("is sent by the next one", stand.waited(lambda: keys(stand).count("closed-1") == 1))
    clerk.page.until("document.querySelector('#said')?.textContent.includes('closed-1')")
    return clerk


def both(stand, clerk):
    """Two pages of a browser, with calls under way in both."""
    second = stand.desk(4)
    for each in (clerk, second):
        each.page.do(LOSE % ("both-1", 1))
    clerk.fill(utilities("both-1"))
    second.fill(utilities("both-2"))
    for each in (clerk, second):
        each.page.do("document.getElementById('form').requestSubmit()")
    stand.holds("two pages at once", stand.waited(lambda: sorted(key for key in keys(stand) if key.startswith("both-")) == ["both-1", "both-2"]), keys(stand)[-3:])
    for each in (clerk, second):
        each.page.until("document.getElementById('waiting').hidden")
    stand.same("each call once", sorted(key for key in keys(stand) if key.startswith("both-")), ["both-1", "both-2"])
    second.page.close()


# The clock stands still, and then runs an hour behind. Calls wait until `through` lets them go.
STILL = """(() => { const now = Date.now(); Date.now = () => now - (window.back || 0);
    const real = window.fetch, open = new Promise(go => { window.through = () => go(true); });
    window.fetch = async (...words) => { if (words[0] === '/calls' && words[1].body.includes('"key":"turn-')) await open; return real(...words); }; })(); true"""
KEPT = "Object.values(localStorage).some(text => text.includes('\"key\":\"%s\"'))"


def turns(stand):
    """Calls are sent in the order of their entry, also where the clock doesn't tell it."""
    clerk = stand.desk(14)
    clerk.page.do(STILL)
    wanted = [f"turn-{place}" for place in range(8)]
    for place, key in enumerate(wanted):
        if place == 6:
            clerk.page.do("window.back = 3600 * 1000; true")
        clerk.fill(utilities(key, 100))
        clerk.page.do("document.getElementById('form').requestSubmit()")
        clerk.page.until(KEPT % key)
    clerk.page.do("window.through()")
    sent = lambda: [key for key in keys(stand) if key.startswith("turn-")]
    stand.waited(lambda: len(sent()) == len(wanted))
    stand.same("calls of one millisecond are sent in the order of their entry", sent()[:6], wanted[:6])
    stand.same("and those of a clock that was set back", sent()[6:], wanted[6:])
    clerk.view("sent", "document.querySelectorAll('#sent-table tbody tr').length >= 8")
    shown = clerk.page.do("[...document.querySelectorAll('#sent-table tbody tr')].map(row => row.children[2].textContent)")
    stand.same("the last one stands first in Sent", [key for key in shown if key.startswith("turn-")], wanted[::-1])
    clerk.page.close()


def killed(stand, clerk):
    """The program is killed with a call on its way; it starts again, and the call is taken once."""
    stand.kill()
    clerk.fill(utilities("killed-1"))
    clerk.page.do("document.getElementById('form').requestSubmit()")
    said = clerk.page.until("/sent again in/.test(document.getElementById('waiting').textContent) && document.getElementById('waiting').textContent")
    stand.holds("the program is away", "Not answered yet: killed-1 (the program isn’t there). It is sent again in" in said and "taken once only" in said, said)
    clerk.page.do("scrollTo(0, 0)")
    stand.picture(clerk.page, "waiting")
    stand.start()
    stand.holds("the program is there again", stand.waited(lambda: keys(stand).count("killed-1") == 1))
    clerk.page.until("document.querySelector('#said > div').textContent.includes('killed-1') && document.getElementById('waiting').hidden")


def posted(clerk, body, headers):
    """What the proxy answers to a page that posts by itself."""
    words = json.dumps({"method": "POST", "body": body, "headers": headers})
    return clerk.page.do(f"fetch('/calls', {words}).then(async answer => answer.status + await answer.text())")


def others(stand, clerk):
    """What waits of one user isn't another's, also at the same desk; and a page of the first one that is still open sends nothing as the second."""
    clerk.page.do(HANG % "mine-1")
    clerk.fill(utilities("mine-1"))
    clerk.page.do("document.getElementById('form').requestSubmit()")
    clerk.page.until("document.getElementById('waiting').textContent.includes('mine-1')")
    page = stand.tab("second", stand.context("payables"))
    # Nobody types the first user's password again.
    page.auth = clerk.page.auth = None
    page.go(stand.url + "/signout")
    page.until("document.body.textContent.includes('signed out')")
    page.go(stand.url + "/whoami")
    page.until("location.pathname === '/whoami'")
    stand.holds("the password is forgotten", "user" not in page.do("document.body.textContent"), page.do("document.body.textContent"))
    page.auth = ("second", "second's word")
    second = type(clerk)(page, stand.url)
    stand.same("another user at the same desk", second.text("who"), "second, desk 4 Payables A (payables)")
    second.enter(utilities("second-1"))
    second.view("sent")
    said = second.text("sent-table")
    stand.holds("sees and sends its own calls alone", "mine-1" not in keys(stand) and "mine-1" not in said and "second-1" in said, said)
    said = posted(clerk, '{"call":"voucher"}', {"Cityfund-User": "payables"})
    stand.same("a page that another user opened", said, '403{"proxy":"not this user"}')
    clerk.page.close()
    page.go(stand.url + "/signout")
    page.close()
    again = stand.clerk("payables")
    stand.holds("the first user's call is sent once he is back", stand.waited(lambda: keys(stand).count("mine-1") == 1))
    said = posted(again, '{"call":"receive","desk":5,"key":"x","on":"2025-08-12","source":1,"amount":1}', {})
    stand.same("another desk's call", said, '403{"proxy":"not your desk"}')
    again.page.close()
