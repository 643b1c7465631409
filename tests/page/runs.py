"""A payment run of 150 vouchers, its remittance list, other paper, the names of vendors, and lists that fall behind."""
import os

import looking
from slips import AHEAD, DAY, HOUR, SAID, SUBMIT, prepared

COUNT = 150
BUTTON = "[...document.querySelectorAll('#form button')].find(each => each.textContent === '{}').click()"
TICKED = "document.querySelectorAll('#form .run input:checked').length"
VENDORS = {650: "Acme <b>& Sons</b>", 651: "Ü. Olsen", 612: "Acme Paving", 620: "City Power & Light", 680: "Miller Office Supply",
           690: "Lee & Partners", 700: "Harbor Fuel", 701: "Delta Fuel", 702: "Harbor Motors", 1000: "Harborview payroll"}
NAMES = "vendor,name,address\n" + "".join(f'{number},"{name}","12 Mill Road\nHarborview"\n' for number, name in VENDORS.items())
# In pictures a name is as a city has it.
PLAIN = {"Acme <b>& Sons</b>": "Acme & Sons"}


def named(stand, text):
    for marked, plain in PLAIN.items() if stand.pictures else ():
        text = text.replace(marked, plain)
    return text


def name_vendors(stand):
    with open(os.path.join(stand.journal, "vendors.csv"), "w", encoding="utf-8") as file:
        file.write(named(stand, NAMES))


def run(stand):
    name_vendors(stand)
    for place in range(COUNT):
        stand.ask({"call": "voucher", "desk": 4, "key": f"many-{place}", "on": DAY, "vendor": 650 + place % 3,
                   "items": [{"fund": 1 + place % 2, "dept": 40 if place % 2 == 0 else 30, "object": 522 if place % 2 == 0 else 513, "amount": 1000 + place}]})
    stand.make_lists()
    many(stand)
    short(stand)
    later(stand)
    papers(stand)
    names(stand)
    behind(stand)


def many(stand):
    clerk = stand.clerk("treasury")
    page = clerk.page
    clerk.fill({"call": "pay", "on": DAY}, paper="40")
    page.until("document.querySelectorAll('#form .run tbody tr').length > 100")
    clerk.page.do("clerk.set(document.getElementById('form').elements['run-vendor'], '650')")
    page.do(BUTTON.format("Tick all shown"))
    stand.same("ticked by vendor", page.do(TICKED), COUNT // 3)
    page.do(BUTTON.format("Untick all shown"))
    page.do("clerk.set(document.getElementById('form').elements['run-vendor'], '')")
    page.do("clerk.set(document.getElementById('form').elements['run-fund'], '2')")
    page.do(BUTTON.format("Tick all shown"))
    two = page.do(TICKED)
    page.do("clerk.set(document.getElementById('form').elements['run-fund'], '')")
    stand.holds("ticked by fund, which stays", two >= COUNT // 2 and page.do(TICKED) == two, two)
    page.do("clerk.set(document.getElementById('form').elements['run-through'], '2025-08-11')")
    stand.holds("through a day", "many-0" not in clerk.text("form"))
    page.do("clerk.set(document.getElementById('form').elements['run-through'], '')")
    page.do(BUTTON.format("Tick all shown"))
    all_ = page.do(TICKED)
    said = page.until("/Street Fund/.test(document.querySelector('.run-funds').textContent) && !/not known/.test(document.querySelector('.run-funds').textContent) && "
                      "document.querySelector('.run-funds').textContent + document.querySelector('.run-funds + .total').textContent")
    cash = stand.ask({"call": "account", "basis": "fund", "year": 2026, "fund": 2, "account": 100000})["is"]["balance"]
    stand.holds("the cash of each fund", f"{int(cash) // 100:,}.{int(cash) % 100:02}" in said and f"{all_} ticked" in said and "calls of at most 64" in said, said)
    stand.picture(page, "run")
    page.size(390, 844, True)
    wide = "[...document.querySelectorAll('#form .scroll')].filter(node => node.scrollWidth > node.clientWidth + 1).length"
    stand.same("a run on a phone needs no scrolling sideways", page.do(wide), 0)
    page.send("Emulation.clearDeviceMetricsOverride")
    before = stand.entries()
    page.do(SUBMIT)
    said = page.until(SAID)
    stand.holds("a run in a sentence", said.startswith("Pay ") and f"{all_} vouchers" in said and "run-40-1 to run-40-3" in said, said)
    stand.picture(page, "sentence")
    page.do("clerk.confirm()")
    stand.holds("three calls", stand.waited(lambda: stand.entries() == before + 3), stand.entries() - before)
    calls = [call for call in stand.calls() if call["key"].startswith("run-40")]
    stand.same("the keys of a family", [call["key"] for call in calls], ["run-40-1", "run-40-2", "run-40-3"])
    stand.same("of at most 64", [len(call["vouchers"]) for call in calls], [64, 64, all_ - 128])
    page.until("document.querySelectorAll('#said > div').length >= 3 && document.getElementById('form').elements.paper.value === ''")
    said = clerk.text("said")
    stand.holds("each is answered", said.count("Taken, as entry") == 3, said)
    place = stand.entries()
    way = page.do("document.querySelector('#said a').getAttribute('href')")
    stand.same("one remittance list of the run", way, f"#paper/run/{place - 2}+{place - 1}+{place}")
    paper = "/Total/.test(document.getElementById('paper-sheet').textContent) && document.getElementById('paper-sheet').textContent"
    page.do("document.querySelector('#said a').click()")
    early = page.until(paper)
    page.close()
    stand.make_lists()
    clerk = stand.clerk("treasury")
    clerk.page.do(f"location.hash = '#paper/run/{place}'; true")
    said = clerk.page.until(paper)
    one = f"{all_ - 128} voucher" in said and "run-40-3" in said and "run-40-2" not in said
    stand.holds("a remittance list of one call", one, said[:300])
    clerk.page.do("document.getElementById('paper-sheet').replaceChildren(); true")
    clerk.page.do(f"location.hash = '{way}'; true")
    said = clerk.page.until(paper)
    whole = "run-40-1, run-40-2, run-40-3" in said and f"{all_} vouchers" in said and named(stand, "650 Acme <b>& Sons</b>") in said
    stand.holds("a remittance list of a run", whole, said[:300])
    stand.same("it is the same before the lists have the payment", early, said)
    stand.picture(clerk.page, "remittance")
    for scheme in ("light", "dark"):
        clerk.page.media(prefers_color_scheme=scheme)
        clerk.page.size(390, 844, True)
        stand.same(f"contrast of paper: {scheme}", clerk.page.do(looking.CONTRAST), [])
        stand.holds(f"paper on a phone: {scheme}", clerk.page.do("document.documentElement.scrollWidth") <= 390)
    clerk.page.send("Emulation.clearDeviceMetricsOverride")
    clerk.page.media(media="print")
    stand.same("without buttons on paper", clerk.page.do("[...document.querySelectorAll('form, button, nav')].filter(node => node.getClientRects().length).length"), 0)
    clerk.page.media()
    clerk.page.close()


def short(stand):
    """What is refused is named with its voucher, and stays ticked."""
    made = [stand.ask({"call": "voucher", "desk": 4, "key": f"late-{place}", "on": DAY, "vendor": 651,
                       "items": [{"fund": 1, "dept": 40, "object": 522, "amount": 1000}]})["ok"]["voucher"] for place in range(3)]
    stand.make_lists()
    clerk = stand.clerk("treasury")
    clerk.fill({"call": "pay", "on": DAY, "vouchers": made}, paper="41")
    stand.ask({"call": "void_voucher", "desk": 4, "key": "void-late", "on": DAY, "voucher": made[1]})
    said = clerk.send()
    meant = f"The voucher is: {made[1]} (late-1, vendor 651 Ü. Olsen, 10.00)" in said and "None of this call was paid" in said
    stand.holds("a refused payment names its voucher", meant, said)
    stand.same("its vouchers stay ticked", clerk.page.do(TICKED), 3)
    stand.ask({"call": "pay", "desk": 15, "key": "run-late", "on": DAY, "vouchers": [made[0], made[2]]})
    clerk.page.close()


# A run's calls come through only after so many milliseconds.
HOLD = """(() => { const real = window.fetch; window.fetch = async (...words) => {
    if (words[0] === '/calls' && words[1].body.includes('"key":"run-')) await new Promise(go => setTimeout(go, %d));
    return real(...words); }; })()"""


def later(stand):
    """Vouchers that a run has paid aren't ticked any more, wherever the clerk is when the answers
    come, and before the lists are made anew.
    """
    clerk = stand.clerk("treasury")
    page = clerk.page
    sent(stand, clerk, "50", 1500)
    clerk.choose("call", "collect")
    page.until("document.querySelectorAll('#said > div').length >= 2")
    clerk.choose("call", "pay")
    unticked(stand, clerk, "another form")
    for paper, address in (("51", "#enter/collect"), ("52", "#enter/pay"), ("53", "#lines")):
        before = stand.entries() + LATER
        sent(stand, clerk, paper, 600000)
        page.go(f"{stand.url}/desk/?{paper}{address}")
        clerk.begin()
        stand.holds(f"a run is paid after a reload at {address}", stand.waited(lambda: stand.entries() == before + 2), stand.entries() - before)
        page.until("document.getElementById('waiting').hidden")
        if address == "#lines":
            clerk.view("enter")
        if address != "#enter/pay":
            clerk.choose("call", "pay")
        unticked(stand, clerk, f"a reload at {address}")
        page.go(f"{stand.url}/desk/?again{paper}#enter/pay")
        clerk.begin()
        unticked(stand, clerk, f"a reload at {address}, and another one")
    page.close()


LATER = 66  # vouchers, which are two calls


def sent(stand, clerk, paper, held):
    """Sends a run of vouchers of their own, and holds its calls."""
    for place in range(LATER):
        stand.ask({"call": "voucher", "desk": 4, "key": f"later-{paper}-{place}", "on": DAY, "vendor": 652,
                   "items": [{"fund": 1, "dept": 40, "object": 522, "amount": 100}]})
    stand.make_lists()
    clerk.page.do("dispatchEvent(new Event('focus')); true")
    clerk.fill({"call": "pay", "on": DAY}, paper=paper)
    clerk.page.until(f"/later-{paper}-65/.test(document.querySelector('#form .run').textContent)")
    clerk.page.do("clerk.set(document.getElementById('form').elements['run-vendor'], '652')")
    clerk.page.do(BUTTON.format("Tick all shown"))
    stand.same(f"ticked: run {paper}", clerk.page.do(TICKED), LATER)
    clerk.page.do(HOLD % held)
    clerk.page.do(SUBMIT)
    clerk.page.until(SAID)
    clerk.page.do("clerk.confirm()")
    clerk.page.until(f"document.getElementById('waiting').textContent.includes('run-{paper}-1')")


def unticked(stand, clerk, when):
    """The form of a run is a new one, and lists nothing that was paid."""
    form = "document.getElementById('form')"
    clerk.page.until(f"{form}.elements.paper")
    said = clerk.page.do(f"[{TICKED}, {form}.elements.paper.value, {form}.querySelector('.run-funds + .total').textContent]")
    stand.same(f"nothing is ticked after {when}", said, [0, "", ""])
    stand.holds(f"nothing that was paid is listed after {when}", "later-" not in clerk.text("form"), clerk.text("form")[:300])


def papers(stand):
    order = stand.ask({"call": "order", "desk": 3, "key": "po-paper", "on": DAY, "vendor": 650,
                       "items": [{"fund": 1, "dept": 13, "object": 511, "amount": 5000}]})["ok"]["order"]
    place = stand.ask({"call": "collect", "desk": 5, "key": "collect-2-paper", "on": DAY, "bill": 2, "amount": 4321})["at"]
    stand.make_lists()
    clerk = stand.clerk("auditor")
    wanted = {f"order/{order}": ("purchase order", "po-paper", named(stand, "Acme <b>& Sons</b> (vendor 650)"), "12 Mill Road", "50.00"),
              f"receipt/{place}": ("receipt", "collect-2-paper", "43.21", "payer 5000", "Debt levy")}
    for address, words in wanted.items():
        clerk.page.do(f"location.hash = '#paper/{address}'; true")
        said = clerk.page.until(f"/{words[0]}/.test(document.getElementById('paper-sheet').textContent) && document.getElementById('paper-sheet').textContent")
        stand.holds(f"paper: {words[0]}", all(word in said for word in words), said)
    clerk.page.close()


def names(stand):
    """A list of vendors with a fault leaves the old names."""
    path = os.path.join(stand.journal, "vendors.csv")
    faults = {"vendor,name\n650,A\n650,B\n": "row 3, column 1 (vendor): vendor 650 stands in row 2 already",
              "name\nA\n": "row 1, column 1 (vendor): the columns are to be vendor,name",
              "vendor,name\n-1,A\n": "row 2, column 1 (vendor): '-1' is no number", "vendor,name\n7,\n": "row 2, column 2 (name): a name has 1 to 80",
              "vendor,name\n7\n": "row 2, column 2 (name): the row has 1 columns, and 2 are named",
              'vendor,name,address\n7,"A","b\nc"\n8,B,"c" d\n': "row 3, column 3 (address): it isn't comma-separated values",
              "vendor,name\n7,A\n8,\udcfc\n": "row 3, column 2 (name): it isn't UTF-8"}
    clerk = stand.clerk("auditor")
    for text, wanted in faults.items():
        with open(path, "w", encoding="utf-8", errors="surrogateescape") as file:
            file.write(text)
        stand.make_lists()
        clerk.page.do("document.getElementById('skipped').textContent = ''; dispatchEvent(new Event('focus')); true")
        said = clerk.page.until("document.getElementById('skipped').textContent")
        stand.holds(f"vendors: {wanted}", wanted in said and "The names that were read before stay" in said, said)
        kept = clerk.page.do("fetch('/desk/data/vendors.json').then(answer => answer.json()).then(found => found.vendors.length)")
        stand.same("the old names stay", kept, len(VENDORS))
    name_vendors(stand)
    stand.make_lists()
    clerk.page.close()


def behind(stand):
    """Where answers are three minutes ahead of the lists it is said."""
    clerk = stand.clerk("treasury")
    clerk.enter({"call": "receive", "key": "deposit-behind", "on": DAY, "source": 4, "amount": 100})
    hidden = "document.getElementById('behind').hidden"
    clerk.page.do(AHEAD.format(0))
    stand.holds("not at once", clerk.page.do(hidden))
    stand.waited(lambda: False, 2)
    clerk.page.do(AHEAD.format(HOUR // 20))
    said = clerk.page.until("document.getElementById('behind').textContent")
    stand.holds("lists that are behind", f"and the books have {stand.entries()}" in said, said)
    stand.make_lists()
    clerk.page.do(AHEAD.format(0))
    stand.holds("no more once they are there", clerk.page.until(hidden))
    clerk.page.close()
