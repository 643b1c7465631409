"""The first month of a town, entered by its clerks through the page's forms, then a call of each other kind; and compared with the journal."""
import itertools
import json
import os

HERE = os.path.dirname(os.path.abspath(__file__))


def talk(name):
    with open(os.path.join(HERE, name)) as file:
        return [json.loads(line) for line in file]


def send(stand):
    """The same month, sent to a door."""
    for call in talk("july.jsonl"):
        stand.ask(call)
    stand.make_lists()


def run(stand):
    stand.make_lists()
    wanted, refused = entered(stand, talk("july.jsonl"))
    stand.same("the entries of a town's first month", stand.calls(), wanted)
    adopted = len(refused) == 1 and "budget of the year was adopted before: entry" in refused[0] and "Adopt a budget, fy26-fund5" in refused[0]
    stand.holds("what of it was refused", adopted, refused)
    keys(stand)
    more, refused = entered(stand, talk("rest.jsonl"))
    stand.same("a call of each other kind", stand.calls()[len(wanted):], more)
    both = len(refused) == 2 and "taxes of the year can come in until" in refused[0] and "only 600.00 is left" in refused[1]
    stand.holds("two of them were refused", both, refused)
    stand.same("calls of each kind", len({call["call"] for call in wanted + more}), 22)
    stand.make_lists()


def entered(stand, calls):
    """The calls that were taken, and what was said of those that weren't. Each desk's clerk has a page of his own."""
    taken, refused, clerks = [], [], {}
    for desk, own in itertools.groupby(calls, key=lambda call: call["desk"]):
        own = list(own)
        if desk not in clerks:
            stand.make_lists()
            clerks[desk] = stand.desk(desk)
        elif any("order" in item for call in own for item in call.get("items", ())) or own[0]["call"] == "pay":
            # Orders and vouchers are chosen from the lists.
            stand.make_lists()
            clerks[desk].page.go(stand.url + "/desk/?" + own[0]["key"])
            clerks[desk].begin()
        for call in own:
            said = clerks[desk].enter(call)
            if "Taken, as entry" in said:
                taken.append(call)
            elif "taken before" not in said:
                refused.append(said)
    for clerk in clerks.values():
        clerk.page.close()
    return taken, refused


def keys(stand):
    """What the forms make of what the clerk has."""
    clerk = stand.desk(4)
    stand.same("who is there", clerk.text("who"), "payables, desk 4 Payables A (payables)")
    offered = clerk.page.do("[...document.getElementById('call').options].map(o => o.value).join()")
    stand.same("the calls of the desk alone", offered, "voucher,void_voucher")
    clerk.fill({"call": "voucher", "on": "2025-08-12", "vendor": 612, "items": []}, paper="A 20417")
    stand.same("a key", clerk.page.do("document.getElementById('form').elements.key.value"), "inv-612-A-20417")
    clerk.page.do("clerk.set(document.querySelector('.item [name=fund]'), '1')")
    options = "[...document.querySelectorAll('.item [name={}] option')].map(o => o.value).filter(Boolean).join()"
    stand.same("departments with a line of the fund", clerk.page.do(options.format("dept")), "10,11,12,13,20,21,31,40,41,50")
    clerk.page.do("clerk.set(document.querySelector('.item [name=dept]'), '13')")
    stand.same("objects with a line", clerk.page.do(options.format("object")), "501,503,511,521")
    clerk.page.close()
