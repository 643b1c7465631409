"""The line of each account by the chart; and each refusal and each form reply in words: what happened, why, and what to do, without a word of the program's own, and without a number to look up."""
import glob
import itertools
import json
import os
import re
import sys
import tomllib

TOP = os.path.join(os.path.dirname(os.path.abspath(__file__)), "..", "..")
sys.path.insert(0, os.path.join(TOP, "tests", "office"))
from calls import Office

# What no stored talk comes to.
MORE = [("voucher", {"no": {"code": 5, "name": "HistoryFull"}}), ("adopt", {"form": "long"}), ("adopt", {"memory": True}), ("adopt", {"disk": True})]
SAY = """(async (chart, pairs) => {
    const [{Words}, {Chart}, tables] = await Promise.all([import('/desk/words.js'), import('/desk/chart.js'), fetch('/desk/tables.json').then(answer => answer.json())]);
    const words = new Words(tables, new Chart(chart), {state: {next: '2025-08'}, document: () => undefined, entry: place => ({call: 'order', key: 'po-1', day: '2025-07-01'})});
    return pairs.map(([call, reply]) => words.of(reply, call));
})(%s, %s)"""
# Words of the program that no clerk knows: names of refusals, fields and words in marks, pages of docs.
STRANGE = re.compile(r"undefined|null|NaN|`|docs/|\[object|[a-z]_[a-z]|[a-z][A-Z]|\{|\}")


def chart_of(name):
    tables = ("function", "fund", "department", "object", "source", "line", "desk")
    with open(os.path.join(TOP, "examples", name, "chart.toml"), "rb") as file:
        return {**{table: [] for table in tables}, **tomllib.load(file)}


def replies():
    """One of each kind of refusal and form reply of the stored talks, with its call and its city."""
    found = {}
    for talk in sorted(glob.glob(os.path.join(TOP, "examples/**/*.jsonl"), recursive=True)):
        city = os.path.basename(os.path.dirname(talk))
        city = city if os.path.exists(os.path.join(TOP, "examples", city, "chart.toml")) else "rivertown"
        with open(talk, "rb") as lines, open(talk.removesuffix(".jsonl") + ".replies", "rb") as answers:
            for line, answer in zip(lines, answers):
                reply = json.loads(answer)
                try:
                    call = json.loads(line)["call"]
                except (ValueError, TypeError, KeyError):
                    call = "voucher"
                if no := reply.get("no"):
                    found.setdefault((no["name"], no.get("kind"), no.get("state"), call == "void_voucher"), (city, call, reply))
                elif "form" in reply:
                    found.setdefault((reply["form"], reply.get("name")), (city, call, reply))
    return [*found.values(), *(("rivertown", call, reply) for call, reply in MORE)]


LINES = """(async (chart, accounts) => {
    const {Chart} = await import('/desk/chart.js'), its = new Chart(chart);
    return accounts.map(([fund, dept, object, year]) => its.lineOf(BigInt(fund), String(dept), object, year) ?? null);
})(%s, %s)"""


def lines(stand, clerk, city):
    """The control line of each account, in the years before and after a change of level, as the independent office has it."""
    chart = chart_of(city)
    office = Office(chart)
    ids = {table: [row["id"] for row in chart[table]] for table in ("fund", "department", "object")}
    years = range(chart["first_year"], chart["first_year"] + 3)
    accounts = list(itertools.product(ids["fund"], ids["department"], ids["object"], years))
    wanted = [office.line_of(*account) for account in accounts]
    stand.same(f"the lines of the accounts of {city}", clerk.page.do(LINES % (json.dumps(chart), json.dumps(accounts))), wanted)


def run(stand):
    clerk = stand.clerk("auditor")
    for city in ("rivertown", "milltown", "fairview", "hilltown", "harborview"):
        lines(stand, clerk, city)
    said = []
    for city in ("rivertown", "milltown", "fairview", "hilltown", "harborview"):
        pairs = [(call, reply) for each, call, reply in replies() if each == city]
        if pairs:
            said += zip(pairs, clerk.page.do(SAY % (json.dumps(chart_of(city)), json.dumps(pairs))))
    for (call, reply), words in said:
        whole = words["text"] + " " + words["todo"]
        stand.holds(f"in words: {json.dumps(reply)}", len(words["text"]) > 20 and words["todo"] and not STRANGE.search(whole), whole)
        if os.environ.get("SAY_WORDS"):
            print(f"{call}: {json.dumps(reply)}\n    {words['text']}\n    {words['todo']}")
    codes = {reply["no"]["code"] for (_, reply), _ in said if "no" in reply}
    stand.same("each of the refusals", sorted(codes), list(range(1, 26)))
    stand.same("each form reply", sorted({reply["form"] for (_, reply), _ in said if "form" in reply}), ["call", "fields", "json", "long"])
    clerk.page.close()
