"""Random charts and talks with what the independent office answers: talks.py SEED CALLS FOLDER writes chart.toml, talk.jsonl,
talk.replies and statements. A seed gives the same talk each time; most calls are near what is allowed, some are far from it."""
import datetime
import json
import os
import random
import sys

from calls import ROLES, Office, text_of
from state import Refused
from statements import COMMAND_TITLES, GRANTS, TITLES

WEIGHTS = dict(
    adopt=4, amend=2, transfer=2, requisition=5, withdraw=2, order=6, change_order=4, cancel_order=1, voucher=14, void_voucher=4,
    pay=5, bill=3, collect=3, receive=5, write_off=1, asset=6, issue=2, pay_due=6, leave=5, interfund=3, close=3, lease=2,
)
# How fast a talk closes months: those without debt get through several fiscal years.
PACES = (
    {}, dict(close=4, issue=0, lease=0, adopt=6), dict(close=7, issue=0, lease=0, adopt=9, order=9),
    dict(close=8, issue=1, pay_due=14, adopt=6), dict(close=8, issue=0, lease=1, pay_due=14, adopt=9),
)
DOCUMENTS = ("requisition", "order", "voucher", "bill", "asset", "bond")
LOOKS = DOCUMENTS + ("line", "leave", "account", "reconcile", "report")
TYPES = ("special_revenue", "capital_projects", "debt_service", "permanent")  # the first three may state a balance_class
SPENT = (510, 520, 710, 715, 720)
CAPITAL = (710, 715, 720)


def random_chart(rng):
    """A chart with all kinds of objects, and with lines for most accounts, in any order."""
    more = rng.choice(["", "", ", old", ' "old"'])  # what CSV and JSON have to quote
    functions = [dict(id=n, name="Function %d%s" % (n, more)) for n in sorted(rng.sample(range(1, 64), rng.randint(1, 3)))]
    funds = [
        dict(
            id=number, name="Fund %d%s" % (number, more), type="general" if number == 1 else rng.choice(TYPES),
            level=rng.choice(["department", "class", "object"]), policy=rng.choice(["lapse", "carry"]),
        )
        for number in range(1, rng.randint(3, 5))
    ]
    departments = [
        dict(id=10 * k, name="Department %d" % k, function=rng.choice(functions)["id"]) for k in range(1, rng.randint(2, 4))
    ]
    objects = [
        {"id": 510, "name": "Supplies", "class": 5, "kind": "current"},
        {"id": 520, "name": "Services", "class": 5, "kind": "current"},
        {"id": 710, "name": "Equipment", "class": 7, "kind": "capital", "life": rng.choice([1, 2, 3, 7, 11])},
        {"id": 715, "name": "Pumps", "class": 7, "kind": "capital", "life": rng.choice([5, 36, 1200])},
        {"id": 720, "name": "Land", "class": 7, "kind": "capital", "life": 0},
        {"id": 810, "name": "Principal", "class": 8, "kind": "principal"},
        {"id": 820, "name": "Interest", "class": 8, "kind": "interest"},
    ]
    desks = [dict(id=k, name="Desk %d" % k, roles=sorted(set(ROLES.values()))) for k in (1, 2)]
    desks.append(dict(id=3, name="Desk 3", roles=rng.sample(desks[0]["roles"], 3)))
    lines = [line for fund in funds for dept in departments for line in random_lines(rng, fund["id"], fund["level"], dept["id"], objects)]
    first_year = rng.choice([2026, 2026, 2030, 1972, 2150])
    for fund in funds:
        if fund["type"] in TYPES[:3] and rng.random() < 0.5:
            fund.update(balance_class=rng.choice(["restricted", "committed", "assigned"]))
        if rng.random() < 0.7:
            fund.update(later_level=rng.choice(["department", "class", "object"]), later_year=first_year + rng.choice([1, 1, 1, 2, 3]))
            for dept in departments:
                lines += [dict(line, later=True) for line in random_lines(rng, fund["id"], fund["later_level"], dept["id"], objects)]
    rng.shuffle(lines)
    return dict(
        city="Town", first_year=first_year, first_month=rng.choice([1, 7, 10, 2, 12]),
        function=functions, fund=funds, department=departments, object=objects, source=random_sources(rng, funds, functions),
        line=lines or [dict(fund=1, dept=10)], desk=desks,
    )


def random_lines(rng, fund, level, dept, objects):
    if level == "department":
        return [dict(fund=fund, dept=dept)]
    if level == "class":
        return [{"fund": fund, "dept": dept, "class": number} for number in (5, 7, 8) if rng.random() < 0.85]
    return [dict(fund=fund, dept=dept, object=row["id"]) for row in objects if rng.random() < 0.8]


def random_sources(rng, funds, functions):
    sources = []
    for fund in funds:
        kinds = ["property_tax", "tax", "general", "charges", "operating_grant", "capital_grant"]
        for kind in rng.sample(kinds, rng.randint(1, 3)):
            source = dict(id=len(sources) + 1, name="Source %d" % len(sources), fund=fund["id"], kind=kind)
            source.update(window=rng.choice([0, 1, 30, 60]))
            if kind != "property_tax" and rng.random() < 0.2:
                source.update(window=rng.choice([61, 90, 365]))
            if kind in GRANTS:
                source.update(function=rng.choice(functions)["id"])
            sources.append(source)
    rng.shuffle(sources)
    return sources


def toml_of(chart):
    lines = ["%s = %s" % (key, json.dumps(value)) for key, value in chart.items() if not isinstance(value, list)]
    for table, rows in chart.items():
        for row in rows if isinstance(rows, list) else []:
            lines += ["", "[[%s]]" % table] + ["%s = %s" % (key, json.dumps(value)) for key, value in row.items()]
    return "\n".join(lines) + "\n"


class Talk:
    def __init__(self, seed):
        self.rng = random.Random(seed)
        self.chart = random_chart(self.rng)
        self.office = Office(self.chart)
        self.begins = self.today = datetime.date(*self.office.month_at(0), 1)
        self.most = 10**13 if self.rng.random() < 0.15 else 10**5
        self.weights = dict(WEIGHTS, **self.rng.choice(PACES))
        self.said = []

    def chance(self, part):
        return self.rng.random() < part

    def amount(self, most=10**5):
        if self.chance(0.02):
            return self.rng.choice([0, 10**13, 10**13 + 1, 2**63 - 1])
        most = max(most, self.most) if self.most > 10**5 else most
        return self.rng.choice([1, self.rng.randint(1, most), self.rng.randint(1, most), self.rng.randint(1, 1000)])

    def pick(self, table):
        return self.rng.choice(self.chart[table])["id"] if self.chance(0.98) else self.rng.choice([0, 999, 65535])

    def number(self, kind):
        count = len(getattr(self.office, kind + "s"))
        if count == 0 or self.chance(0.03):
            return self.rng.choice([0, count + 1, 2**32 - 1])
        return self.rng.randint(max(1, count - 12), count)

    def row(self, kind, number):
        rows = getattr(self.office, kind + "s")
        return rows[number - 1] if 1 <= number <= len(rows) else None

    def account(self, objects=SPENT):
        """An account that most likely has a line."""
        for _ in range(6):
            account = dict(fund=self.pick("fund"), dept=self.pick("department"))
            account["object"] = self.rng.choice(objects) if self.chance(0.97) else self.pick("object")
            try:
                self.office.account(account["fund"], account["dept"], account["object"], self.office.year_of(self.today))
                break
            except Refused:
                pass
        return account

    def items(self, count=None):
        return [dict(self.account(), amount=self.amount()) for _ in range(count or self.rng.choice([1, 1, 2, 3, 5]))]

    def year(self):
        return min(2199, max(1971, self.office.open_year() + self.rng.choice([0, 0, 0, 0, 1, 1, 2, 3, -1])))

    def day(self):
        month = self.office.month_at(self.office.closed)
        if (self.today.year, self.today.month) < month <= (2199, 12) and self.chance(0.5):
            self.today = datetime.date(*month, self.rng.randint(1, 28))
        if self.chance(0.06) and (self.today - self.begins).days < 820:
            self.today += datetime.timedelta(days=self.rng.choice([1, 3, 9, 31, 60]))
        away = self.rng.choice([0, 0, -5, -40, 2, 20, 20, 90, 400]) if self.chance(0.3) else 0
        return max(datetime.date(1970, 1, 1), min(datetime.date(2199, 12, 31), self.today + datetime.timedelta(days=away)))

    # ---- what each call says, or None where there is nothing to say yet

    def adopt(self):
        fund, year = self.pick("fund"), self.year()
        lines = self.lines_of(fund, year)
        named = self.rng.sample(lines, self.rng.randint(0, len(lines))) if self.chance(0.4) else lines
        most = max(10**6, self.most)
        estimates = [dict(source=row["id"], amount=self.amount()) for row in self.chart["source"] if row["fund"] == fund]
        lines = [dict(line=line, amount=self.rng.randint(most // 4, most)) for line in named]
        return dict(fund=fund, year=year, lines=lines, estimates=estimates)

    def lines_of(self, fund, year):
        """The lines of a fund and year; now and then those of other years too."""
        near = self.chance(0.03)
        rows = enumerate(self.chart["line"])
        return [k for k, row in rows if row["fund"] == fund and (near or self.office.is_line_of_year(k, year))]

    def amend(self):
        line, year = self.rng.randrange(len(self.chart["line"])), self.year()
        fund = self.chart["line"][line]["fund"] if self.chance(0.95) else self.pick("fund")
        line = self.rng.choice(self.lines_of(fund, year) or [line])
        return dict(fund=fund, year=year, line=line, by=self.rng.choice([1, 1, 1, -1]) * self.amount())

    def transfer(self):
        said = self.amend()
        others = [k for k in self.lines_of(said["fund"], said["year"]) if k != said["line"]]
        if others:
            to = self.rng.choice(others)
            return dict(fund=said["fund"], year=said["year"], to=to, amount=abs(said["by"]), **{"from": said["line"]})

    def requisition(self):
        return dict(items=self.items())

    def withdraw(self):
        return dict(requisition=self.number("requisition"))

    def order(self):
        named = dict(requisition=self.number("requisition")) if self.chance(0.4) and self.office.requisitions else {}
        return dict(vendor=self.rng.randint(0, 99), items=self.items(), **named)

    def change_order(self):
        order, item, account = self.number("order"), self.rng.randint(1, 3), self.account()
        found = self.row("order", order)
        if found and self.chance(0.9):
            item = self.rng.randint(1, len(found["items"]))
            account = dict(zip(("fund", "dept", "object"), found["items"][item - 1]["account"]))
        return dict(account, order=order, item=item, by=self.rng.choice([1, -1]) * self.amount(5000))

    def cancel_order(self):
        return dict(order=self.number("order"))

    def voucher(self):
        items = [self.charged() if self.chance(0.4) else self.items(1)[0] for _ in range(self.rng.choice([1, 1, 1, 2, 3, 6]))]
        named = [(item.get("order"), item.get("item")) for item in items if "order" in item]
        if len(set(named)) == len(named):
            back = dict(back=self.chance(0.8)) if self.chance(0.05) else {}
            return dict(vendor=self.rng.randint(0, 99), items=items, **back)

    def charged(self):
        """An item of a voucher that is charged against an order's item, where there is one."""
        number = self.number("order")
        order = self.row("order", number)
        if not order:
            return self.items(1)[0]
        place = self.rng.randint(1, len(order["items"]))
        item = order["items"][place - 1]
        left = self.office.open_of(item)
        said = dict(zip(("fund", "dept", "object"), item["account"]), order=number, item=place)
        said["amount"] = max(1, left + self.rng.choice([0, 0, -1, 5])) if self.chance(0.5) else self.amount()
        how = self.rng.random()
        if how < 0.25:
            said["recorded"] = max(1, min(10**13, self.rng.choice([left, left // 2, left + 1])))
        elif how < 0.55:
            said["final"] = how < 0.5
        return said

    def void_voucher(self):
        return dict(voucher=self.number("voucher"))

    def pay(self):
        return dict(vouchers=list(dict.fromkeys(self.number("voucher") for _ in range(self.rng.choice([1, 1, 2, 4])))))

    def bill(self):
        return dict(source=self.pick("source"), levy_year=self.year(), payer=self.rng.randint(0, 9), amount=self.amount())

    def collect(self):
        return dict(bill=self.number("bill"), amount=self.amount(20000))

    write_off = collect

    def receive(self):
        return dict(source=self.pick("source"), amount=self.amount(10**6))

    def asset(self):
        if self.chance(0.5):
            kind = self.rng.choice([*CAPITAL, 720, 510])
            return dict(what="donate", dept=self.pick("department"), object=kind, amount=self.amount())
        proceeds = self.rng.choice([0, self.amount(), self.amount(1000)])
        return dict(what="dispose", asset=self.number("asset"), fund=self.pick("fund"), proceeds=proceeds)

    def issue(self):
        terms = self.terms(self.rng.choice([1, 1, 2, 3, 4, 6, 12]), self.rng.choice([1, 2, 5, 120, self.rng.randint(1, 20)]))
        return terms and dict(terms, fund=self.pick("fund"))

    def lease(self):
        every = self.rng.choice([1, 2, 3, 4, 6, 12, 12])
        shortest = 12 // every + 1
        count = shortest + self.rng.choice([-1, 0, 0, 1, 2, 11]) if self.chance(0.8) else self.rng.randint(1, 120)
        terms = self.terms(every, count)
        return terms and dict(terms, vendor=self.rng.randint(0, 99), **self.account(CAPITAL if self.chance(0.97) else SPENT))

    def terms(self, every, count):
        """The day, the amount, the rate and the payments of a debt; now and then with one fault against the rules of form."""
        day = self.day()
        day = day.replace(day=self.rng.choice([1, 28, min(day.day, 28)]))
        count = min(count, (12 * 2199 + 12 - 12 * day.year - day.month) // every)
        if count < 1:
            return None
        amount = self.rng.randint(1, self.most) if self.chance(0.6) else self.rng.choice([count, 1, 100000])
        cuts = [0] + sorted(self.rng.randint(0, amount) for _ in range(count - 1)) + [amount]
        rate = self.rng.choice([0, 1, 300, 475, 10000, self.rng.randint(0, 10000)])
        said = dict(on=str(day), amount=amount, rate_bp=rate, every=every, principals=[b - a for a, b in zip(cuts, cuts[1:])])
        if self.chance(0.05):
            wrong = dict(on=str(day.replace(day=29, month=1)), rate_bp=10001, every=5, amount=amount + 1, principals=[])
            said.update([self.rng.choice(list(wrong.items()))])
        return said

    def pay_due(self):
        account, number = self.account((810,)), self.number("bond")
        said = dict(bond=number, fund=account["fund"], dept=account["dept"])
        said.update(principal=810 if self.chance(0.96) else 820, interest=820 if self.chance(0.96) else 510)
        bond = self.row("bond", number)
        if bond and bond["paid"] < len(bond["principals"]) and self.chance(0.4):
            due = datetime.date.fromisoformat(self.office.due(bond, bond["paid"] + 1)[1])
            if abs((due - self.today).days) < 200:
                said["on"] = str(due + datetime.timedelta(days=self.rng.choice([0, 0, -1, 1])))
        return said

    def leave(self):
        account, what = self.account((510, 520)), self.rng.choice(["earn", "earn", "use", "mature"])
        if what != "mature":
            del account["object"]
        return dict(account, what=what, amount=self.amount(20000))

    def interfund(self):
        giver, taker = self.pick("fund"), self.pick("fund")
        if giver != taker:
            what = self.rng.choice(["transfer", "loan", "repay"])
            return dict(what=what, to=taker, amount=self.amount(50000), **{"from": giver})

    def close(self):
        """The next month, or the open year once its months are closed; now and then another one."""
        ahead = self.office.closed // 12 - self.office.closed_years
        if self.chance(0.25 if ahead > 0 else 0.05):
            return dict(what="year", year=min(2199, max(1971, self.office.open_year() + self.rng.choice([0, 0, 0, 0, 1, -1]))))
        month = self.office.month_at(self.office.closed + (0 if self.chance(0.9) else self.rng.choice([-1, 1, 2, 12, 30])))
        if 1970 <= month[0] <= 2199:
            return dict(what="month", month="%04d-%02d" % month)

    # ---- the talk

    def change(self, kind):
        said = getattr(self, kind)()
        if said is None:
            return None
        desk = self.rng.choice([1, 1, 1, 2, 2, 2, 3] if self.chance(0.4) else [1, 2]) if self.chance(0.98) else 77
        call = dict(call=kind, desk=desk, key="k%d" % len(self.said), on=str(self.day()))
        call.update(said)
        return self.seen(call)

    def seen(self, call):
        if self.chance(0.05):
            call["after"] = self.rng.choice([0, len(self.office.entries), len(self.office.entries) + 1])
        return call

    def again(self):
        call = dict(self.rng.choice(self.said))
        if self.chance(0.4) and "amount" in call:
            call["amount"] += 1
        return call

    def look(self):
        kind = self.rng.choice(LOOKS)
        if kind in DOCUMENTS:
            return self.seen({"call": kind, kind: self.number(kind)})
        if kind == "line":
            return self.seen(dict(call=kind, line=self.rng.randrange(len(self.chart["line"]) + 1), year=self.year()))
        if kind == "leave":
            return self.seen(dict(call=kind, fund=self.pick("fund"), dept=self.pick("department")))
        if kind == "reconcile":
            return self.seen(dict(call=kind, year=self.year()))
        if kind == "report":
            return self.seen(dict(call=kind, year=self.year(), kind=self.rng.choice(list(TITLES))))
        basis = self.rng.choice(["fund", "gov"])
        posts = self.office.posts[basis] or [(self.year(), 1, 100000, 0)]
        year, fund, account, _ = self.rng.choice(posts)
        year = min(2199, max(1971, year + self.rng.choice([0, 0, 1, -1])))
        return self.seen(dict(call=kind, basis=basis, year=year, fund=fund, account=account))

    def next(self, count):
        if count < 9:
            return self.change("adopt" if count < 6 else "receive")
        if self.chance(0.35):
            return self.look()
        if self.said and self.chance(0.04):
            return self.again()
        return self.change(self.rng.choices(list(self.weights), list(self.weights.values()))[0])

    def lines(self, calls):
        for count in range(calls):
            call = self.next(count)
            if call:
                if "desk" in call:
                    self.said.append(call)
                yield call, text_of(self.office.answer(call))


def write_talk(folder, office, lines):
    """Writes a talk, each call with its reply, its chart, and the statements of some years at its end: tests/gate/agree.sh reads them."""
    os.makedirs(folder)
    with open(folder + "/chart.toml", "w") as file:
        file.write(toml_of(office.chart))
    with open(folder + "/talk.jsonl", "w") as talked, open(folder + "/talk.replies", "w") as replies:
        for call, reply in lines:
            print(json.dumps(call, separators=(",", ":")), file=talked)
            print(reply, file=replies)
    for year in {office.chart["first_year"], min(2199, office.open_year())}:
        for kind in COMMAND_TITLES:
            with open("%s/%d-%s.txt" % (folder, year, kind), "w") as text, open("%s/%d-%s.csv" % (folder, year, kind), "w") as csv:
                text.write(office.text(year, kind))
                csv.write(office.csv(year, kind))


def main(seed, calls, folder):
    talk = Talk(int(seed))
    write_talk(folder, talk.office, talk.lines(int(calls)))


if __name__ == "__main__":
    main(*sys.argv[1:])
