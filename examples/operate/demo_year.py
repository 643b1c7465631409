"""A year of Harborview for `demo`, sent to a door: budgets, orders, wages, invoices, payments, levies, collections and closes of each month
until today. The first fiscal year is that of the day three months ago, so there is always a year, or most of one, to look at.
"""
import datetime
import http.client
import json

TODAY = datetime.date.today()
FIRST = 7  # the month that a fiscal year begins with
VENDORS = {1000: "Harborview payroll", 612: "Acme Paving", 700: "Ford Motors of Harborview", 705: "Delta Fuel", 710: "City Power & Light",
           715: "Miller Office Supply", 720: "North Insurance", 725: "Bright Software", 730: "Lee & Partners, Engineers", 735: "Granite Road Works"}
# By line of the General Fund: cents a year, as department and object.
WAGES = {10: 180_000, 11: 620_000, 12: 240_000, 13: 160_000, 20: 4_200_000, 21: 3_300_000, 31: 380_000, 40: 720_000, 41: 540_000, 50: 410_000}
SUPPLIES = {dept: wages // 50 for dept, wages in WAGES.items()}
OTHER = {(20, 502): 300_000, (21, 502): 250_000, (20, 504): 50_000, (11, 504): 10_000, (20, 512): 180_000, (31, 512): 90_000, (40, 522): 140_000,
         (41, 522): 90_000, (11, 524): 480_000, (11, 525): 160_000, (20, 711): 240_000, (11, 716): 60_000, (21, 712): 150_000}
# Fund, the lines in the order of the chart by department (and class), and what they have; estimates by source.
FUNDS = {2: {(30, None): 2_600_000, (31, None): 300_000, (32, None): 420_000}, 3: {(20, 3): 180_000, (20, 7): 120_000, (50, 3): 350_000},
         4: {(30, None): 4_500_000, (40, None): 3_000_000, (41, None): 200_000}, 5: {(11, 811): 500_000, (11, 821): 300_000}}
ESTIMATES = {1: {1: 11_500_000, 2: 5_200_000, 3: 380_000, 4: 210_000, 5: 40_000}, 2: {8: 1_900_000, 9: 900_000}, 3: {11: 300_000, 12: 350_000},
             4: {13: 600_000}, 5: {15: 820_000}}
MONTHLY = {2: 430_000, 3: 31_000, 4: 17_000, 5: 3_300, 8: 155_000, 9: 75_000}


class Refused(Exception):
    """A call that wasn't taken."""


def year_of(day):
    return day.year + (day.month >= FIRST)


def first_year(today):
    """The fiscal year of the day three months ago."""
    month = today.year * 12 + today.month - 1 - 3
    return year_of(datetime.date(month // 12, month % 12 + 1, 1))


def vendors():
    rows = [f'{number},"{name}","{100 + number % 90} Main Street\nHarborview"\n' for number, name in VENDORS.items()]
    return "vendor,name,address\n" + "".join(rows)


class Year:
    def __init__(self, port, today):
        self.link, self.today, self.count = http.client.HTTPConnection("127.0.0.1", port, timeout=120), today, 0
        self.owed, self.bills, self.bond, self.since = [], {}, None, ""

    def send(self, call):
        self.link.request("POST", "/calls", json.dumps(call), {"Content-Type": "application/json"})
        reply = json.loads(self.link.getresponse().read())
        if "ok" not in reply:
            raise Refused(f"the door refused a call of the year: {json.dumps(call)[:300]}: {json.dumps(reply)}")
        self.count += 1
        return reply["ok"]

    def enter(self, on, call, desk, key, **fields):
        """A call that is dated, unless its day is still to come; what it drew."""
        return self.send({"call": call, "desk": desk, "key": key, "on": on.isoformat(), **fields}) if on <= self.today else None

    # ---- budgets

    def adopt(self, year, on):
        lines = {1: {(dept, 501): amount for dept, amount in WAGES.items()}}
        lines[1].update({(dept, 503): amount * 35 // 100 for dept, amount in WAGES.items()})
        lines[1].update({(dept, 511): amount for dept, amount in SUPPLIES.items()})
        lines[1].update({(dept, 521): amount * 5 // 2 for dept, amount in SUPPLIES.items()})
        lines[1].update(OTHER)
        for fund, own in {**lines, **FUNDS}.items():
            self.enter(on, "adopt", 1, f"fy{year}-fund{fund}", fund=fund, year=year,
                       lines=[{"line": LINES[fund, *account], "amount": amount * 100} for account, amount in own.items()],
                       estimates=[{"source": source, "amount": amount * 100} for source, amount in ESTIMATES[fund].items()])

    def open_year(self, on):
        """What the city had before: cash, a building and a bridge; and a bond, which is paid each quarter."""
        self.since = on.strftime("%Y-%m")
        for source, amount in ((7, 4_100_000), (10, 850_000), (14, 1_900_000)):
            self.enter(on, "receive", 5, f"opening-{source}", source=source, amount=amount * 100)
        drawn = self.enter(on.replace(day=20), "issue", 5, "bond-harbor", fund=4, amount=200_000_000, rate_bp=425, every=3, principals=[10_000_000] * 20)
        self.bond = drawn and drawn["bond"]
        self.enter(on, "asset", 7, "asset-city-hall", what="donate", dept=40, object=713, amount=1_240_000_000)
        self.enter(on, "asset", 7, "asset-harbor-bridge", what="donate", dept=30, object=714, amount=3_600_000_000)

    # ---- a month

    def month(self, first):
        tag, year = first.strftime("%Y-%m"), year_of(first)
        if first.month == FIRST:
            self.levy(first, year, tag)
        self.wages(first, tag)
        self.buy(first, tag)
        self.income(first, tag)
        self.collect(first, tag)
        if first.month in (10, 1, 4, 7) and self.bond and tag != self.since:
            self.enter(first.replace(day=20), "pay_due", 5, f"debt-{self.bond}-{tag}", bond=self.bond, fund=5, dept=11, principal=811, interest=821)
        self.pay(first.replace(day=26), tag)
        after = (first.replace(day=28) + datetime.timedelta(days=4)).replace(day=1)
        self.enter(after.replace(day=11), "close", 9, f"close-{tag}", what="month", month=tag)

    def levy(self, first, year, tag):
        self.bills = {}
        for place in range(60):
            payer, amount = 5000 + place, 19_000_000 + place * 10_000
            drawn = self.enter(first.replace(day=15), "bill", 6, f"levy-{year}-{payer}", source=1, levy_year=year, payer=payer, amount=amount)
            if drawn:
                self.bills[drawn["bill"]] = [payer, amount]
        drawn = self.enter(first.replace(day=15), "bill", 6, f"debt-levy-{year}", source=15, levy_year=year, payer=5000, amount=82_000_000)
        if drawn:
            self.bills[drawn["bill"]] = [5000, 82_000_000]

    def wages(self, first, tag):
        items = [(1, dept, obj, amount * part // 1200) for dept, amount in WAGES.items() for obj, part in ((501, 100), (503, 35))]
        self.voucher(first.replace(day=24), 4, f"payroll-{tag}", 1000, items)

    def buy(self, first, tag):
        """Orders, and invoices of two payables desks, some of them on an order."""
        bought = [(705, 20, 512, 14_500), (705, 31, 512, 7_100), (710, 40, 522, 11_200), (710, 41, 522, 7_300), (715, 11, 511, 1_000),
                  (715, 20, 511, 6_900), (715, 50, 511, 640), (725, 11, 525, 12_800), (720, 11, 524, 39_500)]
        for place, (vendor, dept, obj, amount) in enumerate(bought):
            cents = amount * 100 + first.month * 731 + place * 17
            self.voucher(first.replace(day=4 + place * 2), (4, 14)[place % 2], f"inv-{vendor}-{tag}-{place + 1}", vendor, [(1, dept, obj, cents // 100)], cents)
        requisition = self.enter(first.replace(day=3), "requisition", 20, f"req-{tag}", items=items_of([(2, 30, 513, 120_000)]))
        if requisition:
            order = self.enter(first.replace(day=6), "order", 3, f"po-{tag}", vendor=735, requisition=requisition["requisition"],
                               items=items_of([(2, 30, 513, 110_000)]))
            if order:
                for part, day in ((1, 12), (2, 20)):
                    item = {**items_of([(2, 30, 513, 45_000)])[0], "order": order["order"], "item": 1}
                    self.owe(self.enter(first.replace(day=day), "voucher", 4, f"inv-735-{tag}-{part}", vendor=735, items=[item]))
        if first.month in (9, 2):
            self.enter(first.replace(day=9), "order", 3, f"po-{tag}-bridge", vendor=612, items=items_of([(4, 30, 714, 650_000), (4, 40, 713, 180_000)]))

    def voucher(self, on, desk, key, vendor, items, cents=None):
        made = items_of(items)
        if cents:
            made[0]["amount"] = cents
        self.owe(self.enter(on, "voucher", desk, key, vendor=vendor, items=made))

    def owe(self, drawn):
        if drawn:
            self.owed.append(drawn["voucher"])

    def recent(self):
        """What came in during the last days, and waits for somebody: invoices to be paid, and a request."""
        depts = list(WAGES)
        for place in range(24):
            on, dept = self.today - datetime.timedelta(days=place % 4), depts[place % len(depts)]
            vendor, cents = (715, 725, 730)[place % 3], 12_300 + place * 1_719
            self.voucher(on, (4, 14)[place % 2], f"inv-{vendor}-B{1040 + place}", vendor, [(1, dept, (511, 521)[place % 2], 0)], cents)
        self.enter(self.today, "requisition", 20, "req-signs", items=items_of([(2, 30, 513, 4_200)]))

    def income(self, first, tag):
        for source, amount in MONTHLY.items():
            self.enter(first.replace(day=18), "receive", 5, f"deposit-{tag}-{source}", source=source, amount=amount * 100 + first.month * 1_234)

    def collect(self, first, tag):
        """Most of the levy comes in August to February; a tenth stays open."""
        if first.month not in (8, 9, 10, 11, 12, 1, 2):
            return
        for bill, (_, amount) in self.bills.items():
            self.enter(first.replace(day=20), "collect", 5, f"collect-{bill}-{tag}", bill=bill, amount=amount * 13 // 100)

    def pay(self, on, tag):
        """What was entered by then, but for the last invoices, which stand open."""
        due, self.owed = (self.owed, []) if on <= self.today else ([], self.owed)
        for place in range(0, len(due), 64):
            self.enter(on, "pay", 5, f"run-{tag}-{place // 64 + 1}", vouchers=due[place:place + 64])


def items_of(items):
    """Items of fund, department, object and an amount without cents."""
    return [{"fund": fund, "dept": dept, "object": obj, "amount": amount * 100} for fund, dept, obj, amount in items]


LINES = {}


def read_lines(chart):
    for number, line in enumerate(chart["line"]):
        LINES[line["fund"], line["dept"], line.get("object", line.get("class"))] = number


def enter(port, chart, today=TODAY):
    """Enters the months until today; how many entries it made."""
    read_lines(chart)
    year, start = Year(port, today), first_year(today) - 1
    first = datetime.date(start, FIRST, 1)
    year.open_year(first)
    while first <= today:
        if first.month == FIRST:
            year.adopt(year_of(first), first)
        year.month(first)
        first = (first.replace(day=28) + datetime.timedelta(days=4)).replace(day=1)
    year.recent()
    return year.count
