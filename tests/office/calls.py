"""What each call is answered: the least broken rule, or what the call makes.

It takes calls in form only, and of issues and leases also those that break a rule of form of their own (forms.py). tests/gate/agree.sh
compares it with the program over random talks, and with the stored replies of examples/.
"""
import datetime
import json

from classes import Classes
from forms import fault_of
from rules import same
from state import Refused, unknown
from statements import TITLES

ROLES = dict(
    adopt="council", amend="council", transfer="council", requisition="dept", withdraw="dept", order="purchasing",
    change_order="purchasing", cancel_order="purchasing", voucher="payables", void_voucher="payables", pay="treasury",
    bill="revenue", collect="treasury", receive="treasury", write_off="revenue", asset="assets", issue="treasury",
    pay_due="treasury", leave="payroll", interfund="treasury", close="controller", lease="treasury",
)


class Office(Classes):
    """What each call is answered: the least broken rule, or what the call makes."""

    def answer(self, call):
        if fault := fault_of(call):
            return dict(form="fields", name=fault)
        try:
            if "desk" not in call:
                return dict(at=len(self.entries), **{"is": self.look(call)})
            place, made = self.accept(call)
            return dict(at=len(self.entries), ok=made, **({"was": place} if place else {}))
        except Refused as refused:
            return dict(at=len(self.entries), no=refused.reply())

    def seen(self, call):
        if call.get("after", 0) > len(self.entries):
            raise Refused("Ahead", after=call["after"], length=len(self.entries))

    def accept(self, call):
        desk = self.row("desk", call["desk"])
        if not desk:
            raise Refused("DeskUnknown", desk=call["desk"])
        self.seen(call)
        was = self.keys.get((call["desk"], call["key"]))
        if was and same(self.entries[was - 1][0]) == same(call):
            return was, self.entries[was - 1][1]
        if was:
            raise Refused("KeyReused", was=was)
        if ROLES[call["call"]] not in desk["roles"]:
            raise Refused("NotThisDesk", role=ROLES[call["call"]])
        self.test_amounts(call)
        named = getattr(self, "name_" + call["call"])(call)
        day = datetime.date.fromisoformat(call["on"])
        self.test_periods(call, day)
        made = getattr(self, "make_" + call["call"])(call, day, self.year_of(day), named)
        self.entries.append((call, made))
        self.keys[call["desk"], call["key"]] = len(self.entries)
        return None, made

    def year_of_call(self, call):
        return self.year_of(datetime.date.fromisoformat(call["on"]))

    # ---- the council

    def name_adopt(self, call):
        self.known_fund(call["fund"])
        for row in call["lines"]:
            self.known_line(call["fund"], row["line"], call["year"])
        for row in call["estimates"]:
            source = self.row("source", row["source"])
            if not source or source["fund"] != call["fund"]:
                raise unknown("source", row["source"])

    def make_adopt(self, call, day, year, named):
        self.test_not_closed(call["year"])
        was = self.adopted.get((call["fund"], call["year"]))
        if was:
            raise Refused("Adopted", was=was)
        self.adopted[call["fund"], call["year"]] = len(self.entries) + 1
        for row in call["lines"]:
            self.original[row["line"], call["year"]] = row["amount"]
            self.appropriate(row["line"], call["year"], row["amount"])
        for row in call["estimates"]:
            self.estimates[row["source"], call["year"]] = row["amount"]
        return {}

    def name_amend(self, call):
        self.known_fund(call["fund"])
        self.known_line(call["fund"], call["line"], call["year"])

    def make_amend(self, call, day, year, named):
        self.test_not_closed(call["year"])
        self.test_adopted(call["fund"], call["year"])
        self.test_room((call["line"], call["year"], -call["by"]))
        self.appropriate(call["line"], call["year"], call["by"])
        return {}

    def name_transfer(self, call):
        self.known_fund(call["fund"])
        self.known_line(call["fund"], call["from"], call["year"])
        self.known_line(call["fund"], call["to"], call["year"])

    def make_transfer(self, call, day, year, named):
        self.test_not_closed(call["year"])
        self.test_adopted(call["fund"], call["year"])
        self.test_room((call["from"], call["year"], call["amount"]))
        self.appropriate(call["from"], call["year"], -call["amount"])
        self.appropriate(call["to"], call["year"], call["amount"])
        return {}

    # ---- purchasing

    def name_requisition(self, call):
        year = self.year_of_call(call)
        return [self.account(i["fund"], i["dept"], i["object"], year, ("current", "capital")) for i in call["items"]]

    def make_requisition(self, call, day, year, lines):
        for item in call["items"]:
            self.test_adopted(item["fund"], year)
        items = [dict(line=line, amount=item["amount"]) for item, line in zip(call["items"], lines)]
        self.test_room(*((item["line"], year, item["amount"]) for item in items))
        self.requisitions.append(dict(state="open", year=year, desk=call["desk"], items=items))
        return dict(requisition=len(self.requisitions))

    def name_withdraw(self, call):
        return self.document("requisition", call["requisition"])

    def make_withdraw(self, call, day, year, requisition):
        if requisition["state"] != "open":
            raise Refused("DocState", kind="requisition", number=call["requisition"], state=requisition["state"])
        requisition["state"] = "withdrawn"
        return {}

    def name_order(self, call):
        requisition = self.document("requisition", call["requisition"]) if "requisition" in call else None
        return requisition, self.name_requisition(call)

    def make_order(self, call, day, year, named):
        requisition, lines = named
        for item in call["items"]:
            self.test_adopted(item["fund"], year)
        asks = [(line, year, item["amount"]) for item, line in zip(call["items"], lines)]
        if requisition:
            state = requisition["state"] if requisition["state"] != "open" else "other year"
            if requisition["state"] != "open" or requisition["year"] != year:
                raise Refused("DocState", kind="requisition", number=call["requisition"], state=state)
            if requisition["desk"] == call["desk"]:
                raise Refused("SameHand", desk=call["desk"])
            asks += [(item["line"], year, -item["amount"]) for item in requisition["items"]]
        self.test_room(*asks)
        if requisition:
            requisition["state"] = "ordered"
        items = [
            dict(
                account=(item["fund"], item["dept"], item["object"]), line=line, year=year, base=item["amount"], changes=0,
                uses=[], state="live",
            )
            for item, line in zip(call["items"], lines)
        ]
        self.orders.append(dict(vendor=call["vendor"], items=items))
        return dict(order=len(self.orders))

    def item_of(self, order, place):
        items = self.orders[order - 1]["items"]
        return items[place - 1] if 1 <= place <= len(items) else None

    def test_live(self, item, place, year=None):
        if item and self.item_state(item) != "live":
            raise Refused("DocState", kind="item", number=place, state=self.item_state(item))
        if item and year and item["year"] != year:
            raise Refused("DocState", kind="item", number=place, state="other year")

    def test_on_order(self, item, call, order, place):
        if not item or item["account"] != (call["fund"], call["dept"], call["object"]):
            raise Refused("NotOnOrder", order=order, item=place)

    def name_change_order(self, call):
        self.document("order", call["order"])
        item = self.item_of(call["order"], call["item"])
        self.account(call["fund"], call["dept"], call["object"], item["year"] if item else self.year_of_call(call))
        return item

    def make_change_order(self, call, day, year, item):
        if item:
            self.test_not_closed(item["year"])
        self.test_live(item, call["item"])
        self.test_on_order(item, call, call["order"], call["item"])
        if call["by"] < 0 and -call["by"] > self.open_of(item):
            raise Refused("OverOpen", open=self.open_of(item))
        self.test_room((item["line"], item["year"], call["by"]))
        item["changes"] += call["by"]
        return {}

    def name_cancel_order(self, call):
        return self.document("order", call["order"])

    def make_cancel_order(self, call, day, year, order):
        live = [item for item in order["items"] if self.item_state(item) == "live"]
        if not live:
            raise Refused("DocState", kind="order", number=call["order"], state="ended")
        for item in live:
            item["state"] = "cancelled"
        return {}

    # ---- payables

    def name_voucher(self, call):
        lines, year = [], self.year_of_call(call) - call.get("back", False)
        for item in call["items"]:
            lines.append(self.account(item["fund"], item["dept"], item["object"], year, ("current", "capital")))
            if "order" in item:
                self.document("order", item["order"])
        return lines

    def make_voucher(self, call, day, year, lines):
        year -= call.get("back", False)
        self.test_not_closed(year)
        for item in call["items"]:
            if "order" not in item:
                self.test_adopted(item["fund"], year)
        charged = [(item, self.item_of(item["order"], item["item"])) for item in call["items"] if "order" in item]
        for item, ordered in charged:
            self.test_live(ordered, item["item"], year)
        for item, ordered in charged:
            self.test_on_order(ordered, item, item["order"], item["item"])
        for item, ordered in charged:
            if item.get("recorded", 0) > self.open_of(ordered):
                raise Refused("OverOpen", open=self.open_of(ordered))
        asks = [(line, year, item["amount"]) for item, line in zip(call["items"], lines)]
        uses = [(ordered, self.liquidated(item, ordered), item.get("final", False)) for item, ordered in charged]
        self.test_room(*asks, *((ordered["line"], year, -amount) for ordered, amount, _ in uses))
        items = [dict(item, line=line) for item, line in zip(call["items"], lines)]
        self.vouchers.append(dict(state="open", year=year, desk=call["desk"], day=day, items=items))
        for ordered, amount, final in uses:
            ordered["uses"].append(dict(voucher=len(self.vouchers), amount=amount, final=final))
        bought = [self.acquire(item, day, year, voucher=len(self.vouchers)) for item in items if self.is_capital(item)]
        self.post_voucher(year, items, 1)
        return dict(assets=bought, voucher=len(self.vouchers))

    def liquidated(self, item, ordered):
        if item.get("final"):
            return self.open_of(ordered)
        return item.get("recorded", min(self.open_of(ordered), item["amount"]))

    def is_capital(self, item):
        return self.row("object", item["object"])["kind"] == "capital"

    def acquire(self, item, day, year, voucher=None, term=None):
        """Adds an asset, and gives its number. One with a term, in months, is leased."""
        life = self.row("object", item["object"])["life"]
        if term:
            life = min(term, life) if life else term
        self.assets.append(
            dict(
                voucher=voucher, function=self.function(item["dept"]), cost=item["amount"], state="held", day=day, year=year,
                leased=term is not None, life=life, service=self.number_of(day.year, day.month),
            )
        )
        return len(self.assets)

    def post_voucher(self, year, items, sign):
        for item in items:
            amount, current = sign * item["amount"], 500000 + self.function(item["dept"])
            self.post("fund", year, item["fund"], (510000 if self.is_capital(item) else current, amount), (200000, -amount))
            self.post("gov", year, 0, (150000 if self.is_capital(item) else current, amount), (200000, -amount))

    def name_void_voucher(self, call):
        return self.document("voucher", call["voucher"])

    def make_void_voucher(self, call, day, year, voucher):
        number = call["voucher"]
        self.test_not_closed(voucher["year"])
        if voucher["state"] != "open":
            raise Refused("DocState", kind="voucher", number=number, state=voucher["state"])
        bought = [(k + 1, asset) for k, asset in enumerate(self.assets) if asset["voucher"] == number]
        for asset_number, asset in bought:
            if self.depreciation(asset, self.closed) > 0:
                raise Refused("AssetState", asset=asset_number, state="charged")
            if asset["state"] == "disposed":
                raise Refused("AssetState", asset=asset_number, state="disposed")
        ordered = [i for order in self.orders for i in order["items"] if any(use["voucher"] == number for use in i["uses"])]
        before = [self.open_of(item) for item in ordered]
        voucher["state"] = "void"
        opened = [(i["line"], i["year"], self.open_of(i) - was) for i, was in zip(ordered, before)]
        voucher["state"] = "open"
        self.test_room(*((i["line"], voucher["year"], -i["amount"]) for i in voucher["items"]), *opened)
        voucher["state"] = "void"
        for _, asset in bought:
            asset["state"] = "void"
        self.post_voucher(voucher["year"], voucher["items"], -1)
        return {}

    def name_pay(self, call):
        return [self.document("voucher", number) for number in call["vouchers"]]

    def make_pay(self, call, day, year, vouchers):
        for number, voucher in zip(call["vouchers"], vouchers):
            state = voucher["state"] if voucher["state"] != "open" else "later"
            if voucher["state"] != "open" or voucher["day"] > day:
                raise Refused("DocState", kind="voucher", number=number, state=state)
        if any(voucher["desk"] == call["desk"] for voucher in vouchers):
            raise Refused("SameHand", desk=call["desk"])
        items = [item for voucher in vouchers for item in voucher["items"]]
        self.test_cash(*((item["fund"], item["amount"]) for item in items))
        for voucher in vouchers:
            voucher["state"] = "paid"
        for item in items:
            self.post_both(year, item["fund"], (200000, item["amount"]), (100000, -item["amount"]))
        return {}

    # ---- revenue

    def name_bill(self, call):
        return self.known_source(call)

    def make_bill(self, call, day, year, source):
        levy, amount = call["levy_year"], call["amount"]
        self.test_not_closed(levy)
        self.bills.append(dict(source=source, levy_year=levy, amount=amount, settled=[]))
        self.post("fund", levy, source["fund"], (110000, amount), (290000, -amount))
        self.post("gov", levy, 0, (110000, amount), (400000 + source["id"], -amount))
        return dict(bill=len(self.bills))

    def name_collect(self, call):
        return self.document("bill", call["bill"])

    name_write_off = name_collect

    def left_of(self, bill):
        return bill["amount"] - sum(amount for _, amount in bill["settled"])

    def settle(self, bill, year, amount):
        if amount > self.left_of(bill):
            raise Refused("OverReceivable", left=self.left_of(bill))
        bill["settled"].append((year, amount))

    def make_collect(self, call, day, year, bill):
        amount, source, levy = call["amount"], bill["source"], bill["levy_year"]
        after = (day - self.year_end(levy)).days
        recognised = levy if year == levy or 0 < after <= source["window"] else year
        self.settle(bill, recognised, amount)
        self.post_both(year, source["fund"], (100000, amount), (110000, -amount))
        self.post("fund", recognised, source["fund"], (290000, amount), (400000 + source["id"], -amount))
        return dict(year=recognised)

    def make_write_off(self, call, day, year, bill):
        amount, source = call["amount"], bill["source"]
        self.settle(bill, year, amount)
        self.post("fund", year, source["fund"], (290000, amount), (110000, -amount))
        self.post("gov", year, 0, (400000 + source["id"], amount), (110000, -amount))
        return {}

    def name_receive(self, call):
        return self.known_source(call)

    def make_receive(self, call, day, year, source):
        self.post_both(year, source["fund"], (100000, call["amount"]), (400000 + source["id"], -call["amount"]))
        return {}

    # ---- assets

    def name_asset(self, call):
        if call["what"] == "dispose":
            asset = self.document("asset", call["asset"])
            self.known_fund(call["fund"])
            return asset
        self.known_dept(call["dept"])
        wanted = self.row("object", call["object"])
        if not wanted or wanted["kind"] != "capital":
            raise unknown("object", call["object"])

    def make_asset(self, call, day, year, asset):
        if call["what"] == "donate":
            function, amount = self.function(call["dept"]), call["amount"]
            self.post("gov", year, 0, (150000, amount), (450000 + function, -amount))
            return dict(asset=self.acquire(call, day, year))
        if asset["state"] != "held":
            raise Refused("AssetState", asset=call["asset"], state=asset["state"])
        if asset["leased"]:
            raise Refused("AssetState", asset=call["asset"], state="leased")
        if asset["day"] > day:
            raise Refused("AssetState", asset=call["asset"], state="later")
        charged, proceeds, cost = self.depreciation(asset, self.closed), call["proceeds"], asset["cost"]
        asset.update(state="disposed", gone=year, closed=self.closed)
        gain = proceeds + charged - cost
        result = (460000, -gain) if gain > 0 else (500000 + asset["function"], -gain)
        self.post("fund", year, call["fund"], (100000, proceeds), (600003, -proceeds))
        self.post("gov", year, 0, (100000, proceeds), (159000, charged), (150000, -cost), result)
        return {}

    # ---- debt

    def name_issue(self, call):
        self.known_fund(call["fund"])

    def make_issue(self, call, day, year, named):
        self.post("fund", year, call["fund"], (100000, call["amount"]), (600002, -call["amount"]))
        self.post("gov", year, 0, (100000, call["amount"]), (250000, -call["amount"]))
        return dict(bond=self.borrow(call, day, year, 250000))

    def borrow(self, call, day, year, payable):
        """Adds a bond, or a lease's schedule as one, which is owed on an account of the city; and gives its number."""
        terms = {k: call[k] for k in ("amount", "rate_bp", "every", "principals")}
        month = self.number_of(day.year, day.month)
        self.bonds.append(dict(terms, payable=payable, month=month, day=day.day, year=year, paid=0))
        return len(self.bonds)

    def name_lease(self, call):
        return self.account(call["fund"], call["dept"], call["object"], self.year_of_call(call), ("capital",))

    def make_lease(self, call, day, year, line):
        amount = call["amount"]
        self.test_adopted(call["fund"], year)
        self.test_room((line, year, amount))
        self.spendings.append((line, year, amount))
        self.post("fund", year, call["fund"], (510000, amount), (600004, -amount))
        self.post("gov", year, 0, (151000, amount), (251000, -amount))
        asset = self.acquire(call, day, year, term=call["every"] * len(call["principals"]))
        return dict(asset=asset, bond=self.borrow(call, day, year, 251000))

    def name_pay_due(self, call):
        bond = self.document("bond", call["bond"])
        left = bond["paid"] < len(bond["principals"])
        year = self.year_at(self.due(bond, bond["paid"] + 1)[0]) if left else self.year_of_call(call)
        principal = self.account(call["fund"], call["dept"], call["principal"], year, ("principal",))
        return bond, principal, self.account(call["fund"], call["dept"], call["interest"], year, ("interest",))

    def make_pay_due(self, call, day, year, named):
        bond, principal_line, interest_line = named
        payment, fund = bond["paid"] + 1, call["fund"]
        if payment > len(bond["principals"]):
            raise Refused("DocState", kind="bond", number=call["bond"], state="paid")
        month, due = self.due(bond, payment)
        due_year = self.year_at(month)
        self.test_adopted(fund, due_year)
        if call["on"] < due:
            raise Refused("NotDue", next=due)
        principal, interest = bond["principals"][payment - 1], self.coupon(bond, payment)
        spendings = [(principal_line, due_year, principal), (interest_line, due_year, interest)]
        self.test_room(*spendings)
        self.test_cash((fund, principal + interest))
        bond["paid"] = payment
        self.spendings += spendings
        self.post("fund", due_year, fund, (520000, principal), (530000, interest), (210000, -principal - interest))
        self.post("gov", due_year, fund, (bond["payable"], principal), (260000, interest), (210000, -principal - interest))
        self.post_both(year, fund, (210000, principal + interest), (100000, -principal - interest))
        return dict(principal=str(principal), interest=str(interest))

    # ---- leave

    def name_leave(self, call):
        if call["what"] == "mature":
            return self.account(call["fund"], call["dept"], call["object"], self.year_of_call(call), ("current",))
        self.known_fund(call["fund"])
        self.known_dept(call["dept"])

    def make_leave(self, call, day, year, line):
        what, fund, dept, amount = call["what"], call["fund"], call["dept"], call["amount"]
        expense, left = 500000 + self.function(dept), self.leave_left(fund, dept)
        if what == "mature":
            self.test_adopted(fund, year)
        if what != "earn" and amount > left:
            raise Refused("LeaveShort", left=left)
        if what == "mature":
            self.test_room((line, year, amount))
            self.test_cash((fund, amount))
            self.spendings.append((line, year, amount))
            self.post("fund", year, fund, (expense, amount), (100000, -amount))
        credit = dict(earn=(expense, amount), use=(expense, -amount), mature=(100000, -amount))[what]
        change = amount if what == "earn" else -amount
        self.leave.append((year, fund, dept, change))
        self.post("gov", year, 0, credit, (270000, -change))
        return {}

    # ---- moves between funds

    def name_interfund(self, call):
        self.known_fund(call["from"])
        self.known_fund(call["to"])

    def make_interfund(self, call, day, year, named):
        giver, taker, amount = call["from"], call["to"], call["amount"]
        owed = self.loans.get((giver, taker), 0)
        if call["what"] == "repay" and amount > owed:
            raise Refused("OverReceivable", left=owed)
        self.test_cash((giver, amount))
        if call["what"] == "repay":
            self.loans[giver, taker] = owed - amount
        if call["what"] == "loan":
            self.loans[taker, giver] = self.loans.get((taker, giver), 0) + amount
        given, taken = dict(transfer=(610001, 600001), loan=(120000, 220000), repay=(220000, 120000))[call["what"]]
        self.post("fund", year, giver, (given, amount), (100000, -amount))
        self.post("fund", year, taker, (100000, amount), (taken, -amount))
        return {}

    # ---- closing

    def name_close(self, call):
        pass

    def make_close(self, call, day, year, named):
        return self.close_month(call) if call["what"] == "month" else self.close_year(call)

    def close_year(self, call):
        self.test_not_closed(call["year"])
        month = self.window_month(call["year"])
        if self.number_of(*month) >= self.closed:
            raise Refused("WindowOpen", month="%04d-%02d" % month)
        self.closed_years += 1
        return {}

    def close_month(self, call):
        month = self.month_at(self.closed)
        if call["month"] != "%04d-%02d" % month:
            raise Refused("MonthOrder", next="%04d-%02d" % month)
        for number, bond in enumerate(self.bonds):
            if bond["paid"] < len(bond["principals"]):
                due, day = self.due(bond, bond["paid"] + 1)
                if due <= self.closed:
                    raise Refused("DebtDue", bond=number + 1, day=day)
        year = self.fiscal_year(*month)
        for asset in self.assets:
            charge = self.depreciation(asset, self.closed + 1) - self.depreciation(asset, self.closed)
            self.post("gov", year, 0, (500000 + asset["function"], charge), (159100 if asset["leased"] else 159000, -charge))
        interest = sum(self.earned(bond, self.closed + 1) - self.earned(bond, self.closed) for bond in self.bonds)
        self.post("gov", year, 0, (530000, interest), (260000, -interest))
        self.closed += 1
        if self.closed % 12 == 0:
            self.roll(year)
        return {}

    # ---- looks

    def look(self, call):
        self.seen(call)
        return getattr(self, "look_" + call["call"])(call)

    def look_line(self, call):
        if not self.is_line_of_year(call["line"], call["year"]):
            raise unknown("line", call["line"])
        return {name: str(cents) for name, cents in self.numbers(call["line"], call["year"]).items()}

    def look_requisition(self, call):
        requisition = self.document("requisition", call["requisition"])
        items = [dict(amount=str(item["amount"]), line=item["line"]) for item in requisition["items"]]
        return dict(items=items, state=requisition["state"], year=requisition["year"])

    def look_order(self, call):
        order = self.document("order", call["order"])
        items = [
            dict(line=item["line"], open=str(self.open_of(item)), state=self.item_state(item), year=item["year"])
            for item in order["items"]
        ]
        return dict(items=items, vendor=order["vendor"])

    def look_voucher(self, call):
        voucher = self.document("voucher", call["voucher"])
        amount = sum(item["amount"] for item in voucher["items"])
        return dict(amount=str(amount), state=voucher["state"], year=voucher["year"])

    def look_bill(self, call):
        bill = self.document("bill", call["bill"])
        return dict(left=str(self.left_of(bill)), levy_year=bill["levy_year"], source=bill["source"]["id"])

    def look_asset(self, call):
        asset = self.document("asset", call["asset"])
        charged = self.depreciation(asset, self.closed)
        return dict(cost=str(asset["cost"]), depreciation=str(charged), state=asset["state"])

    def look_bond(self, call):
        bond = self.document("bond", call["bond"])
        accrued = self.earned(bond, self.closed) - sum(self.coupon(bond, k) for k in self.paid(bond))
        left = bond["paid"] < len(bond["principals"])
        return dict(
            accrued=str(accrued), next=self.due(bond, bond["paid"] + 1)[1] if left else "",
            outstanding=str(self.owed_before(bond, bond["paid"] + 1)),
        )

    def look_leave(self, call):
        self.known_fund(call["fund"])
        self.known_dept(call["dept"])
        return dict(left=str(self.leave_left(call["fund"], call["dept"])))

    def look_account(self, call):
        return dict(balance=str(self.balance(call["basis"], call["year"], call["fund"], call["account"])))

    def look_reconcile(self, call):
        return {name: str(cents) for name, cents in self.reconciliation(call["year"]).items()}

    def look_report(self, call):
        rows = [[label, *map(str, amounts)] for label, *amounts in self.statement(call["year"], call["kind"])]
        return dict(rows=rows, title=TITLES[call["kind"]])


def text_of(reply):
    return json.dumps(reply, sort_keys=True, separators=(",", ":"))
