"""Sheets of each form of call, and sheets with a fault, each of which examples/clients/from_csv.py names with its row and column:

    python3 tests/gate/sheets.py
"""
import io
import os
import sys

sys.path.insert(0, os.path.join(os.path.dirname(os.path.abspath(__file__)), "..", "..", "examples", "clients"))
import from_csv
import tables

RECEIPT = dict(call="receive", desk="5", on="2025-07-05", source="1")
VOUCHER = dict(call="voucher", desk="4", key="v", on="2025-07-05")
ADOPTION = dict(call="adopt", desk="1", key="b", on="2025-07-01")
ASSET = dict(call="asset", desk="7", key="a", on="2025-07-01")
PAYMENT = dict(call="pay", desk="5", on="2025-07-05")
ITEM = "vendor,fund,dept,object,amount"

# What is said, the sheet with its rows one after another, and the words.
SHEETS = [
    ("row 2, amount: 12345678901234567.00 is too large", "key,amount|a,12345678901234567.00", RECEIPT),
    ("row 2, amount: it is empty", "key,amount|a,", RECEIPT),
    ("row 2, key: it is empty", "key,amount|,1.00", RECEIPT),
    ("row 2, key: a b isn't 1 to 40 letters, digits and marks without a blank", "key,amount|a b,1.00", RECEIPT),
    ("row 3, key: a is that of row 2", "key,amount|a,1.00|a,1.00", RECEIPT),
    ("row 4, key: a is that of row 2", "key,vouchers|a,1|b,2|a,3", PAYMENT),
    ("row 3, key: a is that of row 2", "call,key,source,amount,vouchers|pay,a,,,1|receive,a,1,1.00,", dict(desk="5", on="2025-07-05")),
    (
        "row 2, invoice: it is empty, and another column is made of it",
        "vendor,invoice,fund|77,,1",
        dict(VOUCHER, key="inv-{vendor}-{invoice}"),
    ),
    ("row 2, nr: it is empty, and another column is made of it", "vendor|77", dict(VOUCHER, key="inv-{nr}")),
    ("row 2, vendor: 77.0 is no number from 0 to 4294967295", "vendor|77.0", VOUCHER),
    ("row 2, fund: 65536 is no number from 0 to 65535", "vendor,fund|77,65536", VOUCHER),
    ("row 2, object: it is empty", "vendor,fund,dept,amount|77,1,20,1.00", VOUCHER),
    ("row 3, vendor: 78 isn't what an earlier row of v has", ITEM + "|77,1,20,510,1.00|78,1,20,510,2.00", VOUCHER),
    ("row 2, final: maybe is neither yes nor no", ITEM + ",order,item,final|77,1,20,510,1.00,1,1,maybe", VOUCHER),
    ("row 2, memo: voucher has no place for paper", ITEM + ",memo|77,1,20,510,1.00,paper", VOUCHER),
    ("row 34, items: voucher v has more than 32", ITEM + "|77,1,20,510,1.00" * 33, VOUCHER),
    ("row 2, amount: adopt has no place for 1.00", "fund,line,amount|1,,1.00", dict(ADOPTION, year="2026")),
    ("row 2, amount: it is empty", "fund,line,source,amount|1,3,1,1.00", dict(ADOPTION, year="2026")),
    ("row 2, year: 1970 is no number from 1971 to 2199", "year,fund|1970,1", ADOPTION),
    ("row 2, what: give is none of donate, dispose", "what,asset|give,1", ASSET),
    ("row 2, dept: asset has no place for 20", "what,asset,fund,proceeds,dept|dispose,1,1,0.00,20", ASSET),
    ("row 2, vouchers: 5,6 is no number from 0 to 4294967295", 'key,vouchers|a,"4 5,6"', PAYMENT),
    ("row 2, vouchers: it is empty", "key,vouchers|a,", PAYMENT),
    (
        "row 2, month: 2025-13 is no month, as 2025-07",
        "month|2025-13",
        dict(call="close", what="month", desk="9", key="c", on="2025-08-01"),
    ),
    ("row 2, call: line is no changing call of docs/CALLS.md", "call,line|line,3", dict(desk="1", key="k")),
    ("row 2, desk: the sheet and the words both have it", "key,desk,amount|a,5,1.00", RECEIPT),
    ("row 1: there is one column: the sheet needs commas between its columns", "key;amount|a;1.00", RECEIPT),
    ("row 1: two columns have one name", "key,amount,amount|a,1.00,2.00", RECEIPT),
    ("row 2: a cell stands in a column without a name", "key,amount|a,1.00,b", RECEIPT),
    ("row 3: unexpected end of data", 'key,amount|a,1.00|"b', RECEIPT),
]
# The calls of a sheet with its words, without what the words say.
MADE = [
    (
        "vendor,back,fund,dept,object,amount,order,item,recorded,final|77,yes,1,20,510,1.00,1,1,,x|,,1,20,510,2.00,1,2,3.00,no|",
        VOUCHER,
        [
            dict(
                vendor=77,
                back=True,
                items=[
                    dict(fund=1, dept=20, object=510, amount=100, order=1, item=1, final=True),
                    dict(fund=1, dept=20, object=510, amount=200, order=1, item=2, recorded=300, final=False),
                ],
            )
        ],
    ),
    (
        "call,key,what,dept,object,amount,asset,fund,proceeds|asset,a,donate,20,720,5.00,,,|asset,b,dispose,,,,1,3,0.00",
        dict(desk="7", on="2025-07-01"),
        [dict(what="donate", dept=20, object=720, amount=500), dict(what="dispose", asset=1, fund=3, proceeds=0)],
    ),
    (
        "fund,amount,rate_bp,every,principals|3,3.00,425,6,1.00 1.00|,,,,1.00",
        dict(call="issue", desk="5", key="bond", on="2025-07-01"),
        [dict(fund=3, amount=300, rate_bp=425, every=6, principals=[100, 100, 100])],
    ),
    (
        "key,what,object,amount|a,use,,1.00|b,mature,520,2.00",
        dict(call="leave", desk="8", on="2025-07-01", fund="1", dept="10"),
        [dict(what="use", fund=1, dept=10, amount=100), dict(what="mature", fund=1, dept=10, object=520, amount=200)],
    ),
    (
        "key,what,month,year|a,month,2026-06,|b,year,,2026",
        dict(call="close", desk="9", on="2026-09-01"),
        [dict(what="month", month="2026-06"), dict(what="year", year=2026)],
    ),
    ("key,line,by|a,3,-400.01|", dict(call="amend", desk="1", on="2025-07-06", fund="1", year="2026"), [dict(fund=1, year=2026, line=3, by=-40001)]),
    ("fund|1|2", dict(ADOPTION, key="fy26-{fund}", year="2026"), [dict(fund=n, year=2026, lines=[], estimates=[]) for n in (1, 2)]),
    (
        "fund,source,line,amount|1,1,,5.00|1,,3,2.00|1,,4,1.00",
        dict(ADOPTION, year="2026"),
        [dict(fund=1, year=2026, lines=[dict(line=3, amount=200), dict(line=4, amount=100)], estimates=[dict(source=1, amount=500)])],
    ),
    ("key,vouchers|a,1 2|a,3|b,4", PAYMENT, [dict(vouchers=[1, 2, 3]), dict(vouchers=[4])]),
]
AMOUNTS = "1234 1234.5 1234.500 1.234,50 1.234 12,34 12,34.00 1,2345.00 ,234.00 1234.50- -1.00 (1.00) $1.00 1e3 0x1 ٣.00 =A1 .50".split()
DAYS = "07/05/2025 2025-7-5 20250705 2025-02-30 2200-01-01".split()
for text in [*AMOUNTS, "1 234.50"]:
    SHEETS.append((f"row 3, amount: {text} is no amount of money, as 1234.50 or 1,234.50", f'key,amount|a,1.00|b,"{text}"', RECEIPT))
for text in DAYS:
    SHEETS.append((f"row 2, on: {text} is no day, as 2025-07-01", f"key,on|a,{text}", dict(PAYMENT, on=None)))


def said(sheet, words, fields):
    """What is said of a sheet."""
    words = {name: text for name, text in words.items() if text is not None}
    try:
        return "nothing: %s" % from_csv.calls_of(io.StringIO(sheet.replace("|", "\n")), words, fields)
    except from_csv.Fault as fault:
        return str(fault)


def made(sheet, words, fields):
    """The calls of a sheet, with their own fields alone."""
    calls = from_csv.calls_of(io.StringIO(sheet.replace("|", "\n")), words, fields)
    heads = ("call", *(field.name for field in tables.HEAD))
    return [{name: found for name, found in call.items() if name not in heads} for call in calls]


def main():
    fields = tables.calls()
    wrong = [(text, found) for text, sheet, words in SHEETS if (found := said(sheet, words, fields)) != text]
    wrong += [(calls, found) for sheet, words, calls in MADE if (found := made(sheet, words, fields)) != calls]
    for text, found in wrong:
        print(f"{text}\nis\n{found}")
    return min(len(wrong), 1)


if __name__ == "__main__":
    sys.exit(main())
