"""What `books` says through a day, of a history's first entries, and by what is asked, beside the independent office (../office):

    asked.py BOOKS FOLDER CHART TALK [PLACES DAYS]    at so many places and days of the talk
    asked.py BOOKS FOLDER CHART TALK whole            the ledger of each line, source, vendor and department, each month, and the
                                                      statements through the end of each
    asked.py BOOKS FOLDER random TALKS CALLS [FIRST]  random talks of so many calls each (../office/talks.py), from a seed on

The office writes the talk's journal into the folder, by docs/JOURNAL.md, and makes each list of the talk's calls alone. Says each
difference and how many lists were compared; the status is 1 where one differs.
"""
import concurrent.futures
import csv
import datetime
import io
import itertools
import json
import os
import subprocess
import sys
from collections import Counter

sys.path.insert(0, os.path.join(os.path.dirname(os.path.abspath(__file__)), "..", "office"))
from answers import chart_of  # noqa: E402
from asked_of import LEDGER, MONTH, PAID, LedgerFilter, Month, guarded, ledger, month_end, open_rows, paid  # noqa: E402
from documented import DOCUMENTS, KINDS, Documents, DocumentFilter, documents  # noqa: E402
from lists import HEADS, balances_of, city_accounts, fund_accounts, named_rows  # noqa: E402
from statements import COMMAND_TITLES, money  # noqa: E402
from streams import journal_of, payloads_of  # noqa: E402
from talks import Talk, toml_of  # noqa: E402

THROUGH = ("balance", "operating", "budget", "position", "activities")  # statements that go through a day
BALANCES = "basis fund fund_name account account_name balance".split()
OPEN = "call number item day desk key party year line fund_name dept_name open next due interest closed".split()


def records_of(text, delimiter=","):
    return list(csv.reader(io.StringIO(text), delimiter=delimiter))


def alone(office, year):
    """The rows of `books balances YEAR --alone`: accounts below 300000 through the year, the others of the year, and what the fund
    balance or the net position was at its beginning."""
    parts = [("fund", fund["id"], fund["name"], fund_accounts(office, fund), "Opening fund balance") for fund in office.by_id("fund")]
    for basis, fund, name, accounts, opening in [*parts, ("gov", 0, "", city_accounts(office), "Opening net position")]:
        before = -office.fund_balance(year - 1, fund) if basis == "fund" else -office.total("gov", year - 1)
        rows = [(code, its, office.balance(basis, year, fund, code)) for code, its in accounts.items() if code < 300000]
        rows += [(300000, opening, before)]
        rows += [(code, its, office.of_year(basis, year, fund, code)) for code, its in accounts.items() if code >= 300000]
        for code, its, amount in rows:
            if amount:
                yield [basis, str(fund), name, str(code), its, money(amount)]


class Asked:
    """The questions to `books`, each with the rows that are wanted."""

    def __init__(self, books, folder, chart, calls):
        self.books, self.folder, self.chart = books, folder, chart
        self.whole = Documents(chart_of(self.chart))
        self.taken = [call for call in calls if "desk" in call and self.is_taken(call)]
        os.makedirs(folder, exist_ok=True)
        self.payloads = list(payloads_of(self.whole))
        with open(os.path.join(folder, "fund.journal"), "wb") as file:
            file.write(journal_of(self.chart, self.payloads))
        self.questions, self.texts = [], []

    def is_taken(self, call):
        before = len(self.whole.entries)
        self.whole.answer(call)
        return len(self.whole.entries) > before

    # ---- asking

    def run(self, words):
        done = subprocess.run([self.books, *words], cwd=self.folder, capture_output=True, text=True)
        return done.returncode, done.stdout, done.stderr.strip()

    def ask(self, words, head, rows):
        """The rows that a list is to have, below the names of its columns, and the same with tabs."""
        self.questions.append((list(map(str, words)), head, rows))

    def differs(self, words, head, rows):
        status, said, fault = self.run([*words, "--csv"])
        if status:
            return f"{' '.join(words)}: status {status}: {fault}"
        found = records_of(said)
        wanted = [head, *([guarded(field) for field in row] for row in rows)]
        for place, (left, right) in enumerate(zip(found, wanted)):
            if left != right:
                shown = [f"{name} {a!r} and not {b!r}" for name, a, b in zip(head, left, right) if a != b]
                return f"{' '.join(words)}, row {place}: {', '.join(shown) or (left, right)}: {left}"
        if len(found) != len(wanted):
            more = found[len(wanted) :] or wanted[len(found) :]
            return f"{' '.join(words)}: {len(found)} rows and not {len(wanted)}: {more[0]}"
        return None

    def differs_by_tabs(self, words, head, rows):
        status, said, fault = self.run(words)
        return None if (status, records_of(said, "\t")) == (0, [list(row) for row in rows]) else f"{' '.join(words)} with tabs: status {status} {fault}"

    def says_otherwise(self, words, wanted):
        status, said, fault = self.run(words)
        return None if (status, said) == (0, wanted) else f"{' '.join(map(str, words))}: status {status} {fault}: {said[:200]!r} and not {wanted[:200]!r}"

    def answers(self):
        with concurrent.futures.ThreadPoolExecutor(os.cpu_count()) as pool:
            differs = list(pool.map(lambda each: self.differs(*each), self.questions))
            firsts = {}
            for words, head, rows in self.questions:
                firsts.setdefault(words[0], (words, head, rows))
            differs += list(pool.map(lambda each: self.differs_by_tabs(*each), firsts.values()))
            differs += list(pool.map(lambda each: self.says_otherwise(*each), self.texts))
        return len(differs), [each for each in differs if each]

    # ---- questions

    def of_place(self, history, place, last):
        """What is said of the first entries, which the history has."""
        at = [] if last else ["--entries", place]
        year, month = history.on_month()
        self.ask(["ledger", *at], LEDGER, list(ledger(history, LedgerFilter())))
        self.ask(["documents", *at], DOCUMENTS, list(documents(history, DocumentFilter())))
        self.ask(["open", *at], OPEN, list(open_rows(history)))
        if year >= 1971:  # the least that can be asked for
            self.ask(["paid", year, *at], PAID, list(paid(history, year)))
            self.of_month(history, year, month, at)
        fiscal = history.fiscal_year(year, month)
        self.ask(["balances", fiscal, *at], BALANCES, list(balances_of(history, fiscal)))
        self.ask(["balances", fiscal, "--alone", *at], BALANCES, list(alone(history, fiscal)))
        for kind in COMMAND_TITLES:
            self.of_statement(history, history, fiscal, kind, at)

    def of_month(self, history, year, month, at=()):
        name = "%04d-%02d" % (year, month)
        self.ask(["month", name, *at], MONTH, list(Month(history, name).rows()))

    def of_front(self, history, place):
        """What needs no office: the first entries as calls and rows, the lines, and what `check` counts."""
        at = ["--entries", str(place)]
        for command in ("calls", "list"):
            lines = self.run([command])[1].splitlines(True)
            self.texts.append(([command, *at], "".join(lines[:place])))
        self.texts.append((["lines", *at], self.run(["lines"])[1]))
        facts = {"last day": history.entries[-1][0]["on"] if place else "none", "entries": place, "closed months": history.closed, "closed years": history.closed_years}
        facts |= {"bytes in use": len(journal_of(self.chart, self.payloads[:place])), "bytes of room": 0}
        self.texts.append((["check", *at], "".join(f"{name}: {value}\n" for name, value in facts.items())))

    def of_statement(self, history, of, year, kind, at):
        rows = list(named_rows(history, kind, records_of(of.csv(year, kind))))
        self.ask(["statement", year, kind, *at], HEADS.get(kind, "section name amount").split(), rows)

    def of_day(self, history, day, at):
        """What is said through a day, of the entries that the history has."""
        of, through = history.through(day), ["--through", day, *at]
        fiscal = history.year_of(datetime.date.fromisoformat(day))
        self.ask(["balances", fiscal, *through], BALANCES, list(balances_of(of, fiscal)))
        for kind in THROUGH:
            self.of_statement(history, of, fiscal, kind, through)
        self.ask(["ledger", *through], LEDGER, list(ledger(history, LedgerFilter(through=day))))
        self.ask(["ledger", "--from", day, *at], LEDGER, list(ledger(history, LedgerFilter(first=day))))
        self.of_posts(history, through, lambda row: row[1] <= day, len(history.entries))

    def of_posts(self, history, words, is_wanted, entries):
        """Posts in the order of `posts`, whose sums by account the office has."""
        self.ask(["posts", *words], self.posts[0], [row for row in self.posts[1:] if int(row[0]) <= entries and is_wanted(row)])

    def posts_differ(self):
        """Where the sums of all posts, by basis, year, fund and account, aren't the office's."""
        status, said, fault = self.run(["posts", "--csv"])
        self.posts = records_of(said) or [[]]
        found, wanted = Counter(), Counter()
        for row in self.posts[1:]:
            its = dict(zip(self.posts[0], row))
            found[its["place"], its["basis"], its["year"], its["fund"], its["account"]] += int(its["amount"].replace(".", ""))
        for basis, posts in self.whole.posts.items():
            for place, (year, fund, account, amount) in zip(self.whole.places[basis], posts):
                wanted[str(place), basis, str(year), str(fund), str(account)] += amount
        is_same = {k: v for k, v in found.items() if v} == {k: v for k, v in wanted.items() if v}
        return [] if not status and is_same else [f"posts: status {status} {fault}, or not the office's sums"]

    def of_filters(self, most=12):
        """The ledger and the documents by values of each filter."""
        rows = self.whole.rows
        values = dict(
            fund={row.account[0] for row in rows}, dept={row.account[1] for row in rows}, object={row.account[2] for row in rows},
            line={row.line for row in rows}, source={row.source for row in rows}, vendor={row.party for row in rows},
            year={row.year for row in rows},
        )
        for name, found in values.items():
            for value in sorted(value for value in found if value not in ("", None, 0) or (name, value) in (("line", 0), ("vendor", 0)))[:most]:
                self.of_ledger(LedgerFilter(**{name: value}))
        for row in rows[:: max(1, len(rows) // 10)]:
            fund, dept, _ = row.account
            day = self.whole.entries[row.place - 1][0]["on"]
            self.of_ledger(LedgerFilter(fund=fund, dept=dept or None, year=row.year, through=day))
            self.of_ledger(LedgerFilter(line=row.line, source=row.source, first=day))
        for asked in DocumentFilter.some_of(self.whole):
            self.ask(["documents", *asked.words()], DOCUMENTS, list(documents(self.whole, asked)))

    def of_ledger(self, asked):
        self.ask(["ledger", *asked.words()], LEDGER, list(ledger(self.whole, asked)))

    def at_places(self, places):
        """At so many places, the first and the last among them; at one of them through a day, too."""
        count = len(self.taken)
        wanted = {0, count} | {round(count * part / max(1, places - 1)) for part in range(places)}
        history = Documents(self.whole.chart)
        for place in range(count + 1):
            if place:
                history.answer(self.taken[place - 1])
            if place in wanted:
                self.of_place(history, place, place == count)
                self.of_front(history, place)
                self.of_posts(history, [] if place == count else ["--entries", place], lambda row: True, place)
            if place == count // 2:
                self.of_day(history, self.some_days(3)[1], ["--entries", place])

    def some_days(self, count):
        """Days of entries, and those before the first and behind the last one."""
        days = sorted({call["on"] for call in self.taken})
        days = [str(day_of(days[0], -1)), *days, str(day_of(days[-1], 1))]
        first = max("1971-01-01", str(datetime.date(*self.whole.month_at(0), 1)))
        return sorted({max(first, days[round((len(days) - 1) * part / max(1, count - 1))]) for part in range(count)})

    def months(self, most):
        """The months from that of the first entry to the one behind that of the last, as (year, month)."""
        days = [call["on"] for call in self.taken]
        first, last = ((int(day[:4]), int(day[5:7])) for day in (min(days), max(days)))
        numbers = range(self.whole.number_of(*first), min(self.whole.number_of(*last) + 2, self.whole.number_of(*first) + most))
        return [month for month in map(self.whole.month_at, numbers) if month[0] >= 1971]

    def at_months(self, most=24):
        for month in self.months(most):
            self.of_month(self.whole, *month)

    def at_month_ends(self, most=24):
        """The statements of each fiscal year through the last day of each month."""
        months = self.months(most)
        years = sorted({self.whole.fiscal_year(*month) for month in months})
        for day in (str(month_end(*month)) for month in months):
            of = self.whole.through(day)
            for year, kind in itertools.product(years, THROUGH):
                self.of_statement(self.whole, of, year, kind, ["--through", day])

    def of_quiet_lines(self):
        """The ledger of each line that nothing moved."""
        moved = {row.line for row in self.whole.rows}
        for number in range(len(self.whole.chart["line"])):
            if number not in moved:
                self.of_ledger(LedgerFilter(line=number))

    def at_days(self, count):
        for day in self.some_days(count):
            self.of_day(self.whole, day, [])


def day_of(day, by):
    return datetime.date.fromisoformat(day) + datetime.timedelta(days=by)


def calls_of(talk):
    """The calls of a talk, without what its replies say isn't in form."""
    replies = talk.removesuffix(".jsonl") + ".replies"
    with open(talk, encoding="utf-8") as calls, open(replies if os.path.exists(replies) else talk, encoding="utf-8") as said:
        return [json.loads(call) for call, reply in zip(calls, said) if not reply.startswith('{"form"')]


def compared(asked, *counts):
    """How many lists were compared, and what differs."""
    faults = asked.posts_differ()
    if counts == ("whole",):
        asked.of_filters(10**6)
        asked.of_quiet_lines()
        asked.at_months()
        asked.at_month_ends()
    else:
        places, days = map(int, counts or (10, 10))
        asked.at_places(places)
        asked.at_days(days)
        asked.at_months()
        asked.of_filters()
    count, differing = asked.answers()
    return count, faults + differing


def told(name, count, faults):
    for fault in faults:
        print(f"{name}: {fault}")
    print(f"{name}: {count} lists, {len(faults)} differ", flush=True)
    return len(faults)


def random_talks(books, folder, talks, calls, first=1):
    """How many lists of random talks differ."""
    differing = 0
    for seed in range(first, first + talks):
        talk = Talk(seed)
        for _ in talk.lines(calls):
            pass
        asked = Asked(books, folder, toml_of(talk.chart).encode(), [call for call, _ in talk.office.entries])
        differing += told(f"talk {seed}", *compared(asked, 6, 6))
    return differing


def main(books, folder, chart, talk, *counts):
    if chart == "random":
        return min(1, random_talks(books, folder, *map(int, [talk, *counts])))
    with open(chart, "rb") as file:
        asked = Asked(books, folder, file.read(), calls_of(talk))
    return min(1, told(talk, *compared(asked, *counts)))


if __name__ == "__main__":
    sys.exit(main(*sys.argv[1:]))
