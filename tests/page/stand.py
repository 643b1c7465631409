"""What the tests of the page stand on: the program behind the proxy, the lists, what makes
statements that are asked for, and a browser with a context a user.
"""
import json
import os
import subprocess
import sys
import time

import doors
from browser import Browser, PATIENCE
from clerk import Clerk

TOP = os.path.join(os.path.dirname(os.path.abspath(__file__)), "..", "..")
# The desks of Harborview with users of their own; `second` shares the desk of payables, and the auditor has none.
USERS = {1: "council", 2: "streets", 3: "purchasing", 4: "payables", 5: "treasury", 6: "revenue", 7: "assets", 8: "payroll", 9: "controller",
         14: "invoices", 15: "deputy", 20: "roads"}

# The browser's clock: noon of the day on which the month of july.jsonl has just been entered. A test moves `ahead`, in milliseconds.
CLOCK = """(() => { const Real = Date; window.ahead = Number(sessionStorage.getItem('ahead')); const shift = Real.parse('2025-08-12T12:00:00') - Real.now();
    window.Date = class extends Real { constructor(...words) { if (words.length) super(...words); else super(window.Date.now()); }
        static now() { return Real.now() + shift + window.ahead; } }; })()"""


# Prints what `books` does, late by as many seconds as a file `slow` says.
SLOW = """#!/bin/sh
[ ! -s '{0}/slow' ] || sleep "$(cat '{0}/slow')"
exec '{1}' "$@"
"""


class Stand:
    def __init__(self, url, journal, lists, program, first, pictures=None):
        self.url, self.journal, self.lists, self.program, self.first, self.pictures = url, journal, lists, program, int(first), pictures
        self.books = os.environ["BOOKS"]
        self.verdicts, self.browser = doors.Verdicts("page"), Browser()
        self.contexts, self.pages, self.serving, self.asked = {}, [], None, None
        self.start()
        self.answer()

    def start(self):
        words = ["serve", "--port", str(self.first), "--doors", "4", "--links", "1000000"]
        self.serving = subprocess.Popen([self.program, *words], cwd=self.journal, stdout=subprocess.DEVNULL)
        doors.Link(self.first + 3, self.serving).close()

    def kill(self):
        self.serving.kill()
        self.serving.wait()

    def answer(self, seconds=9):
        """Starts what makes statements when they are asked for, each in so many seconds at most."""
        self.silence()
        program = os.path.join(self.journal, "books")
        with open(program, "w", encoding="utf-8", opener=lambda path, flags: os.open(path, flags, 0o755)) as file:
            file.write(SLOW.format(self.journal, self.books))
        door = os.path.join(os.path.dirname(self.lists), "asked", "door")
        words = [os.path.join(TOP, "page", "asked.py"), program, os.path.join(self.journal, "fund.journal"), door, str(seconds)]
        self.asked = subprocess.Popen([sys.executable, *words])
        while not os.path.exists(door) and self.asked.poll() is None:
            time.sleep(0.05)

    def silence(self):
        """Ends it, and its socket."""
        if self.asked:
            self.asked.kill()
            self.asked.wait()
            self.asked = None
            os.unlink(os.path.join(os.path.dirname(self.lists), "asked", "door"))

    def slow(self, seconds):
        """Statements that are asked for come late by so many seconds."""
        with open(os.path.join(self.journal, "slow"), "w", encoding="utf-8") as file:
            file.write(str(seconds or ""))

    def end(self):
        self.silence()
        self.kill()
        self.browser.end()

    def context(self, user):
        if user not in self.contexts:
            self.contexts[user] = self.browser.context()
        return self.contexts[user]

    def tab(self, user, context=None):
        page = self.browser.page(context or self.context(user), user, user + "'s word")
        page.send("Page.addScriptToEvaluateOnNewDocument", source=CLOCK)
        self.pages.append(page)
        return page

    def clerk(self, user, context=None):
        """A tab of a user at the page."""
        return Clerk(self.tab(user, context), self.url)

    def desk(self, number):
        return self.clerk(USERS[number])

    def make_lists(self, seconds=1):
        """What the timer does; statements and months are made for so many seconds."""
        subprocess.run([sys.executable, os.path.join(TOP, "page", "lists.py"), self.books, os.path.join(self.journal, "fund.journal"), self.lists,
                        os.path.join(self.journal, "vendors.csv"), str(seconds)], check=True, stdout=subprocess.DEVNULL, stderr=subprocess.DEVNULL)

    def calls(self):
        """The entries of the journal, each as its call."""
        done = subprocess.run([self.books, "calls", os.path.join(self.journal, "fund.journal")], stdout=subprocess.PIPE, check=True)
        return [json.loads(line) for line in done.stdout.splitlines()]

    def entries(self):
        return len(self.calls())

    def ask(self, call):
        """A look or a call at a door itself."""
        with doors.Link(self.first, self.serving) as link:
            return link.call(call)[1]

    def holds(self, name, what, said=""):
        self.verdicts.verdict(name, what, said)

    def same(self, name, got, wanted):
        self.verdicts.same(name, got, wanted)

    def picture(self, page, name, whole=False):
        if self.pictures:
            page.shot(os.path.join(self.pictures, name + ".png"), whole)

    def waited(self, what, seconds=PATIENCE):
        """Whether something comes to hold. The browser's requests go on meanwhile."""
        end = time.time() + seconds
        while time.time() < end:
            self.browser.send("Browser.getVersion")
            if what():
                return True
            time.sleep(0.05)
        return False

    def logs(self):
        return [line for page in self.pages for line in page.logs]
