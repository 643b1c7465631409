"""A list of commands with what each prints, tried on a program, or on the independent office where none is named:

    commands.py LIST [PROGRAM]

It prints each command that answers otherwise, and then how many were tried. The list's marks stand at its head.
"""
import os
import sys
import tempfile

from cities import Model, Program

TOP = os.path.join(os.path.dirname(os.path.abspath(__file__)), "..", "..")


class Try:
    """One command, or some calls to `desk`, with what is wanted of it."""

    def __init__(self, line, words):
        self.line, self.words, self.given, self.wanted, self.status, self.stays = line, words, [], [], "0 ", False


class Scene:
    def __init__(self, make):
        self.make, self.cities, self.city = make, {}, None
        self.enter("here")

    def enter(self, name):
        self.city = self.cities.setdefault(name, self.make(name))

    def found(self, chart):
        with open(os.path.join(TOP, chart), "rb") as file:
            self.city.write("chart.toml", file.read())
        assert self.city.run(["found"])[0] == 0, chart

    def cut(self, name, lost):
        self.city.write(name, self.city.read(name)[: -int(lost)])

    def copy(self, name, where):
        self.cities[where].write(name, self.city.read(name))

    def run(self, step):
        """Whether a command answers as wanted, and what it answers."""
        words, given, kept = [*step.words], "".join(line + "\n" for line in step.given).encode(), None
        if ">" in words:
            kept = words.pop(words.index(">") + 1)
            words.remove(">")
        if "<" in words:
            given = self.city.read(words.pop(words.index("<") + 1))
            words.remove("<")
        before = self.city.journal()
        status, printed, said = self.city.run(words, given)
        if kept:
            self.city.write(kept, printed)
        is_other = step.stays and self.city.journal() != before
        wanted = "".join(line + "\n" for line in step.wanted).encode()
        is_same = (printed == wanted or kept and not step.wanted) and "%d %s" % (status, said.removeprefix("cityfund: ").rstrip()) == step.status
        return is_same and not is_other, "%d %s\n%s%s" % (status, said, printed[:2000].decode(errors="replace"), "the journal changed" if is_other else "")


def steps(text):
    """What the list says, line by line: the mark of each with what stands behind it; commands with all that is wanted."""
    step = None
    for number, line in enumerate(text.splitlines(), 1):
        mark, _, rest = line.partition(" ")
        if mark == ">" and (step is None or step.words != ["desk"] or len(step.given) != len(step.wanted)):
            step = Try(number, ["desk"])
            yield "$", step
        if mark in (">", "<", "|"):
            (step.given if mark == ">" else step.wanted).append(rest)
        elif mark == "!":
            step.status = rest
        elif line == "stays":
            step.stays = True
        elif mark == "$":
            step = Try(number, rest.split())
            yield mark, step
        elif mark == "file":
            step = Try(number, [])
            yield mark, (rest, step)
        elif mark in ("==", "in", "chart", "cut", "copy"):
            step = None
            yield mark, rest
        else:
            assert mark in ("#", ""), "line %d has no mark" % number


def play(text, make):
    """Each command that was tried, with the scene's name and whether it is as wanted."""
    scene, title = None, ""
    for mark, rest in list(steps(text)):
        if mark == "==":
            scene, title = Scene(lambda name, title=rest: make(title, name)), rest
        elif mark == "$":
            holds, got = scene.run(rest)
            yield title, rest, holds, got
        elif mark == "file":
            scene.city.write(rest[0], "".join(line + "\n" for line in rest[1].wanted).encode())
        else:
            dict(chart=scene.found, cut=scene.cut, copy=scene.copy).get(mark, scene.enter)(*rest.split())


def main(stored, program=None):
    with open(stored) as file:
        text = file.read()
    with tempfile.TemporaryDirectory() as folder:
        def make(title, name):
            return Program(program, os.path.join(folder, title.replace("/", " "), name)) if program else Model()

        tried = list(play(text, make))
    for title, step, holds, got in tried:
        if not holds:
            print("%s:%d: %s: %s: got %s" % (stored, step.line, title, " ".join(step.words), got))
    failed = sum(not holds for _, _, holds, _ in tried)
    print("commands: %d passed, %d failed" % (len(tried) - failed, failed))
    return min(failed, 1)


if __name__ == "__main__":
    sys.exit(main(*sys.argv[1:]))
