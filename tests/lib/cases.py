"""Cases of a program of cases: its script is parted at the lines that begin with `# `, and a difference is printed
with the head of its case. Called by tests/run.

    cases.py PROGRAM           runs the whole script of crates/PROGRAM
    cases.py PROGRAM TEXT      compares the cases whose heads have the text. It runs the script to the last of them, since
                               a case may go on where an earlier one left off

It runs crates/PROGRAM/out/PROGRAM where rt built that, and else has `rt try` interpret the sources, which takes minutes.
"""
import difflib
import os
import shutil
import subprocess
import sys
import tempfile

TOP = os.path.join(os.path.dirname(os.path.abspath(__file__)), "..", "..")


def parted(text):
    """The lines of a script or an output, by cases: each a head with its lines."""
    made = [("", [])]
    for line in text.split("\n"):
        if line.startswith("# "):
            made.append((line[2:], [line]))
        else:
            made[-1][1].append(line)
    return made


def run(program, script):
    """What the program prints for a script, in a folder with its files."""
    crate = os.path.join(TOP, "crates", program)
    built = os.path.join(crate, "out", program)
    with tempfile.TemporaryDirectory() as folder:
        data = os.path.join(crate, "data")
        for name in sorted(os.listdir(data)) if os.path.isdir(data) else ():
            shutil.copy(os.path.join(data, name), folder)
        if os.path.exists(built):
            words, where = [built], folder
        else:
            files = [word for name in sorted(os.listdir(folder)) for word in ("--data", f"{name}={os.path.join(folder, name)}")]
            words, where = ["rt", "try", *files], crate
        return subprocess.run(words, cwd=where, input=script.encode(), stdout=subprocess.PIPE, check=False).stdout.decode()


def lines_of(parts, place):
    """The lines of a case, without empty ones at its end; none where there is no such case."""
    lines = list(parts[place][1]) if place < len(parts) else []
    while lines and lines[-1] == "":
        lines.pop()
    return lines


def differs(head, wanted, got):
    if wanted == got:
        return False
    print(f"failed: {head}")
    print("\n".join(difflib.unified_diff(wanted, got, "stored", "printed", lineterm="", n=2)))
    return True


def main(words):
    if not 1 <= len(words) <= 2 or not os.path.exists(os.path.join(TOP, "crates", words[0], "stdout")):
        print("the words are: tests/run case PROGRAM [TEXT], where PROGRAM is a crate with a stored output", file=sys.stderr)
        return 1
    texts = []
    for name in ("stdin", "stdout"):
        with open(os.path.join(TOP, "crates", words[0], name), encoding="utf-8") as file:
            texts.append(parted(file.read()))
    script, stored = texts
    if [head for head, _ in script] != [head for head, _ in stored]:
        print(f"the heads of crates/{words[0]}/stdin and stdout differ")
        return 1
    chosen = [place for place, (head, _) in enumerate(script) if len(words) == 1 or place and words[1].lower() in head.lower()]
    got = parted(run(words[0], "\n".join(line for _, lines in script[:max(chosen, default=0) + 1] for line in lines)))
    failed = sum(differs(script[place][0], lines_of(stored, place), lines_of(got, place)) for place in chosen)
    print(f"{words[0]}: {len(chosen) - (len(words) == 1)} of {len(script) - 1} cases, {failed} failed")
    return min(failed + (not chosen) + (len(got) > len(script)), 1)


if __name__ == "__main__":
    sys.exit(main(sys.argv[1:]))
