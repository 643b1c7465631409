#!/bin/sh
# The dearest proofs: the functions that took longest in the checks whose work stands in out/.
#
#     bench/dear.sh [SECONDS [CRATE..]]
#
# lists, dearest first, the functions that took at least so many seconds (10 where no number is
# given) of the named crates, or of all that have an out/. GATE_TOP names another checkout.
#
# - goals: the time between a function's own modules up to the one of its proof, with what its
#   author wrote of it (Invariants, Answers). One process makes these one after another, so this
#   is right at any number of jobs, in seconds of the machine as it was.
# - body: its steps as the prover reads them, in megabytes, which grow with the code whatever is
#   promised. A megabyte takes about a second, and more where many `?` stand behind an owned value.
# - seconds: the sum of both.
#
# Behind them come files of lemmas, by the time since the module before, whosever it was. That is
# right for a check at one job alone: with more, it may be a pause in which the check read back
# what its processes wrote. A pause of more than two minutes is taken for one between two checks.
# It reads out/ alone, and proves nothing.
top=${GATE_TOP:-$(cd "$(dirname "$0")/.." && pwd)}
exec python3 - "$top" "$@" <<'PY'
import collections, os, sys

top, *words = sys.argv[1:]
least, names = float(words[0]) if words else 10, words[1:]
PAUSE = 120
# The last modules of a function, which follow one another in one process.
GOALS = ("Invariants", "Goals", "Answers", "Proof")


def modules(folder):
    """The checked modules of a folder in order of time: the time of each, its name and bytes."""
    names = [it for it in os.listdir(folder) if it.endswith(".oantt")]
    stats = [(os.stat(f"{folder}/{it}"), it[: -len(".oantt")]) for it in names]
    return sorted((it.st_mtime, name, it.st_size) for it, name in stats)


def owner(module):
    """The function that a module was made for and the module's role, or the file of lemmas."""
    parts = module.partition("-proofs.")[2].split(".")
    roles = []
    while len(parts) > 1 and parts[-1][:1].isupper() and any(it[:1].islower() for it in parts):
        roles.insert(0, parts.pop())
    return ".".join(parts), roles[0] if roles else ""


def functions(folder):
    """For each function of a folder seconds of goals and megabytes of body; seconds for lemmas."""
    goals, bodies, lemmas = (collections.Counter() for _ in range(3))
    last, before = {}, None
    for time, module, size in modules(folder):
        if "-proofs." in module:
            name, role = owner(module)
            if not role:
                lemmas[name] += time - before if before and time - before < PAUSE else 0
            elif role in GOALS and name in last and time - last[name] < PAUSE:
                goals[name] += time - last[name]
            elif role == "Lts":
                bodies[name] += size / 1e6
            last[name] = time
        before = time
    return goals, bodies, lemmas


def checks(crate):
    folder = f"{top}/crates/{crate}/out/incremental"
    return [f"{folder}/{it}" for it in os.listdir(folder)] if os.path.isdir(folder) else []


found, files = {}, {}
for crate in sorted(os.listdir(f"{top}/crates")):
    for folder in [it for it in checks(crate) if not names or crate in names]:
        goals, bodies, lemmas = functions(folder)
        for name in {*goals, *bodies}:
            row = (goals[name] + bodies[name], goals[name], bodies[name])
            found[crate, name] = max(row, found.get((crate, name), row))
        files.update({(crate, name): seconds for name, seconds in lemmas.items()})
print("seconds  goals   body  crate and function")
for (crate, name), (whole, goals, body) in sorted(found.items(), key=lambda it: -it[1][0]):
    if whole >= least:
        print(f"{whole:7.1f} {goals:6.1f} {body:6.2f}  {crate}  {name}")
dear = sorted((-seconds, *it) for it, seconds in files.items() if seconds >= least)
if dear:
    print("seconds                crate and file of lemmas")
for seconds, crate, name in dear:
    print(f"{-seconds:7.1f}                {crate}  {name}")
PY
