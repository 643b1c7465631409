#!/bin/sh
# What the merge gate costs: processor seconds a crate for its proof from nothing, its tests, and its must-fail edits,
# the longest chain of crates, and the wall time on two and on four processors that follows.
#
#     bench/gate.sh [NAME..]
#     bench/gate.sh --reckon
#
# The first form measures the named crates, or all, one after another at one job in a copy of the repository. The figures
# are kept in the file that GATE_SECONDS names, or gate.seconds in the folder for temporary files, a line for each crate, so
# that crates can be measured on different days; what follows from them is printed for all crates of that file. Measuring
# all takes about twice the processor time of `rt ci`. A program's tests are its two runs. Edits are tried as the gate tries
# them, with nothing kept: by `rt must-fail --anew` where the kit's rt knows it, and else over a crate whose kept work is removed.
#
# The second form measures nothing: it reckons each crate's price from the size of what its last check kept in out/, in
# seconds of an otherwise idle machine; with all processors busy each takes up to twice as long. Neither is part of the gate.
# What the figures mean says docs/GATE.md.
top=$(cd "$(dirname "$0")/.." && pwd)
exec python3 - "$top" "${GATE_SECONDS:-}" "$@" <<'PY'
import heapq, os, re, resource, shutil, subprocess, sys, tempfile

top, figures, *names = sys.argv[1:]
reckons = names == ["--reckon"]
figures = figures or os.path.join(tempfile.gettempdir(), "gate.seconds")

# What a crate may cost, in processor seconds: proof, edits, and a program of cases as a whole.
MOST = {"proof": 120, "edits": 200, "program": 240}


def graph(folder):
    """The crates, lowest first, each with those of the repository that it stands on."""
    found = {}
    for line in open(f"{folder}/crates.txt"):
        name, _, below = line.partition("#")[0].strip().partition(":")
        if name:
            found[name.split()[0]] = below.split()
    deps = {name: [it for it in below if it in found] for name, below in found.items()}
    return {name: deps[name] for name in sorted(deps, key=lambda it: len(all_below(deps, it)))}


def all_below(deps, name):
    seen, left = set(), [name]
    while left:
        for it in deps[left.pop()]:
            if it not in seen:
                seen.add(it)
                left.append(it)
    return seen


# Whether this kit's rt keeps what it passed, and so is asked to try edits anew; it then makes a seed for a crate's edits.
KEEPS = "--anew" in subprocess.run(["rt", "help"], stdout=subprocess.PIPE, stderr=subprocess.STDOUT, text=True).stdout

# rt then does one thing at a time.
ONE_LANE = {**os.environ, "RT_JOBS": "1"}


def seconds(folder, *words):
    """Processor seconds of a command and of what it waited for, and whether it went well."""
    before = resource.getrusage(resource.RUSAGE_CHILDREN)
    ran = subprocess.run(words, cwd=folder, env=ONE_LANE, stdin=subprocess.DEVNULL, stdout=subprocess.DEVNULL, stderr=subprocess.DEVNULL)
    after = resource.getrusage(resource.RUSAGE_CHILDREN)
    return after.ru_utime + after.ru_stime - before.ru_utime - before.ru_stime, ran.returncode == 0


def edits_of(name):
    """How many must-fail edits a crate has."""
    folder = f"{top}/crates/{name}/must-fail"
    return sum(it.endswith(".edit") for it in os.listdir(folder)) if os.path.isdir(folder) else 0


def has(folder, text):
    sources = [f"{at}/{it}" for at, _, files in os.walk(f"{folder}/src") for it in files]
    return any(text in open(it, encoding="utf-8").read() for it in sources)


def measured(root, name):
    """Processor seconds of a crate's proof, tests and edits, each from nothing."""
    folder = f"{root}/crates/{name}"
    is_program = os.path.exists(f"{folder}/src/main.rt")
    shutil.rmtree(f"{folder}/out", ignore_errors=True)
    proof, well = seconds(folder, "rt", "check" if is_program else "lib", "--jobs", "1")
    if not well:
        sys.exit(f"{name} isn't proved")
    tests = edits = 0.0
    if is_program:
        tests = seconds(folder, "rt", "run", "--jobs", "1")[0] + seconds(folder, "rt", "run", "--backend", "rattle", "--jobs", "1")[0]
    if has(folder, "#[test]"):
        kept = f"{folder}/kept"
        os.rename(f"{folder}/out", kept)
        tests += seconds(folder, "rt", "test", "--jobs", "1")[0]
        shutil.rmtree(f"{folder}/out", ignore_errors=True)
        os.rename(kept, f"{folder}/out")
    if edits_of(name):
        shutil.rmtree(f"{folder}/out/incremental", ignore_errors=True)
        edits, well = seconds(root, "rt", "must-fail", *(["--anew"] if KEEPS else []), name)
        if not well:
            sys.exit(f"an edit of {name} isn't refused")
    return proof, tests, edits


# What a check from nothing costs beside the modules: the start, a megabyte of checked modules, a function; and what an
# edit over the seed, the last check behind the edits, a crate's own tests and the two builds of a program cost. In seconds.
START, MEGABYTE, FUNCTION, EDIT, LAST, TESTS, BUILDS = 6, 0.65, 0.1, 16, 10, 60, 40


def megabytes(folder):
    """What a crate's last check kept, in megabytes of checked modules."""
    kept = [f"{at}/{it}" for at, _, files in os.walk(f"{folder}/out/incremental") for it in files
            if "/records" not in at and it.endswith(".oantt")]
    return sum(os.path.getsize(it) for it in kept) / 1e6


def functions(folder):
    sources = [f"{at}/{it}" for at, _, files in os.walk(f"{folder}/src") for it in files]
    return sum(len(re.findall(r"^\s*(?:pub )?fn ", open(it, encoding="utf-8").read(), re.M)) for it in sources)


def reckoned(name):
    """Processor seconds of a crate's proof, tests and edits, by its size; none where it has no out/."""
    folder = f"{top}/crates/{name}"
    size = megabytes(folder)
    if not size:
        return None
    proof = START + MEGABYTE * size + FUNCTION * functions(folder)
    tests = BUILDS if os.path.exists(f"{folder}/src/main.rt") else 0
    tests += (proof + TESTS) if has(folder, "#[test]") else 0
    # A single edit is tried from nothing, as is the seed of several, or the first of them where there is no seed.
    count = edits_of(name)
    edits = proof + (EDIT * count + LAST if count > 1 else 0)
    return proof, tests, edits if count else 0


def reckon():
    deps = graph(top)
    found = {name: reckoned(name) for name in deps}
    for name in [it for it in found if not found[it]]:
        print(f"{name:12} has no out/")
        del found[name]
    for name, (proof, tests, edits) in found.items():
        print(f"{name:12} proof {proof:6.1f}  tests {tests:6.1f}  edits {edits:6.1f}")
    return found, deps


def read_figures():
    found = {}
    if os.path.exists(figures):
        for line in open(figures):
            name, *rest = line.split()
            found[name] = tuple(map(float, rest))
    return found


def keep_figures(found):
    with open(figures, "w") as it:
        for name, three in found.items():
            print(name, *(f"{one:.1f}" for one in three), file=it)


def measure(names):
    found = read_figures()
    with tempfile.TemporaryDirectory(prefix="gate-") as room:
        root = f"{room}/repository"
        shutil.copytree(top, root, symlinks=True, ignore=shutil.ignore_patterns(".git"))
        deps = graph(root)
        for name in [it for it in deps if not names or it in names]:
            for it in [it for it in deps if it in all_below(deps, name)]:
                seconds(f"{root}/crates/{it}", "rt", "lib")
            found[name] = measured(root, name)
            print(f"{name:12} proof {found[name][0]:6.1f}  tests {found[name][1]:6.1f}  edits {found[name][2]:6.1f}", flush=True)
            keep_figures(found)
    return {name: found[name] for name in deps if name in found}, deps


def tasks_of(found, deps):
    """The tasks of the gate, each with those that it waits for and its seconds. A seed begins beside the crate's own proof; without
    one a crate's edits are tried in turn."""
    tasks = {}
    for name, (proof, tests, edits) in found.items():
        lower = [(it, "proof") for it in all_below(deps, name) if it in found]
        tasks[name, "proof"] = (lower, proof)
        if tests:
            tasks[name, "tests"] = (lower, tests)
        own, count = [(name, it) for it in ("proof", "tests") if (name, it) in tasks], edits_of(name)
        if count > 1 and KEEPS:
            seed = min(proof, edits)
            each = (edits - seed) / (count + 1)
            tasks[name, "seed"] = (lower, seed)
            for number in range(1, count + 1):
                tasks[name, f"edit {number}"] = ([*own, (name, "seed")], each)
            tasks[name, "last"] = ([(name, f"edit {number}") for number in range(1, count + 1)], each)
        elif count:
            tasks[name, "edits"] = (own, edits)
    return tasks


def behind(tasks):
    """The seconds of the longest chain that begins with each task."""
    found = {it: 0.0 for it in tasks}
    for it in reversed(list(tasks)):
        found[it] += tasks[it][1]
        for before in tasks[it][0]:
            found[before] = max(found[before], found[it])
    return found


def wall(of, jobs):
    """The wall time of a task at so many jobs: what begins and loads it doesn't split."""
    fixed = min(of, 12)
    return fixed + (of - fixed) / {1: 1, 2: 1.85, 3: 2.6, 4: 3.2}[jobs]


def played(tasks, processors):
    """The wall time of all tasks, in the order that the gate takes them: the longest chain first, seeds and edits where
    proofs leave processors free."""
    order = behind(tasks)
    fills = lambda it: it[1] not in ("proof", "tests")
    left, done, running, now = sorted(tasks, key=lambda it: (fills(it), -order[it])), set(), [], 0.0
    while left or running:
        ready = [it for it in left if all(before in done for before in tasks[it][0])]
        for place, it in enumerate(ready):
            idle = processors - sum(jobs for _, _, jobs in running)
            if idle <= 0:
                break
            jobs = 1 if fills(it) else max(1, min(4, idle // (len(ready) - place)))
            left.remove(it)
            heapq.heappush(running, (now + wall(tasks[it][1], jobs), it, jobs))
        now, it, _ = heapq.heappop(running)
        done.add(it)
    return now


def chain(tasks):
    order = behind(tasks)
    at, path = max(order, key=order.get), []
    while at:
        path.append(".".join(at))
        at = max((it for it in tasks if at in tasks[it][0]), key=order.get, default=None)
    return max(order.values()), path


def above(found):
    for name, (proof, tests, edits) in found.items():
        is_program = os.path.exists(f"{top}/crates/{name}/src/main.rt")
        if is_program and proof + tests > MOST["program"]:
            print(f"above its budget: {name}, {proof + tests:.0f} s of {MOST['program']}")
        if not is_program and proof > MOST["proof"]:
            print(f"above its budget: the proof of {name}, {proof:.0f} s of {MOST['proof']}")
        if edits > MOST["edits"]:
            print(f"above its budget: the edits of {name}, {edits:.0f} s of {MOST['edits']}")


found, deps = reckon() if reckons else measure(names)
if not found:
    sys.exit("no crate was checked here yet: run rt all check first")
tasks = tasks_of(found, deps)
sums = [sum(it[at] for it in found.values()) / 60 for at in range(3)]
print(f"processor minutes of {len(found)} crates: proofs {sums[0]:.0f}, tests and runs {sums[1]:.0f}, edits {sums[2]:.0f}, in all {sum(sums):.0f}")
length, path = chain(tasks)
print(f"the longest chain at one job: {length / 60:.0f} minutes: {' > '.join(path)}")
for processors in (2, 4):
    print(f"on {processors} processors: {played(tasks, processors) / 60:.0f} minutes")
above(found)
PY
