#!/bin/sh
# Refuses memory to `serve`: over a founded journal it answers three calls, a look at a line and a statement on one link, and the N-th
# growth of the run is refused, for each N that it has; then the same with each growth from the N-th on. Either the run ends
# before it serves with a status of docs/OPERATE.md, and leaves the journal byte for byte. Or each answer is the one of a run that has
# memory, until one is the fixed 503, which ends its link; a look on the next link shows what was accepted until then and nothing else,
# what had no answer is answered there as if it came first, and the run ends as it should. After it the journal has exactly the calls
# that were answered as accepted, as a desk says to which they are handed again. Growths are refused by a library in C (refuse.c) that is
# compiled here and stands in front of malloc, calloc and realloc; so they are refused to the C library too, as where a thread is
# started. Skipped where there is no cc or python3. It takes some minutes. Not part of the merge gate.
top=$(cd "$(dirname "$0")/../.." && pwd)
for tool in cc python3; do
    command -v $tool > /dev/null || { echo "memory: skipped: there is no $tool"; exit 0; }
done
. "$top/tests/lib/program.sh"
scratch=$(mktemp -d) || exit 1
trap 'rm -rf "$scratch"' EXIT
cp "$top/crates/cases_runs/data/elm.toml" "$scratch/chart.toml"
cc -O1 -shared -fPIC -o "$scratch/refuse.so" "$top/tests/lib/refuse.c" || { echo "memory: cc makes no library"; exit 1; }
cd "$scratch" && PYTHONPATH=$top/tests/lib timeout 1800 python3 - "$program" "$scratch/refuse.so" <<'PY'
import collections, contextlib, itertools, os, pathlib, struct, subprocess, sys

from doors import Answer, Serve, Verdicts, get, post

PROGRAM, LIBRARY = sys.argv[1:]
JOURNAL, COUNT = pathlib.Path("fund.journal"), pathlib.Path("count")
LINKS = 3
ALL = 1 << 62  # a growth that no run comes to

# What is sent, and what is answered where nothing is refused: by docs/CALLS.md and docs/RULES.md.
ADOPT = ('{"call":"adopt","desk":1,"key":"b1","on":"2025-07-01","fund":1,"year":2026,'
         '"lines":[{"line":0,"amount":100000}],"estimates":[]}')
VOUCHER = ('{"call":"voucher","desk":4,"key":"v%d","on":"2025-07-05","vendor":77,'
           '"items":[{"fund":1,"dept":20,"object":510,"amount":%d}]}')
LOOK = get("/lines/0/2026")
CALLS = [ADOPT, VOUCHER % (1, 60000), VOUCHER % (2, 40001)]
SENT = [post(call) for call in CALLS] + [LOOK, get("/reports/2026/budget")]
REFUSED = '{"at":2,"no":{"asked":"40001","code":24,"line":0,"name":"Exceeds","room":"40000"}}'

def line(at, original, expended):
    return ('{"at":%d,"is":{"appropriated":"%d","encumbered":"0","expended":"%d","held":"0","original":"%d","room":"%d"}}'
            % (at, original, expended, original, original - expended))

# The look at the line after so many calls were accepted.
LOOKS = [line(0, 0, 0), line(1, 100000, 0), line(2, 100000, 60000)]
ANSWERED = [(200, '{"at":1,"ok":{}}'), (200, '{"at":2,"ok":{"assets":[],"voucher":1}}'), (409, REFUSED), (200, LOOKS[2])]
# A desk that is handed the calls again, over a journal that has so many of them.
AGAIN = [
    ['{"at":1,"ok":{}}', '{"at":2,"ok":{"assets":[],"voucher":1}}', REFUSED],
    ['{"at":1,"ok":{},"was":1}', '{"at":2,"ok":{"assets":[],"voucher":1}}', REFUSED],
    ['{"at":2,"ok":{},"was":1}', '{"at":2,"ok":{"assets":[],"voucher":1},"was":2}', REFUSED],
]
FIELDS = {"content-type": "application/json"}
NO_MEMORY = Answer(503, {**FIELDS, "content-length": "15", "connection": "close"}, '{"memory":true}')
DOOR_FAULT = (10, "", "cityfund: door fault\n")
UNSERVED = ((12, "", "cityfund: no memory\n"), DOOR_FAULT)

def answer_of(code, body):
    return Answer(code, {**FIELDS, "content-length": str(len(body))}, body)

def ask(link, requests):
    """The answers on a link, up to its end or a 503, behind which it must have ended."""
    answers = []
    with contextlib.suppress(OSError):
        for request in requests:
            answer = link.ask(request)
            if answer is None:
                break
            answers.append(answer)
            if answer.code == 503:
                if link.all():
                    answers.append("more behind a 503")
                break
    return answers

class Run:
    """A run of `serve` with LINKS links at one door, to which the growths from one number to another are refused: what was answered on
    each link. Behind the first one a link begins with a look, and goes on with what wasn't answered yet."""

    def __init__(self, first, last):
        JOURNAL.write_bytes(FOUNDED)
        COUNT.write_bytes(bytes(16))
        serve = Serve(PROGRAM, 1, LINKS, env={**os.environ, "LD_PRELOAD": LIBRARY, "REFUSE_COUNT": str(COUNT),
                                              "REFUSE_FIRST": str(first), "REFUSE_LAST": str(last)})
        self.links, rest = [], SENT
        for number in range(LINKS):
            requests = [LOOK, *rest] if number else rest
            answers = []
            with contextlib.suppress(ConnectionError), serve.link(0) as link:
                answers = ask(link, requests)
            self.links.append(answers)
            done = sum(answer != NO_MEMORY for answer in answers)
            rest = requests[max(done, 1 if number else 0):]
        self.end = serve.end()
        self.asked, self.refused = struct.unpack("QQ", COUNT.read_bytes())

    def refusals(self):
        return sum(answers.count(NO_MEMORY) for answers in self.links)

def accepted(answers):
    """How many calls were answered as accepted, and not as repeats."""
    return sum('"ok"' in answer.body and '"was"' not in answer.body for answer in answers)

def desk_says():
    """What a desk says over the journal, to which the calls are handed again."""
    lines = "".join(call + "\n" for call in CALLS).encode()
    return subprocess.run([PROGRAM, "desk"], input=lines, stdout=subprocess.PIPE).stdout.decode().splitlines()

def fault_of(run, most):
    """What is wrong with a run in which at most so many answers may be the 503, or None."""
    if not any(run.links):
        if run.end not in UNSERVED:
            return f"nothing was served, and the end is {run.end}"
        return None if JOURNAL.read_bytes() == FOUNDED else "nothing was served, and the journal is another"
    count, rest = 0, PLAIN
    for number, answers in enumerate(run.links):
        wanted = [answer_of(200, LOOKS[count]), *rest] if number else rest
        told = answers[:-1] if answers[-1:] == [NO_MEMORY] else answers
        if told != wanted[:len(told)]:
            return f"on link {number + 1}, after {count} accepted calls: {answers}"
        if len(told) == len(answers) < len(wanted) and not (run.end == DOOR_FAULT and not answers):
            return f"link {number + 1} ended behind {len(answers)} answers without a 503: {run.end}"
        fresh = told[1:] if number else told
        count, rest = count + accepted(fresh), rest[len(fresh):]
    if run.refusals() > most:
        return f"{run.refusals()} answers are the 503"
    if run.end not in ((0, f"served {LINKS} links\n", ""), DOOR_FAULT):
        return f"the end is {run.end}"
    said = desk_says()
    return None if said == AGAIN[count] else f"after {count} accepted calls a desk says {said}"

def way_of(run):
    if run.end[0] != 0:
        return f"with status {run.end[0]}"
    return "with a 503" if run.refusals() else "with every answer"

subprocess.run([PROGRAM, "found"], stdout=subprocess.DEVNULL, check=True)
FOUNDED = JOURNAL.read_bytes()
verdicts = Verdicts("memory")
plain = Run(0, 0)
PLAIN = plain.links[0]
verdicts.same("nothing is refused", (PLAIN[:4], len(PLAIN)), ([answer_of(*answer) for answer in ANSWERED], len(SENT)))
verdicts.same("a run in which nothing is refused", fault_of(plain, 0), None)
verdicts.verdict("growths are seen", plain.asked > 0, "none: the library isn't in front of those of the program")
for title, name, last, most in (("one refused", "growth %d", 0, 1), ("all refused from one on", "all from growth %d on", ALL, LINKS)):
    ways = collections.Counter()
    for number in itertools.count(1):
        run = Run(number, max(number, last))
        if not run.refused:
            break
        fault = fault_of(run, most)
        verdicts.verdict(name % number, fault is None, fault)
        ways[way_of(run)] += 1
    print(f"memory: {title}: {sum(ways.values())} runs, of which " + ", ".join(f"{ways[way]} ended {way}" for way in sorted(ways)))
sys.exit(verdicts.status())
PY
