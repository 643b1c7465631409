"""Two doors whose callers wait for each other: `meeting.py PROGRAM` serves the journal of the current
folder at two doors, one link each. A call is sent at one door only once the call before it was
answered at the other, and both links stay open. So doors that are served in turn never answer. The
looks at the second door are of the places that the first door told. Read by tests/gate/examples.sh."""
import json
import sys

import doors

ACCOUNT = {"fund": 1, "dept": 20, "object": 510}
LOOK = {"call": "line", "line": 3, "year": 2026}
ADOPT = {"call": "adopt", "desk": 1, "key": "b1", "on": "2025-07-01", "fund": 1, "year": 2026,
         "lines": [{"line": 3, "amount": 100000}], "estimates": []}
VOUCHER = {"call": "voucher", "desk": 4, "key": "v1", "on": "2025-07-05", "vendor": 77,
           "items": [ACCOUNT | {"amount": 60000}]}
SHOWN = {"appropriated": "100000", "encumbered": "0", "held": "0", "original": "100000"}
# Each door with its call and its reply.
STEPS = [
    (0, ADOPT, {"at": 1, "ok": {}}),
    (1, LOOK | {"after": 1}, {"at": 1, "is": SHOWN | {"expended": "0", "room": "100000"}}),
    (0, VOUCHER, {"at": 2, "ok": {"assets": [], "voucher": 1}}),
    (1, LOOK | {"after": 2}, {"at": 2, "is": SHOWN | {"expended": "60000", "room": "40000"}}),
]


def main(program):
    serve = doors.Serve(program, 2, 1)
    with serve.link(0) as first, serve.link(1) as second:
        for door, call, wanted in STEPS:
            got = (first, second)[door].call(call)
            if got != (200, wanted):
                serve.kill()
                sys.exit(f"door {door} answers {json.dumps(call)} with {got} and not {wanted}")
    serve.end_served(serve.doors)


main(*sys.argv[1:])
