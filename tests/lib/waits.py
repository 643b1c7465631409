"""How long a door waits for a peer that sends nothing: `waits.py PROGRAM` serves the journal of the
current folder at two doors, with a silent link at each behind one that asks. Both silent ones are
ended after ten seconds, and get nothing. Read by tests/gate/examples.sh."""
import concurrent.futures
import sys
import time

import doors

DOORS = 2


def waited(serve, door):
    """The seconds for which a link that sends nothing is kept, or 0 where it gets an answer."""
    with serve.link(door) as link:
        link.ask(b"GET / HTTP/1.0\r\n\r\n")
    began = time.monotonic()
    with serve.link(door) as link:
        got = link.all()
    return time.monotonic() - began if got == b"" else 0


def main(program):
    serve = doors.Serve(program, DOORS, 2)
    with concurrent.futures.ThreadPoolExecutor(DOORS) as pool:
        seconds = list(pool.map(lambda door: waited(serve, door), range(DOORS)))
    # A machine at work may be late with one of them, and no machine is early.
    if not 10 <= min(seconds) < 10.5:
        serve.kill()
        sys.exit(f"the doors waited {seconds} seconds for a silent peer, and not 10")
    serve.end_served(2 * DOORS)


main(*sys.argv[1:])
