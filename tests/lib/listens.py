"""Where the program's doors listen: `listens.py PROGRAM` serves the journal of the current folder
at two doors, one link each, and reads in /proc/net which sockets of that process listen. They are
the two ports of 127.0.0.1, and no other port or address. Read by tests/gate/examples.sh."""
import ipaddress
import os
import pathlib
import re
import sys
import time

import doors

LISTENS = "0A"


def address(text):
    """An address of /proc/net: words of four bytes, each with its last byte first."""
    data = bytes.fromhex(text)
    return str(ipaddress.ip_address(b"".join(data[at:at + 4][::-1] for at in range(0, len(data), 4))))


def sockets(process):
    """The numbers of the sockets that a process has open."""
    found = set()
    for file in pathlib.Path(f"/proc/{process}/fd").iterdir():
        try:
            found.update(re.findall(r"^socket:\[(\d+)\]$", os.readlink(file)))
        except FileNotFoundError:
            pass
    return found


def listening(process):
    """The addresses and ports at which a process listens, in order."""
    mine, found = sockets(process), []
    for table in ("tcp", "tcp6"):
        for line in pathlib.Path("/proc/net", table).read_text().splitlines()[1:]:
            _, local, _, state, *_, number = line.split()[:10]
            if state == LISTENS and number in mine:
                host, port = local.split(":")
                found.append((address(host), int(port, 16)))
    return sorted(found)


def main(program):
    serve = doors.Serve(program, 2, 1)
    until, got = time.time() + doors.PATIENCE, []
    while len(got) < 2 and serve.process.poll() is None and time.time() < until:
        time.sleep(0.01)
        got = listening(serve.process.pid) if serve.process.poll() is None else []
    # A third socket, if there were one, would be opened by then too.
    time.sleep(0.2)
    got = listening(serve.process.pid) if serve.process.poll() is None else got
    wanted = [("127.0.0.1", serve.first), ("127.0.0.1", serve.first + 1)]
    if got != wanted:
        serve.kill()
        sys.exit(f"the doors listen at {got} and not at {wanted}")
    for door in range(serve.doors):
        with serve.link(door) as link:
            link.ask(b"GET / HTTP/1.0\r\n\r\n")
    status, out, said = serve.end()
    if (status, out, said) != (0, f"served {serve.doors} links\n", ""):
        sys.exit(f"serve ended with {status}, {out!r} and {said!r}")


main(*sys.argv[1:])
