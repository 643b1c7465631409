"""What a program takes inside its syncs and between them, beside a file that keeps its length: read by serve.sh, durable.sh,
limit.sh and postgres.sh. It needs cc."""
import mmap
import os
import shutil
import struct
import subprocess

HERE = os.path.dirname(os.path.abspath(__file__))


def are_there():
    """Whether the tools in C can be made."""
    return shutil.which("cc") is not None


class Tools:
    """The tools in C, made in a folder."""

    def __init__(self, folder):
        self.folder = folder
        for name, more in (("timed", ["-shared", "-fPIC"]), ("keeps", []), ("callers", [])):
            subprocess.run(["cc", "-O1", *more, os.path.join(HERE, name + ".c"), "-o", self.path(name)], check=True)

    def path(self, name):
        return os.path.join(self.folder, name + ".out")

    def limit(self, folder, syncs, sleep=None):
        """Half the syncs a second of a file in the folder that keeps its length: so many calls with two syncs each."""
        file = os.path.join(folder, "keeps")
        words = [self.path("keeps"), file, str(2 * syncs)]
        taken = subprocess.run(words, env=environment(self, None, sleep), stdout=subprocess.PIPE, check=True).stdout
        os.remove(file)
        return syncs / float(taken)

    def callers(self, port, calls, key, accounts):
        """The seconds in which a caller at each door from a port on has so many vouchers accepted, one after another."""
        words = [self.path("callers"), str(port), str(calls), key, *(",".join(map(str, account)) for account in accounts)]
        return float(subprocess.run(words, stdout=subprocess.PIPE, check=True).stdout)


def environment(tools, times, sleep, room=True):
    """The environment in which syncs are added up in a file, in which each is a sleep of so many microseconds, and in which a program
    writes no room ahead of its records."""
    more = {"LD_PRELOAD": tools.path("timed")}
    if not room:
        more["NO_ROOM"] = "1"
    if times:
        more["SYNC_TIMES"] = times
    if sleep:
        more["SYNC_SLEEP"] = str(int(sleep * 1000))
    return dict(os.environ, **more)


class Times:
    """The times of one program's syncs."""

    def __init__(self, tools, name, sleep=None, room=True):
        path = os.path.join(tools.folder, name + ".times")
        with open(path, "wb") as file:
            file.write(bytes(32))
        with open(path, "r+b") as file:
            self.map = mmap.mmap(file.fileno(), 32)
        self.environment = environment(tools, path, sleep, room)
        self.syncs = self.inside = self.between = 0

    def begin(self):
        self.map[:] = bytes(32)

    def end(self):
        """Adds the syncs since `begin` up."""
        syncs, inside, between, _ = struct.unpack("=4Q", self.map[:])
        self.syncs += syncs
        self.inside += inside / 1000
        self.between += between / 1000


class Measured:
    """What so many calls took, in turns with a limit."""

    def __init__(self, times):
        self.times, self.calls, self.seconds, self.limits = times, 0, 0.0, []

    def add(self, calls, seconds, limit):
        self.calls += calls
        self.seconds += seconds
        self.limits.append(limit)

    def said(self):
        rate, limit = self.calls / self.seconds, sum(self.limits) / len(self.limits)
        each = [part / max(self.times.syncs, 1) * 2 for part in (self.times.inside, self.times.between)]
        return (f"{rate:,.0f} accepted a second, {1e6 / rate:.0f} us each: {each[0]:.0f} us in two syncs, {each[1]:.0f} us beside them; "
                f"{rate / limit:.2f} of {limit:,.0f}, half the syncs of a file that keeps its length")
