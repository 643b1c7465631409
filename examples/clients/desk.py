#!/usr/bin/env python3
"""Sends calls to a city's doors by Python's standard library, one a line of the input, and prints the answer to each on one line:

    desk.py URL < calls > replies

where URL is that of a door, as http://127.0.0.1:8101, or of the proxy before them. CITYFUND_NETRC names a file with the user and the
password (`machine HOST login USER password PASSWORD`), CITYFUND_CA the certificate of the proxy where the system doesn't know it.
The status is 0 where all was taken, 1 where a line was refused or in no form, and 2 where a line has no answer: then the lines from
that one on weren't sent, and can be, all of the input again just as well. A program of your own can `import desk` and use `Desk`.
"""
import base64
import http.client
import json
import netrc
import os
import ssl
import sys
import time
import urllib.parse

ANSWERED = (200, 400, 409, 413)
TRANSIENT = (429, 500, 502, 503, 504)


class NoAnswer(Exception):
    """A call has no answer; whether it was taken isn't known, unless the proxy refused it."""


class Desk:
    """One who calls. It sends a call again, as it was and with its key, until an answer comes: the call is then answered with its
    place, `was`, or taken now, and never twice. Its looks see all that was answered to it before."""

    def __init__(self, url, tries=8, netrc_file=None, ca_file=None):
        self.url, self.tries, self.seen = urllib.parse.urlsplit(url), tries, 0
        self.tls = ssl.create_default_context(cafile=ca_file) if self.url.scheme == "https" else None
        self.head = {"Content-Type": "application/json", "Connection": "close"}
        if netrc_file:
            user, _, password = netrc.netrc(netrc_file).authenticators(self.url.hostname)
            self.head["Authorization"] = "Basic " + base64.b64encode(f"{user}:{password}".encode()).decode()

    def call(self, **fields):
        """The answer to a call of these fields: its code, and what its body says. A key names the call for good, so take that of the
        document (`inv-77-10423`), and store it before you send."""
        code, reply = self.send(json.dumps(fields))
        return code, json.loads(reply)

    def send(self, text):
        """The code and the body of the answer to a line."""
        text = self.with_after(text)
        for number in range(self.tries):
            if number:
                time.sleep(min(2 ** (number - 1), 60))
            code, reply = self.ask(text)
            if code in ANSWERED:
                break
            if code and code not in TRANSIENT:
                raise NoAnswer(f"{code} {reply}")
        else:
            raise NoAnswer(f"{code} {reply}")
        if reply.startswith('{"at":'):
            self.seen = max(self.seen, json.loads(reply)["at"])
        return code, reply

    def with_after(self, text):
        """A look with what was seen; any other line as it is."""
        try:
            call = json.loads(text)
        except ValueError:
            return text
        if not isinstance(call, dict) or {"desk", "key", "after"} & call.keys():
            return text
        return json.dumps({**call, "after": self.seen}, separators=(",", ":"))

    def ask(self, text):
        """One try: the code, or None where no whole answer came, and the body or what went wrong. A link isn't kept: a door gives one
        at a time, and others wait meanwhile."""
        make, more = (http.client.HTTPSConnection, {"context": self.tls}) if self.tls else (http.client.HTTPConnection, {})
        link = make(self.url.hostname, self.url.port, timeout=60, **more)
        try:
            link.request("POST", "/calls", text.encode(), self.head)
            answer = link.getresponse()
            return answer.status, answer.read().decode()
        except (OSError, http.client.HTTPException) as fault:
            return None, repr(fault)
        finally:
            link.close()


def main():
    if len(sys.argv) != 2:
        sys.exit(__doc__)
    given = os.environ.get
    desk = Desk(sys.argv[1], int(given("CITYFUND_TRIES", 8)), given("CITYFUND_NETRC"), given("CITYFUND_CA"))
    refused = 0
    for number, line in enumerate(sys.stdin, 1):
        try:
            code, reply = desk.send(line.rstrip("\n"))
        except NoAnswer as fault:
            print(f"desk: line {number} has no answer: {fault}", file=sys.stderr)
            return 2
        print(reply, flush=True)
        refused |= code != 200
    return refused


if __name__ == "__main__":
    sys.exit(main())
