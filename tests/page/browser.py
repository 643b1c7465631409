"""Headless Chromium, driven over its debugging pipe (file descriptors 3 and 4) by Python's standard library alone."""
import base64
import json
import os
import select
import shutil
import subprocess
import tempfile
import time

# How many seconds something is waited for. On a busy machine the variable says more.
PATIENCE = int(os.environ.get("PATIENCE", "60"))


class Browser:
    """A browser with a profile of its own. Each page of it is a tab."""

    def __init__(self, size="1280,900"):
        self.profile = tempfile.mkdtemp()
        to_read, self.to = os.pipe()
        self.back, to_write = os.pipe()

        def descriptors():
            os.dup2(to_read, 13)
            os.dup2(to_write, 14)
            os.dup2(13, 3)
            os.dup2(14, 4)

        # Root has no sandbox; the page comes from this machine alone.
        words = ["chromium", "--headless=new", "--no-sandbox", "--disable-gpu", "--remote-debugging-pipe", "--ignore-certificate-errors",
                 "--no-first-run", "--disable-background-networking", "--hide-scrollbars", "--user-data-dir=" + self.profile, "--window-size=" + size, "about:blank"]
        self.run = subprocess.Popen(words, preexec_fn=descriptors, close_fds=False, stdout=subprocess.DEVNULL, stderr=subprocess.DEVNULL)
        os.close(to_read)
        os.close(to_write)
        self.number, self.buffer, self.pages = 0, b"", {}

    def put(self, method, session=None, **params):
        self.number += 1
        message = {"id": self.number, "method": method, "params": params, **({"sessionId": session} if session else {})}
        os.write(self.to, json.dumps(message).encode() + b"\0")
        return self.number

    def take(self):
        while b"\0" not in self.buffer:
            if not select.select([self.back], [], [], PATIENCE)[0]:
                raise TimeoutError("the browser says nothing")
            piece = os.read(self.back, 1 << 16)
            if not piece:
                raise EOFError("the browser ended")
            self.buffer += piece
        text, self.buffer = self.buffer.split(b"\0", 1)
        return json.loads(text)

    def send(self, method, session=None, **params):
        number = self.put(method, session, **params)
        while True:
            said = self.take()
            if said.get("id") == number:
                if "error" in said:
                    raise RuntimeError(f"{method}: {said['error']}")
                return said["result"]
            if page := self.pages.get(said.get("sessionId")):
                page.event(said)

    def context(self):
        """A profile of its own within the browser: what it stores, and the password that it keeps, no other one has."""
        return self.send("Target.createBrowserContext")["browserContextId"]

    def page(self, context, user, word):
        """A tab that hands in a user's password when it is asked for one."""
        return Page(self, context, (user, word))

    def end(self):
        self.run.terminate()
        self.run.wait()
        shutil.rmtree(self.profile, ignore_errors=True)


class Page:
    def __init__(self, browser, context, auth):
        self.browser, self.auth, self.logs = browser, auth, []
        self.target = browser.send("Target.createTarget", url="about:blank", browserContextId=context)["targetId"]
        self.session = browser.send("Target.attachToTarget", targetId=self.target, flatten=True)["sessionId"]
        browser.pages[self.session] = self
        for name in ("Page", "Runtime", "Network", "Log"):
            self.send(name + ".enable")
        self.send("Fetch.enable", handleAuthRequests=True)

    def send(self, method, **params):
        return self.browser.send(method, self.session, **params)

    def event(self, said):
        params = said.get("params", {})
        if said.get("method") == "Fetch.requestPaused":
            self.browser.put("Fetch.continueRequest", self.session, requestId=params["requestId"])
        elif said.get("method") == "Fetch.authRequired":
            answer = {"response": "CancelAuth"}
            if self.auth:
                answer = {"response": "ProvideCredentials", "username": self.auth[0], "password": self.auth[1]}
            self.browser.put("Fetch.continueWithAuth", self.session, requestId=params["requestId"], authChallengeResponse=answer)
        elif said.get("method") == "Page.javascriptDialogOpening":
            self.browser.put("Page.handleJavaScriptDialog", self.session, accept=True)
        elif said.get("method") == "Runtime.exceptionThrown":
            self.logs.append(json.dumps(params["exceptionDetails"])[:600])
        elif said.get("method") == "Log.entryAdded":
            entry = params["entry"]
            # A refusal's status is no fault of the page; what the network can't give the tests bring about.
            if entry["level"] == "error" and entry["source"] != "network":
                self.logs.append(json.dumps(entry)[:600])

    def do(self, text):
        """What an expression gives; of a promise what it comes to."""
        made = self.send("Runtime.evaluate", expression=text, awaitPromise=True, returnByValue=True)
        if "exceptionDetails" in made:
            raise RuntimeError(json.dumps(made["exceptionDetails"])[:800])
        return made["result"].get("value")

    def until(self, text, seconds=PATIENCE):
        end = time.time() + seconds
        while time.time() < end:
            try:
                if got := self.do(text):
                    return got
            except RuntimeError:
                pass  # the page is on its way to another one
            time.sleep(0.05)
        if folder := os.environ.get("PICTURES_OF_FAULTS"):
            self.shot(os.path.join(folder, "timeout.png"), whole=True)
        raise TimeoutError(f"{text}; {self.logs[-3:]}")

    def go(self, url):
        self.send("Page.navigate", url=url)

    def media(self, **features):
        self.send("Emulation.setEmulatedMedia", media=features.pop("media", ""), features=[{"name": k.replace("_", "-"), "value": v} for k, v in features.items()])

    def size(self, width, height, mobile=False):
        self.send("Emulation.setDeviceMetricsOverride", width=width, height=height, deviceScaleFactor=1, mobile=mobile)

    def key(self, name, code=None, **more):
        for kind in ("keyDown", "keyUp"):
            self.send("Input.dispatchKeyEvent", type=kind, key=name, code=code or name, **more)

    def shot(self, path, whole=False):
        more = {"captureBeyondViewport": True} if whole else {}
        with open(path, "wb") as file:
            file.write(base64.b64decode(self.send("Page.captureScreenshot", format="png", **more)["data"]))

    def pdf(self, path, width, height):
        made = self.send("Page.printToPDF", printBackground=True, paperWidth=width, paperHeight=height, preferCSSPageSize=False)
        with open(path, "wb") as file:
            file.write(base64.b64decode(made["data"]))

    def close(self):
        self.browser.send("Target.closeTarget", targetId=self.target)
        self.browser.pages.pop(self.session, None)
