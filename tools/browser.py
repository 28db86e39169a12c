"""A headless Chromium, driven over a pair of pipes; for the tests of pages."""

import fcntl
import itertools
import json
import os
import shutil
import subprocess
import sys
import tempfile
import time

NAMES = ("chromium", "chromium-browser", "google-chrome", "google-chrome-stable")


def find():
    """The path of a browser, or None."""
    return next((path for path in map(shutil.which, NAMES) if path), None)


# The browser reads commands from 3 and writes answers to 4.
PIPES = "import os, sys; os.dup2(int(sys.argv[1]), 3); os.dup2(int(sys.argv[2]), 4); os.execv(sys.argv[3], sys.argv[3:])"


def high(pipe):
    """The same pipe under a number that is not in the way of 3 and 4."""
    out = fcntl.fcntl(pipe, fcntl.F_DUPFD_CLOEXEC, 10)
    os.close(pipe)
    return out


class Browser:
    """One page in a browser that runs until it is closed; what the page says is kept in `events`."""

    def __init__(self, path, width=1400, height=1000):
        self.folder = tempfile.TemporaryDirectory(ignore_cleanup_errors=True)
        self.numbers, self.events, self.rest, self.session = itertools.count(1), [], b"", None
        to_read, self.out = map(high, os.pipe())
        self.into, to_write = map(high, os.pipe())
        command = [path, "--headless=new", "--no-sandbox", "--disable-gpu", "--remote-debugging-pipe",
                   f"--user-data-dir={self.folder.name}", f"--window-size={width},{height}", "about:blank"]
        self.process = subprocess.Popen([sys.executable, "-c", PIPES, str(to_read), str(to_write), *command],
                                        pass_fds=(to_read, to_write), stdin=subprocess.DEVNULL,
                                        stdout=subprocess.DEVNULL, stderr=subprocess.DEVNULL)
        os.close(to_read)
        os.close(to_write)
        try:
            target = self.ask("Target.createTarget", url="about:blank")["targetId"]
            self.session = self.ask("Target.attachToTarget", targetId=target, flatten=True)["sessionId"]
            for part in ("Page", "Runtime", "Network", "Log"):
                self.ask(part + ".enable")
        except BaseException:
            self.close()
            raise

    def close(self):
        """Ends the browser, by force where it does not end by itself."""
        try:
            self.session = None
            self.ask("Browser.close")
            self.process.wait(5)
        except (OSError, RuntimeError, subprocess.TimeoutExpired):
            self.process.kill()
            self.process.wait()
        os.close(self.out)
        os.close(self.into)
        self.folder.cleanup()

    def __enter__(self):
        return self

    def __exit__(self, *_):
        self.close()

    def ask(self, method, **parameters):
        """Sends a command and waits for its answer."""
        number = next(self.numbers)
        command = {"id": number, "method": method, "params": parameters}
        if self.session and not method.startswith("Target."):
            command["sessionId"] = self.session
        os.write(self.out, json.dumps(command).encode() + b"\0")
        while True:
            message = self.message()
            if message.get("id") == number:
                if "error" in message:
                    raise RuntimeError(f"{method}: {message['error']}")
                return message["result"]
            self.events.append(message)

    def message(self):
        """The next message of the browser."""
        while b"\0" not in self.rest:
            some = os.read(self.into, 1 << 16)
            if not some:
                raise RuntimeError("the browser has ended")
            self.rest += some
        line, self.rest = self.rest.split(b"\0", 1)
        return json.loads(line)

    def open(self, url):
        """Opens a page and waits until it is loaded."""
        self.ask("Page.navigate", url=url)
        while self.value("document.readyState") != "complete" or self.value("location.href") == "about:blank":
            time.sleep(0.05)

    def value(self, expression):
        """What an expression gives in the page."""
        answer = self.ask("Runtime.evaluate", expression=expression, returnByValue=True)
        if "exceptionDetails" in answer:
            raise RuntimeError(f"{expression}: {answer['exceptionDetails']}")
        return answer["result"].get("value")

    def click(self, selector):
        """A click of the mouse in the middle of an element."""
        x, y = self.value(f"""(() => {{
            const found = document.querySelector({json.dumps(selector)});
            found.scrollIntoView({{block: "center", inline: "center"}});
            const box = found.getBoundingClientRect();
            return [box.x + box.width / 2, box.y + box.height / 2];
        }})()""")
        for kind in ("mousePressed", "mouseReleased"):
            self.ask("Input.dispatchMouseEvent", type=kind, x=x, y=y, button="left", clickCount=1)

    def faults(self):
        """Errors that the page has thrown or logged."""
        self.value("0")
        return [message for message in self.events if message.get("method") == "Runtime.exceptionThrown"
                or message.get("method") == "Log.entryAdded" and message["params"]["entry"]["level"] == "error"]

    def requests(self):
        """The addresses that were asked for."""
        self.value("0")
        return [message["params"]["request"]["url"] for message in self.events
                if message.get("method") == "Network.requestWillBeSent"]
