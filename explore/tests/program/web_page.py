"""Starts the server of `python3 -m gcflip_explore` and its page in a headless browser, for tests."""
import contextlib
import http.client
import json
import re
import signal
import subprocess
import sys

from . import browser
from .harness import skip
from .python import prepared

ADDRESS = re.compile(r"http://127\.0\.0\.1:(\d+)/([\w-]{32})/")
SECONDS = 30


def hear_interrupts():
    """Restores interrupts, which a shell's background jobs and their children ignore."""
    signal.signal(signal.SIGINT, signal.SIG_DFL)


class Server:
    """The server, started by its command."""

    def __init__(self, python, *words):
        self.process = subprocess.Popen([sys.executable, "-m", "gcflip_explore", "--no-browser", *words], env=python.environment,
                                        preexec_fn=hear_interrupts,
                                        stdout=subprocess.PIPE, stderr=subprocess.PIPE, text=True)
        said = self.process.stdout.readline()
        found = ADDRESS.search(said)
        if found is None:
            self.process.kill()
            raise RuntimeError("it said %r, %r" % (said, self.process.communicate()[1]))
        self.address, self.port, self.token = found.group(0), int(found.group(1)), found.group(2)

    def request(self, method, path, body=None, **headers):
        """Returns the status, the headers and the body of the server's answer."""
        connection = http.client.HTTPConnection("127.0.0.1", self.port, timeout=SECONDS)
        connection.request(method, path, body, {name.replace("_", "-"): value for name, value in headers.items()})
        response = connection.getresponse()
        try:
            return response.status, dict(response.getheaders()), response.read()
        finally:
            connection.close()

    def ask(self, name, **data):
        """Returns the answer to a request of the page."""
        status, _, body = self.request("POST", "/%s/%s" % (self.token, name), json.dumps(data), Content_Type="application/json")
        return json.loads(body) if status == 200 else {"status": status, "message": body.decode()}

    def end(self):
        """Ends the server as Ctrl+C does. Returns what it wrote to standard error."""
        self.process.send_signal(2)
        try:
            return self.process.communicate(timeout=SECONDS)[1]
        except subprocess.TimeoutExpired:
            self.process.kill()
            return "it did not end" + self.process.communicate()[1]


@contextlib.contextmanager
def served(folder, *words):
    """Yields a server, or None, with a line that says so, if the library cannot be built."""
    python = prepared(folder)
    if python is None:
        yield None
        return
    server = Server(python, *words)
    try:
        yield server
    finally:
        server.end()


class Page(browser.Browser):
    """The page in a browser, with the actions of a reader."""

    def __init__(self, path, folder, server):
        super().__init__(path, folder)
        self.server = server
        self.prefer(color_scheme="light", reduced_motion="reduce")
        self.resize(1360, 900)
        self.open(server.address)
        self.wait("document.body && document.body.dataset.ready")

    def click(self, name):
        """Clicks a button by its id."""
        self.run("document.getElementById(%s).click();" % json.dumps(name))

    def text(self, name):
        """Returns the text of an element."""
        return self.run("return document.getElementById(%s).innerText;" % json.dumps(name))

    def set(self, name, value):
        """Puts a value into a select or a text, as a reader does."""
        self.run("""const it = document.querySelector(%s);
            it.value = %s;
            it.dispatchEvent(new Event("change"));
            it.dispatchEvent(new Event("input"));""" % (json.dumps(name), json.dumps(value)))

    def wait_for(self, name, part):
        """Waits until an element shows a text."""
        self.wait("document.getElementById(%s).innerText.includes(%s)" % (json.dumps(name), json.dumps(part)))

    def step(self, at, total):
        """Plays the next event, and waits until the page shows it."""
        self.click("play-step")
        self.wait_for("event", "Event %d of %d" % (at, total))

    def trace(self):
        """Returns the text of the trace."""
        return self.run("return document.querySelector('#trace-editor textarea').value;")

    def replies(self):
        """Returns the replies next to the visible lines, by line number."""
        found = self.run("""return [...document.querySelectorAll("#trace-editor .replies div")]
            .map((it) => [Number(it.dataset.line), it.textContent]);""")
        return dict(map(tuple, found))

    def drop(self, area, name, data):
        """Drops a file on an area."""
        self.run("""const transfer = new DataTransfer();
            transfer.items.add(new File([new Uint8Array(%s)], %s));
            document.querySelector(%s).dispatchEvent(new DragEvent("drop", { dataTransfer: transfer, bubbles: true, cancelable: true }));"""
                 % (json.dumps(list(data)), json.dumps(name), json.dumps(area)))

    def drop_text(self, area, name, text):
        """Drops a file of text on an area, also a long one."""
        self.run("""const transfer = new DataTransfer();
            transfer.items.add(new File([%s], %s));
            document.querySelector(%s).dispatchEvent(new DragEvent("drop", { dataTransfer: transfer, bubbles: true, cancelable: true }));"""
                 % (json.dumps(text), json.dumps(name), json.dumps(area)))

    def command(self, name, **words):
        """Presses the button of a command, after it puts these words into its inputs in order."""
        self.run("""const form = document.querySelector(`[data-command="${%s}"]`);
            for (const [at, value] of %s.entries()) { form.querySelectorAll("input, select")[at].value = value; }
            form.querySelector("button").click();""" % (json.dumps(name), json.dumps([str(word) for word in words.values()])))


@contextlib.contextmanager
def page(folder, *words):
    """Yields the page in a browser, or None, with a line that says so, if there is no browser."""
    path = browser.found()
    if path is None:
        skip("explore in a browser", "there is no chromium on the path; 'apt-get install chromium' installs it")
        yield None
        return
    with served(folder, *words) as server:
        if server is None:
            yield None
            return
        shown = Page(path, folder, server)
        try:
            yield shown
        finally:
            shown.close()


def complaints(shown):
    return "; ".join(shown.complaints) or None


def wrong(found, wanted):
    return None if found == wanted else "%r, wanted %r" % (found, wanted)
