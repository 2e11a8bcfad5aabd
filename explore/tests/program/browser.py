"""Drives a headless browser over the DevTools protocol, with the standard library alone."""
import base64
import json
import os
import shutil
import socket
import struct
import subprocess
import time
import urllib.request

NAMES = ["chromium", "chromium-browser", "google-chrome", "google-chrome-stable"]
SECONDS = 30
TEXT, CLOSE, PING, PONG = 1, 8, 9, 10
# What the browser says of a script whose page was left while the script ran.
LEFT = "Inspected target navigated or closed"


class PageLeft(RuntimeError):
    """The page was left while a script ran in it."""


def found():
    """Returns the path of a browser, or None."""
    return next((path for path in map(shutil.which, NAMES) if path), None)


class WebSocket:
    """A connection to a WebSocket server on this machine (RFC 6455)."""

    def __init__(self, port, path):
        self.socket = socket.create_connection(("127.0.0.1", port), timeout=SECONDS)
        self.stream = self.socket.makefile("rb")
        key = base64.b64encode(os.urandom(16)).decode()
        self.socket.sendall(("GET %s HTTP/1.1\r\nHost: 127.0.0.1:%d\r\nUpgrade: websocket\r\nConnection: Upgrade\r\n"
                             "Sec-WebSocket-Key: %s\r\nSec-WebSocket-Version: 13\r\n\r\n" % (path, port, key)).encode())
        status = self.stream.readline()
        if b" 101 " not in status:
            raise ConnectionError("the browser says %r" % status)
        while self.stream.readline().strip():
            pass

    def send(self, payload, opcode=TEXT):
        """Sends a message in one frame. A client has to mask its frames."""
        length, mask = len(payload), os.urandom(4)
        if length < 126:
            size = struct.pack("!B", 128 | length)
        elif length < 65536:
            size = struct.pack("!BH", 128 | 126, length)
        else:
            size = struct.pack("!BQ", 128 | 127, length)
        times = -(-length // 4)
        masked = int.from_bytes(payload, "big") ^ int.from_bytes((mask * times)[:length], "big")
        self.socket.sendall(bytes([128 | opcode]) + size + mask + masked.to_bytes(length, "big"))

    def exactly(self, count):
        data = self.stream.read(count)
        if len(data) < count:
            raise ConnectionError("the browser closed the connection")
        return data

    def receive(self):
        """Returns the next message, assembled from its frames."""
        message = b""
        while True:
            first, second = self.exactly(2)
            length = second & 127
            if length == 126:
                length, = struct.unpack("!H", self.exactly(2))
            elif length == 127:
                length, = struct.unpack("!Q", self.exactly(8))
            payload, opcode = self.exactly(length), first & 15
            if opcode == PING:
                self.send(payload, PONG)
            elif opcode == CLOSE:
                raise ConnectionError("the browser closed the connection")
            elif opcode != PONG:
                message += payload
                if first & 128:
                    return message

    def close(self):
        self.socket.close()


class Browser:
    """A headless browser with one page. `complaints` has the errors of its console."""

    def __init__(self, path, folder):
        profile = os.path.join(folder, "profile")
        words = [path, "--headless=new", "--remote-debugging-port=0", "--user-data-dir=" + profile, "--no-first-run", "--disable-gpu",
                 "--disable-extensions", "--disable-background-networking", "--force-color-profile=srgb", "about:blank"]
        if os.geteuid() == 0:
            # The browser's sandbox does not work for the superuser.
            words.insert(1, "--no-sandbox")
        self.process = subprocess.Popen(words, stdout=subprocess.DEVNULL, stderr=subprocess.DEVNULL)
        self.number, self.complaints = 0, []
        try:
            port = self.port(os.path.join(profile, "DevToolsActivePort"))
            with urllib.request.urlopen("http://127.0.0.1:%d/json/list" % port, timeout=SECONDS) as response:
                target = next(page for page in json.load(response) if page["type"] == "page")
            self.web_socket = WebSocket(port, target["webSocketDebuggerUrl"].split(str(port), 1)[1])
        except Exception:
            self.process.kill()
            raise
        for domain in ("Page", "Runtime", "Log"):
            self.call(domain + ".enable")

    def port(self, path):
        """Waits until the browser reports its port."""
        end = time.monotonic() + SECONDS
        while time.monotonic() < end and self.process.poll() is None:
            if os.path.exists(path):
                with open(path, encoding="ascii") as file:
                    line = file.readline()
                if line.endswith("\n"):
                    return int(line)
            time.sleep(0.05)
        raise ConnectionError("the browser does not start")

    def call(self, method, **parameters):
        """Performs a command of the protocol, and returns its result."""
        self.number += 1
        self.web_socket.send(json.dumps({"id": self.number, "method": method, "params": parameters}).encode())
        while True:
            message = json.loads(self.web_socket.receive())
            if message.get("id") == self.number:
                if "error" in message:
                    kind = PageLeft if message["error"]["message"] == LEFT else RuntimeError
                    raise kind("%s: %s" % (method, message["error"]["message"]))
                return message["result"]
            self.note(message)

    def note(self, event):
        """Keeps the error that an event reports, if any."""
        method, details = event.get("method"), event.get("params", {})
        if method == "Runtime.exceptionThrown":
            self.complaints.append(json.dumps(details["exceptionDetails"]))
        elif method == "Log.entryAdded" and details["entry"]["level"] in ("error", "warning"):
            self.complaints.append(details["entry"]["text"])
        elif method == "Runtime.consoleAPICalled" and details["type"] in ("error", "warning", "assert"):
            self.complaints.append(json.dumps(details["args"]))

    def run(self, script):
        """Runs the body of an asynchronous function in the page, and returns its result."""
        result = self.call("Runtime.evaluate", expression="(async () => { %s })()" % script, awaitPromise=True, returnByValue=True)
        if "exceptionDetails" in result:
            raise RuntimeError(json.dumps(result["exceptionDetails"]))
        return result["result"].get("value")

    def wait(self, condition):
        """Waits until an expression is true in the page, or in the page that takes its place meanwhile."""
        end = time.monotonic() + SECONDS
        while time.monotonic() < end:
            try:
                if self.run("return Boolean(%s);" % condition):
                    return
            except PageLeft:
                pass
            time.sleep(0.02)
        raise TimeoutError("in the page it did not become true that %s" % condition)

    def open(self, address):
        self.call("Page.navigate", url=address)

    def resize(self, width, height, mobile=False):
        self.call("Emulation.setDeviceMetricsOverride", width=width, height=height, deviceScaleFactor=1, mobile=mobile)

    def prefer(self, **features):
        """Sets the user's preferences, such as color_scheme="dark"."""
        wanted = [{"name": "prefers-" + name.replace("_", "-"), "value": value} for name, value in features.items()]
        self.call("Emulation.setEmulatedMedia", features=wanted)

    def press(self, key):
        """Presses a key, which goes to the focused element."""
        text = key if len(key) == 1 else ""
        self.call("Input.dispatchKeyEvent", type="keyDown", key=key, text=text)
        self.call("Input.dispatchKeyEvent", type="keyUp", key=key)

    def screenshot(self, path):
        """Writes a picture of the visible part of the page, as PNG or WebP by the file's ending."""
        kind = os.path.splitext(path)[1][1:]
        quality = {"quality": 70} if kind == "webp" else {}
        taken = self.call("Page.captureScreenshot", format=kind, **quality)
        with open(path, "wb") as file:
            file.write(base64.b64decode(taken["data"]))

    def close(self):
        """Ends the browser."""
        try:
            self.call("Browser.close")
        except (ConnectionError, OSError):
            pass
        self.web_socket.close()
        try:
            self.process.wait(SECONDS)
        except subprocess.TimeoutExpired:
            self.process.kill()
            self.process.wait()
