"""Tests of the server of gcflip_explore, by requests: its refusals, the messages of its command, and its answers."""
import contextlib
import http.client
import os
import re
import shutil
import socket
import subprocess
import sys
import threading
import time

from . import pairs
from .c_builds import done
from .examples import FOLDER as EXAMPLES, content, names_of
from .harness import file_of
from .python import PACKAGE, PAGE, copied, prepared, wrong_libraries
from .traces import PLAYED, refused_texts, trace_and_replies
from .web_page import ADDRESS, SECONDS, Server, hear_interrupts, served, wrong

FILES = os.path.join(PAGE, "gcflip_explore", "page")

# The refused addresses, by their paths after the host. T is the token.
REFUSED_PATHS = {
    "no token": ("/", 403), "no token before a file": ("/main.js", 403), "nothing behind the token": ("/T", 403),
    "a part of the token": ("/T-/", 403), "another token": ("/" + "A" * 32 + "/", 403), "a token of letters beyond ASCII": ("/%C3%A4/", 403),
    "no such file": ("/T/nothing.js", 404), "a file of the package": ("/T/server.py", 404), "a path upwards": ("/T/../server.py", 404),
    "a path upwards, coded": ("/T/%2e%2e/server.py", 404), "a path upwards, coded twice": ("/T/%252e%252e/server.py", 404),
    "a path from the root": ("/T//etc/passwd", 404), "a path with a query": ("/T/?file=main.js", 404), "the page by its file": ("/T/index.html", 404),
    "a folder": ("/T/page/", 404), "a request of the page": ("/T/play", 404),
}


def files(_program, folder):
    """Checks that the server sends the files of the page with the token, and nothing else."""
    with served(folder) as server:
        if server is None:
            return
        top = "/%s/" % server.token
        for name in sorted(os.listdir(FILES)):
            status, headers, body = server.request("GET", top + ("" if name == "index.html" else name))
            with open(os.path.join(FILES, name), "rb") as file:
                right = status == 200 and body == file.read()
            yield "the file %s" % name, None if right else "status %d" % status
            policy = headers.get("Content-Security-Policy", "")
            right = policy.startswith("default-src 'none'; script-src 'self';") and "unsafe" not in policy and "*" not in policy
            yield "the policy of %s" % name, None if right else policy
            right = headers.get("X-Content-Type-Options") == "nosniff" and headers.get("Referrer-Policy") == "no-referrer"
            yield "the headers of %s" % name, None if right else str(headers)
        for name, (path, wanted) in REFUSED_PATHS.items():
            for method in ("GET", "POST"):
                status, headers, body = server.request(method, path.replace("T", server.token, 1), Content_Type="application/json")
                # The last one is a request of the page, without the data that it needs.
                expected = 400 if method == "POST" and path == "/T/play" else wanted
                right = status == expected and len(body.split()) > 3
                yield "%s, by %s" % (name, method), None if right else "status %d, said %r" % (status, body)
                guarded = headers.get("X-Content-Type-Options") == "nosniff" and headers.get("Content-Security-Policy", "").startswith("default-src 'none';")
                yield "the headers of %s, by %s" % (name, method), None if guarded else str(headers)


HOSTS = {"another name": "example.org", "another name with the port": "example.org:P", "the right name without the port": "127.0.0.1",
         "another port": "127.0.0.1:1", "an empty name": "", "a name that begins like ours": "127.0.0.1:P.example.org"}


def refusals(_program, folder):
    """Checks that the server refuses requests of another host, not of the page, too long, or broken, and continues."""
    with served(folder) as server:
        if server is None:
            return
        path = "/%s/start" % server.token
        for name, host in HOSTS.items():
            status, _, _ = server.request("GET", "/%s/" % server.token, Host=host.replace("P", str(server.port)))
            yield name, wrong(status, 403)
            status, _, _ = server.request("POST", path, "{}", Host=host.replace("P", str(server.port)), Content_Type="application/json")
            yield "%s, for a request" % name, wrong(status, 403)
        status, _, _ = server.request("GET", "/%s/" % server.token, Host="localhost:%d" % server.port)
        yield "localhost is the host as well", wrong(status, 200)
        for kind in ("text/plain", "application/x-www-form-urlencoded", "multipart/form-data"):
            # A form of another site can send only these kinds.
            yield "a body of type %s" % kind, wrong(server.request("POST", path, "{}", Content_Type=kind)[0], 415)
        json_type = {"Content_Type": "application/json"}
        for name, body in {"no JSON": "{", "a byte of no text": b"\xff", "much nesting": "[" * 100000}.items():
            yield name, wrong(server.request("POST", path, body, **json_type)[0], 400)
        for length, wanted in {"134217729": 413, "99999999999999999999": 413, "-1": 411, "1x": 411, "": 411, "\u00b2": 411}.items():
            status = raw_request(server, path, "Content-Length: %s\r\n" % length)
            yield "a length of %r" % length, wrong(status, wanted)
        yield "a body that is too long is read and discarded", wrong(server.request("POST", path, b" " * 140000000, **json_type)[0], 413)
        idle = [socket.create_connection(("127.0.0.1", server.port), timeout=SECONDS) for _ in range(40)]
        yield "of more than 32 idle connections the oldest are closed", wrong([is_closed(connection) for connection in idle[:8]], [True] * 8)
        started = time.monotonic()
        yield "it answers beside idle connections", wrong(server.request("POST", path, "{}", **json_type)[0], 200)
        yield "it answers at once", None if time.monotonic() - started < 5 else "it took %.1f seconds" % (time.monotonic() - started)
        for connection in idle:
            connection.close()
        yield "it answers again once they are gone", None if answers_again(server, path) else "it does not"
        yield "a body in pieces", wrong(raw_request(server, path, "Transfer-Encoding: chunked\r\n"), 411)
        for method in ("PUT", "DELETE", "OPTIONS", "HEAD", "TRACE"):
            yield "the method %s" % method, wrong(server.request(method, "/%s/" % server.token)[0], 501)
        yield "a request that does not exist", wrong(server.ask("dance"), {"status": 404, "message": "There is no such request.\n"})
        with open("/proc/net/tcp", encoding="ascii") as file:
            bound = [line.split()[1] for line in file if line.split()[1].endswith(":%04X" % server.port) and line.split()[3] == "0A"]
        yield "it listens on loopback alone", wrong(bound, ["0100007F:%04X" % server.port])
        yield "it still answers", wrong(len(server.ask("start")["examples"]) > 10, True)
        yield "it ends without complaint", wrong(server.end(), "")


def patience(_program, folder):
    """Checks that the server closes a connection whose request is not there after 20 seconds, as its comment says, and not much earlier or
    later: a silent one, and those that send a byte now and then, in the head and in the body."""
    with served(folder) as server:
        if server is None:
            return
        head = "POST /%s/start HTTP/1.1\r\nHost: 127.0.0.1:%d\r\nContent-Type: application/json\r\nContent-Length: 1000\r\n\r\n" % (server.token, server.port)
        cases = {"a silent connection": (b"GET ", b""), "a connection that sends its head slowly": (b"GET ", b"x"),
                 "a connection that sends its body slowly": (head.encode(), b" ")}
        waited = dict.fromkeys(cases)
        threads = [threading.Thread(target=wait_for_end, args=(server.port, *sent, waited, name)) for name, sent in cases.items()]
        for thread in threads:
            thread.start()
        for thread in threads:
            thread.join()
        for name, seconds in waited.items():
            yield "%s is closed" % name, None if seconds is not None and 15 < seconds < 35 else "after %s seconds" % seconds


def wait_for_end(port, first, more, waited, name):
    """Sends the first bytes, and then others twice a second until the server closes the connection. Notes how long that took."""
    started = time.monotonic()
    with socket.create_connection(("127.0.0.1", port), timeout=0.5) as connection, contextlib.suppress(ConnectionError):
        connection.sendall(first)
        while time.monotonic() - started < 40:
            try:
                if connection.recv(4096) == b"":
                    break
            except socket.timeout:
                connection.sendall(more)
        else:
            return
    waited[name] = time.monotonic() - started


def sessions(_program, folder):
    """Checks that a tab does not wait for another one, whose request takes long, and that each has its own players."""
    with served(folder) as server:
        if server is None:
            return
        long = "heaptrace 1\nspace 1048576 mutators 1\n" + "m 0 new r0 0 500\nm 0 same r0 r0\n" * 1000 + "m 0 look r0\n" * 398000
        found, began = {}, time.monotonic()

        def play_long():
            found["slow"] = server.ask("play", text=long, position=400000, known=400000, width=900, session="one")
            found["slow took"] = time.monotonic() - began

        slow = threading.Thread(target=play_long)
        slow.start()
        time.sleep(0.2)
        text = content("write_while_scanning.trace").decode()
        other = server.ask("play", text=text, position=11, known=0, width=900, session="two")
        took = time.monotonic() - began
        slow.join()
        yield "the long request and the short one are answered", wrong((found["slow"].get("position"), other.get("position")), (400000, 11))
        yield "another tab is answered meanwhile", None if took < 0.7 * found["slow took"] else "after %.1f of %.1f seconds" % (took, found["slow took"])
        for number in range(20):
            server.ask("play", text=text, position=number % 12, known=0, width=900, session="tab %d" % number)
        yield "an old session goes on", wrong(server.ask("play", text=text, position=3, known=0, width=900, session="two").get("position"), 3)
        for name in ("x" * 65, 7):
            yield "the session %r" % name, wrong(server.ask("start", session=name).get("message"), "The name of the session has to be a short text.")


# The objects of the long texts have so many fields, so that a block has several of them. They take two words more.
FIELDS = 3
OBJECT_WORDS = FIELDS + 2


def long_pairs(_program, folder):
    """Checks long texts of two heaps: the verdict, a picture in blocks with few shapes, and that the objects of a block come page by page, each once, also
    if the request leaves the text out because the server has it."""
    with served(folder) as server:
        if server is None:
            return
        for name, text, verdict, count in pairs.long_texts(60000, 60000, FIELDS):
            found = server.ask("check", text=text, width=900, session="one")
            yield "verdict on the text that is %s" % name, wrong(found.get("line"), verdict)
            yield "blocks of the text that is %s" % name, None if found["block"] > 1 and len(found["picture"]["shapes"]) < 400 else "%d words, %d shapes" % (
                found["block"], len(found["picture"]["shapes"]))
            yield "all objects of the text that is %s are reachable" % name, wrong([line for line in found["told"] if "unreachable" in line], [])
            if verdict.startswith("yes"):
                # Each bundle has about a sixth of the pairs, and says how many.
                told = [int(shape["text"]) for shape in found["picture"]["shapes"] if shape["role"] == "small" and shape.get("text", "").isdigit()]
                yield "bundles of the text that is %s" % name, wrong((sum(told), len(told)), (count, 6))
            # A range of objects, with the words around it that belong to none of them.
            first, last = 1 + OBJECT_WORDS * (count // 2), OBJECT_WORDS * (count // 2 + 20)
            seen, pages = [], 0
            while pages == 0 or len(seen) < found["count"] and pages < 10:
                found = server.ask("look", heap="new", first=first, last=last, skipped=len(seen), width=900, session="one")
                tips = {shape.get("tip", "") for shape in found["picture"]["shapes"]}
                seen += [place["rows"][0]["address"] for place in found["places"]]
                pages += 1
                drawn = {"object at %d of the %s space" % (address, heap) for address in seen[found["skipped"]:] for heap in ("old", "new")}
                yield "page %d of the text that is %s" % (pages, name), None if drawn <= tips else "it lacks %s" % (drawn - tips)
            yield "objects of the text that is %s" % name, wrong(seen, list(range(first, last, OBJECT_WORDS)))
            lines = text.split("\n")
            yield "words of the text that is %s" % name, wrong([row["word"] for row in found["places"][0]["rows"]],
                                                              [lines[row["line"] - 1] for row in found["places"][0]["rows"]])
        for request in ("check", "look", "spoil"):
            yield "%s without a text" % request, wrong(server.ask(request, heap="old", first=0, last=9, width=900, session="two"), {"unknown": True})


def is_closed(connection):
    """Returns whether the server closes a connection soon. For a request it would wait longer."""
    connection.settimeout(5)
    try:
        return connection.recv(1) == b""
    except ConnectionError:
        return True
    except socket.timeout:
        return False


def answers_again(server, path):
    """Waits until the server accepts a request again."""
    end = time.monotonic() + SECONDS
    while time.monotonic() < end:
        with contextlib.suppress(OSError, http.client.HTTPException):
            return server.request("POST", path, "{}", Content_Type="application/json")[0] == 200
        time.sleep(0.1)
    return False


def raw_request(server, path, headers):
    """Sends a raw request, and returns the status of the answer."""
    with socket.create_connection(("127.0.0.1", server.port), timeout=SECONDS) as connection:
        connection.sendall(("POST %s HTTP/1.1\r\nHost: 127.0.0.1:%d\r\nContent-Type: application/json\r\n%s\r\n" % (
            path, server.port, headers)).encode("latin-1"))
        return int(connection.makefile("rb").readline().split()[1])


def commands(_program, folder):
    """Checks the messages of the command about its arguments."""
    python = prepared(folder)
    if python is None:
        return
    for name, (path, part) in wrong_libraries(folder).items():
        without = {**python.environment, "GCFLIP_LIBRARY": path}
        found = done([sys.executable, "-m", "gcflip_explore", "--no-browser"], env=without)
        said = found.stderr.decode()
        right = found.status == 1 and found.stdout == b"" and said.startswith("explore: " + path) and part in said and said.count("\n") == 1
        yield name, None if right else "status %s, said %r" % (found.status, said)
        found = done([sys.executable, "-m", "gcflip_explore", "--help"], env=without)
        yield "the help with %s" % name, None if found.status == 0 and found.stdout.startswith(b"usage: ") else found.stderr.decode()
    old = done([sys.executable, "-m", "gcflip.explore", "--help"], env={**python.environment, "PYTHONPATH": PACKAGE})
    said = old.stderr.decode()
    right = old.status == 0 and old.stdout.startswith(b"usage: python3 -m gcflip_explore ") and said == "explore: the command is now 'python3 -m gcflip_explore'\n"
    yield "the old command goes on", None if right else "status %s, said %r" % (old.status, said)
    taken = socket.create_server(("127.0.0.1", 0))
    cases = {
        "a file that does not exist": ([os.path.join(folder, "nothing")], "No such file or directory"),
        "a folder": ([folder], "Is a directory"),
        "another text": ([file_of(folder, "text", b"hello\n")], "the first line is that of no trace, pair text or image text"),
        "a text too large": ([file_of(folder, "large", b"heappair 1\n" + b"x" * 67108864)], "the page takes texts of up to 64 MiB"),
        "a port that is taken": (["--port", str(taken.getsockname()[1])], "Address already in use"),
        "a port that does not exist": (["--port", "65536"], "port 65536"),
    }
    for name, (words, part) in cases.items():
        found = python.run("-m", "gcflip_explore", "--no-browser", *words)
        said = found.stderr.decode()
        right = found.status == 1 and found.stdout == b"" and said.startswith("explore: ") and part in said and said.count("\n") == 1
        yield name, None if right else "status %s, said %r" % (found.status, said)
    taken.close()
    process = subprocess.Popen([sys.executable, "-m", "gcflip_explore"], env={**python.environment, "BROWSER": "echo opened %s"},
                               stdout=subprocess.PIPE, text=True, preexec_fn=hear_interrupts)
    said = [process.stdout.readline() for _ in range(3)]
    process.send_signal(2)
    process.communicate(timeout=SECONDS)
    yield "it opens the browser", wrong(said[2], "opened %s\n" % ADDRESS.search(said[0]).group(0))
    yield "Ctrl+C ends it well", wrong(process.returncode, 0)
    for name in ("write_while_scanning.trace", "one_replica_for_two.pair"):
        server = Server(python, os.path.join(EXAMPLES, name))
        opened = server.ask("start")["file"]
        server.end()
        yield "opens %s" % name, wrong(opened, {"kind": name.split(".")[1], "name": name, "text": content(name).decode()})


def found_library(_program, folder):
    """Checks that the command finds the library by itself: in its place in the repository, and beside the package as a wheel has it."""
    python = prepared(folder)
    if python is None:
        return
    environment = {name: value for name, value in os.environ.items() if name not in ("GCFLIP_LIBRARY", "LD_LIBRARY_PATH")}
    environment.update(PYTHONDONTWRITEBYTECODE="1")
    package = copied(PACKAGE, os.path.join(folder, "copy", "bindings", "python"))
    code = "import gcflip; from gcflip.library import place; print(place(), gcflip.library_version())"
    for name, at in [("in the repository", os.path.join(folder, "copy", "bindings", "c", "out")), ("in a wheel", os.path.join(package, "gcflip"))]:
        os.makedirs(at, exist_ok=True)
        shutil.copy(python.environment["GCFLIP_LIBRARY"], os.path.join(at, "libgcflip.so"))
        found = done([sys.executable, "-c", code], env=environment, cwd=package)
        yield "the library %s" % name, wrong(found.stdout.decode(), "%s 0.2.0\n" % os.path.join(os.path.realpath(at), "libgcflip.so"))


def answers(_program, folder):
    """Compares the replies to all traces, the faults of all other texts, and the verdicts on all pair texts, over HTTP."""
    with served(folder) as server:
        if server is None:
            return
        played = [(name, *trace_and_replies(conversation)) for name, conversation in PLAYED.items()]
        played += [("example %s" % name, content(name + ".trace"), content(name + ".replies")) for name in names_of(".trace")]
        for name, text, replies in played:
            count = text.count(b"\n") - 2
            found = server.ask("play", text=text.decode(), position=count, known=0, width=900)
            yield "replies to %s" % name, wrong(found.get("replies"), replies.decode().split("\n")[:-1])
        for name, text, line in refused_texts():
            found = server.ask("play", text=text.decode("utf-8", "replace"), position=0, known=0, width=900)
            number = re.search(r"\d+$", line)
            yield "fault of %s" % name, wrong(found.get("fault"), {"message": line, "line": int(number.group()) if number else None})
        verdicts = [(name, text.decode(), verdict) for name, text, verdict in pairs.texts_and_verdicts()]
        verdicts += [(name, text.decode("utf-8", "replace"), line) for name, text, line in pairs.refused_texts() if len(text) < 1 << 20]
        for name, text, verdict in verdicts:
            yield "verdict on %s" % name, wrong(server.ask("check", text=text, width=900).get("line"), verdict)
