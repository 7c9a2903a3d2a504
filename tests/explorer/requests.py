"""Asks the explorer what it has to refuse, and asks it by many clients at once: hostile requests,
requests that were changed by chance, slow clients, damaged files, and arguments."""

import http.client
import itertools
import json
import os
import random
import re
import socket
import sys
import time
from concurrent.futures import ThreadPoolExecutor
from pathlib import Path

from tests.embed.common import EMBED, SEED, STONES, all_of_grid, made_up
from tests.explorer.answers import answer_for
from tests.explorer.common import Explored
from tests.lib.program import Answer, Begins, count
from tests.lib.steps import ROOT
from tests.lib.tables import own_tables

# How many clients there are, and how many requests all of them make.
CLIENTS, LOAD = 8, 10_000
# By how many kilobytes the server may grow while these are answered.
MOST_GROWTH = 8_192
# How many requests are changed by chance, and what is put into them, besides any bytes.
CHANGED = 1_000
ODD = [b"", b"", b"\r\n", b"\n", b" ", b"\0", b"%00", b"&", b"=", b"\xff\xfe", b": ", b"HTTP/9.9"]
ASKED = "/api/position?board=grid&text=XXX.OO.O."
PAIRS = b"GET /api/pairs HTTP/1.1"
# What each answer says to a browser.
GUARDS = {
    "content-security-policy": "default-src 'none'; script-src 'self'; style-src 'self'; "
    "img-src 'self'; connect-src 'self'; base-uri 'none'; form-action 'none'; "
    "frame-ancestors 'none'",
    "x-content-type-options": "nosniff",
    "referrer-policy": "no-referrer",
    "cross-origin-resource-policy": "same-origin",
    "cross-origin-opener-policy": "same-origin",
    "cache-control": "no-store",
}
TYPES = {"html": "text/html", "css": "text/css", "js": "text/javascript", "svg": "image/svg+xml"}

# ---- hostile requests: the status of each


def request(line, lines):
    return b"\r\n".join([line, *(it.encode() for it in lines), b"Connection: close", b"", b""])


def written(port):
    """The requests of refused.txt: the status, the first line, and those after it."""
    text = Path(ROOT, "tests/explorer/refused.txt").read_text(encoding="ascii")
    for row in re.findall(r"^\d.*", text.replace("PORT", str(port)), re.MULTILINE):
        status, what, *rest = row.split(" ", 2)
        rest = rest[0].encode().decode("unicode_escape") if rest else ""
        lines = rest.split(" | ") if what == ":" else [f"Host: 127.0.0.1:{port}"]
        asked = {"=": rest, ":": "GET /api/pairs HTTP/1.1"}.get(what, f"GET {what} HTTP/1.1")
        yield int(status), asked.encode("latin-1"), [it for it in lines if it]


def long_or_random(chance):
    """First lines that are too long, or a question of any bytes at which no parser ends a word."""
    for length in (2_049, 4_096, 9_000, 16_000, 70_000):
        yield 414, b"GET /" + b"a" * length + b" HTTP/1.1"
        yield 414, b"GET /api/position?board=grid&text=" + b"X" * length + b" HTTP/1.1"
    kinds = [it for it in range(256) if not bytes([it]).decode("latin-1").isspace() and it != 35]
    for _ in range(60):
        query = bytes(chance.choices(kinds, k=chance.randrange(1, 1_500)))
        yield 400, b"GET /api/position?" + query + b" HTTP/1.1"


def hostile_requests(port):
    """All of them: the status, the bytes that are sent, and whether no more is said to come."""
    host = f"Host: 127.0.0.1:{port}"
    rows = [*written(port), *((*it, [host]) for it in long_or_random(random.Random(SEED)))]
    rows += [(431, PAIRS, [host, *(f"X{it}: a" for it in range(many))]) for many in (200, 3_000)]
    rows.append((431, PAIRS, [host, f"X: {'a' * 16_384}"]))
    yield from ((status, request(line, lines), False) for status, line, lines in rows)
    # What follows a refused head is read, so that its sender gets the answer.
    line = b"POST / HTTP/1.1"
    yield 405, request(line, [host, "Content-Length: 900000"]) + b"a" * 900_000, False
    whole = PAIRS + f"\r\n{host}\r\nX: y\r\n\r\n".encode()
    yield from ((400, whole[:end], True) for end in range(1, len(whole) - 2))


def changed(request, chance):
    """A request of which some bytes were changed, left out or put in."""
    data = bytearray(request)
    for _ in range(chance.randrange(1, 6)):
        at, more = chance.randrange(len(data)), chance.randrange(1, 9)
        if chance.random() < 0.3:
            del data[at : at + more]
        else:
            put = chance.choice(ODD) or bytes(chance.choices(range(256), k=more))
            data[at : at + chance.randrange(2)] = put
    return bytes(data)


class Requests(Explored):
    """Whatever the explorer is sent, it answers or refuses, and goes on."""

    def body(self, answer, status, kind="application/json", has_body=True):
        """The body of an answer, which has a status and says what it is and what is allowed."""
        head, _, body = answer.partition(b"\r\n\r\n")
        first, *lines = head.decode().split("\r\n")
        self.assertEqual(first.split(" ")[:2], ["HTTP/1.1", str(status)])
        lines = {name.lower(): it for name, it in (line.split(": ", 1) for line in lines)}
        expected = {**GUARDS, "content-type": kind, "connection": "close"}
        expected["allow"] = "GET" if status == 405 else None
        self.same("the head", {it: lines.get(it) for it in expected}, expected)
        self.assertEqual(len(body), int(lines["content-length"]) if has_body else 0)
        return body

    def refusal(self, answer, status):
        """What a refusal says, which is why, and nothing else."""
        told = json.loads(self.body(answer, status))
        self.assertTrue(told["error"])
        self.assertLessEqual(set(told), {"error", "pair", "command"})
        return told

    def test_files_of_the_page(self):
        """They are given as they are, and name no other place."""
        host = f"Host: 127.0.0.1:{self.server.port}"
        for path in Path(EMBED, "explorer").iterdir():
            content, place = path.read_bytes(), "" if path.name == "index.html" else path.name
            kind = f"{TYPES[path.suffix[1:]]}; charset=utf-8"
            answer = self.server.send(request(f"GET /{place} HTTP/1.1".encode(), [host]))
            self.assertEqual(self.body(answer, 200, kind), content, path)
            rest = content.replace(b"http://www.w3.org/2000/svg", b"")
            self.assertNotRegex(rest, b"http|//cdn", path)

    def test_hostile_requests(self):
        requests = list(hostile_requests(self.server.port))
        self.assertGreaterEqual(len(requests), 270)
        for place, (status, sent, is_cut) in enumerate(requests):
            with self.subTest(sent[:80], status=status, bytes=len(sent)):
                answer = self.server.send(sent, is_cut)
                if sent.startswith(b"HEAD "):
                    self.body(answer, status, has_body=False)
                else:
                    self.refusal(answer, status)
            if place % 20 == 0:
                self.server.ask("/api/pairs")

    def test_what_a_refusal_says(self):
        """It names what is answered, with the port."""
        port = self.server.port
        error = f"this server answers only for 127.0.0.1:{port} and localhost:{port}"
        for host in (f"localhost:{port + 1}", f"127.0.0.1:{port + 1}", "localhost:"):
            with self.subTest(host):
                answer = self.server.send(request(PAIRS, [f"Host: {host}"]))
                self.assertEqual(self.refusal(answer, 403), {"error": error})

    def test_changed_requests(self):
        chance, host = random.Random(SEED), f"Host: 127.0.0.1:{self.server.port}"
        whole = request(f"GET {ASKED} HTTP/1.1".encode(), [host])
        for _ in range(CHANGED):
            sent = changed(whole, chance)
            answer = self.server.send(sent, True)
            statuses = rb"HTTP/1\.1 (200|400|403|404|405|413|414|431|505) "
            self.assertRegex(answer, statuses, sent)
        self.assertEqual(self.server.ask(ASKED)["depth"], 3)

    def test_slow_clients(self):
        """Requests that stop half-way, and clients that say nothing, hold nobody up and are let
        go."""
        place = "127.0.0.1", self.server.port
        links = [socket.create_connection(place, timeout=30) for _ in range(40)]
        for link in links[::2]:
            link.sendall(b"GET /api/pairs HTT")
        began = time.monotonic()
        self.server.ask("/api/pairs")
        self.assertLess(time.monotonic() - began, 2)
        for number, link in enumerate(links):
            with link:
                status = link.recv(65_536)[:13]
            self.assertEqual(status, b"" if number % 2 else b"HTTP/1.1 408 ")

    def test_many_clients(self):
        """They get right answers, and the server doesn't grow by it."""
        texts = {"nine": made_up(200, STONES, SEED + 1), "grid": all_of_grid()[::9]}
        asked = {}
        for board in texts:
            for text, looked in self.looked_up(board, texts[board]).items():
                path = f"/api/position?board={board}&text={text}"
                asked[path] = answer_for(board, text, looked)
        self.make_load(asked, LOAD // 5)
        before = self.status("RssAnon")
        self.make_load(asked, LOAD)
        self.assertLess(self.status("RssAnon") - before, MOST_GROWTH)
        time.sleep(0.2)
        self.assertLess(self.status("Threads"), CLIENTS)

    def status(self, name):
        """The kilobytes of the server's own memory, or how many threads it has."""
        lines = Path(f"/proc/{self.server.process.pid}/status").read_text(encoding="ascii")
        return int(re.search(rf"^{name}:\s+(\d+)", lines, re.MULTILINE)[1])

    def make_load(self, asked, requests):
        """So many requests by all clients at once, each over a connection that is kept."""

        def wrong(first):
            link = http.client.HTTPConnection("127.0.0.1", self.server.port, timeout=60)
            paths = itertools.islice(itertools.cycle(asked), first, first + requests // CLIENTS)
            for path in paths:
                link.request("GET", path)
                answer = link.getresponse()
                content = answer.read()
                if answer.status != 200 or json.loads(content) != asked[path]:
                    return f"{path}: {answer.status} {content}, not {asked[path]}"
            link.close()

        count(requests)
        with ThreadPoolExecutor(CLIENTS) as pool:
            self.assertEqual(list(filter(None, pool.map(wrong, range(CLIENTS)))), [])

    # ---- what it begins with

    def test_damaged_file(self):
        """A file that is cut short has a status of its own, and the others are answered from."""
        to = own_tables(f"{self.make_room()}/tables", "grid", "4-3", True)
        os.truncate(f"{to}/grid-4-3.nmmt", 100)
        server = self.serve(to)
        server.ask("/api/position", 500, board="grid", text="XXX.OOOO.")
        server.ask("/api/counts", 500, board="grid", pair="4-3")
        server.ask("/api/find", 500, board="grid", pair="4-3", result="won")
        self.assertEqual(server.ask(ASKED)["depth"], 3)

    def test_arguments(self):
        """It begins with the board that is named, and says what it lacks."""
        server = self.serve(self.folder, "--board", "grid")
        self.assertEqual(server.ask("/api/pairs")["board"], "grid")
        empty, script = self.make_room(), f"{EMBED}/explorer.py"
        lacks = f"no table files of any board in {empty}\n./morris build nine 4-4"
        for status, errors, *words in (
            (1, "the explorer can't begin: ", self.folder, "--port", str(server.port)),
            (1, lacks, empty),
            (1, "no table files", f"{empty}/no"),
            (2, "usage: ", self.folder, "--board", "chess"),
            (2, "usage: ", self.folder, "--port", "65536"),
        ):
            words = [script, "--no-browser", *words]
            expected = Answer(status, b"", Begins(errors.encode()))
            self.expect(words, expected, program=sys.executable, env=os.environ)
