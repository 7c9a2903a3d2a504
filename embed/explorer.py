"""Shows positions in a browser, and what each move is worth.

    python3 explorer.py FOLDER [--board BOARD] [--port N] [--no-browser]

It serves a page at `http://127.0.0.1:8624/`, over the table files that `morris build --into FOLDER`
wrote, and answers other programs there in JSON: README.md beside this file has each request. It
needs Python and the module `morris`, and nothing from a network.

Whatever a request says, it reads no file but those that were opened when it began: the pages, whose
names stand below, and the table files. It listens on the loopback address alone.
"""

from __future__ import annotations

import argparse
import errno
import hashlib
import http.server
import io
import json
import os
import re
import shlex
import socket
import socketserver
import sys
import threading
import time
import traceback
import urllib.parse
import webbrowser
from typing import Any, Callable, Dict, List, Optional, Sequence, Tuple

import morris

if __package__:
    from .explorer_tables import BOARDS, Board, Counts, Pair, TableFile, Unreadable, pair_name
else:
    from explorer_tables import BOARDS, Board, Counts, Pair, TableFile, Unreadable, pair_name

__all__ = ["Explorer", "NoTables", "Refusal", "Server", "main"]

ADDRESS = "127.0.0.1"
PORT = 8624
# The pages and what they are. No other file is served.
PAGES = {
    "index.html": "text/html",
    "explorer.css": "text/css",
    "icon.svg": "image/svg+xml",
    "main.js": "text/javascript",
    "board.js": "text/javascript",
    "chart.js": "text/javascript",
    "exercise.js": "text/javascript",
    "geometry.js": "text/javascript",
    "moves.js": "text/javascript",
    "page.js": "text/javascript",
    "scene.js": "text/javascript",
    "server.js": "text/javascript",
    "state.js": "text/javascript",
    "words.js": "text/javascript",
}
POLICY = (
    "default-src 'none'; script-src 'self'; style-src 'self'; img-src 'self'; connect-src 'self'; "
    "base-uri 'none'; form-action 'none'; frame-ancestors 'none'"
)
SAFE = {
    "Content-Security-Policy": POLICY,
    "X-Content-Type-Options": "nosniff",
    "Referrer-Policy": "no-referrer",
    "Cross-Origin-Resource-Policy": "same-origin",
    "Cross-Origin-Opener-Policy": "same-origin",
    "Cache-Control": "no-store",
}
# How long the first line of a request may be and how long all of its head, in bytes; how many
# seconds it may take to come, and what comes after a refusal is read; how many clients are served
# at once.
MOST_LINE, MOST_HEAD = 2_048, 16_384
HEAD_SECONDS, REST_SECONDS = 5.0, 1.0
MOST_CLIENTS = 64
# What is raised where a client goes away, or keeps the server waiting.
GONE = (ConnectionError, socket.timeout)
# The value of a position in which the player to move can't.
LOST = morris.Value(morris.Kind.LOST, 0)


class Refusal(Exception):
    """A request is refused: with this status of HTTP, and what `error` says and `more` adds."""

    def __init__(self, status: int, error: str, **more: object) -> None:
        super().__init__(error)
        self.status = status
        self.answer = {"error": error, **more}


class NoTables(Exception):
    """A folder has no table files of a board."""


# ---- what is answered


class Shelf:
    """The tables of a board in a folder: as the library has them open, and their files."""

    def __init__(self, folder: str, name: str) -> None:
        self.name = name
        self.board = BOARDS[name]
        self.tables: Optional[morris.Tables] = None
        self.files: Dict[Pair, TableFile] = {}
        try:
            self.tables = morris.open_tables(folder, name)
        except FileNotFoundError:
            return
        for pair in self.tables.pairs:
            path = os.path.join(folder, self.file_name(pair))
            if os.path.isfile(path):
                self.files[pair] = TableFile(path, self.board, pair)

    def file_name(self, pair: Pair) -> str:
        return f"{self.name}-{pair_name(pair)}.nmmt"

    def value(self, text: str) -> morris.Value:
        """The value of a position for the player to move, who has lost with two stones."""
        if text.count("X") == 2:
            return LOST
        if self.tables is None:
            raise morris.Fault(morris.Status.NO_TABLE)
        return self.tables.value(text)

    def moves(self, text: str) -> List[morris.Outcome]:
        """The legal moves of a position, of which a player with two stones has none."""
        return self.tables.moves(text) if self.tables and text.count("X") > 2 else []

    def wanted(self, own: int, other: int) -> Pair:
        """The pair of which a position has no table: its own, or the one that captures lead to."""
        pairs = self.tables.pairs if self.tables else []
        pair = max(own, other), min(own, other)
        return (max(own, other - 1), min(own, other - 1)) if pair in pairs else pair


def _value_fields(value: morris.Value) -> Dict[str, object]:
    return {
        "result": str(value.kind),
        "depth": None if value.kind == morris.Kind.DRAW else value.depth,
    }


def _after(text: str, move: morris.Move) -> str:
    """The position after a move, as the opponent sees it, who is then to move."""
    points = list(text)
    points[move.start], points[move.end] = ".", "X"
    if move.taken is not None:
        points[move.taken] = "."
    return "".join(points).translate(str.maketrans("XO", "OX"))


class Explorer:
    """What is answered to the requests for JSON, over the tables of a folder."""

    def __init__(self, folder: str, board: Optional[str] = None) -> None:
        self.folder = folder
        self.shelves = {name: Shelf(folder, name) for name in BOARDS}
        there = [name for name, shelf in self.shelves.items() if shelf.tables is not None]
        self.board = board or next(iter(there), "nine")
        if self.board not in there:
            raise NoTables(f"no table files of {board or 'any board'} in {folder}")
        self.counts = Counts(folder)
        # Each request with the names that it has to have and those that it may have.
        self.requests: Dict[str, Tuple[Callable[..., Dict[str, object]], str, str]] = {
            "/api/pairs": (self.pairs, "", ""),
            "/api/position": (self.position, "board text", ""),
            "/api/find": (self.find, "board pair result", "least most seed searched"),
            "/api/counts": (self.count, "board pair", ""),
        }

    def answer(self, path: str, query: str) -> Dict[str, object]:
        """The answer to a request for JSON. Raises `Refusal`."""
        if path not in self.requests:
            raise Refusal(404, "there is nothing here")
        call, needed, allowed = self.requests[path]
        parameters = _parameters(query)
        for name in parameters:
            if name not in f"{needed} {allowed}".split():
                raise Refusal(400, f"{name!a} isn't asked for here")
        for name in needed.split():
            if name not in parameters:
                raise Refusal(400, f"{name} is missing")
        try:
            return call(**parameters)
        except (Unreadable, morris.Fault) as error:
            raise Refusal(500, f"a file is refused: {error}") from None

    def pairs(self) -> Dict[str, object]:
        boards = {}
        for name, shelf in self.shelves.items():
            boards[name] = [
                {"pair": pair_name(it), "entries": file.entries, "version": file.version}
                for it, file in sorted(shelf.files.items(), key=lambda it: (sum(it[0]), it[0]))
            ]
        folder = shlex.quote(self.folder)
        return {"board": self.board, "boards": boards, "folder": folder}

    def position(self, board: str, text: str) -> Dict[str, object]:
        shelf = self._shelf(board)
        own, other = _read_text(text, shelf.board)
        try:
            value, moves = shelf.value(text), shelf.moves(text)
        except morris.Fault as fault:
            if fault.status != morris.Status.NO_TABLE:
                raise
            raise self._missing(shelf, shelf.wanted(own, other)) from None
        if max((it.value for it in moves), default=LOST) != value:
            raise Refusal(500, "the files of this position and its moves disagree")
        return {
            "board": board,
            "text": text,
            "own": own,
            "other": other,
            **_value_fields(value),
            "moves": [
                {
                    "move": str(it.move),
                    "from": it.move.start,
                    "to": it.move.end,
                    "taken": it.move.taken,
                    "next": _after(text, it.move),
                    **_value_fields(it.value),
                    "best": it.value == value,
                }
                for it in moves
            ],
        }

    def find(
        self,
        board: str,
        pair: str,
        result: str,
        least: str = "0",
        most: str = "999",
        seed: str = "0",
        searched: str = "0",
    ) -> Dict[str, object]:
        table, name = self._file(board, pair), pair_name(_read_pair(pair))
        bounds = _number("least", least, 65_534), _number("most", most, 65_534)
        codes = _codes(result, *bounds)
        asked = [board, name, result, *map(str, bounds), str(_number("seed", seed))]
        chance = hashlib.sha256(" ".join(asked).encode()).digest()
        table.check()
        done = _number("searched", searched, table.entries)
        entry, done = table.search(codes, int.from_bytes(chance[:8], "big"), done)
        answer = {"board": board, "pair": name, "entries": table.entries, "searched": done}
        if entry is None:
            done_with = done == table.entries
            return {**answer, "done": done_with, "text": None, "result": result, "depth": None}
        symmetry = chance[8] % len(table.board.images)
        own, other = (table.board.image(symmetry, it) for it in table.position(entry))
        text = table.board.text(own, other)
        found = _in_words(table.codes(entry, entry + 1)[0])
        if _value_fields(self.shelves[board].value(text)) != found:
            raise Refusal(500, "the file and the library disagree on a position")
        return {**answer, "done": True, "text": text, **found}

    def count(self, board: str, pair: str) -> Dict[str, object]:
        table = self._file(board, pair)
        counts = self.counts.ask(self.shelves[board].file_name(table.pair), table)
        return {"board": board, "pair": pair_name(table.pair), "entries": table.entries, **counts}

    def _shelf(self, board: str) -> Shelf:
        if board not in self.shelves:
            raise Refusal(400, f"the board is {' or '.join(self.shelves)}")
        return self.shelves[board]

    def _file(self, board: str, text: str) -> TableFile:
        shelf, pair = self._shelf(board), _read_pair(text)
        if sum(pair) > shelf.board.points:
            raise Refusal(400, "the pair has more stones than the board has points")
        if pair not in shelf.files:
            raise self._missing(shelf, pair)
        return shelf.files[pair]

    def _missing(self, shelf: Shelf, pair: Pair) -> Refusal:
        name = pair_name(pair)
        command = f"./morris build {shelf.name} {name} --classes --into {shlex.quote(self.folder)}"
        return Refusal(404, f"there is no table of {name}", pair=name, command=command)


def _parameters(query: str) -> Dict[str, str]:
    """The parameters of a query by their names. A name comes once."""
    if not query:
        return {}
    try:
        found = urllib.parse.parse_qsl(
            query, keep_blank_values=True, strict_parsing=True, errors="strict", max_num_fields=16
        )
    except ValueError:
        raise Refusal(400, "the query isn't one") from None
    parameters = dict(found)
    if len(parameters) != len(found):
        raise Refusal(400, "a name of the query comes twice")
    return parameters


def _read_pair(text: str) -> Pair:
    if not re.fullmatch(r"[3-9]-[3-9]", text):
        raise Refusal(400, "the pair isn't two numbers from 3 to 9, such as 4-3")
    counts = int(text[0]), int(text[2])
    return max(counts), min(counts)


def _number(name: str, word: str, most: int = 2**32 - 1) -> int:
    if not re.fullmatch(r"[0-9]{1,12}", word) or int(word) > most:
        raise Refusal(400, f"{name} isn't a number from 0 to {most}")
    return int(word)


def _read_text(text: str, board: Board) -> Pair:
    """How many stones the player to move has in a position string, and how many the opponent."""
    if len(text) != board.points or text.strip("XO."):
        raise Refusal(400, f"the text isn't {board.points} characters X, O and .")
    own, other = text.count("X"), text.count("O")
    if not (2 <= own <= 9 and 3 <= other <= 9):
        error = "bad number of stones: the player to move has 2 to 9 of them, the opponent 3 to 9"
        raise Refusal(400, error)
    return own, other


def _codes(result: str, least: int, most: int) -> List[int]:
    """The codes of a file that say a result, in so many plies."""
    if result == "draw":
        return [0]
    if result not in ("won", "lost"):
        raise Refusal(400, "the result is won, lost or draw")
    if least > most:
        raise Refusal(400, "least is greater than most")
    # Wins have odd depths, losses even ones.
    return [it + 1 for it in range(least, most + 1) if it % 2 == (result == "won")]


def _in_words(code: int) -> Dict[str, object]:
    """What a code of a file says: the result, and in how many plies."""
    if code == 0:
        return {"result": "draw", "depth": None}
    return {"result": "lost" if code % 2 else "won", "depth": code - 1}


# ---- the server


class Handler(http.server.BaseHTTPRequestHandler):
    """Answers one client, a request after the other."""

    protocol_version = "HTTP/1.1"
    default_request_version = "HTTP/1.0"
    disable_nagle_algorithm = True
    wbufsize = -1
    server: Server

    def setup(self) -> None:
        super().setup()
        self.unread = b""
        self.command, self.request_version = "", "HTTP/1.1"

    def version_string(self) -> str:
        return "Morris"

    def log_request(self, code: Any = "-", size: Any = "-") -> None:
        """Requests aren't logged."""

    def handle_expect_100(self) -> bool:
        return True

    def send_error(self, code: int, message: Any = None, explain: Any = None) -> None:
        """What the parser of requests refuses."""
        raise Refusal(int(code), f"bad request: {http.HTTPStatus(code).phrase}")

    def handle_one_request(self) -> None:
        """Answers a request, and closes the connection after one that wasn't understood."""
        self.close_connection = True
        try:
            try:
                self._answer()
                return
            except Refusal as caught:
                refusal = caught
            except GONE:
                raise
            except Exception:
                traceback.print_exc()
                refusal = Refusal(500, "the explorer failed")
            self.close_connection = True
            self._send_json(refusal.status, refusal.answer)
            self._read_rest()
        except GONE:
            self.close_connection = True

    def _answer(self) -> None:
        head = self._read_head()
        if not head:
            return
        self._parse(head)
        self._check()
        # The parser takes slashes at the beginning for one.
        path, _, query = self.requestline.split()[1].partition("?")
        if path in self.server.pages:
            kind, body = self.server.pages[path]
            return self._send(200, f"{kind}; charset=utf-8", body)
        try:
            self._send_json(200, self.server.explorer.answer(path, query))
        except Refusal as refusal:
            self._send_json(refusal.status, refusal.answer)

    def _send_json(self, status: int, answer: Dict[str, object]) -> None:
        self._send(status, "application/json", json.dumps(answer, separators=(",", ":")).encode())

    def _read_head(self) -> bytes:
        """The head of the next request: nothing, where the client has none."""
        deadline = time.monotonic() + HEAD_SECONDS
        while True:
            found = re.search(rb"\n\r?\n", self.unread)
            if found:
                head, self.unread = self.unread[: found.end()], self.unread[found.end() :]
            if len(head if found else self.unread) > MOST_HEAD:
                raise Refusal(431, "the head of the request is too long")
            line = (head if found else self.unread).partition(b"\n")[0]
            if len(line) > MOST_LINE:
                raise Refusal(414, "the first line of the request is too long")
            if found:
                return head
            part = self._receive(deadline)
            if not part and self.unread:
                raise Refusal(400, "the request is cut short")
            if not part:
                return b""
            self.unread += part

    def _receive(self, deadline: float) -> bytes:
        """What comes next of a request until then."""
        left = deadline - time.monotonic()
        try:
            self.connection.settimeout(max(left, 0.001))
            part = self.connection.recv(4_096)
        except socket.timeout:
            if self.unread:
                raise Refusal(408, "the request takes too long") from None
            return b""
        self.connection.settimeout(HEAD_SECONDS)
        return part

    def _parse(self, head: bytes) -> None:
        line, _, rest = head.partition(b"\n")
        self.raw_requestline = line + b"\n"
        connection, self.rfile = self.rfile, io.BytesIO(rest)
        try:
            if not self.parse_request():
                raise Refusal(400, "bad request")
        finally:
            self.rfile = connection

    def _check(self) -> None:
        """Refuses a request that isn't for this server, or more than a question."""
        hosts = self.headers.get_all("Host") or []
        if len(hosts) != 1:
            raise Refusal(400, "a request has one Host")
        if hosts[0].strip().lower() not in self.server.hosts:
            port = self.server.server_port
            names = f"{ADDRESS}:{port} and localhost:{port}"
            raise Refusal(403, f"this server answers only for {names}")
        if self.command != "GET":
            raise Refusal(405, "only GET is answered")
        if "Transfer-Encoding" in self.headers or self.headers.get("Content-Length", "0") != "0":
            raise Refusal(413, "a request has no body here")
        if self.path.startswith("/api/"):
            if self.headers.get("Sec-Fetch-Site", "none") not in ("same-origin", "none"):
                raise Refusal(403, "another page asks")

    def _send(self, status: int, kind: str, body: bytes) -> None:
        self.send_response(status)
        for name, value in SAFE.items():
            self.send_header(name, value)
        if status == 405:
            self.send_header("Allow", "GET")
        self.send_header("Content-Type", kind)
        self.send_header("Content-Length", str(len(body)))
        if self.close_connection:
            self.send_header("Connection", "close")
        self.end_headers()
        if self.command != "HEAD":
            self.wfile.write(body)
        self.wfile.flush()

    def _read_rest(self) -> None:
        """Reads for a moment what the client goes on to send: where bytes are left unread, the
        system takes back the answer."""
        self.connection.shutdown(socket.SHUT_WR)
        deadline, room = time.monotonic() + REST_SECONDS, 1 << 20
        while room > 0 and time.monotonic() < deadline:
            self.connection.settimeout(max(deadline - time.monotonic(), 0.001))
            part = self.connection.recv(65_536)
            if not part:
                return
            room -= len(part)


class Server(http.server.ThreadingHTTPServer):
    """Serves the pages and the answers on the loopback address, with a thread for each client."""

    daemon_threads = True
    request_queue_size = MOST_CLIENTS

    def __init__(self, explorer: Explorer, port: int = PORT) -> None:
        self.explorer = explorer
        self.pages = read_pages()
        self.seats = threading.BoundedSemaphore(MOST_CLIENTS)
        super().__init__((ADDRESS, port), Handler)
        names = [ADDRESS, "localhost"]
        self.hosts = {*names, *(f"{name}:{self.server_port}" for name in names)}

    def server_bind(self) -> None:
        """Binds the address, and asks nobody for its name."""
        socketserver.TCPServer.server_bind(self)
        self.server_name, self.server_port = self.server_address[:2]

    @property
    def url(self) -> str:
        return f"http://{ADDRESS}:{self.server_port}/"

    def process_request(self, request: Any, client_address: Any) -> None:
        if not self.seats.acquire(blocking=False):
            self.shutdown_request(request)
            return
        try:
            super().process_request(request, client_address)
        except Exception:
            self.seats.release()
            raise

    def process_request_thread(self, request: Any, client_address: Any) -> None:
        try:
            super().process_request_thread(request, client_address)
        finally:
            self.seats.release()

    def handle_error(self, request: Any, client_address: Any) -> None:
        """A client that goes away is no error."""
        if not isinstance(sys.exc_info()[1], OSError):
            super().handle_error(request, client_address)


def read_pages() -> Dict[str, Tuple[str, bytes]]:
    """The pages by their paths, each with what it is."""
    folder = os.path.join(os.path.dirname(os.path.abspath(__file__)), "explorer")
    pages = {}
    for name, kind in PAGES.items():
        with open(os.path.join(folder, name), "rb") as file:
            pages["/" if name == "index.html" else f"/{name}"] = kind, file.read()
    return pages


# ---- the command line


def _options(arguments: Optional[Sequence[str]]) -> argparse.Namespace:
    parser = argparse.ArgumentParser(
        prog="explorer.py", description="Shows positions in a browser, and what each move is worth."
    )
    parser.add_argument("folder", metavar="FOLDER", help="where `morris build --into` put tables")
    parser.add_argument("--board", choices=list(BOARDS), help="which board comes first")
    parser.add_argument(
        "--port", type=int, default=PORT, metavar="N", help=f"{PORT} if left out, 0: any free one"
    )
    parser.add_argument("--no-browser", action="store_true", help="open no browser")
    found = parser.parse_args(arguments)
    if not 0 <= found.port <= 65_535:
        parser.error("a port is a number from 0 to 65535")
    return found


def main(arguments: Optional[Sequence[str]] = None) -> int:
    """Serves until it is interrupted. Answers the exit status."""
    options = _options(arguments)
    try:
        server = Server(Explorer(options.folder, options.board), options.port)
    except NoTables as error:
        folder, board = shlex.quote(options.folder), options.board or "nine"
        pair = "4-4" if board == "nine" else "5-4"
        print(error, file=sys.stderr)
        print(f"./morris build {board} {pair} --classes --into {folder}", file=sys.stderr)
        return 1
    except (OSError, morris.Fault, ValueError) as error:
        print(f"the explorer can't begin: {error}", file=sys.stderr)
        if getattr(error, "errno", None) == errno.EADDRINUSE:
            print("--port 0 takes any free port", file=sys.stderr)
        return 1
    print(f"the library of Morris: {morris.library()}", file=sys.stderr, flush=True)
    print(f"Morris is at {server.url} (Ctrl-C ends it)", flush=True)
    if not options.no_browser:
        threading.Thread(target=webbrowser.open, args=[server.url], daemon=True).start()
    try:
        server.serve_forever()
    except KeyboardInterrupt:
        print()
    finally:
        server.server_close()
    return 0


if __name__ == "__main__":
    sys.exit(main())
