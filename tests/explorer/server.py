"""The explorer at work, on a free port of this machine."""

import http.client
import json
import re
import socket
import subprocess
import urllib.parse
from contextlib import closing

from tests.lib.program import MOST_SECONDS, count

# What the explorer prints when it begins.
BEGINS = r"the library of Morris: (/.+)\nMorris is at (http://127\.0\.0\.1:(\d+)/) \(Ctrl-C .+\n"


class Server:
    """The explorer, which this command starts."""

    def __init__(self, *command, **how):
        how = {"stdout": subprocess.PIPE, "stderr": subprocess.PIPE, "text": True, **how}
        self.process = subprocess.Popen([*command, "--port", "0", "--no-browser"], **how)
        lines = self.process.stderr.readline() + self.process.stdout.readline()
        found = re.fullmatch(BEGINS, lines)
        if not found:
            self.process.kill()
            raise AssertionError(f"the explorer printed {lines}{self.process.communicate()}")
        self.library, self.url, self.port = found[1], found[2], int(found[3])

    def __enter__(self):
        return self

    def __exit__(self, *_):
        self.end()

    def end(self):
        """Ends the server, which has to run until now, and to have printed nothing more."""
        ended = self.process.poll()
        self.process.terminate()
        _, errors = self.process.communicate(timeout=MOST_SECONDS)
        assert ended is None and not errors, f"the explorer ended with {ended}, printed {errors}"

    def ask(self, path, status=200, **words):
        """The answer to a request, as JSON where it is that."""
        count()
        path += f"?{urllib.parse.urlencode(words)}" if words else ""
        with closing(http.client.HTTPConnection("127.0.0.1", self.port, timeout=30)) as link:
            link.request("GET", path)
            answer = link.getresponse()
            content = answer.read()
        assert answer.status == status, f"{path}: status {answer.status}, {content[:600]}"
        is_json = answer.headers["Content-Type"] == "application/json"
        return json.loads(content) if is_json else content

    def find(self, **words):
        """The answer to the search for a position, which may take several requests."""
        answer = {"done": False, "searched": 0}
        while not answer["done"]:
            before = answer["searched"]
            answer = self.ask("/api/find", searched=before, **words)
            assert answer["done"] or answer["searched"] > before, f"{words}: {answer}"
        return answer

    def send(self, sent, is_cut=False):
        """All bytes that answer these, after which the client may say that no more come."""
        count()
        with socket.create_connection(("127.0.0.1", self.port), timeout=30) as link:
            link.sendall(sent)
            if is_cut:
                link.shutdown(socket.SHUT_WR)
            return b"".join(iter(lambda: link.recv(65_536), b""))
