"""A reader of tools/watch: its events over a connection of its own, and the page that they come to."""
import json
import os
import signal
import socket
import subprocess
import sys
import time

from measuring import want
from serving import TOP, WAIT, waited

TOOL = TOP / "tools/watch"


class Watching:
    """tools/watch as it runs, with any port that is free. Use it as a context."""

    def __init__(self, *words, folder):
        self.process = subprocess.Popen(
            [sys.executable, TOOL, *map(str, words), "--port", "0"], stdout=subprocess.PIPE, stderr=subprocess.PIPE, cwd=folder,
        )

    def __enter__(self):
        self.address = self.process.stdout.readline().decode().strip()
        want(self.address.startswith("http://"), f"no address: {self.address!r} {self.process.poll()}")
        self.port = int(self.address.rstrip("/").rpartition(":")[2])
        return self

    def __exit__(self, *_):
        self.process.send_signal(signal.SIGTERM)
        try:
            self.process.wait(WAIT)
        finally:
            self.process.kill()
            self.said = self.process.stderr.read().decode()
            self.process.stdout.close()
            self.process.stderr.close()
        want("Traceback" not in self.said, self.said)

    def memory(self):
        """How much memory it has, in bytes."""
        with open(f"/proc/{self.process.pid}/statm") as file:
            return int(file.read().split()[1]) * os.sysconf("SC_PAGE_SIZE")


def asked(port, request):
    """The whole answer to a request."""
    with socket.create_connection(("127.0.0.1", port), WAIT) as link:
        link.sendall(request)
        found = b""
        while piece := link.recv(1 << 16):
            found += piece
        return found


class Reader:
    """A reader of events: it keeps what a page would show. `text` is all that came, byte by byte."""

    def __init__(self, port):
        self.link = socket.create_connection(("127.0.0.1", port), WAIT)
        self.link.sendall(b"GET /events HTTP/1.1\r\nHost: x\r\n\r\n")
        self.text, self.rest, self.about, self.matches, self.standings = b"", b"", {}, {}, []
        self.has_head = False

    def read(self, seconds=0.0):
        """Takes what has come within so many seconds; whether the connection is still there."""
        self.link.settimeout(max(seconds, 0.001))
        try:
            piece = self.link.recv(1 << 20)
        except (TimeoutError, BlockingIOError):
            return True
        self.text += piece
        self.rest += piece
        if not self.has_head and b"\r\n\r\n" in self.rest:
            head, _, self.rest = self.rest.partition(b"\r\n\r\n")
            want(head.startswith(b"HTTP/1.1 200 OK") and b"text/event-stream" in head, f"{head}")
            self.has_head = True
        *events, self.rest = self.rest.split(b"\n\n") if self.has_head else [self.rest]
        for event in events:
            self.take(event.decode())
        return piece != b""

    def take(self, event):
        lines = dict(line.split(": ", 1) for line in event.split("\n") if ": " in line and not line.startswith(":"))
        name, data = lines.get("event"), json.loads(lines.get("data", "null"))
        if name == "whole":
            self.about, self.standings = data, data["standings"]
            self.matches = {it["key"]: it for it in data["matches"]}
        elif name == "match":
            old = self.matches.get(data["key"], {"list": []})
            self.matches[data["key"]] = {**data, "list": (old["list"] + data["new"])[-20:]}
        elif name == "standings":
            self.standings = data

    def until(self, happened, text):
        """Reads until something is so."""
        def look():
            self.read(0.05)
            return happened(self)

        return waited(look, text, lambda: f"{self.matches} {self.text[-300:]}")

    def numbers(self, key):
        """The numbers of the hands of a match that are shown."""
        return [hand["number"] for hand in self.matches[key]["list"]] if key in self.matches else None

    def quiet(self, seconds):
        """Reads for so long."""
        until = time.monotonic() + seconds
        while time.monotonic() < until:
            self.read(0.05)

    def close(self):
        self.link.close()
