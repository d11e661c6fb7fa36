"""Serves the page, and sends what changes to all readers at once: server-sent events over asyncio."""
import asyncio
import base64
import hashlib
import json
from pathlib import Path

HERE = Path(__file__).resolve().parent
POLICY = (
    "default-src 'none'; script-src 'sha256-{script}'; style-src 'sha256-{style}'; connect-src 'self'; base-uri 'none'; form-action 'none'; "
    "frame-ancestors 'none'"
)
# A request's head has so many bytes at most, and comes within so many seconds.
MOST_HEAD, SECONDS_FOR_HEAD = 8192, 10
# Who hasn't taken so many bytes that were sent to him loses his connection; his browser asks anew.
MOST_BEHIND = 1 << 20
# How often it is looked what is new, and how often a line goes to readers to whom nothing else was sent, in seconds.
LOOK, QUIET = 0.5, 15


def page():
    """The page's text and the policy that lets a browser load what is in it, and nothing else."""
    script, style, template = ((HERE / name).read_text(encoding="utf-8") for name in ("page.js", "page.css", "page.html"))
    hashes = {name: base64.b64encode(hashlib.sha256(text.encode()).digest()).decode() for name, text in (("script", script), ("style", style))}
    return template.replace("{{STYLE}}", style).replace("{{SCRIPT}}", script).encode(), POLICY.format(**hashes)


def event(name, data):
    """An event as it goes over the wire: JSON has no line ends within it."""
    return f"event: {name}\ndata: {json.dumps(data, separators=(',', ':'))}\n\n".encode()


class Server:
    """All readers of one source. One task looks what is new, and writes it to all of them."""

    def __init__(self, source, is_revealed, delay, most_readers):
        self.source, self.about = source, {"title": source.title, "kind": source.kind, "isRevealed": is_revealed, "delay": delay}
        self.most_readers, self.readers = most_readers, set()
        (self.page, self.policy), self.order, self.quiet = page(), [], 0.0

    def keys(self):
        return [follower.key for follower in self.source.matches()]

    def whole(self):
        """All that the page shows, for who comes."""
        matches = [follower.whole() for follower in self.source.matches()]
        return event("whole", {**self.about, "standings": self.source.standings(), "matches": matches})

    def look(self):
        """What is new, as events."""
        has_standings, changed = self.source.look()
        found = [event("match", {**follower.figures(), "new": hands}) for follower, hands in changed]
        if has_standings:
            found.append(event("standings", self.source.standings()))
        if self.order != self.keys():
            self.order = self.keys()
            # (the page then has all matches that it is to have, new ones too)
            return [self.whole()]
        return found

    async def follow(self):
        """Looks again and again."""
        while True:
            found = self.look()
            self.quiet = 0.0 if found else self.quiet + LOOK
            if self.quiet >= QUIET:
                found, self.quiet = [b": still here\n\n"], 0.0
            if found:
                self.write_all(b"".join(found))
            await asyncio.sleep(LOOK)

    def write_all(self, text):
        for writer in list(self.readers):
            if writer.transport.get_write_buffer_size() > MOST_BEHIND:
                writer.transport.abort()
                self.readers.discard(writer)
            else:
                writer.write(text)

    def end(self):
        """Ends all connections of readers."""
        for writer in self.readers:
            writer.transport.abort()

    async def serve(self, reader, writer):
        """Answers one request; a reader of events stays."""
        try:
            head = await asyncio.wait_for(reader.readuntil(b"\r\n\r\n"), SECONDS_FOR_HEAD)
            method, path, *_ = head.split(b"\r\n")[0].split(b" ") + [b""]
            if method not in (b"GET", b"HEAD"):
                await self.answer(writer, "405 Method Not Allowed", b"only GET\n")
            elif path.split(b"?")[0] == b"/":
                await self.answer(writer, "200 OK", self.page, "text/html; charset=utf-8", method == b"HEAD")
            elif path == b"/events" and method == b"GET":
                await self.stay(reader, writer)
            else:
                await self.answer(writer, "404 Not Found", b"there is only /\n")
        except (OSError, asyncio.IncompleteReadError, asyncio.LimitOverrunError, asyncio.TimeoutError, asyncio.CancelledError, ValueError):
            pass
        finally:
            writer.close()

    async def answer(self, writer, status, body, kind="text/plain", is_head=False):
        writer.write(self.head(status, kind, f"Content-Length: {len(body)}\r\n") + (b"" if is_head else body))
        await asyncio.wait_for(writer.drain(), SECONDS_FOR_HEAD)

    def head(self, status, kind, more=""):
        return (
            f"HTTP/1.1 {status}\r\nContent-Type: {kind}\r\nContent-Security-Policy: {self.policy}\r\nX-Content-Type-Options: nosniff\r\n"
            f"Referrer-Policy: no-referrer\r\nCache-Control: no-store\r\nConnection: close\r\n{more}\r\n"
        ).encode()

    async def stay(self, reader, writer):
        """Sends all that is shown, and then has the one writer send what is new, until the reader goes away."""
        if len(self.readers) >= self.most_readers:
            await self.answer(writer, "503 Service Unavailable", b"too many readers\n")
            return
        writer.write(self.head("200 OK", "text/event-stream") + b"retry: 1000\n\n" + self.whole())
        self.readers.add(writer)
        try:
            while await reader.read(4096):
                pass
        finally:
            self.readers.discard(writer)


async def run(server, address, port, told):
    """Serves until it is cancelled. `told` is called with the port once readers may come."""
    server.look()
    server.order = server.keys()
    listening = await asyncio.start_server(server.serve, address, port, limit=MOST_HEAD, backlog=1024)
    told(listening.sockets[0].getsockname()[1])
    async with listening:
        try:
            await server.follow()
        finally:
            server.end()
