"""The server of the page: on 127.0.0.1 alone, for requests of its own page alone, which know the token.

No path of a file is taken from a request. What there is to be had stands in one table, and its files were read before."""

import json
import secrets
import traceback
from http import HTTPStatus
from http.server import BaseHTTPRequestHandler, ThreadingHTTPServer
from pathlib import Path

from companion.command import Fault, one_line, read

FOLDER = Path(__file__).resolve().parent.parent / "editor"
FILES = {"": ("editor.html", "text/html"), "editor.css": ("editor.css", "text/css"), "editor.js": ("editor.js", "text/javascript")}
HOST = "127.0.0.1"
# Bytes of a request, events of one, and letters of a page's name.
MOST_BYTES, MOST_EVENTS, LONGEST_NAME = 4_194_304, 1_000, 64
# Bytes that are read and passed over of a request that is too long.
MOST_PASSED = 67_108_864
# Lengths of keys and places of points that are taken.
LONGEST_KEY, FARTHEST = 16, 2 ** 31
SAFE = {
    "Content-Security-Policy": "default-src 'none'; script-src 'self'; style-src 'self'; connect-src 'self'; base-uri 'none'; "
                               "form-action 'none'; frame-ancestors 'none'",
    "X-Content-Type-Options": "nosniff", "Referrer-Policy": "no-referrer", "Cross-Origin-Resource-Policy": "same-origin",
    "Cross-Origin-Opener-Policy": "same-origin", "Cache-Control": "no-store",
}


class Wrong(Exception):
    """A request that isn't answered: the status, and why."""

    def __init__(self, status, told):
        super().__init__(told)
        self.status = status


class Server(ThreadingHTTPServer):
    """Answers the requests of pages."""

    daemon_threads = True

    def __init__(self, pages, port=0):
        super().__init__((HOST, port), Handler)
        self.pages, self.token = pages, secrets.token_urlsafe(24)
        self.files = {name: (read(FOLDER / file), kind) for name, (file, kind) in FILES.items()}

    @property
    def origin(self):
        return f"http://{HOST}:{self.server_address[1]}"

    @property
    def address(self):
        return f"{self.origin}/{self.token}/"


class Handler(BaseHTTPRequestHandler):
    protocol_version = "HTTP/1.1"
    server_version, sys_version = "mathlay", ""
    # A request that doesn't come to its end.
    timeout = 300
    disable_nagle_algorithm = True

    def do_GET(self):
        self.answer(self.file)

    def do_POST(self):
        self.answer(self.call)

    def answer(self, make):
        """Answers a request, or says why not."""
        try:
            status, (data, kind) = HTTPStatus.OK, make(self.wanted())
        except Wrong as wrong:
            status, (data, kind) = wrong.status, as_json({"error": str(wrong)})
            self.close_connection = True
        except Fault as fault:
            status, (data, kind) = HTTPStatus.OK, as_json({"error": f"{one_line(fault)}. The formula is kept."})
        except Exception as fault:
            told = f"The editor has a fault ({one_line(repr(fault))}). The formula is kept."
            status, (data, kind) = HTTPStatus.INTERNAL_SERVER_ERROR, as_json({"error": told})
            traceback.print_exc()
        self.send_response(status)
        for name, value in SAFE.items():
            self.send_header(name, value)
        self.send_header("Content-Type", f"{kind}; charset=utf-8")
        self.send_header("Content-Length", str(len(data)))
        if self.close_connection:
            self.send_header("Connection", "close")
        self.end_headers()
        self.wfile.write(data)

    def wanted(self):
        """What is asked for, of a request that may ask: of this address, with the token, and from this page or from nobody's."""
        if self.headers.get("Host") != self.server.origin.removeprefix("http://"):
            raise Wrong(HTTPStatus.FORBIDDEN, "this server answers to its own address alone")
        if self.headers.get("Origin") not in (None, self.server.origin):
            raise Wrong(HTTPStatus.FORBIDDEN, "requests from other origins aren't answered")
        if self.headers.get("Sec-Fetch-Site") not in (None, "none", "same-origin"):
            raise Wrong(HTTPStatus.FORBIDDEN, "requests from other sites aren't answered")
        _, token, *names = self.path.split("/", 2) if self.path.startswith("/") else ("", "")
        if not secrets.compare_digest(token.encode(), self.server.token.encode()) or not names:
            raise Wrong(HTTPStatus.NOT_FOUND, "the address isn't whole: it is the one that editor.py printed")
        return names[0]

    def file(self, name):
        if name not in self.server.files:
            raise Wrong(HTTPStatus.NOT_FOUND, "there is nothing of this name")
        return self.server.files[name]

    def call(self, name):
        """A call of the page, whose body is JSON."""
        if self.headers.get("Origin") != self.server.origin:
            raise Wrong(HTTPStatus.FORBIDDEN, "calls are answered that come from the page")
        if name not in CALLS:
            raise Wrong(HTTPStatus.NOT_FOUND, "there is nothing of this name")
        return as_json(CALLS[name](self.server.pages, self.body()))

    def body(self):
        length = self.headers.get("Content-Length", "")
        if not length.isascii() or not length.isdigit():
            raise Wrong(HTTPStatus.LENGTH_REQUIRED, "a call has a length")
        if int(length[:12]) > MOST_BYTES:
            self.pass_over(int(length[:12]))
            raise Wrong(HTTPStatus.REQUEST_ENTITY_TOO_LARGE, f"That is too long: a call may have {MOST_BYTES:,} bytes")
        try:
            value = json.loads(self.rfile.read(int(length)))
        except (ValueError, RecursionError):
            value = None
        if not isinstance(value, dict) or not is_name(value.get("page")):
            raise Wrong(HTTPStatus.BAD_REQUEST, "a call is a JSON object with the name of a page")
        return value

    def pass_over(self, length):
        """Reads what is too long, so that the page hears of it, and keeps nothing."""
        left = min(length, MOST_PASSED)
        while left > 0 and (piece := self.rfile.read(min(left, 65_536))):
            left -= len(piece)

    def log_message(self, *_words):
        """Nothing is told of requests."""


def as_json(value):
    return json.dumps(value, ensure_ascii=False, separators=(",", ":")).encode("utf-8", "replace"), "application/json"


def is_text(value):
    """Whether a value is a text without halves of surrogate pairs."""
    return isinstance(value, str) and not any("\ud800" <= letter <= "\udfff" for letter in value)


def is_name(value):
    return is_text(value) and 0 < len(value) <= LONGEST_NAME


def open_page(pages, value):
    return pages.page(value["page"], value.get("like") if is_name(value.get("like")) else None).open()


def do_events(pages, value):
    number, events = value.get("number"), value.get("events")
    if type(number) is not int or not isinstance(events, list) or len(events) > MOST_EVENTS or not all(map(is_event, events)):
        raise Wrong(HTTPStatus.BAD_REQUEST, "events have a number, and each is in its form")
    return pages.page(value["page"]).do(number, events)


def copy_formula(pages, value):
    if value.get("what") not in ("mathml", "svg", "tree"):
        raise Wrong(HTTPStatus.BAD_REQUEST, "what is copied is mathml, svg or tree")
    return {"text": pages.page(value["page"]).copy(value["what"])}


def count_layouts(pages, value):
    return pages.page(value["page"]).layouts()


CALLS = {"open": open_page, "do": do_events, "copy": copy_formula, "count": count_layouts}


def is_event(event):
    """Whether an event is in its form."""
    if not isinstance(event, dict) or type(event.get("extend", False)) is not bool:
        return False
    match sorted(set(event) - {"extend"}):
        case ["key"]:
            return is_text(event["key"]) and 0 < len(event["key"]) <= LONGEST_KEY
        case ["point"]:
            point = event["point"]
            return isinstance(point, list) and len(point) == 2 and all(type(at) is int and abs(at) < FARTHEST for at in point)
        case ["choose"]:
            return type(event["choose"]) is int
        case ["paste"]:
            return is_text(event["paste"])
    return False
