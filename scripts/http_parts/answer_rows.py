"""What is said to a server's pages, and what is told: tables of requests and of whole answers.

Used by: answers.py, requests.py. A row is a request, just as it is sent, and the name of its answer in ANSWERS. A page or a status that
docs/HTTP.md gains has rows here.
"""
from typing import Dict, List, NamedTuple

LONGEST = 8192
"""The most bytes of a head."""
TEXT, BYTES = "text/plain; charset=utf-8", "application/octet-stream"
FIRST_WORDS = (0x0A0D0A0D, 0xFF)
"""The words of each tenant. In its file they are two ends of lines, which end a head too, and a byte that is no text."""


class Row(NamedTuple):
    """What a client says before it sends no more, and which of the answers it is told."""
    says: bytes
    told: str


def shown(kind: str, body: str, status: str = "200 OK") -> bytes:
    """The answer that shows a page."""
    return f"HTTP/1.1 {status}\r\nDate: then\r\nContent-Type: {kind}\r\nContent-Length: LENGTH\r\nConnection: close\r\n\r\n{body}".encode()


def refused(status: str) -> bytes:
    """The answer that only says why there is no page."""
    return f"HTTP/1.1 {status}\r\nDate: then\r\nContent-Length: 0\r\nConnection: close\r\n\r\n".encode()


ANSWERS: Dict[str, bytes] = {
    "more": b"",
    "health": b"HTTP/1.1 200 OK\r\nDate: then\r\nContent-Type: text/plain; charset=utf-8\r\nContent-Length: 3\r\nConnection: close\r\n\r\nok\n",
    "head of health": b"HTTP/1.1 200 OK\r\nDate: then\r\nContent-Type: text/plain; charset=utf-8\r\nContent-Length: 3\r\nConnection: close\r\n\r\n",
    "page": shown("text/html; charset=utf-8", "<!DOCTYPE html>\nANY<p>Version VERSION, up for 0 d 0 h 0 min ANY"
                  "<p class=\"up\">All tenants are up.</p>ANY<td>t</td><td>up</td><td>2</td><td>0 of 1</td>ANY"),
    "head of page": shown("text/html; charset=utf-8", ""),
    "metrics": shown("text/plain; version=0.0.4; charset=utf-8", "ANY\nmondlexi_up{tenant=\"t\"} 1\nANY"),
    "file": shown(BYTES, "FILE"),
    "words": shown(TEXT, "second layout at 184\nwords 2\nplaces 2\nword 0 168626701\nword 1 255\n"),
    "words of an open record": shown(TEXT, "second layout at 184\nwords 2\nplaces 2\nopen 0 1 7\nword 0 168626701\nword 1 7\n"),
    "style": shown("text/css; charset=utf-8", "ANYpolyline {ANY"),
    "head of style": shown("text/css; charset=utf-8", ""),
    "script": shown("text/javascript; charset=utf-8", "ANYfunction showMinute() {\nANY"),
    "no tenant": shown(TEXT, "", "404 Not Found"),
    "failed tenant": shown(TEXT, "", "503 Service Unavailable"),
    "no copy": shown(TEXT, "", "500 Internal Server Error"),
    "Bad Request": b"HTTP/1.1 400 Bad Request\r\nDate: then\r\nContent-Length: 0\r\nConnection: close\r\n\r\n",
    "Not Found": b"HTTP/1.1 404 Not Found\r\nDate: then\r\nContent-Length: 0\r\nConnection: close\r\n\r\n",
    "Method Not Allowed": b"HTTP/1.1 405 Method Not Allowed\r\nDate: then\r\nAllow: GET, HEAD\r\nContent-Length: 0\r\nConnection: close\r\n\r\n",
    "Method Not Allowed, without a date": b"HTTP/1.1 405 Method Not Allowed\r\nAllow: GET, HEAD\r\nContent-Length: 0\r\nConnection: close\r\n\r\n",
    "Request Timeout": b"HTTP/1.1 408 Request Timeout\r\nDate: then\r\nContent-Length: 0\r\nConnection: close\r\n\r\n",
    "URI Too Long": refused("414 URI Too Long"),
    "Misdirected Request": b"HTTP/1.1 421 Misdirected Request\r\nDate: then\r\nContent-Length: 0\r\nConnection: close\r\n\r\n",
    "Request Header Fields Too Large": refused("431 Request Header Fields Too Large"),
    "Not Implemented": b"HTTP/1.1 501 Not Implemented\r\nDate: then\r\nContent-Length: 0\r\nConnection: close\r\n\r\n",
}
"""Whole answers. `then` stands for the date of the answer; LENGTH for the number of bytes of what follows the head, or would follow it if
HEAD were GET; FILE for the bytes of the file of the tenant that is asked for; VERSION for the server's version; ANY for any bytes."""

REQUEST = b"GET /healthz HTTP/1.1\r\nHost: localhost\r\n\r\n"
BEGINNING = b"GET /healthz HTTP/1."
"""A request, and its first bytes."""

CALLED_A: List[Row] = [
    Row(b"", "more"),
    Row(b"GET / HTTP/1.1\r\nHost: a\r\n", "more"),
    Row(b"GET / HTTP/1.1\r\nHost: a\r\n\r\n", "page"),
    Row(b"GET / HTTP/1.0\r\n\r\n", "page"),
    Row(b"GET /metrics HTTP/1.1\r\nhost: a:80\r\n\r\n", "metrics"),
    Row(b"GET /metrics?x=1 HTTP/1.1\r\nHost: [::1]:80\r\n\r\n", "metrics"),
    Row(b"GET HTTP://a/metrics HTTP/1.1\r\nHost: a\r\n\r\n", "metrics"),
    Row(b"GET http://a HTTP/1.1\r\nHost: a\r\n\r\n", "page"),
    Row(b"HEAD /healthz HTTP/1.1\r\nHost:\r\n\r\n", "head of health"),
    Row(b"GET /tenants/t-1/file HTTP/1.1\r\nHost: a\r\n\r\n", "file"),
    Row(b"GET /tenants/t-1/words HTTP/1.1\r\nHost: a\r\n\r\n", "words"),
    Row(b"GET /status.css HTTP/1.1\r\nHost: a\r\n\r\n", "style"),
    Row(b"GET /status.js?1 HTTP/1.1\r\nHost: a\r\n\r\n", "script"),
    Row(b"GET /tenants/T/file HTTP/1.1\r\nHost: a\r\n\r\n", "Not Found"),
    Row(b"GET /tenants//words HTTP/1.1\r\nHost: a\r\n\r\n", "Not Found"),
    Row(b"GET /tenants/t/words/file HTTP/1.1\r\nHost: a\r\n\r\n", "Not Found"),
    Row(b"GET /tenants//file HTTP/1.1\r\nHost: a\r\n\r\n", "Not Found"),
    Row(b"GET /metrics/ HTTP/1.1\r\nHost: a\r\n\r\n", "Not Found"),
    Row(b"POST /metrics HTTP/1.1\r\nHost: a\r\n\r\n", "Method Not Allowed"),
    Row(b"POST /x HTTP/1.1\r\nHost: a\r\n\r\n", "Not Found"),
    Row(b"OPTIONS * HTTP/1.1\r\nHost: a\r\n\r\n", "Not Found"),
    Row(b"BREW /metrics HTTP/1.1\r\nHost: a\r\n\r\n", "Not Implemented"),
    Row(b"get / HTTP/1.1\r\nHost: a\r\n\r\n", "Not Implemented"),
    Row(b"GET * HTTP/1.1\r\nHost: a\r\n\r\n", "Bad Request"),
    Row(b"GET / HTTP/1.1\r\n\r\n", "Bad Request"),
    Row(b"GET / HTTP/1.1\r\nHost: a\r\nHost: a\r\n\r\n", "Bad Request"),
    Row(b"GET / HTTP/1.1\r\nHost: a b\r\n\r\n", "Bad Request"),
    Row(b"GET / HTTP/1.1\r\nHost: a\r\nContent-Length: x\r\n\r\n", "Bad Request"),
    Row(b"GET  / HTTP/1.1\r\nHost: a\r\n\r\n", "Bad Request"),
    Row(b"GET / HTTP/2.0\r\n", "Bad Request"),
    Row(b"GET /\r\n", "Bad Request"),
    Row(b"GET / HTTP/1.1\r\nHost: A:80\r\n\r\n", "page"),
    Row(b"GET / HTTP/1.1\r\nHost: LocalHost\r\n\r\n", "page"),
    Row(b"GET / HTTP/1.1\r\nHost: localhost:7002\r\n\r\n", "page"),
    Row(b"GET / HTTP/1.1\r\nHost: 127.0.0.1:7002\r\n\r\n", "page"),
    Row(b"GET / HTTP/1.1\r\nHost: 10.0.0.7\r\n\r\n", "page"),
    Row(b"GET / HTTP/1.1\r\nHost: [fe80::1]\r\n\r\n", "page"),
    Row(b"GET / HTTP/1.0\r\nHost: b\r\n\r\n", "Misdirected Request"),
    Row(b"GET /tenants/t/file HTTP/1.1\r\nHost: ab:80\r\n\r\n", "Misdirected Request"),
    Row(b"POST / HTTP/1.1\r\nHost: a.example\r\n\r\n", "Misdirected Request"),
    Row(b"GET /x HTTP/1.1\r\nHost: localhost.\r\n\r\n", "Misdirected Request"),
    Row(b"GET / HTTP/1.1\r\nHost: 127.0.0.1.example\r\n\r\n", "Misdirected Request"),
    Row(b"GET / HTTP/1.1\r\nHost: b c\r\n\r\n", "Bad Request"),
    Row(b"a" * LONGEST, "URI Too Long"),
    Row(b"GET / HTTP/1.1\r\nHost: a\r\nX: " + b"a" * LONGEST, "Request Header Fields Too Large"),
]
"""What a server is told that is called `a`, and has the tenants t and t-1."""

WRONG: List[Row] = [
    Row(b"POST / HTTP/1.1\r\nHost: localhost\r\n\r\n", "Method Not Allowed"),
    Row(b"DELETE /metrics HTTP/1.1\r\nHost: localhost\r\n\r\n", "Method Not Allowed"),
    Row(b"POST /tenants/a/file HTTP/1.1\r\nHost: localhost\r\n\r\n", "Method Not Allowed"),
    Row(b"POST /tenants/t/file HTTP/1.1\r\nHost: localhost\r\n\r\n", "Method Not Allowed"),
    Row(b"POST /nothing HTTP/1.1\r\nHost: localhost\r\n\r\n", "Not Found"),
    Row(b"GET /nothing HTTP/1.1\r\nHost: localhost\r\n\r\n", "Not Found"),
    Row(b"GET /healthz/ HTTP/1.1\r\nHost: localhost\r\n\r\n", "Not Found"),
    Row(b"GET // HTTP/1.1\r\nHost: localhost\r\n\r\n", "Not Found"),
    Row(b"GET /tenants/t/words/ HTTP/1.1\r\nHost: localhost\r\n\r\n", "Not Found"),
    Row(b"GET /tenants/../file HTTP/1.1\r\nHost: localhost\r\n\r\n", "Not Found"),
    Row(b"GET /tenants/a/file HTTP/1.1\r\nHost: localhost\r\n\r\n", "no tenant"),
    Row(b"GET /tenants/u/words HTTP/1.1\r\nHost: localhost\r\n\r\n", "no tenant"),
    Row(b"BREW / HTTP/1.1\r\nHost: localhost\r\n\r\n", "Not Implemented"),
    Row(b"BREW /tenants/t/words HTTP/1.1\r\nHost: localhost\r\n\r\n", "Not Implemented"),
    Row(b"get / HTTP/1.1\r\nHost: localhost\r\n\r\n", "Not Implemented"),
    Row(b"\0", "Bad Request"),
    Row(b"\0\1\2\r\n\r\n", "Bad Request"),
    Row(b"GET nothing HTTP/1.1\r\nHost: localhost\r\n\r\n", "Bad Request"),
    Row(b"GET / HTTP/1.1\r\n\r\n", "Bad Request"),
    Row(b"GET / HTTP/1.1\r\nHost: a\r\nHost: b\r\n\r\n", "Bad Request"),
    Row(b"GET / HTTP/2.0\r\nHost: a\r\n\r\n", "Bad Request"),
    Row(b"GET / HTTP/1.1\r\nHost : a\r\n\r\n", "Bad Request"),
    Row(b"GET / HTTP/1.1\r\nHost: a\r\n b\r\n\r\n", "Bad Request"),
    Row(b"GET / HTTP/1.1\r\nHost: a\r\nContent-Length: 1\r\nContent-Length: 2\r\n\r\n", "Bad Request"),
    Row(b"GET / HTTP/1.1\r\nHost: a\r\n\r\n", "Misdirected Request"),
    Row(b"GET /metrics HTTP/1.1\r\nHost: a\r\n\r\n", "Misdirected Request"),
    Row(b"GET /tenants/t/file HTTP/1.1\r\nHost: 127.0.0.1.example:80\r\n\r\n", "Misdirected Request"),
    Row(b"GET /metrics HTTP/1.0\r\nHost: localhost.\r\n\r\n", "Misdirected Request"),
    Row(b"POST /nothing HTTP/1.1\r\nHost: w.example\r\n\r\n", "Misdirected Request"),
    Row(b"GET /" + b"a" * LONGEST, "URI Too Long"),
    Row(b"a" * 9000, "URI Too Long"),
    Row((b"GET / HTTP/1.1\r\nHost: localhost\r\nX: ").ljust(9000, b"a"), "Request Header Fields Too Large"),
    Row(b"GET / HTTP/1.1\r\nHost: a\r\nX: " + b"a" * LONGEST, "Request Header Fields Too Large"),
]
"""What is refused by a server without names, which has the tenant t."""

OTHERS: List[Row] = [
    Row(REQUEST, "health"),
    Row(b"GET / HTTP/1.0\r\n\r\nmore", "page"),
    Row(b"GET /metrics?a=b HTTP/1.1\r\nHost: localhost\r\n\r\n", "metrics"),
    Row(b"HEAD / HTTP/1.1\r\nHost: localhost\r\n\r\n", "head of page"),
    Row(b"HEAD /status.css HTTP/1.1\r\nHost: localhost\r\n\r\n", "head of style"),
    Row(b"GET /tenants/t/file HTTP/1.1\r\nHost: localhost\r\n\r\n", "file"),
    Row(b"GET /tenants/t/words HTTP/1.1\r\nHost: localhost\r\n\r\n", "words"),
    Row(b"", "more"),
    Row(BEGINNING, "more"),
    Row(b"GET / HTTP/1.1\r\n", "more"),
    Row(b"GET / HTTP/1.1\r\nHost: localhost\r\n", "more"),
    Row(b"GET /", "more"),
    Row(b"GET /".ljust(LONGEST - 1, b"a"), "more"),
]
"""What such a server shows, and what is no whole request."""

SILENT: List[bytes] = [b"", b"GET /", BEGINNING]
"""What clients say that are silent then: they are told `Request Timeout`."""

BROKEN: List[Row] = [Row(REQUEST, "health"), Row(b"", "more"), Row(BEGINNING, "more")]
"""What clients say whose connections break then, and what they are told: after a whole head nothing more is read."""

UNDATED = Row(b"POST /metrics HTTP/1.1\r\nHost: localhost\r\n\r\n", "Method Not Allowed, without a date")
"""What a server says whose clock can't be read."""

WITHOUT_COPIES: List[Row] = [Row(f"GET /tenants/{name}/{kind} HTTP/1.1\r\nHost: localhost\r\n\r\n".encode(), told)
                             for name, told in (("a", "failed tenant"), ("c", "failed tenant"), ("d", "no copy"), ("u", "no tenant"))
                             for kind in ("file", "words")]
"""What a server is asked whose tenant a has no file, whose tenant c has failed, and of whose tenant d the file was replaced."""
