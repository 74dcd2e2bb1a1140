"""All words of a tenant at one moment, from the pages of its server: one request of HTTP over a link.

Used by: `_client` and `aio`, each with a `Link` of its own. docs/HTTP.md has the page.
"""
import re
import socket
import time
from typing import List

from ._protocol import Place, Port, checked_name, seconds_of
from ._session import Link
from .errors import Fault, Lost, Refused

MAX_ANSWER = 1 << 20
"""More bytes than an answer has."""


async def words_at(link: Link, place: Place, tenant: str, timeout: float) -> List[int]:
    """All words of a tenant, as `mondlexi.snapshot` gives them. The link is dropped."""
    line = f"GET /tenants/{checked_name(tenant)}/words"
    seconds = seconds_of("timeout", timeout, False)
    try:
        answer = await _answered(link, f"{line} HTTP/1.0\r\nHost: {_host_of(place)}\r\n\r\n".encode("ascii"), seconds)
    except socket.timeout as error:
        raise Lost(f"{line}: no answer, for {seconds:g} seconds") from error
    except OSError as error:
        raise Lost(f"{line}: {error}") from error
    finally:
        link.drop()
    return _words_of(line, answer)


def _host_of(place: Place) -> str:
    """By which name the pages are called."""
    if not isinstance(place, Port):
        return "localhost"
    return f"[{place.host}]:{place.port}" if ":" in place.host else f"{place.host}:{place.port}"


async def _answered(link: Link, request: bytes, seconds: float) -> bytes:
    """What is answered to a request, until the server closes the connection."""
    end = time.monotonic() + seconds
    await link.connect(seconds)
    await link.send(request, max(0.001, end - time.monotonic()))
    answer = bytearray()
    while len(answer) < MAX_ANSWER:
        piece = await link.receive(end)
        if not piece:
            break
        answer += piece
    return bytes(answer)


def _words_of(line: str, answer: bytes) -> List[int]:
    """The words of an answer that is whole."""
    head, _, body = answer.partition(b"\r\n\r\n")
    told = re.match(rb"HTTP/1\.[01] ([0-9]{3}) ", head)
    length = re.search(rb"\r\ncontent-length: ([0-9]+)", head, re.IGNORECASE)
    if not told or not length or len(body) != int(length[1]):
        raise Lost(f"{line}: the answer is not whole, or none of these pages")
    if told[1] == b"503":
        raise Fault(f"{line}: the tenant's file has failed, or did not open")
    if told[1] != b"200":
        raise Refused(line, int(told[1]))
    count = re.search(rb"^words ([0-9]+)$", body, re.MULTILINE)
    words = re.findall(rb"^word ([0-9]+) ([0-9]+)$", body, re.MULTILINE)
    if not count or [int(address) for address, _ in words] != list(range(int(count[1]))):
        raise Lost(f"{line}: the answer is none of these pages")
    return [int(value) for _, value in words]
