"""Ports at which nobody listens.

Used by: scripts/check-proxy, scripts/check-map.
"""
import socket
from typing import List

from .common import HOST


def free_ports(number: int) -> List[int]:
    """Ports at which nobody listens."""
    sockets = [socket.create_server((HOST, 0)) for _ in range(number)]
    ports = [it.getsockname()[1] for it in sockets]
    for it in sockets:
        it.close()
    return ports
