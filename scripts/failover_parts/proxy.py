"""HAProxy on this machine with the backend of contrib/ha, in front of the hosts.

Used by: scripts/check-failover, moves.py. It replaces the servers' lines of contrib/ha/backend.cfg: change both.
"""
import socket
import subprocess
import time
from pathlib import Path
from typing import Sequence, Tuple

from .gluster import TOP
from .hosts import Network, Wrong
from .keepers import PORT, SERVER

HERE = "127.0.0.1"
FRONT = """global
    maxconn 1000
    stats socket {socket} mode 600 level admin
defaults
    mode tcp
    timeout connect 2s
    timeout queue 10s
    timeout client 1h
    timeout server 1h
frontend tenants
    bind {at}
    {rule}
backend moving
"""
ALL_TO_A = "default_backend server_a"


def backend_of(network: Network, server: str, port: int) -> str:
    """The backend of a server that each host may have at this port."""
    text = (TOP / "contrib/ha/backend.cfg").read_text()
    for host in network.hosts:
        old = f"    server a{host.number} {host.name}:{PORT}\n"
        if old not in text:
            raise Wrong(f"contrib/ha/backend.cfg has no{old}")
        text = text.replace(old, f"    server {server}{host.number} {host.address}:{port}\n")
    return text.replace("\nbackend server_a\n", f"\nbackend server_{server}\n")


class Proxy:
    """A proxy that runs, with a rule that finds the backend. `place` is where clients find it, `socket` where it is told what to change."""

    def __init__(self, network: Network, folder: Path, rule: str = ALL_TO_A, ports: Sequence[Tuple[str, int]] = ((SERVER, PORT),)):
        with socket.create_server((HERE, 0)) as free:
            self.place = free.getsockname()[:2]
        self.socket = folder / "proxy.sock"
        backends = [backend_of(network, server, port) for server, port in ports]
        front = FRONT.format(socket=self.socket, at=f"{HERE}:{self.place[1]}", rule=rule)
        (folder / "haproxy.cfg").write_text(front + "".join(backends))
        self.log = open(folder / "haproxy.log", "wb")
        self.process = subprocess.Popen(["haproxy", "-db", "-f", folder / "haproxy.cfg"], stdin=subprocess.DEVNULL, stdout=self.log, stderr=self.log)
        time.sleep(0.5)
        if self.process.poll() is not None:
            raise Wrong(f"haproxy: {(folder / 'haproxy.log').read_text()}")

    def end(self) -> None:
        self.process.kill()
        self.process.wait()
        self.log.close()
