"""TLS: the client in Python at a front that speaks it, and passes on to a server what it hears. `openssl` makes the certificates.
`clients` is `mondlexi`, or `awaited` for its asyncio twin.

Used by: scripts/check-programs, scripts/check-proxy, client_parts/examples.py. Nothing here passes or fails by how fast the machine is.
"""
import contextlib
import select
import socket
import ssl
import threading

from . import shell
from .common import HOST, PATIENCE, Peers, at, raises, same, well, wrong

import mondlexi  # noqa: E402

NAME = "words.example"
CONFIG = f"""
[req]
distinguished_name = names
[names]
[authority]
basicConstraints = critical, CA:true
keyUsage = critical, keyCertSign
subjectKeyIdentifier = hash
[host]
subjectAltName = IP:{HOST}
authorityKeyIdentifier = keyid
[name]
subjectAltName = DNS:{NAME}
authorityKeyIdentifier = keyid
[client]
authorityKeyIdentifier = keyid
"""


def make_certificates(folder):
    """NAME.pem and NAME.key of the authority, of a server at 127.0.0.1, of one with a name, and of a client."""
    (folder / "config").write_text(CONFIG)
    openssl(folder, "req", "-config", "config", "-x509", "-extensions", "authority", *new_key("authority"), "-out", "authority.pem")
    for kind in ("host", "name", "client"):
        openssl(folder, "req", "-config", "config", "-new", *new_key(kind), "-out", f"{kind}.csr")
        openssl(folder, "x509", "-req", "-in", f"{kind}.csr", "-CA", "authority.pem", "-CAkey", "authority.key", "-CAcreateserial",
                "-days", "2", "-extfile", "config", "-extensions", kind, "-out", f"{kind}.pem")


def new_key(kind):
    return "-newkey", "ec", "-pkeyopt", "ec_paramgen_curve:P-256", "-nodes", "-keyout", f"{kind}.key", "-subj", f"/CN={kind}"


def openssl(folder, *words):
    well("openssl", *words, at=folder)


class Front:
    """Speaks TLS with clients under a certificate, and passes on what they say to a server, each in a thread."""

    def __init__(self, folder, kind, server_at, wants_certificate=False):
        self.context = ssl.SSLContext(ssl.PROTOCOL_TLS_SERVER)
        self.context.load_cert_chain(folder / f"{kind}.pem", folder / f"{kind}.key")
        if wants_certificate:
            self.context.verify_mode = ssl.CERT_REQUIRED
            self.context.load_verify_locations(folder / "authority.pem")
        self.server_at = server_at
        self.listener = socket.create_server((HOST, 0))
        self.at = at(self.listener.getsockname()[1])
        threading.Thread(target=self.serve, daemon=True).start()

    def serve(self):
        with contextlib.suppress(OSError):
            while True:
                connection, _ = self.listener.accept()
                threading.Thread(target=self.serve_one, args=(connection,), daemon=True).start()

    def serve_one(self, connection):
        host, port = self.server_at.split(":")
        with connection, contextlib.suppress(OSError):
            connection.settimeout(PATIENCE)
            with self.context.wrap_socket(connection, server_side=True) as client, socket.create_connection((host, int(port))) as server:
                while self.pass_on(client, server):
                    pass
                client.unwrap()

    @staticmethod
    def pass_on(client, server):
        """Passes on what came from either. Whether neither has ended."""
        ready = [client] if client.pending() else select.select([client, server], [], [])[0]
        source, target = (client, server) if client in ready else (server, client)
        piece = source.recv(4096)
        target.sendall(piece)
        return bool(piece)


def client_context(folder, certificate=None):
    """What a client has that trusts the authority."""
    context = ssl.create_default_context(cafile=folder / "authority.pem")
    if certificate:
        context.load_cert_chain(folder / f"{certificate}.pem", folder / f"{certificate}.key")
    return context


def try_tls(clients, folder, server):
    """At a server behind fronts."""
    trusting = client_context(folder)
    with clients.Client(Front(folder, "host", server.at).at, "t", tls=trusting) as client:
        before = client.get(9)
        same(bool(client.cas([(9, before, 3)])), True, "cas over TLS")
        same(client.get_many(range(client.words))[9], 3, "get_many over TLS")
        client.reconnect()
        same(client.get(9), 3, "get over TLS, connected anew")
    named = Front(folder, "name", server.at).at
    with clients.Administrator(named, tls=trusting, tls_name=NAME) as administrator:
        same(administrator.report().tenants[0].name, "t", "report over TLS")
    for what, server_at, options in (("another name", named, {"tls": trusting}), ("a plain server", server.at, {"tls": trusting}),
                                     ("an unknown authority", named, {"tls": ssl.create_default_context(), "tls_name": NAME})):
        raises(mondlexi.Lost, f"TLS of {what}", clients.Client, server_at, "t", **options)
    raises(mondlexi.Full, "a server behind TLS that is full", clients.Client, Front(folder, "host", Peers([""]).at).at, "t", tls=trusting)


def try_client_certificate(clients, folder, server):
    """A front that wants a certificate of its clients."""
    strict = Front(folder, "host", server.at, wants_certificate=True).at
    if clients is mondlexi:
        shell.try_tls(folder, strict, Front(folder, "name", server.at).at, NAME)
    with clients.Client(strict, "t", tls=client_context(folder, "client")) as client:
        same(client.get(9), 3, "get with a certificate")
    try:
        clients.Client(strict, "t", tls=client_context(folder))
    except mondlexi.Lost:
        return
    wrong("a client without its certificate was let in")


def try_arguments(clients, folder):
    """What is wrong before anything is sent."""
    trusting = client_context(folder)
    for kind, server_at, options in ((ValueError, "unix:socket", {"tls": trusting}), (TypeError, at(1), {"tls": True}),
                                     (ValueError, at(1), {"tls_name": NAME}), (ValueError, at(1), {"tls": trusting, "tls_name": ""}),
                                     (TypeError, at(1), {"tls": trusting, "tls_name": b"words"})):
        raises(kind, f"TLS at {server_at} by {options}", clients.Client, server_at, "t", **options)


def try_all(clients, folder, server):
    """All of these."""
    if not (folder / "client.pem").exists():
        make_certificates(folder)
    try_arguments(clients, folder)
    try_tls(clients, folder, server)
    try_client_certificate(clients, folder, server)
