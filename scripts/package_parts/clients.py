"""The clients in other languages than Python as they are packed: their sources with the cases that they pass, and
libmondlexi-dev_VERSION_amd64.deb, which has the library of C, static and shared, its header, its page of the manual, and what pkg-config
says of it. The library is over the proved lines and readings, if these are built.

Used by: scripts/package; program_parts/recorded.py, which names its package; client_parts/builds.py, which builds a program with what the
library's package has. A further language is a word of SOURCES, a further example in C one of DOCUMENTS.
"""
import gzip
import os
import re
import shutil
import subprocess
from datetime import datetime, timezone
from pathlib import Path
from typing import Dict

from .maintainer import COPYRIGHT

TOP = Path(__file__).resolve().parent.parent.parent
SOURCES = ("c", "rust", "go", "node", "java", "cases")
LEFT_OUT = {"out", "target", "Cargo.lock", "node_modules"}
"""What builds leave."""
DOCUMENTS = ("README.md", "lock_table.c", "over_openssl.c")
"""Of the client in C, in libmondlexi-dev."""
PROVED = TOP / "crates/mw_client_c/out/libmw_client_c.a"
"""The proved lines and readings for C, as `rt lib` builds them."""
LIBRARIES = "/usr/lib/x86_64-linux-gnu"
CONTROL = """Package: libmondlexi-dev
Version: {version}
Architecture: amd64
Maintainer: {maintainer}
Installed-Size: {size}
Section: libdevel
Priority: optional
Depends: libc6 (>= {libc})
Recommends: pkg-config
Suggests: mondlexi
Description: client library in C of a server of durable words
 The library mondlexi, static and shared, with its header and its page
 of the manual. A program connects by it to a server of Mondlexi. The
 package mondlexi has the documents.
"""
NOTE = """
This page is of the package `libmondlexi-dev`, which needs no `make`. Pages of `docs` are in `/usr/share/doc/mondlexi/docs`, of the package
`mondlexi`. Paths that begin with `crates` or `scripts` are in the repository. The examples are beside this page:

    $ cc -o lock_table lock_table.c $(pkg-config --cflags --libs mondlexi)
    $ cc -o over_openssl over_openssl.c $(pkg-config --cflags --libs mondlexi) -lssl -lcrypto     # needs libssl-dev
"""
"""What the README of libmondlexi-dev says below its title."""
MAKE = re.compile(r"^    \$ (?:make|sudo (?:make|ldconfig))\b.*\n", re.MULTILINE)
"""The lines of the README by which its sources are built and installed."""


def can_be_built() -> bool:
    """Whether this machine has what libmondlexi-dev is made by."""
    return all(shutil.which(need) for need in ("cc", "make", "readelf", "dpkg-deb"))


def build_proved() -> str:
    """Builds the proved lines and readings, if they aren't there, or a crate was changed since. Why that can't be done; nothing if they are
    there then."""
    changed = max(path.stat().st_mtime for path in (TOP / "crates").glob("*/src/**/*.rt"))
    if PROVED.is_file() and PROVED.stat().st_mtime >= changed:
        return ""
    if not shutil.which("rt"):
        return "there is no rt"
    ran = subprocess.run(["rt", "lib"], cwd=PROVED.parent.parent, stdin=subprocess.DEVNULL, stdout=subprocess.PIPE, stderr=subprocess.STDOUT)
    return f"rt lib fails: {ran.stdout.decode(errors='replace').strip()}" if ran.returncode else ""


def client_sources() -> Dict[str, str]:
    """The files of the clients, by their paths, with their paths in a package: the same ones."""
    paths = (path for name in SOURCES for path in sorted((TOP / "clients" / name).rglob("*")))
    files = (path.relative_to(TOP) for path in paths if path.is_file() and not LEFT_OUT & set(path.parts))
    return {str(path): str(path) for path in files}


def libc_of(told: str) -> str:
    """The least version of the C library that programs or libraries need, of which readelf tells this."""
    found = {tuple(map(int, it.split("."))) for it in re.findall(r"GLIBC_(\d+(?:\.\d+)+)", told)}
    return ".".join(map(str, max(found, default=(2, 2, 5))))


def build_deb(root: Path, made: Path, moment: int) -> Path:
    """Makes a package of dpkg of the files below a folder. Its path."""
    subprocess.run(["dpkg-deb", "--root-owner-group", "-Zgzip", "-z6", "--build", root, made], check=True, stdout=subprocess.DEVNULL,
                   env={**os.environ, "SOURCE_DATE_EPOCH": str(moment)})
    return made


def lay_out(root: Path, room: Path, moment: int) -> None:
    """The files of the package, below a folder."""
    words = [f"OUT={room}/out", f"DESTDIR={root}", "PREFIX=/usr", f"LIBDIR={LIBRARIES}", "CFLAGS=-O2"]
    words += [f"PROVED={PROVED}"] if PROVED.is_file() else []
    subprocess.run(["make", "-s", "-C", TOP / "clients/c", *words, "install"], check=True)
    page = root / "usr/share/man/man3/mondlexi.3"
    page.with_name("mondlexi.3.gz").write_bytes(gzip.compress(page.read_bytes(), 9, mtime=moment))
    page.unlink()
    documents = root / "usr/share/doc/libmondlexi-dev"
    documents.mkdir(parents=True)
    for name in DOCUMENTS:
        text = (TOP / "clients/c" / name).read_text(encoding="utf-8")
        (documents / name).write_text(MAKE.sub("", text).replace("\n", f"\n{NOTE}", 1) if name == "README.md" else text, encoding="utf-8")
    for path in (root, *root.rglob("*")):
        if not path.is_symlink():
            path.chmod(0o755 if path.is_dir() else 0o644)


def make_library(to: Path, room: Path, version: str, maintainer: str, moment: int) -> Path:
    """Makes libmondlexi-dev in a folder. `room`: an empty folder to work in; `moment`: of its files, in seconds since 1970. Its path."""
    root = room / "library"
    root.mkdir()
    lay_out(root, room, moment)
    terms = root / "usr/share/doc/libmondlexi-dev/copyright"
    terms.write_text(COPYRIGHT.format(year=datetime.fromtimestamp(moment, timezone.utc).year, maintainer=maintainer), encoding="utf-8")
    terms.chmod(0o644)
    size = sum(path.stat().st_size for path in root.rglob("*") if path.is_file() and not path.is_symlink()) // 1024
    control = root / "DEBIAN"
    control.mkdir()
    library = root / LIBRARIES[1:] / "libmondlexi.so.0"
    libc = libc_of(subprocess.run(["readelf", "--version-info", library], stdout=subprocess.PIPE, text=True, check=True).stdout)
    (control / "control").write_text(CONTROL.format(version=version, maintainer=maintainer, size=size, libc=libc))
    (control / "triggers").write_text("activate-noawait ldconfig\n")
    return build_deb(root, to / f"libmondlexi-dev_{version}_amd64.deb", moment)
