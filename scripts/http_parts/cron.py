"""contrib's backup for cron, at a server with pages: what it keeps, what it leaves, and what it says if it fails.

Used by: scripts/check-backup.
"""
import os
import shutil
import signal
import socket
import subprocess
import time
from pathlib import Path
from typing import Dict, List

from lib.checks import PATIENCE, TOP, Ended, run, same
from lib.served import Client, Served

from .server import serve

SCRIPT = TOP / "contrib/mondlexi-backup"
TENANTS = (("a", 3, 1), ("b", 5, 2))
OLD, YOUNG = "2026-01-01T000000Z.part", "2026-01-01T000001Z.part"
"""What runs that were cut off have left."""
HOURS = 7200
"""After so many seconds it is old."""
NO_SERVER = "without a server"
Copies = Dict[str, Dict[str, bytes]]
"""The folders that are kept, by name: of each its files, by name, with their bytes."""


class Backup:
    """The script, with paths of a trial in place of its own, and the programs of a trial before all others."""

    def __init__(self, folder: Path, mwshow: Path):
        self.folder, self.mwshow, self.programs = folder, mwshow, mwshow.parent
        self.served, self.kept, self.figures = folder / "served", folder / "kept", folder / "figures"
        for it in (self.served, self.kept, self.figures):
            it.mkdir()

    def start(self, pages: Path) -> "subprocess.Popen[str]":
        """Starts it in a session of its own, with the pages at this socket."""
        text = SCRIPT.read_text()
        for old, new in (("served=/srv/mw\n", self.served), ("pages=/run/mondlexi/pages\n", pages), ("kept=/backup\n", self.kept),
                         ("figures=/var/lib/prometheus/node-exporter\n", self.figures)):
            same(text.count(old), 1, f"{SCRIPT.name}: how often it has {old!r}")
            text = text.replace(old, f"{old.partition('=')[0]}='{new}'\n")
        path = self.folder / SCRIPT.name
        path.write_text(text)
        environment = {**os.environ, "PATH": f"{self.programs}:{os.environ['PATH']}"}
        return subprocess.Popen(["sh", path], env=environment, stdin=subprocess.DEVNULL, stdout=subprocess.PIPE, stderr=subprocess.STDOUT,
                                text=True, start_new_session=True)

    def run(self) -> Ended:
        """Runs it to its end."""
        started = self.start(self.served / "pages")
        told, _ = started.communicate(timeout=PATIENCE)
        return Ended(started.returncode, told, "")

    def copies(self) -> Copies:
        """What is kept."""
        return {it.name: {file.name: file.read_bytes() for file in it.iterdir()} for it in self.kept.iterdir()}

    def last(self) -> float:
        """The figure that node_exporter finds: when the last backup was whole. 0 if there is none."""
        path = self.figures / "mondlexi.prom"
        return float(path.read_text().split()[-1]) if path.exists() else 0.0

    def words_of(self, file: Path) -> List[int]:
        """The words of a copy, as mwshow tells them."""
        return [int(line.split()[2]) for line in run(self.mwshow, "--words", file).out.splitlines() if line.startswith("word ")]

    def keeps_one_more(self, word: int, what: str) -> None:
        """A run that goes well: one more folder has all files, with this word 0 of the tenant a, and no other one has changed."""
        before, began, ended = self.copies(), int(time.time()), self.run()
        same(ended, (0, "", ""), f"{SCRIPT.name}, {what}")
        same(began <= self.last() <= time.time(), True, f"the moment of the last backup, {what}: {self.last()}")
        same([f"{it.name} {it.stat().st_mode & 0o777:o}" for it in self.figures.iterdir()], ["mondlexi.prom 644"], f"the figure's file, {what}")
        after = self.copies()
        new = [it for it in after if it not in before]
        same((len(new), {it: after.get(it) for it in before}), (1, before), f"the copies that are kept, {what}")
        same(sorted(after[new[0]]), ["a.mw", "b.mw", "tenants", "tenants.served"], f"the files of the new copy, {what}")
        same(after[new[0]]["tenants.served"], (self.served / "tenants").read_bytes(), f"its copy of the tenants file, {what}")
        lines = "".join(f"{name} {words} {quota} {name}.mw\n" for name, words, quota in TENANTS)
        same(after[new[0]]["tenants"].decode(), lines, f"its own tenants file, {what}")
        same([self.words_of(self.kept / new[0] / f"{name}.mw") for name, _, _ in TENANTS], [[word, 0, 0], [0] * 5], f"its words, {what}")

    def keeps_nothing(self, step: str, what: str) -> None:
        """A run that fails: its last line, and all that is kept is as it was."""
        before, moment = self.copies(), self.last()
        said = self.fails(step, what)
        same(self.last(), moment, f"the moment of the last backup, {what}")
        unanswered = f"no answer at unix:{self.served / 'pages'}: is the unit running?\n"
        same(unanswered in said, what == NO_SERVER, f"whether {SCRIPT.name}, {what}, says that nobody answers: {said!r}")
        same(self.copies(), before, f"what is kept, {what}")

    def fails(self, step: str, what: str) -> str:
        """A run that fails: its status and its last line. What it said."""
        ended = self.run()
        last = f"mondlexi-backup: failed at {step}; earlier copies are as they were\n"
        same((ended.status != 0, ended.out.endswith(last)), (True, True), f"{SCRIPT.name}, {what}, which says {ended.out!r}")
        return ended.out


def try_leftovers(backup: Backup) -> None:
    """What runs that were cut off have left stops no other, and goes once it is old."""
    for name in (OLD, YOUNG):
        (backup.kept / name).mkdir()
    (backup.kept / OLD / "a.mw").write_bytes(b"a part")
    os.utime(backup.kept / OLD, times=2 * (time.time() - HOURS,))
    ended = backup.run()
    same((ended.status, ended.out, (backup.kept / OLD).exists(), (backup.kept / YOUNG).exists()), (0, "", False, True),
         "a run after runs that were cut off")
    silent = backup.folder / "silent"
    with socket.socket(socket.AF_UNIX) as listener:
        listener.bind(str(silent))
        listener.listen()
        listener.settimeout(PATIENCE)
        started = backup.start(silent)
        client, _ = listener.accept()
        os.killpg(started.pid, signal.SIGKILL)
        started.communicate(timeout=PATIENCE)
        client.close()
    same(len(list(backup.kept.glob("*.part"))), 2, "what is left of a run that is killed")
    backup.keeps_one_more(1, "after one that was killed")


def try_failures(backup: Backup, server: Served) -> None:
    """No tenant of a name, a copy with damage, no tenants file, and no server."""
    pages, tenants = backup.served / "pages", backup.served / "tenants"
    text = tenants.read_text()
    tenants.write_text(f"{text}none 1 1 none.mw\n")
    backup.keeps_nothing(f"tenant none, asked for at {pages}", "with a tenant that the server doesn't have")
    tenants.unlink()
    backup.keeps_nothing("the tenants file", "without a tenants file")
    tenants.write_text(text)
    programs, backup.programs = backup.programs, backup.folder / "wrong"
    backup.programs.mkdir()
    (backup.programs / "mwshow").write_text("#!/bin/sh\necho damage 1 byte 0\nexit 1\n")
    (backup.programs / "mwshow").chmod(0o755)
    backup.keeps_nothing("tenant a, by what mwshow says of its copy", "with a copy that has damage")
    backup.programs = programs
    server.kill()
    backup.keeps_nothing(f"tenant a, asked for at {pages}", NO_SERVER)


def try_drill(backup: Backup, mwserve: Path) -> None:
    """A drill on the last copy changes no file that was served, though the tenants file has absolute paths; no server has them now."""
    served, drill = {it: (backup.served / it).read_bytes() for it in ("a.mw", "b.mw")}, backup.folder / "drill"
    shutil.copytree(max(it for it in backup.kept.iterdir() if not it.name.endswith(".part")), drill)
    (drill / "script").write_text("TENANT a\nCAS 0:1:7\nGET 0\n")
    told = run(mwserve, "--tenants", "tenants", "--strict", "--script", "script", folder=drill)
    same(told[:2], (0, "OK 3\nYES\nVAL 7\n"), "a drill on a copy")
    same({it: (backup.served / it).read_bytes() for it in served}, served, "the files that were served, after a drill")
    same(backup.words_of(drill / "a.mw")[0], 7, "the word that the drill changed")


def try_backup_for_cron(mwserve: Path, mwshow: Path, folder: Path) -> str:
    """Does what the head says. What was tried."""
    backup = Backup(folder, mwshow)
    with serve(mwserve, backup.served, tenants=TENANTS) as server:
        backup.keeps_one_more(0, "as the first run")
        (backup.served / "tenants").write_text("".join(f"{name} {words} {quota} {backup.served / name}.mw\n" for name, words, quota in TENANTS))
        client = Client(server.port, "a")
        same(client.ask("CAS 0:0:1"), "YES", "a change between two runs")
        client.end()
        backup.keeps_one_more(1, "as the second run of a day")
        try_leftovers(backup)
        try_failures(backup, server)
        try_drill(backup, mwserve)
    backup.kept.rename(backup.folder / "away")
    backup.fails(f"a new folder in {backup.kept}", "without the folder of copies")
    return (f"contrib/{SCRIPT.name}: each run keeps a copy of its own; a run that fails or is cut off leaves the earlier ones, and stops no other; "
            "a drill on a copy changes no file that was served")
