"""Does by docs/OPERATING.md what an operator does to keep a service: cron, backups, drills, more words, upgrades and the way back.

Used by: as_operator.py; booted.py, which puts both into the container. It needs units.py, and no other file of this repository.
"""
import contextlib
import re
from pathlib import Path
from typing import Iterable, List

from units import (OPTIONS, PAGE, ROOM, UNITS, Block, Unit, away, begin, blocks, client, end, ended, main_process, run, same, section_of, served, servers,
                   state, try_to_talk, type_block, wait_until, word)

KEPT = Path("/backup")
COPY = ["t.mw", "tenants", "tenants.served"]
"""The files of a backup."""


def wait_for(unit: Unit, when: str) -> None:
    """Waits until the server answers, and all tenants are up."""
    wait_until(f"the server {when}", lambda: ended("mondlexi-check", unit.admin).returncode == 0)


def files_of(copies: Iterable[Path]) -> List[List[str]]:
    """The names of the files of some copies."""
    return [sorted(it.name for it in copy.iterdir()) for copy in copies]


def cron_lines() -> List[List[str]]:
    """The page's file for cron: how cron runs each line, as its user, in an environment that has the file's PATH and nothing else."""
    text = section_of(PAGE, "What to watch")
    paths = re.findall(r"^ {4}(PATH=\S+)$", text, re.MULTILINE)
    lines = re.findall(r"^ {4}(?:[\d*]+ ){5}(\w+) (.*)$", text, re.MULTILINE)
    same((len(paths), [user for user, _ in lines]), (1, ["mw", "root"]), "the lines of OPERATING for cron")
    return [["runuser", "-u", user, "--", "env", "-i", paths[0], "sh", "-c", command] for user, command in lines]


def serving_block() -> Block:
    """The page's block that makes a backup while the server serves."""
    return next(it for it in blocks("Backup") if any("--unix-socket" in command for command, _ in it))


def try_backup_while_serving(unit: Unit) -> None:
    """The page's commands for a backup of a server that serves, at this unit. Its copies go after."""
    value = word(unit)
    type_block(serving_block(), ROOM)
    copy = KEPT / "today"
    same((f"word 0 {value}" in run("mwshow", copy / "t.mw").splitlines(), files_of([copy])), (True, [["t.mw", "tenants.served"]]), f"a backup while {unit.name} serves")
    run("rm", "-r", copy)


def try_cron(unit: Unit) -> None:
    """The page's lines for cron, run as cron runs them. They are silent with a server, and fail without one."""
    before = set(KEPT.iterdir())
    for is_served in (True, False):
        with served(unit) if is_served else contextlib.nullcontext():
            for words in cron_lines():
                told = ended(*words)
                same((told.returncode == 0, told.stdout == ""), (is_served, is_served), f"`{words[-1]}` of cron, which prints {told.stdout!r}")
    new = set(KEPT.iterdir()) - before
    same(files_of(new), [COPY], "the copy that cron has made")
    run("rm", "-r", *new)
    print(f"{unit.name}: the page's lines for cron: silent with a server; without one each says so")


def blocks_at(unit: Unit, section: str) -> List[Block]:
    """The blocks of a section of the page, with this unit and its address in place of the one that the page names."""
    named = UNITS[0]
    return [[(command.replace(named.name, unit.name).replace(named.listen, unit.listen), wanted) for command, wanted in it] for it in blocks(section)]


def stopping_blocks(unit: Unit) -> List[Block]:
    """The page's blocks that stop the server: for a backup, to restore a tenant, and for a drill in the service."""
    found = [it for it in blocks_at(unit, "Backup") if any(f"systemctl stop {unit.name}" in command for command, _ in it)]
    same(len(found), 3, "the blocks of the section Backup that stop the server")
    return found


def try_drill(unit: Unit, drill: Block, value: int) -> None:
    """The page's drill, and with a change in place of its read, beside a server and without one: the served word stays as it is."""
    changing = [(command.replace("GET 0", f"CAS 0:{value}:{value + 1}"), "OK 1000\nYES\n" if "--script" in command else wanted)
                for command, wanted in drill]
    same("CAS" in "".join(command for command, _ in changing), True, "that the page's drill reads the word 0")
    type_block(drill, ROOM)
    type_block(changing, ROOM)
    same(word(unit), value, "the word after a drill beside the server")
    end(unit)
    type_block(changing, ROOM)
    begin(unit)
    same(word(unit), value, "the word after a drill without a server")


def try_drill_in_service(unit: Unit, second: Block, value: int) -> None:
    """The page's commands that restore a copy as a second tenant, which goes after."""
    text = (ROOM / "tenants").read_text()
    type_block(second, ROOM)
    same(run("mondlexi", unit.listen, "u", "get", "0"), f"{value}\n", "the word of a copy that was restored as a second tenant")
    end(unit)
    (ROOM / "tenants").write_text(text)
    (ROOM / "u.mw").unlink()
    begin(unit)


def try_tenants_file(unit: Unit, restore: Block, value: int) -> None:
    """The tenants file of a backup goes back in the way in which the page restores a tenant's file."""
    text = (ROOM / "tenants").read_text()
    (ROOM / "tenants").write_text("u 2 1 u.mw\n")
    way = [(command.replace("t.new", "tenants.new").replace("today/t.mw", "today/tenants.served").replace(" t.mw", " tenants"), wanted)
           for command, wanted in restore]
    same("mv tenants.new tenants &&" in "".join(command for command, _ in way), True, f"the way of the tenants file in {way}")
    type_block(way, ROOM)
    wait_for(unit, "after its tenants file was restored")
    same(((ROOM / "tenants").read_text(), word(unit)), (text, value), "the tenants file that was restored, and the word")


def try_replaced(unit: Unit, restore: Block) -> int:
    """The page's commands for a file that was replaced, with the number of the old one in place of N. It is restored, with a change that
    the new one doesn't have. The word 0 then."""
    run("cp", "-p", ROOM / "t.mw", ROOM / "t.new")
    value = try_to_talk(unit)
    run("mv", ROOM / "t.new", ROOM / "t.mw")
    wait_until("the health of a replaced file", lambda: ended("mondlexi-health", "unix:/run/mondlexi/pages").stdout == "down t\nreplaced t\n")
    look, copy = (command for command, _ in blocks_at(unit, "Locks")[0])
    numbers = re.findall(rf" (\d+) -> {ROOM}/t\.mw \(deleted\)$", run("sh", "-c", look), re.MULTILINE)
    same((len(numbers), copy.count("/N ")), (1, 1), f"the old files that `{look}` shows, and the places of its number in `{copy}`")
    old = KEPT / "t.old"
    type_block([(look, ""), (copy.replace("/N ", f"/{numbers[0]} "), "")], ROOM)
    type_block([(command.replace("/backup/today/t.mw", str(old)), wanted) for command, wanted in restore], ROOM)
    wait_for(unit, "after a replaced file was restored")
    same(word(unit), value, "the word of a replaced file that was restored")
    old.unlink()
    return value


def try_page(unit: Unit) -> None:
    """The page's commands for a backup of a server that serves, and of a stopped one, for drills, to restore it, when a file was replaced
    or a tenant is down, and for more words, at this unit. The tenants file has an absolute path."""
    text = (ROOM / "tenants").read_text()
    (ROOM / "tenants").write_text(text.replace(" t.mw\n", f" {ROOM}/t.mw\n"))
    begin(unit)
    try_to_talk(unit)
    value = word(unit)
    backup, restore, second = stopping_blocks(unit)
    drill = next(it for it in blocks("Backup") if any("--script" in command for command, _ in it))
    type_block(serving_block(), ROOM)
    same(f"word 0 {value}" in run("mwshow", "/backup/today/t.mw").splitlines(), True, "the word 0 of a backup while it serves")
    type_block(backup, ROOM)
    wait_for(unit, "after a backup")
    try_drill(unit, drill, value)
    try_to_talk(unit)
    type_block(restore, ROOM)
    wait_for(unit, "after that was restored")
    same(word(unit), value, "the word of a backup that was restored")
    try_tenants_file(unit, restore, value)
    try_drill_in_service(unit, second, value)
    value = try_replaced(unit, restore)
    type_block(blocks_at(unit, "When a tenant is down")[0], ROOM)
    same(state(unit.name), ("inactive", "success"), "the unit while a tenant is mended")
    type_block(blocks_at(unit, "Changing tenants")[0], ROOM)
    wait_for(unit, "after the tenant has grown")
    with client(unit) as at:
        same((at.words, at.get(0)), (2000, value), "the tenant that has grown")
    print(f"{unit.name}: the page's commands for a backup of a server that serves, and of a stopped one, for drills, to restore it, when a file was "
          "replaced or a tenant is down, and for more words")


def put_back(unit: Unit, text: str) -> None:
    """Stops a unit, and puts back a tenant's file that has grown, and the tenants file with this text."""
    end(unit)
    (ROOM / "t.old").rename(ROOM / "t.mw")
    (ROOM / "tenants").write_text(text)


BEFORE = """#!/bin/sh
set -e
[ ! -d /run/systemd/system ] || systemctl stop mondlexi.service mondlexi-local.service
"""
"""The script by which the package of version 0.2.0 stopped its units, before an upgrade too."""


def package_before(deb: str) -> str:
    """A package of the version before: this one with the scripts that it had."""
    tree = Path("/root/before")
    run("dpkg-deb", "--raw-extract", deb, tree)
    control = (tree / "DEBIAN/control").read_text()
    (tree / "DEBIAN/control").write_text(re.sub(r"(?m)^Version: .*$", "Version: 0.1", control))
    (tree / "DEBIAN/prerm").write_text(BEFORE)
    for name in ("preinst", "postinst", "postrm"):
        (tree / "DEBIAN" / name).unlink()
    run("dpkg-deb", "-Zgzip", "-z1", "--build", tree, "/root/before.deb")
    return "/root/before.deb"


def try_way_back(unit: Unit, before: str) -> None:
    """By the page: copies of a stopped server, the package of the version before, and the copies again. What was changed since is gone."""
    backup, restore, _ = stopping_blocks(unit)
    type_block(backup, ROOM)
    wait_for(unit, "after copies for the way back")
    value = word(unit)
    try_to_talk(unit)
    end(unit)
    run("dpkg", "--install", before)
    type_block(restore, ROOM)
    wait_for(unit, "of the version before")
    same((run("dpkg-query", "--show", "--showformat", "${Version}", "mondlexi"), word(unit)), ("0.1", value), "the version before, and its word")


def try_upgrades(unit: Unit, deb: str) -> None:
    """A package over a running service: it serves the same words after, by a new server. One that doesn't run isn't started. The options stay."""
    value = try_to_talk(unit)
    OPTIONS.write_text(OPTIONS.read_text().replace("--clients 256", "--clients 300"))
    chosen = OPTIONS.read_text()
    before = package_before(deb)
    for what, first in (("the same version", deb), ("the version before", before)):
        server = main_process(unit.name)
        if first == before:
            run("dpkg", "--install", before)
            same((main_process(unit.name), word(unit)), (server, value), "the server after a package whose scripts start nothing")
        run("dpkg", "--install", deb)
        same((main_process(unit.name) not in (0, server), word(unit), servers()), (True, value, [str(main_process(unit.name))]), f"an upgrade from {what}")
        same((OPTIONS.read_text(), "--clients\x00300" in Path(f"/proc/{main_process(unit.name)}/cmdline").read_text()), (chosen, True), "the options")
    end(unit)
    run("dpkg", "--install", deb)
    same((state(unit.name), servers()), (("inactive", "success"), []), "a unit that was stopped, after an upgrade")
    begin(unit)
    with away("t.mw"):
        told = ended("dpkg", "--install", deb)
        same((told.returncode, f"mondlexi: {unit.name}.service doesn't start" in told.stdout), (0, True), f"an upgrade whose server doesn't start: {told.stdout}")
    begin(unit)
    try_way_back(unit, before)
    run("dpkg", "--install", deb)
    try_to_talk(unit)
    print("upgrades: a server that runs is restarted, also from the version before; one that was stopped stays so; one that doesn't start is told of; "
          "the options are kept; the version before comes back with the copies, by the page's commands")
