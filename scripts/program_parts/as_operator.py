"""Does by docs/OPERATING.md what an operator does, as root of a Debian that systemd has booted: it installs the package, starts both
units, looks at their processes, talks to them, kills and stops them, runs the page's commands as they stand there, moves a tenant and
puts a proxy in front by those of docs/MANY-MACHINES.md, and removes the package. Then it installs the archive without dpkg, if one is given.

usage: as_operator.py PACKAGE BOOT [ARCHIVE]

BOOT is 1 in the first boot and 2 in the next one, where the unit that was enabled must run. Each thing that was tried is a line on
standard output, the last one is `all well`. Used by: booted.py, which runs it in a container. It needs units.py and upkeep.py beside
it, the package's client, Python alone otherwise, and no other file of this repository.
"""
import os
import pwd
import re
import signal
import socket
import sys
import threading
import time
from pathlib import Path
from typing import List

from units import (HTTP_PAGE, LOCAL, OPTIONS, PAGE, PATIENCE, PROXY, PROXY_PAGE, ROOM, UNITS, Unit, away, begin, blocks, changed, client, commands_of,
                   drop_in, end, ended, journal, main_process, refuses_to_start, run, same, section_of, served, servers, shown, state, try_to_talk,
                   type_block, wait_until, word, wrong)
from upkeep import COPY, KEPT, files_of, put_back, try_backup_while_serving, try_cron, try_page, try_upgrades

CHOSEN = "--clients 256 --workers 8 --wait 5 --idle 3600 --faults 1 --strict --verbose"
"""The options of both units, as /etc/default/mondlexi (contrib/mondlexi.default) has them: change both."""


def change_until_killed(unit: Unit) -> int:
    """Changes word 0 until SIGKILL ends the server. Gives the value of the last change answered YES."""
    import mondlexi
    told = word(unit)
    server = main_process(unit.name)
    killer = threading.Timer(0.5, os.kill, (server, signal.SIGKILL))
    killer.start()
    try:
        with client(unit) as at:
            while at.cas([(0, told, told + 1)]).made:
                told += 1
    except mondlexi.Error:
        pass
    killer.join()
    return told


def field(process: int, name: str) -> str:
    """A line of /proc/PID/status."""
    return " ".join(re.findall(rf"^{name}:\s*(.*)$", Path(f"/proc/{process}/status").read_text(), re.MULTILINE)[0].split())


def made_as(*paths: str) -> str:
    """Owner, group and mode of files."""
    return run("stat", "-c", "%U %G %a", *paths)


def inside(process: int, command: str) -> str:
    """What a shell of root prints in the mounts of a process."""
    return ended("nsenter", "--target", process, "--mount", "sh", "-c", command).stdout


def try_process(unit: Unit) -> None:
    """The process has the options, the user, the limits and the sandbox of its unit."""
    process = main_process(unit.name)
    words = Path(f"/proc/{process}/cmdline").read_text().split("\0")[:-1]
    addresses = ["--listen", unit.listen, "--admin", unit.admin, "--http", "unix:/run/mondlexi/pages", "--mode", "660"]
    same(words[1:], ["--journal", "--tenants", "tenants", *addresses, *CHOSEN.split()], f"the command line of {unit.name}")
    user, group = pwd.getpwnam("mw"), ended("getent", "group", unit.group).stdout.split(":")[2]
    same([field(process, it).split() for it in ("Uid", "Gid")], [4 * [str(user.pw_uid)], 4 * [group]], "user and group")
    same([field(process, it) for it in ("NoNewPrivs", "Seccomp", "Umask")], ["1", "2", "0077"], "NoNewPrivileges=, SystemCallFilter=, UMask=")
    same({int(field(process, it), 16) for it in ("CapInh", "CapPrm", "CapEff", "CapBnd", "CapAmb")}, {0}, "capabilities")
    limits = Path(f"/proc/{process}/limits").read_text()
    same([re.findall(rf"^{it} +(\S+) +(\S+)", limits, re.MULTILINE) for it in ("Max open files", "Max file size")],
         [[("8192", "8192")], [("unlimited", "unlimited")]], "LimitNOFILE=, LimitFSIZE=")
    same(shown(unit.name, "TasksMax"), "4608", "TasksMax=")
    for folder in ("/", "/etc", "/usr", "/var", "/run", "/run/lock", "/sys/kernel"):
        refused = "Read-only file system" in inside(process, f"touch {folder}/tried")
        same(refused, True, f"that {folder} can't be written (ProtectSystem=, ReadOnlyPaths=)")
    for folder in ("/srv/mw", "/run/mondlexi"):
        same(inside(process, f"touch {folder}/tried && rm {folder}/tried"), "", f"that {folder} can be written (ReadWritePaths=, RuntimeDirectory=)")
    Path("/tmp/tried").touch()
    Path("/home/tried").touch()
    same(inside(process, "ls -A /tmp /home /root"), "/home:\n\n/root:\n\n/tmp:\n", "PrivateTmp=, ProtectHome=")
    same(inside(process, "ls -d /dev/console /dev/kmsg /proc/meminfo 2> /dev/null; true"), "", "PrivateDevices=, ProcSubset=")
    same(inside(process, "setpriv --reuid=mw --regid=mw --clear-groups ls -d /proc/1 2> /dev/null; true"), "", "ProtectProc=")
    networks = [os.readlink(f"/proc/{it}/ns/net") for it in (1, process)]
    same(networks[0] != networks[1], unit.name == LOCAL, "a network of its own (PrivateNetwork=)")


def try_socket_users() -> None:
    """A user may connect to the local socket once she is in the group mwclients, by the page's commands, and not before."""
    run("useradd", "--create-home", "anna")
    connect = ("runuser", "-u", "anna", "--", "python3", "-c", "import mondlexi; print(mondlexi.Client('unix:/run/mondlexi/socket', 't').words)")
    same("Permission denied" in ended(*connect).stdout, True, "that a user who isn't in mwclients is refused")
    type_block(blocks("As a service")[1], ROOM)
    same(run(*connect), "1000\n", "what a user in mwclients hears")
    run("runuser", "-u", "mw", "--", "mondlexi-check", "unix:/run/mondlexi/admin")


def denies_addresses() -> bool:
    """Whether IPAddressDeny= denies anything: a container may not be able to."""
    send = "import socket; socket.socket(socket.AF_INET, socket.SOCK_DGRAM).sendto(b'', ('127.0.0.1', 9))"
    return ended("systemd-run", "--wait", "--quiet", "--property=IPAddressDeny=any", "python3", "-c", send).returncode != 0


def try_unit(unit: Unit) -> None:
    """A unit that runs: its process, a client, no reload, a restart, SIGKILL, a start and a stop."""
    try_process(unit)
    value = try_to_talk(unit)
    same(run("mondlexi", unit.listen, "t", "get", "0"), f"{value}\n", "what the command mondlexi prints")
    server = main_process(unit.name)
    refused = ended("systemctl", "reload", unit.name)
    same((refused.returncode != 0, "not applicable" in refused.stdout, main_process(unit.name)), (True, True, server), "systemctl reload")
    same(try_to_talk(unit), value + 1, "the word after a reload that was refused")
    begin(unit, "restart")
    same((main_process(unit.name) != server, word(unit)), (True, value + 1), "the word after a restart")
    server = main_process(unit.name)
    value = change_until_killed(unit)
    wait_until("a server in place of a killed one", lambda: main_process(unit.name) not in (0, server) and shown(unit.name, "ActiveState") == "active")
    same(shown(unit.name, "NRestarts"), "1", "the restarts of a unit whose server was killed")
    same(word(unit) in (value, value + 1), True, f"the word {word(unit)} after SIGKILL, of whom the last YES was for {value}")
    try_to_talk(unit)
    os.kill(main_process(unit.name), signal.SIGTERM)
    wait_until("the end of a server by SIGTERM", lambda: state(unit.name) == ("inactive", "success"))
    for _ in range(6):
        run("systemctl", "restart", unit.name)
    try_to_talk(unit)
    end(unit)
    print(f"{unit.name}: started, its process as the unit says, talked to, no reload, restarted, killed at change {value} and started again, "
          "started six times at once, stopped")


def try_web_page(unit: Unit) -> None:
    """A web page in a browser of this machine posts lines to a unit's port: its session ends at the first one, and the change isn't made."""
    value, (host, port) = word(unit), unit.listen.split(":")
    with socket.create_connection((host, int(port)), PATIENCE) as page:
        page.sendall(f"POST / HTTP/1.1\r\nHost: {unit.listen}\r\n\r\nTENANT t\nCAS 0:{value}:{value + 1}\n".encode())
        told = b"".join(iter(lambda: page.recv(4096), b""))
    same((told, word(unit)), (b"ERR 2\n", value), "what a web page hears of a unit, and the word after")
    print(f"{unit.name}: a web page can't have it change a word")


def try_second_unit() -> None:
    """The other unit ends the first one, and serves its files."""
    first, second = UNITS
    begin(first)
    value = try_to_talk(first)
    begin(second)
    same((state(first.name), word(second), len(servers())), (("inactive", "success"), value, 1), "a unit whose other one was started")
    begin(first)
    same((state(second.name), word(first), len(servers())), (("inactive", "success"), value, 1), "the first one again")
    end(first)
    print("the two units conflict: each start ends the other one first")


def errors_of(unit: Unit) -> List[str]:
    """What the page's command shows of a unit: its notes that are errors."""
    command = re.findall(r"`(journalctl -p err -u )UNIT`", PAGE.read_text())
    same(len(command), 1, "the command of OPERATING that shows errors")
    return run(*command[0].split(), unit.name, "--boot", "--output", "cat", "--no-pager").splitlines()


def try_failing_starts(unit: Unit) -> None:
    """`systemctl start` fails if nothing is served: without the tenants file, with a wrong option, and if no tenant is up. With one that is up it goes well."""
    with away("tenants"):
        refuses_to_start(unit, "refused 2 file", "without a tenants file")
    same("mwserve: refused 2 file" in errors_of(unit), True, f"that journalctl -p err shows why {unit.name} doesn't start")
    with changed(OPTIONS, "--clients 256", "--clients none"):
        refuses_to_start(unit, "none", "with a wrong option")
    same(any("'none' for '--clients <1..4096>'" in line for line in errors_of(unit)), True, f"that journalctl -p err shows the wrong option of {unit.name}")
    with changed(OPTIONS, " --strict", ""):
        with away("t.mw"):
            refuses_to_start(unit, "mondlexi-ready: no tenant is up", "whose only tenant is down")
        same("mondlexi-ready: no tenant is up" in errors_of(unit), True, f"that journalctl -p err shows that {unit.name} has no tenant that is up")
        text = (ROOM / "tenants").read_text()
        with changed(ROOM / "tenants", text, f"{text}away 2 1 away.mw\n"), served(unit):
            same(ended("mondlexi-health", "unix:/run/mondlexi/pages").stdout, "down away\n", "mondlexi-health of a unit with a tenant that is down")
            same("tenant away: disk" in errors_of(unit), True, "that journalctl -p err shows which tenant isn't served")
    print(f"{unit.name}: systemctl start fails if nothing is served, and says why")


def try_most_clients(unit: Unit) -> None:
    """The limits of a unit are enough for the most clients, with --wait."""
    before = len(journal(unit.name))
    with changed(OPTIONS, "--clients 256", "--clients 4096"), served(unit):
        try_to_talk(unit)
        same([it for it in journal(unit.name)[before:] if it.startswith("mwserve: ")], [], "the notes of a unit with --clients 4096")
    print(f"{unit.name}: --clients 4096 within the limits of the unit")


def try_command(unit: Unit, folder: Path) -> None:
    """The command mondlexi: a change, a word that is set and read, words that are dumped and loaded, and a file that is made of a dump."""
    with served(unit):
        run("mondlexi", unit.listen, "t", "set", "7:5")
        run("mondlexi", unit.listen, "t", "cas", "7:5:6", "8:0:1")
        same(run("mondlexi", unit.listen, "t", "read", "7", "8").split(), ["6", "1"], "what mondlexi read prints")
        run("sh", "-c", f"mondlexi {unit.listen} t dump --words > {folder}/dump && mwinit --from {folder}/dump {folder}/again.mw 1000 4")
        same("word 7 6" in run("mwshow", folder / "again.mw").splitlines(), True, "the word of a file that was made of a dump")
        run("mondlexi", unit.listen, "t", "cas", "7:6:0", "8:1:0")
        run("sh", "-c", f"mondlexi {unit.listen} t load {folder}/dump")
        same(run("mondlexi", unit.listen, "t", "get", "7"), "6\n", "a word that was loaded")
        run("mondlexi", unit.listen, "t", "cas", "7:6:0", "8:1:0")
    print("the command mondlexi: set, cas, read, dump, load; mwinit makes a file of its dump")


def try_full(unit: Unit) -> None:
    """A client for whom no session is free is told so, after the --wait of the units."""
    import mondlexi
    with changed(OPTIONS, "--clients 256", "--clients 2"), served(unit), client(unit), client(unit):
        try:
            client(unit)
        except mondlexi.Full:
            pass
        else:
            wrong("a third client was served by --clients 2")
    print(f"{unit.name}: a server that is full says so")


def try_strict(unit: Unit) -> None:
    """By its own --strict the unit fails if one tenant's file doesn't open, though another one is up."""
    text = (ROOM / "tenants").read_text()
    with changed(ROOM / "tenants", text, f"{text}away 2 1 away.mw\n"):
        refuses_to_start(unit, "tenant away: disk", "one of whose files isn't there")
        same((*state(unit.name), shown(unit.name, "ExecMainStatus")), ("failed", "exit-code", "1"), "a unit with --strict, one of whose files isn't there")
    print(f"{unit.name}: by its own --strict it fails, with status 1, if one file of two doesn't open")


def try_idle(unit: Unit) -> None:
    """A session that is silent for as long as --idle of the unit's options ends."""
    host, _, place = unit.listen.partition(":")
    with changed(OPTIONS, "--idle 3600", "--idle 1"), served(unit):
        at = socket.socket(socket.AF_UNIX if host == "unix" else socket.AF_INET)
        with at, at.makefile("rb") as lines:
            at.settimeout(PATIENCE)
            at.connect(place if host == "unix" else (host, int(place)))
            at.sendall(b"TENANT t\n")
            same((lines.readline(), lines.readline()), (b"OK 1000\n", b""), f"what a silent client of {unit.name} hears")
    print(f"{unit.name}: --idle ends a silent session")


def try_own_administrators(unit: Unit) -> None:
    """The administrator's socket in a folder for another group, by the lines of OPERATING."""
    lines = re.findall(r"^ +((?:Environment|ReadWritePaths|ExecStartPre)=.*)$", PAGE.read_text(), re.MULTILINE)
    same([it.split("=")[0] for it in lines], ["Environment", "ReadWritePaths", "ExecStartPre"], "the lines of OPERATING for another group")
    run("groupadd", "--system", "mwadmins")
    with drop_in(unit.name, "\n".join([*lines, ""])), served(unit):
        same(made_as("/run/mondlexi-admin", "/run/mondlexi-admin/socket"), "mw mwadmins 2750\nmw mwadmins 660\n", "folder and socket")
        run("mondlexi-check", "unix:/run/mondlexi-admin/socket")
        try_to_talk(unit._replace(admin="unix:/run/mondlexi-admin/socket"))
    print("the administrator's socket for a group of its own")


def try_without_systemd(unit: Unit) -> None:
    """The page's lines that start a server at a local socket without systemd, while the unit doesn't run."""
    lines = re.findall(r"^ {6}(install -d .*|nohup .*)$", section_of(PAGE, "Local sockets"), re.MULTILINE)
    same(len(lines), 2, "the lines of OPERATING without systemd")
    server = int(run("bash", "-c", "\n".join([*lines, "echo $!"])))
    log = Path("/var/log/mwserve.log")
    wait_until("a server without systemd", lambda: f"ready {unit.listen}\n" in ended("cat", log).stdout)
    same((made_as("/run/mondlexi", "/run/mondlexi/socket"), field(server, "Uid").split()[0]), ("mw mwclients 2755\nmw mwclients 660\n", str(pwd.getpwnam("mw").pw_uid)), "folder, socket and user")
    with client(unit) as at:
        same(at.words, 1000, "what a client hears without systemd")
    run("kill", server)
    wait_until("the end of a server without systemd", lambda: str(server) not in servers())
    run("rm", "-r", "/run/mondlexi", log)
    print("without systemd: a server at a local socket, by the page's lines")


def try_move(unit: Unit) -> None:
    """The commands of MANY-MACHINES that move a tenant. This machine is the first server, and then the second one with a folder of its own."""
    begin(unit)
    value = try_to_talk(unit)
    commands = re.findall(r"^ {4}([ab])# (.*)$", section_of(PROXY_PAGE, "Move a tenant"), re.MULTILINE)
    same([it for it, _ in commands], ["a", "b", "b"], "the commands that move a tenant")
    type_block([(command, "") for where, command in commands if where == "a"], Path("/root"))
    line, first = (ROOM / "tenants").read_text(), ROOM.with_name("mw-of-a")
    ROOM.rename(first)
    run("install", "-d", "-o", "mw", "-g", "mw", "-m", "700", ROOM)
    run("runuser", "-u", "mw", "--", "sh", "-c", "umask 077; cd /srv/mw && mwinit u.mw 2 1 && echo 'u 2 1 u.mw' > tenants")
    begin(unit)
    type_block([(command, "") for where, command in commands if where == "b"], Path("/root"))
    with open(ROOM / "tenants", "a") as tenants:
        tenants.write(line)
    begin(unit)
    same(try_to_talk(unit), value + 1, "the word of a tenant that was moved")
    end(unit)
    run("rm", "-r", ROOM, "/mnt/t.mw")
    first.rename(ROOM)
    print("a tenant moved to another server, by the page's commands")


def try_pages(unit: Unit) -> None:
    """The pages of a unit, at its local socket and at the port of mondlexi-pages.socket; and what the timers start, with an alarm if it fails."""
    with served(unit):
        run("systemctl", "enable", "--now", "mondlexi-pages.socket")
        for place in ("unix:/run/mondlexi/pages", "127.0.0.1:7002"):
            same(run("mondlexi-health", place), "", f"mondlexi-health {place} at {unit.name}")
        same('mondlexi_up{tenant="t"} 1\n' in run("curl", "-sS", "http://127.0.0.1:7002/metrics"), True, f"the figures of {unit.name} at a port")
        same(made_as("/run/mondlexi/pages"), f"mw {unit.group} 660\n", "the socket of the pages")
        run("systemctl", "start", "mondlexi-health")
        try_commands_of_pages(unit)
        try_backup_while_serving(unit)
    run("systemctl", "disable", "--now", "mondlexi-pages.socket")
    print(f"{unit.name}: its pages at a local socket, and at a port by mondlexi-pages.socket, by the commands of HTTP and OPERATING")


def try_commands_of_pages(unit: Unit) -> None:
    """The lines with curl of HTTP, at the port of mondlexi-pages.socket, and the one of OPERATING, at the local socket."""
    room = Path("/root/pages")
    room.mkdir()
    lines = [it for block in commands_of(HTTP_PAGE.read_text(), r"\$") for it in block if it[0].startswith("curl ")]
    same([command.rpartition("7002/")[2] for command, _ in lines], ["healthz", "tenants/t/file", "tenants/t/words"], "the commands of HTTP")
    # (the words that the page shows are those of its own tenant; scripts/check-package types all of the page for such a one)
    health, file, words = (command for command, _ in lines)
    type_block([(health, lines[0][1]), (file, ""), (f"{words} > words", "")], room, before='curl() { command curl -sS "$@"; }\n')
    same((room / "t.copy").read_bytes(), (ROOM / "t.mw").read_bytes(), f"the copy of a file, by the command of HTTP, at {unit.name}")
    same((room / "words").read_text(), run("mwshow", "--words", room / "t.copy"), f"the words by the command of HTTP, at {unit.name}")
    figures = re.findall(r"`(curl [^`]*)`", section_of(PAGE, "What to watch"))
    same(len(figures), 1, "the command of OPERATING for the figures")
    same('mondlexi_up{tenant="t"} 1\n' in run("sh", "-c", figures[0]), True, f"the figures by the command of OPERATING, at {unit.name}")
    run("rm", "-r", room)


def fails_with_alarm(name: str, why: str, mail: Path) -> None:
    """A unit of a timer fails: the journal says why, and the alarm goes there and by mail."""
    same(ended("systemctl", "start", name).returncode != 0, True, f"that {name} fails")
    alarm = f"mondlexi-failed@{name}.service.service"
    wait_until(f"the alarm of {name}", lambda: f"{name}.service has failed" in journal(alarm))
    wait_until(f"the mail of {name}", lambda: mail.exists() and f"{name}.service has failed root" in mail.read_text() and why in mail.read_text())
    mail.unlink()


def end_timer() -> None:
    """The timers that the page's commands have enabled run; the one of each minute has begun, and is stopped."""
    for name in ("mondlexi-health.timer", "mondlexi-backup.timer"):
        same((run("systemctl", "is-enabled", name), run("systemctl", "is-active", name)), ("enabled\n", "active\n"), name)
    wait_until("the first minute", lambda: shown("mondlexi-health.timer", "LastTriggerUSec") != "")
    run("systemctl", "stop", "mondlexi-health.timer")


def try_timers(unit: Unit) -> None:
    """What the timers start: the look at the health, and the backup with its figure for node_exporter. Each fails without a server, with an alarm."""
    figures, mail, mailer = Path("/var/lib/prometheus/node-exporter"), Path("/root/mail"), Path("/usr/local/bin/mail")
    figures.mkdir(parents=True, exist_ok=True)
    (figures / "mondlexi.prom").unlink(missing_ok=True)
    ended("systemctl", "reset-failed", "mondlexi-health", "mondlexi-backup")
    mailer.write_text(f"#!/bin/sh\n{{ echo \"$2 $3\" | cut -d: -f2-; cat; }} > {mail}.new; mv {mail}.new {mail}\n")
    mailer.chmod(0o755)
    with served(unit):
        value = try_to_talk(unit)
        for name in ("mondlexi-health", "mondlexi-backup", "mondlexi-backup"):
            run("systemctl", "start", name)
    copies = sorted(KEPT.iterdir())
    same(files_of(copies), 2 * [COPY], "the copies of mondlexi-backup")
    same([f"word 0 {value}" in run("mwshow", copy / "t.mw").splitlines() for copy in copies], [True, True], "the word 0 of these copies")
    figure = (figures / "mondlexi.prom").read_text().split()
    same((figure[-2], time.time() - float(figure[-1]) < PATIENCE), ("mondlexi_backup_time_seconds", True), "the figure of the last backup")
    fails_with_alarm("mondlexi-health", "no answer at unix:/run/mondlexi/pages: is the unit running", mail)
    fails_with_alarm("mondlexi-backup", "mondlexi-backup: failed at tenant t", mail)
    same(sorted(KEPT.iterdir()), copies, "the copies after a backup that failed")
    run("rm", "-r", *copies, mailer)
    print(f"{unit.name}: the timers' health and backup: well with a server, with a figure of the last backup; without one an alarm in the journal and by mail")


def restart_elsewhere(unit: Unit) -> None:
    """Restarts a unit that listens at another address than its own. It serves once systemctl has ended."""
    ended("systemctl", "reset-failed", unit.name)
    run("systemctl", "restart", unit.name)


def through_proxy(name: str, tenant: str, code: str) -> str:
    """What a client prints that has the certificate of a name, connected by the page's lines in Python for a tenant, as `client`."""
    connect = re.findall(r"^```python\n(.*?)^```", section_of(PROXY_PAGE, "Set up the proxy"), re.MULTILINE | re.DOTALL)[0]
    connect = connect.replace('"t.', f'"{name}.').replace('"t"', f'"{tenant}"')
    return ended("python3", "-c", f"import mondlexi, ssl\n{connect}\n{code}", at=PROXY).stdout


def try_proxy(unit: Unit) -> None:
    """A proxy in front of a unit, by the commands of MANY-MACHINES: over TLS, with a certificate for a tenant."""
    setup, start = blocks("Set up the proxy", PROXY_PAGE)
    value = word(unit)
    with open("/etc/hosts", "a") as hosts:
        hosts.write("127.0.0.1 words.example\n")
    type_block([(command, "") for command, _ in setup], Path("/root"))
    ended("systemctl", "reset-failed", unit.name)
    type_block([(command, "") for command, _ in start], PROXY)
    wait_until("the proxy", lambda: through_proxy("t", "t", "print(client.words)") == "2000\n")
    same(through_proxy("t", "t", f"print(client.cas([(0, {value}, {value + 1})]).made, client.get(0))"), f"True {value + 1}\n", "a change through the proxy")
    told = ended("mondlexi", "words.example:7443", "t", "--ca", "clients.pem", "--cert", "t.pem", "--key", "t.key", "get", "0", at=PROXY)
    same(told.stdout, f"{value + 1}\n", "what the command mondlexi prints through the proxy")
    for name, tenant in (("t", "u"), ("words.example", "t")):
        same("mondlexi.errors.Refused" in through_proxy(name, tenant, ""), True, f"that {name} doesn't speak for {tenant}")
    report = "print(mondlexi.Administrator('words.example:7444', tls=context).report().tenants[0].name)"
    same(through_proxy("operator", "t", "").split("\n")[-2].partition(":")[0] in ("mondlexi.errors.Lost", "mondlexi.errors.Full"), True, "an administrator among the tenants")
    same(through_proxy("t", "t", report.replace("context", "ssl.create_default_context(cafile='clients.pem')")).count("mondlexi.errors."), 1, "a report without a certificate")
    context = "context.load_cert_chain('operator.pem', 'operator.key'); "
    same(through_proxy("t", "t", context + report), "t\n", "the report through the proxy")
    there = "/var/lib/haproxy/mondlexi"
    same(made_as(there, f"{there}/socket", f"{there}/admin", "/run/mondlexi/pages"), "mw haproxy 2750\n" + 2 * "mw haproxy 660\n" + "mw mw 660\n", "folder and sockets behind the proxy")
    wait_until("the proxy's log", lambda: '"t" "t" server_a/a' in run("journalctl", "--boot", "--output", "cat", "--no-pager", "--identifier", "haproxy"))
    restart_elsewhere(unit)
    wait_until("the proxy, after a restart of the server", lambda: through_proxy("t", "t", "print(client.get(0))") == f"{value + 1}\n")
    (PROXY / "tenants.map").write_text("")
    run("systemctl", "reload", "haproxy")
    wait_until("the proxy without the tenant in its map", lambda: "mondlexi.errors.Refused" in through_proxy("t", "t", ""))
    run("systemctl", "stop", "haproxy")
    run("rm", "-r", f"/etc/systemd/system/{unit.name}.service.d")
    run("systemctl", "daemon-reload")
    restart_elsewhere(unit)
    print("a proxy in front, by the page's commands: TLS, a certificate for a tenant and for the administrator, a socket in its chroot, a new map")


def first_boot(deb: str) -> None:
    """Installs the package, and tries all but the removal."""
    PAGE.parent.mkdir(parents=True, exist_ok=True)
    PAGE.write_text(run("sh", "-c", f"dpkg-deb --fsys-tarfile {deb} | tar -xO .{PAGE}"))
    local, port = UNITS
    install = [(f"dpkg -i {deb}" if command.startswith("dpkg -i ") else command, wanted) for command, wanted in blocks("As a service")[0]]
    type_block(install[:1], Path("/root"))
    found = [ended("systemctl", it, unit.name).stdout.strip() for unit in UNITS for it in ("is-enabled", "is-active")]
    same(found, 2 * ["disabled", "inactive"], "new units")
    type_block(install[1:], Path("/root"))
    same(ended("systemctl", "is-enabled", LOCAL).stdout, "enabled\n", "the unit that was enabled")
    print("installed with dpkg, started and watched, by the page's commands")
    try_socket_users()
    try_unit(local)
    begin(port)
    try_web_page(port)
    try_unit(port)
    if not denies_addresses():
        print("left out: IPAddressDeny=, which denies nothing in this container")
    try_second_unit()
    for unit in UNITS:
        try_failing_starts(unit)
        try_pages(unit)
        try_full(unit)
        try_strict(unit)
        try_idle(unit)
    end_timer()
    for unit in UNITS:
        try_timers(unit)
        try_cron(unit)
    try_most_clients(port)
    try_command(local, Path("/tmp"))
    try_own_administrators(local)
    try_without_systemd(local)
    try_move(port)
    text = (ROOM / "tenants").read_text()
    try_page(port)
    put_back(port, text)
    try_page(local)
    try_proxy(local)


def second_boot(deb: str) -> None:
    """The unit that was enabled runs; the package is installed again, removed and purged."""
    local = UNITS[0]
    wait_until("the unit that was enabled", lambda: state(LOCAL)[0] == "active")
    try_to_talk(local)
    print("the next boot: the unit that was enabled runs")
    listed = [it for it in run("dpkg", "--listfiles", "mondlexi").splitlines() if "mondlexi" in it or Path(it).is_file()]
    try_upgrades(local, deb)
    run("mondlexi-check", local.admin)
    for how in ("--remove", "--purge"):
        run("dpkg", how, "mondlexi")
        same(shown(LOCAL, "LoadState"), "not-found", f"the unit after dpkg {how}")
        left = [it for it in (*listed, "/run/mondlexi", "/run/mondlexi-stopped") if Path(it).exists() and (how == "--purge" or not it.startswith("/etc"))]
        left += [str(it) for top in ("/etc", "/var/lib", "/run") for it in Path(top).rglob("*mondlexi*") if how == "--purge" and "haproxy" not in str(it)]
        same((left, (ROOM / "t.mw").exists(), servers()), ([], True, []), f"what dpkg {how} leaves")
        run("getent", "passwd", "mw")
    print("removed and purged while it ran: stopped first; the user and the tenant's file stay")


def try_archive(archive: str) -> None:
    """The archive without dpkg, where nothing of the package is left: its files are put where OPERATING says, by hand."""
    local = UNITS[0]
    run("userdel", "mw")
    run("groupdel", "mwclients")
    ROOM.rename("/srv/mw-before")
    run("tar", "-xzf", archive, "-C", "/root")
    top = next(Path("/root").glob("mondlexi-*/"))
    modules = run("python3", "-c", "import site; print(site.getsitepackages()[0])").strip()
    run("sh", "-c", f"cp {top}/bin/* /usr/local/bin && mkdir -p {modules} && cp -r {top}/python/mondlexi {modules} && cp {top}/contrib/*.service {top}/contrib/*.socket {top}/contrib/*.timer /etc/systemd/system"
        f" && cp {top}/contrib/mondlexi.default /etc/default/mondlexi")
    package, _, users, *_ = blocks("As a service", top / "docs/OPERATING.md")
    type_block(users, Path("/root"))
    Path("/backup").rename("/backup-before")
    type_block(package[1:], Path("/root"))
    same(run("readlink", f"/proc/{main_process(LOCAL)}/exe"), "/usr/local/bin/mwserve\n", "the program of the archive")
    try_to_talk(local)
    end(local)
    print("the archive without dpkg, by the page's commands: its unit was started, and talked to")


def main() -> None:
    """Does what the head says."""
    _, deb, boot, *archive = sys.argv
    os.umask(0o022)
    sys.path.append("/usr/lib/python3/dist-packages")
    if boot == "1":
        first_boot(deb)
    else:
        second_boot(deb)
        for it in archive:
            try_archive(it)
    print("all well")


if __name__ == "__main__":
    main()
