"""What dpkg and its user are told of the package, its fields, copyright and changelog; and the scripts that dpkg runs when it installs,
upgrades, removes or purges it.

Used by: scripts/package; clients.py. An upgrade replaces the files while a server runs, and restarts it then. A removal stops all units first.
"""
from datetime import datetime, timezone
from typing import List, Tuple

CONTROL = """Package: mondlexi
Version: {version}
Architecture: amd64
Maintainer: {maintainer}
Installed-Size: {size}
Section: database
Priority: optional
Depends: {libraries}, curl, passwd
Recommends: python3 (>= 3.8)
Suggests: haproxy
Description: server of durable words with a multi-word compare-and-swap
 Stores integers of 48 bits for up to 16 tenants. A change compares and
 writes up to sixteen of them, durably, and wholly or not at all.
 .
 The package has the server, a client in Python, units for systemd, and
 what watches the server and takes backups of it.
"""
COPYRIGHT = """Copyright {year} {maintainer}

The repository from which this package was made gives no license. So all
rights are reserved by its authors: without their leave nobody else may
copy, change or distribute it.
"""
PROVIDERS = {"libgcc_s.so.1": "libgcc-s1"}
"""The packages of Debian that have a library, where it isn't libc6."""
SERVERS = ("mondlexi.service", "mondlexi-local.service")
TIMERS = ("mondlexi-health.timer", "mondlexi-backup.timer")
BESIDE = ("mondlexi-pages.socket", "mondlexi-pages.service", *TIMERS)
STOPPED = "/run/mondlexi-stopped"
"""Lists the units that a removal script has stopped, until they are started again."""

BEFORE_INSTALL = f"""#!/bin/sh
set -e
[ "$1" = upgrade ] && dpkg --compare-versions "$2" le 0.2.0 && [ -d /run/systemd/system ] || exit 0
# Version 0.2.0 stopped its units before an upgrade, and started none. This lists those that have ended since this dpkg began, or in the
# seconds by which these clocks may differ.
began=$(($(date +%s) - $(cut -d. -f1 /proc/uptime) + $(cut -d' ' -f22 /proc/$PPID/stat) / $(getconf CLK_TCK) - 2))
for unit in {" ".join(SERVERS)}; do
  [ "$(systemctl is-active $unit)" = inactive ] || continue
  ended=$(systemctl show --value --property InactiveEnterTimestamp $unit)
  [ -z "$ended" ] || [ "$(date -d "$ended" +%s)" -lt $began ] || echo $unit >> {STOPPED}
done
"""

AFTER_INSTALL = f"""#!/bin/sh
set -e
getent group mwclients > /dev/null || groupadd --system mwclients
getent passwd mw > /dev/null || useradd --system --user-group --home-dir /srv/mw --shell /usr/sbin/nologin mw
[ -d /srv/mw ] || install -d -o mw -g mw -m 700 /srv/mw
[ -d /run/systemd/system ] || exit 0
begin() {{
  systemctl "$1" "$2" || echo "mondlexi: $2 doesn't start; systemctl status $2 says why" >&2
}}
systemctl daemon-reload
for unit in {" ".join(SERVERS + TIMERS)}; do
  begin try-restart $unit
done
[ ! -e {STOPPED} ] || while read -r unit; do
  begin start "$unit" < /dev/null
done < {STOPPED}
rm -f {STOPPED}
"""

BEFORE_REMOVAL = f"""#!/bin/sh
set -e
find /usr/lib/python3/dist-packages/mondlexi -name __pycache__ -prune -exec rm -rf '{{}}' +
[ "$1" = remove ] && [ -d /run/systemd/system ] || exit 0
for unit in {" ".join(SERVERS + BESIDE)}; do
  [ "$(systemctl is-active $unit)" != active ] || echo $unit >> {STOPPED}
done
systemctl stop {" ".join(BESIDE + SERVERS)}
"""

AFTER_REMOVAL = f"""#!/bin/sh
set -e
[ "$1" != remove ] && [ "$1" != purge ] || rm -f {STOPPED}
if [ "$1" = purge ]; then
  find /etc/systemd/system -type l -name 'mondlexi*' -delete 2> /dev/null || :
  rm -f /var/lib/systemd/timers/stamp-mondlexi-*.timer /var/lib/prometheus/node-exporter/mondlexi.prom
fi
[ ! -d /run/systemd/system ] || systemctl daemon-reload
"""

SCRIPTS: Tuple[Tuple[str, str], ...] = (("preinst", BEFORE_INSTALL), ("postinst", AFTER_INSTALL), ("prerm", BEFORE_REMOVAL), ("postrm", AFTER_REMOVAL))
"""Each script, by the name that dpkg has for it."""


def control(version: str, maintainer: str, size: int, libc: str, libraries: List[str]) -> str:
    """The fields of the package; its size is in KiB."""
    needed = [f"libc6 (>= {libc})", *sorted({PROVIDERS[it] for it in libraries if it in PROVIDERS})]
    return CONTROL.format(version=version, maintainer=maintainer, size=size, libraries=", ".join(needed))


def changelog(version: str, maintainer: str, moment: int) -> str:
    """The changelog that Debian's tools read. The page CHANGELOG.md has the changes."""
    day = datetime.fromtimestamp(moment, timezone.utc).strftime("%a, %d %b %Y %H:%M:%S +0000")
    return f"mondlexi ({version}) unstable; urgency=medium\n\n  * CHANGELOG.md in this folder tells what has changed.\n\n -- {maintainer}  {day}\n"
