"""Who may give the station orders: whoever is in its group. loop_setup is run by sudo, so it knows
for whom."""
from __future__ import annotations

import grp
import os
import pwd
import subprocess
from pathlib import Path

GROUP = "loop_station"


def user() -> str | None:
    """Who runs this by sudo; none for root itself, who may write anywhere."""
    name = os.environ.get("SUDO_USER", "")
    return name if name not in ("", "root") else None


def is_member(name: str) -> bool:
    """Whether a user is in the station's group."""
    try:
        return grp.getgrnam(GROUP).gr_gid in os.getgrouplist(name, pwd.getpwnam(name).pw_gid)
    except KeyError:
        return False


def is_known_here(name: str) -> bool:
    """Whether the window in which a user has called sudo has the group: one in which the user has
    signed in before hasn't. Where there is no such window, it counts as having it."""
    try:
        user, group = str(pwd.getpwnam(name).pw_uid), str(grp.getgrnam(GROUP).gr_gid)
        process = os.getppid()
        while process > 1:
            text = Path(f"/proc/{process}/status").read_text(encoding="ascii", errors="replace")
            has = {line[0]: line[1:] for line in map(str.split, text.splitlines()) if line}
            if has["Uid:"][0] == user:
                return group in [*has["Gid:"], *has["Groups:"]]
            process = int(has["PPid:"][0])
    except (KeyError, OSError):
        pass
    return True


def command(name: str) -> str:
    """The command that adds a user to it."""
    return f"sudo usermod -aG {GROUP} {name}"


def add(name: str) -> str | None:
    """Adds a user to the group; why that can't be, else nothing."""
    try:
        done = subprocess.run(["usermod", "-aG", GROUP, name], capture_output=True, text=True)
    except FileNotFoundError:
        return "usermod isn't here"
    return done.stderr.strip() or "usermod fails" if done.returncode else None
