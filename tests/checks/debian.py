"""What checks need of Debian."""
import contextlib
import os
import shutil
import subprocess
import sys

from pages import Wrong

# Of the page (tests/suite page) and of several/, as far as the checks run them. They take stations
# and pages from the tests' conftest, which imports pytest.
PAGE = (
    "python3-aiohttp",
    "python3-pil",
    "python3-numpy",
    "python3-prometheus-client",
    "python3-pytest",
    "ffmpeg",
)
# What a root has, where the package is put into it.
ROOT = "ffmpeg systemd python3 python3-aiohttp python3-pil python3-numpy python3-prometheus-client"
LINKS = ("python3-paho-mqtt", "python3-serial", "python3-libgpiod", "openssl", "rclone")


def install(packages):
    """Installs packages that are missing, as root. Where that fails, it asks for the lists of
    packages, which a new machine doesn't have, and tries once more. Ends with 75 where they can't
    be installed."""
    lacks = [
        it for it in packages if subprocess.run(["dpkg", "-s", it], capture_output=True).returncode
    ]
    if not lacks:
        return
    print(f"installing {' '.join(lacks)}", flush=True)
    command = ["apt-get", "-o", "DPkg::Lock::Timeout=600"]
    words = [*command, "install", "-y", "--no-install-recommends", *lacks]
    quiet = subprocess.DEVNULL
    if not subprocess.run(words, stdin=quiet, stdout=quiet, stderr=quiet).returncode:
        return
    subprocess.run([*command, "update"], stdin=quiet, stdout=quiet)
    if subprocess.run(words, stdin=quiet, stdout=quiet).returncode:
        print(f"apt-get can't install {' '.join(lacks)}")
        sys.exit(75)


def inside(root, command, check=True, folder="/", sys_too=False, seconds=1800):
    """Runs a command of the shell in the root, with a /proc, and with /sys too where that is
    wanted, and answers what it prints. After so many seconds it is killed, with all that it began,
    and has failed."""
    script = (
        f'mount -t proc proc "{root}/proc" && '
        + (f'mount --rbind /sys "{root}/sys" && ' if sys_too else "")
        + f'exec timeout -s KILL {seconds} chroot "{root}" '
        + '/bin/sh -c \'cd "$0" && eval "$1"\' "$0" "$1"'
    )
    environment = {
        "PATH": "/usr/sbin:/usr/bin:/sbin:/bin",
        "DEBIAN_FRONTEND": "noninteractive",
        "HOME": "/root",
        "LC_ALL": "C",
    }
    done = subprocess.run(
        ["unshare", "--mount", "sh", "-c", script, folder, command],
        env=environment,
        stdin=subprocess.DEVNULL,
        stdout=subprocess.PIPE,
        stderr=subprocess.STDOUT,
        text=True,
    )
    if check and done.returncode:
        raise Wrong(f"{command}\nended with {done.returncode}:\n{done.stdout}")
    return done.stdout


def make_root(root, more=""):
    """A clean root with ffmpeg and systemd, and what else is wanted, and without the kit."""
    if not os.path.exists(f"{root}/usr/bin/dpkg"):
        mirror = "http://deb.debian.org/debian"
        subprocess.run(
            ["debootstrap", "--variant=minbase", "bookworm", root, mirror],
            check=True,
            stdout=subprocess.DEVNULL,
        )
    packages = f"{ROOT} {more}".strip()
    if subprocess.run(["chroot", root, "dpkg", "-s", *packages.split()],
                      capture_output=True).returncode:
        shutil.copy("/etc/resolv.conf", f"{root}/etc/resolv.conf")
        inside(root, f"apt-get update && apt-get install -y --no-install-recommends {packages}")
    for kit in ("opt/rattle", "usr/bin/rt", "usr/local/bin/rt"):
        if os.path.exists(f"{root}/{kit}"):
            raise Wrong(f"the root has {kit}")


@contextlib.contextmanager
def over(root, work):
    """The root, of which nothing is changed."""
    for name in ("up", "in", "root"):
        os.makedirs(f"{work}/{name}")
    where = f"lowerdir={root},upperdir={work}/up,workdir={work}/in"
    subprocess.run(["mount", "-t", "overlay", "-o", where, "overlay", f"{work}/root"], check=True)
    try:
        yield f"{work}/root"
    finally:
        subprocess.run(["umount", "--lazy", f"{work}/root"], check=False)
