"""A guest with Debian's kernel, for checks that need the kernel's own drivers: qemu without KVM.

Its clock counts the guest's instructions, so a busy machine makes it slow and doesn't change what
it sees: nothing is late in it. Packages are fetched once, below /var/tmp; nothing is installed."""
import ctypes
import glob
import lzma
import os
import re
import shutil
import signal
import subprocess
import sys
import time
from pathlib import Path

# Below which the packages lie, unpacked.
KEPT = Path(os.environ.get("LAPYREI_GUEST", f"/var/tmp/lapyrei-guest-{os.getuid()}"))
LIBC, PARENT_DEATH = ctypes.CDLL(None), 1
WANTED = ["qemu-system-x86", "busybox-static"]
BASE = ["virtio_pci", "virtio_blk", "virtio_console", "ext4", "crc32c_generic"]
PYTHON, LIBRARY = "/usr/bin/python3.11", "/usr/lib/python3.11"
# What Python has there isn't needed.
UNUSED = "test idlelib lib2to3 distutils ensurepip config-* pydoc_data sqlite3 turtledemo"
# How many nanoseconds an instruction of the guest takes, as a power of two.
SHIFT = 2
INIT = """#!/bin/busybox sh
B=/bin/busybox
$B mount -t proc p /proc; $B mount -t sysfs s /sys; $B mount -t devtmpfs d /dev
for m in $($B cat /order); do
    $B insmod /mod/$m.ko $($B cat /options/$m 2>/dev/null) || echo "insmod $m failed"
done
while [ ! -e /dev/vda ] || [ ! -e /dev/vdb ] || [ ! -e /dev/vport0p1 ]; do $B sleep 0.05; done
$B mkdir -p /r; $B mount -t ext4 -o ro /dev/vda /r; $B mount -t ext4 /dev/vdb /r/out
for d in proc sys dev; do $B mount --bind /$d /r/$d; done
$B mount -t tmpfs t /r/tmp
export PATH=/bin LD_LIBRARY_PATH=/lib
$B chroot /r /bin/python3 -B /work/inside.py >/dev/vport0p1 2>&1
$B umount /r/out; $B sync; $B poweroff -f
"""


class Failed(Exception):
    """The guest doesn't come, or doesn't end."""


def told(*words, **more):
    """What a command prints."""
    return subprocess.run(
        words, check=True, capture_output=True, text=True, stdin=subprocess.DEVNULL, **more
    ).stdout


def fetch():
    """Fetches and unpacks qemu, the kernel and busybox, where they aren't there."""
    done = KEPT / "done"
    if done.exists():
        return
    if KEPT.exists():
        shutil.rmtree(KEPT)
    for folder in ("debs", "root", "kernel"):
        (KEPT / folder).mkdir(parents=True)
    print(f"fetching qemu and the kernel (150 MB) into {KEPT}", flush=True)
    depends = told("apt-cache", "depends", "linux-image-amd64")
    image = re.search(r"Depends: (linux-image-\d\S*)", depends)[1]
    plan = told("apt-get", "install", "-s", "--no-install-recommends", *WANTED)
    names = sorted({*re.findall(r"^Inst (\S+)", plan, re.M), *WANTED, image})
    told("apt-get", "download", "-qq", *names, cwd=KEPT / "debs")
    for deb in (KEPT / "debs").glob("*.deb"):
        place = "kernel" if "linux-image" in deb.name else "root"
        told("dpkg", "-x", deb, KEPT / place)
    shutil.rmtree(KEPT / "debs")
    done.write_text("")


def modules(names):
    """Modules of the kernel, and those that they need, in their order."""
    index, found = {}, {}
    for path in glob.glob(f"{KEPT}/kernel/lib/modules/**/*.ko*", recursive=True):
        name = re.sub(r"\.ko(\.xz)?$", "", os.path.basename(path)).replace("-", "_")
        index[name] = path

    def add(name):
        if name in found or name not in index:
            return
        raw = Path(index[name]).read_bytes()
        raw = lzma.decompress(raw) if index[name].endswith(".xz") else raw
        for below in re.finditer(rb"\0depends=([^\0]*)\0", raw):
            for it in filter(None, below[1].decode().replace("-", "_").split(",")):
                add(it)
        found[name] = raw

    for name in names:
        add(name)
    return found


def cpio(files):
    """An archive for the kernel's first root: names, modes and bytes."""
    out, made = bytearray(), set()

    def entry(name, mode, data):
        word = name.encode() + b"\0"
        heads = 0, mode, 0, 0, 1, 0, len(data), 0, 0, 0, 0, len(word), 0
        out.extend(b"070701" + b"".join(b"%08X" % it for it in heads) + word)
        out.extend(b"\0" * (-len(out) % 4) + data)
        out.extend(b"\0" * (-len(out) % 4))

    for name, mode, data in files:
        parts = name.split("/")[:-1]
        for end in range(1, len(parts) + 1):
            folder = "/".join(parts[:end])
            if folder not in made:
                made.add(folder)
                entry(folder, 0o040755, b"")
        entry(name, mode, data)
    entry("TRAILER!!!", 0, b"")
    return bytes(out)


def tree(root, work, programs, libraries):
    """The root of the guest: Python, programs with their libraries, and what is worked on."""
    for it in "bin lib lib64 tmp proc sys dev usr/lib out".split():
        (root / it).mkdir(parents=True)
    for it in [PYTHON, *programs]:
        shutil.copy(os.path.realpath(it), root / "bin" / os.path.basename(it))
    shutil.copy(KEPT / "root/bin/busybox", root / "bin/busybox")
    (root / "bin/python3").symlink_to("python3.11")
    (root / "bin/sh").symlink_to("busybox")
    unused = shutil.ignore_patterns(*UNUSED.split())
    shutil.copytree(LIBRARY, root / LIBRARY[1:], ignore=unused, symlinks=True)
    shutil.copytree(work, root / "work", symlinks=True)
    # Nothing is compiled in the guest, where that takes seconds.
    told(PYTHON, "-m", "compileall", "-q", root / "work")
    needed = {os.path.realpath(it) for it in libraries}
    for it in [PYTHON, *programs, *libraries, *glob.glob(f"{LIBRARY}/lib-dynload/*.so")]:
        words = ["ldd", os.path.realpath(it)]
        shown = subprocess.run(words, capture_output=True, text=True).stdout
        needed |= set(re.findall(r"(/\S+\.so\S*)", shown))
    for it in needed:
        place = "lib64" if "ld-linux" in it else "lib"
        shutil.copy(os.path.realpath(it), root / place / os.path.basename(it))


def image(path, size, folder=None):
    """A disk with a file system."""
    words = ["mke2fs", "-q", "-F", "-t", "ext4", "-O", "^has_journal"]
    told(*words, *(["-d", folder] if folder else []), path, size)


def words_of(folder, memory):
    """The command that runs the guest."""
    root, kernel = KEPT / "root", glob.glob(f"{KEPT}/kernel/boot/vmlinuz*")[0]
    firmware = [f"{root}/usr/share/seabios", f"{root}/usr/share/qemu", f"{root}/usr/lib/ipxe/qemu"]
    disks = []
    for name, is_read in (("root", "on"), ("out", "off")):
        disks += ["-drive", f"if=none,id={name},format=raw,readonly={is_read},file={folder}/{name}"]
        disks += ["-device", f"virtio-blk-pci,drive={name}"]
    return [
        str(root / "usr/bin/qemu-system-x86_64"),
        *(word for it in firmware for word in ("-L", it)),
        *("-accel", "tcg", "-icount", f"shift={SHIFT},sleep=off", "-rtc", "clock=vm"),
        *("-cpu", "Nehalem", "-smp", "1", "-m", str(memory), "-nodefaults", "-no-user-config"),
        *("-display", "none", "-no-reboot", "-kernel", kernel, "-initrd", f"{folder}/initrd"),
        *("-append", "console=ttyS0 panic=-1 mitigations=off nokaslr random.trust_cpu=on"),
        *("-serial", f"file:{folder}/console", "-device", "virtio-serial-pci"),
        *("-chardev", f"file,id=c0,path={folder}/told", "-device", "virtserialport,chardev=c0"),
        *disks,
    ]


def run(folder, work, options, programs=(), libraries=(), seconds=3600, memory=900, room="700M"):
    """Boots the guest, runs work/inside.py in it, shows what that prints, and answers the folder of
    what it has left in /out. `options` are the modules that are loaded, each with its own."""
    fetch()
    folder = Path(folder)
    tree(folder / "tree", work, programs, libraries)
    image(folder / "root", "700M", folder / "tree")
    image(folder / "out", room)
    shutil.rmtree(folder / "tree")
    found = modules([*BASE, *options])
    files = [
        ("init", 0o100755, INIT.encode()),
        ("bin/busybox", 0o100755, (KEPT / "root/bin/busybox").read_bytes()),
        ("order", 0o100644, " ".join(found).encode()),
        *((f"options/{name}", 0o100644, text.encode()) for name, text in options.items()),
        *((f"mod/{name}.ko", 0o100644, data) for name, data in found.items()),
        *((f"{it}/.here", 0o100644, b"") for it in ("proc", "sys", "dev")),
    ]
    (folder / "initrd").write_bytes(cpio(files))
    (folder / "told").write_bytes(b"")
    places = {str(it.parent) for it in (KEPT / "root").rglob("*.so*")}
    environment = dict(os.environ, LD_LIBRARY_PATH=":".join(sorted(places)))
    with open(folder / "qemu", "wb") as said:
        machine = subprocess.Popen(
            ["nice", "-n", "19", *words_of(folder, memory)],
            env=environment,
            stdin=subprocess.DEVNULL,
            stdout=said,
            stderr=said,
            # It ends with the check, however that ends.
            preexec_fn=lambda: LIBC.prctl(PARENT_DEATH, signal.SIGKILL),
        )
    try:
        shown(machine, folder / "told", seconds)
    finally:
        machine.kill()
        machine.wait()
    (folder / "left").mkdir()
    told("debugfs", "-R", f"rdump / {folder}/left", folder / "out")
    return folder / "left"


def shown(machine, path, seconds):
    """Shows what the guest prints, until it ends."""
    end, at = time.monotonic() + seconds, 0
    while True:
        is_over = machine.poll() is not None
        text = path.read_text(errors="replace")
        print(text[at:], end="", flush=True)
        at = len(text)
        if is_over:
            break
        if time.monotonic() > end:
            console = (path.parent / "console").read_text(errors="replace")
            raise Failed(f"the guest doesn't end within {seconds} s: {console[-2000:]}")
        time.sleep(0.3)
    if machine.returncode:
        said = (path.parent / "qemu").read_text(errors="replace")
        raise Failed(f"qemu ends with {machine.returncode}: {said}")


if __name__ == "__main__":
    sys.exit(__doc__)
