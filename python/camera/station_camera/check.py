"""loop_setup --check: what is wrong with each camera that is set up, and the command that mends
it."""
from __future__ import annotations

import grp
import os
import shutil
import stat
import subprocess
import time
from fractions import Fraction
from pathlib import Path
from typing import Any, Iterator, NamedTuple

from lapyrei.losses import holes_in

from . import disk, needed, orders, presses, services, stands, words, written
from .faults import Failed
from .text import Form
from .waiting import socket_bytes
from .words import BadFile

# What of the asked rate has to come; by how many frames it is reckoned; and after so many seconds
# without a frame none comes.
ENOUGH, FRAMES, SILENT = 0.95, 200, 10.0
# From so many seconds on a camera's clock is off, as at the page.
CLOCK_OFF = 1.0
# What the package sets for the buffers of the network, in bytes, and what those of USB have to
# take, in MB, as docs/cameras.md has it.
SOCKET, USB = 33_554_432, 300
RMEM, USBFS = "/proc/sys/net/core/rmem_max", "/sys/module/usbcore/parameters/usbfs_memory_mb"
# From January 1 2000 on times are of the day, in microseconds.
DAYS_BEGIN = 946_684_800_000_000
COLOURS = {b"GREY": "gray", b"YM12": "yuv420p", b"YM16": "yuv422p", b"YM24": "yuv444p"}


class Wrong(NamedTuple):
    """What is wrong, and the command that mends it."""

    what: str
    mend: str


def number_in(path: str) -> int | None:
    """The number that a file of the system says, if it is there."""
    try:
        return int(Path(path).read_text(encoding="ascii"))
    except (OSError, ValueError):
        return None


def is_synced() -> bool:
    """Whether the system's clock is set by another one; where nobody says it, it counts as set."""
    try:
        said = subprocess.run(
            ["timedatectl", "show", "-p", "NTPSynchronized", "--value"],
            capture_output=True,
            text=True,
            timeout=30,
        )
    except (OSError, subprocess.TimeoutExpired):
        return True
    return said.stdout.strip() != "no"


def protocol_of(serial: str) -> str:
    """How a camera of GenICam is connected; nothing where it isn't found. Failed where the packages
    are missing that look for it."""
    return needed.genicam().protocol_of(serial)


def lost_of(store: Any) -> int:
    """How many frames were lost between those that a store holds."""
    return sum(it.lost for it in holes_in(store.frames, 0, len(store.frames) - 1))


def form_of(store: Any) -> Form:
    """What the frames of a store are."""
    it, bits = store.geometry, max(services.depths_of(store) or {8})
    kind, wide = COLOURS[it.format], it.width // (1 if bits == 8 else 2)
    deep = "" if bits == 8 else f"{bits}le" if kind == "gray" else f"p{bits}le"
    colour = kind if not deep else f"{kind.removesuffix('p')}{deep}"
    return Form(wide, it.height, colour, Fraction(it.num, it.den))


def rate_of(store: Any) -> float | None:
    """The frames a second of a store's newest ones."""
    frames = store.frames[-FRAMES:]
    took = frames[-1].time - frames[0].time if len(frames) > 1 else 0
    return (len(frames) - 1) * 1e6 / took if took > 0 else None


class Check:
    """What is wrong, of all cameras that station.toml has."""

    def __init__(self, setup: Any) -> None:
        self.setup, self.tell, self.paths = setup, setup.tell, setup.paths

    def run(self) -> int:
        """Prints a line for each thing that is wrong, and each camera that is well; the status."""
        table = written.table_of(self.setup.config(), self.paths.config)
        cameras = table.get("camera", [])
        if not cameras:
            self.tell(f"{self.paths.config} has no camera: sudo loop_setup")
            return 1
        stores = {it["name"]: services.store_at(self.store_of(it)) for it in cameras}
        found = [("station", it) for it in self.of_all(table, stores)]
        said = stands.status(Path(table.get("orders", self.paths.orders)))
        for it in cameras:
            name = it["name"]
            found += [(name, wrong) for wrong in self.of_camera(it, stores[name])]
            found += [(name, wrong) for wrong in self.of_clock(it, said.get(name, ""))]
        for name, it in found:
            self.tell(f"{name}: {it.what}: {it.mend}")
        for it in cameras:
            if it["name"] not in {name for name, _ in found}:
                rate = rate_of(stores[it["name"]])
                self.tell(f"{it['name']}: well" + (f", {rate:.3g} frames a second" if rate else ""))
        return 1 if found else 0

    def store_of(self, camera: dict[str, Any]) -> Path:
        """The path of a camera's store."""
        return self.paths.stores / camera.get("store", f"{camera['name']}.loop")

    # ---------------------------------------------------------------------------- the station

    def of_all(self, table: dict[str, Any], stores: dict[str, Any]) -> Iterator[Wrong]:
        """What is wrong beside single cameras."""
        user = orders.user()
        if user and not orders.is_member(user):
            yield Wrong(f"{user} may give no orders", orders.command(user))
        if not services.is_active("loop_station.service"):
            yield Wrong("it doesn't run", "sudo systemctl enable --now loop_station")
        if not is_synced():
            yield Wrong("the clock isn't set by another one", "sudo apt install chrony")
        yield from self.of_disk(table, stores)

    def of_disk(self, table: dict[str, Any], stores: dict[str, Any]) -> Iterator[Wrong]:
        """Whether the disk is quick enough for all, and has room for what is saved."""
        known = {name: form_of(it) for name, it in stores.items() if it is not None}
        if not self.paths.stores.is_dir():
            return
        brings = sum(disk.needs(it) for it in known.values())
        writes = self.setup.measured().bandwidth if known else 0
        if brings > writes / 2:
            name = max(known, key=lambda it: disk.needs(known[it]))
            half = float(known[name].rate) / 2
            yield Wrong(
                f"the disk writes {writes / 1e6:.0f} MB a second, and the cameras bring "
                f"{brings / 1e6:.1f}",
                f"sudo loop_setup --camera {name} --rate {half:g}",
            )
        for folder in {it["save_to"] for it in table.get("camera", []) if it.get("save_to")}:
            yield from self.of_saves(Path(folder), table, known)

    def of_saves(
        self, folder: Path, table: dict[str, Any], known: dict[str, Form]
    ) -> Iterator[Wrong]:
        """Whether a folder has room for a keep of all cameras that save there."""
        if not folder.is_dir():
            make = f"sudo install -d -o loop_station -g loop_station {folder}"
            yield Wrong(f"{folder}, where keeps are saved, isn't there", make)
            return
        needs = sum(
            disk.needs(known[it["name"]]) * it.get("keep", 30)
            for it in table["camera"]
            if it.get("save_to") == str(folder) and it["name"] in known
        )
        free = shutil.disk_usage(folder).free
        if needs > free:
            old = sorted(folder.glob("*.y4m"), key=lambda it: it.stat().st_mtime)[:1]
            yield Wrong(
                f"{folder} has no room for a keep: {disk.gigabytes(free)} are free, and one takes "
                f"{disk.gigabytes(needs)}",
                f"sudo mv {old[0]} /another/disk" if old else f"df -h {folder}",
            )

    # ----------------------------------------------------------------------------- its cameras

    def of_camera(self, camera: dict[str, Any], store: Any) -> Iterator[Wrong]:
        """What is wrong with a camera."""
        name = camera["name"]
        if camera.get("source") == str(self.paths.pipe(name)):
            yield from self.of_service(name, store)
        yield from self.of_store(camera, store)

    def of_service(self, name: str, store: Any) -> Iterator[Wrong]:
        """What is wrong with what gives its frames."""
        file, unit = self.paths.cameras / f"{name}.camera", f"loop_camera@{name}"
        if not file.exists():
            yield Wrong(f"{file} isn't there", f"sudo loop_setup --camera {name}")
            return
        try:
            wanted = words.wanted(file.read_text(encoding="utf-8"))
        except (BadFile, OSError) as fault:
            yield Wrong(f"{file}: {fault}", f"sudoedit {file}")
            return
        if not services.is_active(f"{unit}.service"):
            yield Wrong("its service doesn't run", f"sudo systemctl enable --now {unit}")
        if wanted.device:
            yield from self.of_device(wanted.device)
        if wanted.genicam:
            yield from self.of_genicam(wanted.genicam, store.geometry.size if store else 0)

    def of_device(self, device: str) -> Iterator[Wrong]:
        """Whether a device is there, and the service's user may use it."""
        try:
            found = os.stat(device)
        except OSError:
            yield Wrong(f"{device} isn't there: plug it in, and see", "loop_setup --list")
            return
        try:
            group = grp.getgrgid(found.st_gid).gr_name
        except KeyError:
            group = str(found.st_gid)
        if group != "video" or stat.S_IMODE(found.st_mode) & 0o060 != 0o060:
            mend = f"sudo chgrp video {device} && sudo chmod g+rw {device}"
            yield Wrong(f"{device} is of the group {group}, and loop_camera of video", mend)

    def of_genicam(self, word: str, payload: int) -> Iterator[Wrong]:
        """Whether a camera of GenICam is found, and its frames, of so many bytes, may wait."""
        try:
            protocol = protocol_of(word)
        except Failed as fault:
            what, _, mend = str(fault).partition(": ")
            yield Wrong(what, mend)
            return
        if not protocol:
            what = f"no camera {word} is found: look at its cable and its power, and see"
            yield Wrong(what, "loop_setup --list")
        yield from self.of_buffers(protocol, socket_bytes(payload))

    def of_buffers(self, protocol: str, wanted: int) -> Iterator[Wrong]:
        """Whether the system lets a camera's frames wait."""
        room = number_in(RMEM)
        if protocol == "GigEVision" and room is not None and room < wanted:
            mend = f"sudo sysctl net.core.rmem_max={SOCKET}"
            yield Wrong(f"the network's buffer has {room} bytes, of {wanted}", mend)
        room = number_in(USBFS)
        if protocol == "USB3Vision" and room is not None and room < USB:
            mend = f"echo 1000 | sudo tee {USBFS}"
            yield Wrong(f"USB's buffers have {room} MB, of {USB}", mend)

    def of_store(self, camera: dict[str, Any], store: Any) -> Iterator[Wrong]:
        """What is wrong with what is stored."""
        name, path = camera["name"], self.store_of(camera)
        if store is None:
            look = "journalctl -u loop_station -n 20"
            yield Wrong(f"{path} isn't there, or can't be read", look)
            return
        if store.version == 1:
            yield Wrong(
                f"{path} has the old layout, which knows no events",
                f"sudo systemctl stop loop_station && sudo -u loop_station loop_cli upgrade {path} "
                "&& sudo systemctl start loop_station",
            )
        yield from self.of_rate(name, store)
        yield from self.of_losses(name, store)
        yield from self.of_keeps(camera, store)

    def of_rate(self, name: str, store: Any) -> Iterator[Wrong]:
        """Whether frames come, and as many as were asked for."""
        newest = store.frames[-1].time if store.frames else None
        look = f"journalctl -u loop_camera@{name} -n 20"
        if newest is None:
            yield Wrong("no frame was stored yet", look)
            return
        silent = time.time() - newest / 1e6
        if newest >= DAYS_BEGIN and silent > SILENT:
            yield Wrong(f"no frame came for {silent:.0f} s", look)
        asked, rate = store.geometry.rate(), rate_of(store)
        if rate is not None and rate < ENOUGH * asked:
            mend = f"sudo loop_setup --camera {name} --rate {rate:.3g}"
            what = f"{rate:.3g} frames a second come, and {asked:g} were asked for"
            yield Wrong(f"{what} (a shorter exposure, or fewer)", mend)

    def of_losses(self, name: str, store: Any) -> Iterator[Wrong]:
        """Whether frames were lost, of those that the store holds."""
        lost = lost_of(store)
        if lost:
            what = f"{lost} {'frame was' if lost == 1 else 'frames were'} lost"
            yield Wrong(f"{what} between the {len(store.frames)} that its store holds",
                        f"journalctl -u loop_camera@{name} -n 20")

    def of_clock(self, camera: dict[str, Any], line: str) -> Iterator[Wrong]:
        """Whether a camera's own clock is off, as the station measures it."""
        name, ahead = camera["name"], stands.clock_in(line)
        if ahead is None or abs(ahead) <= CLOCK_OFF:
            return
        way = "ahead of" if ahead > 0 else "behind"
        what = f"its clock is {abs(ahead):.1f} s {way} the station's"
        if camera.get("source") == str(self.paths.pipe(name)):
            mend = f"sudo systemctl restart loop_camera@{name}"
            yield Wrong(f"{what}: it is tied to the system's anew by", mend)
        else:
            mend = f"sudoedit {self.paths.config}"
            yield Wrong(f"{what}: set it, or leave its times_from out", mend)

    def of_keeps(self, camera: dict[str, Any], store: Any) -> Iterator[Wrong]:
        """Whether a keep leaves room to record in."""
        it, keep = store.geometry, camera.get("keep", 30) + camera.get("after", 0)
        if not presses.at_once(form_of(store), it.segments, it.slots, keep):
            mend = f"sudo loop_setup --camera {camera['name']} --minutes {max(1, keep // 6)}"
            yield Wrong(f"a keep of {keep} s locks all of its store", mend)
