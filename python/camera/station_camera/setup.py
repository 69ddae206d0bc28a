"""What loop_setup does: from a camera that is plugged in to a recording."""
from __future__ import annotations

import argparse
import os
import sys
import tempfile
import time
import tomllib
import traceback
from fractions import Fraction
from pathlib import Path
from typing import Any, NamedTuple

from . import check, disk, found, orders, pictures, planes, presses, services, words, written
from .ask import Ask, Stopped
from .faults import Failed, Refused
from .found import Offer
from .text import BadFrames, Form
from .words import BadFile

# How long the first frame is waited for.
FIRST_FRAME = 60.0
# What a keep locks, in seconds, and how many times that a store is to hold.
KEEP, TIMES = 30, 10


class Paths(NamedTuple):
    """Where things are."""

    cameras: Path
    config: Path
    orders: Path
    answers: Path
    pipes: Path
    stores: Path
    page: Path
    token: Path
    changed: Path

    def pipe(self, name: str) -> Path:
        """The pipe of a camera."""
        return self.pipes / f"{name}.y4m"


def paths_below(root: str) -> Paths:
    """The paths of the package, below another root for a trial."""
    top = Path(root)
    etc, run, lib = top / "etc/lapyrei", top / "run", top / "var/lib/loop_station"
    return Paths(
        etc,
        etc / "station.toml",
        run / "loop_station/orders",
        run / "loop_station/answers",
        run / "loop_camera",
        lib,
        etc / "page.toml",
        etc / "page.token",
        top / "var/lib/loop_page/cameras",
    )


def parser() -> argparse.ArgumentParser:
    """The options."""
    it = argparse.ArgumentParser(prog="loop_setup", add_help=False, allow_abbrev=False)
    for word in ("--list", "--check", "--fake", "--yes", "--no-start", "--no-picture"):
        it.add_argument(word, action="store_true")
    it.add_argument("--move-store", action="store_true")
    for word in (
        "--remove",
        "--camera",
        "--source",
        "--format",
        "--size",
        "--rate",
        "--exposure",
        "--gain",
        "--store-format",
        "--minutes",
        "--hours",
        "--keep",
        "--folder",
    ):
        it.add_argument(word)
    it.add_argument("--bits", choices=["8"])
    it.add_argument("--root", default="/")
    for word in ("--page", "--release", "--group"):
        it.add_argument(word, action=argparse.BooleanOptionalAction)
    return it


class Setup:
    """A run of the program."""

    def __init__(self, given: argparse.Namespace, ask: Ask, tell=print) -> None:
        self.given, self.ask, self.tell = given, ask, tell
        self.paths = paths_below(given.root)

    def config(self) -> str:
        """The text of station.toml, or of none."""
        return self.paths.config.read_text(encoding="utf-8") if self.paths.config.exists() else ""

    def cameras(self) -> list[dict[str, Any]]:
        """The cameras of station.toml."""
        return written.table_of(self.config(), self.paths.config).get("camera", [])

    def remove(self, name: str) -> None:
        """Takes a camera out of station.toml. Its store stays."""
        text = written.without_camera(self.config(), name, self.paths.config)
        if text is None:
            raise Stopped(f"{self.paths.config} has no camera {name}")
        store = next((it.get("store") for it in self.cameras() if it.get("name") == name), None)
        is_followed = self.is_followed(text)
        self._write(self.paths.config, text)
        file = self.paths.cameras / f"{name}.camera"
        if file.exists():
            old = written.free(file, "removed")
            file.rename(old)
            self.tell(f"{file} is {old} now")
        self.forget_changes(name)
        if not self.given.no_start:
            services.run("disable", "--now", f"loop_camera@{name}.service")
            if services.is_active("loop_station.service"):
                # A station without a camera doesn't begin.
                left = written.table_of(text, self.paths.config).get("camera")
                self._follow(is_followed) if left else services.run("stop", "loop_station.service")
        self.tell(
            f"{name} is removed; its store stays: {self.paths.stores / (store or name + '.loop')}"
        )

    def choose(self) -> Offer:
        """The camera."""
        offers = found.offers(self.given.fake, self.tell)
        if source := self.given.source:
            real = os.path.realpath(source)
            for it in offers:
                if source == it.word or it.kind == "device" and os.path.realpath(it.word) == real:
                    return it
            raise Stopped(
                f"no camera {source} is found; there are: "
                f"{', '.join(it.word for it in offers) or 'none'}"
            )
        if not offers:
            raise Stopped(
                "no camera is found: look at its cable, its power, and at dmesg; for one of "
                "GigE Vision at "
                "the addresses of both sides (ip addr)"
            )
        return offers[self.ask.one_of("Cameras that were found:", [it.line() for it in offers])]

    def settings(self, it: Offer, old: dict[str, str]) -> dict[str, Any]:
        """The words of NAME.camera. What its old file said for the same camera is proposed."""
        if it.why or not it.formats:
            raise Stopped(f"{it.name} {it.why or 'has no format that is read'}")
        given = self.given
        key = "FORMAT" if it.kind == "genicam" else "DEVICE_FORMAT"
        first = old.get(key) or it.format
        if it.kind == "device" and first:
            # A file of before has ffmpeg's word for a format.
            first = planes.WORDS.get(first.lower(), first)
        at = it.formats.index(first) if first in it.formats else 0
        format = given.format or it.formats[self.ask.one_of("Formats:", it.formats, at)]
        if it.kind == "device":
            format = planes.WORDS.get(format.lower(), format)
        if format not in it.formats:
            raise Stopped(f"--format {format}: it gives {' '.join(it.formats)}")
        if it.kind == "genicam":
            return self._genicam(it, format, old)
        return self._device(it, format, old)

    def _genicam(self, it: Offer, format: str, old: dict[str, str]) -> dict[str, Any]:
        """The words of a GenICam camera."""
        size = self.ask.text(
            "Size, of the sensor's {}x{}".format(*it.largest),
            old.get("REGION") or "{}x{}".format(*it.largest),
            self.given.size,
            self._wrong_size,
        )
        rate = self.ask.text(
            f"Frames a second, of {it.most:g} at most" if it.most else "Frames a second",
            old.get("RATE") or f"{it.rate or 25:g}",
            self.given.rate,
            self._wrong_rate,
        )
        return {
            "GENICAM": it.word,
            "REGION": size,
            "FORMAT": format,
            "RATE": rate,
            "EXPOSURE": self.given.exposure or old.get("EXPOSURE"),
            "GAIN": self.given.gain or old.get("GAIN"),
            "BITS": self.given.bits or old.get("BITS"),
            "STORE_FORMAT": self.given.store_format or old.get("STORE_FORMAT"),
        }

    def _device(self, it: Offer, format: str, old: dict[str, str]) -> dict[str, Any]:
        """The words of a V4L2 camera."""
        sizes = [f"{width}x{height}" for width, height in it.sizes[format]]
        at = sizes.index(old["SIZE"]) if old.get("SIZE") in sizes else 0
        size = self.given.size or sizes[self.ask.one_of("Sizes:", sizes, at)]
        width, height = (
            (int(side) for side in size.split("x")) if not self._wrong_size(size) else (0, 0)
        )
        rates = it.rates.get((format, width, height)) or []
        proposed = old.get("RATE") or (rates[0] if rates else "30")
        rate = self.ask.text(
            f"Frames a second, of {' '.join(rates) or 'any'}",
            proposed,
            self.given.rate,
            self._wrong_rate,
        )
        return {
            "DEVICE": it.word,
            "DEVICE_FORMAT": format,
            "SIZE": size,
            "RATE": rate,
            "STORE_FORMAT": self.given.store_format or old.get("STORE_FORMAT"),
            "BITS": self.given.bits or old.get("BITS"),
        }

    def _wrong_size(self, word: str) -> str | None:
        try:
            words.region_of(word, "size")
        except BadFile as fault:
            return str(fault)
        return None

    def _wrong_rate(self, word: str) -> str | None:
        try:
            words.rate_of(word)
        except BadFile as fault:
            return str(fault)
        return None

    def picture(self, content: str, name: str, values: dict[str, Any]) -> Form | None:
        """Takes a picture, and answers what its frames are."""
        unit = f"loop_camera@{name}.service"
        stops = not self.given.no_start and services.is_active(unit)
        if stops:
            self.tell(f"stopping {unit} for a moment: it has the camera")
            services.run("stop", unit)
        folder = Path(self.given.folder or tempfile.mkdtemp(prefix="loop_setup."))
        folder.chmod(0o755) if not self.given.folder else folder.mkdir(parents=True, exist_ok=True)
        try:
            taken = pictures.take(content, name, folder, self.is_real())
        except Failed as fault:
            if stops:
                services.run("start", unit)
            raise Stopped(f"{name}: {fault}") from None
        came = f", {taken.rate:.3g} a second came" if taken.rate else ""
        self.tell(
            f"a picture is in {taken.path}: {taken.form.width}x{taken.form.height} "
            f"{taken.form.colour}{came}"
        )
        if taken.missed:
            self.tell(f"while it was taken: {taken.missed}")
        return taken.form

    def is_real(self) -> bool:
        """Whether this is no trial: then what is tried is tried as the services' users."""
        return self.given.root == "/"

    def measured(self) -> disk.Disk:
        """The disk of the stores, as the station's user finds it."""
        own = pictures.user_of("loop_station") if self.is_real() else {}
        try:
            return disk.measured_by(self.paths.stores, own)
        except PermissionError:
            raise Stopped(
                f"the station's user can't write into {self.paths.stores}: "
                f"sudo chown loop_station:loop_station {self.paths.stores}"
            ) from None

    def old(self, name: str) -> dict[str, Any]:
        """What station.toml says of a camera."""
        return next((it for it in self.cameras() if it.get("name") == name), {})

    def keep(self, name: str) -> int:
        """How many seconds a keep locks."""
        try:
            keep = int(self.given.keep or self.old(name).get("keep", KEEP))
        except ValueError:
            raise Stopped(f"--keep {self.given.keep} is no number of seconds") from None
        if not 1 <= keep <= 86400:
            raise Stopped(f"--keep {keep} isn't from 1 to 86400 seconds")
        return keep

    def is_released(self, name: str) -> bool:
        """Whether each keep is written out and unlocked then, so that no press ends the recording.
        What the file says of a camera stays, unless it is asked for: an archive may release."""
        old = self.old(name)
        return self.ask.yes(
            "Write each keep into a file and unlock it then, so that no press ends the recording?",
            bool(old.get("release", False)) if old else True,
            self.given.release,
        )

    def minutes(self, form: Form, name: str, is_released: bool) -> float:
        """How much the store is to hold."""
        self.paths.stores.mkdir(parents=True, exist_ok=True)
        self.tell(f"measuring the disk of {self.paths.stores}")
        it = self.measured()
        self.tell(
            f"it writes {it.bandwidth / 1e6:.0f} MB a second, a sync takes {it.sync:.1f} ms "
            f"({it.worst:.0f} at most), "
            f"{disk.gigabytes(it.free)} are free; the camera brings "
            f"{disk.needs(form) / 1e6:.1f} MB a second"
        )
        if disk.needs(form) > it.bandwidth / 2:
            self.tell("that is much for this disk: choose fewer or smaller frames, or another disk")
        # An event locks what comes after it too.
        keep = self.keep(name) + int(self.old(name).get("after", 0))
        if self.given.minutes or self.given.hours:
            chosen = self._given_minutes(form, name, keep, it.free)
        else:
            chosen = self._chosen_minutes(form, keep, it.free, is_released)
        self.tell(f"the store takes {disk.gigabytes(chosen.size)}: {chosen.line(is_released)}")
        return chosen.minutes

    def _chosen_minutes(
        self, form: Form, keep: int, free: int, is_released: bool
    ) -> presses.Choice:
        """The minutes that are chosen from those that the disk and a keep allow."""
        found = [presses.choice(form, it, keep, free) for it in disk.PROPOSED]
        offers = [
            it for it in found if it and it.size < free * (1 - disk.SPARE) and it.presses > 0
        ]
        if not offers:
            raise Stopped(
                f"{self.paths.stores} has no room for a store of these frames in which a keep of "
                f"{keep} s leaves any: make room, choose smaller ones, or a shorter --keep"
            )
        # As the packaged file has it, ten times what a keep locks.
        wished = TIMES * keep / 60
        near = min(range(len(offers)), key=lambda place: abs(offers[place].minutes - wished))
        lines = [it.line(is_released) for it in offers]
        return offers[self.ask.one_of("How much is kept:", lines, near)]

    def _given_minutes(self, form: Form, name: str, keep: int, free: int) -> presses.Choice:
        """The minutes of an option, where a store, the disk and a keep allow them."""
        given = self.given.minutes or self.given.hours
        try:
            minutes = float(self.given.minutes or 60 * float(self.given.hours))
        except ValueError:
            raise Stopped(f"{given} is no number of minutes or hours") from None
        found = presses.choice(form, minutes, keep, free) if 0 < minutes < 1e6 else None
        if found is None:
            most = [it for it in disk.PROPOSED if disk.store_bytes(form, it)]
            raise Stopped(
                f"{minutes:g} minutes: a store holds {most[-1] if most else 'no'} at most of these "
                f"frames"
            )
        if not found.presses:
            enough = (presses.choice(form, it, keep, free) for it in disk.PROPOSED)
            least = next((it.minutes for it in enough if it and it.presses), None)
            what = f"choose {least:g} or more, or " if least else "choose "
            raise Stopped(
                f"{minutes:g} minutes: a keep of {keep} s locks all of the store, and the "
                f"recording ends: {what}a shorter --keep"
            )
        store = self.paths.stores / self.old(name).get("store", f"{name}.loop")
        has = self._stays(services.store_at(store), form, minutes)
        if found.size > free + (found.size if has else 0):
            raise Stopped(
                f"{minutes:g} minutes take {disk.gigabytes(found.size)}, and "
                f"{disk.gigabytes(free)} are free in {self.paths.stores}: choose fewer, or make "
                f"room"
            )
        return found

    def station(
        self, name: str, minutes: float, is_timed: bool, is_released: bool
    ) -> tuple[str, Path]:
        """The new text of station.toml, and the path of the store. The frames of a camera that says
        their times have these."""
        old = self.old(name)
        store = old.get("store", f"{name}.loop")
        clips = written.table_of(self.config(), self.paths.config).get(
            "saves", str(self.paths.stores / "clips")
        )
        values = {
            "source": str(self.paths.pipe(name)),
            "store": store,
            "minutes": minutes,
            "keep": self.keep(name),
            "times_from": "source" if is_timed else None,
        }
        if is_released:
            values |= {"save_to": old.get("save_to", clips), "release": True}
        elif old.get("release"):
            values["release"] = False
        if not old:
            # No press ends the recording; clips that stay locked go by whoever releases them alone.
            values["when_full"] = "release oldest" if is_released else "stop"
        heads = {
            "orders": str(self.paths.orders),
            "answers": str(self.paths.answers),
            "answers_form": "json",
            "saves": clips,
        }
        return (
            written.with_camera(self.config(), name, values, heads, self.paths.config),
            self.paths.stores / store,
        )

    def _stays(self, it: Any, form: Form, minutes: float) -> bool:
        """Whether a store is of such frames, and as large as one for so many minutes."""
        wanted = disk.store_bytes(form, minutes)
        return bool(
            it is not None
            and wanted
            and self._is_alike(it, form)
            and abs(it.geometry.disk_size() - wanted) <= wanted / 20
        )

    def _is_alike(self, it: Any, form: Form) -> bool:
        """Whether a store has such frames, at this rate."""
        wide = form.width * (2 if form.bits() > 8 else 1)
        sides = it.geometry.width, it.geometry.height, it.geometry.size
        same = sides == (wide, form.height, form.bytes_of_frame())
        depths = services.depths_of(it) <= {form.bits()}
        return same and depths and Fraction(it.geometry.num, it.geometry.den) == form.rate

    def old_store(self, store: Path, form: Form, minutes: float) -> None:
        """A store of other frames, or of another size, is moved away where that is wanted: it
        stays."""
        it = services.store_at(store)
        if it is None or self._stays(it, form, minutes):
            return
        is_alike = self._is_alike(it, form)
        what = "has another size" if is_alike else "has other frames"
        if self.ask.yes(
            f"{store} {what}. Move it away, so that a new one is made? It stays, beside",
            True,
            True if self.given.move_store else None,
        ):
            # A station that records into it makes a new one within a second.
            moved = written.free(store, time.strftime("%Y-%m-%dT%H-%M-%SZ", time.gmtime()))
            for path in (store, store.with_name(store.name + ".events")):
                if path.exists():
                    path.rename(moved.with_name(moved.name + path.name.removeprefix(store.name)))
            self.tell(f"{store} is {moved} now")
        else:
            self.tell(
                f"{store} {what}: "
                + ("it keeps its size" if is_alike else "the station will say `other geometry`")
            )

    def page(self) -> str | None:
        """The page's address, once it runs, where it is wanted."""
        if not self.ask.yes("See the cameras in a browser, by loop_page?", True, self.given.page):
            return None
        if services.token(self.paths.token):
            self.tell(f"the page's token is made: {self.paths.token}")
        listen = "127.0.0.1:8080"
        if self.paths.page.exists():
            try:
                listen = tomllib.loads(self.paths.page.read_text(encoding="utf-8")).get(
                    "listen", listen
                )
            except tomllib.TOMLDecodeError as fault:
                raise Stopped(f"{self.paths.page}: {fault}") from None
        return f"http://{listen}/"

    def is_followed(self, text: str) -> bool:
        """Whether a station that runs by the old text can go on by a new one: it takes orders
        there, and only cameras are others."""
        old, new = (written.table_of(it, self.paths.config) for it in (self.config(), text))
        fixed = ("orders", "answers", "answers_form", "saves", "times", "events")
        return old.get("orders") == str(self.paths.orders) and all(
            old.get(it) == new.get(it) for it in fixed
        )

    def _follow(self, is_followed: bool) -> None:
        """Lets a station that runs follow its new file."""
        if is_followed:
            self.tell("the station reads its file anew: all other cameras go on")
        else:
            self.tell("the station begins anew: every camera pauses for a moment")
        services.run("reload" if is_followed else "restart", "loop_station.service")

    def start(self, name: str, store: Path, page: str | None, is_followed: bool) -> None:
        """Starts the services, and waits for the first frame."""
        before = services.store_at(store)
        seen = before.next if before is not None else 0
        units = ["loop_station.service", f"loop_camera@{name}.service"] + (
            ["loop_page.service"] if page else []
        )
        services.run("daemon-reload")
        services.run("enable", *units)
        if services.is_active(units[0]):
            self._follow(is_followed)
        else:
            services.run("restart", units[0])
        for unit in units[1:]:
            # The page follows the station by itself.
            if unit != "loop_page.service" or not services.is_active(unit):
                services.run("restart", unit)
        self.tell(f"started: {', '.join(units)}; waiting for a stored frame")
        following = services.wait_for_frame(store, seen, FIRST_FRAME)
        if following is None:
            raise Stopped(
                f"no frame was stored in {FIRST_FRAME:.0f} s: journalctl -u loop_station -u "
                f"loop_camera@{name}"
            )
        self.tell(f"{name} records: frame {following - 1} is in {store}")

    def order(self, name: str) -> str:
        """The command that keeps, as the user of this machine can give it now: whoever is in the
        station's group."""
        pipe = written.table_of(self.config(), self.paths.config).get("orders", self.paths.orders)
        plain, user = f"echo keep {name} >{pipe}", orders.user()
        if user is None or not self.is_real():
            return plain
        by_group = f"sg {orders.GROUP} -c '{plain}'"
        if orders.is_member(user):
            return plain if orders.is_known_here(user) else by_group
        asked = f"Shall {user} give the station orders, by its group {orders.GROUP}?"
        if self.ask.yes(asked, True, self.given.group):
            why = orders.add(user)
            if why is None:
                self.tell(
                    f"{user} is in the group {orders.GROUP} now: other windows know it once {user} "
                    "has signed in again"
                )
                return by_group
            self.tell(f"{user} can't be added to the group {orders.GROUP}: {why}")
        self.tell(f"{user} may give no orders without sudo: {orders.command(user)}")
        return f"echo keep {name} | sudo tee {pipe}"

    def _write(self, path: Path, text: str) -> None:
        """Writes a file, and tells where the old one is."""
        old = written.replace(path, text)
        self.tell(f"{path} is written" + (f"; the old one is {old}" if old else ""))

    def forget_changes(self, name: str) -> None:
        """What was changed of a camera at the page doesn't count any more."""
        path = self.paths.changed / f"{name}.camera"
        if path.exists():
            path.unlink()
            self.tell(f"what was changed of {name} at the page is forgotten")

    def run(self) -> None:
        """All of it."""
        if self.given.remove:
            self.remove(self.given.remove)
            if not self.given.camera:
                return
        offer = self.choose()
        proposed = (
            next((it["name"] for it in self.cameras() if self._is_of(it, offer)), None)
            or self._free_name()
        )
        name = self.ask.text("Its name", proposed, self.given.camera, written.wrong_name)
        file = self.paths.cameras / f"{name}.camera"
        content = file.read_text(encoding="utf-8") if file.exists() else ""
        old = words.lines_of(content) if content else {}
        if offer.word not in (old.get("GENICAM"), old.get("DEVICE")):
            old = {}
        values = self.settings(offer, old)
        made = written.camera_file(values, content)
        # What loop_camera refuses isn't written.
        wanted = words.wanted(made)
        form = None if self.given.no_picture else self.picture(made, name, values)
        form = form or expected(wanted)
        form.check()
        is_released = self.is_released(name)
        minutes = self.minutes(form, name, is_released)
        is_timed = wanted.clock != "arrival"
        text, store = self.station(name, minutes, is_timed, is_released)
        is_followed = self.is_followed(text)
        self._write(file, made)
        self.forget_changes(name)
        self.old_store(store, form, minutes)
        self._write(self.paths.config, text)
        page = self.page()
        if self.given.no_start:
            self.tell("nothing was started (--no-start)")
        else:
            self.start(name, store, page, is_followed)
        if page:
            self.tell(f"the page: {page}  its token: sudo cat {self.paths.token}")
        if not self.given.no_start:
            self.tell(f"keep what has just happened: {self.order(name)}")

    def _is_of(self, camera: dict[str, Any], offer: Offer) -> bool:
        """Whether a camera of station.toml is this one."""
        file = self.paths.cameras / f"{camera.get('name')}.camera"
        try:
            said = words.lines_of(file.read_text(encoding="utf-8"))
        except (OSError, BadFile):
            return False
        return offer.word in (said.get("GENICAM"), said.get("DEVICE"))

    def _free_name(self) -> str:
        """A name that no camera has."""
        taken = {it.get("name") for it in self.cameras()}
        return next(
            it
            for it in ["left", "right", *(f"camera{number}" for number in range(3, 99))]
            if it not in taken
        )


def expected(wanted: words.Wanted) -> Form:
    """What the frames will be, where no picture is taken."""
    size = wanted.region
    if size is None or wanted.rate is None:
        raise Stopped("without a picture the size and the rate have to be given")
    if wanted.device:
        lay = planes.lay_of(wanted.device_format or "")
        # What a JPEG has only a picture tells.
        plain, bits = lay.colour or "yuv422p", lay.bits
    else:
        from . import samples

        format = samples.format_of(wanted.format or "")
        plain, bits = format.planes(), format.bits
    if wanted.bits and bits > 8:
        plain = "gray"
    return Form(size.width, size.height, wanted.store_format or plain, wanted.rate)


def main(given_words: list[str], doc: str, ask: Ask | None = None) -> int:
    """Reads the words; returns the status."""
    try:
        given = parser().parse_args(given_words)
    except SystemExit:
        return 2

    def tell(line: str) -> None:
        print(line, flush=True)

    try:
        if given.list:
            from .program import list_all

            return list_all(given.fake)
        if os.geteuid() and given.root == "/":
            raise Stopped("it writes into /etc/lapyrei and starts services: sudo loop_setup")
        setup = Setup(given, ask or Ask(given.yes), tell)
        if given.check:
            return check.Check(setup).run()
        setup.run()
    except (Stopped, Failed, services.Failed, Refused, BadFile, BadFrames, OSError) as fault:
        print(f"loop_setup: {fault}", file=sys.stderr)
        return 1
    except KeyboardInterrupt:
        print("\nloop_setup: ended", file=sys.stderr)
        return 1
    except Exception as fault:
        print(f"loop_setup: {own_fault(fault)}", file=sys.stderr)
        return 1
    return 0


def own_fault(fault: Exception) -> str:
    """A fault of this program, in one sentence: what nobody has thought of."""
    place = traceback.extract_tb(fault.__traceback__)[-1]
    where = f"{os.path.basename(place.filename)}:{place.lineno}"
    return f"a fault of its own, which is to be told: {type(fault).__name__}: {fault} ({where})"
