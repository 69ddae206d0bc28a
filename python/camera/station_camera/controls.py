"""The controls of a V4L2 device: exposure, gain, white balance, power line, trigger and all others,
by their names as v4l2-ctl writes them (`exposure_time_absolute`)."""
from __future__ import annotations

import ctypes as c
import errno
import re
from typing import Any, Callable, Iterator, NamedTuple

from . import videodev as v

# Kinds that have one value, and that a file may set.
KINDS = {
    v.INTEGER: "number",
    v.BOOLEAN: "0 or 1",
    v.MENU: "menu",
    v.BUTTON: "button",
    v.INTEGER64: "number",
    v.STRING: "text",
    v.BITMASK: "bits",
    v.INTEGER_MENU: "menu",
}


class Wrong(Exception):
    """A control that the device hasn't, or a value that it doesn't take."""


class Item(NamedTuple):
    """A control: its number, kind and name, its range, its flags, and what a menu offers."""

    id: int
    kind: int
    name: str
    least: int
    most: int
    step: int
    default: int
    flags: int
    size: int = 0
    menu: dict[int, str] = {}

    def takes(self) -> str:
        """What it takes, in words."""
        if self.kind in (v.MENU, v.INTEGER_MENU):
            return ", ".join(f"{number} ({name})" for number, name in self.menu.items())
        if self.kind in (v.INTEGER, v.INTEGER64):
            by = f" by {self.step}" if self.step > 1 else ""
            return f"{self.least} to {self.most}{by}"
        if self.kind == v.BITMASK:
            return f"0 to {self.most & 0xFFFFFFFF:#x}"
        if self.kind == v.STRING:
            return f"a text of {self.least} to {self.most} bytes"
        return {v.BOOLEAN: "0 or 1", v.BUTTON: "no value"}[self.kind]

    def value_of(self, word: str) -> int | bytes:
        """The value that a word says; refused where the device wouldn't take it as it stands."""
        if self.kind == v.STRING:
            text = word.encode()
            if self.least <= len(text) <= self.most:
                return text
        elif self.kind == v.BUTTON:
            if not word:
                return 0
        elif (number := self._number(word)) is not None:
            if self.kind == v.BITMASK:
                if not number & ~(self.most & 0xFFFFFFFF):
                    return number
            elif self.kind in (v.MENU, v.INTEGER_MENU):
                if number in self.menu:
                    return number
            elif self.least <= number <= self.most:
                if self.step <= 1 or (number - self.least) % self.step == 0:
                    return number
        raise Wrong(f"it takes {self.takes()}")

    def _number(self, word: str) -> int | None:
        """A number, or the number of a menu's item by its name."""
        found = [number for number, name in self.menu.items() if name.lower() == word.lower()]
        if found:
            return found[0]
        if self.kind == v.BOOLEAN and word.lower() in ("off", "false", "on", "true"):
            return int(word.lower() in ("on", "true"))
        return int(word, 0) if re.fullmatch(r"-?(\d+|0x[0-9a-fA-F]+)", word) else None


def plain(name: bytes) -> str:
    """A control's name as v4l2-ctl writes it: small letters and digits, and _ for what is between
    them."""
    return re.sub(r"[^a-z0-9]+", "_", name.decode("latin-1").lower()).strip("_")


def items(ioctl: Callable[[int, Any], None]) -> Iterator[Item]:
    """Every control of a device that may be set. `ioctl` makes a call on it."""
    at = 0
    while True:
        it = v.ControlWord(id=at | v.NEXT_CONTROL)
        try:
            ioctl(v.QUERY_EXT_CTRL, it)
        except OSError:
            # There is no later one.
            return
        if it.id <= at:
            return
        at = it.id
        if it.type not in KINDS or it.nr_of_dims or it.flags & (v.DISABLED | v.READ_ONLY):
            continue
        ranges = it.minimum, it.maximum, it.step, it.default, it.flags, it.elem_size
        known = Item(it.id, it.type, plain(it.name), *ranges)
        if it.type in (v.MENU, v.INTEGER_MENU):
            known = known._replace(menu=menu(ioctl, known))
        yield known


def menu(ioctl: Callable[[int, Any], None], it: Item) -> dict[int, str]:
    """What a menu offers."""
    found = {}
    for number in range(it.least, min(it.most, it.least + 255) + 1):
        word = v.MenuWord(id=it.id, index=number)
        try:
            ioctl(v.QUERYMENU, word)
        except OSError:
            # A menu may have gaps.
            continue
        is_number = it.kind == v.INTEGER_MENU
        found[number] = str(word.of.value) if is_number else word.of.name.decode("latin-1")
    return found


def made(it: Item) -> tuple[v.Controls, v.Control, Any]:
    """The structures of a call for one control, and the text that it may refer to."""
    one = v.Control(id=it.id)
    text = None
    if it.kind == v.STRING:
        text = c.create_string_buffer(max(it.size, it.most + 1))
        one.size, one.of.text = len(text), c.addressof(text)
    return v.Controls(count=1, controls=c.pointer(one)), one, text


def read(ioctl: Callable[[int, Any], None], it: Item) -> int | bytes:
    """The value of a control now."""
    all_of, one, text = made(it)
    ioctl(v.G_EXT_CTRLS, all_of)
    if it.kind == v.STRING:
        return text.value
    if it.kind == v.INTEGER64:
        return one.of.value64
    return one.of.value & 0xFFFFFFFF if it.kind == v.BITMASK else one.of.value


def ranges(ioctl: Callable[[int, Any], None]) -> dict[str, dict[str, Any]]:
    """The numbers and menus of a device, each with its value and bounds; whether another control
    sets it now is `held`."""
    found = {}
    for it in items(ioctl):
        if it.kind not in (v.INTEGER, v.BOOLEAN, v.MENU, v.INTEGER_MENU):
            continue
        try:
            one: dict[str, Any] = {"now": read(ioctl, it), "held": bool(it.flags & v.INACTIVE)}
        except OSError:
            continue
        if it.menu:
            one["choices"], one["names"] = list(map(str, it.menu)), list(it.menu.values())
            one["now"] = str(one["now"])
        else:
            one |= {"least": it.least, "most": it.most, "step": max(1, it.step)}
        found[it.name] = one
    return found


def write(ioctl: Callable[[int, Any], None], it: Item, value: int | bytes) -> None:
    """Sets a control."""
    all_of, one, text = made(it)
    if it.kind == v.STRING:
        text.value = value
    elif it.kind == v.INTEGER64:
        one.of.value64 = value
    else:
        one.of.value = c.c_int32(value).value
    ioctl(v.S_EXT_CTRLS, all_of)


def line(ioctl: Callable[[int, Any], None], it: Item) -> str:
    """A control in a line: what it takes, and its value now."""
    if it.kind == v.BUTTON or it.flags & v.WRITE_ONLY:
        return f"{it.name}: {it.takes()}"
    try:
        value = read(ioctl, it)
    except OSError:
        return f"{it.name}: {it.takes()}"
    shown = value.decode("latin-1") if isinstance(value, bytes) else value
    by_itself = "; another one sets it now" if it.flags & v.INACTIVE else ""
    return f"{it.name}: {it.takes()}; {shown} now{by_itself}"


def settle(
    ioctl: Callable[[int, Any], None],
    wanted: list[tuple[str, str]],
    tell: Callable[[str], None],
) -> None:
    """Sets controls by name, in their order. One that the device hasn't, or a value that it doesn't
    take, is refused; where it takes another value, that is told."""
    known = {it.name: it for it in items(ioctl)} if wanted else {}
    for name, word in wanted:
        said = f"CONTROL_{name}={word}"
        it = known.get(name)
        if it is None:
            raise Wrong(f"{said}: the device has no such control: loop_camera --list shows them")
        try:
            value = it.value_of(word)
            write(ioctl, it, value)
        except Wrong as fault:
            raise Wrong(f"{said}: {fault}") from None
        except OSError as fault:
            is_held = fault.errno in (errno.EACCES, errno.EBUSY)
            why = "another control sets it, such as an automatic" if is_held else fault.strerror
            raise Wrong(f"{said}: {why}") from None
        if it.kind == v.BUTTON or it.flags & (v.WRITE_ONLY | v.VOLATILE):
            continue
        took = read(ioctl, it)
        if took != value:
            tell(f"{said}: the device has {took} now")
