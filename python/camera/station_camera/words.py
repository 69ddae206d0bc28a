"""The file NAME.camera: lines KEY=VALUE, as systemd reads them for a unit's environment."""
from __future__ import annotations

import re
import shlex
from dataclasses import dataclass, field
from fractions import Fraction

from . import text

# What stands in a file of either kind.
KEYS = (
    "GENICAM",
    "REGION",
    "FORMAT",
    "EXPOSURE",
    "GAIN",
    "RATE",
    "TRIGGER",
    "PACKET",
    "BITS",
    "STORE_FORMAT",
    "CLOCK",
    "BUFFERS",
    "CHUNKS",
    "DEVICE",
    "DEVICE_FORMAT",
    "SIZE",
    "SOURCE",
)
# What names a camera, and which words may stand beside it, with those of any feature or control.
KINDS = {
    "GENICAM": "REGION FORMAT EXPOSURE GAIN RATE TRIGGER PACKET BITS STORE_FORMAT CLOCK BUFFERS "
    "CHUNKS",
    "DEVICE": "DEVICE_FORMAT SIZE RATE BITS STORE_FORMAT CLOCK BUFFERS",
    "SOURCE": "SIZE RATE STORE_FORMAT",
}
CLOCKS = ("tied", "ptp", "arrival")
FEATURE, CONTROL = "FEATURE_", "CONTROL_"
OPEN_ENDED = {"GENICAM": FEATURE, "DEVICE": CONTROL}
# What may be changed while a camera films, by how the words begin.
CHANGING = {"GENICAM": ("EXPOSURE", "GAIN", "TRIGGER", "REGION"), "DEVICE": (CONTROL,)}
# GenICam's names of features.
FEATURE_NAME = re.compile(r"[A-Za-z_][A-Za-z0-9_]{0,99}")


class BadFile(Exception):
    """What is wrong with a camera's file, in words for the one who wrote it."""


@dataclass(frozen=True)
class Region:
    """The part of the sensor that is wanted; `at` is None where its place stays as it is."""

    width: int
    height: int
    at: tuple[int, int] | None = None


@dataclass(frozen=True)
class Wanted:
    """What a file asks for. None: as the camera has it."""

    genicam: str | None = None
    region: Region | None = None
    format: str | None = None
    exposure: float | None = None
    gain: float | None = None
    rate: Fraction | None = None
    trigger: str | None = None
    packet: int | str | None = None
    # 8: deep samples are shifted to 8 bits.
    bits: int | None = None
    store_format: str | None = None
    clock: str = "tied"
    buffers: int | None = None
    features: list[tuple[str, str]] = field(default_factory=list)
    device: str | None = None
    device_format: str | None = None
    controls: list[tuple[str, str]] = field(default_factory=list)
    source: str | None = None
    # What is said of each frame, by GenICam's names.
    chunks: tuple[str, ...] = ()
    # As the file has it.
    rate_word: str | None = None


def lines_of(content: str) -> dict[str, str]:
    """The values by their keys."""
    found: dict[str, str] = {}
    for number, line in enumerate(content.splitlines(), 1):
        line = line.strip()
        if not line or line[0] in "#;":
            continue
        key, sign, value = line.partition("=")
        key = key.strip()
        if not sign or not re.fullmatch(r"[A-Za-z_][A-Za-z0-9_]*", key):
            raise BadFile(f"line {number} isn't KEY=VALUE: {line}")
        if key not in KEYS and not key.startswith((FEATURE, CONTROL)):
            raise BadFile(f"line {number}: {key} isn't a word of this file")
        if key in found:
            raise BadFile(f"line {number}: {key} is there twice")
        found[key] = value_of(value.strip(), number)
    return found


def value_of(value: str, number: int) -> str:
    """A value without its quotes. Words apart are one value, as in systemd."""
    try:
        return " ".join(shlex.split(value))
    except ValueError:
        raise BadFile(f"line {number}: a quote isn't closed: {value}") from None


def region_of(word: str, key: str = "REGION") -> Region:
    """640x480, or 640x480+8+16 from the column 8 and the row 16 on."""
    found = re.fullmatch(r"(\d{1,5})x(\d{1,5})(?:\+(\d{1,5})\+(\d{1,5}))?", word)
    if not found or not int(found[1]) or not int(found[2]):
        raise BadFile(f"{key}={word} isn't a size, such as 640x480, or 640x480+8+16 with a place")
    at = (int(found[3]), int(found[4])) if found[3] else None
    return Region(int(found[1]), int(found[2]), at)


def rate_of(word: str) -> Fraction:
    """Frames a second: 25, 29.97 or 30000/1001."""
    try:
        rate = Fraction(word.replace(":", "/"))
    except (ValueError, ZeroDivisionError):
        rate = Fraction(0)
    if not 0 < rate <= 1_000_000:
        raise BadFile(f"RATE={word} isn't a rate, such as 25, 29.97 or 30000/1001")
    return rate.limit_denominator(1_000_000)


def number_of(found: dict[str, str], key: str) -> float | None:
    """A number that isn't negative, where it is there."""
    word = found.get(key)
    if word is None:
        return None
    if not re.fullmatch(r"\d+(\.\d+)?", word):
        raise BadFile(f"{key}={word} isn't a number")
    return float(word)


def one_of(
    found: dict[str, str], key: str, choices: tuple[str, ...], left_out: str | None
) -> str | None:
    """A word that is one of some, where it is there."""
    word = found.get(key, left_out)
    if word is not None and word not in choices:
        raise BadFile(f"{key}={word} isn't one of {', '.join(choices)}")
    return word


def wanted(content: str) -> Wanted:
    """What a file asks for. What can't be is refused by its key."""
    return wanted_in(lines_of(content))


def wanted_in(found: dict[str, str]) -> Wanted:
    """The same by the values of its keys."""
    kinds = [key for key in KINDS if found.get(key)]
    if len(kinds) != 1:
        raise BadFile(
            "it wants either GENICAM, the serial number of a camera, or DEVICE, a path, or SOURCE, "
            "the address of a network camera"
        )
    kind = kinds[0]
    for key in found:
        is_open = kind in OPEN_ENDED and key.startswith(OPEN_ENDED[kind])
        if key not in (kind, *KINDS[kind].split()) and not is_open:
            raise BadFile(f"{key} isn't a word beside {kind}")
    bits = found.get("BITS")
    if bits not in (None, "8"):
        raise BadFile(f"BITS={bits} isn't 8; left out, samples stay as they are")
    buffers = number_of(found, "BUFFERS")
    if buffers is not None and not (buffers.is_integer() and 2 <= buffers <= 1000):
        raise BadFile(f"BUFFERS={found['BUFFERS']} isn't a number from 2 to 1000")
    common = Wanted(
        bits=8 if bits else None,
        store_format=one_of(found, "STORE_FORMAT", tuple(text.COLOURS), None),
        rate=rate_of(found["RATE"]) if "RATE" in found else None,
        rate_word=found.get("RATE"),
    )
    count = int(buffers) if buffers else None
    if kind == "SOURCE":
        return of_source(found, common)
    return (of_genicam if kind == "GENICAM" else of_device)(found, common, count)


def named(found: dict[str, str], start: str, of: str) -> list[tuple[str, str]]:
    """What is set by its name, in the file's order."""
    those = [(key.removeprefix(start), it) for key, it in found.items() if key.startswith(start)]
    for name, _ in those:
        if not FEATURE_NAME.fullmatch(name):
            raise BadFile(f"{start}{name} has no name of a {of}")
    return those


def of_genicam(found: dict[str, str], common: Wanted, buffers: int | None) -> Wanted:
    """What the file of a GenICam camera asks for."""
    packet = found.get("PACKET")
    if packet is not None and packet != "auto" and not re.fullmatch(r"\d{3,5}", packet):
        raise BadFile(f"PACKET={packet} isn't a number of bytes, such as 8000, nor auto")
    return Wanted(
        **{
            **common.__dict__,
            "genicam": found["GENICAM"],
            "region": region_of(found["REGION"]) if "REGION" in found else None,
            "format": found.get("FORMAT"),
            "exposure": number_of(found, "EXPOSURE"),
            "gain": number_of(found, "GAIN"),
            "trigger": found.get("TRIGGER"),
            "packet": int(packet) if packet and packet != "auto" else packet,
            "clock": one_of(found, "CLOCK", CLOCKS, "tied"),
            "buffers": buffers,
            "features": named(found, FEATURE, "feature"),
            "chunks": chunks_in(found),
        }
    )


def chunks_in(found: dict[str, str]) -> tuple[str, ...]:
    """The names of what is said of each frame."""
    word = found.get("CHUNKS", "")
    names = tuple(it.strip() for it in word.split(",")) if word else ()
    if len(set(names)) < len(names) or not all(FEATURE_NAME.fullmatch(it) for it in names):
        raise BadFile(f"CHUNKS={word} isn't names with commas between them, as ExposureTime,Gain")
    return names


def size_in(found: dict[str, str]) -> Region | None:
    """The size, where it is there. It has no place."""
    if "SIZE" not in found:
        return None
    region = region_of(found["SIZE"], "SIZE")
    if region.at:
        raise BadFile(f"SIZE={found['SIZE']} isn't a size, such as 640x480")
    return region


def of_device(found: dict[str, str], common: Wanted, buffers: int | None) -> Wanted:
    """What the file of a V4L2 camera asks for."""
    return Wanted(
        **{
            **common.__dict__,
            "device": found["DEVICE"],
            "device_format": found.get("DEVICE_FORMAT") or None,
            "region": size_in(found),
            "clock": one_of(found, "CLOCK", ("tied", "arrival"), "tied"),
            "buffers": buffers,
            "controls": named(found, CONTROL, "control"),
        }
    )


def of_source(found: dict[str, str], common: Wanted) -> Wanted:
    """What the file of a network camera, or of a film, asks for."""
    return Wanted(**{**common.__dict__, "source": found["SOURCE"], "region": size_in(found)})
