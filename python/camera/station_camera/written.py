"""What loop_setup writes: NAME.camera and station.toml. An old file stays beside the new one, and
what stands in station.toml beside a camera's words stays too: comments, other words, other
cameras."""
from __future__ import annotations

import os
import re
import time
import tomllib
from pathlib import Path
from typing import Any

from .words import BadFile

NAME = re.compile(r"[A-Za-z0-9_-]{1,32}")
CAMERAS_MOST = 16


def wrong_name(name: str) -> str | None:
    """Why the station takes no camera of this name, or None."""
    if not NAME.fullmatch(name) or name.isdigit():
        return "1 to 32 letters, digits, - or _, and no number"
    return None


def replace(path: Path, text: str) -> Path | None:
    """Writes a file, whole or not at all. An old one of another text stays beside it; answers its
    path."""
    old = None
    mode = 0o644
    if path.exists():
        if path.read_text(encoding="utf-8") == text:
            return None
        mode = path.stat().st_mode & 0o777
        stamp = time.strftime("%Y-%m-%dT%H-%M-%SZ", time.gmtime())
        old = free(path, stamp)
        os.link(path, old)
    path.parent.mkdir(parents=True, exist_ok=True)
    unfinished = path.with_name(f".{path.name}.new")
    with open(unfinished, "w", encoding="utf-8") as file:
        file.write(text)
        file.flush()
        os.fsync(file.fileno())
        os.fchmod(file.fileno(), mode)
    os.replace(unfinished, path)
    return old


def free(path: Path, stamp: str) -> Path:
    """A path beside another that isn't taken."""
    number = 1
    while True:
        found = path.with_name(f"{path.name}.{stamp}" + (f"-{number}" if number > 1 else ""))
        if not os.path.lexists(found):
            return found
        number += 1


def table_of(text: str, path: Any) -> dict[str, Any]:
    """What station.toml says."""
    try:
        table = tomllib.loads(text)
    except tomllib.TOMLDecodeError as fault:
        raise BadFile(f"{path}: {fault}") from None
    cameras = table.get("camera", [])
    if not isinstance(cameras, list) or not all(isinstance(it, dict) for it in cameras):
        raise BadFile(f"{path}: camera isn't a list of tables, each as [[camera]]")
    return table


def blocks(text: str) -> list[str]:
    """The head of the file, and the part of each camera. Comments right before [[camera]] are the
    camera's."""
    found: list[list[str]] = [[]]
    for line in text.splitlines(keepends=True):
        if re.match(r"\s*\[\[\s*camera\s*\]\]", line):
            above = found[-1]
            begin: list[str] = []
            while (
                above
                and above[-1].startswith("#")
                and not re.match(r"#\s*\[\[|#\s*\w+ = ", above[-1])
            ):
                begin.insert(0, above.pop())
            found.append(begin)
        found[-1].append(line)
    return ["".join(lines) for lines in found]


def name_in(block: str) -> str | None:
    """The name of a camera's part."""
    return next((it.get("name") for it in tomllib.loads(block).get("camera", [])), None)


def value(it: Any) -> str:
    """A value as TOML has it."""
    if isinstance(it, bool):
        return str(it).lower()
    if isinstance(it, int):
        return str(it)
    if isinstance(it, float):
        return str(int(it)) if it.is_integer() else repr(it)
    return '"' + str(it).replace("\\", "\\\\").replace('"', '\\"') + '"'


def with_values(block: str, values: dict[str, Any]) -> str:
    """A part in which words have these values, each where it stood, and new ones at the end; None
    removes a word."""
    lines, left = [], dict(values)
    for line in block.splitlines():
        key = (re.match(r"\s*([A-Za-z_]+)\s*=", line) or [None, None])[1]
        if key in left:
            new = left.pop(key)
            if new is None:
                continue
            comment = re.search(r'\s+#[^"]*$', line)
            lines.append(f"{key} = {value(new)}" + (comment[0] if comment else ""))
        else:
            lines.append(line)
    rest = []
    while lines and (not lines[-1].strip() or lines[-1].startswith("#")):
        rest.insert(0, lines.pop())
    lines += [f"{key} = {value(new)}" for key, new in left.items() if new is not None]
    return "\n".join(lines + rest) + "\n"


def with_camera(
    text: str, name: str, values: dict[str, Any], heads: dict[str, Any], path: Any
) -> str:
    """station.toml with a camera, and with these words of the whole where it has none."""
    table = table_of(text, path)
    parts = blocks(text)
    parts[0] = with_values(parts[0], {key: it for key, it in heads.items() if key not in table})
    parts[0] = parts[0].lstrip("\n")
    for place, part in enumerate(parts[1:], 1):
        if name_in(part) == name:
            # `bytes` is the other way to say how much a store is to hold.
            parts[place] = with_values(part, {**values, "bytes": None})
            break
    else:
        if len(table.get("camera", [])) >= CAMERAS_MOST:
            raise BadFile(f"{path}: a station has {CAMERAS_MOST} cameras at most")
        parts.append(with_values("\n[[camera]]\n", {"name": name, **values}))
    made = "".join(parts)
    table_of(made, path)
    return made


def without_camera(text: str, name: str, path: Any) -> str | None:
    """station.toml without a camera, or None where it has none of this name."""
    table_of(text, path)
    parts = blocks(text)
    kept = [part for part in parts[:1] + [it for it in parts[1:] if name_in(it) != name]]
    return "".join(kept) if len(kept) < len(parts) else None


def camera_file(values: dict[str, Any], old: str = "") -> str:
    """NAME.camera with these words. Features by name, and other words of the old file for the same
    camera, stay."""
    key = "GENICAM" if values.get("GENICAM") else "DEVICE"
    lines = []
    left = {name: it for name, it in values.items() if it is not None}
    same = f"{key}=" in old and re.search(
        rf'^{key}\s*=\s*"?{re.escape(str(values[key]))}"?\s*$', old, re.M
    )
    for line in old.splitlines() if same else []:
        name = line.partition("=")[0].strip()
        if name in values:
            if left.get(name) is not None:
                lines.append(f"{name}={quoted(left.pop(name))}")
        else:
            lines.append(line)
    return "\n".join(lines + [f"{name}={quoted(it)}" for name, it in left.items()]) + "\n"


def quoted(it: Any) -> str:
    """A value of NAME.camera."""
    word = f"{it:g}" if isinstance(it, float) else str(it)
    return word if re.fullmatch(r"[A-Za-z0-9_./:+@-]+", word) else '"' + word.replace('"', "") + '"'
