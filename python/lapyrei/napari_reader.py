"""napari's reader: a store as a layer, and each of its events as another, which isn't shown at
first. Pictures are read when they are shown. `napari.yaml` names it."""
from __future__ import annotations

import os
from collections.abc import Callable, Sequence
from typing import Any, Union

from . import open as open_store
from .errors import LapyreiError
from .lazy import Lazy, about
from .store import Event, Frames

Paths = Union[str, Sequence[str]]
Layer = tuple[Any, dict[str, Any], str]


def get_reader(path: Paths) -> Callable[[Paths], list[Layer]] | None:
    """What reads a path, or the paths of one camera's stores; None where they are no store."""
    paths = [path] if isinstance(path, (str, os.PathLike)) else list(path)
    try:
        open_store(paths).close()
    except (LapyreiError, TypeError):
        return None
    return read


def read(path: Paths) -> list[Layer]:
    """The layers of a path: all frames, and those of each event."""
    store = open_store([path] if isinstance(path, (str, os.PathLike)) else list(path))
    layers = [layer_of(store, store.camera, True)]
    layers += [layer_of(it, f"{store.camera} event {it.name}", False) for it in store.events]
    return layers


def layer_of(frames: Frames, name: str, is_shown: bool) -> Layer:
    """Frames as a layer of pictures: grey ones, or RGB, of the bits of the newest frame."""
    chosen = frames[frames.bits == frames.bits[-1]] if len(frames) else frames
    lazy = Lazy(chosen, 0 if frames.is_grey else None)
    said = {**about(chosen), "time_us": chosen.times, "number": chosen.numbers}
    if isinstance(frames, Event):
        said["tag"] = frames.tag
    words = {"name": name, "rgb": not frames.is_grey, "visible": is_shown, "metadata": said}
    if frames.is_grey:
        words["contrast_limits"] = [0, 2**chosen.form.bits - 1]
    return lazy, words, "image"
