"""Zarr of the third version of its format, which Debian's library doesn't write: a description in
JSON for each group and array, and a file for each chunk, plain or by gzip (zarr-specs, core
3.0)."""
from __future__ import annotations

import gzip
import itertools
import json
import os
from typing import Any

import numpy as np
from numpy.typing import NDArray

Array = NDArray[Any]
KINDS = {"u1": "uint8", "u2": "uint16", "u4": "uint32", "i8": "int64"}


def describe(folder: str, words: dict[str, Any]) -> None:
    """Writes a description."""
    os.makedirs(folder, exist_ok=True)
    with open(os.path.join(folder, "zarr.json"), "w", encoding="utf-8") as file:
        json.dump({"zarr_format": 3, **words}, file, indent=1)


def make_group(folder: str, about: dict[str, Any]) -> None:
    """Makes a group."""
    describe(folder, {"node_type": "group", "attributes": about})


class Store:
    """An array in a folder, whose chunks are written one after the other, each whole."""

    def __init__(
        self, folder: str, shape: tuple[int, ...], chunk: tuple[int, ...], dtype: Any, packs: bool
    ) -> None:
        self.folder, self.packs = folder, packs
        self.dtype = np.dtype(dtype).newbyteorder("<")
        codecs: list[dict[str, Any]] = [
            {"name": "bytes", "configuration": {"endian": "little"}}
        ]
        if packs:
            codecs.append({"name": "gzip", "configuration": {"level": 1}})
        describe(
            folder,
            {
                "node_type": "array",
                "shape": list(shape),
                "data_type": KINDS[np.dtype(dtype).str[1:]],
                "chunk_grid": {"name": "regular", "configuration": {"chunk_shape": list(chunk)}},
                "chunk_key_encoding": {"name": "default", "configuration": {"separator": "/"}},
                "fill_value": 0,
                "codecs": codecs,
                "attributes": {},
            },
        )

    def put(self, key: tuple[int, ...], array: Array) -> None:
        """Writes a chunk."""
        path = os.path.join(self.folder, "c", *map(str, key))
        os.makedirs(os.path.dirname(path), exist_ok=True)
        data = np.ascontiguousarray(array, self.dtype).tobytes()
        with open(path, "wb") as file:
            file.write(gzip.compress(data, 1, mtime=0) if self.packs else data)


class Found:
    """An array that was written, by its description."""

    def __init__(self, folder: str) -> None:
        with open(os.path.join(folder, "zarr.json"), encoding="utf-8") as file:
            self.said = json.load(file)
        self.folder, self.shape = folder, tuple(self.said["shape"])
        self.chunk = tuple(self.said["chunk_grid"]["configuration"]["chunk_shape"])
        self.dtype = np.dtype(self.said["data_type"]).newbyteorder("<")

    def get(self, key: tuple[int, ...]) -> Array:
        """A chunk."""
        with open(os.path.join(self.folder, "c", *map(str, key)), "rb") as file:
            data = file.read()
        for codec in reversed(self.said["codecs"]):
            data = gzip.decompress(data) if codec["name"] == "gzip" else data
        return np.frombuffer(data, self.dtype).reshape(self.chunk)

    def whole(self) -> Array:
        """All of it, where chunks divide its sides."""
        out = np.empty(self.shape, self.dtype)
        grid = [range(-(-side // by)) for side, by in zip(self.shape, self.chunk)]
        for key in itertools.product(*grid):
            at = tuple(slice(n * by, (n + 1) * by) for n, by in zip(key, self.chunk))
            out[at] = self.get(key)
        return out
