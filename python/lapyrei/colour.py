"""Frames in colour as RGB. A frame has luma (Y) and two colour differences (Cb, Cr), which have one
sample for 1, 2 or 4 pixels. Each pixel takes the sample that stands for it, as it is."""
from __future__ import annotations

from typing import Any

import numpy as np
from numpy.typing import NDArray

# The weights of red and blue in luma.
MATRICES = {"bt601": (0.299, 0.114), "bt709": (0.2126, 0.0722), "bt2020": (0.2627, 0.0593)}


def grown(plane: NDArray[Any], shape: tuple[int, int]) -> NDArray[Any]:
    """A plane of the size of a picture: each sample as often as it stands for a pixel. The last
    ones of an odd width or height stand for one row or column."""
    for axis, wanted in enumerate(shape):
        by = -(-wanted // plane.shape[axis])
        if by > 1:
            plane = np.repeat(plane, by, axis=axis)
    return plane[: shape[0], : shape[1]]


def rgb_of(
    planes: tuple[NDArray[Any], ...], bits: int, matrix: str = "bt601", full: bool = False
) -> NDArray[Any]:
    """A picture as red, green and blue.

    `planes` is Y alone (grey, whose values all three take) or Y, Cb and Cr, of samples of `bits`
    bits. `matrix` is the standard that the camera follows: bt601, bt709 or bt2020. In limited range
    (`full` false, what ffmpeg takes unless it is told otherwise) Y of 8 bits goes from 16 to 235
    and the colours from 16 to 240; in full range all go from 0 to 255.

    Returns an array (height, width, 3) of the planes' type, from 0 to `2 ** bits - 1`, rounded to
    the nearest."""
    if matrix not in MATRICES:
        raise ValueError(f"matrix is one of {', '.join(MATRICES)}, not {matrix}")
    luma = planes[0]
    if len(planes) == 1:
        return np.repeat(luma[:, :, np.newaxis], 3, axis=2)
    red, blue = MATRICES[matrix]
    green, top, unit = 1 - red - blue, (1 << bits) - 1, 1 << (bits - 8)
    low, luma_range, colour_range = (0, top, top) if full else (16 * unit, 219 * unit, 224 * unit)
    y = (luma.astype(np.float32) - low) / luma_range
    shape = (luma.shape[0], luma.shape[1])
    cb, cr = (
        (grown(it, shape).astype(np.float32) - (128 * unit)) / colour_range for it in planes[1:]
    )
    r, b = y + 2 * (1 - red) * cr, y + 2 * (1 - blue) * cb
    g = (y - red * r - blue * b) / green
    whole = np.stack([r, g, b], axis=2)
    rounded: NDArray[Any] = np.clip(np.rint(whole * top), 0, top).astype(luma.dtype)
    return rounded
