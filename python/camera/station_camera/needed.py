"""What only some cameras need, looked for when one of them is there. Where it is missing, that is
said in one sentence."""
from __future__ import annotations

from typing import Any

from .faults import Failed

OF_GENICAM = "python3-gi gir1.2-aravis-0.8 python3-numpy"


def genicam() -> Any:
    """The module of GenICam's cameras."""
    try:
        from . import genicam as found
    except (ImportError, ValueError):
        # gi says ValueError where Aravis is missing.
        raise Failed(
            "GenICam cameras (USB3 Vision, GigE Vision) need some packages: sudo apt install "
            + OF_GENICAM
        ) from None
    return found


def numpy() -> Any:
    """Numpy, for samples that are packed, or are made into others."""
    try:
        import numpy as found
    except ImportError:
        raise Failed("these samples need a package: sudo apt install python3-numpy") from None
    return found
