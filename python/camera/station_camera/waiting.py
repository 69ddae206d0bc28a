"""What the network may let wait of a camera's frames."""
from __future__ import annotations

# A socket has room for so many frames, and for so many bytes at least and at most.
FRAMES, LEAST, MOST = 4, 4_000_000, 32_000_000


def socket_bytes(payload: int) -> int:
    """The room that a socket is to have, for frames of so many bytes."""
    return max(LEAST, min(MOST, FRAMES * payload))
