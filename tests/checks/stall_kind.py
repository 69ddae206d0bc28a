"""How tools/check runs the check `stall`, and what is wrong that this has to find."""
from kinds import Kind, Wrong

# A station whose cameras have memory for two frames alone.
TWO_FRAMES = """#!/usr/bin/env python3
import os
text = open("station.toml").read()
if "memory" not in text:
    open("station.toml", "w").write(text.replace("[[camera]]", "[[camera]]\\nmemory = 1"))
os.execv({real!r}, [{real!r}, "station.toml"])
"""

KIND = Kind(
    "stall_check",
    [],
    ["--quick"],
    ["LOOP_STATION"],
    (
        "films four cameras for five minutes on a disk that stalls, and looks for frames that"
        " were lost"
    ),
    [
        Wrong(
            "cameras with memory for two frames",
            {"LOOP_STATION": TWO_FRAMES},
            words=["--quick"],
            says="dropped at the pipe|was there before the order",
        )
    ],
)
