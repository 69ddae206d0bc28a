"""How tools/check runs the check `clock`, and what is wrong that this has to find."""
from kinds import Kind, Wrong

# A station that takes each camera's times from their arrival.
BY_ARRIVAL = """#!/usr/bin/env python3
import os
text = open("station.toml").read()
open("station.toml", "w").write(text.replace('times_from = "source"', 'times_from = "arrival"'))
os.execv({real!r}, [{real!r}, "station.toml"])
"""

KIND = Kind(
    "clock_check",
    [],
    [],
    ["LOOP_STATION"],
    "films cameras whose clocks are wrong, step, and are set back between two runs",
    [
        Wrong(
            "a station that doesn't heed the cameras' clocks",
            {"LOOP_STATION": BY_ARRIVAL},
            says="the status says nothing of its clock",
        )
    ],
)
