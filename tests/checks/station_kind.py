"""How tools/check runs the check `station`, and what is wrong that this has to find."""
from kinds import Kind, Wrong

KIND = Kind(
    "station_check",
    [],
    ["20"],
    ["LOOP_STATION"],
    "films two cameras for a minute, and compares what was kept across a kill (ffmpeg)",
    [
        Wrong(
            "a byte of a kept frame is another",
            words=["--spoil", "24"],
            says="isn't the source's",
            status=0,
        ),
        Wrong(
            "the frames of another camera",
            words=["--other", "24"],
            says="isn't the source's",
            status=0,
        ),
    ],
)
