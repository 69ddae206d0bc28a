"""How tools/check runs the check `lines`, and what is wrong that this has to find."""
from kinds import Kind, Wrong

KIND = Kind(
    "lines_check",
    [],
    None,
    ["LOOP_STATION"],
    "gives the station a million random lines of frames, and compares the times it reads",
    [
        Wrong(
            "a reader that takes the last time of a line",
            words=["--last", "2000"],
            says="has the time",
        ),
        Wrong(
            "a reader that takes numbers of 2^64 and more",
            words=["--cut", "2000"],
            says="has the time",
        ),
    ],
)
