"""How tools/check runs the check `edge`, and what is wrong that this has to find."""
from kinds import Kind, Wrong

KIND = Kind(
    "edge_check",
    [],
    ["still", "gone"],
    ["LOOP_STATION"],
    (
        "gives the station readers that stand still or go away, pipes with several writers, and"
        " files that take no more"
    ),
    [
        Wrong(
            "a station whose lines go nowhere",
            {"LOOP_STATION": 'dup2(open("/dev/null", O_WRONLY), 1);'},
            words=["still"],
            says="no word of the lines that were dropped",
        )
    ],
)
