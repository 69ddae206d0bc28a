"""How tools/check runs the check `queue`, and what is wrong that this has to find."""
from kinds import Kind, Wrong

# A queue that gives each buffer back as the wrong one.
OTHER_ERRNO = """execl("/bin/sh", "sh", "-c", REAL " lists | sed s/:22:/:16:/", NULL);"""

KIND = Kind(
    "queue_model.py",
    ["all"],
    ["random", "300", "1"],
    ["TEST_LANE_CASES"],
    "the buffer queue does what the rules in Python say, list by list",
    [
        Wrong(
            "a queue with other errnos",
            {"TEST_LANE_CASES": OTHER_ERRNO},
            words=["random", "20", "1"],
            says="rules ",
        )
    ],
)
