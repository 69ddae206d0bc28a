"""How tools/check runs the check `start`, and what is wrong that this has to find."""
from kinds import Kind, Wrong

KIND = Kind(
    "start_check",
    [],
    ["--quick"],
    ["LOOP_CLI", "LOOP_STATION"],
    "refuses threads, fails disks, kills a station that makes its store",
    [
        Wrong(
            "a system that refuses no thread",
            {"LOOP_CLI": 'unsetenv("LOOP_THREADS");'},
            says="thread 0 is refused, and the answer is",
        )
    ],
)
