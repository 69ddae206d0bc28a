"""How tools/check runs the check `kill`, and what is wrong that this has to find."""
from kinds import NO_SYNC, Kind, Wrong

KIND = Kind(
    "kill_check",
    [],
    ["100", "20"],
    ["LOOP_CLI", "BENCH_PROGRAMS"],
    "kills recorders, takes their power away, spoils files",
    [
        Wrong(
            "a device that doesn't sync",
            {"LOOP_CLI": NO_SYNC, "BENCH_PROGRAMS": NO_SYNC},
            words=["30", "2"],
            says="reads as|isn't there|is refused",
        )
    ],
)
