"""How tools/check runs the check `simulate`, and what is wrong that this has to find."""
from kinds import Kind, Wrong

KIND = Kind(
    "simulate_check",
    [],
    ["--seeds", "5"],
    ["TEST_STATION"],
    "runs the station's decisions by seeds, without a clock, and judges each",
    [
        Wrong(
            "faults of the core, one by one",
            words=["--faults"],
            says=r"(\d+) of \1 faults are found",
            status=0,
        )
    ],
)
