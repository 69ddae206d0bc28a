"""How tools/check runs the check `hours`, and what is wrong that this has to find."""
from kinds import Kind, Wrong

KIND = Kind(
    "hours_check",
    [],
    None,
    ["LOOP_CLI", "LOOP_STATION"],
    "records a camera into several stores, and compares them with one plain ring",
    [
        Wrong(
            f"a ring with another rule ({rule})",
            words=["--turns", "10", "--rule", rule],
            says="the files lack the blocks",
        )
        for rule in ("newest", "store", "locks")
    ]
    + [
        Wrong(
            "a disk whose syncs do nothing",
            words=["--losses", "300", "--mode", "no_sync"],
            says="after a loss of power",
        ),
    ],
)
