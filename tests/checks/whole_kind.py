"""How tools/check runs tests/simulate, and what is wrong that this has to find."""
from kinds import Kind, Wrong

KIND = Kind(
    "../simulate",
    ["--minutes", "5"],
    ["--minutes", "0.5"],
    [],
    "runs the whole station by seeds, in a world and a time of its own, and judges what it told",
    [
        Wrong(
            "lives that tell or hold something else, one by one",
            words=["--wrong", "--seed", "0"],
            says=r"(\d+) of \1 forms are found",
            status=0,
        )
    ],
)
