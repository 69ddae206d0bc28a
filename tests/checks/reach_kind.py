"""How tools/check runs the check `reach`, and what is wrong that this has to find."""
from kinds import Kind, Wrong

KIND = Kind(
    "reach_check",
    [],
    [],
    [],
    "what no program reaches stands in a list, with the reason",
    [
        Wrong(
            "a function or a line that the list must not have, a wrong way each time",
            words=["--wrong"],
            says="6 of 6 wrong forms are found",
            status=0,
        )
    ],
)
