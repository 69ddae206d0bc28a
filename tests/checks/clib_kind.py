"""How tools/check runs the check `clib`, and what is wrong that this has to find."""
from kinds import Kind, Wrong

KIND = Kind(
    "clib_check",
    [],
    ["--quick"],
    ["LAPYREI", "LOOP_CLI"],
    "calls the C library by each of its calls, kills it, fails its disk, and looks at the file",
    [
        Wrong(
            "the library with one wrong thing, 23 times",
            words=["--wrong"],
            says="23 of 23 wrong libraries are found",
            status=0,
        )
    ],
)
