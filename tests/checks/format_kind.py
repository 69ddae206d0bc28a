"""How tools/check runs the check `format`, and what is wrong that this has to find."""
from kinds import Kind, Wrong

KIND = Kind(
    "format_check",
    [],
    ["--quick"],
    ["LOOP_CLI"],
    "formats while each call of the system fails in turn, and within limits of a file's size",
    [
        Wrong(
            "a device on which no call fails",
            {"LOOP_CLI": 'unsetenv("LOOP_FAIL");'},
            words=["--quick"],
            says="runs alone were refused",
        )
    ],
)
