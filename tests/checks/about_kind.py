"""How tools/check runs the check `about`, and what is wrong that this has to find."""
import shutil

from kinds import Kind, Wrong

KIND = Kind(
    "about_check",
    [],
    [],
    [],
    "each tool answers --help, -h and --version",
    [
        Wrong(
            "a tool that knows no words",
            given={"ABOUT_LACKS": lambda folder: shutil.copy("/bin/true", folder / "silent")},
            says="silent: ",
        )
    ],
)
