"""How tools/check runs the check `lint`, and what is wrong that this has to find."""
from kinds import Kind, Wrong, changed_copy

# What takes the place of a script's first command.
LONG_LINE = "set -eu  " + 100 * "#" + "\n"

KIND = Kind(
    "lint_check",
    [],
    [],
    [],
    "Debian's flake8, mypy and shellcheck have nothing to say",
    [
        Wrong(
            "a tool with an import that nothing uses",
            given={
                "LINT_MORE": changed_copy(
                    "tools/about.py", "import sys\n", "import os\nimport sys\n"
                )
            },
            says="about.py:.*F401",
        ),
        Wrong(
            "a script with words that come apart",
            given={"LINT_MORE": changed_copy("tools/package", '"$0"', "$0")},
            says="SC2086",
        ),
        Wrong(
            "a script with a line of more than 100 columns",
            given={"LINT_MORE": changed_copy("tools/package", "set -eu\n", LONG_LINE)},
            says="package:.* columns",
        ),
    ],
)
