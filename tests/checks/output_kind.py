"""How tools/check runs the check `output`, and what is wrong that this has to find."""
from kinds import Kind, Wrong

SILENT = 'dup2(open("/dev/null", O_WRONLY), 2);'
WAITING = 'if (count == 1 && !isatty(0)) write(2, "it waits\\n", 9);'

KIND = Kind(
    "output_check",
    [],
    [],
    ["LOOP_CLI"],
    "exports through the own output, pipes and devices; records from sources unlike the store",
    [
        Wrong(
            "a program that tells nothing on its error output",
            {"LOOP_CLI": SILENT},
            says="another answer",
        ),
        Wrong(
            "a program that waits on a terminal without a word",
            {"LOOP_CLI": f"if (count == 1) {SILENT}"},
            says="without words, on a terminal: b''",
        ),
        Wrong(
            "a program that says what it waits for on any input",
            {"LOOP_CLI": WAITING},
            says="without words, without a terminal",
        ),
    ],
)
