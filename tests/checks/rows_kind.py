"""How tools/check runs the check `rows`, and what is wrong that this has to find."""
import shutil

from kinds import TOP, Kind, Wrong, changed_copy

# A program that changes the store of a lock that it has refused.
CHANGES = """if (words[1] && words[2] && !strcmp(words[1], "lock")) {
        int status;
        if (!fork()) execv(REAL, words);
        wait(&status);
        if (write(open(words[2], O_WRONLY | O_APPEND), "x", 1) != 1) return 9;
        return WEXITSTATUS(status);
    }"""
# A station without its events.
NO_EVENTS = """#!/bin/sh
printf '%s\\n' 'events = false' >other.toml
cat "$1" >>other.toml
exec {real} other.toml
"""


def changed_rows(name, old=None, new=None):
    """A copy of the rows, in which a file is changed or is missing: its maker, from a folder."""

    def make(folder):
        shutil.copytree(TOP / "tests/rows", folder / "rows")
        if old is None:
            (folder / "rows" / name).unlink()
        else:
            changed = changed_copy(f"tests/rows/{name}", old, new)(folder)
            shutil.move(changed, folder / "rows" / name)
        return str(folder / "rows")

    return make


KIND = Kind(
    "rows_check",
    [],
    [],
    ["LOOP_CLI", "LOOP_STATION", "TEST_LANE_CASES"],
    "runs the rows of tests/rows/RULE.rows; `--where NAME` says what is known of a name",
    [
        Wrong(
            "a name without a rule",
            given={"ROWS": changed_rows("AllLocked.rows")},
            words=["Clip"],
            says="AllLocked has no tests/rows/AllLocked.rows",
        ),
        Wrong(
            "a line of the station without a row",
            given={"ROWS": changed_rows("NoAnswers.rows")},
            words=["Clip"],
            says="no answers PATH.*comes about in no row",
        ),
        Wrong(
            "a row of another answer",
            given={"ROWS": changed_rows("Busy.rows", "cannot open used.img", "cannot open it")},
            words=["Busy"],
            says="Busy.rows.*: loop_cli list used.img",
        ),
        Wrong(
            "a program that changes a file, and refuses",
            {"LOOP_CLI": CHANGES},
            words=["ClipEmpty"],
            says="is refused, and has changed a file",
        ),
        Wrong(
            "a station without events",
            {"LOOP_STATION": NO_EVENTS},
            words=["TooFewBytes"],
            says="no 'store one absent TooFewBytes'",
        ),
    ],
)
