"""What every tool prints of itself: its text after `--help` or `-h`, its version after `--version`.

    import about
    about.answers(__doc__)
"""
import sys
from pathlib import Path


def version():
    """The version of the repository, or of what is installed, where it lies beside this file."""
    here = Path(__file__).resolve().parent
    for place in (here / "VERSION", here.parent / "VERSION"):
        if place.is_file():
            return place.read_text().strip()
    return "unknown"


def answers(text, words=None):
    """Where `--help`, `-h` or `--version` is the only word, prints what was asked for, and ends the
    tool with status 0. Else does nothing. `text` is the tool's docstring, and `words` are its words
    (those of the command line where none are given)."""
    words = sys.argv[1:] if words is None else words
    if words in (["--help"], ["-h"]):
        print(text.strip("\n"))
    elif words == ["--version"]:
        print(Path(sys.argv[0]).name, version())
    else:
        return
    sys.exit(0)
