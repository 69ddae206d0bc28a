"""What holds of all files that are kept."""
import os
import re
from pathlib import Path

TOP = Path(__file__).resolve().parents[2]
MADE = {".git", "out", "__pycache__"}
MARK = re.compile(rb"^(<{7}|>{7}) ", re.M)


def kept_files():
    """The files of the repository, without what is made."""
    for at, folders, names in os.walk(TOP):
        folders[:] = [it for it in folders if it not in MADE]
        for name in names:
            path = Path(at, name)
            if path.is_file():
                yield path


def test_no_file_has_marks_of_an_unfinished_merge():
    marked = [str(it.relative_to(TOP)) for it in kept_files() if MARK.search(it.read_bytes())]
    assert not marked
