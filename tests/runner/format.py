#!/usr/bin/env python3
"""Formats the tests: `rt fmt` reads no file whose name ends in .rs.

    tests/runner/format.py [--check] [FILE..]    all files of tests/rust, or these. With --check
                                                 nothing is written, and the status says whether
                                                 each is as it would be
"""
import subprocess
import sys
from pathlib import Path

sys.path.insert(1, str(Path(__file__).resolve().parents[2] / "tools"))
import about
import unproved


def formatted(paths):
    """The texts of files as the kit formats them."""
    with unproved.room() as room:
        copies = [room / f"{at}.rt" for at, _ in enumerate(paths)]
        for path, copy in zip(paths, copies):
            copy.write_text(path.read_text())
        words = [unproved.KIT / "bin/rattle", "fmt", "--write", *copies]
        done = subprocess.run(words, capture_output=True, text=True)
        if done.returncode:
            sys.exit(f"rattle fmt: {done.stdout}{done.stderr}")
        return [copy.read_text() for copy in copies]


def main():
    about.answers(__doc__)
    words = [it for it in sys.argv[1:] if it != "--check"]
    paths = [Path(it) for it in words] or sorted(unproved.RUST.rglob("*.rs"))
    others = [(path, text) for path, text in zip(paths, formatted(paths))
              if text != path.read_text()]
    for path, text in others:
        print(path)
        if "--check" not in sys.argv:
            path.write_text(text)
    return int("--check" in sys.argv and bool(others))


if __name__ == "__main__":
    sys.exit(main())
