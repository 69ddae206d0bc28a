"""liblapyrei.so.1, for Python, of a static library of crates/lapyrei."""
import os
import subprocess
from pathlib import Path

BUILD = Path(__file__).resolve().parent.parent / "c/build.sh"


def made(archive, folder):
    """The path of the shared library that is made of a static one, in a folder. The static one may
    be without a proof."""
    env = dict(os.environ, LAPYREI_A=str(archive), OUT=str(folder))
    subprocess.run(["sh", str(BUILD)], env=env, check=True, stdout=subprocess.DEVNULL)
    return str(Path(folder, "liblapyrei.so.1"))
