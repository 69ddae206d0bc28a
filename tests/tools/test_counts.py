"""docs/promises.md counts definitions as tools/measure/definitions.py does."""
import re
import subprocess
import sys
from pathlib import Path

import pytest

TOP = Path(__file__).resolve().parents[2]
# What a sentence of the page begins with, and what the tool calls it.
SAID = {
    "**The store** rests on": "the store's public calls and the trait Disk",
    "**A camera** (`film_camera`) rests on": "a camera: film_camera",
    "`CameraKeeps` (": "a camera: film_camera, what a power loss leaves",
    "**The lane** (`lane_run`) rests on": "lane_run",
    "**A recorder** rests, with a camera, on": "a recorder's calls and a camera",
}


@pytest.fixture(scope="module")
def counted():
    """The definitions and lines of each, by the tool's name for it."""
    words = [sys.executable, TOP / "tools/measure/definitions.py"]
    text = subprocess.run(words, cwd=TOP, capture_output=True, text=True, check=True).stdout
    found = re.findall(r"^(.*?): (\d+) definitions, .* (\d+) without$", text, re.M)
    return {name: (int(count), int(lines)) for name, count, lines in found}


@pytest.mark.parametrize("words, name", SAID.items(), ids=SAID.values())
def test_the_page_has_the_numbers_of_the_tool(words, name, counted):
    page = " ".join((TOP / "docs/promises.md").read_text().split())
    number = r"([\d,]+) definitions, ([\d,]+) lines"
    said = re.match(number, page.split(words, 1)[1].strip())
    assert tuple(int(it.replace(",", "")) for it in said.groups()) == counted[name]
