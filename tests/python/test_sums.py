"""What a page says of a clip's frames (lapyrei.sums), and films and tables that are compared with
it: of each format of source, by checksums that are worked out here."""
import hashlib
import json

import layout
import numpy as np
import pytest
from conftest import FORMATS
from lapyrei import sums, verify
from lapyrei.answers import Unusable
from lapyrei.errors import ExportFault

FRAMES = 3
SOURCES = [(form, bits) for form in FORMATS for bits in (8, 9, 12, 16)]


class Film:
    """Random pictures of a format, as bytes: frames of 6 times 4 samples, numbered from 7 on."""

    def __init__(self, form, bits):
        wide = 6 if bits == 8 else 12
        size = layout.frame_bytes(wide, 4, form)
        self.geometry, self.bits = layout.Geometry(wide, 4, form, 25, 2, 2, 8, size), bits
        random = np.random.default_rng(bits)
        self.data = [random.integers(0, 256, size, np.uint8).tobytes() for _ in range(FRAMES)]
        flags = bits << layout.BITS_AT if bits > 8 else 0
        self.heads = [
            layout.Frame(7 + it, 100 + it, flags, 1_764_182_400_000_000 + 80_000 * it, size)
            for it in range(FRAMES)
        ]

    def shapes(self):
        """The planes, by the formats' own words."""
        item = 1 if self.bits == 8 else 2
        high, wide = 4, self.geometry.width // item
        chroma = {b"GREY": [], b"YM12": [(2, 3)], b"YM16": [(4, 3)], b"YM24": [(4, 6)]}
        return item, [(high, wide), *chroma[self.geometry.format] * 2]

    def lines(self):
        """What is said of them."""
        item, shapes = self.shapes()
        it = self.geometry
        said = {"format": it.format.decode(), "width": it.width, "height": 4, "rate": [25, 2]}
        found = [json.dumps(said | {"bits": self.bits}) + "\n"]
        for head, data in zip(self.heads, self.data):
            sums_, at = [], 0
            for high, wide in shapes:
                plane = data[at : at + high * wide * item]
                kind = repr(((high, wide), "|u1" if item == 1 else "<u2")).encode()
                sums_.append(hashlib.blake2b(kind + plane, digest_size=16).hexdigest())
                at += len(plane)
            found.append(f"{head.number},{head.time},{head.sequence},{','.join(sums_)}\n")
        return "".join(found).encode()

    def text(self):
        """The film."""
        frames = b"".join(b"FRAME\n" + it for it in self.data)
        return layout.text_front(self.geometry, self.bits) + frames

    def table(self):
        """The table, as the page has it."""
        rows = [
            f"{7 + it},{1_764_182_400_000_000 + 80_000 * it},"
            f"2025-11-26T18:40:00.{80_000 * it:06}Z,{100 + it}"
            for it in range(FRAMES)
        ]
        return ("\r\n".join(["number,time_us,time,sequence", *rows]) + "\r\n").encode()


def said_of(path, raw):
    """What a text says."""
    path.write_bytes(raw)
    return sums.said_in(str(path))


@pytest.mark.parametrize("form, bits", SOURCES)
def test_what_is_said_of_frames_is_their_checksums(form, bits):
    film = Film(form, bits)
    _, shapes = film.shapes()
    planes = sums.form_of(film.geometry, bits)
    assert list(planes.planes) == shapes
    rows = [sums.row_of(head, planes, it) for head, it in zip(film.heads, film.data)]
    assert sums.front_of(film.geometry, bits) + b"".join(rows) == film.lines()
    assert [sums.row_bytes(head, planes) for head in film.heads] == [len(it) for it in rows]


@pytest.mark.parametrize("form, bits", SOURCES)
def test_films_and_tables_are_compared_with_what_is_said(tmp_path, form, bits):
    film, path = Film(form, bits), tmp_path / "a"
    said = said_of(tmp_path / "a.sums", film.lines())
    assert said.has(7, 9) and not said.has(7, 8) and not said.has(6, 9) and not said.has(7, 2**62)
    for kind, whole in (("y4m", film.text()), ("csv", film.table())):
        path.write_bytes(whole)
        verify.verify_text(kind, said, str(path))
        # A byte of the header, of a line and of each plane at least.
        for at in range(0, len(whole), 7):
            path.write_bytes(whole[:at] + bytes([whole[at] ^ 1]) + whole[at + 1 :])
            with pytest.raises(ExportFault, match="read back"):
                verify.verify_text(kind, said, str(path))
        for other in (whole[:-1], whole + b"x", b"", whole + whole[len(whole) // 2 :]):
            path.write_bytes(other)
            with pytest.raises(ExportFault, match="read back"):
                verify.verify_text(kind, said, str(path))


def test_a_clock_that_is_not_of_the_day_has_times_too(tmp_path):
    lines = Film(b"GREY", 8).lines().replace(b",1764182400000000,", b",5,")
    lines = lines.replace(b",1764182400080000,", b",999999999999999999,")
    said = said_of(tmp_path / "a.sums", lines)
    rows = said.table().splitlines()
    assert rows[1] == "7,5,1970-01-01T00:00:00.000005Z,100"
    assert rows[2] == "8,999999999999999999,999999999999999999,101"


@pytest.mark.parametrize(
    "old, new, why",
    [
        (b"{", b"[", "isn't JSON"), (b'"GREY"', b'"RGB3"', "format isn't one of"),
        (b'"width": 6, ', b"", "width is missing"), (b'"bits": 8', b'"bits": 17', "bits isn't"),
        (b'"width": 6', b'"width": 0', "width isn't"), (b"[25, 2]", b"[0, 2]", r"rate\[0\] isn't"),
        (b"[25, 2]", b"[25]", "rate"), (b'"bits": 8', b'"bits": 8.0', "bits isn't"),
        (b'6, "height": 4,', b'16384, "height": 16384,', "a picture that no store"),
        (b'6, "height": 4, "rate": [25, 2], "bits": 8',
         b'7, "height": 4, "rate": [25, 2], "bits": 12', "no such samples"),
        (b"\n8,", b"\nx,", "a line that"), (b"\n8,", b"\n-8,", "a line that"),
        (b"\n8,", b"\n" + b"8" * 20 + b",", "a line that"), (b"100,", b"100,a", "a line that"),
        (b",100,", b",", "a line that"), (b"\n9,", b"\n\n9,", "a line that"),
    ],
)
def test_what_is_no_such_text_is_told_by_name(tmp_path, old, new, why):
    whole = Film(b"GREY", 8).lines()
    assert old in whole
    with pytest.raises(Unusable, match=why):
        said_of(tmp_path / "a.sums", whole.replace(old, new, 1))


def test_lines_have_a_bound(tmp_path):
    whole = Film(b"GREY", 8).lines()
    with pytest.raises(Unusable):
        said_of(tmp_path / "a.sums", b" " * 20_000_000 + whole)
    with pytest.raises(Unusable, match="a line that"):
        said_of(tmp_path / "a.sums", whole + b"1" * 20_000_000)
