"""A station in strange hands: whatever its page says of a file, this page's own type and a policy
under which nothing runs stand before it, and of its pictures the pixels alone are given on."""
import asyncio
import io

import pytest
from lapyrei.answers import Unusable
from neighbour import Neighbour
from PIL import Image
from station_page import limits
from station_page.redrawn import Redrawn, redraw
from test_line import jpeg_of
from test_stations import LEFT, names_of, settings_of, station_of

SCRIPT = b"<script>fetch('/api/keep', {method: 'POST'})</script>"
CLIPS, CAMERAS = "/api/clips/left/0", "/api/cameras/left"
# What each file is here, whatever is said of it there.
TYPES = {
    f"{CLIPS}.csv": "text/csv",
    f"{CLIPS}.y4m": "video/x-yuv4mpeg2",
    f"{CLIPS}.zip": "application/zip",
    f"{CLIPS}.mp4": "video/mp4",
}


@pytest.fixture(scope="module")
def strange(tmp_path_factory):
    """A page that shows a station in strange hands, and that station."""
    from conftest import Laboratory

    odd = Neighbour()
    hub = Laboratory(tmp_path_factory.mktemp("strange"), [LEFT])
    try:
        settings_of(hub.folder, ("odd", odd.port))
        hub.start_station().start_page("--settings", "page.toml")
        hub.until(lambda: "odd:left" in names_of(hub), "camera")
        yield hub, odd
    finally:
        hub.close()
        odd.close()


def is_harmless(answer):
    """Whether a browser takes an answer for nothing but what its type says, and runs nothing."""
    policy = answer.headers["Content-Security-Policy"].split("; ")
    return (
        answer.headers["X-Content-Type-Options"] == "nosniff"
        and {"sandbox", "default-src 'none'"} <= set(policy)
        and len(answer.headers.get_all("Content-Type")) == 1
    )


def test_of_a_picture_pixels_alone_are_given_on():
    found = redraw(jpeg_of(comment=SCRIPT) + SCRIPT)
    assert SCRIPT not in found and found[:2] == b"\xff\xd8"


def test_a_file_has_this_pages_own_type_and_name(strange):
    hub, odd = strange
    for path, kind in TYPES.items():
        # A browser takes the last of these types, and a reader of headers the first.
        for said in (kind, f"{kind};,text/html", f"{kind}; charset=utf-7, text/html"):
            odd.answers[path] = SCRIPT, 200, said
            answer = hub.ask(path.replace("left", "odd:left"))
            assert (answer.status, answer.headers["Content-Type"]) == (200, kind), said
            assert answer.body == SCRIPT and is_harmless(answer)
            assert answer.headers["Content-Disposition"].startswith('attachment; filename="odd.')
    # A film that is played is no page either.
    answer = hub.ask(f"{CLIPS}.mp4?play=1".replace("left", "odd:left"))
    assert answer.headers["Content-Type"] == "video/mp4" and is_harmless(answer)
    assert "Content-Disposition" not in answer.headers


def test_a_csv_that_is_said_to_be_a_film_is_a_csv(strange):
    hub, odd = strange
    odd.answers[f"{CLIPS}.csv"] = SCRIPT, 200, "video/mp4"
    assert hub.ask("/api/clips/odd:left/0.csv").headers["Content-Type"] == "text/csv"


def test_of_a_picture_the_pixels_alone_are_given_on(strange):
    hub, odd = strange
    evil = jpeg_of(comment=SCRIPT) + SCRIPT
    for path in ("newest.jpg", "frames/5.jpg", "frames/5/picture"):
        odd.answers[f"{CAMERAS}/{path}"] = evil, 200, "image/jpeg;,text/html"
        answer = hub.ask(f"/api/cameras/odd:left/{path}")
        assert answer.status == 200 and answer.headers["Content-Type"] == "image/jpeg"
        assert b"script" not in answer.body and is_harmless(answer)
        assert Image.open(io.BytesIO(answer.body)).size == (64, 48)
        odd.answers[f"{CAMERAS}/{path}"] = SCRIPT, 200, "image/jpeg"
        refused = hub.ask(f"/api/cameras/odd:left/{path}")
        assert refused.status == 502 and "isn't a picture" in refused.json()["error"]
    hub.until(lambda: "isn't a picture" in station_of(hub, "odd")["text"], "word of it")


def test_what_it_says_in_json_is_no_page(strange):
    hub, odd = strange
    odd.answers[f"{CAMERAS}/frame"] = {"number": 1, "text": SCRIPT.decode()}
    answer = hub.ask("/api/cameras/odd:left/frame?time=5")
    assert answer.headers["Content-Type"].startswith("application/json") and is_harmless(answer)
    odd.answers[f"{CAMERAS}/frame"] = {"error": "no"}, 599, "application/json"
    assert hub.ask("/api/cameras/odd:left/frame?time=5").status == 502


def test_this_pages_own_answers_have_the_pages_policy(strange):
    hub, _ = strange
    policy = hub.ask("/").headers["Content-Security-Policy"]
    assert "script-src 'self'" in policy and "sandbox" not in policy


# ------------------------------------------------------------------------------- pictures made anew


def test_a_picture_that_is_made_anew_looks_the_same():
    for mode in ("L", "RGB"):
        plain = jpeg_of(mode)
        one, other = (
            Image.open(io.BytesIO(it)).convert("RGB").getdata() for it in (plain, redraw(plain))
        )
        assert max(abs(a - b) for p, q in zip(one, other) for a, b in zip(p, q)) < 24, mode


@pytest.mark.parametrize(
    "data",
    [
        b"",
        SCRIPT,
        b"\xff\xd8" + SCRIPT,
        jpeg_of()[:200],
        jpeg_of("CMYK"),
        b"GIF89a" + bytes(100),
    ],
    ids=range(6),
)
def test_what_is_no_picture_is_refused(data):
    with pytest.raises(Unusable):
        redraw(data)


def test_a_picture_of_another_kind_is_refused():
    for kind in ("PNG", "GIF", "BMP", "TIFF", "PPM"):
        out = io.BytesIO()
        Image.new("RGB", (8, 8)).save(out, kind)
        with pytest.raises(Unusable):
            redraw(out.getvalue())


def test_a_picture_that_is_too_large_is_refused_before_it_is_decoded(monkeypatch):
    monkeypatch.setattr(limits, "PIXELS", 64 * 48 - 1)
    monkeypatch.setattr(Image.Image, "tobytes", None)
    with pytest.raises(Unusable, match="64x48"):
        redraw(jpeg_of())


def test_pages_that_look_at_the_same_time_cost_one_picture_made_anew(monkeypatch):
    from station_page import redrawn

    made, plain = [], redrawn.redraw
    monkeypatch.setattr(redrawn, "redraw", lambda data: made.append(1) or plain(data))
    monkeypatch.setattr(limits, "PICTURE_BYTES", 3000)

    async def look():
        one = Redrawn()
        same = jpeg_of()
        found = await asyncio.gather(*(one.picture(same) for _ in range(5)))
        assert len(made) == 1 and len(set(found)) == 1
        for size in range(20, 60):
            await one.picture(jpeg_of(size=(size, size)))
        assert one.bytes == sum(map(len, one.made.values())) <= 3000
        monkeypatch.setattr(limits, "PICTURE_MOST", 100)
        with pytest.raises(Unusable, match="more than 100 bytes"):
            await one.picture(same)

    asyncio.run(look())
