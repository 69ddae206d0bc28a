"""store_picture draws what a store holds: each block with its time, as a ring and as a strip."""
import pytest


@pytest.fixture
def judged(tool, tmp_path, monkeypatch):
    """What is wrong with the pictures of a small store, drawn by a store_picture."""
    check = tool("tests/checks/store_picture_check")
    monkeypatch.setattr(check, "SIZES", [(8, 4)])
    monkeypatch.setenv("TZ", "UTC0")
    check.time.tzset()
    info = tool("tests/checks/store_info_check").load_info()
    return lambda picture: check.first_wrong(check, picture, info, str(tmp_path))


def test_each_block_is_named_with_its_time(tool, judged):
    assert judged(tool("tools/store_picture")) is None


def test_a_picture_without_times_is_wrong(tool, judged, monkeypatch):
    picture = tool("tools/store_picture")
    monkeypatch.setattr(picture, "short_span", lambda first, last, info: "")
    assert judged(picture) is not None
