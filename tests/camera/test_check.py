"""loop_setup --check: each thing that may be wrong with a camera is told with the command that
mends it, and nothing is told of one that is well."""
import os
import time
from fractions import Fraction
from types import SimpleNamespace

import pytest
from test_setup import laboratory  # noqa: F401

from lapyrei import layout
from station_camera import check, disk, needed, orders, services, setup, stands
from station_camera.faults import Failed

STATION = """orders = "ROOT/run/loop_station/orders"
saves = "ROOT/var/lib/loop_station/clips"
[[camera]]
name = "left"
source = "ROOT/run/loop_camera/left.y4m"
store = "left.loop"
minutes = 2
keep = 30
save_to = "ROOT/var/lib/loop_station/clips"
release = true
"""


def store_of(rate=25.0, ago=0.1, version=2, bits=8, count=100, segments=48, last=None, lost=0):
    """A store of 64x48 in grey for two minutes, whose newest frames came so often; so many were
    lost before the last one."""
    wide = 64 * (1 if bits == 8 else 2)
    it = layout.Geometry(wide, 48, b"GREY", 25, 1, segments, 64, wide * 48)
    newest = time.time() - ago if last is None else last
    frames = [
        layout.Frame(number, number + lost * (number == count - 1), bits << 24 if bits > 8 else 0,
                     int((newest - (count - 1 - number) / rate) * 1e6), it.size)
        for number in range(count)
    ]
    return SimpleNamespace(geometry=it, version=version, frames=frames, next=count)


PROTOCOL_OF = check.protocol_of


class Bench:
    """A set-up in which all is well, and what --check prints of it."""

    def __init__(self, lab, monkeypatch, capsys):
        self.lab, self.patch, self.capsys = lab, monkeypatch, capsys
        self.etc, self.lib = lab.etc, lab.root / "var/lib/loop_station"
        self.etc.mkdir(parents=True)
        (self.lib / "clips").mkdir(parents=True)
        (self.etc / "station.toml").write_text(STATION.replace("ROOT", str(lab.root)))
        (self.etc / "left.camera").write_text("GENICAM=Fake_1\nRATE=25\n")
        lab.runs |= {"loop_station.service", "loop_camera@left.service"}
        self.sets(store=store_of(), synced=True, protocol="Fake", member=True, said={})
        monkeypatch.setenv("SUDO_USER", "anna")
        monkeypatch.setattr(disk, "measured", lambda _: disk.Disk(1e9, 1.0, 1.0, 10**12))

    def sets(self, **words):
        """What the machine answers."""
        for name, value in words.items():
            place, word = {
                "store": (services, "store_at"), "synced": (check, "is_synced"),
                "protocol": (check, "protocol_of"), "member": (orders, "is_member"),
                "room": (check, "number_in"), "said": (stands, "status"),
            }[name]
            self.patch.setattr(place, word, lambda *_, value=value: value)

    def says(self):
        """What it prints, and its status."""
        status = self.lab.run("--check")
        return status, self.capsys.readouterr().out.splitlines()

    def finds(self, name, what, mend):
        """It tells this one thing, with this command."""
        status, lines = self.says()
        assert status == 1 and len(lines) == (2 if name == "station" else 1), lines
        assert lines[0].startswith(f"{name}: ") and what in lines[0], lines
        assert lines[0].endswith(f": {mend.replace('ROOT', str(self.lab.root))}"), lines


@pytest.fixture
def bench(laboratory, monkeypatch, capsys):  # noqa: F811
    return Bench(laboratory, monkeypatch, capsys)


def test_what_is_well_is_said_so(bench):
    assert bench.says() == (0, ["left: well, 25 frames a second"])


def test_a_user_without_the_group_gets_the_command(bench):
    bench.sets(member=False)
    bench.finds("station", "anna may give no orders", "sudo usermod -aG loop_station anna")


def test_a_clock_that_nobody_sets_is_told(bench):
    bench.sets(synced=False)
    bench.finds("station", "the clock isn't set", "sudo apt install chrony")


def test_services_that_do_not_run_are_told(bench):
    bench.lab.runs.discard("loop_camera@left.service")
    bench.finds("left", "its service doesn't", "sudo systemctl enable --now loop_camera@left")
    bench.lab.runs.clear()
    assert bench.says()[1][0] == (
        "station: it doesn't run: sudo systemctl enable --now loop_station")


@pytest.mark.parametrize(
    "protocol, room, says",
    [
        ("GigEVision", 212992, "sudo sysctl net.core.rmem_max=33554432"),
        ("GigEVision", 33554432, None),
        ("GigEVision", 4_194_304, None),
        ("USB3Vision", 16, f"echo 1000 | sudo tee {check.USBFS}"),
        ("USB3Vision", 1000, None),
        ("GigEVision", None, None),
    ],
)
def test_buffers_that_are_too_small_are_told(bench, protocol, room, says):
    bench.sets(protocol=protocol, room=room)
    if says:
        bench.finds("left", f"{room} ", says)
    else:
        assert bench.says()[0] == 0


def test_a_camera_that_is_not_found_is_told(bench):
    bench.sets(protocol="")
    bench.finds("left", "no camera Fake_1 is found", "loop_setup --list")


def test_packages_that_are_missing_are_told(bench):
    def missing():
        raise Failed("GenICam cameras need some packages: sudo apt install python3-gi")

    bench.patch.setattr(check, "protocol_of", PROTOCOL_OF)
    bench.patch.setattr(needed, "genicam", missing)
    bench.finds("left", "GenICam cameras need some packages", "sudo apt install python3-gi")


@pytest.mark.parametrize("lost, says", [(1, "1 frame was lost"), (13, "13 frames were lost")])
def test_lost_frames_are_told(bench, lost, says):
    bench.sets(store=store_of(lost=lost))
    bench.finds("left", f"{says} between the 100 that its store holds",
                "journalctl -u loop_camera@left -n 20")


LINE = "stored 9 given up 0 waiting 0 behind 0.1 room 3 of 4 keeps 1 faults 0 source on gaps 0 lost"


@pytest.mark.parametrize(
    "ahead, says",
    [("+1.9", "1.9 s ahead of"), ("-3600.0", "3600.0 s behind"), ("+0.9", None), (None, None)])
def test_a_clock_that_is_off_is_told(bench, ahead, says):
    clock = f" clock {ahead} s" if ahead else ""
    bench.sets(said={"left": f"{LINE} 0 estimated 0{clock} full stop"})
    if not says:
        assert bench.says()[0] == 0
        return
    bench.finds("left", f"its clock is {says} the station's",
                "sudo systemctl restart loop_camera@left")
    file = bench.etc / "station.toml"
    file.write_text(file.read_text().replace("loop_camera/left", "another/left"))
    bench.finds("left", says, f"sudoedit {file}")


def test_the_station_is_asked_how_its_cameras_stand(bench):
    """A station that stands in reads the order, and its journal has the answer."""
    pipe, said = bench.lab.root / "orders", []
    os.mkfifo(pipe)
    bench.patch.undo()
    assert stands.status(pipe) == {}
    with open(os.open(pipe, os.O_RDONLY | os.O_NONBLOCK)) as read:

        def journal(_):
            said.extend(read.readlines())
            (order,) = said
            label = order.removesuffix(" status\n")
            return (f"2026-11-22T15:40:31.907Z {label} status left {LINE} 0\n"
                    f"@another status right {LINE} 0\n{label} done\n")

        bench.patch.setattr(stands, "journal", journal)
        assert stands.status(pipe) == {"left": f"{LINE} 0"}


@pytest.mark.parametrize("pixels, is_told", [(1_000_000, False), (1_100_000, True)])
def test_the_networks_buffer_has_to_take_what_loop_camera_takes(bench, pixels, is_told):
    it = store_of()
    it.geometry = it.geometry._replace(width=pixels, height=1, size=pixels)
    bench.sets(protocol="GigEVision", room=4_194_304, store=it)
    what = f"the network's buffer has 4194304 bytes, of {4 * pixels}"
    said = "\n".join(bench.says()[1])
    assert (f"left: {what}: sudo sysctl net.core.rmem_max=33554432" in said) == is_told, said


@pytest.mark.parametrize(
    "rate, is_well", [(24.9, True), (23.9, True), (23.0, False), (12.5, False)])
def test_a_rate_below_what_was_asked_is_told(bench, rate, is_well):
    bench.sets(store=store_of(rate))
    if is_well:
        assert bench.says()[0] == 0
    else:
        mend = f"sudo loop_setup --camera left --rate {rate:.3g}"
        bench.finds("left", f"{rate:.3g} frames a second come, and 25 were asked for", mend)


def test_a_camera_that_is_silent_is_told(bench):
    bench.sets(store=store_of(ago=60))
    bench.finds("left", "no frame came for 60 s", "journalctl -u loop_camera@left -n 20")
    bench.sets(store=store_of(count=0))
    bench.finds("left", "no frame was stored yet", "journalctl -u loop_camera@left -n 20")
    # Times of another clock say nothing of how long ago.
    bench.sets(store=store_of(last=1000.0))
    assert bench.says()[0] == 0


def test_a_disk_that_is_too_slow_is_told(bench):
    bench.patch.setattr(disk, "measured", lambda _: disk.Disk(100_000, 1.0, 1.0, 10**12))
    mend = "sudo loop_setup --camera left --rate 12.5"
    bench.finds("station", "the disk writes 0 MB a second", mend)


def test_a_folder_without_room_for_a_keep_is_told(bench):
    clips = bench.lib / "clips"
    for at, name in enumerate(("b.y4m", "a.y4m")):
        (clips / name).write_text("x")
        os.utime(clips / name, (at, at))
    free = SimpleNamespace(free=1_000_000)
    bench.patch.setattr(check.shutil, "disk_usage", lambda _: free)
    bench.finds("station", "has no room for a keep: 1.0 MB are free, and one takes 2.3 MB",
                "sudo mv ROOT/var/lib/loop_station/clips/b.y4m /another/disk")
    free.free = 3_000_000
    assert bench.says()[0] == 0


def test_a_folder_that_is_missing_is_told(bench):
    (bench.lib / "clips").rmdir()
    bench.finds("station", "isn't there", "sudo install -d -o loop_station -g loop_station "
                "ROOT/var/lib/loop_station/clips")


def test_a_store_of_the_old_layout_is_told(bench):
    bench.sets(store=store_of(version=1))
    path = "ROOT/var/lib/loop_station/left.loop"
    bench.finds("left", "has the old layout", "sudo systemctl stop loop_station && sudo -u "
                f"loop_station loop_cli upgrade {path} && sudo systemctl start loop_station")


def test_a_store_that_is_missing_is_told(bench):
    bench.sets(store=None)
    bench.finds("left", "isn't there, or can't be read", "journalctl -u loop_station -n 20")


def test_a_store_that_a_keep_locks_whole_is_told(bench):
    bench.sets(store=store_of(segments=12))
    bench.finds("left", "a keep of 30 s locks all", "sudo loop_setup --camera left --minutes 5")


def test_a_file_that_is_missing_or_wrong_is_told(bench):
    file = bench.etc / "left.camera"
    file.write_text("GENICAM=Fake_1\nRAT=25\n")
    bench.finds("left", "line 2: RAT isn't a word", f"sudoedit {file}")
    file.unlink()
    bench.finds("left", "left.camera isn't there", "sudo loop_setup --camera left")


def test_a_device_that_is_away_or_of_another_group_is_told(bench):
    device = bench.lab.root / "video0"
    (bench.etc / "left.camera").write_text(f"DEVICE={device}\n")
    bench.finds("left", f"{device} isn't there", "loop_setup --list")
    device.touch(0o600)
    mend = f"sudo chgrp video {device} && sudo chmod g+rw {device}"
    bench.finds("left", "is of the group ", mend)


def test_a_station_without_cameras_is_told(bench):
    (bench.etc / "station.toml").write_text("")
    assert bench.says() == (1, [f"{bench.etc}/station.toml has no camera: sudo loop_setup"])


@pytest.mark.parametrize(
    "form, bits, colour", [(b"GREY", 8, "gray"), (b"GREY", 12, "gray12le"), (b"YM12", 8, "yuv420p"),
                           (b"YM16", 10, "yuv422p10le"), (b"YM24", 8, "yuv444p")])
def test_the_frames_of_a_store_are_read_as_they_are(form, bits, colour):
    wide = 16 if bits == 8 else 32
    size = layout.frame_bytes(wide, 6, form)
    it = layout.Geometry(wide, 6, form, 30, 1, 4, 8, size)
    flags = bits << 24 if bits > 8 else 0
    store = SimpleNamespace(geometry=it, frames=[layout.Frame(0, 0, flags, 1, size)])
    found = check.form_of(store)
    assert found == check.Form(16, 6, colour, Fraction(30)) and found.bytes_of_frame() == size
    assert setup.Setup._is_alike(None, store, found)
