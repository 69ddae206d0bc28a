"""loop_trigger's parts: levels that stay, causes that are gathered, sources, and words."""
import os
import socket
import sys
import threading
import time
import types

import pytest
from conftest import free_port, layout, pty_pair, put, put_all, until
from station_links import journal, levels, senders, settings, sources, triggers

SECOND = 1_000_000


# --------------------------------------------------------------------------------------- levels


def test_a_level_that_stayed_is_seen_once():
    level = levels.Level(100)
    assert level.edge(True, 1000) is None
    assert level.seen(1099) is None
    assert level.seen(1100) == 1000
    assert level.seen(2000) is None
    assert level.edge(False, 2100) is None


def test_a_level_that_stayed_is_seen_though_its_edges_are_read_late():
    level = levels.Level(100)
    assert level.edge(True, 1000) is None
    assert level.edge(False, 1100) == 1000


def test_a_bounce_is_none():
    level = levels.Level(100)
    for moment in range(1000, 2000, 50):
        assert level.edge(moment % 100 == 0, moment) is None
    assert level.seen(10_000) is None


def test_an_edge_that_was_lost_begins_anew():
    level = levels.Level(100)
    assert level.edge(True, 1000) is None
    assert level.edge(True, 1050) is None
    assert level.seen(1149) is None and level.seen(1150) == 1050
    assert level.edge(True, 5000) is None
    assert level.seen(5100) == 5000


def test_a_stay_of_nothing_is_the_edge():
    level = levels.Level(0)
    assert level.edge(True, 1000) == 1000
    assert level.edge(False, 1001) is None


def gathered(**more):
    return levels.Gathered("door", 30 * SECOND, 10 * SECOND, 5 * SECOND, **more)


def test_the_first_cause_keeps_at_once_and_what_rests_is_one():
    it = gathered(camera="left")
    assert it.due(0, 0) is None
    it.add(levels.Cause(1000 * SECOND, "opened"))
    keep = it.due(1001 * SECOND, 50)
    assert (keep.since, keep.until) == (970 * SECOND, 1010 * SECOND)
    assert (keep.id, keep.note, keep.camera) == (f"door-{1001 * SECOND}", "door: opened", "left")
    for second in range(1001, 1005):
        it.add(levels.Cause(second * SECOND, f"opened at {second}"))
        assert it.due(second * SECOND, 51) is None
    keep = it.due(1006 * SECOND, 5 * SECOND + 50)
    assert (keep.since, keep.until) == (971 * SECOND, 1014 * SECOND)
    assert keep.note == "door: 4 times: opened at 1001 .. opened at 1004"
    assert it.due(1100 * SECOND, 10**15) is None


def test_gathered_causes_are_no_endless_keep():
    it = gathered()
    it.add(levels.Cause(1 * SECOND, "x"))
    it.add(levels.Cause(100_000 * SECOND, "x"))
    keep = it.due(100_001 * SECOND, 0)
    assert keep.until == 100_010 * SECOND
    assert keep.until - keep.since == levels.MOST + 40 * SECOND


def test_a_note_is_one_line_that_a_page_takes():
    it = gathered()
    it.add(levels.Cause(1, "a\n\x1b[31m" + "ü" * 500))
    note = it.due(1, 0).note
    assert note.startswith("door: a??[31mü") and len(note.encode()) <= 400


# --------------------------------------------------------------------------------------- sources


class Looking:
    """A source at work in a thread of its own."""

    def __init__(self, kind, **words):
        self.over, self.fired, self.faults = threading.Event(), [], []
        self.source = sources.KINDS[kind](settings.Words(words, "t"))
        self.thread = threading.Thread(target=self.run, daemon=True)
        self.thread.start()

    def run(self):
        """Reads it; a fault ends it."""
        try:
            self.source.run(lambda *it: self.fired.append(it), self.over)
        except sources.Fault as fault:
            self.faults.append(str(fault))

    def texts(self):
        """The words of its causes."""
        return [text for _, text in self.fired]

    def end(self):
        """Ends it."""
        self.over.set()
        self.thread.join(60)


@pytest.fixture
def look():
    """Sources at work."""
    made = []

    def one(kind, **words):
        made.append(Looking(kind, **words))
        return made[-1]

    yield one
    for looking in made:
        looking.end()


def test_a_packet_fires(look):
    port = free_port(socket.SOCK_DGRAM)
    it = look("udp", listen=f"127.0.0.1:{port}", match="fire*", **{"from": ["127.0.0.0/8"]})
    with socket.socket(socket.AF_INET, socket.SOCK_DGRAM) as sender:
        def send(raw, to):
            sender.sendto(raw, ("127.0.0.1", to))

        # Until it listens, packets are lost.
        until(lambda: send(b"fire 1", port) or it.fired, "cause")
        count = len(it.fired)
        for raw in (b"no fire", b"", b"\xff\xfe", b"fire 2 " + b"x" * 200):
            send(raw, port)
        until(lambda: "fire 2" in it.texts()[-1], "cause")
        assert len([text for text in it.texts() if "fire 2" in text]) == 1
        assert all("'fire" in text for text in it.texts()[count:])
    assert it.texts()[0] == "UDP from 127.0.0.1 'fire 1'"


def test_packets_are_taken_from_those_alone_who_may_send_them(look):
    """One who may comes last: what the others sent was looked at by then."""
    port = free_port(socket.SOCK_DGRAM)
    it = look("udp", listen=f"127.0.0.1:{port}", **{"from": ["127.0.0.8", "127.0.1.0/24"]})
    every = look("udp", listen=f"127.0.0.1:{free_port(socket.SOCK_DGRAM)}")

    def send(sender, text, to):
        with socket.socket(socket.AF_INET, socket.SOCK_DGRAM) as one:
            one.bind((sender, 0))
            one.sendto(text.encode(), ("127.0.0.1", to.source.port))

    until(lambda: send("127.0.0.8", "begun", it) or it.fired, "cause")
    until(lambda: send("127.0.0.1", "begun", every) or every.fired, "cause")
    count = len(it.fired)
    for sender in ("127.0.0.1", "127.0.0.9", "127.0.2.1", "127.0.1.200"):
        send(sender, f"by {sender}", it)
    # Of what had to be sent again until they listened some may come after it.
    until(lambda: any("127.0.1.200" in text for text in it.texts()), "cause")
    assert [text for text in it.texts()[count:] if "begun" not in text] == [
        "UDP from 127.0.1.200 'by 127.0.1.200'"
    ]
    send("127.0.0.9", "by anybody", every)
    until(lambda: any("by anybody" in text for text in every.texts()), "cause")


def test_an_address_of_ipv4_is_the_same_by_ipv6():
    words = {"listen": "[::]:1", "from": ["10.0.0.0/8", "fe80::/10"]}
    source = sources.Udp(settings.Words(words, "t"))
    assert source.may_send("::ffff:10.1.2.3") and source.may_send("fe80::1%eth0")
    assert not source.may_send("::ffff:11.1.2.3") and not source.may_send("::1")


@pytest.mark.parametrize(
    "pattern, text, is_one",
    [
        ("fire*", "fire 1\r\n", True), ("fire*", "no fire", False), ("*fire", "no fire\n", True),
        ("fire", "fire\0\n", True), ("fire", "fires", False), ("FIRE", "fire", False),
        ("*b*b*", "a b", False), ("*b*b*", "a b b", True), ("shot ?", "shot 7", True),
        ("shot [0-9]", "shot x", False), ("$GP*", "$GPRMC,1", True), ("[^]a", "^a", True),
        (["go", "stop"], "stop", True), (["go", "stop"], "wait", False), ("*", "", True),
    ],
)
def test_a_pattern_is_a_word_with_stars(pattern, text, is_one):
    found = sources.pattern_in(settings.Words({"match": pattern}, "t"))
    assert found.match(text.encode()) == is_one


@pytest.mark.parametrize(
    "pattern", ["*a" * 99 + "*b", "*?a" * 60 + "b", "a*" * 99 + "b", "*[ab]" * 39 + "c"]
)
def test_no_pattern_takes_long(pattern):
    found = sources.pattern_in(settings.Words({"match": pattern}, "t"))
    begun = time.thread_time()
    assert not found.match(b"a" * 65_000) and time.thread_time() - begun < 2


def test_each_sender_has_its_turn():
    it = senders.Senders()
    for number in range(100):
        it.put("loud", number)
    it.put("quiet", 0)
    assert [it.take() for _ in range(3)] == [("loud", 36), ("quiet", 0), ("loud", 37)]
    assert it.lost() == {"loud": 36} and it.lost() == {}
    for number in range(70):
        it.put(f"one {number}", number)
    assert it.lost() == {"loud": 62, **{f"one {n}": 1 for n in range(6)}}
    assert len([it.take() for _ in range(64)]) == 64 and it.take() is None


def test_one_line_a_second_says_all():
    told = []
    it = journal.Journal(told.append)
    it.next = time.monotonic() + 3600
    for number in range(50):
        it.add("shot", f"packet {number}")
    it.add("door", "rose")
    assert not told
    it.next = 0.0
    it.flush()
    it.flush()
    assert told == ["shot 50, door 1 times; the last ones: shot: packet 49; door: rose"]
    it.add("shot", "packet 50")
    it.add("shot", "packet 51")
    it.flush(is_last=True)
    assert told[1:] == ["shot: 2 times, the last one: packet 51"]


def test_an_address_that_is_taken_is_a_fault(look):
    with socket.socket(socket.AF_INET, socket.SOCK_DGRAM) as other:
        other.bind(("127.0.0.1", 0))
        it = look("udp", listen=f"127.0.0.1:{other.getsockname()[1]}")
        until(lambda: it.faults, "fault")
    assert "Another program has it" in it.faults[0]


def test_a_line_of_a_serial_line_fires(look):
    near, far, path = pty_pair()
    it = look("serial", device=path, baud=115200, match="SHOT*")
    # What came before it was opened is passed over.

    def fired():
        put(near, b"SHOT 6\r\n")
        return it.fired

    until(fired, "cause")
    put_all(near, b"idle\r\nSHOT 7\r\n" + b"x" * 3000 + b"SHOT\nSHOT 8")
    until(lambda: "SHOT 7" in it.texts()[-1], "cause")
    put_all(near, b" late\n")
    until(lambda: "SHOT 8" in it.texts()[-1], "cause")
    name = os.path.basename(path)
    assert it.texts()[-2:] == [f"{name} says 'SHOT 7'", f"{name} says 'SHOT 8 late'"]
    os.close(near)
    until(lambda: it.faults, "fault")
    os.close(far)


def test_a_serial_line_that_is_missing_is_a_fault(look):
    it = look("serial", device="/dev/none")
    until(lambda: it.faults, "fault")
    assert "/dev/none" in it.faults[0]


def test_a_message_fires_unless_it_is_old(look):
    it = look("mqtt", topic="door/+", match="open")
    until(lambda: it.source.fire, "source")
    for topic, raw, is_old in (("door/a", b"open", True), ("gate/a", b"open", False),
                               ("door/a", b"closed", False), ("door/a", b"open", False)):
        it.source.came(topic, raw, is_old)
    assert it.texts() == ["MQTT door/a 'open'"]


class Line:
    """A line of a GPIO chip, as python3-libgpiod has it, whose edges a test gives."""

    def __init__(self):
        self.edges, self.asked = [], None

    def request(self, *words):
        self.asked = words

    def event_wait(self, sec, nsec):
        threading.Event().wait(0.001)
        return bool(self.edges)

    def event_read_multiple(self):
        found, self.edges = self.edges[:16], self.edges[16:]
        return found


@pytest.fixture
def gpio(monkeypatch):
    """A module gpiod with one line."""
    line = Line()
    chip = types.SimpleNamespace(get_line=lambda _number: line)

    class Chip:
        def __init__(self, path):
            if path != "/dev/gpiochip0":
                raise FileNotFoundError(2, "No such file or directory")

        def __enter__(self):
            return chip

        def __exit__(self, *_):
            return None

    event = types.SimpleNamespace(RISING_EDGE=1, FALLING_EDGE=2)
    monkeypatch.setitem(sys.modules, "gpiod", types.SimpleNamespace(
        Chip=Chip, LineEvent=event, LINE_REQ_EV_BOTH_EDGES=6, LINE_REQ_FLAG_BIAS_PULL_UP=32
    ))
    return line


def edge(kind, moment):
    """An edge at a time of the kernel's clock, in microseconds."""
    return types.SimpleNamespace(type=kind, sec=moment // SECOND, nsec=moment % SECOND * 1000)


def test_a_line_that_rose_and_stayed_fires_also_where_it_is_read_late(gpio, look):
    # It had risen for 20 ms, and fallen again, long before anybody read it; and bounced before.
    old = sources.time.monotonic_ns() // 1000 - 5 * SECOND
    gpio.edges = [edge(1, old - 900), edge(2, old - 800), edge(1, old), edge(2, old + 20_000)]
    it = look("gpio", line=17, stay=0.01, bias="pull-up")
    until(lambda: it.fired, "cause")
    moment, text = it.fired[0]
    assert text == "line 17 rose" and gpio.asked == ("loop_trigger", 6, 32)
    ago = sources.now() - moment
    assert 5 * SECOND <= ago < 60 * SECOND
    # And one that stays.
    gpio.edges = [edge(1, sources.time.monotonic_ns() // 1000)]
    until(lambda: len(it.fired) == 2, "cause")


def test_a_falling_edge_may_be_meant(gpio, look):
    it = look("gpio", line=3, edge="falling", stay=0)
    gpio.edges = [edge(1, 1000), edge(2, 2000)]
    until(lambda: it.fired, "cause")
    assert it.texts() == ["line 3 fell"]


def test_a_chip_that_is_missing_is_a_fault(gpio, look):
    it = look("gpio", line=3, chip="/dev/none")
    until(lambda: it.faults, "fault")
    assert "line 3 of /dev/none" in it.faults[0]


class Film(layout.Ring):
    """A store in a file, of grey pictures."""

    def __init__(self, path):
        super().__init__(8, 6, b"GREY", 4, 8)
        self.path = path
        self.time += 1_764_182_400_000_000
        self.save()

    def save(self):
        """Writes the file in its place, so that its identity stays."""
        with open(self.path, "r+b" if self.path.exists() else "wb") as file:
            file.write(bytes(self.image))

    def shoot(self, *levels_, wait=200_000):
        """Stores pictures, each of one brightness: its left half, and its right one."""
        for left, right in levels_:
            assert self.store(wait=wait)
            number = self.next - 1
            at = self.geometry.slot_at(self.blocks.index(number // 8), number % 8)
            head = layout.head(number, self.sequence, self.time, 48)
            self.put(at, head + (bytes([left] * 4 + [right] * 4) * 6))
        self.save()
        return self


def test_a_region_that_becomes_bright_fires(tmp_path, look):
    film = Film(tmp_path / "left.loop").shoot((200, 10), (200, 10))
    begun = film.time
    words = {"store": str(film.path), "region": [4, 0, 4, 6], "above": 0.5, "every": 0.02}
    it = look("picture", stay=0.3, **words)
    late = look("picture", below=0.3, store=str(film.path), every=0.02)
    until(lambda: it.source.last == late.source.last == begun, "first pictures")
    # Another region changes, then this one for too short a time, and then for long enough.
    film.shoot((10, 10), (200, 200), (200, 10), (200, 10))
    film.shoot((200, 200), (200, 200), (200, 200), (200, 200))
    until(lambda: it.fired, "cause")
    assert it.fired == [(begun + 5 * 200_000, "brightness 0.784 in left.loop")]
    until(lambda: late.source.last == film.time, "all pictures")
    assert [moment for moment, _ in late.fired] == [begun + 200_000]


def test_motion_fires_and_what_was_so_from_the_beginning_doesnt(tmp_path, look):
    film = Film(tmp_path / "left.loop").shoot((10, 250))
    bright = look("picture", store=str(film.path), above=0.1, every=0.02)
    it = look("picture", store=str(film.path), motion=0.2, every=0.02)
    until(lambda: it.source.last == bright.source.last == film.time, "first pictures")
    film.shoot((10, 250), (12, 248), (250, 10), (250, 10))
    until(lambda: it.source.last == bright.source.last == film.time, "all pictures")
    assert [moment for moment, _ in it.fired] == [film.time - 200_000]
    assert not bright.fired


def test_a_store_that_is_missing_or_has_no_such_region_is_a_fault(tmp_path, look):
    it = look("picture", store=str(tmp_path / "none.loop"), above=0.5)
    film = Film(tmp_path / "left.loop").shoot((1, 1))
    other = look("picture", store=str(film.path), above=0.5, region=[8, 0, 1, 1])
    until(lambda: it.faults and other.faults, "faults")
    assert "none.loop" in it.faults[0] and "no pixel" in other.faults[0]


# ----------------------------------------------------------------------------------------- words


A = '[[trigger]]\nname = "a"\n'
GPIO = A + 'kind = "gpio"\nline = 1\n'
UDP = A + 'kind = "udp"\nlisten = "127.0.0.1:1"\n'
PICTURE = A + 'kind = "picture"\nstore = "x"\n'


@pytest.mark.parametrize(
    "text, why",
    [
        ("", r"no \[\[trigger\]\]"),
        ('[[trigger]]\nkind = "udp"', "trigger 1: name is missing"),
        (A + 'kind = "bell"', "kind isn't one of gpio, serial, udp"),
        (A + 'kind = "udp"', "listen is missing"),
        (A + 'kind = "udp"\nlisten = "x:1"', "'x' does not appear to be"),
        (A + 'kind = "udp"\nlisten = "127.0.0.1:0"', "listen isn't"),
        (UDP + 'match = "^fire"', "match isn't a pattern, but a regular expression: write fire"),
        (UDP + 'match = "(a+)+$"', "match isn't a pattern, but a regular"),
        (UDP + 'match = ".*x"', "match isn't a pattern, but a regular"),
        (UDP + 'match = []', "match isn't a pattern of at most"),
        (UDP + f'match = "{"x" * 201}"', "match isn't a pattern of at most"),
        (UDP + 'from = []', "from isn't a list of one address"),
        (UDP + 'from = ["x"]', "'x' does not appear to be"),
        (UDP + 'before = 0', "before isn't"),
        (A + 'kind = "gpio"\nline = 1\nedge = "up"', "edge isn't one of"),
        (A + 'kind = "serial"\ndevice = "x"\nbuad = 1', "unknown words: buad"),
        (PICTURE, "one of above, below and motion"),
        (PICTURE + 'above = 2', "above isn't a number"),
        (PICTURE + 'above = 0.5\nregion = [1]', "region"),
        (A + 'kind = "mqtt"\ntopic = "x"', r"\[broker\] is missing"),
        ('stations = "all"\n' + GPIO, r"\[broker\] is missing"),
        (GPIO * 2, "two triggers have one name"),
    ],
)
def test_bad_words_are_named(tmp_path, text, why):
    (tmp_path / "a.trigger").write_text(text)
    with pytest.raises(settings.BadSettings, match=why):
        triggers.read_words(str(tmp_path / "a.trigger"))


def test_a_plain_word_of_match_is_told_as_the_whole_text_once_at_the_start(tmp_path):
    words = ('"fire"', '"fire*"', '["shot ?", "go", "a[0]"]', '"it\'s"')
    ports = [free_port(socket.SOCK_DGRAM) for _ in words]
    lines = [
        f'[[trigger]]\nname = "n{number}"\nkind = "udp"\nlisten = "127.0.0.1:{port}"\n'
        f"match = {it}\n"
        for number, (port, it) in enumerate(zip(ports, words))
    ]
    (tmp_path / "a.trigger").write_text(f'state = "{tmp_path}/a.state"\n' + "".join(lines))
    said = []
    found = triggers.Triggers(triggers.read_words(str(tmp_path / "a.trigger")), said.append)
    thread = threading.Thread(target=found.run, daemon=True)
    thread.start()
    time.sleep(0.5)
    found.over.set()
    thread.join(60)
    assert said == [
        "n0: match 'fire' is the whole text: write '*fire*' for a part of it",
        "n2: match 'go' is the whole text: write '*go*' for a part of it",
        "n3: match \"it's\" is the whole text: write '*it's*' for a part of it",
    ]
