"""Steps of page_check's part `console`: work with events and pictures. Search, causes, seconds to
come, an alarm, cameras in step, levels of deep pictures, a line that is measured, the name."""
import re
import time

from browser import ActionChains, Keys
from page_strangers import expect

# The station's name in the title and the head.
NAME = "Laser bench 2"
# What the events' rows say, and what each large picture's pixels are: darkest, brightest.
ROWS = """return [...document.querySelectorAll('#events .event')].filter((it) =>
    it.checkVisibility()).map((it) => it.innerText + ' ' + it.querySelector('input').value)"""
# The darkest and the brightest grey of a picture that is shown.
ENDS = """const it = document.querySelector(arguments[0]), data = it.getContext('2d')
    .getImageData(0, 0, it.width, it.height).data; let [low, high, seen] = [255, 0, new Set()];
for (let at = 0; at < data.length; at += 4) { low = Math.min(low, data[at]);
    high = Math.max(high, data[at]); seen.add(data[at]); } return [low, high, seen.size];"""
# Counts the tones that are begun from here on.
TONES = """window.tones = 0; const plain = OscillatorNode.prototype.start;
OscillatorNode.prototype.start = function (...words) { window.tones++;
    plain.apply(this, words); };"""
# By what the warnings of the bar are known; others may come meanwhile where a machine is busy.
BAR = "return JSON.parse(localStorage.getItem('alarm') || '[]').map((it) => it.key)"
# What was seen comes to the server late, and it is noted for what the bar comes back.
SLOW = """const plain = window.fetch, bar = document.querySelector('#alarm'); window.back = [];
window.fetch = async (path, ...more) => { if (path === '/api/seen') await new Promise((done) =>
    setTimeout(done, 2500)); return plain(path, ...more); };
new MutationObserver(() => { if (!bar.hidden) window.back.push(localStorage.getItem('alarm')); })
    .observe(bar, { attributes: true, attributeFilter: ['hidden'] });"""
# The numbers of the frames that are shown, by camera.
SHOWN = """return Object.fromEntries([...document.querySelectorAll('.cam')].filter((it) =>
    it.checkVisibility()).map((it) => [it.dataset.camera, Number(it.dataset.number)]))"""


def typed(browser, selector, text):
    """Writes into a field, as somebody types."""
    script = (
        "const it = document.querySelector(arguments[0]); it.value = arguments[1];"
        " for (const kind of ['input', 'change']) it.dispatchEvent(new Event(kind))"
    )
    browser.run(script, selector, text)


def rows(browser):
    """The events that are shown."""
    return browser.run(ROWS)


def released(lab):
    """All events are released, also one whose keep was under way."""

    def is_none():
        """Whether there is none; each that is there is released."""
        events = lab.ask("/api/events").json()["events"]
        for event in events:
            clips = [{key: it[key] for key in ("camera", "id", "first")} for it in event["clips"]]
            lab.post("/api/event/release", {"clips": clips})
        return not events

    lab.until(is_none, "end of all events")


def name(browser, lab, shots):
    """The station's own name stands in the title and above the page; what warns stands before
    it."""
    browser.until(lambda: browser.driver.title == NAME, f"title {NAME}")
    expect(browser.text("h1") == NAME, f"the head says {browser.text('h1')!r}")


def search(browser, lab, shots):
    """Events are found by words of their notes, by camera, tag and time, and how many is said."""
    released(lab)
    names = lab.names()
    lab.post("/api/keep", {"seconds": 2, "note": "run 7: discharge"})
    lab.post("/api/keep", {"seconds": 1, "note": "run 8: pump spike", "camera": "pump"})
    lab.order_done("keep pendulum 1 7")
    browser.until(lambda: len(rows(browser)) == 3, "three events")
    browser.keys("/", "discharge RUN")
    browser.until(lambda: len(rows(browser)) == 1, "one event by its note")
    expect(browser.text("#found") == "1 of 3", f"it says {browser.text('#found')!r}")
    browser.shot(shots, "search")
    browser.keys(Keys.ESCAPE)
    browser.until(lambda: len(rows(browser)) == 3, "all events by Escape")
    browser.named("Filter").click()
    for field, value, count in (
        ("#filter", names[1], 1), ("#filter", "pump", 2), ("#filter", "", 3),
        ("#tag", "7", 1), ("#tag", "", 3), ("#age", "1", 3),
    ):
        typed(browser, field, value)
        browser.until(
            lambda count=count: len(rows(browser)) == count, f"{count} events: {field} {value}"
        )
    typed(browser, "#age", "span")
    typed(browser, "#until", "2020-01-01T00:00:00")
    browser.until(lambda: browser.one("#none-found").is_displayed(), "word that none is like that")
    expect(not browser.one("#no-events").is_displayed(), "it is said that nothing is kept")
    browser.shot(shots, "sieve")
    browser.named("Show all").click()
    browser.until(lambda: len(rows(browser)) == 3, "all events again")
    expect(browser.text("#found") == "newest first", f"it says {browser.text('#found')!r}")


def is_whole(lab, name):
    """Whether 2 seconds of a camera are kept as one event that lacks nothing; on a busy machine
    the tests' station may film late. One that lacks something is released."""
    lab.post("/api/keep", {"camera": name, "seconds": 2})
    (event,) = lab.ask("/api/events").json()["events"]
    if event["lacks"]:
        released(lab)
    return not event["lacks"]


def lacking(browser, lab, shots):
    """Events that lost frames, or have less than was asked for, are found."""
    released(lab)
    since = lab.stored("pump")[-1].time
    lab.order("!pause pump")
    time.sleep(2.5)
    lab.order("!go pump")
    lab.until(lambda: lab.stored("pump")[-1].time > since + 3_500_000, "camera that goes on")
    span = {"from": since - 500_000, "to": lab.stored("pump")[-1].time}
    lab.until(lambda: is_whole(lab, "pendulum"), "event that has all frames")
    lab.post("/api/keep", {"camera": "pump", **span})
    browser.until(lambda: len(rows(browser)) == 2, "two events")
    browser.named("Filter").click()
    browser.run("document.querySelector('#lost').click()")
    told = [(it["cameras"], it["lacks"]) for it in lab.ask("/api/events").json()["events"]]
    browser.until(lambda: len(rows(browser)) == 1, f"one event of {told} that lacks frames")
    expect("pump" in rows(browser)[0], f"it is {rows(browser)}")


def alarm(browser, lab, shots):
    """A warning is heard once somebody has touched the page, stands in the title, and stays in its
    bar, also where it is over and over a reload, until Seen is pressed; on all pages."""
    browser.run("localStorage.clear()")
    browser.open()
    browser.run(TONES)
    lab.say("given_up", camera="pendulum", frames=12, since="2026-11-22T15:38:00.123Z")
    browser.until(lambda: browser.one("#alarm").is_displayed(), "bar of an alarm")
    expect("12" in browser.text("#alarm-text"), f"the bar says {browser.text('#alarm-text')!r}")
    expect("waits for a click" in browser.text("#sound"), "it isn't said that the sound waits")
    browser.until(lambda: titled(browser) and browser.run(BAR), "title with the alarm")
    time.sleep(3.5)
    expect(browser.run("return window.tones") == 0, "it rings before anybody touched the page")
    browser.one("h1").click()
    browser.until(lambda: browser.run("return window.tones") >= 4, "tones, again and again")
    browser.until(lambda: browser.text("#sound") == "Sound is on", "word that it is heard")
    browser.shot(shots, "alarm")
    browser.named("Sound is on").click()
    before = browser.run("return window.tones")
    time.sleep(3.5)
    expect(browser.run("return window.tones") == before, "it rings though its sound is off")
    browser.named("Sound is off").click()
    lab.order("!pause pump")
    browser.until(lambda: "pump" in browser.text("#alarm-text"), "alarm of a camera")
    lab.order("!go pump")
    browser.until(lambda: "It is over." in browser.text("#alarm-text"), "word that it is over")
    browser.open()
    browser.until(lambda: "It is over." in browser.text("#alarm-text"), "alarm after a reload")
    expect(re.search(r" And \d+ other", browser.text("#alarm-text")), "the other alarm is gone")
    browser.run(SLOW)
    before = browser.run(BAR)
    browser.named("Seen").click()
    browser.until(lambda: not set(before) & set(browser.run(BAR)), "end of the bar")
    lab.until(lambda: ("given up", "pendulum") not in lab.alerts(), "end of the warning")
    time.sleep(1.5)
    back = [key for key in before if any(key in it for it in browser.run("return window.back"))]
    expect(not back, f"the bar comes back though it was seen: {back}")
    browser.until(lambda: titled(browser), f"title without the alarm: {browser.driver.title!r}")
    lab.say("given_up", camera="pendulum", frames=3, since="2026-11-22T15:39:00.123Z")

    def is_barred():
        """Whether the loss stands in the bar."""
        is_there = any("given up pendulum" in key for key in browser.run(BAR))
        return is_there and browser.one("#alarm").is_displayed()

    browser.until(is_barred, "alarm that comes again")
    lab.post("/api/seen", {"ids": [it["id"] for it in lab.status()["alerts"]]})
    browser.until(lambda: not is_barred(), "end by another page")


def titled(browser):
    """Whether the title has as many alarms as the bar."""
    count = len(browser.run(BAR))
    is_shown = browser.one("#alarm").is_displayed() == bool(count)
    return is_shown and browser.driver.title == (f"\u25b2 {count} " if count else "") + NAME


def then(browser, lab, shots):
    """The seconds that are still to come stand beside the button, which says them, and are kept."""
    released(lab)
    typed(browser, "#then", "4")
    browser.until(lambda: "and the next 4 s" in browser.text("#press-text"), "words of the button")
    browser.shot(shots, "then")
    browser.run("document.activeElement.blur()")
    browser.keys("k")
    browser.until(lambda: "and on until" in browser.text("#answer"), "word that it goes on")
    browser.until(lambda: any("Goes on until" in it for it in rows(browser)), "event that goes on")

    def is_whole():
        """Whether the event is over, and has 3 seconds and the next 4 of the slowest camera too."""
        (event,) = lab.ask("/api/events").json()["events"]
        return event["until_us"] is None and 6.3 < event["seconds"] < 8.2

    lab.until(is_whole, "event of 3 s and the next 4")
    typed(browser, "#then", "x")
    browser.keys("k")
    browser.until(lambda: "whole number" in browser.text("#answer"), "word of what isn't a number")
    typed(browser, "#then", "0")
    expect("next" not in browser.text("#press-text"), "the button keeps what is to come for ever")


def causes(browser, lab, shots):
    """Why each event was kept stands in the list and above the timeline, where it was asked for: a
    press, a trigger, an order by MQTT, a program; the keys go from one to the next."""
    released(lab)
    for more in ({"cause": "trigger", "by": "door"}, {"cause": "mqtt", "by": "run-7"}, {}):
        expect(lab.post("/api/keep", {"seconds": 1, **more}).status == 200, "nothing is kept")
        time.sleep(2)
    browser.run("document.activeElement.blur()")
    browser.keys("k")
    browser.until(lambda: len(rows(browser)) == 4, "four events")
    said = "return [...document.querySelectorAll('#events .cause')].map((it) => it.textContent)"
    for at, text in enumerate(("Pressed: 127.0.0.1", "By HTTP: ", "By MQTT: run-7")):
        browser.until(lambda at=at, text=text: browser.run(said)[at].startswith(text), text)
    expect(browser.run(said)[3] == "By a trigger: door", f"the causes are {browser.run(said)}")
    broken = browser.run(BROKEN)
    expect(not broken, f"events are laid out wrongly: {broken}")
    marks = "return document.querySelector('#scale').dataset.causes.split(' ').sort().join(' ')"
    browser.until(lambda: browser.run(marks) == "http mqtt press trigger", "marks of four causes")
    expect("trigger" in browser.run(KEY), f"the marks aren't explained: {browser.run(KEY)!r}")
    events = lab.ask("/api/events").json()["events"]
    moments = sorted(it["cause"]["at_us"] for it in events)
    tracks = browser.one("#tracks")
    for key, place in (("[", 3), ("[", 2), ("[", 1), ("]", 2), ("[", 1)):
        browser.keys(key)
        moment = moments[place] // 1000
        browser.until(
            lambda moment=moment: abs(int(tracks.get_attribute("aria-valuenow")) - moment) <= 1,
            f"{moment} by {key}",
        )
    browser.until(lambda: "By MQTT: run-7" in tracks.get_attribute("aria-valuetext"), "its cause")
    inked(browser, moments)
    browser.shot(shots, "causes")
    browser.keys("l")
    browser.named("Filter").click()
    typed(browser, "#cause", "trigger")
    browser.until(lambda: len(rows(browser)) == 1, "events of triggers alone")
    typed(browser, "#cause", "")
    browser.keys("/", "run-7")
    browser.until(lambda: len(rows(browser)) == 1, "event by who asked for it")
    browser.named("Show all").click()


# Events whose cause isn't a line below their time, or whose pictures aren't as wide as they.
BROKEN = """return [...document.querySelectorAll('#events .event')].filter((it) => {
const box = (selector) => it.querySelector(selector).getBoundingClientRect();
return box('.cause').height > 45 || box('.cause').top < box('time').bottom - 2
    || box('.thumbs').width < 0.8 * it.clientWidth; }).map((it) => it.textContent)"""
KEY = "return document.querySelector('#causes-key').textContent"


# Where marks are drawn below the times: the middle of each, and the width of that canvas.
MARKS = """const it = document.querySelector('#scale'), part = it.width / it.clientWidth;
const row = it.getContext('2d').getImageData(0, Math.round(23 * part), it.width, 1).data;
const found = []; for (let x = 0; x < it.width; x++) if (row[4 * x + 3] > 200) {
    if (found.length && x - found.at(-1).at(-1) < 4) found.at(-1).push(x); else found.push([x]); }
return [found.map((it) => (it[0] + it.at(-1)) / 2 / part), it.clientWidth];"""
# Points at the first mark, and clicks it: at once, since marks move with the clock.
CLICK = """const scale = document.querySelector('#scale'), box = scale.getBoundingClientRect();
const at = { clientX: box.x + places[0], clientY: box.y + 23, bubbles: true };
scale.dispatchEvent(new PointerEvent('pointermove', at));
scale.dispatchEvent(new MouseEvent('click', at)); return scale.title;"""
# From when to when the timeline is, in milliseconds.
SPAN = """return ['min', 'max'].map((word) => Number(document.querySelector('#tracks')
    .getAttribute(`aria-value${word}`)))"""

BOTH = f"return [(() => {{ {MARKS} }})(), (() => {{ {SPAN} }})()]"


def inked(browser, moments):
    """A mark is drawn where each cause was, and a click on it goes there."""
    browser.keys("l")
    browser.until(lambda: len(browser.run(MARKS)[0]) == len(moments), "mark of each cause")
    # Both at once, since the timeline goes on meanwhile.
    (places, wide), (begin, end) = browser.run(BOTH)
    wanted = [(it / 1000 - begin) / (end - begin) * wide for it in moments]
    expect(len(places) == len(wanted), f"{len(places)} marks are drawn: {places}, and not {wanted}")
    apart = max(abs(one - other) for one, other in zip(places, wanted))
    expect(apart < wide / 40, f"marks are {apart:.0f} pixels beside their moments")
    title = browser.run(f"const [places] = (() => {{ {MARKS} }})(); {CLICK}")
    expect(title.endswith("door"), f"a mark says {title!r}")
    tracks = browser.one("#tracks")
    browser.until(
        lambda: "trigger: door" in tracks.get_attribute("aria-valuetext"), "moment of a mark"
    )


def disk(browser, lab, shots):
    """What the rings take, what is written, how old the oldest frame is and how long there is room
    that isn't locked: of all cameras, and of one."""
    released(lab)

    def said(selector):
        """What a list says, by its words."""
        words = browser.run(
            "return [...document.querySelectorAll(arguments[0] + ' > *')].map((it) =>"
            " it.textContent)",
            selector,
        )
        return dict(zip(words[::2], words[1::2]))

    def rate():
        """What is said to be written, in MB a second."""
        return float(re.match(r"([\d.]+) MB/s", said("#disk").get("Writes", "")).group(1))

    # A frame of each camera with its head, and so many of them a second.
    wanted = (25 * (320 * 240 * 1.5) + 10 * (320 * 120) + 10 * (96 * 128)) / 1e6
    browser.until(lambda: "Writes" in said("#disk"), "figures of the disk")
    browser.until(lambda: abs(rate() - wanted) < 0.15 * wanted, f"{wanted:.1f} MB/s")
    bytes_ = sum((lab.folder / f"{it}.loop").stat().st_size for it in lab.names()) / 1e6
    expect(said("#disk")["Rings"].startswith(f"{bytes_:.0f} MB"), f"{said('#disk')}, {bytes_:.0f}")
    browser.keys("1")
    browser.until(lambda: "Ring" in said("#facts"), "figures of a camera")

    def old():
        """How old the oldest frame is said to be, and how old it is, in seconds."""
        told = re.match(r"([\d.]+) s old", said("#facts")["Oldest"])
        return told and (float(told.group(1)), time.time() - lab.stored("pendulum")[0].time / 1e6)

    browser.until(lambda: old() and abs(old()[0] - old()[1]) < 4, "age of the oldest frame")
    before = said("#facts")["Left"]
    lab.post("/api/keep", {"camera": "pendulum", "seconds": 6})
    browser.until(lambda: said("#facts")["Left"] != before, "less room once some is locked")
    expect("not locked" in said("#facts")["Left"], f"{said('#facts')}")
    browser.shot(shots, "disk")
    browser.keys("0")


def steps(browser, lab, shots):
    """All cameras of an event go frame by frame by keys, in step: each shows the last of its frames
    until the moment, which is a frame of one of them."""
    released(lab)
    browser.until(lambda: not rows(browser), "end of the events before")
    lab.post("/api/keep", {"seconds": 3})
    browser.until(lambda: len(rows(browser)) == 1, "event")
    event = lab.ask("/api/events").json()["events"][0]
    times = {
        name: [(it.time, it.number) for it in lab.stored(name)
               if event["from_us"] <= it.time <= event["to_us"]]
        for name in event["cameras"]
    }
    browser.run("document.querySelector('#events .acts button').click()")
    browser.until(lambda: browser.all("#events .event.playing"), "event that is played")
    browser.keys(" ", Keys.HOME)
    every = sorted({time for found in times.values() for time, _ in found})
    # From the first moment at which each camera has a frame.
    begin = max(found[0][0] for found in times.values())
    place = every.index(event["from_us"]) if event["from_us"] in every else 0
    for key, by in [(Keys.ARROW_RIGHT, 1)] * 14 + [(Keys.ARROW_LEFT, -1)] * 3:
        browser.keys(key)
        place += by
        if every[place] < begin:
            time.sleep(0.2)
            continue
        wanted = {
            name: max(number for time, number in found if time <= every[place])
            for name, found in times.items()
        }
        browser.until(lambda wanted=wanted: browser.run(SHOWN) == wanted, f"frames {wanted}")
    browser.shot(shots, "steps")
    browser.keys("l")


def levels(browser, lab, shots):
    """The pictures of an event have a black and a white level together: of 12 bits by their own
    values, while it is played and while it stands."""
    deep = lab.names()[1]
    tile = f".cam[data-camera='{deep}'] .picture"
    if not rows(browser):
        lab.post("/api/keep", {"seconds": 3})
        browser.until(lambda: rows(browser), "event")
    expect(not browser.one("#levels").is_displayed(), "levels stand beside live pictures")
    browser.run("document.querySelector('#events .acts button').click()")
    browser.until(lambda: browser.one("#levels").is_displayed(), "levels of an event")
    browser.keys(" ")
    expect(browser.one("#all-white").get_property("value") == "4095", "white isn't that of 12 bits")
    expect("12 bits" in browser.text("#levels-of"), f"levels of {browser.text('#levels-of')!r}")
    plain = f".cam[data-camera='{lab.names()[0]}']"
    other = browser.still(lambda: grey_of(browser, f"{plain} .picture"), "picture that stands")
    typed(browser, "#all-white", "400")
    browser.until(lambda: grey_of(browser, tile)[1] > 250, "bright picture")
    clipped = grey_of(browser, tile)
    browser.until(lambda: browser.all(f".cam[data-camera='{deep}'] .eye"), "stretched picture")
    said = "return document.querySelector(arguments[0]).title"
    chip = f".cam[data-camera='{deep}'] .eye"
    browser.until(lambda: "0 to 400" in browser.run(said, chip), "word of the levels")
    now = browser.still(lambda: grey_of(browser, f"{plain} .picture"), "picture that stands")
    is_changed = now != other or browser.one(f"{plain} .eye").is_displayed()
    expect(not is_changed, f"a picture of 8 bits is changed too: {other} to {now}")
    browser.shot(shots, "levels")
    browser.keys("a")
    browser.until(lambda: "0 to 400" not in browser.run(said, chip), "levels by the pictures")
    browser.named("As stored").click()
    browser.until(lambda: not browser.one(chip).is_displayed(), "picture as it is stored")
    expect(clipped[1] > 250, f"the levels don't show: {clipped}")
    browser.keys("l")


def grey_of(browser, selector):
    """The darkest and the brightest grey, and how many there are."""
    return browser.run(ENDS, selector)


def measured(browser):
    """What is measured: the length, and how far it goes to the right and down."""
    words = browser.text("#measured")
    found = re.match(r"([\d.]+) px, x (-?\d+), y (-?\d+), (-?[\d.]+)\u00b0", words)
    return tuple(float(it) for it in found.groups())


def measure(browser, lab, shots):
    """A line between two points of a picture that stands, by keys and by the pointer: its length in
    the picture's own pixels."""
    browser.keys("1")
    browser.until(lambda: browser.one("#frame").get_attribute("data-number"), "large picture")
    browser.keys("m")
    browser.until(lambda: browser.one("#measured").is_displayed(), "measure")
    browser.until(lambda: browser.text("#large-ago") != "live", "picture that stands")
    expect(measured(browser) == (160, 160, 0, 0), f"the first line is {measured(browser)}")
    browser.keys(*[Keys.ARROW_UP] * 3)
    ActionChains(browser.driver).key_down(Keys.SHIFT).send_keys(Keys.ARROW_LEFT * 4).key_up(
        Keys.SHIFT
    ).perform()
    length = (120**2 + 3**2) ** 0.5
    expect(abs(measured(browser)[0] - length) < 0.01, f"the line is {measured(browser)}")
    expect(measured(browser)[1:3] == (120, -3), f"the line is {measured(browser)}")
    expect(browser.focused() == "End of the line: x 200, y 117", f"heard: {browser.focused()!r}")
    browser.still(
        lambda: browser.one("#frame").get_attribute("data-number"),
        "end of a picture that goes on while it is measured",
    )
    drawn(browser)
    browser.shot(shots, "measure")
    browser.keys(Keys.ESCAPE)
    browser.until(lambda: not browser.one("#measured").is_displayed(), "end of the line")
    expect(browser.one("#large").is_displayed(), "Escape leaves the picture too")
    browser.keys("l", "0")


def drawn(browser):
    """A line that the pointer draws has the length that is seen: a third of the picture's width."""
    box = browser.run(
        "const it = document.querySelector('#large-picture'), box = it.getBoundingClientRect();"
        " const part = Math.min(box.width / 320, box.height / 240); return [box.x + (box.width -"
        " part * 320) / 2, box.y + (box.height - part * 240) / 2, part]"
    )
    at = [round(box[0] + 50.5 * box[2]), round(box[1] + 60.5 * box[2])]
    to = [round(box[0] + 130.5 * box[2]), round(box[1] + 120.5 * box[2])]
    mouse = ActionChains(browser.driver, duration=60)
    mouse.w3c_actions.pointer_action.move_to_location(*at).pointer_down()
    mouse.w3c_actions.pointer_action.move_to_location(*to).pointer_up()
    mouse.perform()
    expect(measured(browser)[:3] == (100, 80, 60), f"80 and 60 are {measured(browser)}")
    line = browser.run(
        "const it = document.querySelector('#ruler line:last-child'), frame = document"
        ".querySelector('#frame').getBoundingClientRect(); return ['x1', 'y1', 'x2', 'y2'].map((a,"
        " p) => Number(it.getAttribute(a)) + (p % 2 ? frame.y : frame.x))"
    )
    apart = max(abs(one - other) for one, other in zip(line, [*at, *to]))
    expect(apart <= box[2] + 2, f"the line is drawn {apart:.1f} pixels beside its points")


# Answers who is at the page in the server's place: the rights of the person.
ME = """const plain = window.fetch; window.fetch = (path, ...more) => path === '/api/me'
    ? Promise.resolve(new Response(JSON.stringify({ user: 'ann', rights: %s }))) :
    plain(path, ...more);"""
# The controls by which something is changed, as far as they are there.
OFFERED = """return [...document.querySelectorAll('#press, #note, #alarm-seen, #events .release,'
    + ' #events input:not([readonly])')].filter((it) => it.checkVisibility()).map((it) =>
    it.id || it.className || it.tagName)"""


def rights(browser, lab, shots):
    """What somebody may not do isn't offered, and no key does it; who may, is offered all."""
    released(lab)
    lab.post("/api/keep", {"seconds": 2, "note": "a note"})
    lab.say("given_up", camera="pendulum", frames=2, since="2026-11-22T15:38:00.123Z")
    for may, offered in (
        ('["see"]', set()),
        ('["see", "keep"]', {"press", "note", "alarm-seen", "INPUT"}),
        (
            '["see", "keep", "release", "set"]',
            {"press", "note", "alarm-seen", "INPUT", "quiet release"},
        ),
    ):
        script = browser.cdp("Page.addScriptToEvaluateOnNewDocument", {"source": ME % may})
        try:
            browser.open()
            browser.until(lambda: len(rows(browser)) == 1, "event")
            browser.until(lambda: browser.one("#alarm").is_displayed(), "alarm")
            browser.until(
                lambda offered=offered: set(browser.run(OFFERED)) == offered,
                f"{offered} alone with {may}, and not {browser.run(OFFERED)}",
            )
            before = lab.ordered()
            browser.run("document.activeElement.blur()")
            browser.keys("k")

            def kept(count=len(before)):
                """The keeps that were ordered."""
                return [it for it in lab.ordered()[count:] if it.startswith("keep")]

            if "press" in offered:
                browser.until(kept, f"keep by the key K with {may}")
                browser.until(lambda: "Kept" in browser.text("#answer"), "word that it is kept")
            else:
                time.sleep(1)
                expect(not kept(), f"with {may} the key K gives {kept()}")
            browser.shot(shots, f"rights-{len(offered)}")
        finally:
            words = {"identifier": script["identifier"]}
            browser.cdp("Page.removeScriptToEvaluateOnNewDocument", words)
        released(lab)
        lab.post("/api/keep", {"seconds": 2, "note": "a note"})
    lab.post("/api/seen", {"ids": [it["id"] for it in lab.status()["alerts"]]})


STEPS = (name, search, lacking, then, causes, disk, alarm, steps, levels, measure, rights)
