"""The part `stress` of page_check: the page under stress. Many stations whose events are joined, a
page that stands still, a station in strange hands, a slow line, a server or a station that is lost,
sixteen cameras of which some are dead, and one page too many."""
import asyncio
import contextlib
import itertools
import json
import os
import shutil
import tempfile
import time
import urllib.parse
import urllib.request

import aiohttp
import conftest
from browser import Browser
from conftest import PLACES, PROGRAM, Laboratory
from neighbour import CAMERA, EVENT, SAID, STATE, Neighbour, message
from page_browser import cameras_of
from page_strangers import Wrong, expect
from selenium.common.exceptions import WebDriverException
from slow import Slow
from test_stations import settings_of

SECOND = 1_000_000
TRUE = {"name": "left", "pattern": "320x240 YM12 25:1", "keep": 3, "minutes": 1}
LEFT = {"name": "left", "pattern": "320x240 YM12 25:1", "keep": 3, "slots": 50, "segments": 24}
FAR = LEFT | {"name": "far"}

# A page for which joining is work of so many seconds, whatever is joined.
JOINING = """
import runpy, sys, time
sys.dont_write_bytecode = True
sys.path[1:1] = {path!r}
from station_page import together
plain = together.Joined.join
def join(self, said):
    end = time.monotonic() + {seconds}
    while time.monotonic() < end:
        sum(range(1000))
    return plain(self, said)
together.Joined.join = join
sys.argv[0] = {program!r}
runpy.run_path({program!r}, run_name="__main__")
"""
JOIN_SECONDS = 4


class Joining(Laboratory):
    """A laboratory whose page needs seconds to join events."""

    def program(self, bounds):
        """The page's program."""
        words = {"path": [str(it) for it in PLACES], "program": str(PROGRAM.resolve())}
        words["seconds"] = JOIN_SECONDS
        (self.folder / "joining.py").write_text(JOINING.format(**words))
        return ["/usr/bin/python3", "-B", "joining.py"]


@contextlib.contextmanager
def laboratory(cameras, kind=Laboratory):
    """A laboratory in a new folder, whose page runs as it is."""
    folder = tempfile.mkdtemp(prefix="page_check", dir="/var/tmp")
    lab = kind(folder, cameras, as_it_is=True)
    try:
        yield lab
    finally:
        lab.close()
        shutil.rmtree(folder)


@contextlib.contextmanager
def opened(lab, port=None):
    """A browser with the page of a laboratory, or with what is at another port."""
    browser = Browser(lab)
    try:
        if port:
            browser.address = f"http://127.0.0.1:{port}/"
        browser.open()
        yield browser
    finally:
        browser.driver.quit()


# ----------------------------------------------------------------------------------- many stations

# Counts, each 50 ms, for how long no other picture came at most, and whether the server is lost.
WATCH = """window.longest = 0; window.lostOnce = false; clearInterval(window.watching);
let seen = '', since = performance.now();
window.watching = setInterval(() => {
    const now = document.querySelector('.cam[data-camera=left]').dataset.number;
    if (now !== seen) [seen, since] = [now, performance.now()];
    window.longest = Math.max(window.longest, performance.now() - since);
    window.lostOnce ||= document.body.classList.contains('lost'); }, 50);"""
ROWS = "return document.querySelectorAll('#events .event').length"


def event_at(place):
    """One of many events of a station, twenty seconds after the one before it."""
    span = {"from_us": place * 20 * SECOND, "to_us": place * 20 * SECOND + 450_000}
    names = {"id": place % 64, "first": 10 * place, "last": 10 * place + 9}
    key = f"left.{place % 64}.{10 * place}"
    clips = [EVENT["clips"][0] | names | span]
    return EVENT | {"key": key, "number": None, "clips": clips} | span


@contextlib.contextmanager
def neighbours(count, events):
    """So many stations, of which each says another event every second."""
    made = [Neighbour() for _ in range(count)]
    try:
        for neighbour in made:
            new, old = itertools.count(events), [event_at(place) for place in range(events)]
            neighbour.stream.append(message("events", old))
            neighbour.again.append(
                lambda old=old, new=new: message("events", [event_at(next(new)), *old])
            )
        yield made
    finally:
        for neighbour in made:
            neighbour.close()


# A busy machine holds a page up now and then: it is looked at so many times at most. One that joins
# in the loop that answers is held up each time.
LOOKS = 3
SHORT = 0.75 * JOIN_SECONDS


def joined(shots):
    """While the events of six stations are joined, which takes four seconds each time, pictures
    come, a press is answered, and no server is lost; and then the events are there."""
    with neighbours(6, 30) as others, laboratory([LEFT], Joining) as lab:
        settings_of(lab.folder, *((f"n{place}", it.port) for place, it in enumerate(others)))
        lab.start_station().start_page("--settings", "page.toml").filmed(60)
        browser = Browser(lab)
        try:
            browser.driver.get(browser.address)
            own = ".cam[data-camera=left]"
            browser.until(lambda: browser.one(own).get_attribute("data-number"), "own picture")
            browser.until(lambda: browser.run(ROWS) >= 30, "events of all stations")
            longest, took = looked_again(press_beside_joins, browser)
            browser.shot(shots, "joined")
        finally:
            browser.driver.quit()
    return f"pictures at most {longest:.1f} s apart, a press {took:.1f} s"


def looked_again(look, *words):
    """What is found by a look at which nothing is wrong, of so many at most."""
    for _ in range(LOOKS - 1):
        with contextlib.suppress(Wrong):
            return look(*words)
    return look(*words)


def press_beside_joins(browser):
    """While events are joined again and again, since each station says another one each second: for
    how many seconds no picture came at most, and how many a press took."""
    browser.run(WATCH)
    time.sleep(3 * JOIN_SECONDS)
    # Else a press may take minutes.
    held_up(browser)
    browser.until(lambda: not browser.text("#answer").startswith("Kept"), "end of an answer")
    begun = time.monotonic()
    browser.run("document.activeElement.blur()")
    browser.keys("k")
    browser.until(lambda: browser.text("#answer").startswith("Kept"), "answer to a press")
    took = time.monotonic() - begun
    expect(took < SHORT, f"a press is answered after {took:.1f} s")
    return held_up(browser), took


def held_up(browser):
    """For how many seconds no picture came at most, of a page that isn't held up."""
    longest, was_lost = browser.run("return [window.longest / 1000, window.lostOnce]")
    expect(not was_lost, "the server is said to be lost while events are joined")
    expect(longest < SHORT, f"no picture came for {longest:.1f} s")
    return longest


# ---------------------------------------------------------------------------- the moment of a press

# The page does nothing else for so many milliseconds.
STILL = """setTimeout(() => { const end = performance.now() + arguments[0];
    while (performance.now() < end); }, 200);"""
# The line holds up what is asked for so many milliseconds.
HELD = """const plain = window.fetch; window.fetch = async (path, ...more) => {
    if (path === '/api/keep') await new Promise((done) => setTimeout(done, arguments[0]));
    return plain(path, ...more); };"""
STILL_SECONDS = 5
# By how much the moment that is kept may be beside the press: the page's clock, and a key's way.
NEAR = 0.7


async def pressed_key(browser):
    """Presses K in the browser itself, past its driver, which waits for the page; answers when that
    was."""
    place = browser.driver.capabilities["goog:chromeOptions"]["debuggerAddress"]
    pages = json.loads(urllib.request.urlopen(f"http://{place}/json").read())
    (address,) = [it["webSocketDebuggerUrl"] for it in pages if it["url"] == browser.address]
    async with aiohttp.ClientSession() as session, session.ws_connect(address) as wire:
        key = {"key": "k", "code": "KeyK", "text": "k", "windowsVirtualKeyCode": 75}
        for number, kind in enumerate(("keyDown", "keyUp")):
            what = {"type": kind} | key
            words = {"id": number, "method": "Input.dispatchKeyEvent", "params": what}
            if not number:
                at = time.time()
            await wire.send_json(words)
        answers = [await wire.receive_json(timeout=60) for _ in range(2)]
    expect(all("result" in it for it in answers), f"the browser presses no key: {answers}")
    return at


def moment(shots):
    """A press keeps what was before it, also where the page stands still, or the order comes late:
    beside the tests' station, and a true one where LOOP_STATION names it."""
    told, stations = [], [conftest.STATION]
    stations += [it for it in [os.environ.get("LOOP_STATION")] if it]
    for program in stations:
        plain, conftest.STATION = conftest.STATION, program
        try:
            with laboratory([LEFT if program == plain else TRUE]) as lab:
                lab.start_station().start_page().filmed(350)
                for name, script in (("the page stood still", STILL), ("the order was late", HELD)):
                    told.append(late_press(lab, name, script))
        finally:
            conftest.STATION = plain
    return ", ".join(told)


def late_press(lab, name, script):
    """A press that is done seconds late; answers how far its event's end is from it."""
    before = {it["key"] for it in lab.ask("/api/events").json()["events"]}
    with opened(lab) as browser:
        # Until the server's clock is measured.
        time.sleep(1.5)
        browser.run("document.activeElement.blur()")
        browser.run(script.replace("arguments[0]", str(STILL_SECONDS * 1000)))
        time.sleep(0.7)
        at = asyncio.run(pressed_key(browser))
        browser.until(lambda: browser.text("#answer").startswith("Kept"), f"answer after {name}")
        took = time.time() - at
    expect(took > STILL_SECONDS / 2, f"{name}: the press was done after {took:.1f} s, and not late")
    events = lab.ask("/api/events").json()["events"]
    (event,) = [it for it in events if it["key"] not in before]
    since, until, asked = (
        it / SECOND - at for it in (event["from_us"], event["to_us"], event["cause"]["at_us"])
    )
    expect(abs(asked) < NEAR, f"{name}: the press is said to have been {asked:.1f} s after itself")
    expect(
        abs(since + 3) < NEAR and abs(until) < NEAR,
        f"{name}: the last 3 s are those from {since:.1f} to {until:.1f} s after the press",
    )
    return f"{name}: {until:+.2f} s"


# ------------------------------------------------------------------------------------ strange hands

# What a station in strange hands says: a page, whose script presses and leaves a mark.
EVIL = """<!doctype html><title>odd</title><img src=x onerror="localStorage.owned = 'img'">
<script>localStorage.owned = 'script'; fetch('/api/keep', { method: 'POST', headers: {
'Content-Type': 'application/json', 'X-Loop-Page': '1' }, body: '{"seconds": 1}' });</script>"""
WORDS = "<img src=x onerror=\"localStorage.owned = 'words'\">"
OWNED = "return localStorage.getItem('owned')"


def strange(shots):
    """A page of another station, by its own type, under which it may be sent: its script doesn't
    run at this page's address, its words become no code, and nothing is pressed."""
    odd = Neighbour()
    ill = CAMERA | {"level": "bad", "state": WORDS, "short": WORDS, "kind": "silent"}
    said = SAID | {"state": STATE | {"cameras": [ill]}, "events": [EVENT | {"note": WORDS}]}
    odd.stream[1:] = [message(kind, told) for kind, told in said.items()]
    try:
        with laboratory([LEFT]) as lab:
            settings_of(lab.folder, ("odd", odd.port))
            lab.start_station().start_page("--settings", "page.toml").filmed(60)
            browser = Browser(lab)
            try:
                return judge_strange(browser, lab, odd, shots)
            finally:
                browser.driver.quit()
    finally:
        odd.close()


def judge_strange(browser, lab, odd, shots):
    """Opens all that another station may send, as somebody does who follows its links."""
    browser.driver.get(browser.address)
    browser.until(lambda: browser.all(".cam[data-camera='odd:left']"), "camera of the other")
    browser.until(lambda: WORDS in browser.text("#banner"), "its words, as they are written")
    browser.until(lambda: browser.run(ROWS) > 0, "its event")
    expect(not browser.all("img[src=x]"), "words of another station become code")
    browser.cdp("Browser.setDownloadBehavior", {"behavior": "deny"})
    tried, pages = 0, []
    for path, kind in STRANGE_FILES.items():
        for said in (kind, f"{kind};,text/html", "text/html", "image/svg+xml"):
            odd.answers[path.partition("?")[0]] = EVIL.encode(), 200, said
            with contextlib.suppress(WebDriverException):
                browser.driver.get(browser.address[:-1] + path.replace("/left", "/odd:left"))
            time.sleep(0.15)
            tried += 1
            pages += [f"{path} said to be {said}"] * (browser.driver.title == "odd")
    time.sleep(0.5)
    browser.driver.get(browser.address)
    browser.until(lambda: browser.all(".cam[data-camera='odd:left']"), "camera of the other")
    owned = browser.run(OWNED)
    expect(owned is None, f"the other station's {owned} runs at this page's address")
    keeps = [it for it in lab.ordered() if it.startswith("keep")]
    expect(not keeps, f"another station's script has pressed: {keeps}")
    asked = {path.partition("?")[0] for path, _ in odd.asked}
    expect({path.partition("?")[0] for path in STRANGE_FILES} <= asked, f"only {asked} were asked")
    expect(not pages, f"shown as pages are {pages}")
    browser.shot(shots, "strange")
    return f"{tried} pages of another station"


STRANGE_FILES = {
    "/api/clips/left/0.csv": "text/csv",
    "/api/clips/left/0.mp4?play=1": "video/mp4",
    "/api/clips/left/0.zip": "application/zip",
    "/api/clips/left/0.y4m": "video/x-yuv4mpeg2",
    "/api/clips/left/0.jpg": "image/jpeg",
    "/api/cameras/left/newest.jpg": "image/jpeg",
    "/api/cameras/left/frames/5/picture": "image/jpeg",
    "/api/cameras/left/frame?time=5": "application/json",
}


# ------------------------------------------------------------------------------------- a slow line

# Of the first tile: how old its picture is by this machine's clock, in seconds, and the age that is
# said of it; nothing while none is.
AGE = """const tile = document.querySelector('.cam'), age = tile.querySelector('.age');
const found = tile.querySelector('footer span:first-child').textContent.split(' ').pop();
if (!found) return null;
const [h, m, s] = found.split(':'), now = new Date();
const today = now.getHours() * 3600 + now.getMinutes() * 60 + now.getSeconds()
    + now.getMilliseconds() / 1000;
return [today - (h * 3600 + m * 60 + Number(s)), age.checkVisibility() ? age.textContent : ''];"""
# Ages are said four times a second; and a machine that is busy paints late.
LATE = 0.6


def ages(browser, seconds):
    """What is said of a picture's age, for so many seconds."""
    end, found = time.monotonic() + seconds, []
    while time.monotonic() < end:
        if one := browser.run(AGE):
            found.append(one)
        time.sleep(0.05)
    return found


def aged(shots):
    """On a slow line the age of a picture stands on its tile from a second on, and not before."""
    with laboratory([LEFT]) as lab:
        lab.start_station().start_page().filmed(60)
        line = Slow(lab.port, rate=20_000_000)
        try:
            with opened(lab, line.port) as browser:
                # Until the server's clock is measured.
                time.sleep(2.5)
                found = ages(browser, 3)
                # In turns: pictures come late, and then new ones.
                for _ in range(3):
                    line.rate = 4_000
                    found += ages(browser, 5)
                    browser.shot(shots, "aged")
                    line.rate = 20_000_000
                    found += ages(browser, 2)
        finally:
            line.close()
    new = [said for age, said in found if age < 1 - 0.1]
    old = [(age, said) for age, said in found if age > 1 + LATE]
    expect(len(new) > 10 and len(old) > 10, f"of {len(found)} ages {len(old)} are old")
    early = [it for it in new if it]
    expect(not early, f"of pictures less than a second old it is said: {early[:5]}")
    silent = [f"{age:.1f} s" for age, said in old if not said]
    expect(not silent, f"of pictures as old as {silent[:5]} no age is said")
    apart = max(abs(age - float(said.split()[0])) for age, said in old)
    expect(apart < LATE, f"an age is said that is {apart:.1f} s beside the picture's")
    return f"{len(old)} of {len(found)} pictures are old, and say so"


# ------------------------------------------------------------------------------- what isn't known

# What stands on a tile: whether the red circle is there, and the rate that is seen.
SHOWN = """const tile = document.querySelector(`.cam[data-camera='${arguments[0]}']`);
const rec = getComputedStyle(tile.querySelector('.rec')), rate = tile.querySelector('.rate');
return { isRed: rec.backgroundColor === 'rgb(255, 90, 95)' && rec.borderTopLeftRadius === '50%',
    rate: rate.checkVisibility() ? rate.textContent : '' };"""
# Remembers the words that are drawn on the lanes, with their places, of the newest drawing.
DRAWN = """window.drawn = []; const proto = CanvasRenderingContext2D.prototype;
const clear = proto.clearRect, text = proto.fillText;
proto.clearRect = function (...words) { if (this.canvas.id === 'tracks') window.drawn = [];
    clear.apply(this, words); };
proto.fillText = function (word, x, y) { if (this.canvas.id === 'tracks')
    window.drawn.push([word, x, y]); text.call(this, word, x, y); };"""
# The lanes on which a word is drawn, from above, and whether stripes are between it and now: how
# many colours are in a row of pixels there.
UNKNOWN = """const it = document.querySelector('#tracks'), part = it.width / it.clientWidth;
const lanes = document.querySelectorAll('#names li').length, high = it.clientHeight / lanes;
return window.drawn.filter(([word]) => word === 'unknown').map(([, x, y]) => {
    const left = Math.round((x + 60) * part), wide = Math.max(1, it.width - 12 - left);
    const row = it.getContext('2d').getImageData(left, Math.round(y * part), wide, 1).data;
    const seen = new Set(); for (let at = 0; at < row.length; at += 4)
        seen.add(row.slice(at, at + 3).join());
    return [Math.floor(y / high), seen.size]; });"""


def expect_unknown(browser, cameras, lanes, why):
    """Fails where a tile has its red circle or a rate, or a lane doesn't say `unknown`."""
    for name in cameras:
        found = browser.run(SHOWN, name)
        expect(not found["isRed"], f"{why}: {name} has its red circle")
        expect(not found["rate"], f"{why}: {name} has the rate {found['rate']!r}")
    browser.until(
        lambda: [place for place, _ in browser.run(UNKNOWN)] == lanes,
        f"`unknown` on the lanes {lanes}, {why}",
    )
    striped = [it for it in browser.run(UNKNOWN) if it[1] > 1]
    expect(not striped, f"{why}: there are stripes behind `unknown`, as of times without frames")


def unknown(shots):
    """Once another station, or the page's server, is lost, its tiles lose the red circle and the
    rate, and the timeline says `unknown`; those of the others don't."""
    with laboratory([LEFT]) as lab, laboratory([FAR]) as north:
        north.start_station().start_page().filmed(60, "far")
        settings_of(lab.folder, ("north", north.port))
        lab.start_station().start_page("--settings", "page.toml").filmed(60)
        with opened(lab) as browser:
            browser.run("document.querySelector('[data-span=\"60\"]').click()")
            names = ["left", "north:far"]
            for name in names:
                browser.until(lambda name=name: browser.run(SHOWN, name)["rate"], "rate")
                expect(browser.run(SHOWN, name)["isRed"], f"{name} records, without a red circle")
            browser.run(DRAWN)
            time.sleep(1)
            expect(not browser.run(UNKNOWN), "a lane says `unknown` though all is known")
            lab.end(north.page)
            browser.until(lambda: "north" in browser.text("#banner"), "word of a lost station")
            time.sleep(5)
            browser.shot(shots, "unknown-station")
            expect_unknown(browser, names[1:], [1], "its station is lost")
            expect(browser.run(SHOWN, "left")["isRed"], "the own camera loses its red circle too")
            lab.end(lab.page)
            browser.until(lambda: "has lost its server" in browser.text("#banner"), "lost server")
            time.sleep(5)
            browser.shot(shots, "unknown-server")
            expect_unknown(browser, names, [0, 1], "the server is lost")
        ended(shots)
    return "two ways"


def ended(shots):
    """A camera whose station has ended has neither a red circle nor a rate."""
    with laboratory([LEFT]) as lab:
        lab.start_station().start_page().filmed(60)
        with opened(lab) as browser:
            browser.until(lambda: browser.run(SHOWN, "left")["rate"], "rate")
            lab.end(lab.station)
            browser.until(lambda: "doesn't run" in browser.text("#banner"), "end of the station")
            browser.until(lambda: not browser.run(SHOWN, "left")["rate"], "end of the rate")
            expect(not browser.run(SHOWN, "left")["isRed"], "an ended station's camera is red")


# ------------------------------------------------------------------------------ sixteen of them

NAMES = ("spectrometer", "gate-valve", "beam-dump", "cryostat-north", "pump", "window-left")
# The names of tiles that are cut off, or beyond their tile.
CUT = """return [...document.querySelectorAll('.cam')].filter((tile) => {
    const name = tile.querySelector('h2'), box = tile.getBoundingClientRect();
    const range = document.createRange(); range.selectNodeContents(name);
    const text = range.getBoundingClientRect(), own = name.getBoundingClientRect();
    return !text.width || text.right > own.right + 1 || text.left < box.left
        || text.right > box.right || text.bottom > box.bottom; }).map((it) => it.dataset.camera)"""
# Whether all of the banner's words are seen.
WHOLE = """const it = document.querySelector('#banner-text');
    return it.scrollHeight <= it.clientHeight + 1 && it.scrollWidth <= it.clientWidth + 1;"""


def sixteen_cameras():
    """Sixteen cameras, whose names are words of a laboratory."""
    return [
        camera | {"name": f"{NAMES[place % 6]}{'' if place < 6 else place}"}
        for place, camera in enumerate(cameras_of(16))
    ]


def sixteen(shots):
    """Of sixteen cameras one is dead: its name is whole, at each size. Of five that are dead the
    banner names all, and one of another trouble too."""
    with laboratory(sixteen_cameras()) as lab:
        names = lab.names()
        lab.start_station().start_page().filmed(25, names[0])
        with opened(lab) as browser:
            lab.order(f"!pause {names[0]}")
            browser.until(lambda: "no frames" in browser.text(".cam.bad .chip.bad"), "dead camera")
            for size in ("1440x900", "1024x768", "390x844"):
                browser.dress(size, "dark")
                # A busy machine lays all out anew in its time.
                with contextlib.suppress(Wrong):
                    browser.until(lambda: not browser.run(CUT) + browser.run(OVER), "whole words")
                browser.shot(shots, f"dead-of-16-{size}")
                cut, over = browser.run(CUT), browser.run(OVER)
                expect(not cut, f"{size}: the names of {cut} are cut off")
                expect(not over, f"{size}: other words stand on {over}")
            banner_names_all(browser, lab, shots)
    return "names are whole"


# Words on a tile that stand on one another: its chips, and what is below its picture.
OVER = """return [...document.querySelectorAll('.cam')].flatMap((tile) => {
    const seen = (it) => it.checkVisibility({ visibilityProperty: true }) && it.textContent;
    const boxes = (selector) => [...tile.querySelectorAll(selector)].filter(seen);
    return boxes('header .chip').filter((chip) => boxes('footer span').some((word) => {
        const one = chip.getBoundingClientRect(), other = word.getBoundingClientRect();
        return one.bottom > other.top + 2 && one.right > other.left && one.left < other.right; }))
        .map((chip) => `${tile.dataset.camera}: ${chip.textContent}`); });"""


def banner_names_all(browser, lab, shots):
    """Four more are dead, and one is behind its disk."""
    names = lab.names()
    lab.order(f"!behind {names[9]} 2.6")
    lab.say("behind", camera=names[9], micros=2_600_000)
    for name in names[1:5]:
        lab.order(f"!pause {name}")
    wanted = ", ".join(names[:5]) + ": "
    browser.until(lambda: browser.text("#banner").startswith(wanted), f"banner of {wanted}")
    browser.until(lambda: f"Also {names[9]} (" in browser.text("#banner"), "the other trouble")
    for size in ("1440x900", "1024x768", "390x844"):
        browser.dress(size, "dark")
        time.sleep(0.6)
        browser.shot(shots, f"banner-{size}")
        expect(browser.run(WHOLE), f"{size}: the banner is cut off: {browser.text('#banner')!r}")


# ---------------------------------------------------------------------------- one page too many


def too_many(shots):
    """One page more than may be open is told so, and what to do; and it is let in once another is
    closed. Two may be open here."""
    with laboratory([LEFT]) as lab:
        lab.start_station().start_limited(STREAMS=2).filmed(60)
        with opened(lab) as browser:
            for _ in range(2):
                browser.driver.switch_to.new_window("tab")
                browser.dress("1440x900", "dark")
                browser.driver.get(browser.address)
                if len(browser.driver.window_handles) < 3:
                    browser.until(browser.has_pictures, "pictures")
            browser.until(
                lambda: "Too many pages are open: 2." in browser.text("#banner"), "word of it"
            )
            browser.until(lambda: browser.text("#pill") == "Not let in", "pill")
            browser.named("What to do").click()
            expect("Close pages" in browser.text("#advice"), f"advice: {browser.text('#advice')!r}")
            browser.shot(shots, "too-many")
            first, *_, last = browser.driver.window_handles
            browser.driver.switch_to.window(first)
            browser.until(browser.has_pictures, "pictures of who was there before")
            browser.driver.close()
            browser.driver.switch_to.window(last)
            browser.until(browser.has_pictures, "pictures once another page is closed")
            browser.until(lambda: "Too many" not in browser.text("#banner"), "end of it")
    return "the third of two"


STEPS = (joined, moment, strange, aged, unknown, sixteen, too_many)


def stress_part(is_quick, shots, names=()):
    """The steps of these names, or all."""
    took = []
    for step in [it for it in STEPS if not names or it.__name__ in names]:
        start = time.monotonic()
        try:
            found = step(shots)
        except WebDriverException as fault:
            raise Wrong(f"{step.__name__}: {fault.msg}") from None
        except (Wrong, AssertionError) as wrong:
            raise Wrong(f"{step.__name__}: {wrong}") from None
        took.append(f"{step.__name__} {time.monotonic() - start:.0f} s ({found})")
    return f"stress: all is as it ought to be: {', '.join(took)}"
