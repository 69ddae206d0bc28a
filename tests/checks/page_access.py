"""Steps of page_check's part `console`: who sees little, has no mouse, or a narrow screen. Names of
lanes, 320 pixels, the names and roles that a screen reader is told, the focus, what is read aloud,
and keys of one letter."""
import re
import time

from browser import BEYOND, Keys
from page_strangers import expect

# Widths and heights: a wide desk, a small laptop, a phone, and a desk whose text is four times as
# large, as WCAG 2 asks for it.
WIDE, SMALL, PHONE, ZOOMED = (1920, 1080), (1280, 720), (320, 568), (320, 256)
# What is wrong with the names of the lanes: one that is cut off, that reaches over its track, or
# beyond the screen; and a scale of times that doesn't stand over the tracks.
LANES = """
const found = [], tracks = document.querySelector('#tracks');
const box = tracks.getBoundingClientRect(), pen = tracks.getContext('2d');
const part = tracks.height / tracks.clientHeight;
for (const name of document.querySelectorAll('#names li')) {
    const range = document.createRange(); range.selectNodeContents(name);
    const text = range.getBoundingClientRect(), own = name.getBoundingClientRect();
    if (name.scrollWidth > Math.ceil(own.width) || getComputedStyle(name).textOverflow !== 'clip'
        || text.height > own.height + 1) found.push(`${name.textContent} is cut off`);
    if (text.right > innerWidth || text.left < 0)
        found.push(`${name.textContent} is off the screen`);
    if (text.right <= box.left) continue;
    const rows = [text.top + 3, (text.top + text.bottom) / 2, text.bottom - 3].map((y) =>
        pen.getImageData(0, Math.round((y - box.top) * part), tracks.width, 1).data);
    if (rows.some((row) => row.filter((it, at) => at % 4 === 3 && it).length > tracks.width / 10))
        found.push(`${name.textContent} stands on its track`); }
if (Math.abs(document.querySelector('#scale').getBoundingClientRect().left - box.left) > 1)
    found.push('the times do not stand over the tracks');
if (box.width < tracks.parentElement.clientWidth / 2)
    found.push('the names leave the tracks no room');
return found;"""
# Roles that say nothing of what a control is.
NO_ROLE = {"generic", "none", "presentation", "unknown", "GenericContainer", ""}
# Pictures and what comes before the page; and the page's parts.
PICTURES = {"image", "img", "dialog", "alert"}
PARTS = {"banner", "main", "region", "complementary", "form", "list"}
# How the focus is seen: by its outline, within the screen, and not under something else.
FOCUS = """const it = document.activeElement, style = getComputedStyle(it),
    box = it.getBoundingClientRect();
const x = box.left + box.width / 2, y = box.top + Math.min(box.height / 2, 30);
const top = document.elementFromPoint(x, y);
return { name: it.ariaLabel || it.textContent.trim() || it.id, isBody: it === document.body,
    outline: style.outlineStyle === 'none' ? 0 : parseFloat(style.outlineWidth),
    seen: Boolean(top) && (it.contains(top) || top.contains(it)),
    next: !window.before || Boolean(window.before.compareDocumentPosition(it)
        & Node.DOCUMENT_POSITION_FOLLOWING), mark: (window.before = it) && 1 };"""
# Counts what is read aloud from here on, and how often the line above the pictures changes.
LISTEN = """window.heard = []; window.shown = 0;
const live = '[role=status], [role=alert], [aria-live=polite], [aria-live=assertive], output';
for (const it of document.querySelectorAll(live)) new MutationObserver(() => {
    if (it.ariaLive !== 'off') window.heard.push(it.textContent); }).observe(it,
        { childList: true, characterData: true, subtree: true });
new MutationObserver(() => window.shown++).observe(document.querySelector('#banner-text'),
    { childList: true, characterData: true, subtree: true });"""


SIDEWAYS = """return [...document.querySelectorAll('dialog[open]')].filter((it) =>
    it.scrollWidth > it.clientWidth).map((it) => it.id)"""


def wide(browser, size, is_phone):
    """Sets a size of the screen."""
    words = {"width": size[0], "height": size[1], "deviceScaleFactor": 1, "mobile": is_phone}
    browser.cdp("Emulation.setDeviceMetricsOverride", words)
    time.sleep(0.6)


def lanes(browser, lab, shots):
    """Each lane has its whole name, at all widths, beside or above its track."""
    for size in (WIDE, SMALL, PHONE):
        wide(browser, size, size == PHONE)
        browser.nothing(lambda: browser.run(LANES), f"{size[0]} wide")
        browser.shot(shots, f"lanes-{size[0]}")


def states(browser):
    """The states in which the page is looked at: its name, the keys that lead there from all
    cameras, and those that lead back."""
    yield "all cameras", lambda: None, lambda: None
    yield "large", lambda: browser.keys("2"), lambda: browser.keys("0")
    yield (
        "event",
        lambda: browser.run("document.querySelector('#events .acts button').click()"),
        lambda: browser.keys("l"),
    )
    yield "keys", lambda: browser.keys("?"), lambda: browser.keys(Keys.ESCAPE)
    yield "warnings", lambda: browser.keys("b"), lambda: browser.keys(Keys.ESCAPE)
    for place, name in ((1, "download"), (-1, "release")):
        script = f"[...document.querySelectorAll('#events .acts button')].at({place}).click()"
        yield (
            name,
            lambda script=script: browser.run(script),
            lambda: browser.keys(Keys.ESCAPE),
        )


def with_event(browser, lab):
    """An event is in the list."""
    if not browser.all("#events .event"):
        expect(lab.post("/api/keep", {"seconds": 2, "note": "a note"}).status == 200, "no event")
        browser.until(lambda: browser.all("#events .event"), "event")
    browser.run("document.activeElement.blur()")


def narrow(browser, lab, shots):
    """A screen 320 wide scrolls in one direction alone, whatever is open; and so does a desk whose
    text is four times as large."""
    with_event(browser, lab)
    for size, is_phone in ((PHONE, True), (ZOOMED, False)):
        wide(browser, size, is_phone)
        for name, there, back in states(browser):
            there()
            time.sleep(0.4)
            what = f"{size[0]}x{size[1]}, {name}"
            browser.nothing(lambda: browser.run(BEYOND, True), what)
            browser.nothing(lambda: browser.run(SIDEWAYS), f"{what} scrolls sideways")
            browser.shot(shots, f"narrow-{size[1]}-{name.replace(' ', '-')}")
            back()
            time.sleep(0.2)


def heard_as(browser, roles=PICTURES):
    """What a screen reader is told of each control, and of what has one of these roles: its own
    role and its name."""
    browser.cdp("Accessibility.enable", {})
    for node in browser.cdp("Accessibility.getFullAXTree", {})["nodes"]:
        words = {it["name"]: it["value"].get("value") for it in node.get("properties", [])}
        role = node.get("role", {}).get("value", "")
        if node.get("ignored") or role == "RootWebArea":
            continue
        if words.get("focusable") or role in roles:
            yield role, node.get("name", {}).get("value", "").strip()


def nameless(browser):
    """What is heard without a name or a role."""
    return [it for it in heard_as(browser) if not it[1] or it[0] in NO_ROLE][:5]


def names(browser, lab, shots):
    """All that has the focus, and each picture, has a name and a role, in each state."""
    with_event(browser, lab)
    for state, there, back in states(browser):
        there()
        time.sleep(0.5)
        browser.until(lambda: len(list(heard_as(browser))) > 1, f"{state}: controls that are heard")
        browser.nothing(lambda: nameless(browser), f"{state}: heard without a name or a role")
        back()
        time.sleep(0.3)
    parts = {role for role, _ in heard_as(browser, PARTS)}
    expect(PARTS <= parts, f"the page has no {PARTS - parts}")


def focus(browser, lab, shots):
    """The tabulator goes through all controls in the order in which they are written, and the focus
    is always seen: on a desk and on a phone, where the button's bar covers nothing of it."""
    with_event(browser, lab)
    for size, is_phone in ((SMALL, False), (PHONE, True)):
        wide(browser, size, is_phone)
        browser.run("document.activeElement.blur(); scrollTo(0, 0); window.before = null")
        met = []
        for _ in range(90):
            browser.keys(Keys.TAB)
            time.sleep(0.03)
            found = browser.run(FOCUS)
            if found["isBody"] or (met and not found["next"]):
                break
            expect(found["outline"] >= 2, f"{size[0]}: the focus isn't seen on {found['name']!r}")
            expect(found["seen"], f"{size[0]}: {found['name']!r} is under something else")
            met.append(found["name"])
        expect(len(met) > 15, f"{size[0]}: the tabulator leads to {met} alone")
        order = [met.index(next(it for it in met if word in it)) for word in ORDER]
        expect(order == sorted(order), f"{size[0]}: the order of the tabulator is {met}")


# The names of some controls in the order in which they are reached.
ORDER = ("To the red button", "Warnings", "pendulum", "Timeline", "1 min", "Play", "Seconds")


def aloud(browser, lab, shots):
    """What is wrong is read aloud once, and not each second for how long; and what is over."""
    time.sleep(1)
    lab.order("!pause pump")
    spoken = "return document.querySelector('#spoken').textContent"
    browser.until(lambda: "pump" in browser.run(spoken), "word aloud of a camera without frames")
    browser.run(LISTEN)
    browser.until(lambda: browser.run("return window.shown") >= 5, "line that counts the seconds")
    heard = [it for it in browser.run("return window.heard") if "pump" in it]
    expect(len(heard) <= 2, f"in 5 s {len(heard)} sentences are read aloud: {heard[:6]}")
    lab.order("!go pump")
    browser.until(lambda: "3 of 3" in browser.run(spoken), "word aloud that it is over")


def letters(browser, lab, shots):
    """Keys of one letter can be switched off, which the browser remembers; the others stay."""
    browser.keys("?")
    browser.run("document.querySelector('#letters').click()")
    browser.keys(Keys.ESCAPE)
    for again in (False, True):
        if again:
            browser.open()
        before = len(lab.ordered())
        browser.run("document.activeElement.blur()")
        browser.keys("k", "2", "b")
        time.sleep(0.5)
        keeps = [it for it in lab.ordered()[before:] if it.startswith("keep")]
        expect(not keeps, f"a letter that is no key keeps: {keeps}")
        expect(browser.one("#stage").is_displayed(), "a digit that is no key opens a camera")
    browser.keys(Keys.ARROW_LEFT)
    browser.until(lambda: " ago" in browser.text(".cam .past"), "moment by an arrow")
    browser.run("document.querySelector('#letters').click()")
    browser.keys("l")
    browser.until(lambda: not browser.one(".cam .past").is_displayed(), "live again by a letter")
    expect(re.search("on", browser.run("return localStorage.getItem('letters')")), "not remembered")


def left(browser, lab, shots):
    """A page that was left, which the browser keeps to go back to it, takes none of its six
    connections to the server: the eighth has pictures as soon as the others, and waits for no
    connection of an earlier one to be closed."""
    took = []
    for _ in range(OPENED):
        browser.driver.get("about:blank")
        begun = time.monotonic()
        browser.open()
        took.append(time.monotonic() - begun)
    most = LATE + 3 * sorted(took)[OPENED // 2]
    expect(max(took) < most, f"a page waits for others: {', '.join(f'{it:.1f} s' for it in took)}")
    browser.driver.back()
    browser.driver.back()
    browser.until(browser.has_pictures, "pictures of a page that somebody goes back to")
    count = lab.stored("pendulum")[-1].number
    number = "return Number(document.querySelector('.cam').dataset.number)"
    browser.until(lambda: browser.run(number) > count, "pictures that go on there")


# A browser gives all pages of a server six connections. The server closes one of which nobody reads
# after 20 s; so many seconds aren't noise.
OPENED, LATE = 8, 10
STEPS = (lanes, narrow, names, focus, aloud, letters, left)
