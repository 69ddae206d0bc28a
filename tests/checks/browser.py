"""A headless Chromium with the laboratory's page, for page_check and page_shots: what is on it,
keys, sizes, themes, pictures, and whether its controls have names and its texts enough contrast.
Where Debian's packages are missing it installs them, as root."""
import base64
import contextlib
import subprocess
import sys
import time
from pathlib import Path

sys.dont_write_bytecode = True
TOP = Path(__file__).resolve().parent.parent.parent
sys.path[1:1] = [str(TOP / "tools"), str(TOP / "tests" / "page")]

PACKAGES = [
    "chromium-driver",
    "ffmpeg",
    "python3-aiohttp",
    "python3-numpy",
    "python3-pil",
    "python3-prometheus-client",
]
PACKAGES += ["python3-pytest", "python3-selenium"]


def install_missing(packages):
    """Installs what is missing of Debian's packages, as root."""
    words = ["dpkg-query", "-W", "-f", "${Package} ${db:Status-Status}\n", *packages]
    there = subprocess.run(words, capture_output=True, text=True).stdout.splitlines()
    missing = [name for name in packages if f"{name} installed" not in there]
    if missing:
        print(f"installing {' '.join(missing)}", flush=True)
        install = ["apt-get", "install", "-y", "--no-install-recommends", *missing]
        subprocess.run(install, check=True, stdout=subprocess.DEVNULL)


install_missing(PACKAGES)
from conftest import LIMIT
from page_strangers import Wrong, expect
from selenium import webdriver
from selenium.common.exceptions import (
    JavascriptException,
    NoSuchElementException,
    StaleElementReferenceException,
)
from selenium.webdriver.chrome.options import Options
from selenium.webdriver.chrome.service import Service
from selenium.webdriver.common.action_chains import ActionChains
from selenium.webdriver.common.by import By
from selenium.webdriver.common.keys import Keys

# The sizes at which the page is looked at: a desk, an older screen, a phone, and a narrow one.
SIZES = {
    "1440x900": (1440, 900, False),
    "1024x768": (1024, 768, False),
    "390x844": (390, 844, True),
    "320x568": (320, 568, True),
}
# The seconds in which a busy machine has laid a page out anew.
SETTLED = 10
# The ratio that WCAG 2 asks of text.
CONTRAST = 4.5
# Texts whose contrast is too low, by the colours that stand behind them; those on pictures stand on
# a shade of their own.
PALE = (
    """
const light = (colour) => { const [r, g, b] = colour.map((it) => { const c = it / 255;
    return c <= 0.03928 ? c / 12.92 : ((c + 0.055) / 1.055) ** 2.4; });
    return 0.2126 * r + 0.7152 * g + 0.0722 * b; };
const pen = new OffscreenCanvas(1, 1).getContext('2d', { willReadFrequently: true });
const numbers = (text) => { pen.clearRect(0, 0, 1, 1); pen.fillStyle = text;
    pen.fillRect(0, 0, 1, 1); const it = [...pen.getImageData(0, 0, 1, 1).data];
    return [...it.slice(0, 3), it[3] / 255]; };
const over = (front, back) => front.slice(0, 3).map((it,
    place) => it * front[3] + back[place] * (1 - front[3]));
const behind = (element) => { const layers = []; for (let it = element; it;
    it = it.parentElement) { const found = numbers(getComputedStyle(it).backgroundColor);
    if (found[3] > 0) layers.push(found); if (found[3] > 0.99) break;
        } return layers.reverse().reduce((back, front) => over(front, back), [255, 255, 255]); };
const found = [];
const judge = (element, text, style) => { const back = behind(element),
    one = light(over(numbers(style.color), back)), two = light(back);
    const ratio = (Math.max(one, two) + 0.05) / (Math.min(one, two) + 0.05);
    const name = `${element.tagName}.${element.className} ${text.trim().slice(0, 30)}`;
    if (ratio < %s) found.push(`${name} ${ratio.toFixed(2)}`); };
const walk = document.createTreeWalker(document.body, NodeFilter.SHOW_TEXT);
while (walk.nextNode()) { const element = walk.currentNode.parentElement;
    if (!walk.currentNode.data.trim() || !element.checkVisibility()
        || element.closest('.unseen, option')) continue;
    judge(element, walk.currentNode.data, getComputedStyle(element)); }
for (const element of document.querySelectorAll('input, select')) if (element.checkVisibility()) {
    judge(element, element.value || '', getComputedStyle(element));
    if (element.placeholder) judge(element, element.placeholder, getComputedStyle(element,
        '::placeholder')); }
return found;"""
    % CONTRAST
)
# Controls that are seen and have no name by a label, a text or a title of their own.
NAMELESS = """return [...document.querySelectorAll(
    'button, a, input, select, canvas, progress, dialog[open]')].filter((it) =>
    it.checkVisibility() && it.ariaHidden !== 'true'
        && !(it.ariaLabel || it.textContent.trim() || it.title
        || it.labels?.[0]?.textContent.trim()))"""
# What reaches beyond the screen, and what is cut off within its own box.
BEYOND = """const found = []; const wide = document.documentElement.clientWidth,
    high = innerHeight, scrolls = document.scrollingElement;
if (scrolls.scrollWidth > wide) found.push(`the page is ${scrolls.scrollWidth} wide`);
if (!arguments[0] && scrolls.scrollHeight > high)
    found.push(`the page is ${scrolls.scrollHeight} high`);
const boxes = 'button, select, input, .cam, .line, .side, .press, .bar, .banner';
for (const it of document.querySelectorAll(boxes)) {
    if (!it.checkVisibility() || it.closest('.events, #large-side, dialog')) continue;
    const box = it.getBoundingClientRect(); if (box.right > wide + 1 || box.left < -1
        || (!arguments[0] && (box.bottom > high + 1 || box.top < -1)))
        found.push(`${it.tagName} ${it.id || it.className} reaches beyond the screen`); }
return found;"""


class Browser:
    """A headless browser with the page of a laboratory."""

    def __init__(self, lab):
        self.lab = lab
        options = Options()
        for word in (
            "--headless=new",
            "--no-sandbox",
            "--disable-gpu",
            "--window-size=1440,900",
            "--disable-dev-shm-usage",
            "--force-color-profile=srgb",
        ):
            options.add_argument(word)
        options.set_capability("goog:loggingPrefs", {"browser": "ALL"})
        self.driver = webdriver.Chrome(service=Service("/usr/bin/chromedriver"), options=options)
        self.driver.set_script_timeout(120)
        self.address = f"http://127.0.0.1:{lab.port}/"
        self.dress("1440x900", "dark")

    def dress(self, size, theme):
        """Sets the size of the screen and the theme of the system."""
        width, height, is_phone = SIZES[size]
        self.cdp(
            "Emulation.setDeviceMetricsOverride",
            {
                "width": width,
                "height": height,
                "deviceScaleFactor": 2 if is_phone else 1,
                "mobile": is_phone,
            },
        )
        self.cdp("Emulation.setTouchEmulationEnabled", {"enabled": is_phone})
        self.cdp(
            "Emulation.setEmulatedMedia",
            {"features": [{"name": "prefers-color-scheme", "value": theme}]},
        )

    def cdp(self, word, words):
        """Asks the browser itself for something."""
        return self.driver.execute_cdp_cmd(word, words)

    def open(self):
        """Opens the page, and waits for the pictures of all its cameras."""
        self.driver.get(self.address)
        self.until(self.has_pictures, "pictures")

    def has_pictures(self):
        """Whether each camera that is shown has a picture."""
        tiles = "[...document.querySelectorAll('.cam')].filter((it) => it.checkVisibility())"
        return self.run(
            f"const all = {tiles}; return all.length > 0 && all.every((it) => it.dataset.number)"
        )

    def run(self, script, *words):
        """Runs a script in the page."""
        return self.driver.execute_script(script, *words)

    def until(self, reached, what):
        """Waits for something, and answers it. Between two pages an element may be none, or
        gone."""
        end = time.monotonic() + LIMIT
        while time.monotonic() < end:
            with contextlib.suppress(
                NoSuchElementException, StaleElementReferenceException, JavascriptException
            ):
                if found := reached():
                    return found
            time.sleep(0.03)
        raise Wrong(f"no {what} within {LIMIT} s")

    def still(self, look, what, seconds=1.5):
        """What is seen once that has stayed the same for so long: what was on its way has come."""
        seen = [look(), time.monotonic()]

        def is_still():
            """Whether it is what it was."""
            if (now := look()) != seen[0]:
                seen[:] = now, time.monotonic()
            return time.monotonic() - seen[1] > seconds

        self.until(is_still, what)
        return seen[0]

    def nothing(self, look, what):
        """Waits until nothing wrong is seen any more; where something stays, it is said."""
        end = time.monotonic() + SETTLED
        while found := look():
            expect(time.monotonic() < end, f"{what}: {found}")
            time.sleep(0.1)

    def one(self, selector):
        """An element."""
        return self.driver.find_element(By.CSS_SELECTOR, selector)

    def all(self, selector):
        """Some elements."""
        return self.driver.find_elements(By.CSS_SELECTOR, selector)

    def named(self, name):
        """The button or link of a name, as those hear it who don't see."""
        script = (
            "return [...document.querySelectorAll('button, a')].find((it) => it.checkVisibility()"
            " && (it.ariaLabel || it.textContent.trim()) === arguments[0])"
        )
        found = self.until(lambda: self.run(script, name), f"control {name!r}")
        expect(
            found.accessible_name.strip() == name, f"{name!r} is heard as {found.accessible_name!r}"
        )
        return found

    def text(self, selector):
        """The text of an element."""
        return self.one(selector).text

    def focused(self):
        """The name of what has the focus."""
        return self.driver.switch_to.active_element.accessible_name

    def keys(self, *keys):
        """Presses keys."""
        ActionChains(self.driver).send_keys(*keys).perform()

    def tab_to(self, name, most=80):
        """Goes to a control by the tabulator alone."""
        for _ in range(most):
            if self.focused() == name:
                return
            self.keys(Keys.TAB)
        raise Wrong(f"the tabulator doesn't lead to {name!r}")

    def judge_look(self, is_phone):
        """Fails where something reaches beyond the screen, has no name, or is too pale."""
        beyond = self.run(BEYOND, is_phone)
        expect(not beyond, f"{beyond[:4]}")
        # The browser is asked for the names of those alone that have none by the simple rules.
        for element in self.run(NAMELESS):
            with contextlib.suppress(StaleElementReferenceException):
                html = element.get_attribute("outerHTML")[:120]
                expect(element.accessible_name.strip(), f"a control has no name: {html}")
        pale = self.run(PALE)
        expect(not pale, f"text is too pale: {pale[:5]}")

    def shot(self, folder, name, quality=None):
        """Leaves a picture of the screen: PNG, or JPEG where a quality is given."""
        if folder:
            words = {"format": "png"} if quality is None else {"format": "jpeg", "quality": quality}
            found = self.cdp("Page.captureScreenshot", words)
            (Path(folder) / f"{name}.{'png' if quality is None else 'jpg'}").write_bytes(
                base64.b64decode(found["data"])
            )
