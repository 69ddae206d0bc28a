"""The console's part of page_check: what it gives beyond pictures and a button, for those who work
with it all day, by pointer, by keys alone, and heard by a screen reader."""
import contextlib
import shutil
import sys
import tempfile
import time

from browser import Browser
from conftest import Laboratory
from page_access import STEPS as ACCESS
from page_lost import SETTINGS
from page_lost import STEPS as LOST
from page_strangers import Wrong
from page_work import NAME
from page_work import STEPS as WORK
from selenium.common.exceptions import WebDriverException

LONG = "a-camera-whose-name-has-32-signs"
CAMERAS = [
    {"name": "pendulum", "pattern": "320x240 YM12 25:1", "scene": "pendulum"},
    {"name": LONG, "pattern": "160x120 GREY 10:1", "bits": 12},
    {"name": "pump", "pattern": "96x128 GREY 10:1", "scene": "beam"},
]
ROOM = {"keep": 3, "slots": 50, "segments": 24}
STEPS = (*ACCESS, *WORK, *LOST)


@contextlib.contextmanager
def laboratory():
    """A laboratory whose station and page run, in a new folder."""
    folder = tempfile.mkdtemp(prefix="page_check", dir="/var/tmp")
    cameras = [ROOM | camera for camera in CAMERAS]
    lab = Laboratory(folder, cameras, as_it_is=True, tells_lost=True)
    (lab.folder / "page.toml").write_text(SETTINGS)
    try:
        lab.start_station().start_page("--name", NAME, "--settings", "page.toml")
        yield lab
    finally:
        lab.close()
        shutil.rmtree(folder)


def begin(browser, lab):
    """Opens the page anew, with nothing that an earlier step left: warnings, and what the browser
    remembers."""
    browser.driver.get("about:blank")
    origin = {"origin": browser.address.rstrip("/"), "storageTypes": "local_storage"}
    browser.cdp("Storage.clearDataForOrigin", origin)
    if alerts := lab.status()["alerts"]:
        lab.post("/api/seen", {"ids": [it["id"] for it in alerts]})
    browser.dress("1440x900", "dark")
    browser.open()


def console_part(is_quick, shots, names=()):
    """The steps of these names, or all, each from a page that is opened anew."""
    took = []
    with laboratory() as lab:
        lab.filmed(60, "pendulum")
        browser = Browser(lab)
        try:
            for step in [it for it in STEPS if not names or it.__name__ in names]:
                start = time.monotonic()
                begin(browser, lab)
                try:
                    step(browser, lab, shots)
                except WebDriverException as fault:
                    raise Wrong(f"{step.__name__}: {fault.msg}") from None
                except Wrong as wrong:
                    raise Wrong(f"{step.__name__}: {wrong}") from None
                took.append(f"{step.__name__} {time.monotonic() - start:.1f} s")
        finally:
            browser.driver.quit()
    return f"console: all is as it ought to be: {', '.join(took)}"


if __name__ == "__main__":
    print(console_part(True, None, sys.argv[1:]))
