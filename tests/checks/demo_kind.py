"""How tools/check runs the check `demo`, and what is wrong that this has to find."""
import shutil

from kinds import TOOLS, TOP, Kind, Wrong, changed_copy


def changed_demo(old, new):
    """A copy of tools/demo in which something is changed, with all that it starts: what makes it,
    from a folder."""

    def make(folder):
        for name in ("python", "examples", "tools"):
            shutil.copytree(TOP / name, folder / name)
        changed = changed_copy("tools/demo", old, new)(folder)
        shutil.copymode(TOOLS / "demo", changed)
        shutil.move(changed, folder / "tools/demo")
        return str(folder / "tools/demo")

    return make


KIND = Kind(
    "demo_check",
    [],
    [],
    ["LOOP_STATION"],
    (
        "starts tools/demo, looks at page and stores, and ends it in each way (the page's"
        " packages)"
    ),
    [
        Wrong(
            "a demo that leaves its folder",
            given={
                "DEMO": changed_demo(
                    "ended.callback(shutil.rmtree", "(lambda *_, **__: 0)(shutil.rmtree"
                )
            },
            says="left .*lapyrei-demo-|after Ctrl-C .* is there",
        ),
        Wrong(
            "a demo whose programs outlive it",
            given={"DEMO": changed_demo("LIBC.prctl(PARENT_DEATH, signal.SIGKILL)", "pass")},
            says="after a kill .* runs",
        ),
        Wrong(
            "cameras whose picture stands still",
            given={
                "DEMO": changed_demo(
                    "in CAMERAS:\n        start_camera", "in []:\n        start_camera"
                )
            },
            says="shows no picture|stands still|no 'http",
        ),
    ],
)
