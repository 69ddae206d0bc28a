"""How tools/check runs the check `laws`, and what is wrong that this has to find."""
import shutil

from kinds import TOP, Kind, Wrong

CORE = "crates/loop_station_core"


def changed_core(file, old, new):
    """A folder with the core alone, in which a file is changed: what makes it, from a folder."""

    def make(folder):
        for part in ("src", "specs"):
            shutil.copytree(TOP / CORE / part, folder / CORE / part)
        text = (TOP / CORE / file).read_text()
        assert text.count(old) == 1, f"{file} has {old!r} {text.count(old)} times"
        (folder / CORE / file).write_text(text.replace(old, new))
        return str(folder)

    return make


KIND = Kind(
    "laws_check",
    [],
    [],
    [],
    "a law speaks of each decision of the station's core",
    [
        Wrong(
            "a decision without its law",
            given={
                "LAWS": changed_core(
                    "src/laws.rt", "ensures { KeepsHaveRoom }", "ensures { FramesAddUp }"
                )
            },
            says="clips.rt: keeps_in is what Clips.keeps_in says, and no law",
        ),
        Wrong(
            "a public function without a clause",
            given={
                "LAWS": changed_core(
                    "src/newest.rt",
                    "    ensures { IsTrue result ↔ (counts_ahead newest other"
                    " < counts_ahead newest one) }\n{",
                    "{",
                )
            },
            says="newest/opens_before says nothing",
        ),
        Wrong(
            "a definition that nothing names",
            given={
                "LAWS": changed_core(
                    "specs/Sets.antt",
                    "-- how many frames a store holds,",
                    "abbrev pub ids_of : ℕ → ℕ\nids_of store = store * 64\n\n"
                    "-- how many frames a store holds,",
                )
            },
            says="specs/Sets.antt: no clause and no law names ids_of",
        ),
    ],
)
