"""How tools/check runs the check `cycles`, and what is wrong that this has to find."""
from kinds import Kind, Wrong, changed_crate

ROOT = "use crate::Clip;\n"
KIND = Kind(
    "cycles_check",
    [],
    [],
    [],
    "the modules of no crate name each other in a circle, but those that are known",
    [
        Wrong(
            "a module that names one above it",
            given={
                "CYCLES": changed_crate(
                    "loop_clips", "table.rt", ROOT, ROOT + "use crate::upgrade::clear_tag;\n"
                )
            },
            says="loop_clips: table upgrade name each other",
        ),
        Wrong(
            "a module that names one above it by what the root passes on",
            given={
                "CYCLES": changed_crate(
                    "loop_clips", "clip.rt", "\n#[derive", "\nuse crate::ClipTable;\n#[derive"
                )
            },
            says="loop_clips: clip table name each other",
        ),
        Wrong(
            "a circle in the code of functions alone",
            given={
                "CYCLES": changed_crate(
                    "loop_clips", "table.rt", "[0; CLIP_SIZE]", "crate::upgrade::entry()"
                )
            },
            says="loop_clips: table upgrade name each other",
        ),
    ],
)
