"""How tools/check runs the check `docs`, and what is wrong that this has to find."""
from kinds import Kind, Wrong, changed_copy

KIND = Kind(
    "docs_check",
    [],
    ["README.md", "docs/export.md"],
    ["LOOP_CLI", "LOOP_STATION", "LAPYREI"],
    "types the commands of README and other pages (ffmpeg)",
    [
        Wrong(
            "a README with another word",
            given={"PAGE": changed_copy("README.md", "\n    formatted\n", "\n    formated\n")},
            says="and the page says",
        )
    ],
)
