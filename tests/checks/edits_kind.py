"""How tools/check runs the check `edits`, and what is wrong that this has to find."""
from kinds import Kind, Wrong, changed_copy

KIND = Kind(
    "edits_check",
    [],
    [],
    [],
    "each wrong body fits its source, whether the gate tries it or not",
    [
        Wrong(
            "a body whose text isn't in the source",
            given={
                "EDITS": changed_copy(
                    "tests/wrong/loop_ring.edits",
                    "clips == 0",
                    "clips < 0",
                )
            },
            says="clips < 0\\)' stands 0 times",
        )
    ],
)
