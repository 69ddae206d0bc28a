"""How tools/check runs the check `reload`, and what is wrong that this has to find."""
from kinds import Kind, Wrong

KIND = Kind(
    "reload_check",
    [],
    ["followed", "refused"],
    ["LOOP_STATION"],
    (
        "changes a station's configuration while it records: which cameras go on, end and begin,"
        " and what kills leave"
    ),
    [
        Wrong(
            "a station that does nothing",
            {"LOOP_STATION": "return 0;"},
            words=["refused"],
            says="nobody|not after|has stored no|answer",
        )
    ],
)
