"""How tools/check runs the check `info`, and what is wrong that this has to find."""
from kinds import Kind, Wrong, changed_copy

KIND = Kind(
    "store_info_check",
    [],
    ["1000"],
    ["LOOP_CLI"],
    (
        "store_info says what `list` and a calendar say, of 2,000 random stores and beside a"
        " writer"
    ),
    [
        Wrong(
            "a store_info whose next number is one more",
            given={
                "STORE_INFO": changed_copy("tools/store_info", "{store.next}", "{store.next + 1}")
            },
            says="list says",
        )
    ],
)
