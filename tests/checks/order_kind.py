"""How tools/check runs the check `order`, and what is wrong that this has to find."""
from kinds import Kind, Wrong

KIND = Kind(
    "order_check",
    [],
    ["events", "held", "saves"],
    ["LOOP_STATION"],
    (
        "gives the station orders: which seconds it locks, which texts it writes, and what it"
        " goes on with after a kill"
    ),
    [
        Wrong(
            "a station that does nothing",
            {"LOOP_STATION": "return 0;"},
            words=["held"],
            says="not after",
        )
    ],
)
