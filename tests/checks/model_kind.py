"""How tools/check runs the check `model`, and what is wrong that this has to find."""
from kinds import Kind, Wrong

FOUND = {
    "anew": "a sequence that begins anew at each start",
    "lost": "lost frames that aren't counted",
    "newest": "the newest block goes",
    "store": "the oldest block of the newest one's store goes",
    "clock": "the block with the oldest time goes",
    "locks": "locked blocks go",
}
KIND = Kind(
    "model_check",
    ["--runs", "64"],
    None,
    ["LOOP_STATION"],
    "compares cameras' stores with a plain model, over starts, kills, numbers, clocks and locks",
    [
        Wrong(what, words=["--runs", "48", "--seed", "1", "--rule", rule], says="wrong: seed")
        for rule, what in FOUND.items()
    ],
)
