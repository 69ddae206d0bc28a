"""How tools/check runs the check `picture`, and what is wrong that this has to find."""
from kinds import Kind, Wrong, changed_copy

KIND = Kind(
    "store_picture_check",
    [],
    [],
    [],
    "store_picture has no labels that overlap, and names each block",
    [
        Wrong(
            "a store_picture that is as wide as it likes",
            given={"STORE_PICTURE": changed_copy("tools/store_picture", " = 4000, ", " = 9000, ")},
            says="pixels wide",
        )
    ],
)
