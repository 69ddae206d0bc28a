"""How tools/check runs the check `vivid`, and what is wrong that this has to find."""
from kinds import Kind, Wrong

KIND = Kind(
    "vivid_check",
    [],
    None,
    ["LOOP_STATION"],
    "films the kernel's camera without hardware in a guest, and compares frames (qemu; network)",
    [
        Wrong(
            "loop_camera with one wrong thing, 11 times",
            words=["--wrong"],
            says="11 of 11 wrong forms are found",
            status=0,
        )
    ],
)
