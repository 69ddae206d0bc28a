"""How tools/check runs the check `uses`, and what is wrong that this has to find."""
from kinds import Kind, Wrong, changed_copy

KIND = Kind(
    "uses_check",
    [],
    [],
    [],
    "each public call that requires something has a caller that is proved",
    [
        Wrong(
            "a call that is no longer made",
            given={
                "USES": changed_copy(
                    "crates/loop_uses/src/disk.rt",
                    "disk.crash(3, Spoil::Zero)",
                    "other(3, Spoil::Zero)",
                )
            },
            says="loop_disk: CrashDisk::crash is called by no proved function",
        )
    ],
)
