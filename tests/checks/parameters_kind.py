"""How tools/check runs the check `parameters`, and what is wrong that this has to find."""
from kinds import Kind, Wrong, changed_crate

KIND = Kind(
    "parameters_check",
    [],
    [],
    [],
    "no function takes more than six parameters, but those that are known",
    [
        Wrong(
            "a function with a seventh parameter, whose types have commas of their own",
            given={
                "PARAMETERS": changed_crate(
                    "loop_clips",
                    "upgrade.rt",
                    "fn clear_tag<D: Disk>(disk: &mut D, id: u32)",
                    "fn clear_tag<D: Disk>(disk: &mut D, id: u32, (a, b): (u8, u8), c: [u8; 2],"
                    " d: Result<u8, u8>, e: fn(u8, u8) -> u8, f: u8)",
                )
            },
            says="upgrade/clear_tag takes 7 parameters",
        ),
    ],
)
