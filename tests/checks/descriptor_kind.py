"""How tools/check runs the check `descriptor`, and what is wrong that this has to find."""
from kinds import Kind, Wrong

# A program that opens its files wherever there is room: below descriptor 3, where its lines go.
LOW = 'if (fcntl(1, F_GETFD) < 0 && open("store", O_RDWR) == 0) dup2(0, 1);'

KIND = Kind(
    "descriptor_check",
    [],
    [],
    ["LOOP_CLI", "LOOP_STATION"],
    "runs each command, and the station, with standard descriptors closed",
    [
        Wrong(
            "a program whose files have the descriptors of its outputs",
            {"LOOP_CLI": LOW},
            says="store begins with",
        )
    ],
)
