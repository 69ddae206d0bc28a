"""How tools/check runs the check `package`, and what is wrong that this has to find."""
from kinds import Kind, Wrong

KIND = Kind(
    "package_check",
    [],
    None,
    ["LOOP_CLI", "LOOP_STATION", "LAPYREI"],
    "installs the package in a clean root, upgrades and removes it (root; network)",
    [Wrong("a station that does nothing", {"LOOP_STATION": "return 0;"}, says="loop_station")],
)
