"""How tools/check runs the check `power`, and what is wrong that this has to find."""
import planted
from kinds import NO_SYNC, Kind, Wrong

BOOTS = ["800", "--boots"]
# What is said of each of tests/wrong/power.faults.
SAYS = {
    "the_lowest_store_is_first": "films on with",
    "the_file_written_last_is_first": "films on with",
    "open_events_are_forgotten": "neither go on nor are over",
    "a_file_of_events_is_removed_at_once": "told as over, and (are noted|comes back)",
    "the_count_begins_anew": "other sequences",
}


# The files of what is found are kept no longer than it takes.
KEPT = {"POWER_KEPT": str}


def station_with(number):
    """What is given so that the station has the fault of a number."""
    return {
        **KEPT,
        "LOOP_STATION": lambda _: str(planted.program(path=planted.POWER).made()[0]),
        "LOOP_WRONG": lambda _: str(number),
    }


KIND = Kind(
    "power_check",
    [],
    ["800"],
    ["LOOP_CLI", "LOOP_STATION", "BENCH_PROGRAMS"],
    "builds what a loss of power may leave at each call, and looks at it",
    [
        Wrong(
            "a device that doesn't sync",
            {"LOOP_CLI": NO_SYNC, "BENCH_PROGRAMS": NO_SYNC},
            words=["1500"],
            says="reads as|leaves",
        ),
        Wrong(
            "several stores on a device that doesn't sync",
            {"LOOP_STATION": NO_SYNC},
            KEPT,
            words=BOOTS,
            says="several stores, seed .*(told as|is refused|isn't whole)",
        ),
    ]
    + [
        Wrong(
            f"a station with a fault ({it.name})",
            given=station_with(it.number),
            words=BOOTS,
            says=f"several stores, seed .*({SAYS[it.name]})",
        )
        for it in planted.all_faults(planted.POWER)
    ],
)
