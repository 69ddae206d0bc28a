"""How tools/check runs the check `several`, and what is wrong that this has to find."""
from kinds import Kind, Wrong, changed_links

KIND = Kind(
    "several_check",
    [],
    None,
    ["LOOP_STATION"],
    "presses for three stations by a page and by MQTT, cuts one off, kills the broker",
    [
        Wrong(
            "a loop_mqtt that keeps the time of its own clock",
            given={
                "LOOP_MQTT": changed_links(
                    "pages.py",
                    '"from": since, "to": until,',
                    '"from": since - 9_000_000, "to": until - 3_000_000,',
                    "loop_mqtt",
                )
            },
            says="the times differ by",
        ),
        Wrong(
            "a loop_mqtt that forgets what it has told",
            given={
                "LOOP_MQTT": changed_links(
                    "told.py",
                    "            return key in self.keys\n",
                    "            return False\n",
                    "loop_mqtt",
                )
            },
            says="and told",
        ),
    ],
)
