"""What to do where a camera isn't well, by the word that `Laboratory.camera_state` has for it."""

ADVICE = {
    "hangs": "Look at the disk and its cable; `dmesg` names it. Frames wait in memory as long as "
        "there is room. Other cameras aren't affected.",
    "absent": "The sentence says why. Once the cause is over, the station goes on by itself.",
    "other": "The camera's size, format or rate was changed. Set it back; or move the store's "
        "file away, and a new one is made for these frames.",
    "unusable": "Change the camera's size, format or rate, or what the program that feeds its "
        "pipe makes of them.",
    "making": "Wait: a large store takes a while. Frames are stored once it is whole.",
    "locked": "The camera is well: every block of its ring belongs to an event, so there is no room "
        "for new frames. Release events that you don't need, and recording goes on at once. "
        "Download them before, if they matter.",
    "full": "The camera is well, and goes on: its file says in `when_full` which event goes first. "
        "Download what matters, or release events yourself.",
    "clock": "Set the camera's clock, by NTP or PTP, or let the station take the times of arrival "
        "(`times_from`).",
    "silent": "See that the camera has power, that its cable is in and its program runs. The "
        "station opens the source again by itself.",
    "empty": "Wait a moment. If no frame comes, see that the camera's program runs.",
    "waiting": "Wait a moment: the page has only just begun to look.",
    "behind": "No frame is lost yet: frames wait in memory, and are lost once it is full. See "
        "what else uses the disk (`iotop`), and end it.",
    "slow": "The camera gives fewer frames than its store is made for, or some were lost on the "
        "way. Look at its exposure time and its network.",
}


def advice_for(kind: str) -> str:
    """What to do; nothing where all is well."""
    return (
        ""
        if kind == "good"
        else ADVICE.get(kind, "docs/answers.md says what the station's words mean.")
    )
