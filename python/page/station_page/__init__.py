"""The laboratory's page: a companion beside the station. It reads stores while they are recorded,
and gives orders as anybody may, so the recorder never waits for it, and nothing that is proved
stands on it.

    settings    the station's configuration, and the page's own words
    reader      stores as they are now, frame by frame, by the module lapyrei
    rings       several stores of a camera as one ring
    pictures    frames as JPEG and PNG, stretched for the eye, and their values
    eye         what a camera shows: its newest frame, that of a moment, pictures of both
    push        what an open page is sent, over one answer that doesn't end
    films       clips as MP4, YUV4MPEG2, PNGs and CSV
    line        the line to an open page, and how much may be on its way
    heard       what the station said of its events
    disks       what a camera takes of its disk
    events      clips of one press as one event
    bundle      an event as one zip
    words       the lines that the station prints, and sentences with what to do
    orders      the pipe of orders, and the answers
    notes       what people write beside clips
    whole       files that are replaced whole
    noting      notes of clips that grow, or aren't seen yet
    tuning      cameras that are set from the browser
    causes      why events were kept: who pressed, or what gave the order
    search      events that are looked for
    alerts      what went wrong, until somebody has seen it
    reports     warnings told by mail and by MQTT
    watched     a camera, and what was seen of it last
    workers     threads that read and draw, for each camera its own
    kept        what became of a keep
    spans       what a keep didn't get of the time that was asked for
    journal     who changed what
    archived    which clips are elsewhere too
    clock       how far a clock is off
    disks       how much room disks have, and for how long a ring holds what comes
    others      another station's page, as this one asks it
    together    what several stations say, as one
    stations    several stations in one console
    redrawn     pictures of other stations, decoded and encoded anew
    advice      what to do where a camera isn't well
    guide       docs/answers.md for the browser, and how long a disk lasts
    warned      what is warned of, and what is over
    standing    how station and cameras stand, in words and numbers
    keeping     orders that keep, and what became of them
    held        clips: listed, fetched, released
    laboratory  all of these together, looked at without end
    guard       which connections and requests are let in
    users       who may do what
    asked       what stands in a request, within its bounds
    server      the addresses
    console     the addresses of the console: the answer that doesn't end, events, single pixels
    metrics     Prometheus's text
    limits      every bound
"""
