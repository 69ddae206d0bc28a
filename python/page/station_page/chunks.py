"""What a camera said of each frame beside its pixels (`CHUNKS` of loop_camera): the lines of a
clip, from the files that the camera's service writes."""
import csv
import io
import os
from collections.abc import Iterator

from .films import Fetch

# So many lines a clip has at most, and so much of a line is read.
ROWS, LINE_BYTES = 200_000, 4096


def table_of(folder: str | None, fetch: Fetch) -> bytes | None:
    """The lines of a clip as CSV, each with the number of the frame of its time, where there is
    one: with times of the arrival none has it. Nothing where the camera said nothing then."""
    if folder is None:
        return None
    names = {frame.time: frame.number for frame in fetch.frames}
    rows = list(rows_in(os.path.join(folder, fetch.camera), fetch.clip.since, fetch.clip.until))
    if not rows:
        return None
    words = dict.fromkeys(word for row in rows for word in row)
    out = io.StringIO(newline="")
    writer = csv.DictWriter(out, ["frame", *words], restval="")
    writer.writeheader()
    for row in rows:
        writer.writerow({"frame": names.get(int(row["time_us"]), "")} | row)
    return out.getvalue().encode()


def rows_in(folder: str, since: int, until: int) -> Iterator[dict[str, str]]:
    """The lines of a time, in its order, of all files that may have such. A file is named by the
    time of its first line."""
    try:
        files = sorted(it for it in os.listdir(folder) if it[:-4].isdecimal() and it[-4:] == ".csv")
    except OSError:
        return
    count = 0
    for place, name in enumerate(files):
        is_before = place + 1 < len(files) and int(files[place + 1][:-4]) < since
        if is_before or int(name[:-4]) > until:
            continue
        for row in lines_of(os.path.join(folder, name)):
            if since <= int(row["time_us"]) <= until and (count := count + 1) <= ROWS:
                yield row


def lines_of(path: str) -> Iterator[dict[str, str]]:
    """The lines of a file that are whole; nothing of one that isn't there any more."""
    try:
        with open(path, encoding="ascii", errors="replace", newline="") as file:
            words = next(csv.reader([file.readline(LINE_BYTES)]), [])
            while line := file.readline(LINE_BYTES):
                row = next(csv.reader([line]), [])
                if line.endswith("\n") and len(row) == len(words) and "time_us" in words:
                    found = dict(zip(words, row))
                    if found["time_us"].isdecimal():
                        yield found
    except OSError:
        return
