"""What package_check and docs_check share: the commands on a page, what the page says that they
print, and where a program prints something else."""
import re
import shutil

# Commands of which some numbers differ from run to run, which they are, and why. In their place
# any number may stand.
VARYING = (
    ("loop_station", r"\d+\.\.\d+|(next|stored|waiting|event|\.y4m) \d+|\d{4}-\d\d-\d\dT[\d:.]+Z",
     "how many frames there are, and wait, depends on the moment"),
)

# Commands that can't be typed on a machine as the checks have it, and why; a program that is named
# last is what they need: where it is installed, they are typed.
ELSEWHERE = (
    (r"apt install", "changes the machine", None),
    (r"/dev/v(ideo|4l)|^loop_camera --list", "needs a camera", None),
    (r"\bsudo (reboot|tee|systemctl|journalctl)", "needs root, and a systemd that runs", None),
    (r"ffplay", "needs a screen", None),
    (r"gst-launch", "needs a screen and GStreamer", None),
    (r"y4mdenoise", "needs mjpegtools", "y4mdenoise"),
    (r"^imagej", "needs a screen and ImageJ", None),
    (r"^napari", "needs a screen and napari", None),
    (r"^rt ", "needs the kit", None),
    (r"^tools/check", "takes minutes, and the programs", None),
    (r"^python3 -m venv|^mine/bin/pip", "needs the wheel that tools/package makes", None),
    (r"^loop_demo", "runs until Ctrl-C: package_demo.py types it", None),
)


# What a station says beside a keep of which frames were given up.
LACKS = re.compile(r"^(held|gap) .*\n", re.M)


class Wrong(Exception):
    """Something that a page, or a package, does wrong. `numbers` is set where numbers alone are."""

    numbers = False


class Part:
    """A part of a page that has to be judged: a command that is typed (`$ `), a line of a block
    without one, words of a program within the text, or a file: a fenced block, whose first line
    names it (```python NAME). `shown` is what a command prints by the page, or a file's lines."""

    def __init__(self, kind, section, line, text):
        self.kind, self.section, self.line, self.text, self.shown = kind, section, line, text, []


def parts_of(page):
    """The parts of a page in their order. In a block, which is indented by four spaces, `$ ` begins
    a command, and what it prints follows."""
    found, section, typed, file = [], "", None, None
    for place, line in enumerate(page.splitlines(), 1):
        if file:
            if line == "```":
                file = None
            else:
                file.shown.append(line)
        elif line.startswith("```"):
            # One without a name shows what is printed elsewhere.
            name = line.split()[1:]
            typed, file = None, Part("file", section, place, name[0] if name else "")
            found += [file] if name else []
        elif not line.startswith("    "):
            typed = None
            if line.startswith("#"):
                section = line.lstrip("# ")
            found += [Part("span", section, place, span) for span in re.findall("`([^`]+)`", line)]
        elif line.startswith("    $ "):
            typed = Part("typed", section, place, line[6:])
            found.append(typed)
        elif typed:
            typed.shown.append(line[4:])
        else:
            found.append(Part("block", section, place, line[4:]))
    return found


def sections_of(page):
    """The commands that are typed, section by section."""
    sections: dict[str, list] = {}
    for part in parts_of(page):
        if part.kind == "typed" and not elsewhere(part.text):
            sections.setdefault(part.section, []).append(part)
    return list(sections.items())


def elsewhere(command):
    """Why a command can't be typed here, or nothing."""
    for pattern, why, program in ELSEWHERE:
        if re.search(pattern, command) and not (program and shutil.which(program)):
            return why
    return None


def varying(command):
    """Which numbers that a command prints differ from run to run, and why; or nothing."""
    return next(((numbers, why) for word, numbers, why in VARYING if word in command), None)


def slowly(command):
    """A command that waits six times as long for a program."""
    waits = r"\b(sleep|timeout) ([\d.]+)"
    return re.sub(waits, lambda it: f"{it[1]} {float(it[2]) * 6:g}", command)


def without_numbers(text, which=r"\d+"):
    """A text in which each of these numbers stands for any other."""
    return re.sub(which, lambda found: re.sub(r"\d+", "N", found.group()), text)


def compare(where, part, told, loose=False):
    """Fails where a command prints something else than the page says. Numbers that vary count as
    any other; with `loose` all do, and a station may say more of frames that it gave up."""
    wanted = "".join(line + "\n" for line in part.shown)
    one, other = wanted, told
    if loose:
        one, other = without_numbers(wanted), without_numbers(told)
        if not LACKS.search(one):
            other = LACKS.sub("", other)
    elif which := varying(part.text):
        one, other = without_numbers(wanted, which[0]), without_numbers(told, which[0])
    if one != other:
        wrong = Wrong(f"{where}: {part.text}\nprints\n{told}and the page says\n{wanted}")
        # A frame that is given up changes numbers, and parts a run of a clip in two.
        lines = (set(without_numbers(text).splitlines()) for text in (wanted, told))
        wrong.numbers = next(lines) == next(lines)
        raise wrong
