#!/usr/bin/python3
"""Gives page_check's parts `console` and `stress` wrong bodies of the page's scripts and styles,
and of its Python, each of which they have to find in Chromium.

    tests/page/wrong_scripts.py [NAME..]

Each is a copy of python/ with one change of one place, which a page serves to a browser; the steps
that ought to find it are tried, in which each state is awaited for 15 seconds at most, or 30, in
the place of two minutes. It prints a line for each body, and ends with 1 where one survives that
isn't among those that README.md names."""
import shutil
import subprocess
import sys
import tempfile
from pathlib import Path

sys.dont_write_bytecode = True
TESTS = Path(__file__).resolve().parent
TOP = TESTS.parent.parent
PATIENCE = {"console": 15, "stress": 30}
# Tries steps over a copy of the page: its folder, and the names of the steps.
TRY = """
import sys
sys.dont_write_bytecode = True
sys.path[1:1] = [{checks!r}, {tools!r}, {tests!r}]
import browser, page_console, page_stress
try:
    for part, module in (("console", page_console), ("stress", page_stress)):
        names = [it.__name__ for it in module.STEPS if it.__name__ in sys.argv[1:]]
        browser.LIMIT = {patience}[part]
        if names:
            getattr(module, f"{{part}}_part")(True, None, names)
except (browser.Wrong, AssertionError) as wrong:
    print("found:", str(wrong).splitlines()[0][:150])
"""

# A body: its name, its file, what is changed to what, and the steps that ought to find it.
BODIES = [
    ("names_of_lanes_are_cut_off", "timeline.js", "isAbove ? 0 : longest", "isAbove ? 0 : 64",
     "lanes"),
    ("long_names_leave_no_room", "timeline.js", "longest > wide * NAME_PART", "false", "lanes"),
    ("a_name_above_stands_on_its_track", "timeline.js", "y + this.above + room", "y + room",
     "lanes"),
    ("a_phone_is_wider_than_its_screen", "page.css", "  .mark { display: none; } .bar { padding",
     "  .bar { min-width: 340px; padding", "narrow"),
    ("the_list_of_events_has_no_name", "page.html", ' tabindex="-1" aria-labelledby="events-title"',
     ' tabindex="-1"', "names"),
    ("the_focus_is_not_seen", "page.css",
     ":focus-visible { outline: 2px solid var(--accent); outline-offset: 2px; }",
     ":focus-visible { outline: none; }", "focus"),
    ("the_bar_of_a_phone_covers_the_focus", "page.css",
     "html { height: auto; scroll-padding: 64px 0 250px; }", "html { height: auto; }", "focus"),
    ("trouble_is_read_each_second", "spoken.js", "map((it) => [it.name, it.kind])",
     "map((it) => [it.name, it.state])", "aloud"),
    ("letters_are_keys_for_ever", "page.js",
     'if (!byId("letters").checked && key.length === 1 && key !== " ") return;', "", "letters"),
    ("a_switch_of_letters_is_forgotten", "page.js",
     'localStorage.setItem("letters", byId("letters").checked ? "on" : "off")', "{}", "letters"),
    ("a_page_that_was_left_has_its_connection", "link.js",
     'addEventListener("pagehide", () => this.leaves.abort());', "", "left"),
    ("any_word_of_a_search_is_enough", "search.js", "return this.words.every(",
     "return !this.words.length || this.words.some(", "search"),
    ("a_search_goes_by_notes_alone", "search.js", "causeWords(event), event.tag",
     '"", event.tag', "causes"),
    ("a_tag_is_not_looked_at", "search.js",
     "if (tag && String(event.tag) !== tag) return false;", "", "search"),
    ("an_end_of_time_is_not_looked_at", "search.js", "|| (until && event.from_us > until)", "",
     "search"),
    ("whole_events_lack_frames", "search.js", "if (isLost && !hasLost(event)) return false;", "",
     "lacking"),
    ("how_many_are_found_is_not_said", "search.js", "`${shown} of ${all}`", '"newest first"',
     "search"),
    ("a_cause_is_marked_at_the_events_end", "search.js", "event.cause?.at_us ?? event.from_us",
     "event.cause ? event.from_us : event.to_us", "causes"),
    ("a_trigger_is_called_a_press", "search.js", 'trigger: "By a trigger"', 'trigger: "Pressed"',
     "causes"),
    ("a_click_on_a_cause_goes_nowhere", "timeline.js", "this.told.pin(this.causeAt(event).at)",
     "0", "causes"),
    ("the_next_event_is_the_last", "timeline.js", "by > 0 ? Math.min(...times)",
     "by > 0 ? Math.max(...times)", "causes"),
    ("seconds_to_come_are_not_asked_for", "page.js", "{ seconds, after };", "{ seconds };", "then"),
    ("the_button_does_not_say_what_is_to_come", "page.js",
     "else if (after) words +=", "else if (false) words +=", "then"),
    ("an_alarm_rings_once", "alarm.js", "setInterval(() => this.ring(), EVERY);", "", "alarm"),
    ("an_alarm_that_is_over_leaves", "alarm.js",
     "found.has(row.key) || !seen.includes(row.id)", "found.has(row.key)", "alarm"),
    ("an_alarm_is_forgotten_by_a_reload", "alarm.js", "this.rows = kept();", "this.rows = [];",
     "alarm"),
    ("an_alarm_comes_back_once_it_is_seen", "alarm.js",
     "for (const { key } of there) this.noticed.add(key);", "for (const id of ids) void id;",
     "alarm"),
    ("an_alarm_that_another_saw_stays", "alarm.js", "|| !seen.includes(row.id)", "|| true",
     "alarm"),
    ("sound_that_is_off_is_heard", "alarm.js", "!this.isLoud || this.sound?.state",
     "this.sound?.state", "alarm"),
    ("levels_are_of_all_depths", "levels.js", "name === chosen : bits === most",
     "name === chosen : true", "levels"),
    ("white_is_that_of_eight_bits", "levels.js", "2 ** (first?.bits || 8) - 1", "255", "levels"),
    ("a_line_is_as_long_as_it_is_wide", "ruler.js", "Math.hypot(x, y)", "Math.abs(x)", "measure"),
    ("a_line_is_measured_on_the_screen", "ruler.js",
     "Math.max(0, Math.floor(share * count))", "Math.max(0, Math.floor(share * count * 0.9))",
     "measure"),
    ("a_picture_goes_on_while_it_is_measured", "page.js",
     "if (view.moment === null) view.pin(timeline.now());", "", "measure"),
    ("an_arrow_moves_both_ends", "ruler.js",
     "    this.ends[end] = { x: Math.min(width - 1",
     "    this.ends[1 - end] = { ...this.ends[1 - end], y: y + step[1] };\n"
     "    this.ends[end] = { x: Math.min(width - 1", "measure"),
    ("the_rings_are_one_cameras", "disk.js", "sum + disk.ring_bytes, 0", "disk.ring_bytes, 0",
     "disk"),
    ("the_oldest_frame_is_the_newest_rings", "disk.js", "now - disk.oldest_us", "0", "disk"),
    ("all_may_release", "page.css", ".may-not-release .release", ".may-not-x .release", "rights"),
    ("a_key_keeps_without_the_right", "page.js", 'if (!may("keep")) return;', "", "rights"),
    ("the_title_is_the_same_everywhere", "page.js", "alarm.title() + name", '"Laboratory"', "name"),
    # ---------------------------------------------------------------------------- the part `stress`
    ("events_are_joined_in_the_loop", "stations.py",
     "*await asyncio.to_thread(self.join.join, said)", "*self.join.join(said)", "joined"),
    ("a_press_counts_from_when_it_is_done", "page.js", "link.clock.at(moment)", "link.clock.at()",
     "moment"),
    ("a_press_has_no_moment", "page.js", "if (at !== null) wish.at = at;", "", "moment"),
    ("another_stations_page_is_given_on", "stations.py",
     '        response.headers["Content-Security-Policy"] = FOREIGN\n'
     '        response.headers.update(told_of(found))\n'
     '        response.headers["Content-Type"] = KINDS[kind]\n',
     '        response.headers["Content-Security-Policy"] = "default-src * \'unsafe-inline\'"\n'
     '        response.headers.update(told_of(found))\n'
     '        response.headers["Content-Type"] = found.headers["Content-Type"]\n', "strange"),
    ("words_of_another_station_are_code", "words.js",
     "if (element.textContent !== text) element.textContent = text;",
     "if (element.textContent !== text) element.innerHTML = text;", "strange"),
    ("an_age_is_said_late", "stage.js", "element.hidden = seconds < 1;",
     "element.hidden = seconds < 3;", "aged"),
    ("an_age_is_said_early", "stage.js", "element.hidden = seconds < 1;\n  if (seconds >= 1) say(",
     "element.hidden = seconds < 0.05;\n  if (seconds >= 0.05) say(", "aged"),
    ("an_age_is_that_when_it_was_sent", "stage.js", "(head.age + Math.max(0, since))", "head.age",
     "aged"),
    ("a_picture_has_the_age_of_the_one_before", "stage.js", "      this.old(now());\n", "", "aged"),
    ("a_lost_page_has_red_circles", "page.css",
     ".lost .cam .rec { background: none;", ".lost .x .rec { background: none;", "unknown"),
    ("a_lost_page_has_its_rates", "page.css", ".lost .cam .rate, ", "", "unknown"),
    ("a_lost_page_has_no_frames", "page.js", "  timeline.known = link.clock.at(heard);\n", "",
     "unknown"),
    ("a_lost_station_has_no_frames", "timeline.js", "camera.known_us ?? Infinity", "Infinity",
     "unknown"),
    ("what_is_unknown_has_stripes", "timeline.js", 'pen.fillStyle = colour("raised");',
     'pen.fillStyle = striped(pen, colour("edge"), 0);', "unknown"),
    ("a_dead_cameras_name_gives_way", "page.css",
     ".cam h2 { flex: none; max-width: 100%; white-space: normal; overflow-wrap: anywhere; }", "",
     "sixteen"),
    ("a_long_name_has_one_line", "page.css",
     "max-width: 100%; white-space: normal; overflow-wrap: anywhere; }", "max-width: 100%; }",
     "sixteen"),
    ("a_time_stands_on_what_is_wrong", "page.css",
     ".small .cam:is(.warn, .bad) footer span:first-child { visibility: hidden; }", "", "sixteen"),
    ("the_banner_names_one_camera", "page.js", 'alike(list).join(", ")', 'list[0].camera || ""',
     "sixteen"),
    ("other_trouble_is_left_out", "page.js", "(named.length ? ` Also", "(false ? ` Also",
     "sixteen"),
    ("a_phones_banner_is_cut_off", "page.css", "  .banner > span { -webkit-line-clamp: none; }\n",
     "", "sixteen"),
    ("one_page_too_many_is_not_told", "link.js", '({}))).error || "";', '({}))).none || "";',
     "too_many"),
    ("a_page_that_is_let_in_says_it_is_not", "link.js", 'this.refused = answer.ok ? "" :',
     "this.refused = answer.ok ? this.refused :", "too_many"),
]
# Those that the steps pass over, each with why in README.md.
SURVIVE: set[str] = set()


def copy_of(folder, name, old, new):
    """A copy of the page with a wrong body; its program."""
    for part in ("python", "tools"):
        shutil.copytree(TOP / part, folder / part)
    place = folder / "python" / "page" / "station_page"
    path = place / name if name.endswith(".py") else place / "static" / name
    text = path.read_text(encoding="utf-8")
    if text.count(old) != 1:
        sys.exit(f"wrong_scripts: {name} has {old!r} {text.count(old)} times")
    path.write_text(text.replace(old, new), encoding="utf-8")
    return folder / "python" / "page" / "loop_page"


def found_in(folder, program, steps):
    """What the steps say of a page; nothing where they pass over it."""
    places = {"checks": TOP / "tests" / "checks", "tools": TOP / "tools", "tests": TESTS}
    text = TRY.format(patience=PATIENCE, **{name: str(it) for name, it in places.items()})
    (folder / "tried.py").write_text(text, encoding="utf-8")
    words = ["/usr/bin/python3", "-B", "tried.py", *steps.split()]
    environment = {"LOOP_PAGE": str(program), "PATH": "/usr/bin:/bin", "HOME": str(folder)}
    run = subprocess.run(words, cwd=folder, env=environment, capture_output=True, text=True)
    if run.returncode:
        return f"failed: {run.stderr.strip().splitlines()[-1]}"
    lines = [line for line in run.stdout.splitlines() if line.startswith("found: ")]
    return lines[0].removeprefix("found: ") if lines else ""


def main(names):
    """Tries the bodies of these names, or all; answers the status."""
    if set(names) & {"-h", "--help"}:
        print(__doc__)
        return 0
    if unknown := set(names) - {body[0] for body in BODIES}:
        print(f"wrong_scripts: no {' '.join(sorted(unknown))}", file=sys.stderr)
        return 2
    survived = set()
    for name, file, old, new, steps in BODIES:
        if names and name not in names:
            continue
        with tempfile.TemporaryDirectory(prefix="wrong_scripts", dir="/var/tmp") as path:
            found = found_in(Path(path), copy_of(Path(path), file, old, new), steps)
        is_found = bool(found) and not found.startswith("failed: ")
        print(f"{name}: {found or 'SURVIVES'}", flush=True)
        survived |= set() if is_found else {name}
    return int(bool(survived - SURVIVE))


if __name__ == "__main__":
    sys.exit(main(sys.argv[1:]))
