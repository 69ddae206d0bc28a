#!/usr/bin/python3
"""Gives the tests of links, page and camera wrong bodies of the Python that asks others, or is
asked: each of them they have to find.

    tests/links/wrong_bodies.py [NAME..]

Each is a copy of python/ with one change of one place, over which the tests that it names run. It
prints a line for each body, and ends with 1 where one survives."""
import os
import shutil
import subprocess
import sys
import tempfile
from pathlib import Path

TOP = Path(__file__).resolve().parents[2]
LINKS, PAGE = "links/station_links", "page/station_page"
PARSER, ORDERS, SIDE = "page/test_answers", "links/test_orders", "links/test_answers"
ARCHIVE, TRIGGER = "links/test_archive", "links/test_trigger"
UNIT = "asked_by or of_each or name_that or thread_that"
HELD = "released_that_its or another_name"

# After so long a test has no end over a body; a quiet machine needs a tenth of it at most. And how
# `timeout` says so.
SECONDS, LATE = 900, 124

# A body: its name, its file, what is changed to what, the tests that find it, and which of these.
BODIES = [
    ("a_group_may_write_a_secret", f"{LINKS}/settings.py", "0o027", "0o007", "links/test_settings", ""),
    ("all_may_read_a_secret", f"{LINKS}/settings.py", "0o027", "0o022", "links/test_settings", ""),
    ("a_group_may_write_the_pages_token", f"{PAGE}/settings.py", "(stat.S_IRWXO | stat.S_IWGRP)", "stat.S_IRWXO", "page/test_strangers", "token_that_others"),
    ("all_may_read_the_pages_token", f"{PAGE}/settings.py", "(stat.S_IRWXO | stat.S_IWGRP)", "stat.S_IWGRP", "page/test_strangers", "token_that_others"),
    ("a_station_is_sent_the_token_of_another", f"{PAGE}/settings.py", "token_in(token) if token else None))", "(found[0].token if found else token_in(token)) if token else None))", PARSER, "own_token"),
    ("a_token_goes_where_a_redirect_leads", f"{PAGE}/others.py", "allow_redirects=False", "allow_redirects=True", PARSER, "redirect"),
    ("features_of_another_camera_are_kept", "camera/station_camera/written.py", "old.splitlines() if same else []", "old.splitlines()", "camera/test_words", ""),
    ("a_camera_is_known_by_the_beginning_of_its_name", "camera/station_camera/written.py", '''"?\\s*$', old''', "', old", "camera/test_words", ""),
    ("orders_of_any_station_are_taken", f"{LINKS}/bridge.py", '/all/keep"', '/+/keep"', ORDERS, "taken_for_all"),
    ("orders_for_all_are_not_taken", f"{LINKS}/bridge.py", 'f"{words.prefix}/all/keep", ', "", ORDERS, "taken_for_all"),
    ("an_order_waits_two_hours", f"{LINKS}/doing.py", "time.monotonic() >= self.end", "time.monotonic() >= self.end + PATIENCE_SECONDS", ORDERS, ""),
    ("a_restart_gives_another_hour", f"{LINKS}/doing.py", "PATIENCE_SECONDS - age)", "PATIENCE_SECONDS)", ORDERS, ""),
    ("a_clock_set_back_makes_a_longer_hour", f"{LINKS}/doing.py", "min(max(0.0, time.time() - came), PATIENCE_SECONDS)", "time.time() - came", ORDERS, ""),
    ("an_order_is_done_twice", f"{LINKS}/doing.py", "it.is_again = it.is_again or isinstance(fault, PageFault)", "pass", ORDERS, ""),
    ("each_order_asks_a_page_that_is_away", f"{LINKS}/doing.py", "            if why and not is_late:\n                return None, why\n", "", ORDERS, ""),
    ("an_order_that_was_kept_before_is_too_late", f"{LINKS}/doing.py", "(None if why else self.done_before(it)) or too_late(it, why)", "too_late(it, why)", ORDERS, ""),
    ("a_wait_is_told_again_and_again", f"{LINKS}/doing.py", "                it.is_told = True\n", "                pass\n", ORDERS, ""),
    ("answers_that_nobody_heard_are_forgotten", f"{LINKS}/told.py", "if it.answer and self.has_arrived(id_))", "if it.answer)", ORDERS, ""),
    ("a_full_list_takes_more", f"{LINKS}/told.py", "            if len(self.orders) >= ORDERS and not self.forget():", "            if False:", ORDERS, ""),
    ("a_restart_drops_orders_that_wait", f"{LINKS}/told.py", "len(self.orders) > ORDERS and self.forget()", "len(self.orders) > ORDERS and self.orders.popitem()", ORDERS, ""),
    ("events_are_told_again_after_a_restart", f"{LINKS}/told.py", 'self.write("DELETE FROM events WHERE number = ?", [(number,)])', "pass", ORDERS, ""),
    ("events_are_told_again_with_each_look", f"{LINKS}/bridge.py", "                if number in flying:\n                    continue\n", "", ORDERS, ""),
    ("dropped_events_are_not_counted", f"{LINKS}/told.py", 'self.put("dropped", self.get("dropped", 0) + 1)', "pass", ORDERS, ""),
    ("warnings_over_after_a_restart_are_not_told", f"{LINKS}/bridge.py", 'self.memory.get("alerts", [])', "[]", ORDERS, ""),
    ("a_state_that_found_no_room_is_told", f"{LINKS}/standing.py", "if self.broker.publish(topic, found, retain=True) is not None:", "if self.broker.publish(topic, found, retain=True) or True:", "links/test_mqtt_words", ""),
    ("a_loud_sender_comes_first", f"{LINKS}/senders.py", "sender, queue = self.queues.popitem(last=False)", "sender, queue = self.queues.popitem()", TRIGGER, "turn"),
    ("a_sender_has_no_bound", f"{LINKS}/senders.py", "if len(queue) > PACKETS:", "if False:", TRIGGER, "turn"),
    ("senders_have_no_bound", f"{LINKS}/senders.py", "while len(self.queues) > SENDERS:", "while False:", TRIGGER, "turn"),
    ("packets_are_taken_from_anyone", f"{LINKS}/sources.py", "return self.allowed is None or any(", "return True or any(", TRIGGER, "alone_who or ipv4"),
    ("packets_are_taken_from_nobody", f"{LINKS}/sources.py", "return self.allowed is None or any(", "return self.allowed is not None and any(", TRIGGER, "alone_who or ipv4"),
    ("an_address_of_ipv4_is_another_by_ipv6", f"{LINKS}/sources.py", 'getattr(address, "ipv4_mapped", None) or address', "address", TRIGGER, "ipv4"),
    ("a_regular_expression_is_a_pattern", f"{LINKS}/sources.py", "if any(REGULAR.fullmatch(it) for it in texts):", "if False:", TRIGGER, "words"),
    ("a_pattern_is_found_anywhere", f"{LINKS}/sources.py", "any(form.match(text)", "any(form.match(text[at:]) for at in range(len(text))", TRIGGER, "pattern"),
    ("a_plain_word_is_taken_without_a_word", f"{LINKS}/triggers.py", "        self.say_what_is_whole()\n", "", TRIGGER, "plain_word"),
    ("a_line_end_counts", f"{LINKS}/sources.py", '.rstrip(" \\t\\r\\n\\0")', "", TRIGGER, "pattern"),
    ("a_line_for_each_packet", f"{LINKS}/journal.py", "(now < self.next and not is_last)", "False", TRIGGER, "line_a_second"),
    ("dropped_packets_are_not_told", f"{LINKS}/triggers.py", "trigger.source.lost().items()", "[]", ORDERS, "dropped"),
    ("a_keep_without_room_is_not_told", f"{LINKS}/triggers.py", 'self.tell(f"{keep.id} NOT kept: TooMany {fault}: {keep.note}")', "pass", ORDERS, ""),
    ("a_broker_is_waited_for_without_end", f"{LINKS}/triggers.py", "        if it.is_late():", "        if False:", ORDERS, ""),
    ("a_keep_goes_twice_to_the_broker", f"{LINKS}/triggers.py", "elif not is_sent and self.broker.is_up:", "elif self.broker.is_up:", ORDERS, ""),
    ("a_place_is_not_asked", f"{LINKS}/archive.py", "        if asked is None:\n", "        if False:\n", ARCHIVE, HELD),
    ("lengths_do_not_count", f"{LINKS}/archive.py", 'or found["Size"] not in (-1, sent["bytes"])', "", ARCHIVE, UNIT),
    ("one_checksum_suffices", f"{LINKS}/archive.py", "is_same_ = all(told[ending] == sent[kind]", "is_same_ = any(told[ending] == sent[kind]", ARCHIVE, UNIT),
    ("what_was_read_back_is_not_compared", f"{LINKS}/archive.py", "        return READ_BACK if is_same_ else None", "        return READ_BACK", ARCHIVE, UNIT),
    ("no_checksum_is_the_right_one", f"{LINKS}/archive.py", "if kind and all(told.values()):", "if kind:", ARCHIVE, UNIT),
    ("an_entry_without_checksums_is_as_sent", f"{LINKS}/archive.py", "        if set(files) != set(KINDS):\n            return None\n", "", ARCHIVE, UNIT),
    ("any_place_has_a_clip", f"{LINKS}/archive.py", "and (place is None or it.archive == place.archive)", "", ARCHIVE, HELD),
    ("what_is_lost_stays_archived", f"{LINKS}/archive.py", "self.archived = [it for it in self.archived if (it.name, it.archive) != key]", "pass", ARCHIVE, HELD),
    ("other_frames_are_archived", "lapyrei/sums.py", "return is_each and len(numbers) == last - first + 1", "return True", ARCHIVE, "none_of_the_clip"),
    ("frames_in_another_order_are_archived", "lapyrei/sums.py", "return is_each and", "return", ARCHIVE, "none_of_the_clip"),
    ("films_are_not_read_back", f"{LINKS}/archive.py", 'for kind in ("y4m", "csv"):', 'for kind in ("csv",):', ARCHIVE, "film_of_other"),
    ("tables_are_not_read_back", f"{LINKS}/archive.py", 'for kind in ("y4m", "csv"):', 'for kind in ("y4m",):', ARCHIVE, "table_of_other"),
    ("a_clips_words_are_not_read_back", f"{LINKS}/archive.py", "        self.verify_words(clip, sent)\n\n    def", "\n    def", ARCHIVE, "gives_back"),
    ("pixels_are_not_compared", "lapyrei/verify.py", "if name not in picture or digest(picture[name]) != digest_:", "if name not in picture:", ARCHIVE, "film_of_other"),
    ("what_is_in_memory_is_read_back", f"{LINKS}/archive.py", "        place.forget_cached(str(sent.folder))\n", "", ARCHIVE, "gives_back"),
    ("what_a_page_says_has_no_bound", f"{LINKS}/archive.py", "lines = min(clip.last - clip.first + 1, MOST_FRAMES) + 1", "lines = 2**60", ARCHIVE, "has_a_bound"),
    ("a_cameras_name_is_any_text", f"{LINKS}/archive.py", "if not NAME.fullmatch(name):", "if False:", ARCHIVE, "name_that"),
    ("a_thread_ends_unseen", f"{LINKS}/threads.py", "                tell(", "                str(", ARCHIVE, "thread_that"),
    ("a_thread_stays_ended", f"{LINKS}/threads.py", "        while not over.is_set():\n            try:", "        for _ in range(1):\n            try:", ARCHIVE, "thread_that"),
    ("clips_of_other_stations_are_archived", f"{LINKS}/archive_page.py", ' and MARK not in it["name"]', "", SIDE, "is_held"),
    ("clips_of_an_event_that_goes_on_are_archived", f"{LINKS}/archive_page.py", "is_on = before | self.going_on()", "is_on = before", SIDE, "is_held"),
    ("an_event_that_just_ended_is_over", f"{LINKS}/archive_page.py", "is_on = before | self.going_on()", "is_on = self.going_on()", SIDE, "is_held"),
    ("a_file_has_no_bound", f"{LINKS}/archive_page.py", "if left > most:", "if False:", SIDE, "whole_or"),
    ("half_a_file_is_one", f"{LINKS}/archive_page.py", 'raise PageFault("The page broke off.")', "return", SIDE, "whole_or"),
    ("an_answer_may_drip", f"{LINKS}/pages.py", "        if left <= 0:", "        left = max(left, 9.0)\n        if left <= 0:", SIDE, "drips"),
    ("a_page_is_asked_of_all_stations", f"{LINKS}/pages.py", 'OWN = "?of=this"', 'OWN = ""', SIDE, "own_page"),
    ("true_is_a_number", "lapyrei/answers.py", "type(value) is not int or", "not isinstance(value, int) or", PARSER, "place_and"),
    ("a_number_may_be_infinite", "lapyrei/answers.py", "    if not math.isfinite(found):", "    if False:", PARSER, "beyond"),
    ("nan_is_a_number", "lapyrei/answers.py", "parse_constant=no_number", "parse_constant=float", PARSER, "beyond"),
    ("a_number_may_be_long", "lapyrei/answers.py", "    if len(digits) > DIGITS:", "    if False:", PARSER, "beyond"),
    ("depth_has_no_bound", "lapyrei/answers.py", "    if is_deeper(raw, depth):", "    if False:", PARSER, "beyond"),
    ("too_deep_a_text_ends_the_reader", "lapyrei/answers.py", "    except RecursionError:", "    except KeyError:", PARSER, "beyond"),
    ("brackets_in_texts_are_depth", "lapyrei/answers.py", 'STRING.sub(b"", raw)', "raw", PARSER, "brackets"),
    ("half_a_sign_is_a_text", "lapyrei/answers.py", "if not fits or not (value.isascii() or is_whole(value)):", "if not fits:", PARSER, "place_and"),
    ("a_clip_may_end_before_it_begins", "lapyrei/answers.py", "value[first] > value[last]", "False", PARSER, "before_it_begins"),
    ("a_missing_word_is_let_pass", "lapyrei/answers.py", "            elif word in needed:", "            elif False:", PARSER, "place_and"),
    ("a_ring_is_drawn_of_nothing", "lapyrei/answers.py", "if value.get(word) is None:", "if False:", PARSER, "place_and"),
    ("third_stations_are_shown", f"{PAGE}/others.py", 'cameras = [it for it in told["cameras"] if MARK not in it["name"]]', 'cameras = told["cameras"]', PARSER, "ten_thousand or shows_too"),
    ("an_unusable_station_is_good", f"{PAGE}/others.py", "if reasons := self.reasons():", "if (reasons := self.reasons()) and False:", PARSER, "ten_thousand"),
    ("an_old_state_is_shown_as_new", f"{PAGE}/together.py", "    if other.is_shown_as_it_is():\n        return found\n", "    return found\n", PARSER, "as_such"),
    ("a_browser_runs_what_another_station_says", f"{PAGE}/stations.py", "if found.content_type not in FILES:", "if False:", PARSER, "browser"),
    ("a_neighbours_fault_fails_all_clips", f"{PAGE}/stations.py", "        except Unfit as unfit:\n            return unfit\n", "        except KeyError as unfit:\n            return unfit\n", PARSER, "lacks_a_word"),
    ("a_warning_is_seen_at_another_station", f"{PAGE}/stations.py", "its = [it % ALERTS for it in ids if it // ALERTS == place]", "its = [it % ALERTS for it in ids if it // ALERTS]", "page/test_stations", "seen_at"),
    ("an_order_is_given_to_another_station", f"{PAGE}/stations.py", "return self.by_name[station], name", "return self.others[-1], name", "page/test_stations", "alone_are_kept"),
    ("a_fault_of_an_answer_ends_the_page", f"{PAGE}/others.py", "            except Exception as fault:\n                self.unfit(\"/api/stream\", fault)\n", "", PARSER, "no_fault"),
    ("a_fault_of_a_clock_ends_the_page", f"{PAGE}/others.py", "            except Exception as fault:\n                self.unfit(\"/api/clock\", fault)\n", "", PARSER, "no_fault"),
    ("a_message_has_no_bound", f"{PAGE}/others.py", "if lengths[0] > limits.HEAD_BYTES or lengths[1] > limits.MESSAGE_BYTES:", "if False:", PARSER, "without_an_end"),
    ("an_answer_has_no_bound", "lapyrei/answers.py", "    if len(raw) > most:", "    if False:", PARSER, "beyond"),
]


def copy_of(folder, file, old, new):
    """A copy of the programs and their tests with a wrong body."""
    ignored = shutil.ignore_patterns("__pycache__", "wrong_bodies.py")
    for part in ("python", "tests/page", "tests/links", "tests/camera", "tools", "examples"):
        shutil.copytree(TOP / part, folder / part, ignore=ignored)
    shutil.copy(TOP / "VERSION", folder)
    path = folder / "python" / file
    text = path.read_text(encoding="utf-8")
    if text.count(old) != 1:
        sys.exit(f"wrong_bodies: {file} has {old!r} {text.count(old)} times")
    path.write_text(text.replace(old, new), encoding="utf-8")


def found_by(folder, tests, which):
    """The first test that fails; nothing where all pass."""
    words = ["-x", "-q", "-p", "no:cacheprovider", f"tests/{tests}.py"]
    words += ["-k", which] if which else []
    more = dict(os.environ, PYTHONDONTWRITEBYTECODE="1")
    command = ["timeout", str(SECONDS), "/usr/bin/python3", "-m", "pytest", *words]
    done = subprocess.run(command, env=more, cwd=folder, capture_output=True, text=True, check=False)
    if done.returncode == LATE:
        return f"nothing within {SECONDS} s: it has no end"
    if done.returncode not in (0, 1, 2):
        return f"pytest ends with {done.returncode}: {done.stdout[-300:]}"
    lines = [it for it in done.stdout.splitlines() if it.startswith(("FAILED", "ERROR"))]
    return lines[0].split("::", 1)[-1].split(" - ")[0] if lines else ""


def main(names):
    """Tries the bodies of these names, or all; answers the status."""
    if set(names) & {"-h", "--help"}:
        print(__doc__)
        return 0
    if unknown := set(names) - {body[0] for body in BODIES}:
        print(f"wrong_bodies: no {' '.join(sorted(unknown))}", file=sys.stderr)
        return 2
    survived = 0
    for name, file, old, new, tests, which in BODIES:
        if names and name not in names:
            continue
        with tempfile.TemporaryDirectory(prefix="wrong_bodies", dir="/var/tmp") as folder:
            copy_of(Path(folder), file, old, new)
            found = found_by(folder, tests, which)
        print(f"{name}: {found or 'SURVIVES'}", flush=True)
        survived += not found
    return int(survived > 0)


if __name__ == "__main__":
    sys.exit(main(sys.argv[1:]))
