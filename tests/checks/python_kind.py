"""How tools/check runs the check `python`, and what is wrong that this has to find."""
import shutil

from kinds import TOP, Kind, Wrong, changed_copy


def changed_module(name, old, new):
    """A copy of the Python module in which one of its files is changed: what makes it, from a
    folder."""

    def make(folder):
        shutil.copytree(TOP / "python", folder / "python")
        changed = changed_copy(f"python/lapyrei/{name}", old, new)(folder)
        shutil.move(changed, folder / "python/lapyrei" / name)
        return str(folder / "python")

    return make


KIND = Kind(
    "python_check",
    [],
    ["-k", "not stores_of_loop_cli and not mypy"],
    ["LOOP_CLI", "LAPYREI"],
    (
        "reads stores of every kind in Python, beside writers and cut files, writes them by the"
        " C library, and reads back what is exported"
    ),
    [
        Wrong(
            "a module that doesn't look a second time",
            given={
                "LAPYREI_PYTHON": changed_module(
                    "files.py", "if self.look(geometry, place, number) != before:", "if False:"
                )
            },
            words=["-k", "torn or overwritten"],
            says="test_no_frame_is_torn|overwritten",
        ),
        Wrong(
            "a reader that travels by its path alone",
            given={
                "LAPYREI_PYTHON": changed_module(
                    "parts.py", "if (found.st_dev, found.st_ino) != identity:", "if False:"
                )
            },
            words=["-k", "another_file"],
            says="test_another_file",
        ),
        Wrong(
            "a module for which a frame is known by its number alone",
            given={
                "LAPYREI_PYTHON": changed_module(
                    "parts.py", "if head is not None and found[0] != head:", "if False:"
                )
            },
            words=["-k", "formatted_anew_gives"],
            says="test_a_file_that_was_formatted_anew",
        ),
        Wrong(
            "a module for which NaT is a time",
            given={
                "LAPYREI_PYTHON": changed_module(
                    "moments.py", "if np.isnat(given).any():", "if False:"
                )
            },
            words=["-k", "is_no_time"],
            says="test_what_is_no_time",
        ),
        Wrong(
            "an export that believes what it wrote",
            given={
                "LAPYREI_PYTHON": changed_module(
                    "verify.py", "digest(picture[name]) != digest_", "False"
                )
            },
            words=["-k", "byte_that_is_another"],
            says="test_a_byte_that_is_another",
        ),
        Wrong(
            "films of small sides that are cut into slices",
            given={
                "LAPYREI_PYTHON": changed_module("films.py", "LEAST_SIDE = 16", "LEAST_SIDE = 1")
            },
            words=["-k", "sides_of_one"],
            says="test_ffv1_of_sides",
        ),
        Wrong(
            "a module that takes a short read for a whole one",
            given={
                "LAPYREI_PYTHON": changed_module(
                    "files.py",
                    "            if count == 0:\n                raise layout.Unsteady\n",
                    "            if count == 0:\n                return\n",
                )
            },
            words=["-k", "cut"],
            says="test_a_file_that_was_cut|test_files_that_are_cut",
        ),
        Wrong(
            "a module for which each frame has 8 bits",
            given={
                "LAPYREI_PYTHON": changed_module(
                    "layout.py", "return flags >> BITS_AT & BITS_MASK or 8", "return 8"
                )
            },
            words=["-k", "deep"],
            says="test_deep_frames",
        ),
        Wrong(
            "a module that swaps the colours of a frame",
            given={
                "LAPYREI_PYTHON": changed_module(
                    "store.py",
                    "return arrays[0] if len(arrays) == 1 else Planes(*arrays)",
                    (
                        "return arrays[0] if len(arrays) == 1 else Planes(arrays[0],"
                        " *arrays[:0:-1])"
                    ),
                )
            },
            words=["-k", "pictures or rings"],
            says="test_pictures_have|test_random_rings",
        ),
        Wrong(
            "a module that takes each clip for an event",
            given={
                "LAPYREI_PYTHON": changed_module(
                    "events.py", "return before.part != after.part or", "return False and"
                )
            },
            words=["-k", "event"],
            says="one_event",
        ),
        Wrong(
            "an export that writes each frame in the first one's place",
            given={
                "LAPYREI_PYTHON": changed_module(
                    "exports.py", "sets[name][place] = array", "sets[name][0] = array"
                )
            },
            words=["-k", "hdf5"],
            says="test_hdf5_has",
        ),
        Wrong(
            "films whose frames are a period apart",
            given={
                "LAPYREI_PYTHON": changed_module(
                    "films.py", "if (np.diff(exact) > 0).all():", "if False:"
                )
            },
            words=["-k", "lasts"],
            says="test_a_film_lasts",
        ),
        Wrong(
            "an export of which a stop leaves a half",
            given={
                "LAPYREI_PYTHON": changed_module(
                    "place.py",
                    "        shutil.rmtree(hidden, ignore_errors=True)\n",
                    "        pass\n",
                )
            },
            words=["-k", "stop_leaves or full_disk"],
            says="test_a_stop_leaves_nothing|full_disk",
        ),
        Wrong(
            "a module that writes the planes of a picture in another order",
            given={
                "LAPYREI_PYTHON": changed_module(
                    "writing.py",
                    "for part, size in zip(parts, sizes):",
                    "for part, size in zip(parts[::-1], sizes[::-1]):",
                )
            },
            words=["-k", "exported_to_the_same"],
            says="test_what_is_written",
        ),
        Wrong(
            "a module that stores times which fall",
            given={"LAPYREI_PYTHON": changed_module("writing.py", "if len(falls):", "if False:")},
            words=["-k", "times_rise"],
            says="test_times_rise",
        ),
        Wrong(
            "a module that unlocks whatever clip has the id by now",
            given={
                "LAPYREI_PYTHON": changed_module(
                    "writing.py", "if known not in self._handle.clips():", "if False:"
                )
            },
            words=["-k", "unlocked"],
            says="test_what_cant_be_locked",
        ),
        Wrong(
            "a module whose reader doesn't see what it wrote",
            given={"LAPYREI_PYTHON": changed_module("writing.py", "if self._stale:", "if False:")},
            words=["-k", "at_once"],
            says="test_each_reading_call",
        ),
        Wrong(
            "a module that erases what is there",
            given={
                "LAPYREI_PYTHON": changed_module(
                    "writing.py", "os.O_CREAT | os.O_EXCL |", "os.O_CREAT |"
                )
            },
            words=["-k", "erased"],
            says="test_a_file_that_is_there",
        ),
        Wrong(
            "an export that replaces what has come there",
            given={
                "LAPYREI_PYTHON": changed_module(
                    "place.py",
                    "        os.link(made, out)\n",
                    "        os.replace(made, out)\n",
                )
            },
            words=["-k", "comes_meanwhile"],
            says="test_a_name_that_comes",
        ),
    ],
)
