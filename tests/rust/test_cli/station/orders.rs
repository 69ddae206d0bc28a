//! Lines, and what they ask for.

use loop_station_words::{Name, Order, label_of, read_order};
use std::alloc::{AllocError, Global};
use std::process::Abort;

// A line, and the order that it is, written out. Lines that can't be read stand in tests/rows/BadOrder.rows.
const ROWS: [(&str, &str); 40] = [
    ("keep", "keep all - - -"),
    ("keep 60", "keep all 60 - -"),
    ("keep 60 7", "keep all 60 - 7"),
    ("keep left", "keep left - - -"),
    ("keep left 60", "keep left 60 - -"),
    (
        "keep left 0 18446744073709551615",
        "keep left 0 - 18446744073709551615",
    ),
    ("keep a-b_9 1", "keep a-b_9 1 - -"),
    ("keep 007", "keep all 7 - -"),
    (
        "keep abcdefghijklmnopqrstuvwxyzabcdef 1",
        "keep abcdefghijklmnopqrstuvwxyzabcdef 1 - -",
    ),
    ("keep 30 +10", "keep all 30 10 -"),
    ("keep left 30 +10 7", "keep left 30 10 7"),
    ("keep +10", "keep all - 10 -"),
    ("keep left +10", "keep left - 10 -"),
    ("keep +10 7", "keep all - 10 7"),
    ("keep left +0 7", "keep left - 0 7"),
    ("keep 0 +4294967295", "keep all 0 4294967295 -"),
    ("keep 30 +010 007", "keep all 30 10 7"),
    ("release left 3", "release left 3 -"),
    ("release left 3 4", "release left 3 4"),
    (
        "release left 63 18446744073709551615",
        "release left 63 18446744073709551615",
    ),
    ("cancel left 3", "cancel left 3"),
    ("list", "list"),
    ("status", "status"),
    ("reload", "reload"),
    ("stop", "stop"),
    ("save left 3 a clip.y4m", "save left 3 a clip.y4m"),
    ("help", "help"),
    ("save! left 3 a clip.y4m", "save! left 3 a clip.y4m"),
    ("save left #7 a clip.y4m", "save left event 7 a clip.y4m"),
    ("save! left #007 #7", "save! left event 7 #7"),
    (
        "save left #18446744073709551615 a",
        "save left event 18446744073709551615 a",
    ),
    (
        "keep from 1970-01-01T00:00:00Z to 1970-01-01T00:00:01Z",
        "between all 0 1000000 -",
    ),
    (
        "keep left from 1970-01-01T00:00:00.000001Z to 1970-01-01T00:00:00.5Z 7",
        "between left 1 500000 7",
    ),
    (
        "keep from from 1970-01-02T01:00:00+01:00 to 1970-01-01T23:00:00-01:00",
        "between from 86400000000 86400000000 -",
    ),
    ("keep from 5", "keep from 5 - -"),
    ("keep from", "keep from - - -"),
    ("keep from 5 7", "keep from 5 - 7"),
    ("keep from 5 +7", "keep from 5 7 -"),
    (
        "keep from 2026-11-22T15:38:00.123456Z to 9999-12-31T23:59:59Z",
        "between all 1795361880123456 253402300799000000 -",
    ),
    (
        "keep from 2000-02-29T00:00:00Z to 2024-02-29T00:00:00Z",
        "between all 951782400000000 1709164800000000 -",
    ),
];

// The order of a line, written out.
fn written(alloc: Global, line: &str) -> Result<String, AllocError> {
    match read_order(line) {
        None => String::from_str(alloc, ""),
        Some(
            Order::Keep {
                camera,
                seconds,
                after,
                tag,
            },
        ) => keep_written(alloc, camera, (seconds, after, tag)),
        Some(
            Order::KeepBetween {
                camera,
                since,
                until,
                tag,
            },
        ) => between_written(alloc, camera, (since, until), tag),
        Some(Order::Release { camera, id, first }) => {
            let first = number_written(alloc, first)?;
            format!(in alloc; "release {} {id} {first}", camera.text())
        }
        Some(Order::Cancel { camera, id }) => format!(in alloc; "cancel {} {id}", camera.text()),
        Some(Order::List) => String::from_str(alloc, "list"),
        Some(
            Order::Save {
                camera,
                id,
                out,
                replace,
            },
        ) => {
            let word = save_word(replace);
            format!(in alloc; "{word} {} {id} {}", camera.text(), out.text())
        }
        Some(
            Order::SaveEvent {
                camera,
                tag,
                out,
                replace,
            },
        ) => {
            let word = save_word(replace);
            format!(in alloc; "{word} {} event {tag} {}", camera.text(), out.text())
        }
        Some(Order::Help) => String::from_str(alloc, "help"),
        Some(Order::Status) => String::from_str(alloc, "status"),
        Some(Order::Reload) => String::from_str(alloc, "reload"),
        Some(Order::Stop) => String::from_str(alloc, "stop"),
    }
}

// The word of a save, which replaces a file or doesn't.
fn save_word(replace: bool) -> &'static str {
    if replace { "save!" } else { "save" }
}

// Writes a keep out.
fn keep_written(
    alloc: Global,
    camera: Option<Name<'_>>,
    times: (Option<u32>, Option<u32>, Option<u64>),
) -> Result<String, AllocError> {
    let name = match &camera {
        Some(name) => name.text(),
        None => "all",
    };
    let (seconds, after, tag) = times;
    let seconds = number_written(alloc, seconds.map(u64::from))?;
    let after = number_written(alloc, after.map(u64::from))?;
    let tag = number_written(alloc, tag)?;
    format!(in alloc; "keep {name} {seconds} {after} {tag}")
}

// A number, or `-` where there is none.
fn number_written(alloc: Global, number: Option<u64>) -> Result<String, AllocError> {
    match number {
        None => String::from_str(alloc, "-"),
        Some(number) => format!(in alloc; "{number}"),
    }
}

// Writes out a keep of the frames that were held between two times.
fn between_written(
    alloc: Global,
    camera: Option<Name<'_>>,
    times: (u64, u64),
    tag: Option<u64>,
) -> Result<String, AllocError> {
    let name = match &camera {
        Some(name) => name.text(),
        None => "all",
    };
    let (since, until) = times;
    let tag = number_written(alloc, tag)?;
    format!(in alloc; "between {name} {since} {until} {tag}")
}

// A line, its label, and the rest of it; nothing where it has no label.
const LABELS: [(&str, &str, &str); 8] = [
    ("@a keep 5", "a", "keep 5"),
    ("@60 @b stop", "60", "@b stop"),
    ("@a-_9 ", "a-_9", ""),
    ("@a", "", ""),
    ("@ keep", "", ""),
    ("a@b keep", "", ""),
    ("@a.b keep", "", ""),
    ("@abcdefghijklmnopqrstuvwxyzabcdefg keep", "", ""),
];

// Checks a row.
fn is_labelled(rt: &impl Abort, row: &(&str, &str, &str)) {
    let (line, label, rest) = *row;
    match label_of(line) {
        Some((name, left)) => {
            assert_eq!(*rt; name.text(), label, "{line:?}");
            assert_eq!(*rt; left.text(), rest, "{line:?}");
        }
        None => assert_eq!(*rt; "", label, "{line:?}"),
    }
}

#[test]
fn a_label_is_read_before_its_order(rt: HostRuntime) {
    for row in &LABELS {
        is_labelled(&rt, row);
    }
}

#[test]
fn lines_are_read_as_orders(rt: HostRuntime) {
    for row in &ROWS {
        is_asked(&rt, rt.alloc(), row);
    }
}

// Checks a row.
fn is_asked(rt: &impl Abort, alloc: Global, row: &(&str, &str)) {
    let (line, meaning) = *row;
    let got = written(alloc, line).expect(rt, "memory for a line");
    assert_eq!(*rt; got.as_str(), meaning, "{line:?}");
}
