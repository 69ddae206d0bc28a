//! What is printed, and how large a store is.

use loop_record::{Damage, Geometry, PixelFormat};
use loop_script::{Likeness, Listing, compare_frames, print_other_rate};
use loop_station_words::{
    CameraStatus, Lines, RingSize, WhenFull, print_clip_path, ring_for, ring_within,
};
use loop_store::{Clip, StoreFault};
use std::alloc::Global;
use std::process::Abort;

// The printed answers, one below the other.
const ANSWERS: &str =
    "kept left 63 3..9 from 2026-11-22T15:38:00.123Z to 2026-11-22T15:38:04.123Z event 1795361880123456\n\
kept left 63 3..9 from 2026-11-22T15:38:00.123Z to 2026-11-22T15:38:04.123Z event 5 tag 1795361880123456\n\
kept left 0 3..3 from 1970-01-01T00:00:00.000Z to 1970-01-01T00:00:00.000Z event 7\n\
kept left 1 3..9 from 1970-01-01T00:00:00.000Z to 1970-01-01T00:00:00.000Z event 7 tag 4 lost 65535\n\
kept left 63 3..9 unread Disk event 7\n\
kept left 1 3..9 unread MustReopen event 7 tag 4\n\
kept left none event 7\n\
held left 10.6 s of 60.0 s event 7\n\
gap left 720.0 s at 2026-11-22T15:38:00.123Z event 7\n\
held left 59.9 s of 60.0 s event 7 lost 3\n\
gap left 0.1 s at 2026-11-22T15:38:00.123Z event 7 lost 2\n\
event 7 from 2026-11-22T15:38:00.123Z to 2026-11-22T15:38:04.123Z\n\
event 7 left whole\n\
event 7 left not whole Disk\n\
event 7 left not whole Gaps lost 1\n\
refused too far: a keep ends within an hour\n\
refused left 10 ClipNotHeld 5\n\
refused left 5 Damaged 7\n\
refused left 6 AllLocked\n\
released left 3\n\
refused left other clip 3 90\n\
released left 3 full\n\
refused left saving\n\
refused left too many saves\n\
saved left 3 a \"clip\".y4m 7\n\
not saved left 3 C:\\clip\t\u{1}\u{1f}\u{7f}\u{e9}\u{1f4f7} CannotOpen\n\
waits left 3 a clip.y4m NoRoom\n\
cancelled left 3\n\
refused left not saving 3\n\
absent left NoStore\n\
camera left\n\
next 12\n\
frames 3..5\n\
frames 9..9\n\
frames 11..11\n\
clip 0 3..5\n\
clip 63 9..9 tag 18446744073709551615\n\
status left stored 1 given up 2 waiting 3 behind 12.3 room 4 of 9 faults 5 source on lost 0 estimated 0 full stop\n\
status left stored 1 given up 2 waiting 3 behind 12.3 room 4 of 9 keeps 6 faults 5 source other geometry gaps 8 lost 10 estimated 9 clock +1.9 s full release oldest tag 7\n\
status left making a store.loop 40 %\n\
no camera left\n\
bad order: ke?p \"??\n\
camera left ended removed\n\
camera left started changed\n\
not changed answers: it needs a restart\n\
reloaded a.toml 3 cameras 2 ended 1 started\n\
not reloaded a.toml: there is no camera\n\
done\n\
stopped\n";

// The same as JSON.
const ANSWERS_JSON: &str =
    "\"kind\":\"kept\",\"camera\":\"left\",\"id\":63,\"first\":3,\"last\":9,\"from\":\"2026-11-22T15:38:00.123Z\",\"to\":\"2026-11-22T15:38:04.123Z\",\"event\":1795361880123456,\"lost\":0}\n\
\"kind\":\"kept\",\"camera\":\"left\",\"id\":63,\"first\":3,\"last\":9,\"from\":\"2026-11-22T15:38:00.123Z\",\"to\":\"2026-11-22T15:38:04.123Z\",\"event\":5,\"tag\":1795361880123456,\"lost\":0}\n\
\"kind\":\"kept\",\"camera\":\"left\",\"id\":0,\"first\":3,\"last\":3,\"from\":\"1970-01-01T00:00:00.000Z\",\"to\":\"1970-01-01T00:00:00.000Z\",\"event\":7,\"lost\":0}\n\
\"kind\":\"kept\",\"camera\":\"left\",\"id\":1,\"first\":3,\"last\":9,\"from\":\"1970-01-01T00:00:00.000Z\",\"to\":\"1970-01-01T00:00:00.000Z\",\"event\":7,\"tag\":4,\"lost\":65535}\n\
\"kind\":\"kept_unread\",\"camera\":\"left\",\"id\":63,\"first\":3,\"last\":9,\"why\":\"Disk\",\"event\":7}\n\
\"kind\":\"kept_unread\",\"camera\":\"left\",\"id\":1,\"first\":3,\"last\":9,\"why\":\"MustReopen\",\"event\":7,\"tag\":4}\n\
\"kind\":\"kept_none\",\"camera\":\"left\",\"event\":7}\n\
\"kind\":\"held\",\"camera\":\"left\",\"held_micros\":10600000,\"asked_micros\":60000000,\"event\":7,\"lost\":0}\n\
\"kind\":\"gap\",\"camera\":\"left\",\"micros\":720000000,\"at\":\"2026-11-22T15:38:00.123Z\",\"event\":7,\"lost\":0}\n\
\"kind\":\"held\",\"camera\":\"left\",\"held_micros\":59900000,\"asked_micros\":60000000,\"event\":7,\"lost\":3}\n\
\"kind\":\"gap\",\"camera\":\"left\",\"micros\":100000,\"at\":\"2026-11-22T15:38:00.123Z\",\"event\":7,\"lost\":2}\n\
\"kind\":\"event_begun\",\"event\":7,\"from\":\"2026-11-22T15:38:00.123Z\",\"to\":\"2026-11-22T15:38:04.123Z\"}\n\
\"kind\":\"event_whole\",\"event\":7,\"camera\":\"left\",\"lost\":0}\n\
\"kind\":\"event_not_whole\",\"event\":7,\"camera\":\"left\",\"why\":\"Disk\",\"lost\":0}\n\
\"kind\":\"event_not_whole\",\"event\":7,\"camera\":\"left\",\"why\":\"Gaps\",\"lost\":1}\n\
\"kind\":\"too_far\"}\n\
\"kind\":\"refused\",\"camera\":\"left\",\"number\":10,\"name\":\"ClipNotHeld\",\"frame\":5}\n\
\"kind\":\"refused\",\"camera\":\"left\",\"number\":5,\"name\":\"Damaged\",\"damage\":7}\n\
\"kind\":\"refused\",\"camera\":\"left\",\"number\":6,\"name\":\"AllLocked\"}\n\
\"kind\":\"released\",\"camera\":\"left\",\"id\":3}\n\
\"kind\":\"not_released\",\"camera\":\"left\",\"id\":3,\"first\":90}\n\
\"kind\":\"released\",\"camera\":\"left\",\"id\":3,\"why\":\"full\"}\n\
\"kind\":\"saving\",\"camera\":\"left\"}\n\
\"kind\":\"too_many_saves\",\"camera\":\"left\"}\n\
\"kind\":\"saved\",\"camera\":\"left\",\"id\":3,\"path\":\"a \\\"clip\\\".y4m\",\"frames\":7}\n\
\"kind\":\"not_saved\",\"camera\":\"left\",\"id\":3,\"path\":\"C:\\\\clip\\t\\u0001\\u001f\u{7f}\u{e9}\u{1f4f7}\",\"why\":\"CannotOpen\"}\n\
\"kind\":\"save_waits\",\"camera\":\"left\",\"id\":3,\"path\":\"a clip.y4m\",\"why\":\"NoRoom\"}\n\
\"kind\":\"cancelled\",\"camera\":\"left\",\"id\":3}\n\
\"kind\":\"not_saving\",\"camera\":\"left\",\"id\":3}\n\
\"kind\":\"absent\",\"camera\":\"left\",\"why\":\"NoStore\"}\n\
\"kind\":\"camera\",\"camera\":\"left\",\"next\":12,\"frames\":[{\"first\":3,\"last\":5},{\"first\":9,\"last\":9},{\"first\":11,\"last\":11}],\"clips\":[{\"id\":0,\"first\":3,\"last\":5,\"tag\":0},{\"id\":63,\"first\":9,\"last\":9,\"tag\":18446744073709551615}]}\n\
\"kind\":\"status\",\"camera\":\"left\",\"stored\":1,\"given_up\":2,\"waiting\":3,\"behind_micros\":12399999,\"room\":4,\"blocks\":9,\"faults\":5,\"source\":\"on\",\"lost\":0,\"estimated\":0,\"when_full\":\"stop\"}\n\
\"kind\":\"status\",\"camera\":\"left\",\"stored\":1,\"given_up\":2,\"waiting\":3,\"behind_micros\":12399999,\"room\":4,\"blocks\":9,\"keeps\":6,\"faults\":5,\"source\":\"other geometry\",\"gaps\":8,\"lost\":10,\"estimated\":9,\"clock_micros\":1900000,\"when_full\":\"release oldest\",\"full_tag\":7}\n\
\"kind\":\"status_making\",\"camera\":\"left\",\"path\":\"a store.loop\",\"percent\":40}\n\
\"kind\":\"no_camera\",\"camera\":\"left\"}\n\
\"kind\":\"bad_order\",\"line\":\"ke?p \\\"??\"}\n\
\"kind\":\"camera_ended\",\"camera\":\"left\",\"why\":\"removed\"}\n\
\"kind\":\"camera_started\",\"camera\":\"left\",\"why\":\"changed\"}\n\
\"kind\":\"not_changed\",\"word\":\"answers\"}\n\
\"kind\":\"reloaded\",\"path\":\"a.toml\",\"cameras\":3,\"ended\":2,\"started\":1}\n\
\"kind\":\"not_reloaded\",\"path\":\"a.toml\",\"why\":\"there is no camera\"}\n\
\"kind\":\"done\"}\n\
\"kind\":\"stopped\"}\n";

// The printed events.
const EVENTS: &str = "source left on 320x240 GREY 30000:1001\n\
other geometry left 320x240 GREY 30000:1001\n\
source left on 160x240 GREY 30000:1001 12 bits\n\
other geometry left 160x240 GREY 30000:1001 9 bits\n\
other geometry left 320x240 GREY 30000:1001 8 bits, not 16\n\
source left missing\n\
source left silent\n\
source left unusable no rate\n\
store left open\n\
store left open holds 30.8 s of 300.0 s\n\
store left absent NoRoom\n\
store left left.003.loop absent Disk\n\
store left left.003.loop missing, made anew\n\
store left a.loop has an old layout: its keeps are refused; end the station, and run loop_cli upgrade a.loop\n\
not a store left a store.loop.new: move it away, and a store is made\n\
making left a store.loop 40 %\n\
given up left 7 since 2000-02-29T23:59:59.999Z\n\
all locked left\n\
nearly all locked left\n\
room again left\n\
behind left 1.2\n\
caught up left\n\
waited left 3.2 s since 2026-11-22T15:38:00.123Z\n\
stood still 3.2 s since 2026-11-22T15:38:00.123Z\n\
disk left syncs in 12 ms\n\
disk left too slow: syncs in 250 ms, room for 16 frames a second\n\
not noted left a store.loop.events: a stop or a loss of power would end its events\n\
no answers a pipe: what is printed doesn't go there\n\
dropped 12 lines\n\
times of left go back\n\
no times of left\n\
numbers of left began anew\n\
gap left 120 ms at 2026-11-22T15:38:00.123Z\n";

// The same as JSON.
const EVENTS_JSON: &str =
    "\"kind\":\"source_on\",\"camera\":\"left\",\"width\":320,\"height\":240,\"format\":\"GREY\",\"rate_num\":30000,\"rate_den\":1001}\n\
\"kind\":\"other_geometry\",\"camera\":\"left\",\"width\":320,\"height\":240,\"format\":\"GREY\",\"rate_num\":30000,\"rate_den\":1001}\n\
\"kind\":\"source_on\",\"camera\":\"left\",\"width\":160,\"height\":240,\"format\":\"GREY\",\"rate_num\":30000,\"rate_den\":1001,\"bits\":12}\n\
\"kind\":\"other_geometry\",\"camera\":\"left\",\"width\":160,\"height\":240,\"format\":\"GREY\",\"rate_num\":30000,\"rate_den\":1001,\"bits\":9}\n\
\"kind\":\"other_geometry\",\"camera\":\"left\",\"width\":320,\"height\":240,\"format\":\"GREY\",\"rate_num\":30000,\"rate_den\":1001,\"bits\":8,\"store_bits\":16}\n\
\"kind\":\"source_missing\",\"camera\":\"left\"}\n\
\"kind\":\"source_silent\",\"camera\":\"left\"}\n\
\"kind\":\"source_unusable\",\"camera\":\"left\",\"why\":\"no rate\"}\n\
\"kind\":\"store_open\",\"camera\":\"left\"}\n\
\"kind\":\"store_open\",\"camera\":\"left\",\"held_micros\":30800000,\"asked_micros\":300000000}\n\
\"kind\":\"store_absent\",\"camera\":\"left\",\"why\":\"NoRoom\"}\n\
\"kind\":\"one_absent\",\"camera\":\"left\",\"path\":\"left.003.loop\",\"why\":\"Disk\"}\n\
\"kind\":\"store_missing\",\"camera\":\"left\",\"path\":\"left.003.loop\"}\n\
\"kind\":\"old_layout\",\"camera\":\"left\",\"path\":\"a.loop\"}\n\
\"kind\":\"not_a_store\",\"camera\":\"left\",\"path\":\"a store.loop.new\"}\n\
\"kind\":\"making\",\"camera\":\"left\",\"path\":\"a store.loop\",\"percent\":40}\n\
\"kind\":\"given_up\",\"camera\":\"left\",\"frames\":7,\"since\":\"2000-02-29T23:59:59.999Z\"}\n\
\"kind\":\"all_locked\",\"camera\":\"left\"}\n\
\"kind\":\"nearly_all_locked\",\"camera\":\"left\"}\n\
\"kind\":\"room_again\",\"camera\":\"left\"}\n\
\"kind\":\"behind\",\"camera\":\"left\",\"micros\":1299999}\n\
\"kind\":\"caught_up\",\"camera\":\"left\"}\n\
\"kind\":\"waited\",\"camera\":\"left\",\"micros\":3200000,\"since\":\"2026-11-22T15:38:00.123Z\"}\n\
\"kind\":\"stood_still\",\"micros\":3200000,\"since\":\"2026-11-22T15:38:00.123Z\"}\n\
\"kind\":\"syncs\",\"camera\":\"left\",\"micros\":12345}\n\
\"kind\":\"too_slow\",\"camera\":\"left\",\"micros\":250000,\"frames_a_second\":16}\n\
\"kind\":\"not_noted\",\"camera\":\"left\",\"path\":\"a store.loop.events\"}\n\
\"kind\":\"no_answers\",\"path\":\"a pipe\"}\n\
\"kind\":\"dropped_lines\",\"lines\":12}\n\
\"kind\":\"times_back\",\"camera\":\"left\"}\n\
\"kind\":\"no_times\",\"camera\":\"left\"}\n\
\"kind\":\"numbers_anew\",\"camera\":\"left\"}\n\
\"kind\":\"frames_gap\",\"camera\":\"left\",\"micros\":120999,\"at\":\"2026-11-22T15:38:00.123Z\"}\n";

// What lines begin with, and the names of a clip's file.
const HEADS: &str = "1970-01-01T00:00:00.000Z @a-1 @b 2026-11-22T15:38:00.123Z \
{\"time\":\"1970-01-01T00:00:00.000Z\",\"label\":\"a-1\",{\"label\":\"b\",{\"time\":\"2026-11-22T15:38:00.123Z\",{\
out/left_2026-11-22T15-38-00Z_7.y4m out/left_2026-11-22T15-38-00Z_7-2.y4m";

const fn clip(id: u32, to: u64, tag: u64) -> Clip {
    Clip {
        id,
        from: 3,
        to,
        tag,
    }
}

// 22 November 2026, 15:38:00.123456, in microseconds since 1970.
const NOVEMBER: u64 = 1_795_361_880_123_456;

// Four seconds later.
const LATER: u64 = NOVEMBER + 4_000_000;

// A geometry that a source may have.
const OTHER: Geometry = Geometry {
    width: 320,
    height: 240,
    format: PixelFormat::Grey,
    rate_num: 30_000,
    rate_den: 1001,
    segments: 2,
    slots: 1,
};

// How a camera stands.
const STATUS: CameraStatus<'static> = CameraStatus {
    stored: 1,
    given_up: 2,
    waiting: 3,
    behind: 12_399_999,
    room: 4,
    blocks: 9,
    keeps: None,
    faults: 5,
    source: "on",
    gaps: None,
    lost: 0,
    estimated: 0,
    clock: None,
    when_full: WhenFull::Stop,
};

const FULL_STATUS: CameraStatus<'static> = CameraStatus {
    keeps: Some(6),
    source: "other geometry",
    gaps: Some(8),
    lost: 10,
    estimated: 9,
    clock: Some(1_900_000),
    when_full: WhenFull::ReleaseOldest(Some(7)),
    ..STATUS
};

// Adds what is told of an event.
fn tells_event(lines: &mut Lines) -> bool {
    lines
        .kept("left", &clip(63, 9, NOVEMBER), (NOVEMBER, LATER), NOVEMBER, 0)
        .is_ok()
        && lines
            .kept("left", &clip(63, 9, NOVEMBER), (NOVEMBER, LATER), 5, 0)
            .is_ok()
        && lines.kept("left", &clip(0, 3, 0), (0, 0), 7, 0).is_ok()
        && lines.kept("left", &clip(1, 9, 4), (0, 0), 7, 65_535).is_ok()
        && lines
            .kept_unread("left", &clip(63, 9, 7), &"Disk", 7)
            .is_ok()
        && lines
            .kept_unread("left", &clip(1, 9, 4), &"MustReopen", 7)
            .is_ok()
        && lines.kept_none("left", 7).is_ok()
        && lines.held("left", 10_600_000, 60_000_000, 7, 0).is_ok()
        && lines.gap("left", 720_000_000, NOVEMBER, 7, 0).is_ok()
        && lines.held("left", 59_900_000, 60_000_000, 7, 3).is_ok()
        && lines.gap("left", 100_000, NOVEMBER, 7, 2).is_ok()
        && lines.event_begun(7, NOVEMBER, LATER).is_ok()
        && lines.event_whole(7, "left").is_ok()
        && lines.event_not_whole(7, "left", &"Disk", 0).is_ok()
        && lines.event_not_whole(7, "left", &"Gaps", 1).is_ok()
        && lines.too_far().is_ok()
}

// Adds the answers about clips and saves.
fn tells_clips(lines: &mut Lines) -> bool {
    let damaged = StoreFault::Damaged(Damage::ClipRange);
    lines.refused("left", StoreFault::ClipNotHeld(5)).is_ok()
        && lines.refused("left", damaged).is_ok()
        && lines.refused("left", StoreFault::AllLocked).is_ok()
        && lines.released("left", 3).is_ok()
        && lines.not_released("left", 3, 90).is_ok()
        && lines.released_full("left", 3).is_ok()
        && lines.saving("left").is_ok()
        && lines.too_many_saves("left").is_ok()
        && lines.saved("left", 3, "a \"clip\".y4m", 7).is_ok()
        && lines
            .not_saved(
                "left",
                3,
                "C:\\clip\t\u{1}\u{1f}\u{7f}\u{e9}\u{1f4f7}",
                &"CannotOpen",
            )
            .is_ok()
        && lines.save_waits("left", 3, "a clip.y4m", &"NoRoom").is_ok()
        && lines.cancelled("left", 3).is_ok()
        && lines.not_saving("left", 3).is_ok()
        && lines.absent("left", &"NoStore").is_ok()
}

// Adds the other answers.
fn tells_answers(lines: &mut Lines, listing: &Listing<Global>) -> bool {
    lines.camera("left", listing).is_ok()
        && lines.status("left", &STATUS).is_ok()
        && lines.status("left", &FULL_STATUS).is_ok()
        && lines.status_making("left", "a store.loop", 40).is_ok()
        && lines.no_camera("left").is_ok()
        && lines.bad_order(b"ke\x7fp \"\n\xff").is_ok()
        && lines.camera_ended("left", "removed").is_ok()
        && lines.camera_started("left", "changed").is_ok()
        && lines.not_changed("answers").is_ok()
        && lines.reloaded("a.toml", (3, 2, 1)).is_ok()
        && lines.not_reloaded("a.toml", &"there is no camera").is_ok()
        && lines.done().is_ok()
        && lines.stopped().is_ok()
}

// Adds what happens to sources and stores without an order.
fn tells_sources(lines: &mut Lines) -> bool {
    lines.source_on("left", &OTHER).is_ok()
        && lines.other_geometry("left", &OTHER).is_ok()
        && lines.deep_source_on("left", &OTHER, 12).is_ok()
        && lines.other_bits("left", &OTHER, 9, None).is_ok()
        && lines.other_bits("left", &OTHER, 8, Some(16)).is_ok()
        && lines.source_missing("left").is_ok()
        && lines.source_silent("left").is_ok()
        && lines.source_unusable("left", "no rate").is_ok()
        && lines.store_open("left", None).is_ok()
        && lines
            .store_open("left", Some((30_800_000, 300_000_000)))
            .is_ok()
        && lines.store_absent("left", &"NoRoom").is_ok()
        && lines.one_absent("left", "left.003.loop", &"Disk").is_ok()
        && lines.store_missing("left", "left.003.loop").is_ok()
        && lines.old_layout("left", "a.loop").is_ok()
        && lines.not_a_store("left", "a store.loop", ".new").is_ok()
        && lines.making("left", "a store.loop", 40).is_ok()
}

// Adds what else happens without an order.
fn tells_frames(lines: &mut Lines) -> bool {
    lines.given_up("left", 7, 951_868_799_999_999).is_ok()
        && lines.all_locked("left").is_ok()
        && lines.nearly_all_locked("left").is_ok()
        && lines.room_again("left").is_ok()
        && lines.behind("left", 1_299_999).is_ok()
        && lines.caught_up("left").is_ok()
        && lines.waited("left", 3_200_000, NOVEMBER).is_ok()
        && lines.stood_still(3_200_000, NOVEMBER).is_ok()
        && lines.syncs("left", 12_345).is_ok()
        && lines.too_slow("left", 250_000, 16).is_ok()
        && lines.not_noted("left", "a store.loop.events").is_ok()
        && lines.no_answers("a pipe").is_ok()
        && lines.dropped_lines(12).is_ok()
        && lines.times_back("left").is_ok()
        && lines.no_times("left").is_ok()
        && lines.numbers_anew("left").is_ok()
        && lines.frames_gap("left", 120_999, NOVEMBER).is_ok()
}

// What a store holds.
fn listing(rt: &impl Abort, alloc: Global) -> Listing<Global> {
    let numbers = Vec::from_slice(alloc, &[3, 4, 5, 9, 11]);
    let clips = Vec::from_slice(
        alloc,
        &[
            clip(0, 5, 0),
            Clip {
                from: 9,
                ..clip(63, 9, u64::MAX)
            },
        ],
    );
    Listing {
        next: 12,
        numbers: numbers.expect(rt, "memory for numbers"),
        clips: clips.expect(rt, "memory for clips"),
    }
}

#[test]
fn each_answer_is_printed(rt: HostRuntime) {
    let mut lines = Lines::new(rt.alloc(), true);
    let mut more = Lines::new(rt.alloc(), true);
    let listing = listing(&rt, rt.alloc());
    assert!(rt; lines.is_empty());
    assert!(rt; tells_event(&mut lines) && tells_clips(&mut lines));
    assert!(rt; tells_answers(&mut more, &listing));
    assert!(rt; lines.add(&more).is_ok() && !lines.is_empty());
    assert_eq!(rt; lines.text(), ANSWERS.as_bytes());
    assert_eq!(rt; lines.json(), ANSWERS_JSON.as_bytes());
}

#[test]
fn each_event_is_printed(rt: HostRuntime) {
    let mut lines = Lines::new(rt.alloc(), true);
    assert!(rt; tells_sources(&mut lines) && tells_frames(&mut lines));
    assert_eq!(rt; lines.text(), EVENTS.as_bytes());
    assert_eq!(rt; lines.json(), EVENTS_JSON.as_bytes());
}

// Where JSON isn't wanted, there is none.
#[test]
fn text_alone_is_printed(rt: HostRuntime) {
    let mut lines = Lines::new(rt.alloc(), false);
    assert!(rt; tells_sources(&mut lines) && tells_frames(&mut lines));
    assert_eq!(rt; lines.text(), EVENTS.as_bytes());
    assert!(rt; lines.json().is_empty());
    let listing = listing(&rt, rt.alloc());
    assert!(rt; lines.camera("left", &listing).is_ok() && lines.json().is_empty());
}

// Prints what lines begin with, and the names of a clip's file.
fn prints_heads(alloc: Global, out: &mut Vec<u8>) -> bool {
    Lines::head(out, Some(0), Some("a-1")).is_ok()
        && Lines::head(out, None, Some("b")).is_ok()
        && Lines::head(out, Some(NOVEMBER), None).is_ok()
        && Lines::json_head(alloc, out, Some(0), Some("a-1")).is_ok()
        && Lines::json_head(alloc, out, None, Some("b")).is_ok()
        && Lines::json_head(alloc, out, Some(NOVEMBER), None).is_ok()
        && Lines::json_head(alloc, out, None, None).is_ok()
        && print_clip_path(out, "out", "left", NOVEMBER, 7, 1).is_ok()
        && print_clip_path(out, " out", "left", NOVEMBER, 7, 2).is_ok()
}

#[test]
fn lines_begin_with_time_and_label(rt: HostRuntime) {
    let mut out = Vec::new(rt.alloc());
    assert!(rt; prints_heads(rt.alloc(), &mut out));
    assert_eq!(rt; out.as_slice(), HEADS.as_bytes());
}

#[test]
fn another_rate_is_printed(rt: HostRuntime) {
    let mut out = Vec::new(rt.alloc());
    assert!(rt; print_other_rate(&mut out, "left", &OTHER).is_ok());
    let words: &[u8] = b"other rate left 30000:1001\n";
    assert_eq!(rt; out.as_slice(), words);
}

// The same frames at the same rate, which is written in another way.
const SAME: Geometry = Geometry {
    rate_num: 60_000,
    rate_den: 2002,
    segments: 64,
    ..OTHER
};

// Frames at another rate, and taller ones.
const SLOW: Geometry = Geometry {
    rate_num: 5,
    rate_den: 1,
    ..OTHER
};

const TALL: Geometry = Geometry {
    height: 241,
    ..SLOW
};

#[test]
fn frames_are_compared_whatever_their_rings(rt: HostRuntime) {
    assert_eq!(rt; compare_frames(&OTHER, &SAME), Likeness::Alike);
    assert_eq!(rt; compare_frames(&OTHER, &SLOW), Likeness::OtherRate);
    assert_eq!(rt; compare_frames(&OTHER, &TALL), Likeness::OtherGeometry);
}

// How many frames of how many bytes a store is to hold, and the segments and slots for them; zeros where there is no
// such store. Small frames have more slots, as long as there are 16 segments.
const RINGS: [(u64, u32, u32, u32); 19] = [
    (0, 1, 2, 64),
    (65, 1, 2, 64),
    (66, 1, 3, 64),
    (1500, 1, 25, 64),
    (1793, 1, 29, 64),
    (1794, 1, 16, 128),
    (3585, 16_384, 29, 128),
    (3586, 16_384, 16, 256),
    (4034, 16_384, 17, 256),
    (3586, 16_385, 30, 128),
    (1793, 65_536, 29, 64),
    (1794, 65_536, 16, 128),
    (8065, 65_536, 64, 128),
    (8066, 65_536, 64, 129),
    (1794, 65_537, 30, 64),
    (4033, 65_537, 64, 64),
    (4034, 65_537, 64, 65),
    (16_129, 65_537, 64, 256),
    (16_130, 1, 0, 0),
];

// The largest ring of frames of so many bytes within so many bytes.
const WITHIN: [(u32, u64, u32, u32); 13] = [
    (12, 3_671, 0, 0),
    (12, 3_672, 2, 1),
    (12, 9_216, 2, 64),
    (12, 12_544, 3, 64),
    (12, 100_863, 29, 64),
    (12, 100_864, 16, 128),
    (12, 190_975, 30, 128),
    (12, 190_976, 16, 256),
    (16_384, 67_250_688, 16, 256),
    (16_385, 67_254_784, 31, 128),
    (65_536, 134_294_016, 16, 128),
    (65_537, 134_296_064, 31, 64),
    (12, u64::MAX, 64, 256),
];

// The segments and slots of a ring; zeros where there is no ring.
fn sizes(ring: Option<RingSize>) -> (u32, u32) {
    match ring {
        Some(RingSize { segments, slots }) => (segments, slots),
        None => (0, 0),
    }
}

#[test]
fn stores_are_as_large_as_they_have_to_be(rt: HostRuntime) {
    for (frames, size, segments, slots) in &RINGS {
        assert_eq!(rt;
            sizes(ring_for(*frames, *size)),
            (*segments, *slots),
            "{frames:?}, {size:?}"
        );
    }
    for (size, bytes, segments, slots) in &WITHIN {
        assert_eq!(rt;
            sizes(ring_within(*size, *bytes)),
            (*segments, *slots),
            "{bytes:?}, {size:?}"
        );
    }
}
