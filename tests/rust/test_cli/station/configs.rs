//! Configurations: what is read of them.

use loop_record::PixelFormat;
use loop_station_words::{
    AnswersForm, CameraConfig, Config, FrameShape, LossesFrom, MemoryLimit, SETTINGS, Settings, Source,
    StoreSize, TimesFrom, WhenFull, read_config,
};
use std::alloc::Global;
use std::process::Abort;

// Minutes as they are written, and their seconds.
const MINUTES: [(&str, u64); 4] = [("5", 300), ("0.5", 30), ("2.51", 151), ("0.001", 1)];

// The seconds of the first camera of a configuration.
fn seconds_of(alloc: Global, text: &str) -> Option<u64> {
    match read_config(alloc, text) {
        Ok(config) => match config.cameras.first() {
            Some(camera) => match camera.room {
                StoreSize::Seconds(seconds) => Some(seconds),
                StoreSize::Bytes(_) => None,
            },
            None => None,
        },
        Err(_) => None,
    }
}

// Checks that minutes are this many seconds.
fn lasts(rt: &impl Abort, alloc: Global, row: &(&str, u64)) {
    let (minutes, seconds) = *row;
    let text = format!(in alloc;
        "[[camera]]\nname='a'\nsource='p'\nstore='s'\nminutes={minutes}\n"
    );
    let text = text.expect(rt, "memory for a text");
    assert_eq!(*rt;
        seconds_of(alloc, text.as_str()),
        Some(seconds),
        "{minutes:?}"
    );
}

#[test]
fn minutes_are_seconds_rounded_up(rt: HostRuntime) {
    for row in &MINUTES {
        lasts(&rt, rt.alloc(), row);
    }
}

// Every word of the file, each with a value of its own.
const WHOLE: &str =
    "orders='from'\nanswers='to'\nanswers_form='json'\nsaves='here'\ntimes=false\nevents=false\nwhen_full='release saved'\n\
[[camera]]\nname='left'\nsource='pattern'\npattern='4x2 GREY 30:7'\nstore='l.loop'\nminutes=3\nkeep=11\nafter=20\ntag=12\n\
buffers=13\nmemory=14\nsave_to='clips'\nrelease=true\nwhen_full='release oldest tag 22'\n\
[[camera]]\nname='right'\nsource='r.y4m'\nstore='r.loop'\nbytes=15\nkeep=16\nafter=21\ntag=17\nbuffers=18\nmemory='19 s'\nsave_to='more'\n\
times_from='source'\nlosses='none'\n";

// The shape of the first camera's pattern.
const SHAPE: FrameShape = FrameShape {
    width: 4,
    height: 2,
    format: PixelFormat::Grey,
    rate_num: 30,
    rate_den: 7,
};

// Whether there are just two cameras, with all the values of the file.
fn says_all(config: &Config) -> bool {
    match config.cameras.as_slice() {
        [left, right] => {
            config.orders.as_deref() == Some("from")
                && config.answers.as_deref() == Some("to")
                && config.answers_form == AnswersForm::Json
                && config.saves.as_deref() == Some("here")
                && !config.times
                && !config.events
                && is_left(left)
                && is_right(right)
        }
        _ => false,
    }
}

fn is_left(camera: &CameraConfig) -> bool {
    camera.name.as_str() == "left"
        && matches!(&camera.source, Source::Pattern(shape) if *shape == SHAPE)
        && camera.store.as_str() == "l.loop"
        && camera.room == StoreSize::Seconds(180)
        && (camera.seconds, camera.after) == (11, 20)
        && (camera.tag, camera.buffers) == (12, 13)
        && camera.memory == Some(MemoryLimit::Bytes(14))
        && camera.save_to.as_deref() == Some("clips")
        && camera.release
        && camera.times_from == TimesFrom::Arrival
        && camera.losses == LossesFrom::Either
        && camera.when_full == Some(WhenFull::ReleaseOldest(Some(22)))
}

fn is_right(camera: &CameraConfig) -> bool {
    camera.name.as_str() == "right"
        && matches!(&camera.source, Source::Path(path) if path.as_str() == "r.y4m")
        && camera.store.as_str() == "r.loop"
        && camera.room == StoreSize::Bytes(15)
        && (camera.seconds, camera.after) == (16, 21)
        && (camera.tag, camera.buffers) == (17, 18)
        && camera.memory == Some(MemoryLimit::Seconds(19))
        && camera.save_to.as_deref() == Some("more")
        && !camera.release
        && camera.times_from == TimesFrom::Source
        && camera.losses == LossesFrom::Nothing
        && camera.when_full.is_none()
}

// Whether there is just one camera, with no word that may be left out.
fn says_least(config: &Config) -> bool {
    match config.cameras.as_slice() {
        [camera] => {
            config.orders.is_none()
                && config.answers.is_none()
                && config.answers_form == AnswersForm::Text
                && config.saves.is_none()
                && config.times
                && config.events
                && (camera.seconds, camera.after) == (60, 0)
                && (camera.tag, camera.buffers) == (0, 8)
                && camera.memory.is_none()
                && camera.save_to.is_none()
                && !camera.release
                && camera.times_from == TimesFrom::Arrival
                && camera.when_full.is_none()
                && config.when_full.is_none()
                && camera.room == StoreSize::Bytes(77)
        }
        _ => false,
    }
}

#[test]
fn each_word_of_a_configuration_is_read(rt: HostRuntime) {
    let whole = read_config(rt.alloc(), WHOLE);
    assert!(rt; matches!(&whole, Ok(config) if says_all(config)));
    let least = read_config(
        rt.alloc(),
        "[[camera]]\nname='a'\nsource='p'\nstore='s'\nbytes=77\n",
    );
    assert!(rt; matches!(&least, Ok(config) if says_least(config)));
}

// Words of the file, each with another value than in `WHOLE`, and the word that needs a restart, if it does.
const OTHERS: [(&str, &str, Option<&str>); 6] = [
    ("orders='from'", "orders='of'", Some("orders")),
    ("answers='to'", "answers='too'", Some("answers")),
    ("answers_form='json'", "answers_form='text'", Some("answers_form")),
    ("saves='here'\n", "", Some("saves")),
    ("times=false", "times=true", Some("times")),
    ("events=false", "events=true", Some("events")),
];

// Words of the first camera, each with another value.
const CHANGES: [(&str, &str); 13] = [
    ("name='left'", "name='lift'"),
    ("4x2 GREY 30:7", "4x2 GREY 30:1"),
    ("store='l.loop'", "store='m.loop'"),
    ("minutes=3", "bytes=180"),
    ("keep=11", "keep=10"),
    ("after=20", "after=2"),
    ("tag=12", "tag=1"),
    ("buffers=13", "buffers=12"),
    ("memory=14", "memory='14 s'"),
    ("save_to='clips'", "save_to='clip'"),
    ("release=true", "release=false"),
    ("release=true", "release=true\ntimes_from='source'"),
    ("oldest tag 22", "oldest"),
];

// What a text of a configuration says where a part of it is another one.
fn changed(rt: &impl Abort, alloc: Global, old: &str, new: &str) -> Config {
    let (before, after) = WHOLE.split_once(old).expect(rt, "a text that has the old one");
    let text = format!(in alloc; "{before}{new}{after}");
    let text = text.expect(rt, "memory for a text");
    match read_config(alloc, text.as_str()) {
        Ok(config) => config,
        Err(fault) => panic!(*rt; "{new}: {fault}"),
    }
}

#[test]
fn each_word_that_changes_is_seen(rt: HostRuntime) {
    let alloc = rt.alloc();
    let before = changed(&rt, alloc, "orders", "orders");
    let settings = Settings::of(alloc, &before).expect(&rt, "memory for settings");
    for place in 0..SETTINGS {
        assert_eq!(rt; settings.changed(&before, place), None);
    }
    for (place, (old, new, word)) in OTHERS.iter().enumerate() {
        let after = changed(&rt, alloc, old, new);
        assert_eq!(rt; settings.changed(&after, place), *word);
        assert!(rt; after.cameras[0].has_words_of(&before.cameras[0]));
    }
    for (old, new) in &CHANGES {
        let after = changed(&rt, alloc, old, new);
        assert!(rt; !after.cameras[0].has_words_of(&before.cameras[0]), "{new}");
        assert!(rt; after.cameras[1].has_words_of(&before.cameras[1]), "{new}");
    }
}
