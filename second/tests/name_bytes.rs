//! Document 02, K3: a name may hold every byte but 0 and 47. Each byte is tried in every call that takes
//! names, in stored names and in records; and the stored script `name-bytes` notices wrong rules: it is played by the
//! sources of this program with other `names`.
#![allow(dead_code)]

mod common;
use common::{waiting, World};
use second::log::Log;
use second::record::{Kind, Record};
use second::volume::NAME_AT;
use std::path::Path;
use std::rc::Rc;

/// Every byte at every place of a name, and whether the name is good.
fn examples() -> impl Iterator<Item = (Vec<u8>, bool)> {
    let places = |byte| [vec![byte], vec![byte, b'a'], vec![b'a', byte, b'b'], vec![b'a', byte]];
    (0..=255).flat_map(places).map(|name| (name.clone(), name != b"." && !name.contains(&0) && !name.contains(&b'/')))
}

#[test]
fn calls_by_the_examples() {
    assert_eq!(examples().filter(|(_, good)| !good).count(), 9, "0 and 47 at four places, and the name of one dot");
    for (name, good) in examples() {
        let answer = |accepted| if good { accepted } else { Err(5) };
        let mut world = World::new(4, 1, 4);
        world.create(0, 0, b"xyz", 1).unwrap();
        assert_eq!(world.rmfile(0, 0, &name), answer(Err(8)), "{name:?}");
        assert_eq!(world.rmdir(0, 0, &name), answer(Err(8)), "{name:?}");
        assert_eq!(world.rename(0, 0, &name, 0, b"v"), answer(Err(8)), "{name:?}");
        assert_eq!(world.clone().rename(0, 0, b"xyz", 0, &name), answer(Ok(2)), "{name:?}");
        assert_eq!(world.clone().mkdir(0, 0, &name, 2), answer(Ok(2)), "{name:?}");
        assert_eq!(world.create(0, 0, &name, 2), answer(Ok(2)), "{name:?}");
        // A slash separates: what stands before it is sought first.
        let found = if name.starts_with(b"a/") { Err(8) } else { answer(Ok(2)) };
        assert_eq!(world.lookup(0, &[b"/", name.as_slice()].concat()), found, "{name:?}");
        if good {
            assert_eq!(world.view[world.entry_at(2) + NAME_AT..][..name.len()], name, "stored as given");
            assert_eq!(world.rmdir(0, 0, &name), Err(9), "{name:?}");
            assert_eq!(world.rmfile(0, 0, &name), Ok(3), "{name:?}");
        }
    }
}

#[test]
fn stored_names_and_records_by_the_examples() {
    for (name, good) in examples() {
        let mut world = World::new(4, 1, 4);
        world.create(0, 0, &[b'x'; 3][..name.len()], 1).unwrap();
        world.push_all();
        let before = world.clone();
        let answer = if good { Ok(0) } else { Err(2) };
        let at = world.entry_at(1) + NAME_AT;
        world.view[at..at + name.len()].copy_from_slice(&name);
        assert_eq!(world.cut(), answer, "{name:?} in the view");
        let mut world = before.clone();
        world.server[at..at + name.len()].copy_from_slice(&name);
        assert_eq!(world.clone().cut(), answer, "{name:?} in the server");
        assert_eq!(world.mount(), answer, "{name:?} mounted");

        let names = [b"x".to_vec(), name.clone()];
        for (one, other) in [(0, 1), (1, 0)] {
            let (name, second_name) = (names[one].clone(), names[other].clone());
            let record = Record { sequence: 1, object: 1, name, second_name, ..Record::blank(Kind::Rename) };
            let mut world = before.clone();
            world.set_log(&Log { next: 2, marks: 0, slots: vec![waiting(record.clone())] });
            assert_eq!(world.cut(), answer, "{names:?} in the log");
            let kind = second::read_record(0, &record.to_bytes()).map(|head| head.kind);
            assert_eq!(kind.ok(), good.then_some(4), "{names:?} in a record");
        }
    }
}

/// Whether all bytes of a name are permitted.
type Rule = Rc<dyn Fn(&[u8]) -> bool>;

fn right(byte: u8) -> bool {
    byte != 0 && byte != b'/'
}

/// A rule that goes by each byte.
fn each(permitted: impl Fn(u8) -> bool + 'static) -> Rule {
    Rc::new(move |name| name.iter().all(|&byte| permitted(byte)))
}

/// Wrong rules: one value the other way (0 or 47 let through; 10, 46, 92, 127, 255 or another refused), and some more.
fn wrong_rules() -> Vec<(String, Rule)> {
    let more: [(&str, Rule); 9] = [
        ("every byte let through", each(|_| true)),
        ("1 to 31 refused", each(|byte| right(byte) && byte > 31)),
        ("up to 32 refused", each(|byte| right(byte) && byte > 32)),
        ("above 127 refused", each(|byte| right(byte) && byte < 128)),
        ("without the highest bit", each(|byte| right(byte & 127))),
        ("all multiples of 47 refused", each(|byte| byte % 47 != 0)),
        ("only the first byte tested", Rc::new(|name| name.iter().take(1).all(|&byte| right(byte)))),
        ("the first byte not tested", Rc::new(|name| name.iter().skip(1).all(|&byte| right(byte)))),
        ("the last byte not tested", Rc::new(|name| name.iter().rev().skip(1).all(|&byte| right(byte)))),
    ];
    let other_way = |value: u8| each(move |byte| right(byte) != (byte == value));
    let one_value = (0..=255).map(|value| (format!("{value} the other way"), other_way(value)));
    one_value.chain(more.map(|(what, rule)| (what.to_string(), rule))).collect()
}

/// Whether the rules that are set give other answers than the stored ones of a script.
fn notices(file: &str) -> bool {
    let stored = Path::new(env!("CARGO_MANIFEST_DIR")).join("../cases").join(file);
    let answers = std::fs::read_to_string(stored.with_extension("answers")).unwrap();
    let mut expected = answers.lines();
    let mut player = player::Player::default();
    let mut differs = |line: &[u8]| match player.play_line(line) {
        player::Outcome::Silent => false,
        player::Outcome::Prints(text) => expected.next() != Some(&text),
        player::Outcome::Bad => true,
    };
    script::lines(&std::fs::read(stored).unwrap()).any(&mut differs)
}

/// Each is noticed where it rules the texts of calls, where it rules stored names and records, and where it rules both.
#[test]
fn the_script_notices_wrong_rules() {
    let file = "name-bytes.script";
    assert!(!notices(file), "the right rule gives the stored answers");
    for (what, rule) in wrong_rules() {
        for (calls, stored) in [(true, false), (false, true), (true, true)] {
            names::CALLS.set(if calls { rule.clone() } else { each(right) });
            names::STORED.set(if stored { rule.clone() } else { each(right) });
            assert!(notices(file), "{what}, in calls: {calls}, stored: {stored}");
        }
    }
}

/// `src/names.rs` with rules that can be set, one for the texts of calls and one for stored names and records.
mod names {
    use crate::{each, right, Rule};
    pub use second::names::{bad_path, components, long_name, same_name, LONGEST_NAME};
    use std::cell::RefCell;

    thread_local! {
        pub static CALLS: RefCell<Rule> = RefCell::new(each(right));
        pub static STORED: RefCell<Rule> = RefCell::new(each(right));
    }

    pub fn bad_name(name: &[u8]) -> bool {
        name.is_empty() || name == b"." || name == b".." || !CALLS.with_borrow(|permitted| permitted(name))
    }

    pub fn valid_name(name: &[u8]) -> bool {
        let bad = name.is_empty() || name == b"." || name == b"..";
        !bad && !long_name(name) && STORED.with_borrow(|permitted| permitted(name))
    }
}

// The other sources as they are.
#[path = "../src/apply.rs"]
mod apply;
#[path = "../src/bytes.rs"]
mod bytes;
#[path = "../src/changes.rs"]
mod changes;
#[path = "../src/form.rs"]
mod form;
#[path = "../src/geometry.rs"]
mod geometry;
#[path = "../src/log.rs"]
mod log;
#[path = "../src/losses.rs"]
mod losses;
#[path = "../src/order.rs"]
mod order;
#[path = "../src/player.rs"]
mod player;
#[path = "../src/questions.rs"]
mod questions;
#[path = "../src/record.rs"]
mod record;
#[path = "../src/refusal.rs"]
mod refusal;
#[path = "../src/script.rs"]
mod script;
#[path = "../src/sends.rs"]
mod sends;
#[path = "../src/session.rs"]
mod session;
#[path = "../src/volume.rs"]
mod volume;
pub use changes::{create, forder, make_directory, remove_directory, remove_file, rename, set_length, write};
pub use losses::{read_record, renew, take};
pub use questions::{list, lookup, read, stat};
pub use sends::{cut, fsync, push};
pub use session::{format, mount};
