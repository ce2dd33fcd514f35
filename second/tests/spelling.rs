//! Document 02, K2: names that differ only in A to Z against a to z are the same name, kept as typed.

mod common;
use common::{lost, waiting, World};
use second::geometry::LONGEST_RECORD;
use second::log::Log;
use second::names::{same_name, LONGEST_NAME};
use second::record::{Kind, Record};
use second::volume::{LENGTH_AT, NAME_AT, NAME_LENGTH_AT, PARENT_AT};

/// n = 8, b = 1, m = 6; sent: 1 file Task, 2 directory Docs with 3 file Notes and 4 file plan, 5 empty directory misc.
fn with_names() -> World {
    let mut world = World::new(8, 1, 6);
    let made = [
        world.create(0, 0, b"Task", 1),
        world.mkdir(0, 0, b"Docs", 2),
        world.create(0, 2, b"Notes", 3),
        world.create(0, 2, b"plan", 4),
        world.mkdir(0, 0, b"misc", 5),
    ];
    assert_eq!(made, [Ok(1), Ok(2), Ok(3), Ok(4), Ok(5)]);
    world.push_all();
    world.mount().unwrap();
    world
}

/// The name stored in a volume.
fn name_in(world: &World, volume: &[u8], object: u64) -> Vec<u8> {
    let entry = &volume[world.entry_at(object)..];
    entry[NAME_AT..][..entry[NAME_LENGTH_AT] as usize].to_vec()
}

fn view_name(world: &World, object: u64) -> Vec<u8> {
    name_in(world, &world.view, object)
}

fn server_name(world: &World, object: u64) -> Vec<u8> {
    name_in(world, &world.server, object)
}

/// Puts a name, of an entry that has one, into the server volume or the view.
fn poke_name(volume: &mut [u8], at: usize, name: &[u8]) {
    volume[at + NAME_LENGTH_AT] = name.len() as u8;
    volume[at + NAME_AT..at + LENGTH_AT].fill(0);
    volume[at + NAME_AT..][..name.len()].copy_from_slice(name);
}

/// The records in the log, in order.
fn records(world: &World) -> Vec<Record> {
    world.log_now().slots.into_iter().map(|slot| slot.record).collect()
}

fn named(sequence: u32, kind: Kind, object: u16, parent: u16, name: &[u8]) -> Record {
    Record { sequence, object, parent, name: name.to_vec(), ..Record::blank(kind) }
}

fn rename(sequence: u32, object: u16, from: (u16, &[u8]), to: (u16, &[u8]), displaced: Option<u16>) -> Record {
    let second_name = to.1.to_vec();
    Record { second_parent: to.0, second_name, displaced, ..named(sequence, Kind::Rename, object, from.0, from.1) }
}

/// Pairs of names, and whether they are the same.
fn examples() -> Vec<(Vec<u8>, Vec<u8>, bool)> {
    let mut examples: Vec<(Vec<u8>, Vec<u8>, bool)> = Vec::new();
    let mut add = |one: &[u8], other: &[u8], same| examples.push((one.to_vec(), other.to_vec(), same));
    for (one, other) in [("Task", "task"), ("task", "TASK"), ("tASK", "TasK"), ("@a", "@A"), ("9q[", "9Q[")] {
        add(one.as_bytes(), other.as_bytes(), true);
    }
    for (one, other) in [("Task", "Tas"), ("Task", "tasks"), ("task", "tusk"), ("ab", "ba"), ("aB", "Ac"), ("Ba", "bC")]
    {
        add(one.as_bytes(), other.as_bytes(), false);
    }
    for letter in b'A'..=b'Z' {
        add(&[letter], &[letter + 32], true);
        add(&[b'x', letter, b'-'], &[b'X', letter + 32, b'-'], true);
        add(&[letter], &[letter | 128], false);
    }
    for byte in (1..=255u8).filter(|byte| byte & 32 == 0 && !byte.is_ascii_uppercase() && byte | 32 != b'/') {
        add(&[b'x', byte], &[b'x', byte | 32], false);
    }
    let (longest, all_but_one) = ([b'a'; LONGEST_NAME], [b'a'; LONGEST_NAME - 1]);
    let ending_in = |last: u8| [all_but_one.as_slice(), &[last]].concat();
    add(&longest, &[b'A'; LONGEST_NAME], true);
    add(&ending_in(b'Z'), &ending_in(b'z'), true);
    add(&ending_in(b'@'), &ending_in(b'`'), false);
    add(&all_but_one, &longest, false);
    add(b"k", "\u{212a}".as_bytes(), false);
    add("\u{c4}".as_bytes(), "\u{e4}".as_bytes(), false);
    examples
}

#[test]
fn a_to_z_and_no_other_byte() {
    for one in 0..=255u8 {
        for other in 0..=255u8 {
            let expected = one == other || (one ^ other == 32 && one.is_ascii_alphabetic());
            assert_eq!(same_name(&[one], &[other]), expected, "{one} and {other}");
            assert_eq!(
                same_name(&[b'x', one, b'y'], &[b'X', other, b'Y']),
                expected,
                "{one} and {other} in the middle"
            );
        }
    }
    for (one, other, same) in examples() {
        assert_eq!((same_name(&one, &other), same_name(&other, &one)), (same, same), "{one:?} and {other:?}");
    }
}

/// Every wrong rule is told from the right one by an example, and the calls below follow the examples.
#[test]
fn the_examples_notice_wrong_rules() {
    type Rule = fn(&[u8], &[u8]) -> bool;
    fn by(one: &[u8], other: &[u8], small: fn(u8) -> u8) -> bool {
        one.iter().map(|&byte| small(byte)).eq(other.iter().map(|&byte| small(byte)))
    }
    let wrong: [(&str, Rule); 14] = [
        ("exactly", |one, other| one == other),
        ("only the first byte", |one, other| one[..1].eq_ignore_ascii_case(&other[..1]) && one[1..] == other[1..]),
        ("all but the first byte", |one, other| one[0] == other[0] && one.eq_ignore_ascii_case(other)),
        ("all but the last byte", |one, other| one.last() == other.last() && one.eq_ignore_ascii_case(other)),
        ("only the shorter one's bytes", |one, other| one.iter().zip(other).all(|(a, b)| a.eq_ignore_ascii_case(b))),
        ("only 32 bytes", |one, other| {
            one[..one.len().min(32)].eq_ignore_ascii_case(&other[..other.len().min(32)])
                && one[one.len().min(32)..] == other[other.len().min(32)..]
        }),
        ("not A", |one, other| by(one, other, |byte| if byte == b'A' { byte } else { byte.to_ascii_lowercase() })),
        ("not Z", |one, other| by(one, other, |byte| if byte == b'Z' { byte } else { byte.to_ascii_lowercase() })),
        ("@ too", |one, other| by(one, other, |byte| if byte == b'@' { b'`' } else { byte.to_ascii_lowercase() })),
        ("[ too", |one, other| by(one, other, |byte| if byte == b'[' { b'{' } else { byte.to_ascii_lowercase() })),
        ("digits too", |one, other| {
            by(one, other, |byte| if byte.is_ascii_digit() { byte ^ 32 } else { byte.to_ascii_lowercase() })
        }),
        ("0xC0 to 0xDE too", |one, other| {
            by(one, other, |byte| if (0xc0..=0xde).contains(&byte) { byte | 32 } else { byte.to_ascii_lowercase() })
        }),
        ("bit 5 of every byte", |one, other| by(one, other, |byte| byte | 32)),
        ("without the highest bit", |one, other| by(one, other, |byte| (byte & 127).to_ascii_lowercase())),
    ];
    for (what, rule) in wrong {
        assert!(examples().iter().any(|(one, other, same)| rule(one, other) != *same), "{what}");
    }
}

#[test]
fn lookup_create_and_make_directory_by_the_examples() {
    for (one, other, same) in examples() {
        let mut world = World::new(3, 1, 4);
        assert_eq!(world.create(0, 0, &one, 1), Ok(1));
        let path = [b"/", other.as_slice()].concat();
        assert_eq!(world.lookup(0, &path), if same { Ok(1) } else { Err(8) }, "{other:?}");
        let answer = if same { Err(10) } else { Ok(2) };
        assert_eq!(world.clone().mkdir(0, 0, &other, 2), answer, "{one:?} and {other:?}");
        assert_eq!(world.create(0, 0, &other, 2), answer, "{one:?} and {other:?}");
        assert_eq!(view_name(&world, 1), one, "kept as typed");
        if !same {
            assert_eq!(view_name(&world, 2), other, "kept as typed");
            assert_eq!(world.lookup(0, &path), Ok(2));
        }
    }
}

#[test]
fn remove_and_rename_by_the_examples() {
    for (one, other, same) in examples() {
        let mut world = World::new(3, 1, 4);
        world.create(0, 0, &one, 1).unwrap();
        let found = if same { Ok(2) } else { Err(8) };
        let found_as_directory = if same { Err(9) } else { Err(8) };
        assert_eq!(world.clone().rmfile(0, 0, &other), found, "{one:?} and {other:?}");
        assert_eq!(world.rmdir(0, 0, &other), found_as_directory, "{one:?} and {other:?}");
        assert_eq!(world.clone().rename(0, 0, &other, 0, b"%"), found, "{one:?} and {other:?}");
        assert_eq!(world.rename(0, 0, &one, 0, &other), Ok(2));
        assert_eq!(records(&world)[1], rename(2, 1, (0, &one), (0, &other), None), "nothing is displaced");
        assert_eq!(view_name(&world, 1), other, "the second name as typed");
        world.push_all();
        assert_eq!(world.server, world.view);

        let mut world = World::new(3, 1, 4);
        world.create(0, 0, &one, 1).unwrap();
        world.create(0, 0, b"%", 2).unwrap();
        world.rename(0, 0, b"%", 0, &other).unwrap();
        let displaced = same.then_some(1);
        assert_eq!(records(&world)[2], rename(3, 2, (0, b"%"), (0, &other), displaced), "{one:?} and {other:?}");
        assert_eq!(view_name(&world, 2), other);
        assert_eq!(view_name(&world, 1), if same { Vec::new() } else { one });
        world.push_all();
        assert_eq!(world.server, world.view);
    }
}

#[test]
fn the_form_by_the_examples() {
    for (one, other, same) in examples() {
        for (first, last) in [(1, 2), (1, 3), (2, 3), (3, 1)] {
            let mut world = World::new(5, 1, 2);
            for object in 1..4 {
                world.create(0, 0, &[b'%', object], object as u64).unwrap();
                world.push_all();
            }
            world.mount().unwrap();
            let mut server = world.clone();
            for (object, name) in [(first, &one), (last, &other)] {
                let at = world.entry_at(object);
                poke_name(&mut world.view, at, name);
                poke_name(&mut server.server, at, name);
            }
            let refusal = if same { Err(2) } else { Ok(0) };
            assert_eq!(server.clone().cut(), refusal, "{one:?} and {other:?} in the server");
            assert_eq!(world.clone().cut(), refusal, "{one:?} and {other:?} in the view");
            assert_eq!(server.mount(), refusal, "{one:?} and {other:?} mounted");
            assert_eq!(world.mount(), Ok(0), "mount looks at no byte of the view");
        }
    }
}

#[test]
fn two_such_names_matter_only_in_one_directory_and_of_any_kind() {
    let both = |kinds: [u8; 2], parents: [u8; 2]| {
        let mut world = with_names();
        for (object, (kind, parent)) in [4, 6].into_iter().zip(kinds.into_iter().zip(parents)) {
            let at = world.entry_at(object);
            world.server[at] = kind;
            world.server[at + PARENT_AT] = parent;
            poke_name(&mut world.server, at, if object == 4 { b"Name" } else { b"nAME" });
        }
        world.mount()
    };
    for kinds in [[1, 1], [1, 2], [2, 1], [2, 2]] {
        assert_eq!(both(kinds, [0, 0]), Err(2), "{kinds:?} in the root");
        assert_eq!(both(kinds, [2, 2]), Err(2), "{kinds:?} in a directory");
        assert_eq!(both(kinds, [0, 2]), Ok(0), "{kinds:?} in two directories");
        assert_eq!(both(kinds, [5, 2]), Ok(0), "{kinds:?} in two directories");
    }
}

#[test]
fn every_call_refuses_two_such_names_with_2() {
    let mut good = with_names();
    good.create(0, 0, b"x", 6).unwrap();
    let at = good.entry_at(1);
    let mut server = good.clone();
    poke_name(&mut server.server, at, b"DOCS");
    let mut view = good.clone();
    poke_name(&mut view.view, at, b"DOCS");
    let calls: [(&str, fn(&mut World) -> u64); 18] = [
        ("lookup", |world| world.lookup(0, b"/").unwrap_err()),
        ("list", |world| world.list(0, 0, &mut [0; 99]).unwrap_err()),
        ("stat", |world| world.stat(0, 0).unwrap_err()),
        ("read", |world| world.read(0, 1, 0, &mut [0; 9]).unwrap_err()),
        ("create", |world| world.create(0, 2, b"y", 7).unwrap_err()),
        ("mkdir", |world| world.mkdir(0, 2, b"y", 7).unwrap_err()),
        ("rmfile", |world| world.rmfile(0, 0, b"x").unwrap_err()),
        ("rmdir", |world| world.rmdir(0, 0, b"misc").unwrap_err()),
        ("rename", |world| world.rename(0, 0, b"x", 0, b"X").unwrap_err()),
        ("write", |world| world.write(0, 6, 0, b"a").unwrap_err()),
        ("setlen", |world| world.setlen(0, 6, 1).unwrap_err()),
        ("forder", |world| world.forder(0, &[0]).unwrap_err()),
        ("push", |world| world.push(1).unwrap_err()),
        ("fsync", |world| world.fsync(0, 0, 9).0),
        ("cut", |world| world.cut().unwrap_err()),
        ("take", |world| world.take(0, &mut [0; LONGEST_RECORD]).unwrap_err()),
        ("renew", |world| world.renew(0).unwrap_err()),
        ("stat of a bad program", |world| world.stat(32, 99).unwrap_err()),
    ];
    for (what, call) in calls {
        for damaged in [&server, &view] {
            let mut world = damaged.clone();
            assert_eq!(call(&mut world), 2, "{what}");
            assert!(world == *damaged, "{what} changes nothing");
        }
    }
    let before = server.clone();
    assert_eq!(server.mount(), Err(2));
    assert!(server == before);
    assert_eq!(server.format(), Ok(0));
    assert_eq!(view.mount(), Ok(0));
    assert_eq!(view.lookup(0, b"/TASK"), Ok(1));
}

#[test]
fn paths_in_other_spellings() {
    let mut world = with_names();
    for path in ["/Docs/Notes", "/docs/notes", "/DOCS/NOTES", "/dOCS/nOTES", "/Docs/nOtEs"] {
        assert_eq!(world.lookup(0, path.as_bytes()), Ok(3), "{path}");
    }
    assert_eq!(world.lookup(0, b"/docs/note"), Err(8));
    assert_eq!(world.lookup(0, b"/doc/notes"), Err(8));
    assert_eq!(world.lookup(0, b"/docs/NOTES/x"), Err(9));
    assert_eq!(world.lookup(0, b"/DOCS/"), Err(5));
    assert_eq!(world.lookup(0, b"/DOCS/."), Err(5));
    assert_eq!(world.lookup(0, &[b"/DOCS/".as_slice(), &[b'N'; 61]].concat()), Err(6));
}

#[test]
fn spelling_makes_no_name_valid_or_bad() {
    let mut world = with_names();
    for name in [b"".as_slice(), b".", b"..", b"A/", b"/a", b"A\0"] {
        assert_eq!(world.create(0, 0, name, 6), Err(5), "{name:?}");
        assert_eq!(world.rename(0, 0, b"TASK", 0, name), Err(5), "{name:?}");
    }
    assert_eq!(world.create(0, 0, &[b'Q'; 61], 6), Err(6));
    for (object, name) in [(6, b"...".as_slice()), (7, b".A")] {
        assert!(world.create(0, 0, name, object).is_ok(), "{name:?}");
    }
}

#[test]
fn a_list_has_the_names_as_typed() {
    let mut world = with_names();
    let mut buffer = [238; 24];
    assert_eq!(world.list(0, 0, &mut buffer), Ok(24));
    assert_eq!(&buffer, b"\x01\0\x01\x04Task\x02\0\x02\x04Docs\x05\0\x02\x04misc");
}

#[test]
fn remove_by_another_spelling_is_logged_as_typed() {
    let mut world = with_names();
    assert_eq!(world.rmfile(3, 0, b"TASK"), Ok(1));
    let record = Record { program: 3, ..named(1, Kind::Remove, 1, 0, b"TASK") };
    assert_eq!(world.log_now().slots, [waiting(record.clone())]);
    assert_eq!(world.lookup(4, b"/Task"), Err(8));
    assert_eq!(server_name(&world, 1), b"Task");
    let mut sent = world.clone();
    assert_eq!(sent.push(1), Ok(0));
    assert_eq!(sent.server, sent.view);
    world.cut().unwrap();
    assert_eq!(world.log_now().slots, [lost(record.clone())]);
    assert_eq!(view_name(&world, 1), b"Task");
    let mut buffer = [238; LONGEST_RECORD];
    assert_eq!(world.take(3, &mut buffer), Ok(17));
    assert_eq!(&buffer[..17], b"\x13\0\x01\0\0\0\x03\x03\x01\0\0\0\x04TASK");
}

#[test]
fn a_rename_of_only_the_case() {
    for (object, parent, stored, typed, second) in [
        (1, 0, b"Task".as_slice(), b"Task".as_slice(), b"TASK".as_slice()),
        (1, 0, b"Task", b"tASK", b"task"),
        (2, 0, b"Docs", b"docs", b"DOCS"),
        (5, 0, b"misc", b"misc", b"Misc"),
        (3, 2, b"Notes", b"NOTES", b"notes"),
    ] {
        let mut world = with_names();
        assert_eq!(world.rename(1, parent, typed, parent, second), Ok(1));
        let place = parent as u16;
        let record = Record { program: 1, ..rename(1, object as u16, (place, typed), (place, second), None) };
        assert_eq!(world.log_now().slots, [waiting(record.clone())]);
        assert_eq!(record.map(), 55);
        assert_eq!((view_name(&world, object), server_name(&world, object)), (second.to_vec(), stored.to_vec()));
        let mut sent = world.clone();
        assert_eq!(sent.push(1), Ok(0));
        assert_eq!(server_name(&sent, object), second);
        assert_eq!(sent.server, sent.view);
        world.cut().unwrap();
        assert_eq!((view_name(&world, object), server_name(&world, object)), (stored.to_vec(), stored.to_vec()));
        assert_eq!(world.log_now().slots, [lost(record)], "the loss has both names as typed");
    }
}

#[test]
fn only_the_stored_spelling_itself_changes_nothing() {
    for typed in [b"Docs".as_slice(), b"DOCS"] {
        let mut world = with_names();
        let before = world.view.clone();
        assert_eq!(world.rename(1, 0, typed, 0, b"Docs"), Ok(1), "logged all the same");
        assert_eq!(world.view, before);
        assert_eq!(records(&world), [Record { program: 1, ..rename(1, 2, (0, typed), (0, b"Docs"), None) }]);
        assert_eq!(world.push(1), Ok(0));
        assert_eq!(world.server, before);
    }
    let mut world = with_names();
    world.log[..4].copy_from_slice(&u32::MAX.to_le_bytes());
    assert_eq!(world.rename(1, 0, b"Task", 0, b"Task"), Err(14));
    assert_eq!(world.rename(1, 0, b"Task", 0, b"TASK"), Err(14));
    world.mount().unwrap();
    world.fill_log();
    assert_eq!(world.rename(1, 0, b"Task", 0, b"Task"), Err(13));
    assert_eq!(world.rename(1, 0, b"Task", 0, b"TASK"), Err(13));
}

#[test]
fn a_rename_onto_another_spelling_displaces() {
    let mut world = with_names();
    assert_eq!(world.rename(1, 2, b"NOTES", 2, b"PLAN"), Ok(1));
    assert_eq!(world.rename(1, 0, b"docs", 0, b"MiSC"), Ok(2));
    assert_eq!(world.rename(1, 0, b"task", 2, b"Plan"), Ok(3));
    assert_eq!(world.rename(1, 2, b"plaN", 0, b"pLAN"), Ok(4));
    let own = |record| Record { program: 1, ..record };
    let expected = [
        own(rename(1, 3, (2, b"NOTES"), (2, b"PLAN"), Some(4))),
        own(rename(2, 2, (0, b"docs"), (0, b"MiSC"), Some(5))),
        own(rename(3, 1, (0, b"task"), (2, b"Plan"), Some(3))),
        own(rename(4, 1, (2, b"plaN"), (0, b"pLAN"), None)),
    ];
    assert_eq!(records(&world), expected);
    assert_eq!((view_name(&world, 1), view_name(&world, 2)), (b"pLAN".to_vec(), b"MiSC".to_vec()));
    assert_eq!([3, 4, 5].map(|object| view_name(&world, object)), [const { Vec::new() }; 3]);
    world.push_all();
    assert_eq!(world.server, world.view);
}

#[test]
fn what_another_spelling_finds_is_judged() {
    let mut world = with_names();
    assert_eq!(world.rename(1, 0, b"task", 0, b"DOCS"), Err(9), "a file onto a directory");
    assert_eq!(world.rename(1, 0, b"MISC", 0, b"TASK"), Err(9), "a directory onto a file");
    assert_eq!(world.rename(1, 0, b"MISC", 0, b"docs"), Err(11));
    assert_eq!(world.rename(1, 0, b"MISC", 2, b"MISC"), Err(9), "a directory stays in its parent");
    assert_eq!(world.rmdir(1, 0, b"DOCS"), Err(11));
    assert_eq!(world.rmfile(1, 0, b"DOCS"), Err(9));
    assert_eq!(world.rmfile(1, 0, b"MISC"), Err(9));
    assert_eq!(world.rmdir(1, 0, b"TASK"), Err(9));
    assert_eq!(world.rmdir(1, 0, b"DOC"), Err(8));
    assert_eq!(world.rename(1, 0, b"DOC", 0, b"x"), Err(8));
    assert_eq!(world.create(1, 0, b"DOCS", 1), Err(10));
    assert!(world == with_names(), "a refusal changes nothing");
}

/// What another spelling finds or displaces is an operand: it makes order and dependence.
#[test]
fn order_and_dependence() {
    let mut world = with_names();
    world.write(2, 4, 0, b"a").unwrap();
    world.write(3, 3, 0, b"b").unwrap();
    assert_eq!(world.rename(1, 0, b"TASK", 2, b"PLAN"), Ok(3));
    assert_eq!(world.dependents(), [0b110, 0b1000, 0b10]);
    assert_eq!(world.lookup(4, b"/docs/NOTES"), Ok(3));
    assert_eq!(world.dependents(), [0b10110, 0b11000, 0b10010]);
    assert_eq!(world.lookup(5, b"/docs/not"), Err(8), "a refused one brings no dependence");
    assert_eq!(world.dependents(), [0b10110, 0b11000, 0b10010]);
    assert_eq!(world.push(3), Err(15), "the displaced file's write goes before");
    assert_eq!((world.push(1), world.push(3), world.push(2)), (Ok(0), Ok(0), Ok(0)));
    assert_eq!(world.server, world.view);
}

#[test]
fn a_set_in_another_order() {
    let mut world = with_names();
    world.rename(1, 2, b"notes", 2, b"NOTES").unwrap();
    world.create(2, 5, b"Alpha", 6).unwrap();
    world.write(3, 1, 0, b"a").unwrap();
    world.rename(2, 5, b"ALPHA", 5, b"aLPHA").unwrap();
    world.rename(1, 2, b"Notes", 2, b"PLAN").unwrap();
    assert_eq!([4, 5].map(|number| world.push(number)), [Err(15); 2]);
    assert_eq!([3, 2, 4].map(|number| world.push(number)), [Ok(0); 3]);
    world.cut().unwrap();
    assert_eq!([3, 4].map(|object| view_name(&world, object)), [b"Notes".to_vec(), b"plan".to_vec()]);
    assert_eq!(view_name(&world, 6), b"aLPHA");
    let left = [
        Record { program: 1, ..rename(1, 3, (2, b"notes"), (2, b"NOTES"), None) },
        Record { program: 1, ..rename(5, 3, (2, b"Notes"), (2, b"PLAN"), Some(4)) },
    ];
    assert_eq!(records(&world), left);
}

/// Each operation as the only one waiting over the server of [`with_names`], and whether it applies.
#[test]
fn applying_to_a_server_with_another_spelling() {
    let cases = [
        (false, named(9, Kind::Create, 6, 0, b"TASK")),
        (true, named(9, Kind::Create, 6, 2, b"TASK")),
        (false, named(9, Kind::MakeDirectory, 6, 0, b"task")),
        (false, named(9, Kind::MakeDirectory, 6, 0, b"DOCS")),
        (true, named(9, Kind::MakeDirectory, 6, 0, b"doc\x13")),
        (true, named(9, Kind::Remove, 1, 0, b"tASK")),
        (true, named(9, Kind::Remove, 5, 0, b"MISC")),
        (false, named(9, Kind::Remove, 2, 0, b"DOCS")),
        (false, named(9, Kind::Remove, 3, 0, b"TASK")),
        (false, named(9, Kind::Remove, 1, 0, b"tas\x0b")),
        (true, rename(9, 1, (0, b"TASK"), (0, b"task"), None)),
        (true, rename(9, 2, (0, b"docs"), (0, b"DOCS"), None)),
        (true, rename(9, 1, (0, b"TASK"), (0, b"Task"), None)),
        (true, rename(9, 1, (0, b"TASK"), (2, b"task"), None)),
        (true, rename(9, 3, (2, b"NOTES"), (0, b"x"), None)),
        (false, rename(9, 1, (0, b"Task"), (2, b"PLAN"), None)),
        (true, rename(9, 1, (0, b"Task"), (2, b"PLAN"), Some(4))),
        (false, rename(9, 1, (0, b"Task"), (2, b"PLAN"), Some(3))),
        (false, rename(9, 1, (0, b"Task"), (0, b"TASK"), Some(3))),
        (false, rename(9, 1, (0, b"Task"), (2, b"PLANS"), Some(4))),
        (false, rename(9, 3, (0, b"TASK"), (0, b"x"), None)),
        (true, rename(9, 2, (0, b"DOCS"), (0, b"MISC"), Some(5))),
        (false, rename(9, 5, (0, b"MISC"), (0, b"DOCS"), Some(2))),
        (false, rename(9, 1, (0, b"TASK"), (0, b"MISC"), Some(5))),
        (false, rename(9, 5, (0, b"MISC"), (2, b"MISC"), None)),
    ];
    for (applies, record) in cases {
        let mut world = with_names();
        world.set_log(&Log { next: 10, marks: 0, slots: vec![waiting(record.clone())] });
        let before = world.clone();
        assert_eq!(world.clone().fsync(0, record.parent as u64, 1), if applies { (0, 1) } else { (2, 0) });
        assert_eq!(world.push(9), if applies { Ok(0) } else { Err(2) }, "{record:?}");
        assert_eq!(world == before, !applies, "{record:?}");
        if applies && record.kind == Kind::Rename {
            assert_eq!(server_name(&world, record.object as u64), record.second_name, "as typed");
        }
    }
}

/// The spelling of the server changes behind the view; what waits still finds its object.
#[test]
fn a_spelling_changed_behind_the_view() {
    let mut world = with_names();
    world.rename(1, 0, b"TASK", 0, b"tASK").unwrap();
    world.rmfile(1, 2, b"NOTES").unwrap();
    let at = [1, 3].map(|object| world.entry_at(object));
    poke_name(&mut world.server, at[0], b"TAsk");
    poke_name(&mut world.server, at[1], b"notes");
    world.push_all();
    assert_eq!(server_name(&world, 1), b"tASK");
    assert_eq!(world.server, world.view);
}
