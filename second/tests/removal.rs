//! Document 02, K4: remove file takes files, remove directory empty directories; 9 for the other kind comes before 11.
//! Both log kind 3, which applies to a file or an empty directory, whichever call issued it.

mod common;
use common::{entry_length, forder_record, lost, waiting, Answer, World};
use second::geometry::{ENTRY_HEAD, LONGEST_RECORD};
use second::log::{Log, Slot};
use second::record::{Kind, Record};
use second::volume::{LENGTH_AT, NAME_AT};

type Call = fn(&mut World, u64, u64, &[u8]) -> Answer;
const CALLS: [Call; 2] = [World::rmfile, World::rmdir];

/// n = 8, b = 1, m = 6; sent: 1 file Task of 3 bytes, 2 empty directory Docs, 3 directory Full with 4 file note.
fn volume() -> World {
    let mut world = World::new(8, 1, 6);
    let made = [
        world.create(0, 0, b"Task", 1),
        world.write(0, 1, 0, b"abc"),
        world.mkdir(0, 0, b"Docs", 2),
        world.mkdir(0, 0, b"Full", 3),
        world.create(0, 3, b"note", 4),
    ];
    assert_eq!(made, [Ok(1), Ok(2), Ok(3), Ok(4), Ok(5)]);
    world.push_all();
    world.mount().unwrap();
    world
}

/// A parent and a name, and what remove file and remove directory answer where nothing else is amiss.
const ANSWERS: [(u64, &[u8], Answer, Answer); 13] = [
    (0, b"Task", Ok(1), Err(9)),
    (0, b"tASK", Ok(1), Err(9)),
    (3, b"note", Ok(1), Err(9)),
    (3, b"NOTE", Ok(1), Err(9)),
    (0, b"Docs", Err(9), Ok(1)),
    (0, b"DOCS", Err(9), Ok(1)),
    (0, b"Full", Err(9), Err(11)),
    (0, b"fULL", Err(9), Err(11)),
    (0, b"note", Err(8), Err(8)),
    (2, b"Task", Err(8), Err(8)),
    (5, b"Task", Err(8), Err(8)),
    (1, b"Task", Err(9), Err(9)),
    (8, b"Docs", Err(7), Err(7)),
];

#[test]
fn each_takes_its_own_kind() {
    for (parent, name, of_file, of_directory) in ANSWERS {
        for (call, answer) in CALLS.into_iter().zip([of_file, of_directory]) {
            let mut world = volume();
            assert_eq!(call(&mut world, 1, parent, name), answer, "{name:?} in {parent}");
            match answer {
                Ok(_) => assert_eq!(world.lookup(1, &[b"/", name].concat()), Err(8), "gone from the view"),
                Err(_) => assert!(world == volume(), "a refusal changes nothing"),
            }
        }
    }
}

/// 9 and 11 come before 13 and 14, and 13 before 14.
#[test]
fn with_a_full_log_and_with_no_number_left() {
    let mut full = volume();
    full.fill_log();
    let mut spent = volume();
    spent.log[..4].fill(255);
    let mut both = full.clone();
    both.log[..4].fill(255);
    for (world, refusal) in [(full, Err(13)), (spent, Err(14)), (both, Err(13))] {
        for (parent, name, of_file, of_directory) in ANSWERS {
            for (call, answer) in CALLS.into_iter().zip([of_file, of_directory]) {
                let mut tried = world.clone();
                let expected = answer.and(refusal);
                assert_eq!(call(&mut tried, 1, parent, name), expected, "{name:?} in {parent}");
                assert!(tried == world, "a refusal changes nothing");
            }
        }
    }
}

#[test]
fn a_wrong_removal_brings_no_dependence_and_takes_no_number() {
    let mut world = volume();
    world.write(1, 1, 0, b"d").unwrap();
    world.forder(2, &[2, 0]).unwrap();
    world.create(3, 3, b"x", 5).unwrap();
    let before = world.clone();
    for (call, parent, name) in
        [(CALLS[1], 0, b"TASK".as_slice()), (CALLS[1], 3, b"x"), (CALLS[0], 0, b"docs"), (CALLS[0], 0, b"full")]
    {
        assert_eq!(call(&mut world, 4, parent, name), Err(9));
        assert!(world == before, "{name:?}");
    }
    assert_eq!(world.rmdir(4, 0, b"full"), Err(11));
    assert!(world == before);
    assert_eq!(world.create(5, 2, b"y", 6), Ok(4));
    world.cut().unwrap();
    assert_eq!(world.log_now().marks, 0b101110, "program 4 is not marked");
}

/// The two calls leave records that differ in nothing but object and name; a loss is the record.
#[test]
fn both_are_kind_3_with_the_name_as_typed() {
    let mut world = volume();
    assert_eq!(world.rmfile(1, 0, b"tASK"), Ok(1));
    assert_eq!(world.rmdir(1, 0, b"dOCS"), Ok(2));
    let record = |sequence: u32, object: u16, name: &[u8]| Record {
        sequence,
        program: 1,
        object,
        name: name.to_vec(),
        ..Record::blank(Kind::Remove)
    };
    let records = [record(1, 1, b"tASK"), record(2, 2, b"dOCS")];
    assert_eq!(world.log_now().slots, records.clone().map(waiting));
    assert_eq!(world.push(2), Err(15), "both have the root as operand");
    let mut sent = world.clone();
    sent.push_all();
    assert_eq!(sent.server, sent.view);
    world.cut().unwrap();
    assert_eq!(world.log_now().slots, records.clone().map(lost));
    assert_eq!(world.view, volume().view, "both are there again");
    let texts: [&[u8]; 2] =
        [b"\x13\0\x01\0\0\0\x01\x03\x01\0\0\0\x04tASK", b"\x13\0\x02\0\0\0\x01\x03\x02\0\0\0\x04dOCS"];
    for (sequence, text) in (1..).zip(texts) {
        let mut buffer = [238; LONGEST_RECORD];
        assert_eq!(world.take(1, &mut buffer), Ok(17));
        assert_eq!(&buffer[..17], text);
        let head = second::read_record(0, &buffer).unwrap();
        assert_eq!((head.next, head.sequence, head.program, head.kind), (17, sequence, 1, 3));
    }
    assert_eq!(world.renew(1), Ok(0));
}

/// A lost operation of kind 3 that stands in the log, of a file and of a directory, is taken as it stands.
#[test]
fn a_stored_loss_is_taken_as_it_stands() {
    for object in 1..4 {
        let record = Record { sequence: 9, program: 2, object, name: b"any".to_vec(), ..Record::blank(Kind::Remove) };
        let mut world = volume();
        world.set_log(&Log { next: 10, marks: 4, slots: vec![lost(record.clone())] });
        assert_eq!(world.renew(2), Err(18));
        let mut buffer = [0; LONGEST_RECORD];
        assert_eq!(world.take(2, &mut buffer), Ok(16));
        assert_eq!(buffer[..16], record.to_bytes());
        assert_eq!(buffer[..8], [19, 0, 9, 0, 0, 0, 2, 3]);
        assert_eq!(world.renew(2), Ok(0));
        assert_eq!(world.rmdir(2, 0, b"Docs"), Ok(10));
    }
}

#[test]
fn the_view_says_which_removal_is_right() {
    let mut world = volume();
    world.rmfile(1, 0, b"Task").unwrap();
    world.mkdir(1, 0, b"task", 1).unwrap();
    assert_eq!(world.rmfile(1, 0, b"Task"), Err(9), "the server has a file");
    assert_eq!(world.rmdir(1, 0, b"Task"), Ok(3));
    world.rmdir(1, 0, b"Docs").unwrap();
    world.create(1, 0, b"docs", 2).unwrap();
    assert_eq!(world.rmdir(1, 0, b"Docs"), Err(9), "the server has a directory");
    assert_eq!(world.rmfile(1, 0, b"Docs"), Ok(6));
    world.push_all();
    assert_eq!(world.server, world.view);
}

/// What the server has under the name and number of a waiting removal, and whether that lets it apply.
#[test]
fn kind_3_applies_to_a_file_or_an_empty_directory_whichever_call_issued_it() {
    let changes: [(&str, bool, fn(&mut World, usize)); 5] = [
        ("an empty file", true, |world, at| world.server[at] = 1),
        ("a file with bytes", true, |world, at| {
            world.server[at] = 1;
            world.server[at + LENGTH_AT] = 2;
            world.server[at + ENTRY_HEAD..][..2].fill(7);
        }),
        ("an empty directory", true, |world, at| world.server[at] = 2),
        ("a directory with a child", false, |world, at| {
            world.server[at] = 2;
            let child = world.entry_at(7);
            let parent = (at / world.entry_at(1)) as u8;
            world.server[child..child + 5].copy_from_slice(&[1, 1, parent, 0, b'z']);
        }),
        ("another name", false, |world, at| world.server[at + NAME_AT] = b'z'),
    ];
    for (call, name, object) in [(CALLS[0], b"f", 5), (CALLS[1], b"d", 6)] {
        for (what, applies, change) in changes {
            let mut world = World::new(8, 1, 4);
            world.create(0, 0, b"f", 5).unwrap();
            world.mkdir(0, 0, b"d", 6).unwrap();
            world.push_all();
            assert_eq!(call(&mut world, 1, 0, name), Ok(3));
            let at = world.entry_at(object);
            change(&mut world, at);
            let before = world.clone();
            assert_eq!(world.clone().fsync(2, 0, 1), if applies { (0, 1) } else { (2, 0) }, "{name:?} as {what}");
            assert_eq!(world.push(3), if applies { Ok(0) } else { Err(2) }, "{name:?} as {what}");
            match applies {
                true => assert!(world.server[at..][..entry_length(1)].iter().all(|&byte| byte == 0), "freed whole"),
                false => assert!(world == before),
            }
        }
    }
}

/// A directory that is emptied goes after what was in it; removals of one directory's children are ordered.
#[test]
fn removals_are_sent_in_their_order() {
    let mut world = volume();
    assert_eq!(world.rmfile(1, 3, b"note"), Ok(1));
    assert_eq!(world.rmdir(2, 0, b"Full"), Ok(2));
    assert_eq!(world.rmfile(3, 0, b"Task"), Ok(3));
    assert_eq!(world.dependents(), [0b1110, 0b1100, 0b1000]);
    assert_eq!(world.push(3), Err(15));
    assert_eq!(world.push(2), Err(15));
    assert_eq!(world.fsync(4, 4, 1), (8, 0), "the file is gone from the view");
    assert_eq!(world.fsync(4, 0, 2), (17, 2));
    let rest: Vec<Slot> = world.log_now().slots;
    assert_eq!(rest.iter().map(|slot| slot.record.sequence).collect::<Vec<u32>>(), [3]);
    assert_eq!(world.lookup(5, b"/task"), Ok(1));
    assert_eq!(world.lookup(5, b"/full"), Err(8));
    assert_eq!(world.log_now().marks, 0b11000);
}

/// Slots of lost and of waiting operations fill the log alike.
#[test]
fn a_wrong_removal_among_losses() {
    let mut world = volume();
    let slots = (1..=6).map(|sequence| forder_record(sequence, 9, &[0])).map(lost).collect();
    world.set_log(&Log { next: 7, marks: 0, slots });
    assert_eq!(world.rmfile(1, 0, b"Docs"), Err(9));
    assert_eq!(world.rmdir(1, 0, b"Task"), Err(9));
    assert_eq!(world.rmdir(1, 0, b"Docs"), Err(13));
    assert_eq!(world.rmfile(1, 0, b"Task"), Err(13));
}
