//! The stored form of volumes and logs, rule by rule (document 01, "Geometry and stored form").

mod common;
use common::{entry_length, forder_record, log_length, lost, set_length_record, waiting, World};
use second::bytes::put_u32;
use second::geometry::{Geometry, BLOCK, ENTRY_HEAD, LOG_HEAD, LONGEST_RECORD, SLOT};
use second::log::{Log, Slot, DEPENDENTS_AT, RECORD_AT};
use second::names::LONGEST_NAME;
use second::record::{Kind, Record};
use second::volume::{LENGTH_AT, NAME_AT, NAME_LENGTH_AT, PARENT_AT};

/// A change of stored bytes.
type Change = fn(&mut Vec<u8>);

/// The length of an entry with b = 1.
const E: usize = entry_length(1);

/// n = 6, b = 1, m = 3. Sent: 1 file f of 10 bytes, 2 directory d, 3 directory e in d, 4 file f in d.
fn base() -> World {
    let mut world = World::new(6, 1, 8);
    world.create(0, 0, b"f", 1).unwrap();
    world.setlen(0, 1, 10).unwrap();
    world.mkdir(0, 0, b"d", 2).unwrap();
    world.mkdir(0, 2, b"e", 3).unwrap();
    world.create(0, 2, b"f", 4).unwrap();
    world.push_all();
    world.m = 3;
    world.log.truncate(log_length(3));
    world
}

/// The numbers of document 01, which the other tests call by their names.
#[test]
fn the_layout_in_numbers() {
    assert_eq!([NAME_LENGTH_AT, PARENT_AT, NAME_AT, LENGTH_AT, ENTRY_HEAD], [1, 2, 4, 64, 68]);
    assert_eq!([LOG_HEAD, DEPENDENTS_AT, RECORD_AT, SLOT], [8, 4, 8, 1048]);
    assert_eq!([LONGEST_NAME, BLOCK, LONGEST_RECORD], [60, 1024, 1040]);
    for (n, b, m, volume, log) in [(2, 1, 1, 2184, 1056), (4, 1, 4, 4368, 4200), (256, 64, 1024, 16_794_624, 1_073_160)]
    {
        let geometry = Geometry::new(n, b, m).unwrap();
        assert_eq!((geometry.volume_length(), geometry.log_length()), (volume, log));
    }
}

/// Makes the same change to server volume and view, one at a time, and gives mount's answer and stat's two.
fn with_changed_volume(change: impl Fn(&mut Vec<u8>)) -> (Result<u64, u64>, Vec<bool>) {
    let mut server_changed = base();
    change(&mut server_changed.server);
    let mut view_changed = base();
    change(&mut view_changed.view);
    let stats = [server_changed.clone().stat(0, 0), view_changed.stat(0, 0)];
    (server_changed.mount(), stats.iter().map(|answer| *answer != Err(2)).collect())
}

/// Gives entry 1, whose name has one byte, another name.
fn put_name(volume: &mut [u8], name: &[u8]) {
    volume[E + NAME_LENGTH_AT] = name.len() as u8;
    volume[E + NAME_AT..][..name.len()].copy_from_slice(name);
}

#[test]
fn every_rule_of_a_volume() {
    let broken: Vec<(&str, Change)> = vec![
        ("root free", |v| v[0] = 0),
        ("root a file", |v| v[0] = 1),
        ("root with a name length", |v| v[NAME_LENGTH_AT] = 1),
        ("root with a name", |v| (v[NAME_LENGTH_AT], v[NAME_AT]) = (1, b'r')),
        ("root with parent 2", |v| v[PARENT_AT] = 2),
        ("root with a name byte", |v| v[LENGTH_AT - 1] = 1),
        ("root with a length", |v| v[LENGTH_AT] = 1),
        ("root with data", |v| v[ENTRY_HEAD] = 1),
        ("root with data at its end", |v| v[E - 1] = 1),
        ("kind 3", |v| v[E] = 3),
        ("kind 255", |v| v[E] = 255),
        ("free with a name length", |v| v[5 * E + NAME_LENGTH_AT] = 1),
        ("free with its last byte", |v| v[6 * E - 1] = 1),
        ("empty name", |v| (v[E + NAME_LENGTH_AT], v[E + NAME_AT]) = (0, 0)),
        ("name length 61", |v| v[E + NAME_LENGTH_AT..E + LENGTH_AT + 2].fill(61)),
        ("name length 255", |v| v[E + NAME_LENGTH_AT] = 255),
        ("name with 0", |v| v[E + NAME_LENGTH_AT] = 2),
        ("name with a slash", |v| v[E + NAME_AT] = b'/'),
        ("name .", |v| v[E + NAME_AT] = b'.'),
        ("name ..", |v| put_name(v, b"..")),
        ("byte past the name", |v| v[E + NAME_AT + 1] = 1),
        ("last byte past the name", |v| v[E + LENGTH_AT - 1] = 1),
        ("parent free", |v| v[E + PARENT_AT] = 5),
        ("parent a file", |v| v[3 * E + PARENT_AT] = 1),
        ("parent n", |v| v[E + PARENT_AT] = 6),
        ("parent 256", |v| v[E + PARENT_AT + 1] = 1),
        ("its own parent", |v| v[2 * E + PARENT_AT] = 2),
        ("a circle of two", |v| v[2 * E + PARENT_AT] = 3),
        ("same parent and name", |v| v[4 * E + PARENT_AT] = 0),
        ("same parent and name, spelt in another way", |v| {
            v[4 * E + PARENT_AT] = 0;
            v[4 * E + NAME_AT] ^= 32;
        }),
        ("directory with a length", |v| v[2 * E + LENGTH_AT] = 1),
        ("directory with data", |v| v[2 * E + ENTRY_HEAD] = 1),
        ("directory with data at its end", |v| v[3 * E - 1] = 1),
        ("length over b blocks", |v| put_u32(v, E + LENGTH_AT, 1025)),
        ("length of four bytes", |v| v[E + ENTRY_HEAD - 1] = 1),
        ("data past the length", |v| v[E + ENTRY_HEAD + 10] = 1),
        ("last data byte", |v| v[2 * E - 1] = 1),
    ];
    for (rule, change) in broken {
        assert_eq!(with_changed_volume(change), (Err(2), vec![false, false]), "{rule}");
    }
}

#[test]
fn a_volume_at_its_limits_is_good() {
    let good: Vec<(&str, Change)> = vec![
        ("name of 60 bytes", |v| put_name(v, &[255; 60])),
        ("name ...", |v| put_name(v, b"...")),
        ("full length with data", |v| {
            put_u32(v, E + LENGTH_AT, 1024);
            v[E + ENTRY_HEAD..2 * E].fill(255);
        }),
        ("last byte inside the length", |v| v[E + ENTRY_HEAD + 9] = 255),
        ("same name in another parent", |v| v[4 * E + PARENT_AT] = 3),
        ("same parent, name with the highest bit", |v| {
            v[4 * E + PARENT_AT] = 0;
            v[4 * E + NAME_AT] |= 128;
        }),
    ];
    for (what, change) in good {
        assert_eq!(with_changed_volume(change), (Ok(0), vec![true, true]), "{what}");
    }
}

fn log_is_good(log: &[u8]) -> bool {
    let mut world = base();
    world.log.copy_from_slice(log);
    world.stat(0, 0) != Err(2)
}

fn bytes_of(next: u32, slots: Vec<Slot>) -> Vec<u8> {
    let mut world = base();
    world.set_log(&Log { next, marks: 0, slots });
    world.log
}

/// A lost forder 2 and a waiting set length 5, then a free slot; the next number is 6.
fn stored() -> Vec<u8> {
    bytes_of(6, vec![lost(forder_record(2, 1, &[3, 0])), waiting(set_length_record(5, 31, 1, 1024))])
}

/// Where the three slots begin, and the records in the first two.
const FIRST: usize = LOG_HEAD;
const SECOND: usize = FIRST + SLOT;
const THIRD: usize = SECOND + SLOT;
const FIRST_RECORD: usize = FIRST + RECORD_AT;
const SECOND_RECORD: usize = SECOND + RECORD_AT;

#[test]
fn every_rule_of_a_log() {
    assert!(log_is_good(&stored()));
    let broken: Vec<(&str, Change)> = vec![
        ("next number 0", |l| l[..4].fill(0)),
        ("next number not above the last", |l| l[0] = 5),
        ("state 3", |l| l[FIRST] = 3),
        ("state 0 in a used slot", |l| l[SECOND] = 0),
        ("first zero byte", |l| l[FIRST + 1] = 1),
        ("last zero byte", |l| l[SECOND + DEPENDENTS_AT - 1] = 1),
        ("dependents of a lost one", |l| l[FIRST_RECORD - 1] = 1),
        ("byte past the record", |l| l[FIRST_RECORD + 13] = 1),
        ("last byte of a slot", |l| l[THIRD - 1] = 1),
        ("a used slot after a free one", |l| {
            let second = l[SECOND..THIRD].to_vec();
            l[THIRD..].copy_from_slice(&second);
            l[SECOND..THIRD].fill(0);
        }),
        ("first byte of a free slot", |l| l[THIRD] = 1),
        ("last byte of a free slot", |l| *l.last_mut().unwrap() = 1),
        ("falling sequence", |l| l[FIRST_RECORD + 2] = 6),
        ("same sequence twice", |l| l[FIRST_RECORD + 2] = 5),
        ("waiting before lost", |l| (l[FIRST], l[SECOND]) = (1, 2)),
        ("sequence 0", |l| l[FIRST_RECORD + 2] = 0),
        ("program 32", |l| l[FIRST_RECORD + 6] = 32),
        ("kind 9", |l| l[FIRST_RECORD + 7] = 9),
        ("map of another kind", |l| l[FIRST_RECORD] = 65),
        ("listed object n", |l| l[FIRST_RECORD + 9] = 6),
        ("listed object twice", |l| l[FIRST_RECORD + 9] = 0),
        ("object n", |l| l[SECOND_RECORD + 8] = 6),
        ("object 0", |l| l[SECOND_RECORD + 8] = 0),
        ("length over b blocks", |l| l[SECOND_RECORD + 10] = 1),
    ];
    for (rule, change) in broken {
        let mut log = stored();
        change(&mut log);
        assert!(!log_is_good(&log), "{rule}");
    }
}

#[test]
fn a_log_at_its_limits_is_good() {
    let good: Vec<(&str, Change)> = vec![
        ("any marks", |l| l[4..LOG_HEAD].fill(255)),
        ("no dependents", |l| l[SECOND + DEPENDENTS_AT..SECOND_RECORD].fill(0)),
        ("any dependents", |l| l[SECOND + DEPENDENTS_AT..SECOND_RECORD].fill(255)),
        ("next number at its end", |l| l[..4].fill(255)),
        ("both lost", |l| (l[SECOND], l[SECOND_RECORD - 1]) = (2, 0)),
        ("both waiting", |l| l[FIRST] = 1),
    ];
    for (what, change) in good {
        let mut log = stored();
        change(&mut log);
        assert!(log_is_good(&log), "{what}");
    }
}

#[test]
fn records_must_fit_n_and_b() {
    let write =
        |kind, offset, count| Record { sequence: 1, object: 5, offset, data: vec![1; count], ..Record::blank(kind) };
    let rename = |parent, second_parent, displaced| Record {
        sequence: 1,
        object: 5,
        parent,
        second_parent,
        displaced,
        name: b"a".to_vec(),
        second_name: b"b".to_vec(),
        ..Record::blank(Kind::Rename)
    };
    let records = [
        (true, write(Kind::Overwrite, 1020, 4)),
        (false, write(Kind::Overwrite, 1024, 4)),
        (true, write(Kind::Append, 0, 1024)),
        (false, write(Kind::Append, 1024, 1)),
        (true, set_length_record(1, 0, 5, 1024)),
        (false, set_length_record(1, 0, 5, 1025)),
        (true, rename(5, 0, Some(4))),
        (false, rename(6, 0, Some(4))),
        (false, rename(0, 6, Some(4))),
        (false, rename(0, 0, Some(6))),
        (true, rename(0, 0, None)),
    ];
    for (good, record) in records {
        assert_eq!(log_is_good(&bytes_of(2, vec![waiting(record.clone())])), good, "{record:?}");
        assert_eq!(log_is_good(&bytes_of(2, vec![lost(record.clone())])), good, "lost {record:?}");
    }
}

#[test]
fn the_longest_record_fills_its_slot() {
    let data = vec![255; 1024];
    let record = Record { sequence: 1, object: 1, data, ..Record::blank(Kind::Append) };
    assert_eq!(record.to_bytes().len(), 1040);
    assert!(log_is_good(&bytes_of(2, vec![waiting(record)])));
}

#[test]
fn reading_and_writing_a_log_undo_each_other() {
    let log = stored();
    let geometry = base().geometry();
    let mut again = vec![7; log.len()];
    Log::read(&geometry, &log).unwrap().write(&mut again);
    assert_eq!(again, log);
}
