//! What calls leave where random runs do not reach: logs that no run produces, dependence through chains,
//! the two exceptions of fsync, and the largest geometry (document 01, "Calls" and "Order and dependence").

mod common;
use common::{forder_record, lost, set_length_record, waiting, World};
use second::geometry::{ENTRY_HEAD, LONGEST_RECORD};
use second::log::{Log, Slot};
use second::record::{Kind, Record};

/// n = 8, b = 1, m = 8 with sent files 1 f of 10 bytes and 2 g, and directory 3 d.
fn base() -> World {
    let mut world = World::new(8, 1, 8);
    world.create(0, 0, b"f", 1).unwrap();
    world.setlen(0, 1, 10).unwrap();
    world.create(0, 0, b"g", 2).unwrap();
    world.mkdir(0, 0, b"d", 3).unwrap();
    world.push_all();
    world
}

fn with_slots(slots: Vec<Slot>) -> World {
    let mut world = base();
    world.set_log(&Log { next: 100, marks: 0, slots });
    world
}

#[test]
fn a_bad_operation_within_k_gives_2_without_a_cut() {
    // Set lengths of 1, of free 5 and of 1, tied by forders; fsync of 1 needs all five.
    let mut world = with_slots(vec![
        waiting(set_length_record(10, 1, 1, 4)),
        waiting(forder_record(11, 1, &[1, 5])),
        waiting(set_length_record(12, 1, 5, 4)),
        waiting(forder_record(13, 1, &[1, 5])),
        waiting(set_length_record(14, 1, 1, 4)),
    ]);
    let mut far = world.clone();
    let before = world.clone();
    assert_eq!(world.fsync(2, 1, 9), (2, 2));
    assert_eq!(world.waiting_numbers(), [12, 13, 14]);
    assert_eq!(world.dependents(), [2, 2, 2], "no dependence");
    assert_eq!(world.view, before.view, "no cut");
    assert_ne!(world.server, before.server, "the sends before it are kept");
    assert_eq!(far.clone().fsync(2, 1, 3), (2, 2), "k is below d, and the bad operation is the third");
    assert_eq!(far.fsync(2, 1, 2), (17, 2), "the bad operation is not among the first k");
    assert_eq!(far.log_now().marks, 6);
    assert_eq!(far.view, far.server);
}

#[test]
fn applying_is_judged_after_the_sends_before() {
    let create = Record { sequence: 10, ..named(Kind::Create, 5, 0, b"n") };
    let mut world = with_slots(vec![waiting(create), waiting(set_length_record(11, 0, 5, 4))]);
    world.view.copy_from_slice(&world.server.clone());
    assert_eq!(world.fsync(0, 0, 2), (0, 1), "only the create has the root as operand");
    assert_eq!(world.push(11), Ok(0));
}

#[test]
fn fsync_needs_predecessors_of_other_objects_too() {
    let mut world = base();
    world.write(0, 1, 0, b"abc").unwrap();
    world.forder(0, &[1, 2]).unwrap();
    world.write(0, 2, 0, b"abc").unwrap();
    world.setlen(0, 3, 0).unwrap_err();
    assert_eq!(world.clone().fsync(0, 2, 3), (0, 3));
    assert_eq!(world.fsync(0, 2, 2), (17, 2));
}

#[test]
fn fsync_needs_predecessors_through_chains() {
    let mut world = base();
    world.write(0, 1, 0, b"abc").unwrap();
    world.forder(0, &[1, 3]).unwrap();
    world.forder(0, &[3, 2]).unwrap();
    world.forder(0, &[1]).unwrap();
    assert_eq!(world.clone().fsync(0, 2, 3), (0, 3), "the write, and both forders up to g");
    assert_eq!(world.fsync(0, 2, 2), (17, 2));
}

#[test]
fn dependence_goes_through_chains() {
    let mut world = base();
    world.write(1, 1, 0, b"abc").unwrap();
    world.forder(2, &[1, 2]).unwrap();
    assert_eq!(world.dependents(), [0b110, 0b100]);
    world.stat(3, 2).unwrap();
    assert_eq!(world.dependents(), [0b1110, 0b1100]);
    world.stat(4, 1).unwrap();
    assert_eq!(world.dependents(), [0b11110, 0b11100]);
    world.stat(5, 3).unwrap();
    assert_eq!(world.dependents(), [0b11110, 0b11100], "an untouched object brings none");
    world.stat(6, 7).unwrap_err();
    assert_eq!(world.lookup(6, b"/f/x"), Err(9));
    assert_eq!(world.dependents(), [0b11110, 0b11100], "a refused call brings none");
}

#[test]
fn a_chain_runs_only_from_earlier_to_later() {
    let mut world = base();
    world.forder(1, &[1, 2]).unwrap();
    world.forder(2, &[1, 3]).unwrap();
    world.stat(3, 2).unwrap();
    assert_eq!(world.dependents(), [0b1110, 0b100]);
    world.stat(4, 3).unwrap();
    assert_eq!(world.dependents(), [0b11110, 0b10100]);
}

#[test]
fn loose_overwrites_touch_all_the_same() {
    let mut world = base();
    world.write(1, 1, 0, b"ab").unwrap();
    world.write(2, 1, 2, b"cd").unwrap();
    assert_eq!(world.dependents(), [0b110, 0b100]);
    assert_eq!(world.push(6), Ok(0));
    world.stat(3, 1).unwrap();
    assert_eq!(world.dependents(), [0b1110]);
}

#[test]
fn a_lookup_depends_on_the_directories_it_searches() {
    let mut world = base();
    world.create(0, 3, b"x", 4).unwrap();
    world.push_all();
    world.forder(1, &[0]).unwrap();
    world.forder(1, &[3]).unwrap();
    world.forder(1, &[4]).unwrap();
    world.forder(1, &[1]).unwrap();
    world.lookup(2, b"/d/x").unwrap();
    world.lookup(3, b"/d").unwrap();
    world.lookup(4, b"/").unwrap();
    assert_eq!(world.dependents(), [0b11110, 0b1110, 0b110, 0b10]);
}

#[test]
fn a_cut_marks_the_stored_dependents_and_keeps_older_losses() {
    let mut world = with_slots(vec![
        lost(forder_record(9, 7, &[0])),
        Slot { dependents: 1 << 31 | 1, ..waiting(forder_record(10, 3, &[1])) },
        Slot { dependents: 0, ..waiting(forder_record(11, 4, &[1])) },
    ]);
    assert_eq!(world.cut(), Ok(0));
    assert_eq!(world.log_now().marks, 1 << 31 | 1, "not even the issuer without its bit");
    let slots: Vec<_> = world.log_now().slots;
    assert!(slots.iter().all(|slot| slot.dependents == 0));
    assert_eq!(slots.iter().map(|slot| slot.record.sequence).collect::<Vec<_>>(), [9, 10, 11]);
    assert_eq!(world.lookup(31, b"/"), Err(4));
    let marked = world.clone();
    assert_eq!(world.cut(), Ok(0));
    assert!(world == marked, "a second cut changes nothing more");
}

#[test]
fn a_cut_with_nothing_waiting_copies_the_server() {
    let mut world = base();
    let data = world.entry_at(1) + ENTRY_HEAD;
    world.view[data] = 5;
    assert_eq!(world.cut(), Ok(0));
    assert_eq!(world.view, world.server);
}

#[test]
fn lost_operations_neither_precede_nor_are_needed() {
    let mut world = with_slots(vec![lost(set_length_record(10, 1, 1, 4)), waiting(set_length_record(11, 1, 1, 3))]);
    assert_eq!(world.clone().push(11), Ok(0));
    assert_eq!(world.fsync(0, 1, 1), (0, 1));
    assert_eq!(world.push(10), Err(16));
}

#[test]
fn take_gives_the_earliest_loss_of_the_program() {
    let records = [forder_record(10, 1, &[0]), forder_record(11, 2, &[1]), forder_record(12, 1, &[2])];
    let mut world = with_slots(records.iter().cloned().map(lost).collect());
    let mut buffer = [7; LONGEST_RECORD];
    assert_eq!(world.take(1, &mut buffer), Ok(11));
    assert_eq!(&buffer[..11], &records[0].to_bytes());
    assert!(buffer[11..].iter().all(|&byte| byte == 7));
    assert_eq!(world.log_now().slots, vec![lost(records[1].clone()), lost(records[2].clone())]);
    assert_eq!(world.renew(1), Err(18));
    assert_eq!(world.take(1, &mut buffer), Ok(11));
    assert_eq!(&buffer[..11], &records[2].to_bytes());
    assert_eq!(world.renew(1), Ok(0));
}

/// A record with a place, of a create, make directory or remove.
fn named(kind: Kind, object: u16, parent: u16, name: &[u8]) -> Record {
    Record { object, parent, name: name.to_vec(), ..Record::blank(kind) }
}

fn moved(object: u16, from: (u16, &[u8]), to: (u16, &[u8]), displaced: Option<u16>) -> Record {
    let second_name = to.1.to_vec();
    Record { second_parent: to.0, second_name, displaced, ..named(Kind::Rename, object, from.0, from.1) }
}

fn data(kind: Kind, object: u16, offset: u32, count: usize) -> Record {
    Record { object, offset, data: vec![9; count], ..Record::blank(kind) }
}

/// Server: 1 file f of 10 bytes, 2 file g, 3 directory d with 4 file x, 5 empty directory e; 6 and 7 are free.
fn check_applying(cases: &[(bool, Record)]) {
    for (good, record) in cases {
        let mut world = base();
        world.create(0, 3, b"x", 4).unwrap();
        world.mkdir(0, 0, b"e", 5).unwrap();
        world.push_all();
        let record = Record { sequence: 50, ..record.clone() };
        world.set_log(&Log { next: 100, marks: 0, slots: vec![waiting(record.clone())] });
        let before = world.clone();
        assert_eq!(world.push(50), if *good { Ok(0) } else { Err(2) }, "{record:?}");
        assert_eq!(world == before, !good);
        assert_eq!(world.view, before.view);
        assert_eq!(world.cut(), Ok(0), "the server is well formed afterwards");
    }
}

#[test]
fn creating_and_removing_apply_only_under_their_conditions() {
    check_applying(&[
        (true, named(Kind::Create, 6, 0, b"n")),
        (false, named(Kind::Create, 1, 0, b"n")),
        (false, named(Kind::Create, 6, 0, b"f")),
        (true, named(Kind::MakeDirectory, 6, 3, b"n")),
        (false, named(Kind::MakeDirectory, 6, 1, b"n")),
        (false, named(Kind::MakeDirectory, 6, 7, b"n")),
        (false, named(Kind::MakeDirectory, 6, 6, b"n")),
        (true, named(Kind::Remove, 1, 0, b"f")),
        (false, named(Kind::Remove, 2, 0, b"f")),
        (false, named(Kind::Remove, 1, 3, b"f")),
        (false, named(Kind::Remove, 1, 2, b"f")),
        (false, named(Kind::Remove, 3, 0, b"d")),
        (true, named(Kind::Remove, 5, 0, b"e")),
    ]);
}

#[test]
fn a_rename_applies_only_under_its_conditions() {
    check_applying(&[
        (true, moved(1, (0, b"f"), (3, b"n"), None)),
        (true, moved(1, (0, b"f"), (0, b"f"), None)),
        (true, moved(3, (0, b"d"), (0, b"n"), None)),
        (false, moved(1, (0, b"f"), (0, b"g"), None)),
        (true, moved(1, (0, b"f"), (0, b"g"), Some(2))),
        (false, moved(1, (0, b"f"), (0, b"g"), Some(4))),
        (false, moved(1, (0, b"f"), (0, b"n"), Some(2))),
        (false, moved(1, (0, b"f"), (0, b"e"), Some(5))),
        (false, moved(5, (0, b"e"), (0, b"d"), Some(3))),
        (false, moved(5, (0, b"e"), (0, b"f"), Some(1))),
        (false, moved(5, (0, b"e"), (3, b"n"), None)),
        (true, moved(5, (0, b"e"), (0, b"n"), None)),
        (false, moved(2, (0, b"f"), (0, b"n"), None)),
        (false, moved(1, (0, b"f"), (2, b"n"), None)),
        (false, moved(1, (0, b"f"), (7, b"n"), None)),
        (false, moved(1, (2, b"f"), (0, b"n"), None)),
    ]);
}

#[test]
fn writes_set_length_and_forder_apply_only_under_their_conditions() {
    check_applying(&[
        (true, data(Kind::Overwrite, 1, 8, 2)),
        (false, data(Kind::Overwrite, 1, 8, 3)),
        (false, data(Kind::Overwrite, 3, 0, 1)),
        (false, data(Kind::Overwrite, 6, 0, 1)),
        (true, data(Kind::Append, 1, 10, 2)),
        (false, data(Kind::Append, 1, 9, 2)),
        (false, data(Kind::Append, 1, 11, 2)),
        (false, data(Kind::Append, 3, 0, 2)),
        (true, data(Kind::Append, 2, 0, 1024)),
        (true, set_length_record(0, 0, 1, 10)),
        (true, set_length_record(0, 0, 1, 1024)),
        (false, set_length_record(0, 0, 3, 0)),
        (false, set_length_record(0, 0, 6, 0)),
        (true, forder_record(0, 0, &[6, 7, 1])),
    ]);
}

#[test]
fn set_length_zeroes_what_it_cuts_off() {
    let mut world = base();
    world.write(0, 1, 0, &[7; 10]).unwrap();
    world.setlen(0, 1, 3).unwrap();
    world.setlen(0, 1, 8).unwrap();
    let mut buffer = [1; 9];
    assert_eq!(world.read(0, 1, 0, &mut buffer), Ok(8));
    assert_eq!(buffer, [7, 7, 7, 0, 0, 0, 0, 0, 1]);
}

#[test]
fn the_last_sequence_number_is_usable() {
    let mut world = base();
    world.set_log(&Log { next: 4_294_967_294, marks: 0, slots: vec![] });
    assert_eq!(world.forder(0, &[0]), Ok(4_294_967_294));
    assert_eq!(world.forder(0, &[0]), Err(14));
    assert_eq!(world.push(4_294_967_294), Ok(0));
    assert_eq!(world.forder(0, &[0]), Err(14));
}

#[test]
fn the_largest_geometry() {
    let mut world = World::new(256, 64, 1024);
    assert_eq!(world.mkdir(31, 0, b"d", 255), Ok(1));
    assert_eq!(world.create(31, 255, b"f", 254), Ok(2));
    assert_eq!(world.setlen(31, 254, 65_536), Ok(3));
    assert_eq!(world.write(31, 254, 64_512, &[1; 1024]), Ok(4));
    assert_eq!(world.write(31, 254, 65_536, &[1]), Err(12));
    assert_eq!(world.stat(0, 254).unwrap().usage, 64);
    assert_eq!(world.create(0, 0, b"g", 256), Err(7));
    let forder = |number| waiting(forder_record(number, 9, &[0, (number % 255) as u16 + 1]));
    let slots: Vec<Slot> = (1..1024).map(forder).collect();
    world.set_log(&Log { next: 1024, marks: 0, slots });
    assert_eq!(world.forder(0, &[254]), Ok(1024));
    assert_eq!(world.forder(0, &[254]), Err(13));
    assert_eq!(world.push(1023), Err(15));
    assert_eq!(world.fsync(0, 0, 1022), (17, 1022));
    assert_eq!(world.log_now().slots.len(), 2);
}
