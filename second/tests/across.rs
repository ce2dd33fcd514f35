//! Writes across the end of a file (document 02, K1, and reading 27): an overwrite of the bytes up to the length,
//! then an append of the rest at the length.

mod common;
use common::{forder_record, lost, waiting, World};
use second::bytes::get_u32;
use second::geometry::{BLOCK, ENTRY_HEAD, LONGEST_RECORD};
use second::log::Log;
use second::record::{Kind, Record};
use second::volume::LENGTH_AT;

/// n = 4, b blocks, m slots, and a sent file 1 f of that length, filled with x.
fn with_file(b: u64, m: u64, length: u64) -> World {
    let mut world = World::new(4, b, m);
    world.create(0, 0, b"f", 1).unwrap();
    world.push_all();
    for start in (0..length).step_by(BLOCK) {
        world.write(0, 1, start, &vec![b'x'; BLOCK.min((length - start) as usize)]).unwrap();
        world.push_all();
    }
    world.mount().unwrap();
    world
}

fn data(sequence: u32, program: u8, kind: Kind, offset: u32, data: &[u8]) -> Record {
    Record { sequence, program, object: 1, offset, data: data.to_vec(), ..Record::blank(kind) }
}

/// The content of file 1 in the view or in the server volume.
fn content(world: &World, volume: &[u8]) -> Vec<u8> {
    let entry = &volume[world.entry_at(1)..];
    entry[ENTRY_HEAD..][..get_u32(entry, LENGTH_AT) as usize].to_vec()
}

/// The call is refused with that number and changes nothing.
fn refused(world: &mut World, offset: u64, data: &[u8], number: u64) {
    let before = world.clone();
    assert_eq!(world.write(2, 1, offset, data), Err(number), "{} bytes at {offset}", data.len());
    assert!(*world == before, "a refusal changes nothing");
}

/// Uses slots by forders of program 9 on the root until so many are free.
fn leave_free(world: &mut World, free: u64) {
    while world.m - (world.log_now().slots.len() as u64) > free {
        world.forder(9, &[0]).unwrap();
    }
}

fn set_next(world: &mut World, next: u32) {
    world.log[..4].copy_from_slice(&next.to_le_bytes());
}

#[test]
fn ten_bytes_at_the_tail_five_old_and_five_new() {
    let mut world = with_file(1, 4, 15);
    let server = world.server.clone();
    assert_eq!(world.write(2, 1, 10, b"0123456789"), Ok(1), "the first number is returned");
    let slots = world.log_now().slots;
    let overwrite = data(1, 2, Kind::Overwrite, 10, b"01234");
    let append = data(2, 2, Kind::Append, 15, b"56789");
    assert_eq!(slots, [waiting(overwrite), waiting(append)]);
    assert_eq!(world.log_now().next, 3);
    assert_eq!(content(&world, &world.view), b"xxxxxxxxxx0123456789");
    assert_eq!(world.server, server, "nothing is sent");
    assert_eq!(world.stat(2, 1).unwrap().length, 20);
    assert_eq!(world.forder(2, &[1]), Ok(3), "the next call goes on after both");
}

#[test]
fn where_the_parts_meet() {
    for (length, offset, count) in [(1, 0, 2), (5, 0, 1024), (5, 4, 2), (1023, 0, 1024), (1023, 1022, 2), (9, 8, 500)] {
        let mut world = with_file(1, 2, length);
        let bytes: Vec<u8> = (0..count).map(|at| at as u8).collect();
        assert_eq!(world.write(0, 1, offset, &bytes), Ok(1));
        let old = (length - offset) as usize;
        let records: Vec<Record> = world.log_now().slots.into_iter().map(|slot| slot.record).collect();
        let overwrite = data(1, 0, Kind::Overwrite, offset as u32, &bytes[..old]);
        let append = data(2, 0, Kind::Append, length as u32, &bytes[old..]);
        assert_eq!(records, [overwrite, append], "{count} bytes at {offset} of {length}");
        assert_eq!(content(&world, &world.view)[offset as usize..], bytes);
        world.push_all();
        assert_eq!(world.server, world.view);
    }
}

#[test]
fn up_to_the_length_and_at_the_length_one_operation() {
    let mut world = with_file(1, 4, 15);
    assert_eq!(world.write(0, 1, 10, b"01234"), Ok(1));
    assert_eq!(world.write(0, 1, 15, b"56789"), Ok(2));
    let kinds: Vec<Kind> = world.log_now().slots.iter().map(|slot| slot.record.kind).collect();
    assert_eq!(kinds, [Kind::Overwrite, Kind::Append]);
}

#[test]
fn refusal_12_of_other_ranges() {
    let mut world = with_file(2, 4, 1024);
    refused(&mut world, 1020, b"abcde", 12);
    refused(&mut world, 1023, b"ab", 12);
    refused(&mut world, 0, &[1; 1025], 12);
    assert_eq!(world.write(2, 1, 1020, b"abcd"), Ok(1), "C8");
    let mut world = with_file(2, 4, 1020);
    refused(&mut world, 1018, b"abcdefg", 12);
    refused(&mut world, 1018, b"", 12);
    refused(&mut world, 1021, b"a", 12);
    refused(&mut world, 1023, b"ab", 12);
    refused(&mut world, u64::MAX, b"ab", 12);
    assert_eq!(world.write(2, 1, 1018, b"abcdef"), Ok(1), "to the end of the block");
    let mut world = with_file(2, 4, 1030);
    refused(&mut world, 1020, b"abcdefghijkl", 12);
    assert_eq!(world.write(2, 1, 1024, b"abcdefghijkl"), Ok(1), "from the beginning of the block");
}

#[test]
fn beyond_b_is_refused() {
    for b in [1, 2, 64] {
        let most = BLOCK as u64 * b;
        let mut world = with_file(b, 4, most - 4);
        refused(&mut world, most - 6, b"abcdefg", 12);
        assert_eq!(world.write(2, 1, most - 6, b"abcdef"), Ok(1), "to the end of b");
        assert_eq!(world.stat(2, 1).unwrap().length, most);
        refused(&mut world, most - 1, b"ab", 12);
    }
}

#[test]
fn refusal_13_with_fewer_than_two_free_slots() {
    for free in [0, 1] {
        let mut world = with_file(1, 4, 15);
        leave_free(&mut world, free);
        refused(&mut world, 10, b"0123456789", 13);
        let alone = if free == 0 { Err(13) } else { Ok(4) };
        assert_eq!(world.clone().write(2, 1, 10, b"01234"), alone, "up to the length one slot is enough");
        assert_eq!(world.clone().write(2, 1, 15, b"56789"), alone, "at the length one slot is enough");
    }
    let mut world = with_file(1, 4, 15);
    leave_free(&mut world, 0);
    world.push(1).unwrap();
    refused(&mut world, 10, b"0123456789", 13);
    world.push(2).unwrap();
    assert_eq!(world.write(2, 1, 10, b"0123456789"), Ok(5), "the last two slots");
    assert_eq!(world.waiting_numbers(), [3, 4, 5, 6]);
    refused(&mut world, 19, b"ab", 13);
}

#[test]
fn lost_slots_count_and_one_slot_is_never_enough() {
    let mut world = with_file(1, 4, 15);
    let slots = [20, 21, 22].map(|number| lost(forder_record(number, 7, &[0]))).to_vec();
    world.set_log(&Log { next: 30, marks: 0, slots });
    refused(&mut world, 14, b"ab", 13);
    world.take(7, &mut [0; LONGEST_RECORD]).unwrap();
    assert_eq!(world.write(2, 1, 14, b"ab"), Ok(30));
    refused(&mut with_file(1, 1, 15), 14, b"ab", 13);
}

#[test]
fn refusal_14_with_fewer_than_two_numbers_left() {
    let mut world = with_file(1, 4, 15);
    set_next(&mut world, 4_294_967_293);
    assert_eq!(world.write(2, 1, 14, b"ab"), Ok(4_294_967_293), "the last two numbers");
    assert_eq!(world.waiting_numbers(), [4_294_967_293, 4_294_967_294]);
    assert_eq!(world.log_now().next, 4_294_967_295);
    refused(&mut world, 14, b"a", 14);
    assert_eq!((world.push(4_294_967_293), world.push(4_294_967_294)), (Ok(0), Ok(0)));

    let mut world = with_file(1, 4, 15);
    set_next(&mut world, 4_294_967_294);
    refused(&mut world, 14, b"ab", 14);
    assert_eq!(world.clone().write(2, 1, 15, b"b"), Ok(4_294_967_294), "an append takes the last number");
    assert_eq!(world.write(2, 1, 14, b"a"), Ok(4_294_967_294), "an overwrite takes the last number");

    let mut world = with_file(1, 4, 15);
    set_next(&mut world, 4_294_967_295);
    refused(&mut world, 14, b"ab", 14);
    refused(&mut world, 14, b"a", 14);
    refused(&mut world, 15, b"b", 14);
}

#[test]
fn refusal_12_before_13_before_14() {
    for (free, next) in [(0, 4_294_967_295), (1, 4_294_967_294), (1, 4_294_967_295)] {
        let mut world = with_file(1, 4, 1020);
        leave_free(&mut world, free);
        set_next(&mut world, next);
        refused(&mut world, 1019, b"abcdef", 12);
        refused(&mut world, 1019, b"abcde", 13);
    }
    let mut world = with_file(1, 4, 1020);
    leave_free(&mut world, 2);
    set_next(&mut world, 4_294_967_294);
    refused(&mut world, 1019, b"abcdef", 12);
    refused(&mut world, 1019, b"abcde", 14);
}

#[test]
fn the_append_follows_the_overwrite() {
    let mut world = with_file(1, 4, 15);
    world.write(2, 1, 10, b"0123456789").unwrap();
    let before = world.clone();
    assert_eq!(world.push(2), Err(15));
    assert!(world == before);
    assert_eq!(world.push(1), Ok(0));
    assert_eq!(content(&world, &world.server), b"xxxxxxxxxx01234");
    assert_eq!(world.push(2), Ok(0));
    assert_eq!(content(&world, &world.server), b"xxxxxxxxxx0123456789");
}

#[test]
fn one_write_across_the_end_after_another() {
    let mut world = with_file(1, 6, 4);
    assert_eq!(world.write(2, 1, 3, b"ab"), Ok(1));
    assert_eq!(world.write(3, 1, 0, b"ABCDEF"), Ok(3));
    assert_eq!(world.write(4, 1, 1, b"z"), Ok(5));
    assert_eq!(content(&world, &world.view), b"AzCDEF");
    let records: Vec<Record> = world.log_now().slots.into_iter().map(|slot| slot.record).collect();
    assert_eq!(records[2..4], [data(3, 3, Kind::Overwrite, 0, b"ABCDE"), data(4, 3, Kind::Append, 5, b"F")]);
    assert_eq!([2, 3, 4, 5].map(|number| world.push(number)), [Err(15); 4], "an append lets no later one pass");
    world.push_all();
    assert_eq!(world.server, world.view);
}

#[test]
fn overwrites_before_it_stay_free() {
    let mut world = with_file(1, 6, 15);
    world.write(2, 1, 0, b"ab").unwrap();
    world.write(2, 1, 14, b"cd").unwrap();
    assert_eq!(world.push(2), Ok(0), "no byte in common with the first");
    assert_eq!(world.push(3), Err(15), "the append waits for the first overwrite");
    assert_eq!((world.push(1), world.push(3)), (Ok(0), Ok(0)));
    let mut world = with_file(1, 6, 15);
    world.write(2, 1, 12, b"abc").unwrap();
    world.write(2, 1, 14, b"cd").unwrap();
    assert_eq!(world.push(2), Err(15), "a byte in common with the first");
}

#[test]
fn a_cut_may_keep_the_overwrite_without_the_append() {
    let mut world = with_file(1, 4, 15);
    world.write(2, 1, 10, b"0123456789").unwrap();
    world.push(1).unwrap();
    world.cut().unwrap();
    assert_eq!(content(&world, &world.view), b"xxxxxxxxxx01234");
    assert_eq!(world.log_now().slots, [lost(data(2, 2, Kind::Append, 15, b"56789"))]);
    assert_eq!(world.log_now().marks, 1 << 2);
    assert_eq!(world.stat(2, 1), Err(4));
    let mut buffer = [7; LONGEST_RECORD];
    assert_eq!(world.take(2, &mut buffer), Ok(21));
    assert_eq!(buffer[..21], data(2, 2, Kind::Append, 15, b"56789").to_bytes());
    assert_eq!(world.renew(2), Ok(0));
    assert_eq!(world.write(2, 1, 15, b"56789"), Ok(3));
}

#[test]
fn both_lost_are_two_losses_of_the_caller() {
    let mut world = with_file(1, 4, 15);
    world.write(2, 1, 10, b"0123456789").unwrap();
    world.cut().unwrap();
    assert_eq!(content(&world, &world.view), [b'x'; 15]);
    assert_eq!(world.log_now().marks, 1 << 2);
    let mut buffer = [7; LONGEST_RECORD];
    for record in [data(1, 2, Kind::Overwrite, 10, b"01234"), data(2, 2, Kind::Append, 15, b"56789")] {
        assert_eq!(world.renew(2), Err(18));
        assert_eq!(world.take(2, &mut buffer), Ok(21));
        assert_eq!(buffer[..21], record.to_bytes());
    }
    assert_eq!((world.renew(2), world.take(2, &mut buffer)), (Ok(0), Err(16)));
}

#[test]
fn fsync_counts_both() {
    let mut world = with_file(1, 4, 15);
    world.forder(0, &[0]).unwrap();
    world.write(2, 1, 10, b"0123456789").unwrap();
    assert_eq!(world.clone().fsync(3, 0, 1), (0, 1), "the root needs neither");
    let mut both = world.clone();
    assert_eq!(both.fsync(2, 1, 2), (0, 2));
    assert_eq!(content(&both, &both.server), b"xxxxxxxxxx0123456789");
    assert_eq!(both.waiting_numbers(), [1]);
    let mut one = world.clone();
    assert_eq!(one.fsync(2, 1, 1), (17, 1));
    assert_eq!(content(&one, &one.server), b"xxxxxxxxxx01234", "the overwrite without the append");
    let left: Vec<u32> = one.log_now().slots.iter().map(|slot| slot.record.sequence).collect();
    assert_eq!(left, [1, 3]);
    assert_eq!(world.fsync(2, 1, 0), (17, 0));
    assert_eq!(content(&world, &world.server), [b'x'; 15]);
}

#[test]
fn the_call_brings_dependence_for_both() {
    let mut world = with_file(1, 6, 15);
    world.forder(5, &[0]).unwrap();
    world.forder(6, &[0, 1]).unwrap();
    world.forder(7, &[0]).unwrap();
    world.write(2, 1, 14, b"ab").unwrap();
    assert_eq!(world.dependents(), [1 << 5 | 1 << 6 | 1 << 7 | 4, 1 << 6 | 1 << 7 | 4, 1 << 7, 4, 4]);
    world.stat(3, 1).unwrap();
    assert_eq!(world.dependents()[3..], [12, 12], "who asks for the file depends on both");
    assert_eq!((world.push(1), world.push(2), world.push(4)), (Ok(0), Ok(0), Ok(0)));
    world.stat(4, 1).unwrap();
    assert_eq!(world.dependents(), [1 << 7, 0b11100], "the overwrite is sent, the append waits");
    world.cut().unwrap();
    assert_eq!(world.log_now().marks, 1 << 7 | 0b11100);
}

#[test]
fn a_refused_one_brings_no_dependence() {
    let mut world = with_file(1, 2, 15);
    world.write(5, 1, 0, b"a").unwrap();
    refused(&mut world, 14, b"ab", 13);
    assert_eq!(world.dependents(), [1 << 5]);
    world.cut().unwrap();
    assert_eq!(world.log_now().marks, 1 << 5);
}
