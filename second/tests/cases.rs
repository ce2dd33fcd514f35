//! C1 to C12 (document 01, "Cases to prove").

mod common;
use common::World;
use second::{read_record, Head};

/// A world with a file 1 "f" of that length, all sent.
fn with_file(length: u64) -> World {
    let mut world = World::new(8, 2, 8);
    assert_eq!(world.create(0, 0, b"f", 1), Ok(1));
    assert_eq!(world.setlen(0, 1, length), Ok(2));
    world.push_all();
    world
}

#[test]
fn c1_slash_is_the_root() {
    assert_eq!(World::new(2, 1, 1).lookup(0, b"/"), Ok(0));
}

#[test]
fn c2_a_name_of_60_bytes_passes_and_61_give_6() {
    let mut world = World::new(3, 1, 4);
    assert_eq!(world.create(0, 0, &[b'a'; 61], 1), Err(6));
    assert_eq!(world.create(0, 0, &[b'a'; 60], 1), Ok(1));
    let path = [b"/".as_slice(), &[b'a'; 60]].concat();
    assert_eq!(world.lookup(0, &path), Ok(1));
    assert_eq!(world.lookup(0, &[path.as_slice(), b"a"].concat()), Err(6));
}

#[test]
fn c3_overwrites_without_a_common_byte_are_free() {
    let mut world = with_file(8);
    assert_eq!(world.write(0, 1, 0, b"abcd"), Ok(3));
    assert_eq!(world.write(0, 1, 4, b"efgh"), Ok(4));
    assert_eq!(world.push(4), Ok(0));
    assert_eq!(world.push(3), Ok(0));
}

#[test]
fn c4_overwrites_with_a_common_byte_are_ordered() {
    let mut world = with_file(8);
    assert_eq!(world.write(0, 1, 0, b"abcde"), Ok(3));
    assert_eq!(world.write(0, 1, 4, b"efgh"), Ok(4));
    assert_eq!(world.push(4), Err(15));
    assert_eq!(world.push(3), Ok(0));
    assert_eq!(world.push(4), Ok(0));
}

#[test]
fn c5_usage_of_511_is_0_and_of_512_is_1() {
    for (length, usage) in [(0, 0), (511, 0), (512, 1), (1535, 1), (1536, 2), (2048, 2)] {
        assert_eq!(with_file(length).stat(0, 1).unwrap().usage, usage, "length {length}");
    }
}

/// 1 a, 2 b, 3 c, 4 d, 5 e are directories; a, b, c hold the files 6, 7 and 8, and d the file 9.
fn figure_3() -> World {
    let mut world = World::new(12, 1, 20);
    for (object, name) in [(1, b"a"), (2, b"b"), (3, b"c"), (4, b"d"), (5, b"e")] {
        world.mkdir(0, 0, name, object).unwrap();
    }
    for (parent, object) in [(1, 6), (2, 7), (3, 8), (4, 9)] {
        world.create(0, parent, b"x", object).unwrap();
    }
    world.push_all();
    assert_eq!(world.rename(0, 1, b"x", 4, b"1"), Ok(10));
    assert_eq!(world.rename(0, 2, b"x", 5, b"2"), Ok(11));
    assert_eq!(world.rename(0, 3, b"x", 4, b"3"), Ok(12));
    assert_eq!(world.rename(0, 4, b"x", 5, b"4"), Ok(13));
    world
}

#[test]
fn c6_the_renames_of_figure_3() {
    let mut world = figure_3();
    assert_eq!(world.push(12), Err(15), "the third follows the first");
    assert_eq!(world.push(13), Err(15), "the fourth follows all");
    assert_eq!(world.clone().push(10), Ok(0), "the first is free");
    assert_eq!(world.push(11), Ok(0), "the second is free");
    assert_eq!((world.push(12), world.push(13)), (Err(15), Err(15)));
    assert_eq!(world.push(10), Ok(0));
    assert_eq!(world.push(13), Err(15), "the third still waits");
    assert_eq!((world.push(12), world.push(13)), (Ok(0), Ok(0)));
}

#[test]
fn c7_fsync_with_3_needed() {
    let mut world = with_file(8);
    world.write(0, 1, 0, b"a").unwrap();
    world.write(0, 1, 1, b"b").unwrap();
    world.write(0, 1, 8, b"c").unwrap();
    assert_eq!(world.clone().fsync(0, 1, 3), (0, 3));
    assert_eq!(world.fsync(0, 1, 2), (17, 2));
}

#[test]
fn c8_a_write_up_to_the_end_passes_and_past_it_gives_12() {
    let mut world = with_file(1024);
    assert_eq!(world.write(0, 1, 1020, b"abcde"), Err(12));
    assert_eq!(world.write(0, 1, 1020, b"abcd"), Ok(3));
}

#[test]
fn c9_one_slot() {
    let mut world = World::new(4, 1, 1);
    assert_eq!(world.create(0, 0, b"a", 1), Ok(1));
    assert_eq!(world.create(0, 0, b"b", 2), Err(13));
    assert_eq!(world.push(1), Ok(0));
    assert_eq!(world.create(0, 0, b"b", 2), Ok(2));
}

#[test]
fn c10_program_31_passes_and_32_gives_3() {
    let mut world = World::new(4, 1, 1);
    assert_eq!(world.lookup(31, b"/"), Ok(0));
    assert_eq!(world.lookup(32, b"/"), Err(3));
}

#[test]
fn c11_set_length_to_the_present_length_follows_overwrites() {
    let mut world = with_file(8);
    assert_eq!(world.write(0, 1, 0, b"ab"), Ok(3));
    assert_eq!(world.setlen(0, 1, 8), Ok(4));
    assert_eq!(world.push(4), Err(15));
    assert_eq!(world.push(3), Ok(0));
    assert_eq!(world.push(4), Ok(0));
}

#[test]
fn c12_a_forder_record() {
    let bytes = [0, 1, 7, 0, 0, 0, 3, 8, 2, 5, 0, 6, 0];
    assert_eq!(read_record(0, &bytes), Ok(Head { next: 13, sequence: 7, program: 3, kind: 8 }));
}
