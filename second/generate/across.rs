//! Writes across the end of a file (document 02, K1): with few free slots, with few numbers left, and at the ends
//! of blocks and of b; and what becomes of their two operations.

use crate::builder::{hex, Builder, BLOCK};
use crate::runs;
use second::geometry::LONGEST_RECORD;
use second::log::{Slot, State};

/// The files of the volume; 3 is an empty directory.
const FILES: [u64; 2] = [1, 2];
/// The programs that write and ask; others fill the log.
const PROGRAMS: u64 = 4;
/// The geometries, which the seeds take in turn.
const GEOMETRIES: [(u64, u64, u64); 6] = [(4, 1, 2), (4, 1, 3), (5, 2, 4), (4, 3, 5), (6, 1, 6), (5, 2, 8)];

pub fn across(builder: &mut Builder) {
    let (n, b, m) = GEOMETRIES[(builder.seed % GEOMETRIES.len() as u64) as usize];
    builder.comment(&format!("Writes across the end of a file, with n = {n}, b = {b}, m = {m}."));
    builder.begin(n, b, m);
    for line in ["create 0 0 =61 1", "create 0 0 =62 2", "mkdir 0 0 =64 3"] {
        builder.say(line);
        runs::send_all(builder);
    }
    let mut takes = 1;
    for _ in 0..9 {
        scene(builder, &mut takes);
    }
}

/// Files of new lengths, a crowded log, a write across the end, whatever comes next, and an end of it all.
fn scene(builder: &mut Builder, takes: &mut usize) {
    builder.comment("Another mount, and other lengths, all sent.");
    builder.say("mount");
    for file in FILES {
        set_up(builder, file);
    }
    let m = builder.geometry().m;
    let free = builder.random.weighted(&[(3, 0), (4, 1), (6, 2), (4, 3), (4, m)]).min(m);
    builder.comment(&format!("Free slots: {free}."));
    crowd(builder, m - free);
    if builder.random.chance(40) {
        let next = builder.random.weighted(&[
            (2, 4_294_967_292_u32),
            (4, 4_294_967_293),
            (4, 4_294_967_294),
            (2, 4_294_967_295),
        ]);
        builder.comment(&format!("The next number is {next}."));
        builder.poke("l", 0, &next.to_le_bytes());
    }
    builder.comment("Writes across the end.");
    let file = builder.random.pick(&FILES);
    insist(builder, file);
    for _ in 0..builder.random.below(7) {
        go_on(builder, file);
    }
    finish(builder, file);
    look_back(builder, file, takes);
}

/// Gives a file a length that is near an end of a block or short, and some bytes other than zero at its end.
fn set_up(builder: &mut Builder, file: u64) {
    let most = builder.geometry().longest_file() as u64;
    let short = builder.random.between(1, 16);
    let near_end = most - builder.random.between(1, 8);
    let next_block = if most > BLOCK { BLOCK + 3 } else { short };
    let at_end = builder.random.pick(&[BLOCK, most]);
    let lengths = [(4, short), (3, near_end), (1, BLOCK - 4), (1, BLOCK - 1), (1, next_block), (1, at_end)];
    let length = builder.random.weighted(&lengths);
    builder.say(&format!("setlen 0 {file} {length}"));
    runs::send_all(builder);
    let count = builder.random.between(1, 4).min(length);
    if (length - count) / BLOCK == (length - 1) / BLOCK {
        let line = write(builder, 0, file, length - count, count);
        builder.say(&line);
        runs::send_all(builder);
    }
}

/// Uses so many slots: lost ones first, then waiting ones, on the files or not.
fn crowd(builder: &mut Builder, used: usize) {
    let lost = if builder.random.chance(40) { builder.random.below(used as u64 + 1) as usize } else { 0 };
    for at in 0..used {
        let program = if at < lost { 12 + at % 2 } else { 8 + at % 2 };
        let length = builder.length_of(2);
        let line = match builder.random.below(6) {
            0 => format!("forder {program} =0000"),
            1 => format!("forder {program} =0100"),
            2 => format!("forder {program} =01000200"),
            3 => format!("forder {program} =03000000"),
            4 => write(builder, program as u64, 1, 0, 1),
            _ => format!("setlen {program} 2 {length}"),
        };
        builder.call(&line);
        if at + 1 == lost {
            builder.call("cut");
        }
    }
}

/// A write of rising bytes, so that a byte at a wrong place shows.
fn write(builder: &mut Builder, program: u64, file: u64, offset: u64, count: u64) -> String {
    let start = builder.random.below(256) as u8;
    let data: Vec<u8> = (0..count).map(|at| start.wrapping_add(at as u8)).collect();
    format!("write {program} {file} {offset} {}", hex(&data))
}

/// A write that begins in the last block before the length and ends past the length: mostly within the block, also
/// just at its end, and one byte past it.
fn write_across(builder: &mut Builder, program: u64, file: u64) -> String {
    let length = builder.length_of(file);
    if length == 0 {
        return write(builder, program, file, 0, 2);
    }
    let block = (length - 1) / BLOCK * BLOCK;
    let room = block + BLOCK - length;
    let old = builder.random.between(1, (length - block).min(7));
    let some = builder.random.between(1, room.clamp(1, 6));
    let few = if room < 30 { 1 } else { 0 };
    let new = builder.random.weighted(&[(6, some), (2, 1), (2 * few, room), (few, room + 1)]);
    write(builder, program, file, length - old, old + new)
}

/// Tries a write across the end. While slots are missing, sends what waits, one after another, and tries again; where
/// the range is bad or numbers are missing, tries a plain write.
fn insist(builder: &mut Builder, file: u64) {
    for _ in 0..4 {
        let program = runs::program(builder, PROGRAMS);
        let line = write_across(builder, program, file);
        let code = builder.call(&line);
        builder.say("digest");
        let waiting = builder.waiting();
        if code == 13 && !waiting.is_empty() {
            builder.call(&format!("push {}", waiting[0]));
        } else if code == 12 || code == 14 {
            plain(builder, file);
        } else {
            return;
        }
    }
}

/// A write that is one operation: near the end, up to the end, or at the end.
fn plain(builder: &mut Builder, file: u64) {
    let program = runs::program(builder, PROGRAMS);
    let length = builder.length_of(file);
    let old = builder.random.between(0, length.min(7));
    let count = if old == 0 { 2 } else { builder.random.between(1, old) };
    let line = write(builder, program, file, length - old, count);
    builder.call(&line);
}

/// Whatever comes after a write across the end: more of them, other changes, questions, sends.
fn go_on(builder: &mut Builder, file: u64) {
    let program = runs::program(builder, PROGRAMS);
    let length = builder.length_of(file);
    let line = match builder.random.weighted(&[(5, 0), (3, 1), (2, 2), (2, 3), (1, 4), (4, 5), (5, 6), (1, 7)]) {
        0 => write_across(builder, program, file),
        1 => return plain(builder, file),
        2 => {
            let shorter = length.saturating_sub(builder.random.below(5));
            format!("setlen {program} {file} {shorter}")
        }
        3 => format!("forder {program} {}", builder.random.pick(&["=0100", "=0200", "=01000200", "=0000"])),
        4 => {
            let (parent, name) = builder.place_of(file);
            format!("rename {program} {parent} {} {} {}", hex(&name), 3 - parent, hex(&name))
        }
        5 => {
            let offset = length.saturating_sub(9);
            builder.random.pick(&[
                format!("read {program} {file} {offset} {}", hex(&[0xee; 16])),
                format!("stat {program} {file}"),
            ])
        }
        6 => return push(builder),
        _ => {
            let other = builder.random.pick(&FILES);
            write_across(builder, program, other)
        }
    };
    builder.call(&line);
}

/// The last that waits, or any.
fn push(builder: &mut Builder) {
    let waiting = builder.waiting();
    match waiting.last() {
        Some(last) if builder.random.chance(40) => drop(builder.call(&format!("push {last}"))),
        _ => runs::push(builder),
    }
}

/// Sends all in random order, or sends some and loses the rest.
fn finish(builder: &mut Builder, file: u64) {
    let program = runs::program(builder, PROGRAMS);
    let d = builder.needed(file);
    match builder.random.below(6) {
        0 => {
            builder.comment("All is sent, in random order.");
            for _ in 0..40 {
                if !builder.waiting().is_empty() {
                    push(builder);
                }
            }
        }
        1 => {
            builder.comment("All but the last is sent, then the link is cut.");
            builder.call(&format!("push {}", builder.waiting().last().unwrap_or(&0)));
            for sequence in builder.waiting().iter().rev().skip(1).rev() {
                builder.call(&format!("push {sequence}"));
            }
            builder.call("cut");
        }
        2 => {
            builder.comment("The link is cut.");
            builder.call("cut");
        }
        3 => {
            builder.comment("What the file needs is sent.");
            builder.call(&format!("fsync {program} {file} {d}"));
        }
        4 => {
            builder.comment("The link carries one send less than the file needs.");
            builder.call(&format!("fsync {program} {file} {}", d.saturating_sub(1)));
        }
        _ => {
            builder.comment("The link carries some sends.");
            let sends = builder.random.between(0, d);
            builder.call(&format!("fsync {program} {file} {sends}"));
        }
    }
    builder.say("digest");
}

/// What is left: who is marked, the file's end, the first slots, and the losses of a program.
fn look_back(builder: &mut Builder, file: u64, takes: &mut usize) {
    for program in 0..PROGRAMS {
        builder.say(&format!("stat {program} {file}"));
    }
    let offset = builder.length_of(file).saturating_sub(9);
    builder.say(&format!("read 20 {file} {offset} {}", hex(&[0xee; 10])));
    builder.say("show l 0 40");
    let log = builder.log().unwrap_or_default();
    let own = |slot: &&Slot, program: u64| slot.state == State::Lost && slot.record.program as u64 == program;
    let losses = |program: u64| log.slots.iter().filter(|slot| own(slot, program)).count();
    let losing: Vec<u64> = (0..PROGRAMS).filter(|&program| losses(program) > 1).collect();
    if *takes > 0 && !losing.is_empty() {
        *takes -= 1;
        let program = builder.random.pick(&losing);
        builder.say(&format!("renew {program}"));
        for _ in 0..2 {
            builder.say(&format!("take {program} {}", hex(&[0xee; LONGEST_RECORD])));
        }
        builder.say(&format!("renew {program}"));
        let line = write_across(builder, program, file);
        builder.say(&line);
    }
    builder.say("digest");
}
