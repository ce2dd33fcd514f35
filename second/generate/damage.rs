//! Damaged buffers, wrong lengths and wrong numbers. Each damage is done by one poke and undone by another.

use crate::builder::{hex, Builder, BLOCK};
use crate::limits;
use crate::runs;
use second::geometry::{ENTRY_HEAD, LOG_HEAD, SLOT};
use second::log::{DEPENDENTS_AT, RECORD_AT};
use second::names::LONGEST_NAME;
use second::volume::{LENGTH_AT, NAME_AT, NAME_LENGTH_AT, PARENT_AT};

/// Volumes and logs with one or more bytes changed, at places that matter.
pub fn damage(builder: &mut Builder) {
    let (n, b, m) = builder.random.pick(&[(6, 1, 5), (5, 2, 4), (8, 1, 7)]);
    builder.comment(&format!("Damaged buffers, with n = {n}, b = {b}, m = {m}."));
    for _ in 0..3 {
        begin(builder, n, b, m);
        builder.comment("One damage after another, each undone before the next.");
        for _ in 0..45 {
            one_damage(builder);
        }
        builder.say("digest");
    }
}

/// Changes a byte, makes a call or two, and changes it back if they were refused.
fn one_damage(builder: &mut Builder) {
    let (area, at) = spot(builder);
    let old = builder.area(area)[at];
    let any = builder.random.below(256) as u8;
    let new = builder.random.pick(&[0, 1, 2, 3, 46, 47, 255, any, old.wrapping_add(1), old.wrapping_sub(1)]);
    if new == old {
        return;
    }
    let before = builder.player.areas.clone();
    builder.say(&format!("poke {area} {at} {}", hex(&[new])));
    let mut refused = any_call(builder);
    if builder.random.chance(40) {
        refused &= any_call(builder);
    }
    let unchanged = {
        let mut expected = before.clone();
        let index = ["s", "v", "l"].iter().position(|name| *name == area).unwrap_or(0);
        expected[index][at] = new;
        expected == builder.player.areas
    };
    if refused || unchanged {
        builder.say(&format!("poke {area} {at} {}", hex(&[old])));
    } else {
        restore(builder);
    }
}

/// A call that is refused with 2 if the form is broken; says whether it was.
pub fn any_call(builder: &mut Builder) -> bool {
    let program = builder.random.pick(&[0, 1, 2, 31]);
    let line = match builder.random.below(17) {
        0 => "mount".to_string(),
        1 => "cut".to_string(),
        2 => format!("renew {program}"),
        3 => format!("take {program} ={}", "00".repeat(12)),
        4 => format!("lookup {program} =2f"),
        5 => format!("list {program} 0 ={}", "ee".repeat(40)),
        6 => format!("read {program} 1 0 =eeee"),
        7 => format!("create {program} 0 =6e6577 3"),
        8 => format!("mkdir {program} 0 =6e6577 3"),
        9 => format!("{} {program} 0 =61", builder.random.pick(&["rmfile", "rmdir"])),
        10 => format!("rename {program} 0 =61 0 =62"),
        11 => format!("write {program} 1 0 =0102"),
        12 => format!("setlen {program} 1 3"),
        13 => format!("forder {program} =0000"),
        14 => "push 1".to_string(),
        15 => format!("stat {program} 0"),
        _ => format!("fsync {program} 0 9"),
    };
    builder.call(&line) == 2
}

/// A place in one of the areas: a field of an entry, the edge of a file's data, or a field of a slot.
fn spot(builder: &mut Builder) -> (&'static str, usize) {
    let geometry = builder.geometry();
    let area = builder.random.pick(&["s", "v", "l", "l"]);
    if area == "l" {
        let slots = builder.log().map_or(1, |log| log.slots.len().max(1)) as u64;
        let slot = builder.random.below((slots + 1).min(geometry.m as u64)) as usize;
        let slot_head = [0, 1, DEPENDENTS_AT - 1, DEPENDENTS_AT, RECORD_AT - 1];
        let record = [0, 1, 2, 5, 6, 7, 8, 9, 10, 12, 14, 15, 16, 17, 32].map(|at| RECORD_AT + at);
        let within = builder.random.pick(&[slot_head.as_slice(), &record, &[SLOT - 1]].concat());
        let head = builder.random.pick(&[0, 3, 4, LOG_HEAD - 1]);
        return (area, builder.random.weighted(&[(1, head), (9, LOG_HEAD + slot * SLOT + within)]));
    }
    let object = builder.random.below(geometry.n as u64) as usize;
    let length = builder.length_of(object as u64) as usize;
    let data = ENTRY_HEAD + length.min(geometry.longest_file() - 1);
    let name = NAME_AT + builder.view().name(object).len().min(LONGEST_NAME - 1);
    let within = builder.random.pick(&[
        0,
        NAME_LENGTH_AT,
        PARENT_AT,
        PARENT_AT + 1,
        NAME_AT,
        NAME_AT + 1,
        name,
        LENGTH_AT - 1,
        LENGTH_AT,
        LENGTH_AT + 1,
        LENGTH_AT + 2,
        LENGTH_AT + 3,
        data,
        geometry.entry_length() - 1,
    ]);
    (area, object * geometry.entry_length() + within)
}

/// Begins again after a damage that was no damage and let a call through.
fn restore(builder: &mut Builder) {
    let [n, b, m] = builder.player.given;
    builder.comment("That form was good, and a call was accepted: begin again.");
    begin(builder, n, b, m);
}

/// A volume with content, a loss or two and some waiting operations.
fn begin(builder: &mut Builder, n: u64, b: u64, m: u64) {
    builder.begin(n, b, m);
    runs::populate(builder);
    for program in [3, 4] {
        runs::change(builder, program);
    }
    builder.call("cut");
    for program in 0..5 {
        runs::change(builder, program % 3);
    }
    runs::push(builder);
}

/// n, b and m out of range, or not those of the lengths lent.
const WRONG_NUMBERS: [&str; 16] = [
    "1 1 4",
    "0 1 4",
    "257 1 4",
    "7 1 4",
    "5 1 4",
    "6 0 4",
    "6 2 4",
    "6 65 4",
    "6 1 0",
    "6 1 5",
    "6 1 3",
    "6 1 1025",
    "4294967302 1 4",
    "6 4294967297 4",
    "6 1 4294967300",
    "18446744073709551615 18446744073709551615 18446744073709551615",
];

/// The lengths for n = 6, b = 1 and m = 4.
const VOLUME: usize = 6 * (ENTRY_HEAD + BLOCK as usize);
const LOG: usize = LOG_HEAD + 4 * SLOT;

/// Lengths that do not fit these.
const WRONG_LENGTHS: [(usize, usize, usize); 11] = [
    (VOLUME - 1, VOLUME, LOG),
    (VOLUME + 1, VOLUME, LOG),
    (VOLUME, VOLUME - 1, LOG),
    (VOLUME, VOLUME + 1, LOG),
    (VOLUME, VOLUME, LOG - 1),
    (VOLUME, VOLUME, LOG + 1),
    (0, VOLUME, LOG),
    (VOLUME, 0, LOG),
    (VOLUME, VOLUME, 0),
    (0, 0, 0),
    (32_768, 32_768, 32_768),
];

/// Numbers out of range and lengths that do not fit, for every call.
pub fn sizes(builder: &mut Builder) {
    builder.comment("Numbers out of range and lengths that do not fit.");
    builder.begin(6, 1, 4);
    runs::populate(builder);
    for program in 0..3 {
        runs::change(builder, program);
    }
    for numbers in WRONG_NUMBERS {
        builder.comment("Wrong numbers.");
        builder.say(&format!("give {numbers}"));
        calls_of_every_kind(builder);
        builder.say("give 6 1 4");
        builder.call("stat 0 0");
    }
    for (server, view, log) in WRONG_LENGTHS {
        builder.comment("Wrong lengths.");
        builder.say(&format!("size {server} {view} {log}"));
        calls_of_every_kind(builder);
        builder.say("fit");
        builder.call("stat 0 0");
    }
    good_sizes(builder);
    builder.say("digest");
}

/// Everything in order again, and geometries at the limits.
fn good_sizes(builder: &mut Builder) {
    builder.comment("Several calls near the limits with everything in order again.");
    for _ in 0..30 {
        limits::near(builder);
    }
    builder.comment("The smallest geometry, and the largest that the areas hold.");
    for (n, b, m) in [(2, 1, 1), (30, 1, 31), (2, 15, 31), (15, 2, 1)] {
        builder.begin(n, b, m);
        for program in 0..6 {
            runs::change(builder, program);
        }
        builder.call("cut");
    }
}

/// Each call once, with arguments that would be good or bad further down its table; format only where it is refused.
fn calls_of_every_kind(builder: &mut Builder) {
    let lines = [
        "mount",
        "lookup 32 =2f",
        "list 0 0 =eeee",
        "stat 0 0",
        "read 0 1 0 =ee",
        "create 0 0 =6e 5",
        "mkdir 0 0 =6e 5",
        "rmfile 0 0 =61",
        "rmdir 0 0 =61",
        "rename 0 0 =61 0 =62",
        "write 0 1 0 =01",
        "setlen 0 1 2",
        "forder 0 =0000",
        "push 1",
        "fsync 0 0 9",
        "cut",
        "take 0 =",
        "renew 99",
    ];
    for line in lines {
        builder.say(line);
    }
    let [n, b, _] = builder.player.given;
    let entry = ENTRY_HEAD as u64 + BLOCK * (b % 1000);
    let fits = n.checked_mul(entry).is_some_and(|length| length == builder.player.lengths[0] as u64);
    if !fits {
        builder.say("format");
    }
    builder.say("digest");
}
