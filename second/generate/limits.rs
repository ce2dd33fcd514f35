//! Each call's arguments at and around every limit of document 01.

use crate::builder::{hex, Builder, BLOCK};
use crate::runs;
use second::names::{LONGEST_NAME, LONGEST_PATH};

/// Numbers around the limits of 1, 2, 4 and 8 bytes.
const WIDE: [u64; 10] =
    [255, 256, 65_535, 65_536, 4_294_967_294, 4_294_967_295, 4_294_967_296, 4_294_967_297, u64::MAX - 1, u64::MAX];

/// Sets up a volume with something of everything, then makes calls with arguments near the limits, and puts the
/// state back from time to time.
pub fn limits(builder: &mut Builder) {
    let (n, b, m) = builder.random.pick(&[(9, 2, 7), (8, 1, 6), (10, 3, 9), (2, 1, 1), (2, 15, 2), (30, 1, 31)]);
    builder.comment(&format!("Arguments at and around their limits, with n = {n}, b = {b}, m = {m}."));
    for _ in 0..5 {
        builder.begin(n, b, m);
        runs::populate(builder);
        for program in 0..8 {
            runs::change(builder, program % 4);
        }
        for _ in 0..4 {
            runs::push(builder);
        }
        builder.comment("Calls near the limits.");
        for _ in 0..55 {
            near(builder);
        }
        builder.comment("The next number near its end.");
        spend(builder);
        builder.say("digest");
    }
}

/// One call with arguments near their limits.
pub fn near(builder: &mut Builder) {
    let program = program(builder);
    let line = match builder.random.below(17) {
        0 => format!("lookup {program} {}", hex(&path(builder))),
        1 => list(builder, program),
        2 => format!("stat {program} {}", object(builder)),
        3 => read(builder, program),
        4 => format!("create {program} {} {} {}", object(builder), hex(&name(builder)), object(builder)),
        5 => format!("mkdir {program} {} {} {}", object(builder), hex(&name(builder)), object(builder)),
        6 => {
            let (parent, name) = (object(builder), name(builder));
            builder.removal(program, parent, &name)
        }
        7 | 8 => {
            let (from, old) = (object(builder), name(builder));
            format!("rename {program} {from} {} {} {}", hex(&old), object(builder), hex(&name(builder)))
        }
        9 | 10 => write(builder, program),
        11 => {
            let object = object(builder);
            format!("setlen {program} {object} {}", offset(builder, object))
        }
        12 => format!("forder {program} {}", hex(&objects(builder))),
        13 => push(builder),
        14 => fsync(builder, program),
        15 => format!("take {program} {}", hex(&vec![0xee; builder.random.pick(&[0, 8, 40]) as usize])),
        _ => format!("renew {program}"),
    };
    builder.call(&line);
}

/// A program near 32, mostly a good one.
fn program(builder: &mut Builder) -> u64 {
    if builder.random.chance(88) {
        return builder.random.pick(&[0, 1, 2, 30, 31]);
    }
    builder.random.pick(&[32, 33, 63, 64, 255, 256, 65_536, 4_294_967_295, 4_294_967_296, u64::MAX])
}

/// An object number near n, mostly a good one.
fn object(builder: &mut Builder) -> u64 {
    let n = builder.n();
    match builder.random.below(12) {
        0 => builder.random.pick(&[n, n + 1]),
        1 => builder.random.pick(&WIDE),
        2 | 3 => builder.random.pick(&[0, 1, n - 1]),
        4 => builder.random.below(n),
        _ => builder.random.pick(&builder.used()),
    }
}

/// A name near its limits, or one that is in use.
fn name(builder: &mut Builder) -> Vec<u8> {
    let used = builder.used();
    let object = builder.random.pick(&used);
    let long = |count: usize| vec![b'n'; count];
    match builder.random.below(14) {
        0 => Vec::new(),
        1 => builder.random.pick(&[b".".to_vec(), b"..".to_vec()]),
        2 => builder.random.pick(&[b"...".to_vec(), b".a".to_vec(), b" ".to_vec(), vec![255], vec![1], vec![46, 0]]),
        3 => long(LONGEST_NAME),
        4 => long(LONGEST_NAME + 1),
        5 => [long(LONGEST_NAME), vec![0]].concat(),
        6 => [vec![47], long(LONGEST_NAME)].concat(),
        7 => builder.random.pick(&[
            b"a/b".to_vec(),
            vec![0],
            b"/".to_vec(),
            b"a\0".to_vec(),
            long(LONGEST_NAME + 2),
            long(255),
            long(256),
        ]),
        8 => builder.random.pick(&[b"a".to_vec(), b"b".to_vec(), vec![46], vec![48], b"new".to_vec()]),
        _ => builder.place_of(object).1,
    }
}

fn path(builder: &mut Builder) -> Vec<u8> {
    let used = builder.used();
    let target = builder.random.pick(&used);
    let good = builder.path_of(target);
    match builder.random.below(12) {
        0 => Vec::new(),
        1 => good[1..].to_vec(),
        2 => builder.random.pick(&[b"/".to_vec(), b"//".to_vec(), b"/.".to_vec(), b"/..".to_vec(), b"/\0".to_vec()]),
        3 => {
            let length = builder.random.pick(&[LONGEST_PATH - 1, LONGEST_PATH, LONGEST_PATH + 1, LONGEST_PATH + 2]);
            b"/a".iter().copied().cycle().take(length).collect()
        }
        4 | 5 => [good, b"/".to_vec(), name(builder)].concat(),
        6 => [good, b"/".to_vec()].concat(),
        7 => [b"/".to_vec(), name(builder), good].concat(),
        _ => good,
    }
}

fn list(builder: &mut Builder, program: u64) -> String {
    let object = object(builder);
    let need = |child: &usize| 4 + builder.view().name(*child).len();
    let full: usize =
        if object < builder.n() { builder.view().children(object as usize).iter().map(need).sum() } else { 3 };
    let length = builder.random.pick(&[full, full, full + 1, full.saturating_sub(1), 0]);
    format!("list {program} {object} {}", hex(&vec![0xee; length]))
}

/// An offset or a length near those of the file, of its blocks and of b.
fn offset(builder: &mut Builder, object: u64) -> u64 {
    let most = builder.geometry().longest_file() as u64;
    let length = builder.length_of(object);
    match builder.random.below(8) {
        0 => builder.random.pick(&[BLOCK - 1, BLOCK, BLOCK + 1, 2 * BLOCK - 1, 2 * BLOCK]),
        1 => builder.random.pick(&[most - 1, most, most + 1]),
        2 => builder.random.pick(&WIDE),
        3 => builder.random.pick(&[0, 1, length / 2]),
        _ => builder.random.pick(&[length.saturating_sub(1), length, length, length + 1]),
    }
}

fn read(builder: &mut Builder, program: u64) -> String {
    let object = object(builder);
    let offset = offset(builder, object);
    let length = builder.random.pick(&[0, 1, 2, 9, 40]) as usize;
    format!("read {program} {object} {offset} {}", hex(&vec![0xee; length]))
}

/// A write that ends near the length, a block's end or b's.
fn write(builder: &mut Builder, program: u64) -> String {
    let object = object(builder);
    let offset = offset(builder, object);
    let length = builder.length_of(object);
    let to_length = length.saturating_sub(offset).min(BLOCK + 1);
    let to_block = BLOCK - offset % BLOCK;
    let long = builder.random.chance(12);
    let short = builder.random.between(0, 4);
    let count = if long {
        builder.random.pick(&[to_block, to_block + 1, to_block - 1, BLOCK, BLOCK + 1, to_length, to_length + 1])
    } else {
        builder.random.pick(&[short, to_length.min(40), (to_length + 1).min(41), to_length.saturating_sub(1).min(39)])
    };
    format!("write {program} {object} {offset} {}", hex(&vec![0xab; count as usize]))
}

fn objects(builder: &mut Builder) -> Vec<u8> {
    let used = builder.used();
    let mut list: Vec<u64> = Vec::new();
    let count = builder.random.pick(&[0, 1, 1, 2, 2, 3, 7, 8, 9]).min(used.len());
    used.iter().take(count).for_each(|&object| list.push(object));
    if count > 0 && builder.random.chance(40) {
        let at = builder.random.below(count as u64) as usize;
        list[at] = object(builder);
    }
    let mut bytes: Vec<u8> = list.iter().flat_map(|&object| (object as u16).to_le_bytes()).collect();
    if builder.random.chance(10) {
        bytes.push(0);
    }
    bytes
}

fn push(builder: &mut Builder) -> String {
    let next = builder.log().map_or(1, |log| log.next as u64);
    let mut choices = vec![0, next - 1, next, 4_294_967_296 + next - 1, u64::MAX];
    let waiting = builder.waiting();
    (0..3).for_each(|_| choices.extend(&waiting));
    format!("push {}", builder.random.pick(&choices))
}

/// Sends around the d that an fsync needs.
fn fsync(builder: &mut Builder, program: u64) -> String {
    let object = object(builder);
    let d = builder.needed(object);
    let sends = builder.random.pick(&[d, d, d + 1, d.saturating_sub(1), 0, u64::MAX]);
    format!("fsync {program} {object} {sends}")
}

/// Pokes the next number close to its end and goes on until it is spent.
fn spend(builder: &mut Builder) {
    builder.say("mount");
    builder.say("poke l 0 =fdffffff");
    for program in [0, 1, 2] {
        builder.call(&format!("forder {program} =0000"));
    }
    builder.call("push 4294967294");
    builder.call("push 4294967293");
    for _ in 0..6 {
        runs::change(builder, 3);
    }
    builder.call("forder 3 =0000");
    builder.call("fsync 3 0 5");
}
