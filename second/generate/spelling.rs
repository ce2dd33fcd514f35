//! The spelling of names (document 02, K2): calls that spell the names of a volume in other ways, renames that change
//! only the case, names that differ in a byte that is no letter, volumes with two spellings of one name, and waiting
//! operations that spell a name of the server in another way.

use crate::builder::{hex, Builder};
use crate::damage::any_call;
use crate::runs;
use second::geometry::LOG_HEAD;
use second::names::{valid_name, LONGEST_NAME};
use second::record::{Kind, Record};
use second::volume::{LENGTH_AT, NAME_AT, NAME_LENGTH_AT, PARENT_AT};

/// Some of these differ by 32, or by the highest bit, in a byte that is no letter.
const NAMES: [&[u8]; 16] = [
    b"a", b"Z", b"Ab", b"aC", b"task", b"Tasks", b"@", b"`", b"k[", b"K{", b"x0", b"X\x10", b"\xc0e", b"\xe0E", b"_q",
    b"\x7fQ",
];
const PROGRAMS: u64 = 4;
/// The geometries, which the seeds take in turn.
const GEOMETRIES: [(u64, u64, u64); 4] = [(7, 1, 6), (8, 1, 4), (12, 1, 8), (9, 2, 5)];

pub fn spelling(builder: &mut Builder) {
    let (n, b, m) = GEOMETRIES[(builder.seed % GEOMETRIES.len() as u64) as usize];
    builder.comment(&format!("Names in other spellings, with n = {n}, b = {b}, m = {m}."));
    builder.begin(n, b, m);
    for _ in 0..1 + builder.seed % 6 {
        mount(builder);
        populate(builder);
        builder.comment("Calls that spell names in other ways.");
        for _ in 0..builder.random.between(16, 40) {
            talk(builder);
        }
        builder.say("digest");
        builder.comment("Two spellings of one name in a directory, or two names that only look so.");
        for _ in 0..3 {
            twins(builder);
        }
        builder.comment("A waiting operation that spells names in other ways.");
        for _ in 0..3 {
            waiting(builder);
        }
    }
}

/// Mounts; where a damage was not undone, begins again.
fn mount(builder: &mut Builder) {
    if builder.say("mount") != 0 {
        builder.comment("Begin again.");
        builder.say("format");
        builder.say("mount");
    }
}

/// Files and directories until three numbers are free, all sent; the first in the root.
fn populate(builder: &mut Builder) {
    builder.comment("Names to begin with, all sent.");
    for _ in 0..builder.n() {
        let free = builder.free();
        if free.len() <= 3 {
            return;
        }
        let crowded = free.len() as u64 + 4 < builder.n();
        let parent = if crowded { directory(builder) } else { 0 };
        let call = builder.random.pick(&["create", "create", "mkdir"]);
        let name = any_name(builder);
        builder.say(&format!("{call} 0 {parent} {} {}", hex(&name), free[0]));
        runs::send_all(builder);
    }
}

/// The text with the case of some letters changed.
fn respell(builder: &mut Builder, text: &[u8]) -> Vec<u8> {
    let share = builder.random.pick(&[15, 50, 100]);
    let other = |byte: &u8, random: &mut crate::random::Random| match byte {
        b'A'..=b'Z' | b'a'..=b'z' if random.chance(share) => byte ^ 32,
        _ => *byte,
    };
    text.iter().map(|byte| other(byte, &mut builder.random)).collect()
}

/// The name with one byte changed that must not make it the same: by 32 where it is no letter, or in its highest bit;
/// or one byte longer or shorter. The name itself if that is no name.
fn near(builder: &mut Builder, name: &[u8]) -> Vec<u8> {
    let mut changed = name.to_vec();
    let at = builder.random.below(name.len() as u64) as usize;
    match builder.random.below(5) {
        0 => changed.push(b'a'),
        1 => drop(changed.pop()),
        _ if changed[at].is_ascii_alphabetic() => changed[at] ^= builder.random.pick(&[128, 64, 1]),
        _ => changed[at] ^= 32,
    }
    if valid_name(&changed) {
        changed
    } else {
        name.to_vec()
    }
}

/// A name of the pool in some spelling; seldom a longest one.
fn any_name(builder: &mut Builder) -> Vec<u8> {
    let longest = builder.random.chance(1);
    let name = if longest { vec![b'q'; LONGEST_NAME] } else { builder.random.pick(&NAMES).to_vec() };
    respell(builder, &name)
}

/// A directory of the view.
fn directory(builder: &mut Builder) -> u64 {
    let directories = builder.objects(true);
    builder.random.pick(&directories)
}

/// The place of an object, its name mostly in another spelling, now and then almost its name.
fn place(builder: &mut Builder, object: u64) -> (u64, Vec<u8>) {
    let (parent, name) = builder.place_of(object);
    let name = if builder.random.chance(10) { near(builder, &name) } else { name };
    (parent, respell(builder, &name))
}

/// A used object other than the root.
fn someone(builder: &mut Builder) -> Option<u64> {
    let used: Vec<u64> = builder.used().into_iter().filter(|&object| object != 0).collect();
    (!used.is_empty()).then(|| builder.random.pick(&used))
}

fn talk(builder: &mut Builder) {
    let program = runs::program(builder, PROGRAMS);
    let Some(object) = someone(builder) else { return make(builder, program) };
    match builder.random.weighted(&[(10, 0), (16, 1), (4, 2), (24, 3), (4, 4), (3, 5), (20, 6), (4, 7), (2, 8), (3, 9)])
    {
        0 => {
            let (parent, name) = place(builder, object);
            let above = if parent == 0 { Vec::new() } else { builder.path_of(parent) };
            let path = [respell(builder, &above).as_slice(), b"/", &name].concat();
            builder.call(&format!("lookup {program} {}", hex(&path)));
        }
        1 => make(builder, program),
        2 => {
            let (parent, name) = place(builder, object);
            let line = builder.removal(program, parent, &name);
            builder.call(&line);
        }
        3 => rename(builder, program, object),
        4 => {
            let length = builder.length_of(object);
            builder.call(&format!("write {program} {object} {length} =61"));
        }
        5 => {
            let directory = directory(builder);
            builder.call(&format!("list {program} {directory} {}", hex(&[0xee; 40])));
        }
        6 => runs::push(builder),
        7 => {
            let sends = builder.random.pick(&[1, 2, 9, 9]);
            builder.call(&format!("fsync {program} {object} {sends}"));
        }
        8 => drop(builder.call("cut")),
        _ => runs::lose(builder, &mut 0, PROGRAMS),
    }
}

/// A create or a make directory: of a new name, of one that is there, or of one that almost is.
fn make(builder: &mut Builder, program: u64) {
    let free = builder.free();
    let number = if free.is_empty() { 1 } else { builder.random.pick(&free) };
    let call = builder.random.pick(&["create", "create", "mkdir"]);
    let (parent, name) = match someone(builder) {
        Some(object) if builder.random.chance(60) => place(builder, object),
        _ => (directory(builder), any_name(builder)),
    };
    builder.call(&format!("{call} {program} {parent} {} {number}", hex(&name)));
}

/// A rename of an object found in some spelling: only of its case, to its stored spelling, onto another object in
/// some spelling, into another directory with a spelling of its own name, or to any name.
fn rename(builder: &mut Builder, program: u64, object: u64) {
    let (parent, stored) = builder.place_of(object);
    let (_, typed) = place(builder, object);
    let (to, new) = match builder.random.weighted(&[(6, 0), (2, 1), (5, 2), (2, 3), (2, 4), (1, 5)]) {
        0 => (parent, respell(builder, &stored)),
        1 => (parent, stored.clone()),
        2 => {
            let (to, name) = runs::like(builder, parent, &stored);
            (to, respell(builder, &name))
        }
        3 => (directory(builder), respell(builder, &stored)),
        4 => (directory(builder), any_name(builder)),
        _ => (parent, near(builder, &stored)),
    };
    builder.call(&format!("rename {program} {parent} {} {to} {}", hex(&typed), hex(&new)));
}

/// Two children of one directory of the view, in any order.
fn siblings(builder: &mut Builder) -> Option<(u64, u64)> {
    let used: Vec<u64> = builder.used().into_iter().filter(|&object| object != 0).collect();
    let together = |one: u64, other: u64| one != other && builder.place_of(one).0 == builder.place_of(other).0;
    let pairs: Vec<(u64, u64)> = used
        .iter()
        .flat_map(|&one| used.iter().map(move |&other| (one, other)))
        .filter(|&(a, b)| together(a, b))
        .collect();
    (!pairs.is_empty()).then(|| builder.random.pick(&pairs))
}

/// Pokes a spelling of one name, or almost that name, over the name of another entry of the same directory, in the
/// server volume or in the view. Some calls later it is mounted, and undone unless the server keeps it.
fn twins(builder: &mut Builder) {
    mount(builder);
    let Some((one, other)) = siblings(builder) else { return };
    let (_, name) = builder.place_of(one);
    let name = if builder.random.chance(40) { near(builder, &name) } else { name };
    let name = respell(builder, &name);
    let area = builder.random.pick(&["s", "s", "v"]);
    let at = other as usize * builder.geometry().entry_length();
    let old = builder.area(area)[at..at + LENGTH_AT].to_vec();
    let mut new = [&old[..NAME_LENGTH_AT], &[name.len() as u8], &old[PARENT_AT..NAME_AT], &name].concat();
    new.resize((NAME_AT + old[NAME_LENGTH_AT] as usize).max(new.len()), 0);
    builder.say(&format!("poke {area} {at} {}", hex(&new)));
    for _ in 0..builder.random.between(1, 3) {
        any_call(builder);
    }
    let kept = builder.call("mount") == 0 && area == "s";
    if kept {
        let path = builder.path_of(other);
        let path = respell(builder, &path);
        builder.call(&format!("lookup 0 {}", hex(&path)));
    } else {
        builder.say(&format!("poke {area} {at} {}", hex(&old[..new.len()])));
    }
}

/// Pokes one waiting operation over the server volume as it stands, and sends it.
fn waiting(builder: &mut Builder) {
    mount(builder);
    let Some(object) = someone(builder) else { return };
    let (parent, stored) = builder.place_of(object);
    let (_, typed) = place(builder, object);
    let free = builder.free();
    let new = if free.is_empty() { object } else { builder.random.pick(&free) };
    let named = |kind, object: u64| Record {
        object: object as u16,
        parent: parent as u16,
        name: typed.clone(),
        ..Record::blank(kind)
    };
    let mut record = match builder.random.below(7) {
        0 => named(Kind::Create, new),
        1 => named(Kind::MakeDirectory, new),
        2 => named(Kind::Remove, object),
        _ => {
            let (to, name) = match builder.random.below(3) {
                0 => (parent, stored.clone()),
                _ => runs::like(builder, parent, &stored),
            };
            let there = (to < builder.n()).then(|| builder.view().seek(to as usize, &name)).flatten();
            let displaced = there.map(|there| there as u16).filter(|&there| there as u64 != object);
            let displaced = if builder.random.chance(25) { None } else { displaced };
            let second_name = respell(builder, &name);
            Record { second_parent: to as u16, second_name, displaced, ..named(Kind::Rename, object) }
        }
    };
    (record.sequence, record.program) = (3, 1);
    builder.say("poke l 0 =04");
    builder.poke("l", LOG_HEAD, &[&[1, 0, 0, 0, 2, 0, 0, 0], record.to_bytes().as_slice()].concat());
    let line = builder.random.pick(&["push 3".to_string(), "push 3".to_string(), format!("fsync 2 {object} 1")]);
    builder.say(&line);
    builder.say("digest");
}
