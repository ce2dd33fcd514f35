//! Long useful runs: logs that fill up, many operations waiting, pushes in random order, cuts, takes, renews
//! and remounts.

use crate::builder::{hex, Builder, BLOCK};
use second::geometry::LONGEST_RECORD;

/// How a run is steered: the weights of what it does, and how many takes it may make (each is long).
pub struct Style {
    pub changes: u64,
    pub questions: u64,
    pub sends: u64,
    pub losses: u64,
    pub cuts: u64,
    pub calls: usize,
    pub takes: usize,
    pub programs: u64,
}

const NAMES: [&[u8]; 5] = [b"a", b"b", b"c", b"task", b"\xff\x01."];

/// A run with everything in it.
pub fn run(builder: &mut Builder) {
    let style = Style { changes: 50, questions: 18, sends: 24, losses: 6, cuts: 2, calls: 260, takes: 4, programs: 5 };
    let (n, b, m) =
        builder.random.pick(&[(6, 1, 4), (8, 2, 6), (10, 1, 8), (12, 1, 12), (7, 3, 5), (30, 1, 10), (5, 5, 6)]);
    builder.comment(&format!("A run with n = {n}, b = {b}, m = {m}."));
    builder.begin(n, b, m);
    populate(builder);
    play(builder, style);
}

/// A run that seldom sends: the log fills up, and chains of waiting operations grow long.
pub fn fill(builder: &mut Builder) {
    let (n, b, m) = builder.random.pick(&[(12, 1, 16), (15, 2, 20), (20, 1, 31), (28, 1, 24), (9, 3, 31)]);
    builder.comment(&format!("A run that lets the log fill up, with n = {n}, b = {b}, m = {m}."));
    builder.begin(n, b, m);
    populate(builder);
    for _ in 0..3 {
        builder.comment("Until the log is full.");
        let style =
            || Style { changes: 84, questions: 13, sends: 3, losses: 0, cuts: 0, calls: 10, takes: 0, programs: 9 };
        for _ in 0..9 {
            play(builder, style());
            if builder.log().is_some_and(|log| log.free_slots(&builder.geometry()) == 0) {
                break;
            }
        }
        builder.comment("Whatever can be sent, in random order.");
        for _ in 0..2 * m {
            if builder.waiting().len() > 2 {
                push(builder);
            }
        }
    }
    builder.comment("More changes, then the link is cut.");
    for _ in 0..20 {
        let program = program(builder, 9);
        change(builder, program);
    }
    builder.call("cut");
    for _ in 0..3 {
        lose(builder, &mut 1, 9);
    }
    builder.say("digest");
}

/// Writes close to each other in two files, so that overwrites meet, or just do not.
pub fn files(builder: &mut Builder) {
    let (n, b, m) = builder.random.pick(&[(4, 2, 18), (3, 1, 12), (5, 2, 24)]);
    builder.comment(&format!("Writes that meet or just do not, with n = {n}, b = {b}, m = {m}."));
    builder.begin(n, b, m);
    let one_block = format!("setlen 0 1 {BLOCK}");
    for line in ["create 0 0 =61 1", "create 0 0 =62 2", &one_block, "setlen 0 2 12", "mount"] {
        builder.say(line);
        send_all(builder);
    }
    for round in 0..130 {
        let program = program(builder, 6);
        let file = builder.random.pick(&[1, 1, 1, 2]);
        let length = builder.length_of(file);
        let line = match builder.random.weighted(&[(60, 0), (8, 1), (4, 2), (4, 3), (35, 4), (4, 5)]) {
            0 => overlap(builder, program, file, length),
            1 => format!("write {program} {file} {length} {}", hex(&[round as u8; 3])),
            2 => format!("setlen {program} {file} {}", builder.random.pick(&[length, 12, BLOCK])),
            3 => format!("forder {program} {}", builder.random.pick(&["=01000200", "=0100", "=0000"])),
            4 => {
                push(builder);
                continue;
            }
            _ => format!("fsync {program} {file} {}", builder.random.pick(&[99, 99, 2])),
        };
        builder.call(&line);
    }
    builder.say("digest");
}

/// A short write near the beginning or the end of the file.
fn overlap(builder: &mut Builder, program: u64, file: u64, length: u64) -> String {
    let start = builder.random.pick(&[0, length.saturating_sub(12)]);
    let offset = start + builder.random.below(10);
    let count = builder.random.between(1, 4) as usize;
    let byte = builder.random.below(256) as u8;
    format!("write {program} {file} {offset} {}", hex(&vec![byte; count]))
}

/// Fills a good part of a new volume with directories and files and sends all of it.
pub fn populate(builder: &mut Builder) {
    builder.comment("Directories and files to begin with, all sent.");
    for object in 1..=builder.n() * 3 / 4 {
        let directories = builder.objects(true);
        let parent = builder.random.pick(&directories);
        let call = builder.random.weighted(&[(5, "create"), (3, "mkdir")]);
        let number = builder.n() - object;
        let name = builder.random.pick(&NAMES);
        builder.say(&format!("{call} 20 {parent} {} {number}", hex(name)));
        if call == "create" && builder.random.chance(70) {
            send_all(builder);
            let length = builder.random.between(4, 12);
            builder.say(&format!("setlen 20 {number} {length}"));
        }
        send_all(builder);
    }
    if builder.random.chance(50) {
        builder.say("mount");
    }
}

pub fn send_all(builder: &mut Builder) {
    for sequence in builder.waiting() {
        builder.say(&format!("push {sequence}"));
    }
}

pub fn play(builder: &mut Builder, style: Style) {
    let mut takes = style.takes;
    for _ in 0..style.calls {
        let choices = [(style.changes, 0), (style.questions, 1), (style.sends, 2), (style.losses, 3), (style.cuts, 4)];
        let program = program(builder, style.programs);
        match builder.random.weighted(&choices) {
            0 => change(builder, program),
            1 => question(builder, program),
            2 => send(builder, program),
            3 => lose(builder, &mut takes, style.programs),
            _ => drop(builder.call("cut")),
        }
    }
    builder.say("digest");
}

/// Mostly a program that is not marked.
pub fn program(builder: &mut Builder, programs: u64) -> u64 {
    let log = builder.log().unwrap_or_default();
    let unmarked: Vec<u64> = (0..programs).filter(|&program| !log.is_marked(program)).collect();
    if unmarked.is_empty() || builder.random.chance(8) {
        return builder.random.below(programs);
    }
    builder.random.pick(&unmarked)
}

/// Mostly one of these, now and then any number up to n.
fn mostly(builder: &mut Builder, good: &[u64]) -> u64 {
    if good.is_empty() || builder.random.chance(4) {
        let n = builder.n();
        return builder.random.between(0, n);
    }
    builder.random.pick(good)
}

fn name(builder: &mut Builder) -> Vec<u8> {
    builder.random.pick(&NAMES).to_vec()
}

/// Mostly the parent and name of a used object.
fn place(builder: &mut Builder) -> (u64, Vec<u8>) {
    let used: Vec<u64> = builder.used().into_iter().filter(|&object| object != 0).collect();
    if used.is_empty() || builder.random.chance(8) {
        let directories = builder.objects(true);
        return (mostly(builder, &directories), name(builder));
    }
    let object = builder.random.pick(&used);
    builder.place_of(object)
}

pub fn change(builder: &mut Builder, program: u64) {
    let line = match builder.random.weighted(&[(24, 0), (8, 1), (18, 2), (40, 3), (8, 4), (9, 5)]) {
        0 => make(builder, program),
        1 => {
            let (parent, name) = place(builder);
            builder.removal(program, parent, &name)
        }
        2 => rename(builder, program),
        3 => write(builder, program),
        4 => {
            let files = builder.objects(false);
            let object = mostly(builder, &files);
            let most = builder.geometry().longest_file() as u64;
            let near = builder.random.below(20);
            let length = builder.random.pick(&[
                near,
                near,
                near,
                builder.length_of(object),
                most,
                most + 1,
                most - 512,
                most - 513,
            ]);
            format!("setlen {program} {object} {length}")
        }
        _ => {
            let used = builder.used();
            let count = builder.random.weighted(&[(5, 1), (6, 2), (3, 3), (1, 8)]);
            let list: Vec<u8> = (0..count).flat_map(|_| (mostly(builder, &used) as u16).to_le_bytes()).collect();
            format!("forder {program} {}", hex(&list))
        }
    };
    builder.call(&line);
}

fn make(builder: &mut Builder, program: u64) -> String {
    let (directories, free) = (builder.objects(true), builder.free());
    let (parent, object, name) = (mostly(builder, &directories), mostly(builder, &free), name(builder));
    let call = builder.random.weighted(&[(6, "create"), (4, "mkdir")]);
    format!("{call} {program} {parent} {} {object}", hex(&name))
}

fn rename(builder: &mut Builder, program: u64) -> String {
    let (parent, old) = place(builder);
    let (to, new) = match builder.random.below(7) {
        0 => place(builder),
        1 | 2 => like(builder, parent, &old),
        3 => (parent, name(builder)),
        4 => (parent, old.clone()),
        _ => {
            let directories = builder.objects(true);
            (mostly(builder, &directories), name(builder))
        }
    };
    format!("rename {program} {parent} {} {to} {}", hex(&old), hex(&new))
}

/// The place of another object of the same kind, for a directory in the same parent.
pub fn like(builder: &mut Builder, parent: u64, name: &[u8]) -> (u64, Vec<u8>) {
    let Some(object) = (parent < builder.n()).then(|| builder.view().seek(parent as usize, name)).flatten() else {
        return place(builder);
    };
    let directory = builder.view().is_directory(object);
    let mut others = builder.objects(directory);
    others.retain(|&other| other != 0 && other != object as u64);
    if directory {
        others.retain(|&other| builder.place_of(other).0 == parent);
    }
    if others.is_empty() {
        return place(builder);
    }
    let other = builder.random.pick(&others);
    builder.place_of(other)
}

fn write(builder: &mut Builder, program: u64) -> String {
    let files = builder.objects(false);
    if files.is_empty() {
        return make(builder, program);
    }
    let object = mostly(builder, &files);
    let length = builder.length_of(object);
    let inside = builder.random.below(length + 2);
    let offset = builder.random.weighted(&[(5, length), (8, inside), (1, 0)]);
    let room = if offset < length { (length - offset).min(6) } else { 6 };
    let count = match builder.random.weighted(&[(50, 0), (8, 3), (2, 1), (1, 2)]) {
        0 => builder.random.between(1, room),
        3 => builder.random.between(1, 6),
        1 => builder.random.pick(&[0, 100, 300]),
        _ => builder.random.pick(&[BLOCK / 2, BLOCK - 1, BLOCK, BLOCK + 1]),
    };
    let start = builder.random.below(256) as u8;
    let data: Vec<u8> = (0..count as usize).map(|at| start.wrapping_add(at as u8)).collect();
    format!("write {program} {object} {offset} {}", hex(&data))
}

pub fn question(builder: &mut Builder, program: u64) {
    let used = builder.used();
    let object = mostly(builder, &used);
    let line = match builder.random.below(4) {
        0 => {
            let target = builder.random.pick(&used);
            let mut path = builder.path_of(target);
            let ending = builder.random.weighted(&[(12, b"".as_slice()), (1, b"/"), (1, b"/a"), (1, b"/."), (1, b"x")]);
            path.extend(ending);
            format!("lookup {program} {}", hex(&path))
        }
        1 => {
            let directories = builder.objects(true);
            let object = mostly(builder, &directories);
            let length = builder.random.between(0, 60) as usize;
            format!("list {program} {object} {}", hex(&vec![0xee; length]))
        }
        2 => format!("stat {program} {object}"),
        _ => {
            let files = builder.objects(false);
            let object = mostly(builder, &files);
            let most = builder.length_of(object) + 1;
            let offset = builder.random.between(0, most);
            let length = builder.random.between(0, 16) as usize;
            format!("read {program} {object} {offset} {}", hex(&vec![0xee; length]))
        }
    };
    builder.call(&line);
}

pub fn push(builder: &mut Builder) {
    let waiting = builder.waiting();
    let sequence = if waiting.is_empty() || builder.random.chance(6) {
        let next = builder.log().map_or(1, |log| log.next as u64);
        builder.random.between(0, next)
    } else if builder.random.chance(35) {
        waiting[0]
    } else {
        builder.random.pick(&waiting)
    };
    builder.call(&format!("push {sequence}"));
}

/// A push, or an fsync whose link seldom falls; with nothing to send, mostly a change.
pub fn send(builder: &mut Builder, program: u64) {
    if builder.waiting().is_empty() && builder.random.chance(85) {
        return change(builder, program);
    }
    if builder.random.chance(86) {
        return push(builder);
    }
    let used = builder.used();
    let object = mostly(builder, &used);
    let sends = builder.random.weighted(&[(1, 0), (1, 1), (1, 2), (3, 4), (9, 99)]);
    builder.call(&format!("fsync {program} {object} {sends}"));
}

/// Takes and renewals of a program, and now and then another mount.
pub fn lose(builder: &mut Builder, takes: &mut usize, programs: u64) {
    let log = builder.log().unwrap_or_default();
    let lost: Vec<u64> = (0..programs).filter(|&program| log.first_loss(program).is_some()).collect();
    let marked: Vec<u64> = (0..programs).filter(|&program| log.is_marked(program)).collect();
    let any = builder.random.below(programs);
    match (*takes > 0 && !lost.is_empty(), marked.is_empty()) {
        (true, _) => {
            *takes -= 1;
            let program = builder.random.pick(&lost);
            builder.call(&format!("take {program} {}", hex(&[0xee; LONGEST_RECORD])));
            builder.call(&format!("take {program} {}", hex(&[0xee; 30])));
            builder.call(&format!("renew {program}"));
        }
        (false, false) if lost.is_empty() || builder.random.chance(50) => {
            let program = builder.random.pick(&marked);
            builder.call(&format!("renew {program}"));
        }
        (false, true) if !builder.random.chance(20) => {
            builder.call(&format!("take {any} {}", hex(&[0xee; 8])));
            builder.call(&format!("renew {any}"));
        }
        _ => {
            builder.comment("Another mount drops the log unseen.");
            builder.call("mount");
        }
    }
}
