//! Every pair of kinds in the precedence rule: ordered directly, through a chain, or free, with the earlier one
//! waiting and with it sent.
//!
//! Every pair starts from the same volume. Directory 1 (d) holds the file 3 (x) and the file 5 (v), both of 8
//! bytes; directory 2 (e) holds the files 4 (x) and 6 (v) likewise. Objects 7 to 11 are free.

use crate::builder::{hex, Builder};
use second::record::Kind;

/// The two halves of the volume, which share no object.
#[derive(Clone, Copy)]
struct Side {
    directory: u64,
    file: u64,
    fresh: u64,
}

const FIRST: Side = Side { directory: 1, file: 3, fresh: 7 };
const SECOND: Side = Side { directory: 2, file: 4, fresh: 8 };

pub fn pairs(builder: &mut Builder) {
    for earlier in Kind::ALL {
        for later in Kind::ALL {
            direct(builder, earlier, later);
            chain(builder, earlier, later);
            chain_by_fsync(builder, earlier, later);
            free(builder, earlier, later, false);
            free(builder, earlier, later, true);
        }
    }
    loose(builder);
}

/// Sets the volume up and sends it, leaving an empty log whose next number is known.
fn set_up(builder: &mut Builder, what: &str) -> Vec<u64> {
    builder.comment(what);
    builder.begin(12, 1, 15);
    for line in [
        "mkdir 0 0 =64 1",
        "mkdir 0 0 =65 2",
        "create 0 1 =78 3",
        "create 0 2 =78 4",
        "create 0 1 =76 5",
        "create 0 2 =76 6",
        "setlen 0 3 8",
        "setlen 0 4 8",
        "forder 0 =0000010002000300040005000600",
        "fsync 0 0 99",
    ] {
        builder.say(line);
    }
    Vec::new()
}

/// Makes a change and remembers its number.
fn issue(builder: &mut Builder, numbers: &mut Vec<u64>, line: &str) {
    builder.say(line);
    numbers.extend(builder.waiting().last());
    numbers.dedup();
}

/// The line of an operation of that kind on one side: in its directory, or on its file.
fn line(kind: Kind, side: Side, program: u64) -> String {
    let Side { directory, file, fresh } = side;
    match kind {
        Kind::Create => format!("create {program} {directory} =6e {fresh}"),
        Kind::MakeDirectory => format!("mkdir {program} {directory} =6e {fresh}"),
        Kind::Remove => format!("rmfile {program} {directory} =78"),
        Kind::Rename => format!("rename {program} {directory} =78 {directory} =79"),
        Kind::Overwrite => format!("write {program} {file} 2 =414243"),
        Kind::Append => format!("write {program} {file} 8 =4142"),
        Kind::SetLength => format!("setlen {program} {file} 8"),
        Kind::Forder => format!("forder {program} {}", list(&[directory, file])),
    }
}

fn list(objects: &[u64]) -> String {
    hex(&objects.iter().flat_map(|&object| (object as u16).to_le_bytes()).collect::<Vec<u8>>())
}

fn on_file(kind: Kind) -> bool {
    matches!(kind, Kind::Overwrite | Kind::Append | Kind::SetLength)
}

/// The lines after the first operation that end in one of the later kind with an operand in common with it.
fn sharing(earlier: Kind, later: Kind) -> Vec<String> {
    if on_file(earlier) {
        return after_file(earlier, later);
    }
    if !on_file(later) {
        let other = Side { directory: 1, file: 5, fresh: 9 };
        let text = line(later, other, 2).replace("=78", "=76").replace("=6e", "=6f").replace("=79", "=7a");
        return vec![text];
    }
    let mut lines = Vec::new();
    let file = match earlier {
        Kind::Create => 7,
        Kind::MakeDirectory => {
            lines.extend(["rmdir 1 1 =6e".to_string(), "create 1 1 =6e 7".to_string()]);
            7
        }
        Kind::Remove => {
            lines.push("create 1 1 =78 3".to_string());
            3
        }
        _ => 3,
    };
    if later != Kind::SetLength && !matches!(earlier, Kind::Rename | Kind::Forder) {
        lines.push(format!("setlen 1 {file} 8"));
    }
    lines.push(line(later, Side { directory: 1, file, fresh: 9 }, 2));
    lines
}

/// The same where the first operation is on file 3, in directory 1 under the name x.
fn after_file(earlier: Kind, later: Kind) -> Vec<String> {
    match later {
        Kind::Create => vec!["rmfile 1 1 =78".to_string(), "create 2 1 =78 3".to_string()],
        Kind::MakeDirectory => vec!["rmfile 1 1 =78".to_string(), "mkdir 2 1 =78 3".to_string()],
        Kind::Append if earlier == Kind::Append => vec!["write 2 3 10 =4344".to_string()],
        _ => vec![line(later, FIRST, 2)],
    }
}

/// A shared operand: the later one waits for the earlier, and can be sent after it.
fn direct(builder: &mut Builder, earlier: Kind, later: Kind) {
    let mut numbers = set_up(builder, &format!("{earlier:?} directly before {later:?}."));
    issue(builder, &mut numbers, &line(earlier, FIRST, 1));
    for text in sharing(earlier, later) {
        issue(builder, &mut numbers, &text);
    }
    builder.say("stat 3 1");
    in_order(builder, &numbers);
}

/// No shared operand, but a forder between that has one with each.
fn chain(builder: &mut Builder, earlier: Kind, later: Kind) {
    let mut numbers = set_up(builder, &format!("{earlier:?} before {later:?} through a forder."));
    issue_chain(builder, &mut numbers, earlier, later);
    in_order(builder, &numbers);
}

/// Two forders between, and an fsync that names only an operand of the later one: it needs all four. Every
/// other time the link carries one too few.
fn chain_by_fsync(builder: &mut Builder, earlier: Kind, later: Kind) {
    let mut numbers = set_up(builder, &format!("{earlier:?} before {later:?} through two forders, sent by an fsync."));
    issue(builder, &mut numbers, &line(earlier, FIRST, 1));
    issue(builder, &mut numbers, &format!("forder 2 {}", list(&[operand(earlier, FIRST), 0])));
    issue(builder, &mut numbers, &format!("forder 3 {}", list(&[0, operand(later, SECOND)])));
    issue(builder, &mut numbers, &line(later, SECOND, 4));
    let sends = 3 + (earlier.code() + later.code()) % 2;
    builder.say(&format!("fsync 5 {} {sends}", operand(later, SECOND)));
    builder.say("digest");
}

fn issue_chain(builder: &mut Builder, numbers: &mut Vec<u64>, earlier: Kind, later: Kind) {
    issue(builder, numbers, &line(earlier, FIRST, 1));
    let between = list(&[operand(earlier, FIRST), operand(later, SECOND)]);
    issue(builder, numbers, &format!("forder 2 {between}"));
    issue(builder, numbers, &line(later, SECOND, 3));
    builder.say("stat 4 2");
}

/// An object that every operation of the kind on that side has as operand.
fn operand(kind: Kind, side: Side) -> u64 {
    if on_file(kind) {
        side.file
    } else {
        side.directory
    }
}

/// Tries the last first, then sends all in issue order.
fn in_order(builder: &mut Builder, numbers: &[u64]) {
    if let Some(last) = numbers.last() {
        builder.say(&format!("push {last}"));
    }
    for number in numbers {
        builder.say(&format!("push {number}"));
    }
    builder.say("digest");
}

/// No operand in common: the two can be sent either way.
fn free(builder: &mut Builder, earlier: Kind, later: Kind, later_first: bool) {
    let order = if later_first { "the later first" } else { "the earlier first" };
    let mut numbers = set_up(builder, &format!("{earlier:?} free of {later:?}, {order}."));
    issue(builder, &mut numbers, &line(earlier, FIRST, 1));
    issue(builder, &mut numbers, &line(later, SECOND, 2));
    if later_first {
        numbers.reverse();
    }
    for number in &numbers {
        builder.say(&format!("push {number}"));
    }
    builder.say("digest");
}

/// Two overwrites of one file: apart, side by side, and with a common byte, either way.
fn loose(builder: &mut Builder) {
    let ranges = [
        ((0, 2), (4, 2)),
        ((0, 4), (4, 4)),
        ((0, 5), (4, 4)),
        ((4, 4), (0, 4)),
        ((4, 4), (0, 5)),
        ((2, 2), (0, 8)),
        ((0, 8), (3, 1)),
    ];
    for later_first in [true, false] {
        for ((a, x), (b, y)) in ranges {
            let mut numbers = set_up(builder, &format!("Overwrites of {x} bytes at {a} and of {y} at {b}."));
            issue(builder, &mut numbers, &format!("write 1 3 {a} {}", hex(&vec![0x41; x])));
            issue(builder, &mut numbers, &format!("write 2 3 {b} {}", hex(&vec![0x42; y])));
            if later_first {
                numbers.reverse();
            }
            for number in numbers.clone().iter().chain(&numbers) {
                builder.say(&format!("push {number}"));
            }
            builder.say("digest");
        }
    }
}
