//! Writes across the end of a file (document 02, K1): how they were answered, and what became of their overwrite
//! and their append.

use second::log::{Log, State};
use second::player::Player;
use second::script::Argument;
use std::collections::BTreeMap;

/// The situations that must occur.
const WANTED: [&str; 16] = [
    "accepted",
    "accepted with just two free slots",
    "accepted with the last two numbers",
    "12 of one that reaches into another block",
    "12 of one with too few slots",
    "12 of one with too few numbers",
    "13 with no free slot",
    "13 with one free slot",
    "13 with too few numbers too",
    "14 with one number left",
    "14 with no number left",
    "its append pushed first, 15",
    "both sent by one fsync",
    "both sent",
    "only the overwrite sent, the append lost",
    "both lost",
];

/// The situation that no order allows.
const REVERSED: &str = "the append sent without the overwrite";

#[derive(Clone, Copy, PartialEq, Eq)]
enum Fate {
    Waiting,
    Sent,
    Lost,
}

#[derive(Default)]
pub struct Across {
    seen: BTreeMap<&'static str, usize>,
    /// For the overwrite's number of each accepted one, the fates of overwrite and append while any of them waits.
    open: BTreeMap<u32, [Fate; 2]>,
}

impl Across {
    /// Forgets the operations of the script before.
    pub fn begin(&mut self) {
        self.open.clear();
    }

    /// Notes a call on well-formed logs.
    pub fn note(&mut self, name: &str, arguments: &[Argument], code: u64, before: &mut Player, logs: (&Log, &Log)) {
        let (old, new) = logs;
        if name == "mount" && code == 0 {
            self.begin();
        }
        if let ("push", 15, [Argument::Number(sequence)]) = (name, code, arguments) {
            let appended = |first: &u32| *sequence == *first as u64 + 1 && old.find_waiting(*first as u64).is_some();
            if self.open.keys().any(appended) {
                self.add("its append pushed first, 15");
            }
        }
        self.follow(name, old, new);
        if name == "write" && across_end(before, arguments) {
            self.note_answer(code, before, old);
        }
    }

    fn add(&mut self, what: &'static str) {
        *self.seen.entry(what).or_default() += 1;
    }

    /// Notes how a write across the end was answered, with the slots and the numbers that were left before it.
    fn note_answer(&mut self, code: u64, before: &Player, old: &Log) {
        let slots = before.given[2] - old.slots.len() as u64;
        let numbers = old.numbers_left();
        match code {
            0 => {
                self.open.insert(old.next, [Fate::Waiting; 2]);
                self.add("accepted");
                self.add_if(slots == 2, "accepted with just two free slots");
                self.add_if(numbers == 2, "accepted with the last two numbers");
            }
            12 => {
                self.add("12 of one that reaches into another block");
                self.add_if(slots < 2, "12 of one with too few slots");
                self.add_if(numbers < 2, "12 of one with too few numbers");
            }
            13 => {
                self.add(if slots == 0 { "13 with no free slot" } else { "13 with one free slot" });
                self.add_if(numbers < 2, "13 with too few numbers too");
            }
            14 => self.add(if numbers == 0 { "14 with no number left" } else { "14 with one number left" }),
            _ => (),
        }
    }

    fn add_if(&mut self, holds: bool, what: &'static str) {
        if holds {
            self.add(what);
        }
    }

    /// Follows the fates of the open ones over a call, and counts those of which nothing waits any longer.
    fn follow(&mut self, name: &str, old: &Log, new: &Log) {
        let mut settled = Vec::new();
        for (first, fates) in &mut self.open {
            let before = *fates;
            for (fate, sequence) in fates.iter_mut().zip(*first..) {
                if *fate == Fate::Waiting && old.find_waiting(sequence as u64).is_some() {
                    *fate = fate_in(new, sequence);
                }
            }
            let by_fsync = name == "fsync" && before == [Fate::Waiting; 2] && *fates == [Fate::Sent; 2];
            if !fates.contains(&Fate::Waiting) {
                settled.push((*first, *fates, by_fsync));
            } else if fates[1] == Fate::Sent {
                settled.push((*first, [Fate::Lost, Fate::Sent], by_fsync));
            }
        }
        for (first, fates, by_fsync) in settled {
            self.open.remove(&first);
            self.add_if(by_fsync, "both sent by one fsync");
            self.add(match fates {
                [Fate::Sent, Fate::Sent] => "both sent",
                [Fate::Sent, _] => "only the overwrite sent, the append lost",
                [_, Fate::Sent] => REVERSED,
                _ => "both lost",
            });
        }
    }

    pub fn table(&self) -> String {
        let mut text = String::from("writes across the end of a file\n");
        for what in WANTED {
            text += &format!("  {what}: {}\n", self.seen.get(what).unwrap_or(&0));
        }
        text
    }

    pub fn missing(&self) -> Vec<String> {
        let missing = WANTED.iter().filter(|what| !self.seen.contains_key(*what));
        let mut missing: Vec<String> = missing.map(|what| format!("a write across the end: {what}")).collect();
        if self.seen.contains_key(REVERSED) {
            missing.push(format!("a write across the end: {REVERSED}, which cannot be"));
        }
        missing
    }
}

/// What has become of an operation that waited before a call.
fn fate_in(new: &Log, sequence: u32) -> Fate {
    match new.slots.iter().find(|slot| slot.record.sequence == sequence) {
        Some(slot) if slot.state == State::Waiting => Fate::Waiting,
        Some(_) => Fate::Lost,
        None => Fate::Sent,
    }
}

/// Whether a write begins before the length of a file of the view and ends past it.
fn across_end(before: &mut Player, arguments: &[Argument]) -> bool {
    let [_, Argument::Number(object), Argument::Number(offset), Argument::Bytes(data)] = arguments else {
        return false;
    };
    let lent = before.lend();
    let now = lent.look();
    if now.damaged() || now.bad_number(*object) || !now.view().is_file(*object as usize) {
        return false;
    }
    let length = now.view().length(*object as usize) as u128;
    (*offset as u128) < length && length < *offset as u128 + data.len() as u128
}
