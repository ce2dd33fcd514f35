//! Which kinds of pairs of the precedence rule were put to the test. A pair is an earlier and a later operation
//! that waited together, told apart by their two kinds, by what the rule says of them, and by whether the
//! earlier one still waited, or had been sent, when the later one was to be pushed.

use second::log::{Log, State};
use second::order::{directly_precedes, touches, with_predecessors};
use second::record::{Kind, Record};
use second::script::Argument;
use std::collections::{BTreeMap, BTreeSet};

/// What the rule says of an earlier and a later operation.
#[derive(Clone, Copy, PartialEq, Eq, PartialOrd, Ord, Debug)]
enum Rule {
    /// A shared operand, or for two overwrites a common byte.
    Direct,
    /// Only through further operations.
    Chain,
    /// Two overwrites of one file with no common byte and no chain.
    Loose,
    /// No shared operand and no chain.
    Free,
}

type Cell = (Kind, Kind, Rule, &'static str);

#[derive(Default)]
pub struct Pairs {
    seen: BTreeMap<Cell, usize>,
    /// For each waiting operation, the rules that tied it to others when it was issued.
    issued: BTreeMap<u32, Vec<(u32, Kind, Rule)>>,
    sent: BTreeSet<u32>,
}

impl Pairs {
    /// Forgets the operations of the script before.
    pub fn begin(&mut self) {
        self.issued.clear();
        self.sent.clear();
    }

    /// Notes a call on well-formed logs: pushes, and which operations came and were sent.
    pub fn note(&mut self, name: &str, arguments: &[Argument], code: u64, old: &Log, new: &Log) {
        if name == "mount" && code == 0 {
            self.begin();
        }
        if let ("push", [Argument::Number(sequence)]) = (name, arguments) {
            if let Some(record) = old.find_waiting(*sequence) {
                self.note_push(record, code, old);
            }
        }
        if ["push", "fsync"].contains(&name) {
            let used: BTreeSet<u32> = new.slots.iter().map(|slot| slot.record.sequence).collect();
            self.sent.extend(old.waiting().iter().map(|record| record.sequence).filter(|one| !used.contains(one)));
        }
        let came = new.slots.iter().filter(|slot| slot.state == State::Waiting && slot.record.sequence >= old.next);
        for slot in came {
            let waiting = new.waiting();
            let ties = waiting.iter().filter(|one| one.sequence < slot.record.sequence);
            let ties = ties.map(|one| (one.sequence, one.kind, rule(&waiting, one, &slot.record))).collect();
            self.issued.insert(slot.record.sequence, ties);
        }
    }

    /// A push refused with 15 shows the operations ordered before it that wait; one accepted shows those
    /// that wait and are free of it, and those that were sent since it was issued.
    fn note_push(&mut self, record: &Record, code: u64, old: &Log) {
        let waiting = old.waiting();
        for earlier in waiting.iter().filter(|one| one.sequence < record.sequence) {
            let rule = rule(&waiting, earlier, record);
            let ordered = rule == Rule::Direct || rule == Rule::Chain;
            if (code == 15 && ordered) || (code == 0 && !ordered) {
                *self.seen.entry((earlier.kind, record.kind, rule, "waiting")).or_default() += 1;
            }
        }
        if code == 0 {
            for (sequence, kind, rule) in self.issued.get(&record.sequence).into_iter().flatten() {
                if self.sent.contains(sequence) {
                    *self.seen.entry((*kind, record.kind, *rule, "sent")).or_default() += 1;
                }
            }
        }
    }

    fn cells() -> Vec<Cell> {
        let mut cells = Vec::new();
        for state in ["waiting", "sent"] {
            for rule in [Rule::Direct, Rule::Chain, Rule::Free] {
                let pairs = Kind::ALL.iter().flat_map(|&a| Kind::ALL.iter().map(move |&b| (a, b)));
                cells.extend(pairs.map(|(a, b)| (a, b, rule, state)));
            }
            cells.push((Kind::Overwrite, Kind::Overwrite, Rule::Loose, state));
        }
        cells
    }

    pub fn table(&self) -> String {
        let mut text = String::from("pairs of kinds in the precedence rule, of 8 x 8 (1 for loose)\n");
        for rule in [Rule::Direct, Rule::Chain, Rule::Loose, Rule::Free] {
            for state in ["waiting", "sent"] {
                let seen = self.seen.iter().filter(|(cell, _)| cell.2 == rule && cell.3 == state);
                let total: usize = seen.clone().map(|(_, count)| count).sum();
                let rule = format!("{rule:?}").to_lowercase();
                text += &format!("  {rule:<6} {state:<7} {:>2} pairs of kinds, {total} times\n", seen.count());
            }
        }
        text
    }

    pub fn missing(&self) -> Vec<String> {
        let missing = Pairs::cells().into_iter().filter(|cell| !self.seen.contains_key(cell));
        missing.map(|(a, b, rule, state)| format!("{a:?} then {b:?}, {rule:?}, the first {state}")).collect()
    }
}

fn rule(waiting: &[&Record], a: &Record, b: &Record) -> Rule {
    let before = with_predecessors(waiting, |record| record.sequence == b.sequence);
    let precedes = before.iter().any(|record| record.sequence == a.sequence);
    match (directly_precedes(a, b), precedes, touches(a, b)) {
        (true, _, _) => Rule::Direct,
        (_, true, _) => Rule::Chain,
        (_, _, true) => Rule::Loose,
        _ => Rule::Free,
    }
}
