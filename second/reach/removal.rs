//! Remove file and remove directory (document 02, K4): each on objects of both kinds, and what became of the operations
//! of kind 3, by the call that issued them.

use crate::spelling::volumes;
use second::log::{Log, Slot, State};
use second::order::with_predecessors;
use second::player::Player;
use second::record::{Kind, Record};
use second::script::Argument;
use second::volume::Volume;
use std::collections::BTreeMap;

/// The situations that must occur.
const WANTED: [&str; 32] = [
    "rmfile, a file: 0",
    "rmdir, an empty directory: 0",
    "rmdir, a file: 9",
    "rmfile, an empty directory: 9",
    "rmfile, a directory with children: 9",
    "rmdir, a directory with children: 11",
    "rmfile, a wrong removal with a full log: 9",
    "rmdir, a wrong removal with a full log: 9",
    "rmfile, a wrong removal with no number left: 9",
    "rmdir, a wrong removal with no number left: 9",
    "rmfile, a wrong removal by another spelling: 9",
    "rmdir, a wrong removal by another spelling: 9",
    "rmfile, a wrong removal that could have brought dependence: 9",
    "rmdir, a wrong removal that could have brought dependence: 9",
    "rmfile, a file that the server has as a directory: 0",
    "rmdir, a directory that the server has as a file: 0",
    "of rmfile: pushed",
    "of rmdir: pushed",
    "of rmfile: sent by fsync",
    "of rmdir: sent by fsync",
    "of rmfile: lost",
    "of rmdir: lost",
    "of rmfile: pushed, and does not apply",
    "of rmdir: pushed, and does not apply",
    "of rmfile: applied to an empty directory",
    "of rmdir: applied to a file",
    "of a stored log: applied to a file",
    "of a stored log: applied to an empty directory",
    "of a stored log: not applied to a directory with children",
    "of a stored log: sent by fsync",
    "of a stored log: lost",
    "a loss taken",
];

/// Where an operation comes from that no call of this script issued.
const STORED: &str = "a stored log";

#[derive(Default)]
pub struct Removal {
    seen: BTreeMap<String, usize>,
    /// The records of the operations that wait, with the calls that issued them.
    issued: Vec<(Record, String)>,
}

impl Removal {
    /// Forgets the operations of the script before.
    pub fn begin(&mut self) {
        self.issued.clear();
    }

    /// Notes a call on buffers that are in order.
    pub fn note(&mut self, name: &str, arguments: &[Argument], code: u64, before: &Player, logs: (&Log, &Log)) {
        let Some((server, view)) = volumes(before) else { return };
        let (old, new) = logs;
        match (name, arguments) {
            ("rmfile" | "rmdir", [Argument::Number(program), Argument::Number(parent), Argument::Bytes(typed)]) => {
                let found = (*parent < before.given[0]).then(|| view.seek(*parent as usize, typed)).flatten();
                if let Some(object) = found {
                    self.note_answer(name, code, (&server, &view, object), typed);
                    if code == 9 {
                        self.note_wrong_removal(name, *program, before, old, (&view, object, typed));
                    }
                }
            }
            ("push", [Argument::Number(sequence)]) if [0, 2].contains(&code) => {
                let waiting = old.find_waiting(*sequence).filter(|record| record.kind == Kind::Remove);
                waiting.into_iter().for_each(|record| self.note_push(record, code, &server));
            }
            ("fsync", [_, Argument::Number(object), _]) if code == 0 => {
                let needed = with_predecessors(&old.waiting(), |record| record.has_operand(*object as u16));
                let removals = needed.into_iter().filter(|record| record.kind == Kind::Remove);
                removals.for_each(|record| self.add(&format!("of {}: sent by fsync", self.origin(record))));
            }
            ("take", [Argument::Number(program), _]) if code == 0 => {
                let of_kind_3 = old.first_loss(*program).is_some_and(|record| record.kind == Kind::Remove);
                self.add_if(of_kind_3, "a loss taken");
            }
            _ => (),
        }
        self.follow(name, old, new);
    }

    /// Notes how a removal was answered, by what the name leads to.
    fn note_answer(
        &mut self,
        name: &str,
        code: u64,
        (server, view, object): (&Volume<&[u8]>, &Volume<&[u8]>, usize),
        typed: &[u8],
    ) {
        let what = match (view.is_file(object), view.has_children(object)) {
            (true, _) => "a file",
            (_, false) => "an empty directory",
            _ => "a directory with children",
        };
        self.add(&format!("{name}, {what}: {code}"));
        let there = server.seek(view.parent(object), typed) == Some(object);
        if code == 0 && there && server.kind(object) != view.kind(object) {
            let kinds = if view.is_file(object) { ("file", "directory") } else { ("directory", "file") };
            self.add(&format!("{name}, a {} that the server has as a {}: 0", kinds.0, kinds.1));
        }
    }

    /// Notes a refused wrong removal where another refusal could have come first, or dependence have followed.
    fn note_wrong_removal(
        &mut self,
        name: &str,
        program: u64,
        before: &Player,
        old: &Log,
        (view, object, typed): (&Volume<&[u8]>, usize, &[u8]),
    ) {
        let wrong = format!("{name}, a wrong removal");
        self.add_if(old.slots.len() as u64 == before.given[2], &format!("{wrong} with a full log: 9"));
        self.add_if(old.numbers_left() == 0, &format!("{wrong} with no number left: 9"));
        self.add_if(view.name(object) != typed, &format!("{wrong} by another spelling: 9"));
        let could_depend = |slot: &Slot| {
            let waits = slot.state == State::Waiting && slot.record.has_operand(object as u16);
            waits && slot.dependents >> program & 1 == 0
        };
        let dependence = old.slots.iter().any(could_depend);
        self.add_if(dependence, &format!("{wrong} that could have brought dependence: 9"));
    }

    /// Notes an operation of kind 3 that a push sent, or found not to apply.
    fn note_push(&mut self, record: &Record, code: u64, server: &Volume<&[u8]>) {
        let (origin, object) = (self.origin(record), record.object as usize);
        if code == 0 {
            let what = if server.is_file(object) { "a file" } else { "an empty directory" };
            self.add(&format!("of {origin}: pushed"));
            self.add(&format!("of {origin}: applied to {what}"));
        } else {
            self.add(&format!("of {origin}: pushed, and does not apply"));
            let leads = server.seek(record.parent as usize, &record.name) == Some(object);
            self.add_if(leads, &format!("of {origin}: not applied to a directory with children"));
        }
    }

    /// The call that issued a waiting operation.
    fn origin(&self, record: &Record) -> String {
        let issued = self.issued.iter().find(|(one, _)| one == record);
        issued.map_or(STORED.to_string(), |(_, name)| name.clone())
    }

    /// Notes what a call lost, and keeps what waits after it.
    fn follow(&mut self, name: &str, old: &Log, new: &Log) {
        for record in old.waiting().into_iter().filter(|record| record.kind == Kind::Remove) {
            let lost = |slot: &Slot| slot.state == State::Lost && slot.record == *record;
            if new.slots.iter().any(lost) {
                self.add(&format!("of {}: lost", self.origin(record)));
            }
        }
        let waiting = new.waiting();
        self.issued.retain(|(record, _)| waiting.contains(&record));
        if let ("rmfile" | "rmdir", Some(last)) = (name, waiting.last().filter(|_| new.next > old.next)) {
            self.issued.push(((*last).clone(), name.to_string()));
        }
    }

    fn add(&mut self, what: &str) {
        *self.seen.entry(what.to_string()).or_default() += 1;
    }

    fn add_if(&mut self, holds: bool, what: &str) {
        if holds {
            self.add(what);
        }
    }

    pub fn table(&self) -> String {
        let mut text = String::from("removals, and operations of kind 3\n");
        for what in WANTED {
            text += &format!("  {what}: {}\n", self.seen.get(what).unwrap_or(&0));
        }
        text
    }

    pub fn missing(&self) -> Vec<String> {
        let missing = WANTED.iter().filter(|what| !self.seen.contains_key(**what));
        missing.map(|what| format!("a removal: {what}")).collect()
    }
}
