//! The spelling of names (document 02, K2): names found, refused, renamed and sent in another spelling than the stored
//! one, and volumes with two spellings of one name.

use crate::calls::possible;
use second::geometry::Geometry;
use second::log::{Log, State};
use second::names::{components, LONGEST_NAME};
use second::player::Player;
use second::record::{Kind, Record};
use second::script::Argument;
use second::volume::{Volume, NAME_LENGTH_AT};
use std::collections::BTreeMap;

/// The situations that must occur.
const WANTED: [&str; 28] = [
    "lookup by another spelling",
    "lookup by another spelling of several components",
    "10 of a create",
    "10 of a make directory",
    "a create beside a name that differs by 32 in no letter",
    "remove of a file",
    "remove of a directory",
    "rename of a file found by another spelling",
    "rename of a directory found by another spelling",
    "rename only of the case, of a file",
    "rename only of the case, of an empty directory",
    "rename only of the case, of a directory with children",
    "rename to the stored spelling itself",
    "rename to the stored spelling, found by another",
    "rename onto another spelling of another file",
    "rename onto another spelling of another directory",
    "rename into another directory with another spelling",
    "9 of a rename onto another spelling",
    "11 of a rename onto another spelling",
    "13 of a rename only of the case",
    "14 of a rename only of the case",
    "remove sent to another spelling",
    "rename sent to another spelling",
    "rename only of the case sent",
    "rename onto another spelling sent",
    "create that does not apply",
    "make directory that does not apply",
    "rename that does not apply",
];
/// Further ones, which are not seen in one call's arguments.
const BESIDES: [&str; 2] = ["rename only of the case lost", "mount of names that differ by 32 in no letter"];
/// The calls that check the form of a volume.
const CHECKING: [&str; 18] = [
    "mount", "lookup", "list", "stat", "read", "create", "mkdir", "rmfile", "rmdir", "rename", "write", "setlen",
    "forder", "push", "fsync", "cut", "take", "renew",
];

#[derive(Default)]
pub struct Spelling(BTreeMap<String, usize>);

impl Spelling {
    /// Notes a call with what stood before it.
    pub fn note(&mut self, name: &str, arguments: &[Argument], code: u64, before: &Player) {
        let Some((server, view)) = volumes(before) else { return };
        if code == 2 {
            self.add_if(twins(&server), &format!("{name}, 2: two spellings in the server"));
            self.add_if(twins(&view), &format!("{name}, 2: two spellings in the view"));
        }
        let arguments: Vec<Word> = arguments.iter().map(Word::of).collect();
        match (name, arguments.as_slice()) {
            ("lookup", [_, Word::Text(path)]) if code == 0 => self.note_lookup(&view, path),
            ("create" | "mkdir", [_, Word::Number(parent), Word::Text(typed), Word::Number(object)]) => {
                self.note_make(name, (*parent, typed, *object), code, &view)
            }
            ("rmfile" | "rmdir", [_, Word::Number(parent), Word::Text(typed)]) if code == 0 => {
                if let Some(found) = other_spelling(&view, *parent, typed) {
                    self.add(if view.is_file(found) { "remove of a file" } else { "remove of a directory" });
                }
            }
            ("rename", [_, Word::Number(from), Word::Text(typed), Word::Number(to), Word::Text(second)]) => {
                self.note_rename((*from, typed), (*to, second), code, &view)
            }
            ("mount", []) if code == 0 => self.add_if(look_alike(&server), BESIDES[1]),
            _ => (),
        }
    }

    /// Notes what a call sent, found not to apply, or lost; on well-formed logs.
    pub fn note_sends(&mut self, name: &str, arguments: &[Argument], code: u64, before: &Player, logs: (&Log, &Log)) {
        let Some((server, _)) = volumes(before) else { return };
        let (old, new) = logs;
        if let ("push", [Argument::Number(sequence)]) = (name, arguments) {
            if let Some(record) = old.find_waiting(*sequence) {
                self.note_send(&server, record, code);
            }
        }
        let lost = |record: &Record| {
            let is_it = |slot: &&second::log::Slot| slot.record.sequence == record.sequence;
            new.slots.iter().find(is_it).is_some_and(|slot| slot.state == State::Lost)
        };
        if ["cut", "fsync"].contains(&name) && old.waiting().into_iter().any(|one| only_case(one) && lost(one)) {
            self.add(BESIDES[0]);
        }
    }

    fn note_lookup(&mut self, view: &Volume<&[u8]>, path: &[u8]) {
        let (mut place, mut others) = (0, 0);
        for component in components(path) {
            let Some(found) = view.seek(place, component) else { return };
            others += usize::from(view.name(found) != component);
            place = found;
        }
        self.add_if(others > 0, WANTED[0]);
        self.add_if(others > 1, WANTED[1]);
    }

    fn note_make(&mut self, name: &str, call: (usize, &[u8], usize), code: u64, view: &Volume<&[u8]>) {
        let (parent, typed, object) = call;
        if code == 10 && other_spelling(view, parent, typed).is_some() && view.is_free(object) {
            self.add(if name == "create" { "10 of a create" } else { "10 of a make directory" });
        }
        if code == 0 {
            let beside = view.children(parent).into_iter().any(|child| alike(view.name(child), typed));
            self.add_if(beside, "a create beside a name that differs by 32 in no letter");
        }
    }

    fn note_rename(&mut self, from: (usize, &[u8]), to: (usize, &[u8]), code: u64, view: &Volume<&[u8]>) {
        let n = view.geometry.n;
        if ![0, 9, 11, 13, 14].contains(&code) || from.0 >= n || to.0 >= n {
            return;
        }
        let Some(object) = view.seek(from.0, from.1) else { return };
        let stored = view.name(object);
        let there = view.seek(to.0, to.1);
        let onto_other = there.is_some_and(|there| there != object && view.name(there) != to.1);
        let case_only = there == Some(object) && stored != to.1;
        match code {
            9 => self.add_if(onto_other, "9 of a rename onto another spelling"),
            11 => self.add_if(onto_other, "11 of a rename onto another spelling"),
            13 => self.add_if(case_only, "13 of a rename only of the case"),
            14 => self.add_if(case_only, "14 of a rename only of the case"),
            _ => {
                let file = view.is_file(object);
                let kind = if file { "file" } else { "directory" };
                self.add_if(stored != from.1, &format!("rename of a {kind} found by another spelling"));
                self.add_if(onto_other, &format!("rename onto another spelling of another {kind}"));
                let whose = match (file, view.has_children(object)) {
                    (true, _) => "of a file",
                    (_, false) => "of an empty directory",
                    _ => "of a directory with children",
                };
                self.add_if(case_only, &format!("rename only of the case, {whose}"));
                let itself = there == Some(object) && stored == to.1;
                self.add_if(itself && from.1 == stored, "rename to the stored spelling itself");
                self.add_if(itself && from.1 != stored, "rename to the stored spelling, found by another");
                let moved = from.0 != to.0 && stored != to.1 && stored.eq_ignore_ascii_case(to.1);
                self.add_if(moved, "rename into another directory with another spelling");
            }
        }
    }

    /// Notes a push that was accepted, or found its operation not to apply.
    fn note_send(&mut self, server: &Volume<&[u8]>, record: &Record, code: u64) {
        let first = other_spelling(server, record.parent as usize, &record.name);
        let second = other_spelling(server, record.second_parent as usize, &record.second_name);
        let is_object = |found: Option<usize>| found == Some(record.object as usize);
        match (record.kind, code) {
            (Kind::Remove, 0) => self.add_if(first.is_some(), "remove sent to another spelling"),
            (Kind::Rename, 0) => {
                self.add_if(first.is_some(), "rename sent to another spelling");
                self.add_if(is_object(second), "rename only of the case sent");
                self.add_if(second.is_some() && !is_object(second), "rename onto another spelling sent");
            }
            (Kind::Create, 2) => self.add_if(first.is_some(), "create that does not apply"),
            (Kind::MakeDirectory, 2) => self.add_if(first.is_some(), "make directory that does not apply"),
            (Kind::Rename, 2) => self.add_if(second.is_some(), "rename that does not apply"),
            _ => (),
        }
    }

    fn add(&mut self, what: &str) {
        *self.0.entry(what.to_string()).or_default() += 1;
    }

    fn add_if(&mut self, holds: bool, what: &str) {
        if holds {
            self.add(what);
        }
    }

    /// All situations that must occur, with those of every call that checks the form. Mount does not look at the view.
    fn wanted() -> Vec<String> {
        let mut wanted: Vec<String> = WANTED.iter().chain(&BESIDES).map(|what| what.to_string()).collect();
        for name in CHECKING.iter().filter(|name| possible(name).is_some()) {
            wanted.push(format!("{name}, 2: two spellings in the server"));
            if *name != "mount" {
                wanted.push(format!("{name}, 2: two spellings in the view"));
            }
        }
        wanted
    }

    pub fn table(&self) -> String {
        let mut text = String::from("names in another spelling\n");
        for what in WANTED.iter().chain(&BESIDES) {
            text += &format!("  {what}: {}\n", self.0.get(*what).unwrap_or(&0));
        }
        let refused: Vec<String> =
            Spelling::wanted().into_iter().filter(|what| what.contains(", 2: two spellings in the ")).collect();
        let seen = refused.iter().filter(|what| self.0.contains_key(*what)).count();
        text + &format!(
            "  2 of every call, two spellings in the server, and in the view: {seen} of {}\n",
            refused.len()
        )
    }

    pub fn missing(&self) -> Vec<String> {
        let missing = Spelling::wanted().into_iter().filter(|what| !self.0.contains_key(what));
        missing.map(|what| format!("another spelling: {what}")).collect()
    }
}

/// An argument with its number as a place in a volume.
enum Word<'a> {
    Number(usize),
    Text(&'a [u8]),
}

impl Word<'_> {
    fn of(argument: &Argument) -> Word<'_> {
        match argument {
            Argument::Number(number) => Word::Number(*number as usize),
            Argument::Bytes(bytes) => Word::Text(bytes),
            _ => Word::Text(&[]),
        }
    }
}

/// The server volume and the view, where the lengths are right.
pub fn volumes(player: &Player) -> Option<(Volume<&[u8]>, Volume<&[u8]>)> {
    let [n, b, m] = player.given;
    let geometry = Geometry::new(n, b, m)?;
    let whole = geometry.volume_length();
    let fits = player.lengths == [whole, whole, geometry.log_length()];
    let over = |area: usize| Volume::over(geometry, &player.areas[area][..whole]);
    fits.then(|| (over(0), over(1)))
}

/// The child that has the name, but spelt in another way.
fn other_spelling(volume: &Volume<&[u8]>, parent: usize, typed: &[u8]) -> Option<usize> {
    let found = (parent < volume.geometry.n).then(|| volume.seek(parent, typed)).flatten();
    found.filter(|&found| volume.name(found) != typed)
}

/// Whether a waiting rename has two spellings of one name in one directory.
fn only_case(record: &Record) -> bool {
    let names = (&record.name, &record.second_name);
    record.kind == Kind::Rename
        && record.parent == record.second_parent
        && names.0 != names.1
        && names.0.eq_ignore_ascii_case(names.1)
}

/// Whether two names would be the same if bit 5 were ignored in every byte, but are not.
fn alike(one: &[u8], other: &[u8]) -> bool {
    let bytes = || one.iter().zip(other);
    one.len() == other.len()
        && bytes().all(|(a, b)| a | 32 == b | 32)
        && bytes().any(|(a, b)| a != b && !a.is_ascii_alphabetic())
}

/// Whether any two used entries of one directory have names of which this holds.
fn any_two(volume: &Volume<&[u8]>, holds: fn(&[u8], &[u8]) -> bool) -> bool {
    let short =
        |&object: &usize| !volume.is_free(object) && volume.entry(object)[NAME_LENGTH_AT] as usize <= LONGEST_NAME;
    let used: Vec<usize> = (1..volume.geometry.n).filter(short).collect();
    let together = |one: usize, other: usize| {
        one != other && volume.parent(one) == volume.parent(other) && holds(volume.name(one), volume.name(other))
    };
    used.iter().any(|&one| used.iter().any(|&other| together(one, other)))
}

/// Whether two entries of one directory have one name in two spellings.
fn twins(volume: &Volume<&[u8]>) -> bool {
    any_two(volume, |one, other| one != other && one.eq_ignore_ascii_case(other))
}

fn look_alike(volume: &Volume<&[u8]>) -> bool {
    any_two(volume, alike)
}
