//! The register of document 01 ("The register"), kept apart from the library but for the numbers of the layout: a tree
//! of nodes, operations with their fate, and the whole history of calls, from which everything in the log is reckoned
//! anew.

use second::geometry::{BLOCK, ENTRY_HEAD, LOG_HEAD, SLOT};
use second::volume::LENGTH_AT;
use std::collections::{BTreeMap, BTreeSet};

/// What an operation does, with its record completed.
#[derive(Clone, PartialEq, Debug)]
pub enum What {
    Make { directory: bool, parent: u16, name: Vec<u8>, object: u16 },
    Remove { parent: u16, name: Vec<u8>, object: u16 },
    Rename { from: u16, name: Vec<u8>, to: u16, second: Vec<u8>, object: u16, displaced: Option<u16> },
    Overwrite { object: u16, offset: usize, data: Vec<u8> },
    Append { object: u16, offset: usize, data: Vec<u8> },
    SetLength { object: u16, length: usize },
    Forder { list: Vec<u16> },
}

#[derive(Clone, PartialEq, Debug)]
pub struct Node {
    pub directory: bool,
    pub parent: u16,
    pub name: Vec<u8>,
    pub data: Vec<u8>,
}

/// A volume as a set of nodes; the root is node 0.
#[derive(Clone, PartialEq, Debug)]
pub struct Tree(pub BTreeMap<u16, Node>);

impl Tree {
    pub fn only_root() -> Tree {
        let root = Node { directory: true, parent: 0, name: Vec::new(), data: Vec::new() };
        Tree(BTreeMap::from([(0, root)]))
    }

    pub fn directory(&self, object: u16) -> bool {
        self.0.get(&object).is_some_and(|node| node.directory)
    }

    pub fn file(&self, object: u16) -> bool {
        self.0.get(&object).is_some_and(|node| !node.directory)
    }

    /// The child of that name; A to Z and a to z make no other name (document 02, K2).
    pub fn child(&self, parent: u16, name: &[u8]) -> Option<u16> {
        let named = |(object, node): &(&u16, &Node)| {
            **object != 0 && node.parent == parent && node.name.eq_ignore_ascii_case(name)
        };
        self.0.iter().find(named).map(|(object, _)| *object)
    }

    /// Whether no directory has one name twice, in whatever spelling.
    pub fn names_differ(&self) -> bool {
        let places = self.0.iter().filter(|(object, _)| **object != 0);
        let places: Vec<(u16, Vec<u8>)> =
            places.map(|(_, node)| (node.parent, node.name.to_ascii_lowercase())).collect();
        places.iter().collect::<BTreeSet<_>>().len() == places.len()
    }

    pub fn childless(&self, object: u16) -> bool {
        self.0.iter().all(|(child, node)| *child == 0 || node.parent != object)
    }

    /// Applies an operation and says whether it applied; if not, nothing changes.
    pub fn apply(&mut self, what: &What) -> bool {
        let applies = self.applies(what);
        if applies {
            self.change(what);
        }
        applies
    }

    fn applies(&self, what: &What) -> bool {
        match what {
            What::Make { parent, name, object, .. } => {
                self.directory(*parent) && self.child(*parent, name).is_none() && !self.0.contains_key(object)
            }
            What::Remove { parent, name, object } => {
                self.directory(*parent) && self.child(*parent, name) == Some(*object) && self.childless(*object)
            }
            What::Rename { from, name, to, second, object, displaced } => {
                let there = self.child(*to, second);
                let good_target = match displaced {
                    Some(out) => there == Some(*out) && self.file(*out) == self.file(*object) && self.childless(*out),
                    None => there.is_none() || there == Some(*object),
                };
                let leads = self.directory(*from) && self.child(*from, name) == Some(*object);
                leads && self.directory(*to) && (self.file(*object) || from == to) && good_target
            }
            What::Overwrite { object, offset, data } => {
                self.file(*object) && offset + data.len() <= self.0[object].data.len()
            }
            What::Append { object, offset, .. } => self.file(*object) && *offset == self.0[object].data.len(),
            What::SetLength { object, .. } => self.file(*object),
            What::Forder { .. } => true,
        }
    }

    fn change(&mut self, what: &What) {
        match what.clone() {
            What::Make { directory, parent, name, object } => {
                self.0.insert(object, Node { directory, parent, name, data: Vec::new() });
            }
            What::Remove { object, .. } => drop(self.0.remove(&object)),
            What::Rename { to, second, object, displaced, .. } => {
                displaced.map(|out| self.0.remove(&out));
                let node = self.0.get_mut(&object).unwrap();
                (node.parent, node.name) = (to, second);
            }
            What::Overwrite { object, offset, data } => {
                self.0.get_mut(&object).unwrap().data[offset..offset + data.len()].copy_from_slice(&data);
            }
            What::Append { object, data, .. } => self.0.get_mut(&object).unwrap().data.extend(data),
            What::SetLength { object, length } => self.0.get_mut(&object).unwrap().data.resize(length, 0),
            What::Forder { .. } => (),
        }
    }

    /// The stored form of the whole volume.
    pub fn bytes(&self, n: u64, b: u64) -> Vec<u8> {
        let mut bytes = Vec::new();
        for object in 0..n as u16 {
            let mut entry = Vec::new();
            if let Some(node) = self.0.get(&object) {
                entry.extend([if node.directory { 2 } else { 1 }, node.name.len() as u8]);
                entry.extend(node.parent.to_le_bytes());
                entry.extend(&node.name);
                entry.resize(LENGTH_AT, 0);
                entry.extend((node.data.len() as u32).to_le_bytes());
                entry.extend(&node.data);
            }
            entry.resize(ENTRY_HEAD + BLOCK * b as usize, 0);
            bytes.extend(entry);
        }
        bytes
    }
}

/// What has become of an operation; a lost one knows the call that lost it.
#[derive(Clone, Copy, PartialEq, Debug)]
pub enum Fate {
    Waiting,
    Sent,
    Lost { at: usize, taken: bool },
}

#[derive(Clone, PartialEq, Debug)]
pub struct Operation {
    pub number: u32,
    pub program: u8,
    pub what: What,
    /// The place in the history of the call that issued it.
    pub issued: usize,
    pub fate: Fate,
}

impl Operation {
    pub fn operands(&self) -> BTreeSet<u16> {
        match &self.what {
            What::Make { parent, object, .. } | What::Remove { parent, object, .. } => {
                BTreeSet::from([*parent, *object])
            }
            What::Rename { from, to, object, displaced, .. } => {
                [*from, *to, *object].into_iter().chain(*displaced).collect()
            }
            What::Overwrite { object, .. } | What::Append { object, .. } | What::SetLength { object, .. } => {
                BTreeSet::from([*object])
            }
            What::Forder { list } => list.iter().copied().collect(),
        }
    }

    fn lost_before(&self, call: usize) -> bool {
        matches!(self.fate, Fate::Lost { at, .. } if at < call)
    }

    pub fn touches(&self, later: &Operation) -> bool {
        self.number < later.number && !self.lost_before(later.issued) && !self.operands().is_disjoint(&later.operands())
    }

    pub fn directly_precedes(&self, later: &Operation) -> bool {
        if let (What::Overwrite { offset: a, data: x, .. }, What::Overwrite { offset: b, data: y, .. }) =
            (&self.what, &later.what)
        {
            let common = (*a..a + x.len()).any(|byte| (*b..b + y.len()).contains(&byte));
            return self.touches(later) && common;
        }
        self.touches(later)
    }

    /// The record of the operation, written field by field.
    pub fn record(&self) -> Vec<u8> {
        let text = |name: &[u8]| [&[name.len() as u8], name].concat();
        let two = |number: u16| number.to_le_bytes().to_vec();
        let written = |offset: &usize, data: &[u8]| {
            [&(*offset as u32).to_le_bytes()[..], &(data.len() as u16).to_le_bytes(), data].concat()
        };
        let (map, kind, fields): (u16, u8, Vec<u8>) = match &self.what {
            What::Make { directory, parent, name, object } => {
                (19, if *directory { 2 } else { 1 }, [two(*object), two(*parent), text(name)].concat())
            }
            What::Remove { parent, name, object } => (19, 3, [two(*object), two(*parent), text(name)].concat()),
            What::Rename { from, name, to, second, object, displaced } => {
                let out = displaced.map_or(Vec::new(), two);
                let map = if displaced.is_some() { 63 } else { 55 };
                (map, 4, [two(*object), two(*from), two(*to), out, text(name), text(second)].concat())
            }
            What::Overwrite { object, offset, data } => (193, 5, [two(*object), written(offset, data)].concat()),
            What::Append { object, offset, data } => (193, 6, [two(*object), written(offset, data)].concat()),
            What::SetLength { object, length } => {
                (65, 7, [two(*object), (*length as u32).to_le_bytes().to_vec()].concat())
            }
            What::Forder { list } => {
                (256, 8, [vec![list.len() as u8], list.iter().flat_map(|&object| two(object)).collect()].concat())
            }
        };
        [&map.to_le_bytes()[..], &self.number.to_le_bytes(), &[self.program, kind], &fields].concat()
    }
}

/// A successful call with its operands, a cut, or a renewal; the place in the list is the time.
#[derive(Clone, PartialEq, Debug)]
pub enum Event {
    Call { program: u8, operands: BTreeSet<u16> },
    Cut,
    Renew { program: u8 },
    Other,
}

/// The register, with the history from which dependents and marks are reckoned.
#[derive(Clone)]
pub struct Register {
    pub mounted: Tree,
    pub operations: Vec<Operation>,
    pub history: Vec<Event>,
}

impl Register {
    pub fn new(mounted: Tree) -> Register {
        Register { mounted, operations: Vec::new(), history: Vec::new() }
    }

    /// The replay in issue order of a set of operations, and whether all of them applied.
    pub fn replay(&self, chosen: impl Fn(&Operation) -> bool) -> (Tree, bool) {
        let mut tree = self.mounted.clone();
        let mut all = true;
        for operation in self.operations.iter().filter(|operation| chosen(operation)) {
            all &= tree.apply(&operation.what);
        }
        (tree, all)
    }

    pub fn view(&self) -> Tree {
        self.replay(|operation| matches!(operation.fate, Fate::Sent | Fate::Waiting)).0
    }

    pub fn waiting(&self) -> Vec<u32> {
        let waiting = self.operations.iter().filter(|operation| operation.fate == Fate::Waiting);
        waiting.map(|operation| operation.number).collect()
    }

    pub fn operation(&self, number: u32) -> &Operation {
        &self.operations[number as usize - 1]
    }

    /// All numbers that precede this one, by following direct predecessors over the whole history.
    pub fn predecessors(&self, number: u32) -> BTreeSet<u32> {
        let mut found = BTreeSet::new();
        let mut open = vec![number];
        while let Some(later) = open.pop() {
            for earlier in self.operations.iter().filter(|one| one.directly_precedes(self.operation(later))) {
                if found.insert(earlier.number) {
                    open.push(earlier.number);
                }
            }
        }
        found
    }

    /// Adds the operations of one accepted call, in their order.
    pub fn add(&mut self, program: u8, parts: Vec<What>) {
        let issued = self.history.len();
        let mut operands = BTreeSet::new();
        for what in parts {
            let number = self.operations.len() as u32 + 1;
            let operation = Operation { number, program, what, issued, fate: Fate::Waiting };
            operands.extend(operation.operands());
            self.operations.push(operation);
        }
        self.history.push(Event::Call { program, operands });
    }

    /// The used slots: what waits, and the losses that are not taken.
    pub fn used_slots(&self) -> u64 {
        let kept = |one: &&Operation| matches!(one.fate, Fate::Waiting | Fate::Lost { taken: false, .. });
        self.operations.iter().filter(kept).count() as u64
    }

    pub fn send(&mut self, number: u32) {
        self.operations[number as usize - 1].fate = Fate::Sent;
    }

    pub fn cut(&mut self) {
        let at = self.history.len();
        for operation in self.operations.iter_mut().filter(|operation| operation.fate == Fate::Waiting) {
            operation.fate = Fate::Lost { at, taken: false };
        }
        self.history.push(Event::Cut);
    }

    /// The programs that depended on an operation just before a time, from all successful calls up to then.
    fn dependents(&self, operation: &Operation, before: usize) -> u32 {
        let mut bits = 1 << operation.program;
        for (at, event) in self.history[..before].iter().enumerate().skip(operation.issued + 1) {
            if let Event::Call { program, operands } = event {
                if self.reaches(operation, at, operands) {
                    bits |= 1 << program;
                }
            }
        }
        bits
    }

    /// Whether an operation shares an operand with a call, or touches one that does, and so on.
    fn reaches(&self, operation: &Operation, call: usize, operands: &BTreeSet<u16>) -> bool {
        let mut seen = BTreeSet::from([operation.number]);
        let mut open = vec![operation];
        while let Some(one) = open.pop() {
            if !one.lost_before(call) && !one.operands().is_disjoint(operands) {
                return true;
            }
            for later in self.operations.iter().filter(|later| later.issued < call && one.touches(later)) {
                if seen.insert(later.number) {
                    open.push(later);
                }
            }
        }
        false
    }

    /// The marks after the whole history: each cut marks the dependents of what it lost, each renewal clears.
    pub fn marks(&self) -> u32 {
        let mut marks = 0;
        for (at, event) in self.history.iter().enumerate() {
            match event {
                Event::Cut => {
                    let lost_now = |one: &&Operation| matches!(one.fate, Fate::Lost { at: when, .. } if when == at);
                    self.operations.iter().filter(lost_now).for_each(|one| marks |= self.dependents(one, at));
                }
                Event::Renew { program } => marks &= !(1 << program),
                _ => (),
            }
        }
        marks
    }

    /// The whole log as it must stand.
    pub fn log_bytes(&self, m: u64) -> Vec<u8> {
        let mut bytes = (self.operations.len() as u32 + 1).to_le_bytes().to_vec();
        bytes.extend(self.marks().to_le_bytes());
        for operation in &self.operations {
            let (state, dependents) = match operation.fate {
                Fate::Lost { taken: false, .. } => (2, 0),
                Fate::Waiting => (1, self.dependents(operation, self.history.len())),
                _ => continue,
            };
            let mut slot = vec![state, 0, 0, 0];
            slot.extend(u32::to_le_bytes(dependents));
            slot.extend(operation.record());
            slot.resize(SLOT, 0);
            bytes.extend(slot);
        }
        bytes.resize(LOG_HEAD + SLOT * m as usize, 0);
        bytes
    }
}
