//! Demand 3 by brute force on random runs over small logs (document 01, "The register"): after every call the
//! server is the replay of the sent, the sent set is closed under predecessors, the whole log equals one
//! reckoned from the history, and every closed set of waiting operations could be sent, and no other.

mod common;
mod model;
use common::{Random, World};
use model::{Event, Fate, Register, Tree, What};
use second::geometry::{self, LONGEST_RECORD};
use std::collections::BTreeSet;

/// A random run: the buffers, the register that follows them, and what has been seen.
struct Run {
    world: World,
    register: Register,
    random: Random,
    accepted: BTreeSet<&'static str>,
    /// The refusals of removals: whether of a directory, and the number.
    refused: BTreeSet<(bool, u64)>,
    subsets: (usize, usize),
}

/// Some are two spellings of one name, some only look so.
const NAMES: [&[u8]; 8] = [b"a", b"b", b"B", b"c", b"A longer name", b"a longer namE", b"@", b"`"];
const PROGRAMS: u64 = 4;
const BLOCK: u64 = geometry::BLOCK as u64;

impl Run {
    fn new(seed: u64) -> Run {
        let mut random = Random(seed);
        let (n, b, m) = (4 + random.below(5), 1 + random.below(2), 3 + random.below(6));
        let world = World::new(n, b, m);
        let register = Register::new(Tree::only_root());
        Run { world, register, random, accepted: BTreeSet::new(), refused: BTreeSet::new(), subsets: (0, 0) }
    }

    fn program(&mut self) -> u64 {
        self.random.below(PROGRAMS)
    }

    /// Mostly a used object of the view, now and then any number.
    fn object(&mut self) -> u64 {
        let view = self.register.view();
        let used: Vec<u16> = view.0.keys().copied().collect();
        if self.random.chance(90) {
            *self.random.pick(&used) as u64
        } else {
            self.random.below(self.world.n + 1)
        }
    }

    fn of_kind(&mut self, directory: bool) -> u64 {
        let view = self.register.view();
        let fitting: Vec<u16> = view.0.keys().copied().filter(|object| view.directory(*object) == directory).collect();
        if fitting.is_empty() || self.random.chance(5) {
            self.object()
        } else {
            *self.random.pick(&fitting) as u64
        }
    }

    fn name(&mut self) -> Vec<u8> {
        self.random.pick(&NAMES).to_vec()
    }

    /// The text as it is, or with the case of its letters changed, of all or of some.
    fn respell(&mut self, text: &[u8]) -> Vec<u8> {
        let share = *self.random.pick(&[0, 0, 40, 100]);
        let other = |byte: &u8, changes: bool| if changes && byte.is_ascii_alphabetic() { byte ^ 32 } else { *byte };
        text.iter().map(|byte| other(byte, self.random.chance(share))).collect()
    }

    /// A used parent and name, mostly.
    fn place(&mut self) -> (u64, Vec<u8>) {
        let view = self.register.view();
        let used: Vec<u16> = view.0.keys().copied().filter(|&object| object != 0).collect();
        if used.is_empty() || self.random.chance(15) {
            return (self.of_kind(true), self.name());
        }
        let node = &view.0[self.random.pick(&used)];
        (node.parent as u64, self.respell(&node.name))
    }

    fn number(&self) -> u64 {
        self.register.operations.len() as u64 + 1
    }

    /// Makes one random call and carries it over to the register.
    fn step(&mut self) {
        let before = self.world.clone();
        let calls = self.register.history.len();
        let accepted = match self.random.below(100) {
            0..=13 => self.make(),
            14..=20 => self.remove(),
            21..=31 => self.rename(),
            32..=51 => self.write(),
            52..=55 => self.set_length(),
            56..=59 => self.forder(),
            60..=72 => self.question(),
            73..=84 => self.push(),
            85..=88 => self.fsync(),
            89..=91 => self.cut(),
            92..=99 => self.lose(),
            _ => unreachable!(),
        };
        if !accepted {
            assert!(self.world == before, "a refusal changes nothing");
            assert_eq!(self.register.history.len(), calls);
        }
    }

    /// Notes an accepted change in the register; its number must be the next one.
    fn changed(
        &mut self,
        name: &'static str,
        answer: common::Answer,
        program: u64,
        what: impl FnOnce(&Tree) -> What,
    ) -> bool {
        let what = |view: &Tree| vec![what(view)];
        self.changed_by_parts(name, answer, program, what)
    }

    /// The same where a change may be several operations; its number is that of the first.
    fn changed_by_parts(
        &mut self,
        name: &'static str,
        answer: common::Answer,
        program: u64,
        parts: impl FnOnce(&Tree) -> Vec<What>,
    ) -> bool {
        let Ok(number) = answer else { return false };
        assert_eq!(number, self.number());
        let mut view = self.register.view();
        let parts = parts(&view);
        assert!(parts.iter().all(|what| view.apply(what)), "an accepted change applies to the view");
        self.register.add(program as u8, parts);
        self.accepted.insert(name);
        true
    }

    fn make(&mut self) -> bool {
        let (program, parent, name) = (self.program(), self.of_kind(true), self.name());
        let object = self.random.below(self.world.n + 1);
        let directory = self.random.chance(40);
        let taken = self.register.view().child(parent as u16, &name).is_some();
        let answer = if directory {
            self.world.mkdir(program, parent, &name, object)
        } else {
            self.world.create(program, parent, &name, object)
        };
        assert!(!taken || answer.is_err(), "a name that is there is taken, in whatever spelling");
        let call = if directory { "mkdir" } else { "create" };
        self.changed(call, answer, program, |_| What::Make {
            directory,
            parent: parent as u16,
            name,
            object: object as u16,
        })
    }

    /// A removal by the call that takes the kind of what the name leads to, now and then by the other (document 02, K4).
    fn remove(&mut self) -> bool {
        let (program, (parent, name)) = (self.program(), self.place());
        let view = self.register.view();
        let directory = match view.child(parent as u16, &name) {
            Some(object) => view.directory(object) != self.random.chance(30),
            None => self.random.chance(50),
        };
        let expected = self.judge_removal(directory, program, parent, &name);
        let answer = match directory {
            true => self.world.rmdir(program, parent, &name),
            false => self.world.rmfile(program, parent, &name),
        };
        assert_eq!(answer, expected);
        let call = match (directory, answer) {
            (_, Err(number)) => {
                self.refused.insert((directory, number));
                return false;
            }
            (true, _) => "rmdir",
            (false, _) => "rmfile",
        };
        self.changed(call, answer, program, |view| {
            let object = view.child(parent as u16, &name).unwrap();
            What::Remove { parent: parent as u16, name, object }
        })
    }

    /// What a removal of a directory, or of a file, must give, reckoned from the register.
    fn judge_removal(&self, directory: bool, program: u64, parent: u64, name: &[u8]) -> common::Answer {
        if self.register.marks() >> program & 1 == 1 {
            return Err(4);
        }
        if parent >= self.world.n {
            return Err(7);
        }
        let view = self.register.view();
        let Some(place) = view.0.get(&(parent as u16)) else { return Err(8) };
        if !place.directory {
            return Err(9);
        }
        let Some(object) = view.child(parent as u16, name) else { return Err(8) };
        if view.directory(object) != directory {
            return Err(9);
        }
        if !view.childless(object) {
            return Err(11);
        }
        if self.world.m == self.register.used_slots() {
            return Err(13);
        }
        Ok(self.number())
    }

    fn rename(&mut self) -> bool {
        let (program, (from, name)) = (self.program(), self.place());
        let (to, second) = match self.random.below(5) {
            0 => self.place(),
            1 => (from, self.name()),
            2 => (from, self.respell(&name)),
            _ => (self.of_kind(true), self.name()),
        };
        let answer = self.world.rename(program, from, &name, to, &second);
        let view = self.register.view();
        let object = view.child(from as u16, &name);
        let only_case = object
            .is_some_and(|object| view.child(to as u16, &second) == Some(object) && view.0[&object].name != second);
        assert!(object.is_none() || !view.directory(to as u16) || answer != Err(8), "found by whatever spelling");
        let call = if only_case { "rename only of the case" } else { "rename" };
        self.changed(call, answer, program, |view| {
            let object = view.child(from as u16, &name).unwrap();
            let displaced = view.child(to as u16, &second).filter(|there| *there != object);
            What::Rename { from: from as u16, name, to: to as u16, second, object, displaced }
        })
    }

    /// A write at the length, inside it, or across it (document 02, K1), which is then two operations.
    fn write(&mut self) -> bool {
        let (program, object) = (self.program(), self.of_kind(false));
        let length = self.register.view().0.get(&(object as u16)).map_or(0, |node| node.data.len() as u64);
        let offset = if self.random.chance(40) { length } else { self.random.below(length + 2) };
        let across = self.random.chance(30);
        let room = if offset < length && !across { (length - offset).min(6) } else { 6 };
        let most = if self.random.chance(10) { BLOCK } else { room };
        let count = 1 + self.random.below(most);
        let start = self.random.below(256) as u8;
        let count = if self.random.chance(3) { 0 } else { count };
        let data: Vec<u8> = (0..count).map(|at| start.wrapping_add(at as u8)).collect();
        let expected = self.judge_write(program, object, offset, count);
        let answer = self.world.write(program, object, offset, &data);
        assert_eq!(answer, expected);
        let object = object as u16;
        if offset < length && length < offset + count {
            let (old, new) = data.split_at((length - offset) as usize);
            let overwrite = What::Overwrite { object, offset: offset as usize, data: old.to_vec() };
            let append = What::Append { object, offset: length as usize, data: new.to_vec() };
            return self.changed_by_parts("write across the end", answer, program, |_| vec![overwrite, append]);
        }
        let offset = offset as usize;
        self.changed("write", answer, program, |_| match (offset as u64) < length {
            true => What::Overwrite { object, offset, data },
            false => What::Append { object, offset, data },
        })
    }

    /// What a write must give, reckoned from the register.
    fn judge_write(&self, program: u64, object: u64, offset: u64, count: u64) -> common::Answer {
        if self.register.marks() >> program & 1 == 1 {
            return Err(4);
        }
        if object >= self.world.n {
            return Err(7);
        }
        let view = self.register.view();
        let Some(node) = view.0.get(&(object as u16)) else { return Err(8) };
        if node.directory {
            return Err(9);
        }
        let (length, end) = (node.data.len() as u64, offset + count);
        if count == 0 || offset > length || offset / BLOCK != (end - 1) / BLOCK || end > BLOCK * self.world.b {
            return Err(12);
        }
        let operations = if offset < length && length < end { 2 } else { 1 };
        if self.world.m - self.register.used_slots() < operations {
            return Err(13);
        }
        Ok(self.number())
    }

    fn set_length(&mut self) -> bool {
        let (program, object) = (self.program(), self.of_kind(false));
        let limit = if self.random.chance(70) { 12 } else { BLOCK * self.world.b + 2 };
        let length = self.random.below(limit);
        let answer = self.world.setlen(program, object, length);
        self.changed("setlen", answer, program, |_| What::SetLength { object: object as u16, length: length as usize })
    }

    fn forder(&mut self) -> bool {
        let program = self.program();
        let list: Vec<u16> = (0..1 + self.random.below(3)).map(|_| self.object() as u16).collect();
        let answer = self.world.forder(program, &list);
        self.changed("forder", answer, program, |_| What::Forder { list })
    }

    /// Notes an accepted question with its operands.
    fn asked(&mut self, name: &'static str, program: u64, operands: BTreeSet<u16>) -> bool {
        self.register.history.push(Event::Call { program: program as u8, operands });
        self.accepted.insert(name);
        true
    }

    fn question(&mut self) -> bool {
        let program = self.program();
        match self.random.below(4) {
            0 => self.lookup(program),
            1 => self.list(program),
            2 => {
                let object = self.object();
                let Ok(stat) = self.world.stat(program, object) else { return false };
                let node = &self.register.view().0[&(object as u16)];
                assert_eq!((stat.kind, stat.length), (1 + node.directory as u64, node.data.len() as u64));
                assert_eq!(stat.usage, (node.data.len() as f64 / 1024.0).round() as u64);
                self.asked("stat", program, BTreeSet::from([object as u16]))
            }
            _ => {
                let (object, offset) = (self.of_kind(false), self.random.below(8));
                let mut buffer = vec![238; self.random.below(12) as usize];
                let Ok(count) = self.world.read(program, object, offset, &mut buffer) else { return false };
                let mut expected = vec![238; buffer.len()];
                let data = &self.register.view().0[&(object as u16)].data[offset as usize..];
                assert_eq!(count as usize, data.len().min(buffer.len()));
                expected[..count as usize].copy_from_slice(&data[..count as usize]);
                assert_eq!(buffer, expected);
                self.asked("read", program, BTreeSet::from([object as u16]))
            }
        }
    }

    fn lookup(&mut self, program: u64) -> bool {
        let view = self.register.view();
        let mut place = *self.random.pick(&view.0.keys().copied().collect::<Vec<u16>>());
        let (target, mut path, mut operands) = (place, Vec::new(), BTreeSet::from([place]));
        while place != 0 {
            path = [b"/".as_slice(), &view.0[&place].name, &path].concat();
            place = view.0[&place].parent;
            operands.insert(place);
        }
        let path = if path.is_empty() { b"/".to_vec() } else { self.respell(&path) };
        let answer = self.world.lookup(program, &path);
        if answer == Err(4) {
            return false;
        }
        assert_eq!(answer, Ok(target as u64), "found by whatever spelling");
        self.asked("lookup", program, operands)
    }

    fn list(&mut self, program: u64) -> bool {
        let object = self.of_kind(true);
        let mut buffer = vec![0; self.random.below(80) as usize];
        let Ok(count) = self.world.list(program, object, &mut buffer) else { return false };
        let mut expected = Vec::new();
        for (child, node) in
            self.register.view().0.iter().filter(|(child, node)| **child != 0 && node.parent == object as u16)
        {
            expected.extend(child.to_le_bytes());
            expected.extend([1 + node.directory as u8, node.name.len() as u8]);
            expected.extend(&node.name);
        }
        assert_eq!(&buffer[..count as usize], &expected);
        self.asked("list", program, BTreeSet::from([object as u16]))
    }

    /// A push is accepted exactly if its operation waits and no predecessor waits.
    fn push(&mut self) -> bool {
        let waiting = self.register.waiting();
        let sequence = if waiting.is_empty() || self.random.chance(5) {
            self.random.below(self.number() + 1) as u32
        } else {
            *self.random.pick(&waiting)
        };
        let answer = self.world.push(sequence as u64);
        let expected = match waiting.contains(&sequence) {
            false => Err(16),
            true if self.register.predecessors(sequence).iter().any(|number| waiting.contains(number)) => Err(15),
            true => Ok(0),
        };
        assert_eq!(answer, expected);
        if answer.is_ok() {
            self.register.send(sequence);
            self.register.history.push(Event::Other);
            self.accepted.insert("push");
        }
        answer.is_ok()
    }

    /// The d of fsync are reckoned over the whole history; an accepted one sends d, refusal 17 sends k.
    fn fsync(&mut self) -> bool {
        let (program, object) = (self.program(), self.object());
        let waiting = self.register.waiting();
        let named =
            waiting.iter().filter(|number| self.register.operation(**number).operands().contains(&(object as u16)));
        let mut needed: BTreeSet<u32> = named.copied().collect();
        needed.extend(needed.clone().iter().flat_map(|number| self.register.predecessors(*number)));
        needed.retain(|number| waiting.contains(number));
        let d = needed.len() as u64;
        let k = if self.random.chance(70) { d + self.random.below(3) } else { self.random.below(d + 1) };
        let (code, sends) = self.world.fsync(program, object, k);
        if code != 0 && code != 17 {
            assert!([4, 7, 8].contains(&code));
            return false;
        }
        assert_eq!((code, sends), if k >= d { (0, d) } else { (17, k) });
        needed.iter().take(sends as usize).for_each(|number| self.register.send(*number));
        self.register.history.push(Event::Call { program: program as u8, operands: BTreeSet::from([object as u16]) });
        self.accepted.insert(if code == 0 { "fsync" } else { "fsync with 17" });
        if code == 17 {
            self.register.cut();
        }
        true
    }

    fn cut(&mut self) -> bool {
        assert_eq!(self.world.cut(), Ok(0));
        self.register.cut();
        self.accepted.insert("cut");
        true
    }

    /// Take, renew, or now and then another mount.
    fn lose(&mut self) -> bool {
        let program = self.program();
        let own = |one: &&mut model::Operation| {
            one.program as u64 == program && matches!(one.fate, Fate::Lost { taken: false, .. })
        };
        let first = self.register.operations.iter_mut().find(own);
        if self.random.chance(3) {
            assert_eq!(self.world.mount(), Ok(0));
            let (mounted, _) = self.register.replay(|one| one.fate == Fate::Sent);
            self.register = Register::new(mounted);
            self.accepted.insert("mount");
            return true;
        }
        if first.is_none() && self.random.chance(80) {
            assert_eq!(self.world.renew(program), Ok(0));
            self.register.history.push(Event::Renew { program: program as u8 });
            self.accepted.insert("renew");
            return true;
        }
        let mut buffer = [238; LONGEST_RECORD];
        let answer = self.world.take(program, &mut buffer);
        let Some(operation) = first else {
            assert_eq!(answer, Err(16));
            return false;
        };
        let record = operation.record();
        assert_eq!(answer, Ok(record.len() as u64));
        assert_eq!(&buffer[..record.len()], &record);
        assert!(buffer[record.len()..].iter().all(|&byte| byte == 238));
        if let Fate::Lost { taken, .. } = &mut operation.fate {
            *taken = true;
        }
        self.register.history.push(Event::Other);
        self.accepted.insert("take");
        true
    }

    /// Compares all three buffers with the register, and asks that the sent set is closed.
    fn check(&self) {
        let (n, b) = (self.world.n, self.world.b);
        let (server, all_apply) = self.register.replay(|one| one.fate == Fate::Sent);
        assert!(all_apply, "the sent ones all apply");
        assert!(server.names_differ() && self.register.view().names_differ(), "no name is there twice");
        assert!(self.world.server == server.bytes(n, b), "the server is the replay of the sent");
        assert!(self.world.view == self.register.view().bytes(n, b), "the view is the replay of sent and waiting");
        assert!(self.world.log == self.register.log_bytes(self.world.m), "the log is as the history has it");
        for sent in self.register.operations.iter().filter(|one| one.fate == Fate::Sent) {
            for number in self.register.predecessors(sent.number) {
                assert_eq!(self.register.operation(number).fate, Fate::Sent, "the sent set is closed");
            }
        }
    }

    /// Tries to send every set of waiting operations in issue order and then to cut.
    fn check_subsets(&mut self) {
        let waiting = self.register.waiting();
        if waiting.len() > 6 {
            return;
        }
        let before: Vec<BTreeSet<u32>> = waiting.iter().map(|number| self.register.predecessors(*number)).collect();
        for bits in 0..1u32 << waiting.len() {
            let chosen =
                |number: &u32| waiting.iter().position(|one| one == number).is_some_and(|at| bits >> at & 1 == 1);
            let set: Vec<u32> = waiting.iter().copied().filter(|number| chosen(number)).collect();
            let left_out = |number: &u32| waiting.contains(number) && !set.contains(number);
            let closed =
                waiting.iter().zip(&before).all(|(number, earlier)| !chosen(number) || !earlier.iter().any(left_out));
            let mut world = self.world.clone();
            let sent = set.iter().all(|number| world.push(*number as u64) == Ok(0));
            assert_eq!(sent, closed, "a set can be sent exactly if it is closed");
            self.subsets.0 += closed as usize;
            self.subsets.1 += !closed as usize;
            if closed {
                assert_eq!(world.cut(), Ok(0));
                let (tree, all_apply) = self.register.replay(|one| one.fate == Fate::Sent || set.contains(&one.number));
                assert!(all_apply && world.server == tree.bytes(world.n, world.b), "just that set is sent");
                assert!(world.view == world.server);
            }
        }
    }
}

/// What must be accepted in some run, in the order of the alphabet.
const CALLS: [&str; 21] = [
    "create",
    "cut",
    "forder",
    "fsync",
    "fsync with 17",
    "list",
    "lookup",
    "mkdir",
    "mount",
    "push",
    "read",
    "rename",
    "rename only of the case",
    "renew",
    "rmdir",
    "rmfile",
    "setlen",
    "stat",
    "take",
    "write",
    "write across the end",
];

#[test]
fn random_runs_keep_demand_3() {
    let (mut accepted, mut refused) = (BTreeSet::new(), BTreeSet::new());
    let mut subsets = (0, 0);
    for seed in 0..400 {
        let mut run = Run::new(seed);
        for step in 0..120 {
            run.step();
            run.check();
            if step % 8 == 0 {
                run.check_subsets();
            }
        }
        accepted.extend(run.accepted);
        refused.extend(run.refused);
        subsets = (subsets.0 + run.subsets.0, subsets.1 + run.subsets.1);
    }
    assert_eq!(accepted.into_iter().collect::<Vec<_>>(), CALLS, "every call was accepted in some run");
    let of_files = [4, 8, 9, 13].map(|number| (false, number));
    let of_directories = [4, 8, 9, 11, 13].map(|number| (true, number));
    let mut wanted = of_files.into_iter().chain(of_directories);
    assert!(wanted.all(|one| refused.contains(&one)), "removals were refused in every way: {refused:?}");
    assert!(subsets.0 > 1000 && subsets.1 > 1000, "many sets of both sorts were tried: {subsets:?}");
}
