//! Buffers of their own for the tests, and calls on them that give plain numbers.
#![allow(dead_code)]

use second::geometry::{Geometry, BLOCK, ENTRY_HEAD, LOG_HEAD, SLOT};
use second::log::{Log, Slot, State};
use second::record::{Kind, Record};
use second::{Lent, Refusal, Stat};

/// The accepted result, or the number of the refusal.
pub type Answer = Result<u64, u64>;

#[derive(Clone, PartialEq, Debug)]
pub struct World {
    pub n: u64,
    pub b: u64,
    pub m: u64,
    pub server: Vec<u8>,
    pub view: Vec<u8>,
    pub log: Vec<u8>,
}

/// The bytes of an entry with b blocks.
pub const fn entry_length(b: u64) -> usize {
    ENTRY_HEAD + BLOCK * b as usize
}

/// The bytes of a log with m slots.
pub const fn log_length(m: u64) -> usize {
    LOG_HEAD + SLOT * m as usize
}

fn numbered<T>(answer: Result<T, Refusal>) -> Result<T, u64> {
    answer.map_err(Refusal::number)
}

impl World {
    /// Buffers that fit the geometry, formatted and mounted.
    pub fn new(n: u64, b: u64, m: u64) -> World {
        let volume = n as usize * entry_length(b);
        let log = log_length(m);
        let mut world = World { n, b, m, server: vec![9; volume], view: vec![9; volume], log: vec![9; log] };
        assert_eq!(world.format(), Ok(0));
        assert_eq!(world.mount(), Ok(0));
        world
    }

    pub fn lent(&mut self) -> Lent<'_> {
        let World { n, b, m, server, view, log } = self;
        Lent { n: *n, b: *b, m: *m, server, view, log }
    }

    pub fn geometry(&self) -> Geometry {
        Geometry::new(self.n, self.b, self.m).unwrap()
    }

    pub fn format(&mut self) -> Answer {
        numbered(second::format(self.n, self.b, self.m, &mut self.server).map(|()| 0))
    }

    pub fn mount(&mut self) -> Answer {
        numbered(second::mount(&mut self.lent()).map(|()| 0))
    }

    pub fn lookup(&mut self, program: u64, path: &[u8]) -> Answer {
        numbered(second::lookup(&mut self.lent(), program, path))
    }

    pub fn list(&mut self, program: u64, object: u64, buffer: &mut [u8]) -> Answer {
        numbered(second::list(&mut self.lent(), program, object, buffer))
    }

    pub fn stat(&mut self, program: u64, object: u64) -> Result<Stat, u64> {
        numbered(second::stat(&mut self.lent(), program, object))
    }

    pub fn read(&mut self, program: u64, object: u64, offset: u64, buffer: &mut [u8]) -> Answer {
        numbered(second::read(&mut self.lent(), program, object, offset, buffer))
    }

    pub fn create(&mut self, program: u64, parent: u64, name: &[u8], object: u64) -> Answer {
        numbered(second::create(&mut self.lent(), program, parent, name, object))
    }

    pub fn mkdir(&mut self, program: u64, parent: u64, name: &[u8], object: u64) -> Answer {
        numbered(second::make_directory(&mut self.lent(), program, parent, name, object))
    }

    pub fn rmfile(&mut self, program: u64, parent: u64, name: &[u8]) -> Answer {
        numbered(second::remove_file(&mut self.lent(), program, parent, name))
    }

    pub fn rmdir(&mut self, program: u64, parent: u64, name: &[u8]) -> Answer {
        numbered(second::remove_directory(&mut self.lent(), program, parent, name))
    }

    pub fn rename(&mut self, program: u64, parent: u64, name: &[u8], to: u64, second_name: &[u8]) -> Answer {
        numbered(second::rename(&mut self.lent(), program, (parent, name), (to, second_name)))
    }

    pub fn write(&mut self, program: u64, object: u64, offset: u64, data: &[u8]) -> Answer {
        numbered(second::write(&mut self.lent(), program, object, offset, data))
    }

    pub fn setlen(&mut self, program: u64, object: u64, length: u64) -> Answer {
        numbered(second::set_length(&mut self.lent(), program, object, length))
    }

    /// Forder with its list as lent bytes.
    pub fn forder_bytes(&mut self, program: u64, list: &[u8]) -> Answer {
        numbered(second::forder(&mut self.lent(), program, list))
    }

    pub fn forder(&mut self, program: u64, list: &[u16]) -> Answer {
        let bytes: Vec<u8> = list.iter().flat_map(|object| object.to_le_bytes()).collect();
        self.forder_bytes(program, &bytes)
    }

    pub fn push(&mut self, sequence: u64) -> Answer {
        numbered(second::push(&mut self.lent(), sequence).map(|()| 0))
    }

    /// Gives the returned number and the sends.
    pub fn fsync(&mut self, program: u64, object: u64, k: u64) -> (u64, u64) {
        let answer = second::fsync(&mut self.lent(), program, object, k);
        (answer.refusal.map_or(0, Refusal::number), answer.sends)
    }

    pub fn cut(&mut self) -> Answer {
        numbered(second::cut(&mut self.lent()).map(|()| 0))
    }

    pub fn take(&mut self, program: u64, buffer: &mut [u8]) -> Answer {
        numbered(second::take(&mut self.lent(), program, buffer))
    }

    pub fn renew(&mut self, program: u64) -> Answer {
        numbered(second::renew(&mut self.lent(), program).map(|()| 0))
    }

    /// The log as it stands, which must be well formed.
    pub fn log_now(&self) -> Log {
        Log::read(&self.geometry(), &self.log).expect("the log is well formed")
    }

    /// Writes another log into the buffer.
    pub fn set_log(&mut self, log: &Log) {
        log.write(&mut self.log);
    }

    /// Fills every slot with a waiting forder of program 9 on the root.
    pub fn fill_log(&mut self) {
        let mut log = self.log_now();
        log.slots = (1..=self.m as u32).map(|sequence| waiting(forder_record(sequence, 9, &[0]))).collect();
        log.next = log.next.max(self.m as u32 + 1);
        self.set_log(&log);
    }

    pub fn entry_at(&self, object: u64) -> usize {
        object as usize * entry_length(self.b)
    }

    pub fn dependents(&self) -> Vec<u32> {
        self.log_now().slots.iter().map(|slot| slot.dependents).collect()
    }

    pub fn waiting_numbers(&self) -> Vec<u32> {
        self.log_now().waiting().iter().map(|record| record.sequence).collect()
    }

    /// Pushes everything that waits, in issue order.
    pub fn push_all(&mut self) {
        for sequence in self.waiting_numbers() {
            assert_eq!(self.push(sequence as u64), Ok(0));
        }
    }
}

pub fn waiting(record: Record) -> Slot {
    Slot { state: State::Waiting, dependents: 1 << record.program, record }
}

pub fn lost(record: Record) -> Slot {
    Slot { state: State::Lost, dependents: 0, record }
}

pub fn forder_record(sequence: u32, program: u8, list: &[u16]) -> Record {
    Record { sequence, program, list: list.to_vec(), ..Record::blank(Kind::Forder) }
}

pub fn set_length_record(sequence: u32, program: u8, object: u16, length: u32) -> Record {
    Record { sequence, program, object, offset: length, ..Record::blank(Kind::SetLength) }
}

/// A small generator of numbers for random runs.
pub struct Random(pub u64);

impl Random {
    pub fn next(&mut self) -> u64 {
        self.0 = self.0.wrapping_add(0x9e37_79b9_7f4a_7c15);
        let mut mixed = self.0;
        mixed = (mixed ^ (mixed >> 30)).wrapping_mul(0xbf58_476d_1ce4_e5b9);
        mixed = (mixed ^ (mixed >> 27)).wrapping_mul(0x94d0_49bb_1331_11eb);
        mixed ^ (mixed >> 31)
    }

    pub fn below(&mut self, limit: u64) -> u64 {
        self.next() % limit
    }

    pub fn chance(&mut self, percent: u64) -> bool {
        self.below(100) < percent
    }

    pub fn pick<'a, T>(&mut self, from: &'a [T]) -> &'a T {
        &from[self.below(from.len() as u64) as usize]
    }
}
