//! The log: next number, marks and slots (document 01, "Geometry and stored form").
//! It is read whole from its buffer, changed, and written back whole.

use crate::bytes::{all_zero, get_u32, put_u32};
use crate::geometry::{Geometry, LOG_HEAD, SLOT};
use crate::order;
use crate::record::Record;

/// The next number after which no change is possible (refusal 14).
pub const SPENT: u32 = 4_294_967_295;

const STATE_WAITING: u8 = 1;
const STATE_LOST: u8 = 2;
/// Where the dependents and the record begin in a slot.
pub const DEPENDENTS_AT: usize = 4;
pub const RECORD_AT: usize = 8;

#[derive(Clone, Copy, PartialEq, Eq, Debug)]
pub enum State {
    Waiting,
    Lost,
}

/// A used slot.
#[derive(Clone, PartialEq, Eq, Debug)]
pub struct Slot {
    pub state: State,
    pub dependents: u32,
    pub record: Record,
}

/// A log with its used slots; the free ones up to m are understood.
#[derive(Clone, PartialEq, Eq, Debug, Default)]
pub struct Log {
    pub next: u32,
    pub marks: u32,
    pub slots: Vec<Slot>,
}

impl Log {
    /// The log as mount begins it.
    pub fn empty() -> Log {
        Log { next: 1, marks: 0, slots: Vec::new() }
    }

    /// Reads a log from its buffer; none if its form is broken.
    pub fn read(geometry: &Geometry, bytes: &[u8]) -> Option<Log> {
        let mut log = Log { next: get_u32(bytes, 0), marks: get_u32(bytes, 4), slots: Vec::new() };
        let mut free_before = false;
        for stored in bytes[LOG_HEAD..].chunks(SLOT) {
            if all_zero(stored) {
                free_before = true;
            } else if free_before {
                return None;
            } else {
                log.slots.push(read_slot(geometry, stored)?);
            }
        }
        log.in_order().then_some(log)
    }

    /// Rising sequence, the lost before the waiting, all below the next number, which is at least 1.
    fn in_order(&self) -> bool {
        let pairs = || self.slots.windows(2);
        self.next >= 1
            && pairs().all(|pair| pair[0].record.sequence < pair[1].record.sequence)
            && pairs().all(|pair| !(pair[0].state == State::Waiting && pair[1].state == State::Lost))
            && self.slots.iter().all(|slot| slot.record.sequence < self.next)
    }

    /// Writes the log over its whole buffer.
    pub fn write(&self, bytes: &mut [u8]) {
        bytes.fill(0);
        put_u32(bytes, 0, self.next);
        put_u32(bytes, 4, self.marks);
        for (slot, stored) in self.slots.iter().zip(bytes[LOG_HEAD..].chunks_mut(SLOT)) {
            let record = slot.record.to_bytes();
            stored[0] = if slot.state == State::Waiting { STATE_WAITING } else { STATE_LOST };
            put_u32(stored, DEPENDENTS_AT, slot.dependents);
            stored[RECORD_AT..RECORD_AT + record.len()].copy_from_slice(&record);
        }
    }

    /// The waiting operations in issue order.
    pub fn waiting(&self) -> Vec<&Record> {
        self.slots.iter().filter(|slot| slot.state == State::Waiting).map(|slot| &slot.record).collect()
    }

    /// The waiting operation of a sequence number.
    pub fn find_waiting(&self, sequence: u64) -> Option<&Record> {
        self.waiting().into_iter().find(|record| record.sequence as u64 == sequence)
    }

    /// The earliest loss of a program.
    pub fn first_loss(&self, program: u64) -> Option<&Record> {
        let lost = self.slots.iter().find(|slot| slot.state == State::Lost && slot.record.program as u64 == program);
        lost.map(|slot| &slot.record)
    }

    /// The slots that are still free; a lost operation uses its slot as a waiting one does.
    pub fn free_slots(&self, geometry: &Geometry) -> usize {
        geometry.m - self.slots.len()
    }

    /// How many operations can still be numbered.
    pub fn numbers_left(&self) -> usize {
        (SPENT - self.next) as usize
    }

    pub fn is_marked(&self, program: u64) -> bool {
        self.marks >> program & 1 == 1
    }

    /// Frees the slot of a sequence number; the later slots move down.
    pub fn free(&mut self, sequence: u32) {
        self.slots.retain(|slot| slot.record.sequence != sequence);
    }

    /// Notes that a successful call of the program has these operands: it now depends on every waiting
    /// operation that touches one of them, directly or through a chain (document 01, "Order and dependence").
    pub fn note(&mut self, program: u8, operands: &[u16]) {
        let reached: Vec<u32> =
            order::reaching(&self.waiting(), operands).iter().map(|record| record.sequence).collect();
        for slot in &mut self.slots {
            if slot.state == State::Waiting && reached.contains(&slot.record.sequence) {
                slot.dependents |= 1 << program;
            }
        }
    }

    /// Adds a waiting operation, on which its own program depends.
    pub fn add(&mut self, record: Record) {
        self.next += 1;
        self.slots.push(Slot { state: State::Waiting, dependents: 1 << record.program, record });
    }

    /// Turns all waiting operations into lost ones and marks their dependents.
    pub fn cut(&mut self) {
        for slot in self.slots.iter_mut().filter(|slot| slot.state == State::Waiting) {
            self.marks |= slot.dependents;
            slot.dependents = 0;
            slot.state = State::Lost;
        }
    }
}

/// Reads a slot that is not free: state, 3 zero bytes, dependents, a record that fits, zeros.
fn read_slot(geometry: &Geometry, stored: &[u8]) -> Option<Slot> {
    let state = match stored[0] {
        STATE_WAITING => State::Waiting,
        STATE_LOST => State::Lost,
        _ => return None,
    };
    let dependents = get_u32(stored, DEPENDENTS_AT);
    let (record, length) = Record::from_bytes(&stored[RECORD_AT..])?;
    let good = all_zero(&stored[1..DEPENDENTS_AT])
        && (state == State::Waiting || dependents == 0)
        && record.fits(geometry)
        && all_zero(&stored[RECORD_AT + length..]);
    good.then_some(Slot { state, dependents, record })
}
