//! The second program's part in the comparison: what its calls do with a log that it has read, after their tests.

use crate::history::{geometry, PROGRAM};
use second::apply::{applies, apply};
use second::log::Log;
use second::order::with_predecessors;
use second::record::Record;
use second::volume::Volume;

/// Its form check: it reads the log.
#[inline(never)]
pub fn form(log: &[u8]) -> Option<Log> {
    Log::read(&geometry(), log)
}

/// A log as it reads it.
pub fn read(log: &[u8]) -> Log {
    form(log).expect("a well-formed log")
}

/// The operations that an object needs.
pub fn needed(log: &Log, object: usize) -> Vec<&Record> {
    with_predecessors(&log.waiting(), |record| record.has_operand(object as u16))
}

/// Applies an operation to the server if it applies, and says whether it did.
fn send(server: &mut [u8], record: &Record) -> bool {
    let mut volume = Volume::over(geometry(), server);
    let good = applies(&volume, record);
    if good {
        apply(&mut volume, record);
    }
    good
}

/// Fsync, with a link that carries all.
#[inline(never)]
pub fn fsync(server: &mut [u8], before: &Log, object: usize) -> Log {
    let needed = needed(before, object);
    let sent = needed.iter().take_while(|record| send(server, record)).count();
    let mut log = before.clone();
    log.note(PROGRAM as u8, &[object as u16]);
    needed[..sent].iter().for_each(|record| log.free(record.sequence));
    log
}

/// A push of the first operation.
#[inline(never)]
pub fn push(server: &mut [u8], log: &mut Log) {
    let record = log.slots[0].record.clone();
    if send(server, &record) {
        log.free(record.sequence);
    }
}

/// A take of a program's earliest loss: the bytes of its record.
#[inline(never)]
pub fn take(log: &mut Log, program: usize) -> Option<Vec<u8>> {
    let record = log.first_loss(program as u64)?.clone();
    log.free(record.sequence);
    Some(record.to_bytes())
}
