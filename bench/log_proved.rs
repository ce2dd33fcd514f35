//! The proved functions of the log, as bench/log_entries.txt exports them, on the slices that they are lent.

use crate::history::{B, M, N};
use second::geometry::LOG_HEAD;

// A slice goes to Rattle as its address and its length.
extern "C" {
    fn bench_form(log: *const u8, length: usize, n: usize, b: usize, m: usize) -> bool;
    fn bench_note(log: *mut u8, length: usize, m: usize, program: usize, object: usize);
    fn bench_preceded(slots: *const u8, length: usize, i: usize) -> bool;
    fn bench_fsync(
        server: *mut u8,
        server_length: usize,
        log: *mut u8,
        log_length: usize,
        n: usize,
        b: usize,
        m: usize,
        program: usize,
        object: usize,
        k: usize,
        sends: *mut usize,
    ) -> usize;
    fn bench_push(
        server: *mut u8,
        server_length: usize,
        log: *mut u8,
        log_length: usize,
        n: usize,
        b: usize,
        m: usize,
        i: usize,
    ) -> bool;
    fn bench_discard(log: *mut u8, length: usize, m: usize);
    fn bench_loss_of(slots: *const u8, length: usize, program: usize) -> usize;
    fn bench_take(log: *mut u8, length: usize, m: usize, i: usize, own: *mut u8, room: usize) -> usize;
}

/// Whether a log is well formed.
#[inline(never)]
pub fn form(log: &[u8]) -> bool {
    unsafe { bench_form(log.as_ptr(), log.len(), N, B, M) }
}

/// Notes dependence on a well-formed log.
#[inline(never)]
pub fn note(log: &mut [u8], program: usize, object: usize) {
    unsafe { bench_note(log.as_mut_ptr(), log.len(), M, program, object) }
}

/// Whether a predecessor waits, in a log whose slots are all used.
#[inline(never)]
pub fn preceded(log: &[u8], i: usize) -> bool {
    let slots = &log[LOG_HEAD..];
    unsafe { bench_preceded(slots.as_ptr(), slots.len(), i) }
}

/// Fsync's part that sends, on a well-formed server and log: the number returned and the sends.
#[inline(never)]
pub fn fsync(server: &mut [u8], log: &mut [u8], program: usize, object: usize, k: usize) -> (usize, usize) {
    let (on, from) = ((server.as_mut_ptr(), server.len()), (log.as_mut_ptr(), log.len()));
    let mut sends = 0;
    let number = unsafe { bench_fsync(on.0, on.1, from.0, from.1, N, B, M, program, object, k, &mut sends) };
    (number, sends)
}

/// Sends the waiting operation at a position and frees its slot, on a well-formed server and log.
#[inline(never)]
pub fn push(server: &mut [u8], log: &mut [u8], i: usize) -> bool {
    unsafe { bench_push(server.as_mut_ptr(), server.len(), log.as_mut_ptr(), log.len(), N, B, M, i) }
}

/// Cut's part of a well-formed log.
#[inline(never)]
pub fn discard(log: &mut [u8]) {
    unsafe { bench_discard(log.as_mut_ptr(), log.len(), M) }
}

/// Finds the earliest loss of a program in a log whose slots are all used, and takes it: how many bytes it has.
#[inline(never)]
pub fn take(log: &mut [u8], program: usize, buffer: &mut [u8]) -> usize {
    let slots = &log[LOG_HEAD..];
    let i = unsafe { bench_loss_of(slots.as_ptr(), slots.len(), program) };
    unsafe { bench_take(log.as_mut_ptr(), log.len(), M, i, buffer.as_mut_ptr(), buffer.len()) }
}
