//! That the proved functions answer as the second program does and leave the same bytes, and that the logs are as they are
//! meant to be.

use crate::history::{geometry, Buffers, Logs, M, MIDDLE, PROGRAM, ROOT, SELDOM};
use crate::proved;
use crate::second_log::{self, needed, read};
use second::geometry::{BLOCK, LONGEST_RECORD};
use second::log::Log;
use second::order::has_predecessor;
use second::record::{Kind, Record};
use second::volume::Volume;

/// Ends the run if what is expected does not hold.
fn expect(holds: bool, what: &str) {
    if !holds {
        eprintln!("wrong: {what}");
        std::process::exit(1);
    }
}

/// Tries every function on the logs.
pub fn try_all(logs: &Logs) {
    for buffers in [&logs.empty, &logs.linked, &logs.loose] {
        try_form(&buffers.log);
    }
    for buffers in [&logs.linked, &logs.loose] {
        try_preceded(&buffers.log);
        for object in [ROOT, SELDOM] {
            try_note(buffers, object);
            try_fsync(buffers, object, M);
            try_fsync(buffers, object, 10);
        }
    }
    try_fsync(&damaged(&logs.linked), ROOT, M);
    try_push(&logs.linked);
    try_discard_and_take(&logs.linked);
    println!("the proved functions answer as the second program does, and leave the same bytes");
    try_logs(&read(&logs.linked.log), &read(&logs.loose.log));
}

/// Both form checks accept a log, and refuse it with a stray byte at its end.
fn try_form(log: &[u8]) {
    expect(proved::form(log) && second_log::form(log).is_some(), "form of a log");
    let mut stray = log.to_vec();
    stray[log.len() - 1] = 1;
    expect(!proved::form(&stray) && second_log::form(&stray).is_none(), "form of a log with a stray byte");
}

/// Both push tests answer alike for each slot.
fn try_preceded(log: &[u8]) {
    let known = read(log);
    let waiting = known.waiting();
    for (i, record) in waiting.iter().enumerate() {
        expect(proved::preceded(log, i) == has_predecessor(&waiting, record), &format!("push test of slot {i}"));
    }
}

/// Dependence is noted as by a call of the second program that has the object as its operand.
fn try_note(buffers: &Buffers, object: usize) {
    let (mut ours, mut theirs) = (buffers.clone(), buffers.clone());
    proved::note(&mut ours.log, PROGRAM, object);
    second::stat(&mut theirs.lent(), PROGRAM as u64, object as u64).expect("an object");
    expect(ours.log == theirs.log, &format!("note of object {object}"));
}

/// Fsync with a link that carries k sends.
fn try_fsync(buffers: &Buffers, object: usize, k: usize) {
    let what = format!("fsync of object {object} with {k} sends");
    let (mut ours, mut theirs) = (buffers.clone(), buffers.clone());
    let (number, sends) = proved::fsync(&mut ours.server, &mut ours.log, PROGRAM, object, k);
    let answer = second::fsync(&mut theirs.lent(), PROGRAM as u64, object as u64, k as u64);
    expect(number as u64 == answer.refusal.map_or(0, |refusal| refusal.number()), &what);
    expect(sends as u64 == answer.sends, &what);
    expect(ours.log == theirs.log && ours.server == theirs.server, &what);
}

/// The same with a server on which the operation of the middle slot does not apply.
fn damaged(buffers: &Buffers) -> Buffers {
    let mut damaged = buffers.clone();
    Volume::over(geometry(), &mut damaged.server[..]).put_length(SELDOM, MIDDLE / 64 * BLOCK);
    damaged
}

/// A push of the first operation, whose sequence number is 1.
fn try_push(buffers: &Buffers) {
    let (mut ours, mut theirs) = (buffers.clone(), buffers.clone());
    expect(proved::push(&mut ours.server, &mut ours.log, 0), "push");
    second::push(&mut theirs.lent(), 1).expect("an operation without predecessor");
    expect(ours.log == theirs.log && ours.server == theirs.server, "push");
}

/// A cut, and a take of the first loss after it.
fn try_discard_and_take(buffers: &Buffers) {
    let (mut ours, mut theirs) = (buffers.clone(), buffers.clone());
    proved::discard(&mut ours.log);
    second::cut(&mut theirs.lent()).expect("a cut");
    expect(ours.log == theirs.log, "discard");

    let program = read(&ours.log).slots[0].record.program as usize;
    let [mut record, mut loss] = [[0; LONGEST_RECORD]; 2];
    proved::take(&mut ours.log, program, &mut record);
    second::take(&mut theirs.lent(), program as u64, &mut loss).expect("a loss");
    expect(ours.log == theirs.log && record == loss, "take");
}

/// What an fsync needs in the logs, and which slots have no predecessor.
fn try_logs(linked: &Log, loose: &Log) {
    let (all, few) = (needed(linked, ROOT).len(), needed(loose, SELDOM).len());
    expect(all == M && few == M / 64, "what an fsync needs");
    let is_first = |log: &Log, i: usize| !has_predecessor(&log.waiting(), &log.slots[i].record);
    expect(is_first(linked, MIDDLE) && is_first(loose, M - 1), "slots without predecessor");
    println!("an fsync of the root needs {all} operations, one of a file seldom used {few}; the log has");
    println!("{}", kinds(linked));
    let [data, names] = [lengths(linked, |record| &record.data), lengths(linked, |record| &record.name)];
    println!("data of {data} bytes, names of {names} bytes");
}

/// How many operations of each kind a log has.
fn kinds(log: &Log) -> String {
    let count = |kind| log.slots.iter().filter(|slot| slot.record.kind == kind).count();
    let displacing = log.slots.iter().filter(|slot| slot.record.displaced.is_some()).count();
    let counts: Vec<String> = Kind::ALL.into_iter().map(|kind| format!("{kind:?} {}", count(kind))).collect();
    format!("{}; {displacing} of the renames displace an object", counts.join(", "))
}

/// The least and the greatest length of a field, where it stands.
fn lengths(log: &Log, field: fn(&Record) -> &Vec<u8>) -> String {
    let lengths = || log.slots.iter().map(|slot| field(&slot.record).len()).filter(|&length| length > 0);
    format!("{} to {}", lengths().min().unwrap_or(0), lengths().max().unwrap_or(0))
}
