//! Times the proved functions of the log against the form check of the same log and against the second program, by turns, and
//! measures the stack that each takes. The log is full: 1,024 operations wait, for 256 objects and 64 blocks a file
//! (log_history.rs). The only argument is the number of turns, or `stack` for the stack alone.
//! The exit status is 1 if a function gives a wrong answer, and 0 whatever the times are.

#[path = "log_answers.rs"]
mod answers;
#[path = "log_history.rs"]
mod history;
#[path = "log_proved.rs"]
mod proved;
#[path = "log_second.rs"]
mod second_log;
#[path = "log_stack.rs"]
mod stack;

use history::{Buffers, Logs, M, MIDDLE, PROGRAM, ROOT, SELDOM};
use second::geometry::LONGEST_RECORD;
use second::order::has_predecessor;
use second_log::read;
use std::hint::black_box;
use std::time::{Duration, Instant};

/// The floor: every byte is read once and nothing else is done.
#[inline(never)]
fn floor(bytes: &[u8]) -> u8 {
    let mut seen = 0;
    for byte in bytes {
        seen |= byte;
    }
    seen
}

/// The time of one run, without that in which its result is dropped.
fn time<R>(run: impl FnOnce() -> R) -> Duration {
    let start = Instant::now();
    let result = black_box(run());
    let time = start.elapsed();
    drop(result);
    time
}

/// The time of one run on a log that is only read. The floor goes before it, so that every run finds the caches alike.
fn time_on<R>(log: &[u8], run: impl FnOnce(&[u8]) -> R) -> Duration {
    black_box(floor(black_box(log)));
    time(|| run(black_box(log)))
}

/// The same on a log that is changed, and first put back.
fn time_over<R>(from: &[u8], log: &mut [u8], run: impl FnOnce(&mut [u8]) -> R) -> Duration {
    log.copy_from_slice(from);
    black_box(floor(black_box(log)));
    time(|| run(black_box(log)))
}

/// Three runs by turns: the best of each, in microseconds.
fn race(turns: usize, mut runs: [&mut dyn FnMut() -> Duration; 3]) -> [f64; 3] {
    let mut best = [Duration::MAX; 3];
    for _ in 0..turns {
        for (best, run) in best.iter_mut().zip(&mut runs) {
            *best = run().min(*best);
        }
    }
    best.map(|time| time.as_secs_f64() * 1e6)
}

/// The floor, the proved form check and the second program's.
fn form(turns: usize, log: &[u8]) -> [f64; 3] {
    let second = second_log::form;
    race(turns, [&mut || time_on(log, floor), &mut || time_on(log, proved::form), &mut || time_on(log, second)])
}

// In the other races the form check runs first, and the second program works on the log as it has read it.

/// Dependence that a call on an object brings.
fn note(turns: usize, from: &[u8], object: usize) -> [f64; 3] {
    let (mut log, before) = (from.to_vec(), read(from));
    let mut ours = || time_over(from, &mut log, |log| proved::note(log, PROGRAM, object));
    let mut theirs = || {
        let mut after = before.clone();
        time(|| after.note(PROGRAM as u8, &[object as u16]))
    };
    race(turns, [&mut || time_on(from, proved::form), &mut ours, &mut theirs])
}

/// The push test of a slot.
fn preceded(turns: usize, log: &[u8], i: usize) -> [f64; 3] {
    let before = read(log);
    let mut ours = || time_on(log, |log| proved::preceded(log, i));
    let mut theirs = || time(|| has_predecessor(&before.waiting(), &before.slots[i].record));
    race(turns, [&mut || time_on(log, proved::form), &mut ours, &mut theirs])
}

/// An fsync that the link carries.
fn fsync(turns: usize, from: &Buffers, object: usize) -> [f64; 3] {
    let (mut log, before) = (from.log.clone(), read(&from.log));
    let [mut server, mut other] = [from.server.clone(), from.server.clone()];
    let mut ours = || {
        server.copy_from_slice(&from.server);
        time_over(&from.log, &mut log, |log| proved::fsync(&mut server, log, PROGRAM, object, M))
    };
    let mut theirs = || {
        other.copy_from_slice(&from.server);
        time(|| second_log::fsync(&mut other, &before, object))
    };
    race(turns, [&mut || time_on(&from.log, proved::form), &mut ours, &mut theirs])
}

/// A push of the first operation. It is an overwrite, so the server need not be put back.
fn push(turns: usize, from: &Buffers) -> [f64; 3] {
    let (mut log, before) = (from.log.clone(), read(&from.log));
    let [mut server, mut other] = [from.server.clone(), from.server.clone()];
    let mut ours = || time_over(&from.log, &mut log, |log| proved::push(&mut server, log, 0));
    let mut theirs = || {
        let mut after = before.clone();
        time(|| second_log::push(&mut other, &mut after))
    };
    race(turns, [&mut || time_on(&from.log, proved::form), &mut ours, &mut theirs])
}

/// Cut's part of the log.
fn discard(turns: usize, from: &[u8]) -> [f64; 3] {
    let (mut log, before) = (from.to_vec(), read(from));
    let mut ours = || time_over(from, &mut log, proved::discard);
    let mut theirs = || {
        let mut after = before.clone();
        time(|| after.cut())
    };
    race(turns, [&mut || time_on(from, proved::form), &mut ours, &mut theirs])
}

/// A take of the first loss, after a cut.
fn take(turns: usize, from: &[u8]) -> [f64; 3] {
    let mut cut = from.to_vec();
    proved::discard(&mut cut);
    let (mut log, before, mut buffer) = (cut.clone(), read(&cut), [0; LONGEST_RECORD]);
    let program = before.slots[0].record.program as usize;
    let mut ours = || time_over(&cut, &mut log, |log| proved::take(log, program, &mut buffer));
    let mut theirs = || {
        let mut after = before.clone();
        time(|| second_log::take(&mut after, program))
    };
    race(turns, [&mut || time_on(&cut, proved::form), &mut ours, &mut theirs])
}

/// The greatest ratio of the proved function to its base, and the least of the second program to it, that the targets allow.
struct Target {
    most: f64,
    ahead: f64,
}

const FREE: Target = Target { most: f64::INFINITY, ahead: 0.0 };

/// Prints a line, and below it what misses a target.
fn line(what: &str, target: Target, [base, proved, second]: [f64; 3]) {
    let (over, ahead) = (proved / base, second / proved);
    println!("{what:40} {base:9.2} {proved:9.2} {second:9.2} {over:12.2} {ahead:14.2}");
    if over > target.most {
        println!("  missed: proved/base is {over:.2}, above {}", target.most);
    }
    if ahead < target.ahead {
        println!("  missed: second/proved is {ahead:.2}, below {}", target.ahead);
    }
}

/// Times every function.
fn measure_times(turns: usize, logs: &Logs) {
    let Logs { empty, linked, loose } = logs;
    let at_most = |most| Target { most, ..FREE };
    println!(
        "logs of {} bytes, best of {turns} turns, in microseconds; the base of the form checks is the",
        empty.log.len()
    );
    println!("floor, that of the other functions the form check of the same log:");
    println!("{:40} {:>9} {:>9} {:>9} {:>12} {:>14}", "", "base", "proved", "second", "proved/base", "second/proved");
    line("form check, empty log", at_most(1.5), form(turns, &empty.log));
    line("form check, full log", Target { ahead: 3.0, ..FREE }, form(turns, &linked.log));
    line("note that reaches all 1,024", at_most(1.0), note(turns, &linked.log, ROOT));
    line("note that reaches 16", at_most(1.0), note(turns, &loose.log, SELDOM));
    line("push test, last slot, no predecessor", at_most(1.0), preceded(turns, &loose.log, M - 1));
    line("push test, last slot, a predecessor", at_most(1.0), preceded(turns, &linked.log, M - 1));
    line("push test, middle slot, no predecessor", at_most(1.0), preceded(turns, &linked.log, MIDDLE));
    line("fsync that sends all 1,024", at_most(20.0), fsync(turns, linked, ROOT));
    line("fsync that sends 16", FREE, fsync(turns, loose, SELDOM));
    line("push of the first", FREE, push(turns, linked));
    line("discard of all 1,024", FREE, discard(turns, &linked.log));
    line("take of the first", FREE, take(turns, &linked.log));
}

/// The most stack that the target allows a function.
const MOST_STACK: usize = 256 << 10;

/// Measures and prints the stack that a call takes.
fn stack_line(what: &str, mut call: impl FnMut()) {
    let used = stack::used(&mut call);
    println!("{what:40} {used:9}");
    if used >= MOST_STACK {
        println!("  missed: not below {MOST_STACK}");
    }
}

/// Measures the stack of the functions that the target names.
fn measure_stack(logs: &Logs) {
    let Buffers { mut server, mut log, .. } = logs.linked.clone();
    println!("stack, in bytes:");
    stack_line("nothing", || ());
    stack_line("form check, full log", || _ = proved::form(&logs.linked.log));
    stack_line("note that reaches all 1,024", || proved::note(&mut log, PROGRAM, ROOT));
    stack_line("push test, last slot, no predecessor", || _ = proved::preceded(&logs.loose.log, M - 1));
    stack_line("fsync that sends all 1,024", || _ = proved::fsync(&mut server, &mut log, PROGRAM, ROOT, M));
}

fn main() {
    let word = std::env::args().nth(1).unwrap_or("100".to_string());
    let logs = Logs::made();
    answers::try_all(&logs);
    if word != "stack" {
        measure_times(word.parse().expect("a number of turns"), &logs);
    }
    measure_stack(&logs);
}
