//! Well-formed logs that no run produces, poked into the buffer and then used; views that differ from what server and
//! log say; and removals of what the server has as the other kind.

use crate::builder::{hex, Builder};
use crate::records::valid;
use crate::runs;
use second::apply::{applies, apply};
use second::geometry::{ENTRY_HEAD, LOG_HEAD, SLOT};
use second::log::{Log, Slot, State};
use second::record::Record;
use second::volume::{Volume, FILE, LENGTH_AT};

pub fn logs(builder: &mut Builder) {
    let (n, b, m) = builder.random.pick(&[(7, 1, 8), (6, 2, 6), (9, 1, 12), (8, 1, 10)]);
    builder.comment(&format!("Logs that no run produces, with n = {n}, b = {b}, m = {m}."));
    builder.begin(n, b, m);
    runs::populate(builder);
    for _ in 0..10 {
        builder.comment("Another log over the server volume as it stands.");
        builder.say("mount");
        let sensible = builder.random.pick(&[0, 60, 90]);
        poke_log(builder, sensible);
        builder.say("digest");
        use_log(builder);
    }
    builder.comment("A server that already has what waits, and a view that lacks it.");
    for areas in ["s v", "v s"] {
        builder.say("mount");
        for program in 0..5 {
            runs::change(builder, program);
        }
        builder.say(&format!("copy {areas}"));
        use_log(builder);
    }
    builder.comment("A waiting removal of what the server has as the other kind, now and then with a child.");
    for _ in 0..2 {
        turned(builder);
    }
}

/// Removes a short file or an empty directory, turns it on the server into an empty one of the other kind, and pushes.
fn turned(builder: &mut Builder) {
    builder.say("mount");
    let view = builder.view();
    let small = |&object: &usize| !view.is_free(object) && !view.has_children(object) && view.length(object) <= 12;
    let removable: Vec<usize> = (1..view.geometry.n).filter(small).collect();
    let free = builder.free();
    if removable.is_empty() {
        return;
    }
    let object = builder.random.pick(&removable);
    let (parent, name) = builder.place_of(object as u64);
    let (file, length) = (builder.view().is_file(object), builder.view().length(object));
    let entry = builder.geometry().entry_length();
    builder.say(&format!("{} 1 {parent} {}", if file { "rmfile" } else { "rmdir" }, hex(&name)));
    builder.say(&format!("poke s {} {}", object * entry, if file { "=02" } else { "=01" }));
    if length > 0 {
        let zeros = vec![0; ENTRY_HEAD - LENGTH_AT + length];
        builder.say(&format!("poke s {} {}", object * entry + LENGTH_AT, hex(&zeros)));
    }
    if file && !free.is_empty() && builder.random.chance(30) {
        let child = builder.random.pick(&free) as usize;
        builder.say(&format!("poke s {} {}", child * entry, hex(&[FILE, 1, object as u8, 0, b'z'])));
    }
    builder.say("push 1");
    builder.say("digest");
}

/// Writes a random log: lost slots, then waiting ones, rising numbers with gaps, any dependents and marks.
/// The given share of the waiting ones makes sense one after another.
fn poke_log(builder: &mut Builder, sensible: u64) {
    let geometry = builder.geometry();
    let count = builder.random.between(geometry.m as u64 / 2, geometry.m as u64) as usize;
    let lost = builder.random.below(count as u64 / 2 + 1) as usize;
    let mut sequence = builder.random.pick(&[0, 0, 5, 4_294_967_200]);
    let mut server = builder.area("s")[..geometry.volume_length()].to_vec();
    let mut slots = Vec::new();
    for at in 0..count {
        sequence += builder.random.between(1, 3) as u32;
        let mut record = choose(builder, &mut server, at >= lost && sensible > 0, sensible);
        record.sequence = sequence;
        let state = if at < lost { State::Lost } else { State::Waiting };
        let any = builder.random.number() as u32;
        let own = 1 << record.program;
        let dependents = if at < lost { 0 } else { builder.random.pick(&[own, own, 0, any & any >> 7, u32::MAX]) };
        slots.push(Slot { state, dependents, record });
    }
    let marks = builder.random.pick(&[0, 0, 4, 8, 1 << 31]);
    let next = builder.random.pick(&[sequence + 1, sequence + 9, 4_294_967_295]);
    let mut bytes = vec![0; geometry.log_length()];
    Log { next, marks, slots }.write(&mut bytes);
    builder.poke("l", 0, &bytes[..LOG_HEAD]);
    for slot in 0..count {
        let at = LOG_HEAD + slot * SLOT;
        builder.poke("l", at, &bytes[at..at + SLOT]);
    }
}

/// Any valid record, or one of many tries that applies to the volume, which it then alters.
fn choose(builder: &mut Builder, server: &mut [u8], waits: bool, sensible: u64) -> Record {
    let geometry = builder.geometry();
    let (n, longest) = (geometry.n as u64, geometry.longest_file() as u64);
    let mut record = valid(&mut builder.random, n, longest);
    if waits && builder.random.chance(sensible) {
        let mut volume = Volume::over(geometry, server);
        let wanted = record.kind;
        for _ in 0..400 {
            if record.kind == wanted && applies(&volume, &record) {
                apply(&mut volume, &record);
                break;
            }
            record = valid(&mut builder.random, n, longest);
        }
    }
    record
}

/// Sends, asks, cuts and takes over the poked log.
fn use_log(builder: &mut Builder) {
    for _ in 0..3 {
        let program = builder.random.pick(&[0, 1, 3, 31]);
        runs::question(builder, program);
    }
    for _ in 0..14 {
        let program = builder.random.pick(&[0, 1, 3, 31]);
        match builder.random.below(10) {
            0..=4 => runs::push(builder),
            5..=6 => runs::send(builder, program),
            7 => runs::change(builder, program),
            _ => {
                let waiting = builder.waiting();
                let object = builder.random.pick(&builder.used());
                let sends = builder.random.between(0, waiting.len() as u64 + 1);
                builder.call(&format!("fsync {program} {object} {sends}"));
            }
        }
    }
    builder.call("cut");
    runs::lose(builder, &mut 0, 4);
}
