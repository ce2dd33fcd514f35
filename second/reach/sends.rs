//! Which kinds of operation were sent, which did not apply, and which records were read.

use second::geometry::Geometry;
use second::log::Log;
use second::order::with_predecessors;
use second::player::Player;
use second::record::{Kind, Record};
use second::script::Argument;
use std::collections::BTreeMap;

/// The log as it stands, if the buffers are in order.
pub fn log_of(player: &mut Player) -> Option<Log> {
    let [n, b, m] = player.given;
    let geometry = Geometry::new(n, b, m)?;
    let lent = player.lend();
    (lent.log.len() == geometry.log_length()).then(|| Log::read(&geometry, lent.log))?
}

#[derive(Default)]
pub struct Sends(BTreeMap<(String, &'static str), usize>);

impl Sends {
    /// Notes a push, by kind and map: sent, or found not to apply; of an fsync, the one found not to apply.
    pub fn note(&mut self, name: &str, arguments: &[Argument], code: u64, damaged: bool, old: &Log) {
        if damaged || ![0, 2].contains(&code) {
            return;
        }
        match (name, arguments) {
            ("push", [Argument::Number(sequence)]) => {
                let Some(record) = old.find_waiting(*sequence) else { return };
                self.add(record, if code == 0 { "pushed" } else { "push does not apply" });
            }
            ("fsync", [_, Argument::Number(object), Argument::Number(_)]) if code == 0 => {
                let needed = with_predecessors(&old.waiting(), |record| record.has_operand(*object as u16));
                needed.into_iter().for_each(|record| self.add(record, "sent by fsync"));
            }
            _ => (),
        }
    }

    pub fn note_record(&mut self, arguments: &[Argument], code: u64) {
        let [Argument::Number(place), Argument::Bytes(bytes)] = arguments else { return };
        if code == 0 {
            if let Some((record, _)) = Record::from_bytes(&bytes[*place as usize..]) {
                self.add(&record, "read as a record");
            }
        }
    }

    fn add(&mut self, record: &Record, what: &'static str) {
        *self.0.entry((label(record.kind, record.displaced.is_some()), what)).or_default() += 1;
    }

    fn cells() -> Vec<(String, &'static str)> {
        let mut kinds: Vec<String> = Kind::ALL.iter().map(|&kind| label(kind, false)).collect();
        kinds.push(label(Kind::Rename, true));
        let whats = ["pushed", "push does not apply", "sent by fsync", "read as a record"];
        let all = kinds.iter().flat_map(|kind| whats.map(|what| (kind.clone(), what)));
        all.filter(|(kind, what)| !(*kind == label(Kind::Forder, false) && *what == "push does not apply")).collect()
    }

    pub fn table(&self) -> String {
        let seen = Sends::cells().iter().filter(|cell| self.0.contains_key(cell)).count();
        format!("kinds pushed, not applying, sent by fsync, read as records: {seen} of {}\n", Sends::cells().len())
    }

    pub fn missing(&self) -> Vec<String> {
        let missing = Sends::cells().into_iter().filter(|cell| !self.0.contains_key(cell));
        missing.map(|(kind, what)| format!("{kind} {what}")).collect()
    }
}

fn label(kind: Kind, displacing: bool) -> String {
    if displacing {
        "Rename with a displaced object".to_string()
    } else {
        format!("{kind:?}")
    }
}
