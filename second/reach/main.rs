//! Measures what a corpus of scripts reaches: every call accepted and refused with each number that it can give,
//! every kind of pair in the precedence rule, writes across the end of a file, names in another spelling, every byte in
//! a name, and both removals. Give it script files; it prints a table, then what is missing, and ends with 1 if anything is.
#![forbid(unsafe_code)]

mod across;
mod calls;
mod name_bytes;
mod pairs;
mod removal;
mod sends;
mod spelling;

use across::Across;
use calls::Calls;
use name_bytes::NameBytes;
use pairs::Pairs;
use removal::Removal;
use second::player::{Outcome, Player};
use second::script::{lines, parse, Line};
use sends::Sends;
use spelling::Spelling;
use std::io::Write;

/// All that is measured over the scripts.
#[derive(Default)]
struct Reach {
    calls: Calls,
    pairs: Pairs,
    sends: Sends,
    across: Across,
    spelling: Spelling,
    name_bytes: NameBytes,
    removal: Removal,
    lines: usize,
    bad_lines: usize,
}

impl Reach {
    /// Plays one script and notes every call with what stood before and after it.
    fn play(&mut self, script: &[u8]) {
        let mut player = Player::default();
        self.pairs.begin();
        self.across.begin();
        self.removal.begin();
        for line in lines(script) {
            self.lines += 1;
            let before = player.clone();
            match player.play_line(line) {
                Outcome::Bad => {
                    self.bad_lines += 1;
                    return;
                }
                Outcome::Silent => (),
                Outcome::Prints(text) => {
                    if let Line::Command(name, arguments) = parse(line) {
                        let code = text.split(' ').next().unwrap_or("");
                        self.note(name, &arguments, code, before, &mut player);
                    }
                }
            }
        }
    }

    fn note(
        &mut self,
        name: &'static str,
        arguments: &[second::script::Argument],
        code: &str,
        mut before: Player,
        after: &mut Player,
    ) {
        let Some(code) = code.parse().ok().filter(|_| calls::possible(name).is_some()) else { return };
        let damaged = before.lend().look().damaged();
        self.calls.note(name, code, damaged);
        self.spelling.note(name, arguments, code, &before);
        self.name_bytes.note(name, arguments, code, &before);
        let old = sends::log_of(&mut before);
        let new = sends::log_of(after);
        if let (Some(old), Some(new)) = (old, new) {
            self.pairs.note(name, arguments, code, &old, &new);
            self.sends.note(name, arguments, code, damaged, &old);
            self.across.note(name, arguments, code, &mut before, (&old, &new));
            if !damaged {
                self.spelling.note_sends(name, arguments, code, &before, (&old, &new));
                self.removal.note(name, arguments, code, &before, (&old, &new));
            }
        }
        if name == "record" {
            self.sends.note_record(arguments, code);
        }
    }

    fn missing(&self) -> Vec<String> {
        let mut missing = self.calls.missing();
        missing.extend(self.pairs.missing());
        missing.extend(self.sends.missing());
        missing.extend(self.across.missing());
        missing.extend(self.spelling.missing());
        missing.extend(self.name_bytes.missing());
        missing.extend(self.removal.missing());
        if self.bad_lines == 0 {
            missing.push("a bad line".to_string());
        }
        missing
    }
}

fn main() -> std::io::Result<()> {
    let mut reach = Reach::default();
    let files: Vec<String> = std::env::args().skip(1).collect();
    for file in &files {
        reach.play(&std::fs::read(file)?);
    }
    let missing = reach.missing();
    let mut text =
        format!("{} scripts, {} lines, {} ending in a bad line\n", files.len(), reach.lines, reach.bad_lines);
    text += &(reach.calls.table() + &reach.pairs.table() + &reach.sends.table() + &reach.across.table());
    text += &(reach.spelling.table() + &reach.name_bytes.table() + &reach.removal.table());
    missing.iter().for_each(|what| text += &format!("missing: {what}\n"));
    if missing.is_empty() {
        text += "nothing is missing\n";
    }
    std::io::stdout().write_all(text.as_bytes())?;
    std::process::exit(i32::from(!missing.is_empty()));
}
