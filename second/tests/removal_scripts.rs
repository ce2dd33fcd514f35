//! The stored scripts of both removals notice wrong versions of them (document 02, K4). A wrong version plays a line as
//! this program does, and then as another line, or with another answer.

use second::player::{Outcome, Player};
use second::record::{Kind, Record};
use second::script::lines;
use second::volume::{Volume, DIRECTORY, FILE};
use std::collections::BTreeMap;
use std::path::Path;

const SCRIPTS: [&str; 3] = ["removal", "call-rmfile", "call-rmdir"];

/// A line about to be played, with the buffers and the accepted removals before it, these by number.
struct Try<'a> {
    player: &'a mut Player,
    line: &'a str,
    issued: &'a BTreeMap<u64, String>,
}

impl Try<'_> {
    fn words(&self) -> Vec<&str> {
        self.line.split(' ').collect()
    }

    fn number(&self, at: usize) -> usize {
        self.words().get(at).and_then(|word| word.parse().ok()).unwrap_or(usize::MAX)
    }

    fn is(&self, call: &str) -> bool {
        self.words()[0] == call
    }

    fn is_removal(&self) -> bool {
        self.is("rmfile") || self.is("rmdir")
    }

    fn volume(&mut self, area: usize) -> Volume<&[u8]> {
        let geometry = self.player.lend().look().geometry();
        Volume::over(geometry, &self.player.areas[area][..geometry.volume_length()])
    }

    /// The object that a removal's name leads to in the view, where the buffers are in order.
    fn found(&mut self) -> Option<usize> {
        let lent = self.player.lend();
        let (wrong, damaged) = (lent.look().wrong_buffer(), lent.look().damaged());
        let parent = self.number(2);
        if !self.is_removal() || wrong || damaged || parent as u64 >= self.player.given[0] {
            return None;
        }
        let name: Vec<u8> = self.words()[3].as_bytes()[1..]
            .chunks(2)
            .map(|pair| u8::from_str_radix(std::str::from_utf8(pair).unwrap(), 16).unwrap())
            .collect();
        self.volume(1).seek(parent, &name)
    }

    fn found_kind(&mut self) -> Option<(u8, bool)> {
        let object = self.found()?;
        let view = self.volume(1);
        Some((view.kind(object), view.has_children(object)))
    }

    /// Whether a removal finds an object of the other kind.
    fn wrong_removal(&mut self) -> bool {
        let taken = if self.is("rmfile") { FILE } else { DIRECTORY };
        self.found_kind().is_some_and(|(kind, _)| kind != taken)
    }

    /// The waiting operation of kind 3 that a push names.
    fn removal_pushed(&mut self) -> Option<Record> {
        let (is_push, sequence) = (self.is("push"), self.number(1) as u64);
        let lent = self.player.lend();
        let found = lent.look();
        let in_order = is_push && !found.wrong_buffer() && !found.damaged();
        let record = in_order.then(|| found.log().find_waiting(sequence).cloned()).flatten();
        record.filter(|record| record.kind == Kind::Remove)
    }

    fn right(&mut self) -> Outcome {
        self.player.play_line(self.line.as_bytes())
    }

    /// The other removal with the same arguments.
    fn other(&mut self) -> Outcome {
        let call = if self.is("rmfile") { "rmdir" } else { "rmfile" };
        let line = format!("{call} {}", self.words()[1..].join(" "));
        self.player.play_line(line.as_bytes())
    }

    /// The other removal where this holds, else the right one.
    fn other_if(&mut self, holds: bool) -> Outcome {
        if holds {
            self.other()
        } else {
            self.right()
        }
    }

    /// The right answer, or another if that is this number and something holds; nothing changes then.
    fn answer_if(&mut self, number: u64, holds: bool, other: u64) -> Outcome {
        let before = self.player.clone();
        let answer = self.right();
        if !holds || code(&answer) != number {
            return answer;
        }
        *self.player = before;
        Outcome::Prints(if self.is("push") { other.to_string() } else { format!("{other} 0") })
    }

    /// The answer that the other call would give in place of 9 for a wrong removal, if it is this one.
    fn late_if(&mut self, number: u64) -> Outcome {
        if !self.wrong_removal() {
            return self.right();
        }
        let before = self.player.clone();
        let other = code(&self.other());
        *self.player = before;
        self.answer_if(9, other == number, number)
    }
}

fn code(answer: &Outcome) -> u64 {
    match answer {
        Outcome::Prints(text) => text.split(' ').next().and_then(|word| word.parse().ok()).unwrap_or(0),
        _ => 0,
    }
}

/// Plays a line in a wrong way.
type Version = fn(&mut Try) -> Outcome;

/// Wrong versions of what each call takes and of the order of its refusals.
const OF_THE_CALLS: [(&str, Version); 19] = [
    ("each takes both kinds", |t| {
        let holds = t.wrong_removal();
        t.other_if(holds)
    }),
    ("the two swapped", |t| t.other_if(t.is_removal())),
    ("remove file takes empty directories", |t| {
        let holds = t.is("rmfile") && t.found_kind() == Some((DIRECTORY, false));
        t.other_if(holds)
    }),
    ("remove directory takes files", |t| {
        let holds = t.is("rmdir") && t.found_kind() == Some((FILE, false));
        t.other_if(holds)
    }),
    ("the server's object is judged", |t| {
        let found = t.found();
        let kind = found.map(|object| t.volume(1).kind(object));
        let on_server = found.map(|object| t.volume(0).kind(object)).filter(|&kind| kind != 0);
        t.other_if(on_server.is_some() && on_server != kind)
    }),
    ("a wrong removal only by the stored spelling", |t| {
        let stored = t.found().map(|object| second::script::to_hexadecimal(t.volume(1).name(object)));
        let holds = t.wrong_removal() && stored.as_deref() != t.words().get(3).copied();
        t.other_if(holds)
    }),
    ("11 before 9", |t| {
        let holds = t.is("rmfile") && t.found_kind() == Some((DIRECTORY, true));
        t.answer_if(9, holds, 11)
    }),
    ("a wrong removal after 11", |t| t.late_if(11)),
    ("a wrong removal after 13", |t| t.late_if(13)),
    ("a wrong removal after 14", |t| t.late_if(14)),
    ("a wrong removal gives 8", |t| {
        let holds = t.wrong_removal();
        t.answer_if(9, holds, 8)
    }),
    ("a wrong removal gives 11", |t| {
        let holds = t.wrong_removal();
        t.answer_if(9, holds, 11)
    }),
    ("a wrong removal before 3", |t| {
        let holds = t.wrong_removal();
        t.answer_if(3, holds, 9)
    }),
    ("a wrong removal before 4", |t| {
        let holds = t.wrong_removal();
        t.answer_if(4, holds, 9)
    }),
    ("a parent that is a file gives 8", |t| {
        let holds = t.is_removal() && t.found().is_none();
        t.answer_if(9, holds, 8)
    }),
    ("an absent name gives 9", |t| {
        let holds = t.is_removal();
        t.answer_if(8, holds, 9)
    }),
    ("remove directory takes one with children", |t| {
        let holds = t.is("rmdir");
        t.answer_if(11, holds, 0)
    }),
    ("a wrong removal brings dependence", |t| {
        let object = t.wrong_removal().then(|| t.found()).flatten();
        let answer = t.right();
        if let (Some(object), 9) = (object, code(&answer)) {
            let question = format!("stat {} {object}", t.words()[1]);
            t.player.play_line(question.as_bytes());
        }
        answer
    }),
    ("a wrong removal takes a number", |t| {
        let wrong = t.wrong_removal();
        let answer = t.right();
        if wrong && code(&answer) == 9 {
            t.player.areas[2][0] = t.player.areas[2][0].wrapping_add(1);
        }
        answer
    }),
];

/// Wrong versions of when kind 3 applies.
const OF_KIND_3: [(&str, Version); 4] = [
    ("kind 3 applies to files alone", |t| pushed_unless(t, |_, kind| kind == FILE)),
    ("kind 3 applies to directories alone", |t| pushed_unless(t, |_, kind| kind == DIRECTORY)),
    ("kind 3 applies to the kind that its call takes", |t| {
        pushed_unless(t, |call, kind| match call {
            "rmfile" => kind == FILE,
            "rmdir" => kind == DIRECTORY,
            _ => true,
        })
    }),
    ("kind 3 applies to directories with children", |t| {
        let record = t.removal_pushed();
        let leads =
            record.is_some_and(|one| t.volume(0).seek(one.parent as usize, &one.name) == Some(one.object as usize));
        t.answer_if(2, leads, 0)
    }),
];

/// A push that gives 2 where an operation of kind 3, by its call and the kind of the server's object, is not let pass.
fn pushed_unless(t: &mut Try, passes: fn(&str, u8) -> bool) -> Outcome {
    let stopped = t.removal_pushed().is_some_and(|record| {
        let call = t.issued.get(&(record.sequence as u64)).map_or("", String::as_str);
        !passes(call, t.volume(0).kind(record.object as usize))
    });
    t.answer_if(0, stopped, 2)
}

/// Whether a version gives other answers than the stored ones of a script.
fn notices(script: &str, version: Version) -> bool {
    let stored = Path::new(env!("CARGO_MANIFEST_DIR")).join("../cases").join(script);
    let answers = std::fs::read_to_string(stored.with_extension("answers")).unwrap();
    let mut expected = answers.lines();
    let (mut player, mut issued) = (Player::default(), BTreeMap::new());
    let text = std::fs::read(stored.with_extension("script")).unwrap();
    let differs = lines(&text).any(|line| {
        let line = std::str::from_utf8(line).unwrap();
        let mut one = Try { player: &mut player, line, issued: &issued };
        let removal = one.is_removal();
        match version(&mut one) {
            Outcome::Silent => false,
            Outcome::Bad => true,
            Outcome::Prints(text) => {
                if let (true, Some(number)) = (removal, text.strip_prefix("0 ")) {
                    issued.insert(number.parse().unwrap(), line.split(' ').next().unwrap().to_string());
                }
                expected.next() != Some(&text)
            }
        }
    });
    differs
}

#[test]
fn the_right_version_gives_the_stored_answers() {
    assert!(SCRIPTS.iter().all(|script| !notices(script, |t| t.right())));
}

#[test]
fn every_wrong_version_gives_others() {
    for (what, version) in OF_THE_CALLS.into_iter().chain(OF_KIND_3) {
        assert!(SCRIPTS.iter().any(|script| notices(script, version)), "{what}");
    }
}
