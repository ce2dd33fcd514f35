//! Plays a call script against three areas and prints the answers (the script format's "The buffers" and "The calls").

use crate::geometry::{BLOCK, ENTRY_HEAD, LOG_HEAD, SLOT};
use crate::refusal::Refusal;
use crate::script::{lines, parse, to_hexadecimal, Argument, Line};
use crate::sends::Fsync;
use crate::session::Lent;
use crate::*;

/// The bytes of each area, and the most that `show` prints.
pub const AREA: usize = 32_768;
const LONGEST_SHOW: u64 = 2048;

/// The areas s, v and l, the geometry given and the lengths lent.
#[derive(Clone)]
pub struct Player {
    pub areas: [Vec<u8>; 3],
    pub given: [u64; 3],
    pub lengths: [usize; 3],
}

impl Default for Player {
    fn default() -> Player {
        Player { areas: [vec![0; AREA], vec![0; AREA], vec![0; AREA]], given: [0; 3], lengths: [0; 3] }
    }
}

/// What one line of a script comes to.
#[derive(Clone, PartialEq, Eq, Debug)]
pub enum Outcome {
    Bad,
    Silent,
    Prints(String),
}

/// Plays a whole script and gives what it prints.
pub fn play(script: &[u8]) -> String {
    let mut player = Player::default();
    let mut printed = String::new();
    for (at, line) in lines(script).enumerate() {
        match player.play_line(line) {
            Outcome::Silent => (),
            Outcome::Prints(text) => printed.push_str(&(text + "\n")),
            Outcome::Bad => {
                printed.push_str(&format!("bad line {}\n", at + 1));
                break;
            }
        }
    }
    printed
}

impl Player {
    /// Plays one line, given without its newline.
    pub fn play_line(&mut self, line: &[u8]) -> Outcome {
        match parse(line) {
            Line::Nothing => Outcome::Silent,
            Line::Bad => Outcome::Bad,
            Line::Command(name, arguments) => self.play_command(name, &mut Arguments(arguments.into_iter())),
        }
    }

    /// Plays a command on the buffers itself, and hands on a call.
    fn play_command(&mut self, name: &str, arguments: &mut Arguments) -> Outcome {
        match name {
            "give" => {
                self.given = [arguments.number(), arguments.number(), arguments.number()];
                Outcome::Silent
            }
            "size" => self.size([arguments.number(), arguments.number(), arguments.number()].map(u128::from)),
            "fit" => self.fit(),
            "poke" => self.poke(arguments.area(), arguments.number(), &arguments.bytes()),
            "copy" => {
                let (to, from) = (arguments.area(), arguments.area());
                self.areas[to] = self.areas[from].clone();
                Outcome::Silent
            }
            "show" => self.show(arguments.area(), arguments.number(), arguments.number()),
            "digest" => Outcome::Prints(self.areas.each_ref().map(|area| fnv_1a(area).to_string()).join(" ")),
            _ => Outcome::Prints(self.play_call(name, arguments)),
        }
    }

    fn size(&mut self, lengths: [u128; 3]) -> Outcome {
        if lengths.iter().any(|&length| length > AREA as u128) {
            return Outcome::Bad;
        }
        self.lengths = lengths.map(|length| length as usize);
        Outcome::Silent
    }

    /// Reckons in 128 bits; a product that does not fit there is over the area's length too.
    fn fit(&mut self) -> Outcome {
        let [n, b, m] = self.given.map(u128::from);
        let [entry_head, block, log_head, slot] = [ENTRY_HEAD, BLOCK, LOG_HEAD, SLOT].map(|bytes| bytes as u128);
        let volume = n.saturating_mul(entry_head + block * b);
        self.size([volume, volume, log_head + m * slot])
    }

    fn poke(&mut self, area: usize, at: u64, bytes: &[u8]) -> Outcome {
        if at > (AREA - bytes.len()) as u64 {
            return Outcome::Bad;
        }
        self.areas[area][at as usize..at as usize + bytes.len()].copy_from_slice(bytes);
        Outcome::Silent
    }

    fn show(&self, area: usize, at: u64, length: u64) -> Outcome {
        if length > LONGEST_SHOW || at > AREA as u64 - length {
            return Outcome::Bad;
        }
        Outcome::Prints(to_hexadecimal(&self.areas[area][at as usize..(at + length) as usize]))
    }

    /// Lends the first S, V and L bytes of the areas.
    pub fn lend(&mut self) -> Lent<'_> {
        let [n, b, m] = self.given;
        let [server, view, log] = &mut self.areas;
        let [s, v, l] = self.lengths;
        Lent { n, b, m, server: &mut server[..s], view: &mut view[..v], log: &mut log[..l] }
    }

    fn play_call(&mut self, name: &str, arguments: &mut Arguments) -> String {
        let mut lent = self.lend();
        let lent = &mut lent;
        let mut number = || arguments.number();
        match name {
            "format" => code(format(lent.n, lent.b, lent.m, lent.server)),
            "mount" => code(mount(lent)),
            "stat" => {
                let answer = stat(lent, number(), number());
                with_results(answer.map(|stat| [stat.kind, stat.length, stat.usage]))
            }
            "setlen" => with_result(set_length(lent, number(), number(), number())),
            "push" => code(push(lent, number())),
            "fsync" => fsync_text(fsync(lent, number(), number(), number())),
            "cut" => code(cut(lent)),
            "renew" => code(renew(lent, number())),
            _ => play_bytes_call(lent, name, arguments),
        }
    }
}

/// The calls that are given bytes.
fn play_bytes_call(lent: &mut Lent, name: &str, arguments: &mut Arguments) -> String {
    let first_number = arguments.number();
    match name {
        "lookup" => with_result(lookup(lent, first_number, &arguments.bytes())),
        "list" => {
            let object = arguments.number();
            with_buffer(arguments, |buffer| list(lent, first_number, object, buffer))
        }
        "read" => {
            let (object, offset) = (arguments.number(), arguments.number());
            with_buffer(arguments, |buffer| read(lent, first_number, object, offset, buffer))
        }
        "take" => with_buffer(arguments, |buffer| take(lent, first_number, buffer)),
        "create" | "mkdir" => {
            let (parent, name_bytes, object) = (arguments.number(), arguments.bytes(), arguments.number());
            let call = if name == "create" { create } else { make_directory };
            with_result(call(lent, first_number, parent, &name_bytes, object))
        }
        "rmfile" => with_result(remove_file(lent, first_number, arguments.number(), &arguments.bytes())),
        "rmdir" => with_result(remove_directory(lent, first_number, arguments.number(), &arguments.bytes())),
        "rename" => {
            let (parent, name) = (arguments.number(), arguments.bytes());
            let (second_parent, second_name) = (arguments.number(), arguments.bytes());
            with_result(rename(lent, first_number, (parent, &name), (second_parent, &second_name)))
        }
        "write" => with_result(write(lent, first_number, arguments.number(), arguments.number(), &arguments.bytes())),
        "forder" => with_result(forder(lent, first_number, &arguments.bytes())),
        "record" => {
            let head = read_record(first_number, &arguments.bytes());
            with_results(head.map(|head| [head.next, head.sequence, head.program, head.kind]))
        }
        _ => unreachable!("every command of the table is played"),
    }
}

/// The arguments of a line, whose shape the parser has checked.
struct Arguments(std::vec::IntoIter<Argument>);

impl Arguments {
    fn number(&mut self) -> u64 {
        match self.0.next() {
            Some(Argument::Number(number)) => number,
            other => unreachable!("a number stands here, not {other:?}"),
        }
    }

    fn bytes(&mut self) -> Vec<u8> {
        match self.0.next() {
            Some(Argument::Bytes(bytes)) => bytes,
            other => unreachable!("bytes stand here, not {other:?}"),
        }
    }

    fn area(&mut self) -> usize {
        match self.0.next() {
            Some(Argument::Area(area)) => area,
            other => unreachable!("an area stands here, not {other:?}"),
        }
    }
}

fn code(answer: Result<(), Refusal>) -> String {
    answer.map_or_else(Refusal::number, |()| 0).to_string()
}

fn with_result(answer: Result<u64, Refusal>) -> String {
    with_results(answer.map(|result| [result]))
}

/// The code and the results; the other results of a refusal are 0.
fn with_results<const COUNT: usize>(answer: Result<[u64; COUNT], Refusal>) -> String {
    let (code, results) = match answer {
        Ok(results) => (0, results),
        Err(refusal) => (refusal.number(), [0; COUNT]),
    };
    results.iter().fold(code.to_string(), |text, result| format!("{text} {result}"))
}

fn with_buffer(arguments: &mut Arguments, call: impl FnOnce(&mut [u8]) -> Result<u64, Refusal>) -> String {
    let mut buffer = arguments.bytes();
    let text = with_result(call(&mut buffer));
    format!("{text} {}", to_hexadecimal(&buffer))
}

fn fsync_text(answer: Fsync) -> String {
    format!("{} {}", answer.refusal.map_or(0, Refusal::number), answer.sends)
}

/// FNV-1a in 64 bits.
fn fnv_1a(bytes: &[u8]) -> u64 {
    bytes.iter().fold(0xcbf2_9ce4_8422_2325, |hash, &byte| (hash ^ byte as u64).wrapping_mul(0x100_0000_01b3))
}
