//! Builds a script line by line and plays each line as it is added, so that the next one can suit the state.

use crate::random::Random;
use second::geometry::{self, Geometry};
use second::log::Log;
use second::order::with_predecessors;
use second::player::{Outcome, Player};
use second::record::Record;
use second::script::to_hexadecimal;
use second::volume::Volume;

/// The bytes of one block, as wide as the offsets and lengths of calls.
pub const BLOCK: u64 = geometry::BLOCK as u64;

pub struct Builder {
    pub seed: u64,
    pub random: Random,
    pub player: Player,
    text: String,
    calls: usize,
}

impl Builder {
    pub fn new(seed: u64) -> Builder {
        Builder { seed, random: Random::new(seed), player: Player::default(), text: String::new(), calls: 0 }
    }

    pub fn text(&self) -> &str {
        &self.text
    }

    pub fn comment(&mut self, text: &str) {
        self.text += &format!("# {text}\n");
    }

    /// Adds a line and gives the code that it prints, or 0.
    pub fn say(&mut self, line: &str) -> u64 {
        self.text += &format!("{line}\n");
        match self.player.play_line(line.as_bytes()) {
            Outcome::Prints(text) => text.split(' ').next().and_then(|word| word.parse().ok()).unwrap_or(0),
            _ => 0,
        }
    }

    /// Adds a call, and a digest after every few.
    pub fn call(&mut self, line: &str) -> u64 {
        let code = self.say(line);
        self.calls += 1;
        if self.calls.is_multiple_of(6) {
            self.say("digest");
        }
        code
    }

    /// Adds a line as it is, without playing it or a newline of its own.
    pub fn raw(&mut self, text: &str) {
        self.text += text;
    }

    /// Gives the numbers and lengths of a geometry, formats and mounts.
    pub fn begin(&mut self, n: u64, b: u64, m: u64) {
        self.say(&format!("give {n} {b} {m}"));
        self.say("fit");
        self.say("format");
        self.say("mount");
    }

    pub fn geometry(&self) -> Geometry {
        let [n, b, m] = self.player.given;
        Geometry::new(n, b, m).expect("only good geometries are asked for")
    }

    pub fn n(&self) -> u64 {
        self.player.given[0]
    }

    /// The view, which is good while nothing is damaged.
    pub fn view(&self) -> Volume<&[u8]> {
        Volume::over(self.geometry(), &self.player.areas[1][..self.geometry().volume_length()])
    }

    pub fn log(&self) -> Option<Log> {
        let geometry = self.geometry();
        Log::read(&geometry, &self.player.areas[2][..geometry.log_length()])
    }

    /// The sends that an fsync of the object needs.
    pub fn needed(&self, object: u64) -> u64 {
        let log = self.log().unwrap_or_default();
        let named = |record: &Record| object < 65_536 && record.has_operand(object as u16);
        with_predecessors(&log.waiting(), named).len() as u64
    }

    pub fn waiting(&self) -> Vec<u64> {
        let log = self.log().unwrap_or_default();
        log.waiting().iter().map(|record| record.sequence as u64).collect()
    }

    /// The used objects of the view that are directories, or those that are files.
    pub fn objects(&self, directories: bool) -> Vec<u64> {
        let view = self.view();
        let fits = |object: &u64| !view.is_free(*object as usize) && view.is_directory(*object as usize) == directories;
        (0..self.n()).filter(fits).collect()
    }

    pub fn used(&self) -> Vec<u64> {
        (0..self.n()).filter(|&object| !self.view().is_free(object as usize)).collect()
    }

    pub fn free(&self) -> Vec<u64> {
        (0..self.n()).filter(|&object| self.view().is_free(object as usize)).collect()
    }

    /// The parent and the name of an object of the view.
    pub fn place_of(&self, object: u64) -> (u64, Vec<u8>) {
        (self.view().parent(object as usize) as u64, self.view().name(object as usize).to_vec())
    }

    /// A removal of what the name leads to, by the call that takes its kind and now and then by the other; by either
    /// where it leads to nothing.
    pub fn removal(&mut self, program: u64, parent: u64, name: &[u8]) -> String {
        let found = (parent < self.n()).then(|| self.view().seek(parent as usize, name)).flatten();
        let directory = match found.map(|object| self.view().is_directory(object)) {
            Some(directory) => directory != self.random.chance(25),
            None => self.random.chance(50),
        };
        format!("{} {program} {parent} {}", if directory { "rmdir" } else { "rmfile" }, hex(name))
    }

    pub fn length_of(&self, object: u64) -> u64 {
        if object < self.n() {
            self.view().length(object as usize) as u64
        } else {
            0
        }
    }

    pub fn path_of(&self, object: u64) -> Vec<u8> {
        let mut path = Vec::new();
        let mut place = object;
        while place != 0 {
            let (parent, name) = self.place_of(place);
            path = [b"/".as_slice(), &name, &path].concat();
            place = parent;
        }
        if path.is_empty() {
            path.push(b'/');
        }
        path
    }

    /// Writes bytes into an area by `poke` lines, passing over zeros at the end.
    pub fn poke(&mut self, area: &str, at: usize, bytes: &[u8]) {
        let used = bytes.iter().rposition(|&byte| byte != 0).map_or(1, |last| last + 1).min(bytes.len());
        self.say(&format!("poke {area} {at} {}", hex(&bytes[..used])));
    }

    pub fn area(&self, area: &str) -> &[u8] {
        &self.player.areas[["s", "v", "l"].iter().position(|name| *name == area).expect("an area")]
    }
}

pub fn hex(bytes: &[u8]) -> String {
    to_hexadecimal(bytes)
}
