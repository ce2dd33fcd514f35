//! The geometry and the lengths that follow from it (document 01, "Geometry and stored form").

/// The bytes of one block of a file.
pub const BLOCK: usize = 1024;
/// The bytes of an entry before its data.
pub const ENTRY_HEAD: usize = 68;
/// The bytes of the log before its slots.
pub const LOG_HEAD: usize = 8;
/// The bytes of one slot, and of the longest record in it.
pub const SLOT: usize = 1048;
pub const LONGEST_RECORD: usize = 1040;

/// n objects, b blocks a file and m log slots, within their limits.
#[derive(Clone, Copy, PartialEq, Eq, Debug)]
pub struct Geometry {
    pub n: usize,
    pub b: usize,
    pub m: usize,
}

impl Geometry {
    /// The geometry of three given numbers; none if one of them is out of range.
    pub fn new(n: u64, b: u64, m: u64) -> Option<Geometry> {
        let good = (2..=256).contains(&n) && (1..=64).contains(&b) && (1..=1024).contains(&m);
        good.then_some(Geometry { n: n as usize, b: b as usize, m: m as usize })
    }

    /// The greatest length of a file.
    pub fn longest_file(&self) -> usize {
        BLOCK * self.b
    }

    pub fn entry_length(&self) -> usize {
        ENTRY_HEAD + self.longest_file()
    }

    pub fn volume_length(&self) -> usize {
        self.n * self.entry_length()
    }

    pub fn log_length(&self) -> usize {
        LOG_HEAD + self.m * SLOT
    }
}
