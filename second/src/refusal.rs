//! The returned numbers, and the rule that the lowest wins (document 01, "Returned numbers").

/// The reasons for a refusal, with their numbers.
#[derive(Clone, Copy, PartialEq, Eq, PartialOrd, Ord, Debug)]
pub enum Refusal {
    WrongBuffer = 1,
    Damaged = 2,
    BadProgram = 3,
    Marked = 4,
    BadName = 5,
    LongName = 6,
    BadNumber = 7,
    NoObject = 8,
    WrongKind = 9,
    Taken = 10,
    NotEmpty = 11,
    BadRange = 12,
    LogFull = 13,
    Spent = 14,
    NotFirst = 15,
    None = 16,
    LinkLost = 17,
    LossesLeft = 18,
    ShortBuffer = 19,
    BadRecord = 20,
}

impl Refusal {
    pub fn number(self) -> u64 {
        self as u64
    }
}

/// One row of a call's table: the refusal, and the condition under which it holds.
/// A condition is asked only when no row before it holds, so it may rely on them.
pub type Row<'a> = (Refusal, &'a dyn Fn() -> bool);

/// Takes the first row that holds; the rows stand in rising order, so that is the lowest number.
pub fn first(table: &[Row]) -> Result<(), Refusal> {
    debug_assert!(table.windows(2).all(|pair| pair[0].0 < pair[1].0), "table out of order");
    match table.iter().find(|(_, holds)| holds()) {
        Some((refusal, _)) => Err(*refusal),
        None => Ok(()),
    }
}
