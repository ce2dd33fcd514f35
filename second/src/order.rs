//! Touching, preceding and reaching, from their definitions (document 01, "Order and dependence").
//! The waiting operations are always given in issue order.

use crate::record::{Kind, Record};

/// Whether A is earlier than B and they share an operand.
pub fn touches(a: &Record, b: &Record) -> bool {
    a.sequence < b.sequence && a.operands().any(|object| b.has_operand(object))
}

/// Whether A touches B and they are not two overwrites, or they are two overwrites with a common byte.
pub fn directly_precedes(a: &Record, b: &Record) -> bool {
    let two_overwrites = a.kind == Kind::Overwrite && b.kind == Kind::Overwrite;
    touches(a, b) && (!two_overwrites || common_byte(a, b))
}

/// Whether any waiting operation precedes this waiting one, directly or through further ones.
pub fn has_predecessor(waiting: &[&Record], b: &Record) -> bool {
    with_predecessors(waiting, |record| record.sequence == b.sequence).len() > 1
}

/// The chosen operations and all their predecessors, in issue order.
pub fn with_predecessors<'a>(waiting: &[&'a Record], chosen: impl Fn(&Record) -> bool) -> Vec<&'a Record> {
    close(waiting, chosen, directly_precedes)
}

/// The operations that have one of these operands or touch one through a chain, in issue order.
pub fn reaching<'a>(waiting: &[&'a Record], operands: &[u16]) -> Vec<&'a Record> {
    close(waiting, |record| operands.iter().any(|&object| record.has_operand(object)), touches)
}

/// The chosen operations, and every one from which steps of the relation lead to a chosen one.
/// Steps go only from earlier to later, so going backwards once finds them all.
fn close<'a>(
    waiting: &[&'a Record],
    chosen: impl Fn(&Record) -> bool,
    related: fn(&Record, &Record) -> bool,
) -> Vec<&'a Record> {
    let mut found: Vec<&Record> = Vec::new();
    for &record in waiting.iter().rev() {
        if chosen(record) || found.iter().any(|later| related(record, later)) {
            found.push(record);
        }
    }
    found.reverse();
    found
}

/// Whether the data of two writes to the same file meet.
fn common_byte(a: &Record, b: &Record) -> bool {
    (a.offset as usize) < b.end() && (b.offset as usize) < a.end()
}
