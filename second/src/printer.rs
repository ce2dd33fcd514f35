//! The program that prints records (document 01, "Cases to prove", last part).

use crate::losses::read_record;

/// Sequence, program and kind of each record, a line each; at a bad one "bad" and its byte offset, and no more.
pub fn print_records(input: &[u8]) -> String {
    let mut printed = String::new();
    let mut place = 0;
    while place < input.len() as u64 {
        match read_record(place, input) {
            Ok(head) => {
                printed += &format!("{} {} {}\n", head.sequence, head.program, head.kind);
                place = head.next;
            }
            Err(_) => return printed + &format!("bad {place}\n"),
        }
    }
    printed
}
