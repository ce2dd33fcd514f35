//! Reads records from standard input and prints sequence, program and kind of each.
#![forbid(unsafe_code)]

use std::io::{Read, Write};

fn main() -> std::io::Result<()> {
    let mut input = Vec::new();
    std::io::stdin().read_to_end(&mut input)?;
    std::io::stdout().write_all(second::printer::print_records(&input).as_bytes())
}
