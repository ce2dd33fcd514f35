//! Take, renew and the record reader: what a program learns of its losses (document 01, "Calls" and "Loss record").

use crate::geometry::LONGEST_RECORD;
use crate::record::Record;
use crate::refusal::{first, Refusal};
use crate::session::Lent;

/// What the record reader gives: the place after the record, and the head of the record.
#[derive(Clone, Copy, PartialEq, Eq, Debug)]
pub struct Head {
    pub next: u64,
    pub sequence: u64,
    pub program: u64,
    pub kind: u64,
}

/// Writes the earliest loss of a program to the start of the buffer, frees its slot and gives the bytes written.
pub fn take(lent: &mut Lent, program: u64, buffer: &mut [u8]) -> Result<u64, Refusal> {
    let now = lent.look();
    first(&[
        (Refusal::WrongBuffer, &|| now.wrong_buffer()),
        (Refusal::Damaged, &|| now.damaged()),
        (Refusal::BadProgram, &|| now.bad_program(program)),
        (Refusal::None, &|| now.log().first_loss(program).is_none()),
        (Refusal::ShortBuffer, &|| buffer.len() < LONGEST_RECORD),
    ])?;
    let (_, mut log) = now.keep();
    let Some(record) = log.first_loss(program).cloned() else { return Err(Refusal::None) };
    let bytes = record.to_bytes();
    buffer[..bytes.len()].copy_from_slice(&bytes);
    log.free(record.sequence);
    log.write(lent.log);
    Ok(bytes.len() as u64)
}

/// Clears the mark of a program that has taken all losses of its own operations.
pub fn renew(lent: &mut Lent, program: u64) -> Result<(), Refusal> {
    let now = lent.look();
    first(&[
        (Refusal::WrongBuffer, &|| now.wrong_buffer()),
        (Refusal::Damaged, &|| now.damaged()),
        (Refusal::BadProgram, &|| now.bad_program(program)),
        (Refusal::LossesLeft, &|| now.log().first_loss(program).is_some()),
    ])?;
    let (_, mut log) = now.keep();
    log.marks &= !(1 << program);
    log.write(lent.log);
    Ok(())
}

/// Reads the record at a place of the buffer; a place at or past the end, or anything but a valid record, gives 20.
pub fn read_record(place: u64, buffer: &[u8]) -> Result<Head, Refusal> {
    let start = usize::try_from(place).ok().filter(|&start| start < buffer.len());
    let found = start.and_then(|start| Record::from_bytes(&buffer[start..]));
    let Some((record, length)) = found else { return Err(Refusal::BadRecord) };
    Ok(Head {
        next: place + length as u64,
        sequence: record.sequence as u64,
        program: record.program as u64,
        kind: record.kind.code() as u64,
    })
}
