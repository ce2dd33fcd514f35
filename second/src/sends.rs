//! Push, fsync and cut: what reaches the server and what is lost (document 01, "Calls").

use crate::apply::{applies, apply};
use crate::geometry::Geometry;
use crate::log::Log;
use crate::order::{has_predecessor, with_predecessors};
use crate::record::Record;
use crate::refusal::{first, Refusal};
use crate::session::Lent;

/// What fsync gives: a refusal if any, and the sends made, which refusals 17 and 2 report too.
#[derive(Clone, Copy, PartialEq, Eq, Debug)]
pub struct Fsync {
    pub refusal: Option<Refusal>,
    pub sends: u64,
}

/// Sends the waiting operation of a sequence number and frees its slot.
pub fn push(lent: &mut Lent, sequence: u64) -> Result<(), Refusal> {
    let now = lent.look();
    let found = || now.log().find_waiting(sequence);
    first(&[
        (Refusal::WrongBuffer, &|| now.wrong_buffer()),
        (Refusal::Damaged, &|| now.damaged()),
        (Refusal::NotFirst, &|| found().is_some_and(|record| has_predecessor(&now.log().waiting(), record))),
        (Refusal::None, &|| found().is_none()),
    ])?;
    let (geometry, mut log) = now.keep();
    let Some(record) = log.find_waiting(sequence).cloned() else { return Err(Refusal::None) };
    // The second sense of refusal 2 comes last.
    if send(lent, geometry, &[&record]) == 0 {
        return Err(Refusal::Damaged);
    }
    log.free(record.sequence);
    log.write(lent.log);
    Ok(())
}

/// Applies operations to the server one after another until one does not apply; gives the number sent.
fn send(lent: &mut Lent, geometry: Geometry, records: &[&Record]) -> usize {
    let mut server = lent.server_volume(geometry);
    for (sent, record) in records.iter().enumerate() {
        if !applies(&server, record) {
            return sent;
        }
        apply(&mut server, record);
    }
    records.len()
}

/// Sends the d operations that the object needs, if the link still carries d; otherwise the first k of them
/// are sent and the link is cut.
pub fn fsync(lent: &mut Lent, program: u64, object: u64, k: u64) -> Fsync {
    let now = lent.look();
    let begins = first(&[
        (Refusal::WrongBuffer, &|| now.wrong_buffer()),
        (Refusal::Damaged, &|| now.damaged()),
        (Refusal::BadProgram, &|| now.bad_program(program)),
        (Refusal::Marked, &|| now.marked(program)),
        (Refusal::BadNumber, &|| now.bad_number(object)),
        (Refusal::NoObject, &|| now.view().is_free(object as usize)),
    ]);
    if let Err(refusal) = begins {
        return Fsync { refusal: Some(refusal), sends: 0 };
    }
    let (geometry, log) = now.keep();
    send_needed(lent, geometry, &log, program as u8, object as u16, k)
}

/// The part of fsync that sends. Dependence is noted on the log as it was before the sends.
fn send_needed(lent: &mut Lent, geometry: Geometry, before: &Log, program: u8, object: u16, k: u64) -> Fsync {
    let needed = with_predecessors(&before.waiting(), |record| record.has_operand(object));
    let d = needed.len();
    let carried = d.min(usize::try_from(k).unwrap_or(usize::MAX));
    let sent = send(lent, geometry, &needed[..carried]);
    // A bad operation among the first k gives 2; otherwise k below d gives 17.
    let refusal = match (sent < carried, k < d as u64) {
        (true, _) => Some(Refusal::Damaged),
        (false, true) => Some(Refusal::LinkLost),
        (false, false) => None,
    };
    let mut log = before.clone();
    if refusal != Some(Refusal::Damaged) {
        log.note(program, &[object]);
    }
    needed[..sent].iter().for_each(|record| log.free(record.sequence));
    if refusal == Some(Refusal::LinkLost) {
        log.cut();
        lent.view.copy_from_slice(lent.server);
    }
    log.write(lent.log);
    Fsync { refusal, sends: sent as u64 }
}

/// Turns all waiting operations into lost ones, marks the dependents, and copies the server to the view.
pub fn cut(lent: &mut Lent) -> Result<(), Refusal> {
    let now = lent.look();
    first(&[(Refusal::WrongBuffer, &|| now.wrong_buffer()), (Refusal::Damaged, &|| now.damaged())])?;
    let (_, mut log) = now.keep();
    log.cut();
    log.write(lent.log);
    lent.view.copy_from_slice(lent.server);
    Ok(())
}
