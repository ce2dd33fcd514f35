//! Lookup, list, stat and read: they answer from the view and bring dependence (document 01, "Calls").

use crate::names::{bad_name, bad_path, components, long_name};
use crate::refusal::{first, Refusal};
use crate::session::{Found, Lent};

/// What stat gives.
#[derive(Clone, Copy, PartialEq, Eq, Debug)]
pub struct Stat {
    pub kind: u64,
    pub length: u64,
    pub usage: u64,
}

/// Leads a path to its object number.
pub fn lookup(lent: &mut Lent, program: u64, path: &[u8]) -> Result<u64, Refusal> {
    let now = lent.look();
    first(&[
        (Refusal::WrongBuffer, &|| now.wrong_buffer()),
        (Refusal::Damaged, &|| now.damaged()),
        (Refusal::BadProgram, &|| now.bad_program(program)),
        (Refusal::Marked, &|| now.marked(program)),
        (Refusal::BadName, &|| bad_path(path)),
    ])?;
    let operands = walk(&now, path)?;
    let (_, log) = now.keep();
    lent.depend(log, program, &operands);
    Ok(operands[operands.len() - 1] as u64)
}

/// Goes through a path by component, each with its own table. Gives the directories searched and then
/// the object found, which are lookup's operands.
fn walk(now: &Found, path: &[u8]) -> Result<Vec<u16>, Refusal> {
    let view = now.view();
    let mut passed = vec![0];
    let mut place = 0;
    for component in components(path) {
        let found = view.seek(place, component);
        first(&[
            (Refusal::BadName, &|| bad_name(component)),
            (Refusal::LongName, &|| long_name(component)),
            (Refusal::NoObject, &|| view.is_directory(place) && found.is_none()),
            (Refusal::WrongKind, &|| !view.is_directory(place)),
        ])?;
        place = found.unwrap_or(place);
        passed.push(place as u16);
    }
    Ok(passed)
}

/// Writes number, kind, name length and name of each child to the start of the buffer, and gives the bytes written.
pub fn list(lent: &mut Lent, program: u64, object: u64, buffer: &mut [u8]) -> Result<u64, Refusal> {
    let now = lent.look();
    let at = object as usize;
    first(&[
        (Refusal::WrongBuffer, &|| now.wrong_buffer()),
        (Refusal::Damaged, &|| now.damaged()),
        (Refusal::BadProgram, &|| now.bad_program(program)),
        (Refusal::Marked, &|| now.marked(program)),
        (Refusal::BadNumber, &|| now.bad_number(object)),
        (Refusal::NoObject, &|| now.view().is_free(at)),
        (Refusal::WrongKind, &|| now.view().is_file(at)),
        (Refusal::ShortBuffer, &|| listing(&now, at).len() > buffer.len()),
    ])?;
    let listing = listing(&now, at);
    buffer[..listing.len()].copy_from_slice(&listing);
    let (_, log) = now.keep();
    lent.depend(log, program, &[object as u16]);
    Ok(listing.len() as u64)
}

/// The whole list of a directory's children, rising in number.
fn listing(now: &Found, directory: usize) -> Vec<u8> {
    let view = now.view();
    let mut bytes = Vec::new();
    for child in view.children(directory) {
        bytes.extend((child as u16).to_le_bytes());
        bytes.extend([view.kind(child), view.name(child).len() as u8]);
        bytes.extend(view.name(child));
    }
    bytes
}

/// Gives kind, length and usage of an object.
pub fn stat(lent: &mut Lent, program: u64, object: u64) -> Result<Stat, Refusal> {
    let now = lent.look();
    let at = object as usize;
    first(&[
        (Refusal::WrongBuffer, &|| now.wrong_buffer()),
        (Refusal::Damaged, &|| now.damaged()),
        (Refusal::BadProgram, &|| now.bad_program(program)),
        (Refusal::Marked, &|| now.marked(program)),
        (Refusal::BadNumber, &|| now.bad_number(object)),
        (Refusal::NoObject, &|| now.view().is_free(at)),
    ])?;
    let length = now.view().length(at) as u64;
    let answer = Stat { kind: now.view().kind(at) as u64, length, usage: usage(length) };
    let (_, log) = now.keep();
    lent.depend(log, program, &[object as u16]);
    Ok(answer)
}

/// Length / 1,024 to the nearest whole number, half upwards.
pub fn usage(length: u64) -> u64 {
    (length + 512) / 1024
}

/// Copies the smaller of the buffer length and what follows the offset; gives the bytes copied.
pub fn read(lent: &mut Lent, program: u64, object: u64, offset: u64, buffer: &mut [u8]) -> Result<u64, Refusal> {
    let now = lent.look();
    let at = object as usize;
    first(&[
        (Refusal::WrongBuffer, &|| now.wrong_buffer()),
        (Refusal::Damaged, &|| now.damaged()),
        (Refusal::BadProgram, &|| now.bad_program(program)),
        (Refusal::Marked, &|| now.marked(program)),
        (Refusal::BadNumber, &|| now.bad_number(object)),
        (Refusal::NoObject, &|| now.view().is_free(at)),
        (Refusal::WrongKind, &|| now.view().is_directory(at)),
        (Refusal::BadRange, &|| offset > now.view().length(at) as u64),
    ])?;
    let rest = &now.view().data(at)[offset as usize..now.view().length(at)];
    let count = rest.len().min(buffer.len());
    buffer[..count].copy_from_slice(&rest[..count]);
    let (_, log) = now.keep();
    lent.depend(log, program, &[object as u16]);
    Ok(count as u64)
}
