//! The changes and forder: each alters the view, takes one sequence number and waits (document 01, "Calls"); a write
//! across the end of a file is two such operations (document 02, K1).

use crate::bytes::get_u16;
use crate::geometry::BLOCK;
use crate::names::{bad_name, long_name};
use crate::record::{Kind, Record, LONGEST_LIST};
use crate::refusal::{first, Refusal};
use crate::session::{Found, Lent};
use crate::volume::{DIRECTORY, FILE};

/// Creates an empty file under an unused object number of the caller's choice.
pub fn create(lent: &mut Lent, program: u64, parent: u64, name: &[u8], object: u64) -> Result<u64, Refusal> {
    make(lent, Kind::Create, program, parent, name, object)
}

/// Makes an empty directory under an unused object number of the caller's choice.
pub fn make_directory(lent: &mut Lent, program: u64, parent: u64, name: &[u8], object: u64) -> Result<u64, Refusal> {
    make(lent, Kind::MakeDirectory, program, parent, name, object)
}

fn make(lent: &mut Lent, kind: Kind, program: u64, parent: u64, name: &[u8], object: u64) -> Result<u64, Refusal> {
    let now = lent.look();
    let (place, number) = (parent as usize, object as usize);
    first(&[
        (Refusal::WrongBuffer, &|| now.wrong_buffer()),
        (Refusal::Damaged, &|| now.damaged()),
        (Refusal::BadProgram, &|| now.bad_program(program)),
        (Refusal::Marked, &|| now.marked(program)),
        (Refusal::BadName, &|| bad_name(name)),
        (Refusal::LongName, &|| long_name(name)),
        (Refusal::BadNumber, &|| now.bad_number(parent) || now.bad_number(object) || object == 0),
        (Refusal::NoObject, &|| now.view().is_free(place)),
        (Refusal::WrongKind, &|| now.view().is_file(place)),
        (Refusal::Taken, &|| now.view().seek(place, name).is_some() || !now.view().is_free(number)),
        (Refusal::LogFull, &|| now.log_full(1)),
        (Refusal::Spent, &|| now.spent(1)),
    ])?;
    let record = Record { object: object as u16, parent: parent as u16, name: name.to_vec(), ..Record::blank(kind) };
    let (geometry, log) = now.keep();
    Ok(lent.issue(geometry, log, program, record))
}

/// Removes a file; it is logged with the name as typed.
pub fn remove_file(lent: &mut Lent, program: u64, parent: u64, name: &[u8]) -> Result<u64, Refusal> {
    remove(lent, FILE, program, parent, name)
}

/// Removes an empty directory; it is logged with the name as typed.
pub fn remove_directory(lent: &mut Lent, program: u64, parent: u64, name: &[u8]) -> Result<u64, Refusal> {
    remove(lent, DIRECTORY, program, parent, name)
}

/// Removes an object of the kind that the call takes. An object of the other kind is refused with 9 before it is asked
/// for children (document 02, K4).
fn remove(lent: &mut Lent, taken: u8, program: u64, parent: u64, name: &[u8]) -> Result<u64, Refusal> {
    let now = lent.look();
    let place = parent as usize;
    let found = || now.view().seek(place, name);
    let other_kind = || found().is_some_and(|object| now.view().kind(object) != taken);
    first(&[
        (Refusal::WrongBuffer, &|| now.wrong_buffer()),
        (Refusal::Damaged, &|| now.damaged()),
        (Refusal::BadProgram, &|| now.bad_program(program)),
        (Refusal::Marked, &|| now.marked(program)),
        (Refusal::BadName, &|| bad_name(name)),
        (Refusal::LongName, &|| long_name(name)),
        (Refusal::BadNumber, &|| now.bad_number(parent)),
        (Refusal::NoObject, &|| now.view().is_free(place) || lacks(&now, place, name)),
        (Refusal::WrongKind, &|| now.view().is_file(place) || other_kind()),
        (Refusal::NotEmpty, &|| found().is_some_and(|object| now.view().has_children(object))),
        (Refusal::LogFull, &|| now.log_full(1)),
        (Refusal::Spent, &|| now.spent(1)),
    ])?;
    let object = found().unwrap_or(0) as u16;
    let record = Record { object, parent: parent as u16, name: name.to_vec(), ..Record::blank(Kind::Remove) };
    let (geometry, log) = now.keep();
    Ok(lent.issue(geometry, log, program, record))
}

/// Whether a place is a directory in which the name is absent.
fn lacks(now: &Found, place: usize, name: &[u8]) -> bool {
    now.view().is_directory(place) && now.view().seek(place, name).is_none()
}

/// The two sides of a rename, as far as they can be judged; a name is not sought in a file.
struct Sides<'a> {
    now: &'a Found<'a>,
    from: usize,
    name: &'a [u8],
    to: usize,
    second_name: &'a [u8],
}

impl Sides<'_> {
    fn object(&self) -> Option<usize> {
        self.now.view().seek(self.from, self.name)
    }

    /// What has the second name, unless that is the object itself.
    fn displaced(&self) -> Option<usize> {
        self.now.view().seek(self.to, self.second_name).filter(|&there| self.object() != Some(there))
    }

    /// Refusal 8: either parent free, or the first name to be found is absent.
    fn no_object(&self) -> bool {
        let view = self.now.view();
        view.is_free(self.from) || view.is_free(self.to) || lacks(self.now, self.from, self.name)
    }

    /// Refusal 9: either parent a file, a directory leaving its parent, or a displaced object of the other kind.
    fn wrong_kind(&self) -> bool {
        let view = self.now.view();
        let leaves = |object: usize| view.is_directory(object) && self.from != self.to;
        let other_kind = |object: usize| self.displaced().is_some_and(|there| view.kind(there) != view.kind(object));
        let bad_object = self.object().is_some_and(|object| leaves(object) || other_kind(object));
        view.is_file(self.from) || view.is_file(self.to) || bad_object
    }

    /// Refusal 11: the directory displaced has children.
    fn not_empty(&self) -> bool {
        self.displaced().is_some_and(|there| self.now.view().has_children(there))
    }
}

/// Gives an object a new name, in another parent too if it is a file, and displaces what has that name.
/// The name is stored as typed. In the same parent, another spelling of the object's own name displaces nothing
/// (map 55) and changes the stored spelling; the stored spelling itself changes nothing, and is logged too.
pub fn rename(
    lent: &mut Lent,
    program: u64,
    (parent, name): (u64, &[u8]),
    (second_parent, second_name): (u64, &[u8]),
) -> Result<u64, Refusal> {
    let now = lent.look();
    let sides = Sides { now: &now, from: parent as usize, name, to: second_parent as usize, second_name };
    first(&[
        (Refusal::WrongBuffer, &|| now.wrong_buffer()),
        (Refusal::Damaged, &|| now.damaged()),
        (Refusal::BadProgram, &|| now.bad_program(program)),
        (Refusal::Marked, &|| now.marked(program)),
        (Refusal::BadName, &|| bad_name(name) || bad_name(second_name)),
        (Refusal::LongName, &|| long_name(name) || long_name(second_name)),
        (Refusal::BadNumber, &|| now.bad_number(parent) || now.bad_number(second_parent)),
        (Refusal::NoObject, &|| sides.no_object()),
        (Refusal::WrongKind, &|| sides.wrong_kind()),
        (Refusal::NotEmpty, &|| sides.not_empty()),
        (Refusal::LogFull, &|| now.log_full(1)),
        (Refusal::Spent, &|| now.spent(1)),
    ])?;
    let record = Record {
        object: sides.object().unwrap_or(0) as u16,
        parent: parent as u16,
        second_parent: second_parent as u16,
        displaced: sides.displaced().map(|there| there as u16),
        name: name.to_vec(),
        second_name: second_name.to_vec(),
        ..Record::blank(Kind::Rename)
    };
    let (geometry, log) = now.keep();
    Ok(lent.issue(geometry, log, program, record))
}

/// Writes data within one block: inside the length it is an overwrite, at the length an append, and across the
/// length both, in this order (document 02, K1). Gives the first number.
pub fn write(lent: &mut Lent, program: u64, object: u64, offset: u64, data: &[u8]) -> Result<u64, Refusal> {
    let now = lent.look();
    let at = object as usize;
    let parts = || parts_of_write(now.view().length(at), at, offset as usize, data);
    first(&[
        (Refusal::WrongBuffer, &|| now.wrong_buffer()),
        (Refusal::Damaged, &|| now.damaged()),
        (Refusal::BadProgram, &|| now.bad_program(program)),
        (Refusal::Marked, &|| now.marked(program)),
        (Refusal::BadNumber, &|| now.bad_number(object)),
        (Refusal::NoObject, &|| now.view().is_free(at)),
        (Refusal::WrongKind, &|| now.view().is_directory(at)),
        (Refusal::BadRange, &|| bad_write(&now, at, offset, data)),
        (Refusal::LogFull, &|| now.log_full(parts().len())),
        (Refusal::Spent, &|| now.spent(parts().len())),
    ])?;
    let records = parts();
    let (geometry, log) = now.keep();
    Ok(lent.issue_in_turn(geometry, log, program, records))
}

/// Refusal 12 of a write: 0 bytes, across blocks, beyond the length or b.
fn bad_write(now: &Found, file: usize, offset: u64, data: &[u8]) -> bool {
    let block = BLOCK as u128;
    let begin = offset as u128;
    let end = begin + data.len() as u128;
    let across_blocks = end > 0 && begin / block != (end - 1) / block;
    let beyond_length = begin > now.view().length(file) as u128;
    let beyond_b = end > now.geometry().longest_file() as u128;
    data.is_empty() || across_blocks || beyond_length || beyond_b
}

/// The operations of a write that refusal 12 lets pass, in issue order: an overwrite of what lies before the length
/// and an append of the rest at the length (document 02, K1). A part without bytes is no operation.
fn parts_of_write(length: usize, file: usize, offset: usize, data: &[u8]) -> Vec<Record> {
    let (old, new) = data.split_at(data.len().min(length - offset));
    let part = |kind, from: usize, data: &[u8]| Record {
        object: file as u16,
        offset: from as u32,
        data: data.to_vec(),
        ..Record::blank(kind)
    };
    let mut parts = vec![part(Kind::Overwrite, offset, old), part(Kind::Append, offset + old.len(), new)];
    parts.retain(|part| !part.data.is_empty());
    parts
}

/// Gives a file a new length; what this cuts off or adds is zero.
pub fn set_length(lent: &mut Lent, program: u64, object: u64, length: u64) -> Result<u64, Refusal> {
    let now = lent.look();
    let at = object as usize;
    first(&[
        (Refusal::WrongBuffer, &|| now.wrong_buffer()),
        (Refusal::Damaged, &|| now.damaged()),
        (Refusal::BadProgram, &|| now.bad_program(program)),
        (Refusal::Marked, &|| now.marked(program)),
        (Refusal::BadNumber, &|| now.bad_number(object)),
        (Refusal::NoObject, &|| now.view().is_free(at)),
        (Refusal::WrongKind, &|| now.view().is_directory(at)),
        (Refusal::BadRange, &|| length > now.geometry().longest_file() as u64),
        (Refusal::LogFull, &|| now.log_full(1)),
        (Refusal::Spent, &|| now.spent(1)),
    ])?;
    let record = Record { object: object as u16, offset: length as u32, ..Record::blank(Kind::SetLength) };
    let (geometry, log) = now.keep();
    Ok(lent.issue(geometry, log, program, record))
}

/// Orders later operations on the listed objects after earlier ones; the list has 2 bytes an object.
pub fn forder(lent: &mut Lent, program: u64, list: &[u8]) -> Result<u64, Refusal> {
    let now = lent.look();
    let objects: Vec<u16> = list.chunks_exact(2).map(|pair| get_u16(pair, 0)).collect();
    let twice = || objects.iter().enumerate().any(|(at, object)| objects[..at].contains(object));
    let bad_length = list.is_empty() || list.len() % 2 == 1 || list.len() > 2 * LONGEST_LIST;
    first(&[
        (Refusal::WrongBuffer, &|| now.wrong_buffer()),
        (Refusal::Damaged, &|| now.damaged()),
        (Refusal::BadProgram, &|| now.bad_program(program)),
        (Refusal::Marked, &|| now.marked(program)),
        (Refusal::BadNumber, &|| bad_length || twice() || objects.iter().any(|&object| now.bad_number(object as u64))),
        (Refusal::NoObject, &|| objects.iter().any(|&object| now.view().is_free(object as usize))),
        (Refusal::LogFull, &|| now.log_full(1)),
        (Refusal::Spent, &|| now.spent(1)),
    ])?;
    let record = Record { list: objects, ..Record::blank(Kind::Forder) };
    let (geometry, log) = now.keep();
    Ok(lent.issue(geometry, log, program, record))
}
