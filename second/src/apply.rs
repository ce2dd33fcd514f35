//! When an operation applies to a volume, and what it then leaves (document 01, "Returned numbers", last part,
//! and "Calls").

use crate::record::{Kind, Record};
use crate::volume::{Volume, DIRECTORY, FILE};
use std::ops::{Deref, DerefMut};

/// Whether the operation's own conditions hold there and names lead to the recorded objects.
pub fn applies<B: Deref<Target = [u8]>>(volume: &Volume<B>, record: &Record) -> bool {
    let object = record.object as usize;
    match record.kind {
        Kind::Create | Kind::MakeDirectory => {
            let parent = record.parent as usize;
            volume.is_directory(parent) && volume.seek(parent, &record.name).is_none() && volume.is_free(object)
        }
        Kind::Remove => {
            volume.seek(record.parent as usize, &record.name) == Some(object) && !volume.has_children(object)
        }
        Kind::Rename => rename_applies(volume, record),
        Kind::Overwrite => volume.is_file(object) && record.end() <= volume.length(object),
        Kind::Append => volume.is_file(object) && record.offset as usize == volume.length(object),
        Kind::SetLength => volume.is_file(object),
        Kind::Forder => true,
    }
}

/// A rename needs both parents to be directories, its first name to lead to the object and a directory to keep
/// its parent; the second name is absent, its own, or leads to the recorded displaced object.
fn rename_applies<B: Deref<Target = [u8]>>(volume: &Volume<B>, record: &Record) -> bool {
    let object = record.object as usize;
    let parents_are_good =
        volume.is_directory(record.parent as usize) && volume.is_directory(record.second_parent as usize);
    let found = volume.seek(record.parent as usize, &record.name);
    let there = volume.seek(record.second_parent as usize, &record.second_name);
    let target_is_good = match record.displaced.map(|displaced| displaced as usize) {
        None => there.is_none() || there == Some(object),
        Some(displaced) => {
            there == Some(displaced) && volume.kind(displaced) == volume.kind(object) && !volume.has_children(displaced)
        }
    };
    let stays = !volume.is_directory(object) || record.parent == record.second_parent;
    parents_are_good && found == Some(object) && stays && target_is_good
}

/// Alters the volume as the operation says. It must apply.
pub fn apply<B: DerefMut<Target = [u8]>>(volume: &mut Volume<B>, record: &Record) {
    debug_assert!(applies(volume, record));
    let object = record.object as usize;
    match record.kind {
        Kind::Create => volume.make(object, FILE, record.parent as usize, &record.name),
        Kind::MakeDirectory => volume.make(object, DIRECTORY, record.parent as usize, &record.name),
        Kind::Remove => volume.clear(object),
        Kind::Rename => {
            if let Some(displaced) = record.displaced {
                volume.clear(displaced as usize);
            }
            volume.place(object, record.second_parent as usize, &record.second_name);
        }
        Kind::Overwrite => volume.put_data(object, record.offset as usize, &record.data),
        Kind::Append => {
            volume.put_length(object, record.end());
            volume.put_data(object, record.offset as usize, &record.data);
        }
        Kind::SetLength => volume.put_length(object, record.offset as usize),
        Kind::Forder => (),
    }
}
