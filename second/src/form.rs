//! The stored form of a volume (document 01, "Geometry and stored form").

use crate::bytes::all_zero;
use crate::geometry::ENTRY_HEAD;
use crate::names::{same_name, valid_name, LONGEST_NAME};
use crate::volume::{Volume, DIRECTORY, FILE, FREE, LENGTH_AT, NAME_AT, NAME_LENGTH_AT};
use std::ops::Deref;

/// Whether a volume keeps to its form: every entry by itself, and the tree that they make.
pub fn well_formed<B: Deref<Target = [u8]>>(volume: &Volume<B>) -> bool {
    let n = volume.geometry.n;
    root_is_good(volume)
        && (1..n).all(|object| entry_is_good(volume, object))
        && (1..n).all(|object| volume.is_free(object) || leads_to_root(volume, object))
        && names_differ(volume)
}

/// Entry 0 is the root: a directory, empty name, parent 0, and nothing else.
fn root_is_good<B: Deref<Target = [u8]>>(volume: &Volume<B>) -> bool {
    let root = volume.entry(0);
    root[0] == DIRECTORY && all_zero(&root[1..])
}

/// An entry other than the root, with its parent but without the rest of the tree.
fn entry_is_good<B: Deref<Target = [u8]>>(volume: &Volume<B>, object: usize) -> bool {
    let entry = volume.entry(object);
    match entry[0] {
        FREE => all_zero(entry),
        FILE => placed_well(volume, object) && file_is_good(volume, object),
        DIRECTORY => placed_well(volume, object) && all_zero(&entry[LENGTH_AT..]),
        _ => false,
    }
}

/// A valid name with zeros after it, and a used directory as parent.
fn placed_well<B: Deref<Target = [u8]>>(volume: &Volume<B>, object: usize) -> bool {
    let entry = volume.entry(object);
    let name_length = entry[NAME_LENGTH_AT] as usize;
    let parent = volume.parent(object);
    name_length <= LONGEST_NAME
        && valid_name(&entry[NAME_AT..NAME_AT + name_length])
        && all_zero(&entry[NAME_AT + name_length..LENGTH_AT])
        && parent < volume.geometry.n
        && volume.is_directory(parent)
}

/// A length within b blocks, and zeros past it.
fn file_is_good<B: Deref<Target = [u8]>>(volume: &Volume<B>, object: usize) -> bool {
    let length = volume.length(object);
    length <= volume.geometry.longest_file() && all_zero(&volume.entry(object)[ENTRY_HEAD + length..])
}

/// Whether the parents of an entry lead to the root; n steps are enough unless they go in a circle.
fn leads_to_root<B: Deref<Target = [u8]>>(volume: &Volume<B>, object: usize) -> bool {
    let mut place = object;
    for _ in 0..volume.geometry.n {
        if place == 0 {
            return true;
        }
        place = volume.parent(place);
    }
    place == 0
}

/// No two used entries other than the root share parent and name; two spellings of one name are the same name.
fn names_differ<B: Deref<Target = [u8]>>(volume: &Volume<B>) -> bool {
    let used: Vec<usize> = (1..volume.geometry.n).filter(|&object| !volume.is_free(object)).collect();
    used.iter().enumerate().all(|(at, &one)| {
        used[at + 1..].iter().all(|&other| {
            volume.parent(one) != volume.parent(other) || !same_name(volume.name(one), volume.name(other))
        })
    })
}
