//! A volume laid over a buffer: the entries, their fields and their data
//! (document 01, "Geometry and stored form").

use crate::bytes::{get_u16, get_u32, put_u16, put_u32};
use crate::geometry::{Geometry, ENTRY_HEAD};
use crate::names::same_name;
use std::ops::{Deref, DerefMut};

pub const FREE: u8 = 0;
pub const FILE: u8 = 1;
pub const DIRECTORY: u8 = 2;

/// Where the fields of an entry begin.
pub const NAME_LENGTH_AT: usize = 1;
pub const PARENT_AT: usize = 2;
pub const NAME_AT: usize = 4;
pub const LENGTH_AT: usize = 64;

/// A buffer of the right length, read as n entries.
pub struct Volume<B> {
    pub geometry: Geometry,
    bytes: B,
}

impl<B: Deref<Target = [u8]>> Volume<B> {
    pub fn over(geometry: Geometry, bytes: B) -> Volume<B> {
        debug_assert_eq!(bytes.len(), geometry.volume_length());
        Volume { geometry, bytes }
    }

    pub fn entry(&self, object: usize) -> &[u8] {
        let length = self.geometry.entry_length();
        &self.bytes[object * length..(object + 1) * length]
    }

    pub fn kind(&self, object: usize) -> u8 {
        self.entry(object)[0]
    }

    pub fn is_free(&self, object: usize) -> bool {
        self.kind(object) == FREE
    }

    pub fn is_file(&self, object: usize) -> bool {
        self.kind(object) == FILE
    }

    pub fn is_directory(&self, object: usize) -> bool {
        self.kind(object) == DIRECTORY
    }

    pub fn parent(&self, object: usize) -> usize {
        get_u16(self.entry(object), PARENT_AT) as usize
    }

    pub fn name(&self, object: usize) -> &[u8] {
        let entry = self.entry(object);
        &entry[NAME_AT..NAME_AT + entry[NAME_LENGTH_AT] as usize]
    }

    pub fn length(&self, object: usize) -> usize {
        get_u32(self.entry(object), LENGTH_AT) as usize
    }

    pub fn data(&self, object: usize) -> &[u8] {
        &self.entry(object)[ENTRY_HEAD..]
    }

    /// The children of a directory in rising order; entry 0 is nobody's child.
    pub fn children(&self, directory: usize) -> Vec<usize> {
        (1..self.geometry.n).filter(|&child| !self.is_free(child) && self.parent(child) == directory).collect()
    }

    /// The child of that name, in whatever spelling. A name is sought only in a directory (document 01, "Names and
    /// paths").
    pub fn seek(&self, directory: usize, name: &[u8]) -> Option<usize> {
        if !self.is_directory(directory) {
            return None;
        }
        self.children(directory).into_iter().find(|&child| same_name(self.name(child), name))
    }

    pub fn has_children(&self, object: usize) -> bool {
        !self.children(object).is_empty()
    }
}

impl<B: DerefMut<Target = [u8]>> Volume<B> {
    fn entry_mut(&mut self, object: usize) -> &mut [u8] {
        let length = self.geometry.entry_length();
        &mut self.bytes[object * length..(object + 1) * length]
    }

    /// Makes the volume one with only a root.
    pub fn clear_to_root(&mut self) {
        self.bytes.fill(0);
        self.entry_mut(0)[0] = DIRECTORY;
    }

    /// Makes an entry free: all its bytes are zero.
    pub fn clear(&mut self, object: usize) {
        self.entry_mut(object).fill(0);
    }

    /// Makes a free entry an empty file or directory.
    pub fn make(&mut self, object: usize, kind: u8, parent: usize, name: &[u8]) {
        self.entry_mut(object)[0] = kind;
        self.place(object, parent, name);
    }

    /// Gives an entry a parent and a name.
    pub fn place(&mut self, object: usize, parent: usize, name: &[u8]) {
        let entry = self.entry_mut(object);
        entry[NAME_LENGTH_AT] = name.len() as u8;
        put_u16(entry, PARENT_AT, parent as u16);
        entry[NAME_AT..LENGTH_AT].fill(0);
        entry[NAME_AT..NAME_AT + name.len()].copy_from_slice(name);
    }

    /// Writes data inside a file's entry without touching its length.
    pub fn put_data(&mut self, object: usize, offset: usize, data: &[u8]) {
        let from = ENTRY_HEAD + offset;
        self.entry_mut(object)[from..from + data.len()].copy_from_slice(data);
    }

    /// Gives a file a length; what this cuts off or adds becomes zero.
    pub fn put_length(&mut self, object: usize, length: usize) {
        let kept = length.min(self.length(object));
        let entry = self.entry_mut(object);
        put_u32(entry, LENGTH_AT, length as u32);
        entry[ENTRY_HEAD + kept..].fill(0);
    }
}
