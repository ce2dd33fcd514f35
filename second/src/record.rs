//! Loss records: their kinds, their fields and their stored form (document 01, "Loss record").

use crate::bytes::{get_u16, get_u32};
use crate::geometry::{Geometry, BLOCK};
use crate::names::valid_name;

/// The greatest sequence number that a record may have.
pub const LAST_SEQUENCE: u32 = 4_294_967_294;
/// The number of programs.
pub const PROGRAMS: u64 = 32;
/// The most objects that a forder names.
pub const LONGEST_LIST: usize = 8;
/// The end of the longest file of any geometry.
const LAST_END: usize = 65_536;
/// The first number that is no object in any geometry.
const OBJECTS: u16 = 256;

/// The kinds of operation.
#[derive(Clone, Copy, PartialEq, Eq, PartialOrd, Ord, Hash, Debug)]
pub enum Kind {
    Create,
    MakeDirectory,
    Remove,
    Rename,
    Overwrite,
    Append,
    SetLength,
    Forder,
}

impl Kind {
    pub const ALL: [Kind; 8] = [
        Kind::Create,
        Kind::MakeDirectory,
        Kind::Remove,
        Kind::Rename,
        Kind::Overwrite,
        Kind::Append,
        Kind::SetLength,
        Kind::Forder,
    ];

    /// The map of a rename with a displaced object; all other maps are given by [`Kind::map`].
    pub const DISPLACING_MAP: u16 = 63;

    pub fn code(self) -> u8 {
        match self {
            Kind::Create => 1,
            Kind::MakeDirectory => 2,
            Kind::Remove => 3,
            Kind::Rename => 4,
            Kind::Overwrite => 5,
            Kind::Append => 6,
            Kind::SetLength => 7,
            Kind::Forder => 8,
        }
    }

    pub fn from_code(code: u8) -> Option<Kind> {
        Kind::ALL.into_iter().find(|kind| kind.code() == code)
    }

    /// The map of the kind, for a rename the one without a displaced object.
    pub fn map(self) -> u16 {
        match self {
            Kind::Create | Kind::MakeDirectory | Kind::Remove => 19,
            Kind::Rename => 55,
            Kind::Overwrite | Kind::Append => 193,
            Kind::SetLength => 65,
            Kind::Forder => 256,
        }
    }

    /// Whether a record of this kind may have that map.
    pub fn allows(self, map: u16) -> bool {
        map == self.map() || (self == Kind::Rename && map == Kind::DISPLACING_MAP)
    }
}

/// One operation, waiting or lost. A field whose bit does not stand in the map is zero or empty.
#[derive(Clone, PartialEq, Eq, Debug)]
pub struct Record {
    pub sequence: u32,
    pub program: u8,
    pub kind: Kind,
    pub object: u16,
    pub parent: u16,
    pub second_parent: u16,
    pub displaced: Option<u16>,
    pub name: Vec<u8>,
    pub second_name: Vec<u8>,
    /// For a set length this is the new length.
    pub offset: u32,
    pub data: Vec<u8>,
    pub list: Vec<u16>,
}

impl Record {
    /// A record of that kind in which no other field is filled in.
    pub fn blank(kind: Kind) -> Record {
        Record {
            sequence: 0,
            program: 0,
            kind,
            object: 0,
            parent: 0,
            second_parent: 0,
            displaced: None,
            name: Vec::new(),
            second_name: Vec::new(),
            offset: 0,
            data: Vec::new(),
            list: Vec::new(),
        }
    }

    pub fn map(&self) -> u16 {
        if self.displaced.is_some() {
            Kind::DISPLACING_MAP
        } else {
            self.kind.map()
        }
    }

    fn has(&self, bit: u16) -> bool {
        self.map() >> bit & 1 == 1
    }

    /// The object and every parent, displaced or listed object (document 01, "Order and dependence").
    pub fn operands(&self) -> impl Iterator<Item = u16> + '_ {
        let fields = [(0, self.object), (1, self.parent), (2, self.second_parent)];
        let standing = fields.into_iter().filter(|(bit, _)| self.has(*bit)).map(|(_, object)| object);
        standing.chain(self.displaced).chain(self.list.iter().copied())
    }

    pub fn has_operand(&self, object: u16) -> bool {
        self.operands().any(|operand| operand == object)
    }

    /// The first byte past the data.
    pub fn end(&self) -> usize {
        self.offset as usize + self.data.len()
    }

    /// Whether the record is valid; a record could be written exactly if it is.
    pub fn valid(&self) -> bool {
        (1..=LAST_SEQUENCE).contains(&self.sequence)
            && (self.program as u64) < PROGRAMS
            && self.objects_are_valid()
            && (!self.has(4) || valid_name(&self.name))
            && (!self.has(5) || valid_name(&self.second_name))
            && self.end() <= LAST_END
            && (!self.has(7) || self.data_is_valid())
            && (!self.has(8) || self.list_is_valid())
    }

    /// Object and displaced are 1..255 and different, parents and listed objects 0..255.
    fn objects_are_valid(&self) -> bool {
        self.operands().all(|object| object < OBJECTS)
            && (!self.has(0) || self.object != 0)
            && self.displaced.is_none_or(|displaced| displaced != 0 && displaced != self.object)
    }

    /// 1..1,024 bytes in one block.
    fn data_is_valid(&self) -> bool {
        !self.data.is_empty() && self.offset as usize / BLOCK == (self.end() - 1) / BLOCK
    }

    /// 1..8 different objects.
    fn list_is_valid(&self) -> bool {
        let different = self.list.iter().enumerate().all(|(at, object)| !self.list[..at].contains(object));
        (1..=LONGEST_LIST).contains(&self.list.len()) && different
    }

    /// Whether the record fits n and b, as one in a log must (document 01, "Geometry and stored form").
    pub fn fits(&self, geometry: &Geometry) -> bool {
        self.operands().all(|object| (object as usize) < geometry.n) && self.end() <= geometry.longest_file()
    }

    /// The stored form: map, sequence, program, kind, then the fields whose bit stands, in bit order.
    pub fn to_bytes(&self) -> Vec<u8> {
        let mut bytes = Vec::new();
        bytes.extend(self.map().to_le_bytes());
        bytes.extend(self.sequence.to_le_bytes());
        bytes.extend([self.program, self.kind.code()]);
        for bit in (0..9).filter(|&bit| self.has(bit)) {
            match bit {
                0 => bytes.extend(self.object.to_le_bytes()),
                1 => bytes.extend(self.parent.to_le_bytes()),
                2 => bytes.extend(self.second_parent.to_le_bytes()),
                3 => bytes.extend(self.displaced.unwrap_or(0).to_le_bytes()),
                4 => put_text(&mut bytes, &self.name),
                5 => put_text(&mut bytes, &self.second_name),
                6 => bytes.extend(self.offset.to_le_bytes()),
                7 => {
                    bytes.extend((self.data.len() as u16).to_le_bytes());
                    bytes.extend(&self.data);
                }
                _ => {
                    bytes.push(self.list.len() as u8);
                    self.list.iter().for_each(|object| bytes.extend(object.to_le_bytes()));
                }
            }
        }
        bytes
    }

    /// Reads the record at the start of the bytes and says how long it is; none if no valid one stands there.
    pub fn from_bytes(bytes: &[u8]) -> Option<(Record, usize)> {
        let mut rest = bytes;
        let map = take_u16(&mut rest)?;
        let sequence = take_u32(&mut rest)?;
        let program = take_u8(&mut rest)?;
        let kind = Kind::from_code(take_u8(&mut rest)?)?;
        if !kind.allows(map) {
            return None;
        }
        let mut record = Record { sequence, program, ..Record::blank(kind) };
        for bit in (0..9).filter(|bit| map >> bit & 1 == 1) {
            record.take_field(bit, &mut rest)?;
        }
        record.valid().then_some((record, bytes.len() - rest.len()))
    }

    /// Reads the field of one bit.
    fn take_field(&mut self, bit: u16, rest: &mut &[u8]) -> Option<()> {
        match bit {
            0 => self.object = take_u16(rest)?,
            1 => self.parent = take_u16(rest)?,
            2 => self.second_parent = take_u16(rest)?,
            3 => self.displaced = Some(take_u16(rest)?),
            4 => self.name = take_text(rest)?,
            5 => self.second_name = take_text(rest)?,
            6 => self.offset = take_u32(rest)?,
            7 => {
                let length = take_u16(rest)? as usize;
                self.data = take_bytes(rest, length)?.to_vec();
            }
            _ => {
                for _ in 0..take_u8(rest)? {
                    self.list.push(take_u16(rest)?);
                }
            }
        }
        Some(())
    }
}

/// A text is a length of 1 byte and its bytes.
fn put_text(bytes: &mut Vec<u8>, text: &[u8]) {
    debug_assert!(text.len() <= 255);
    bytes.push(text.len() as u8);
    bytes.extend(text);
}

fn take_bytes<'a>(rest: &mut &'a [u8], count: usize) -> Option<&'a [u8]> {
    let (taken, left) = rest.split_at_checked(count)?;
    *rest = left;
    Some(taken)
}

fn take_text(rest: &mut &[u8]) -> Option<Vec<u8>> {
    let length = take_u8(rest)? as usize;
    Some(take_bytes(rest, length)?.to_vec())
}

fn take_u8(rest: &mut &[u8]) -> Option<u8> {
    Some(take_bytes(rest, 1)?[0])
}

fn take_u16(rest: &mut &[u8]) -> Option<u16> {
    Some(get_u16(take_bytes(rest, 2)?, 0))
}

fn take_u32(rest: &mut &[u8]) -> Option<u32> {
    Some(get_u32(take_bytes(rest, 4)?, 0))
}
