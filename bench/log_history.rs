//! Full logs by a real history: the calls of the second program issue 1,024 operations of every kind on a volume that has
//! directories and files, so that server, view and log are as they are in use, and every operation applies in its turn.

use second::geometry::{Geometry, BLOCK};
use second::names::LONGEST_NAME;
use second::refusal::Refusal;
use second::volume::{Volume, DIRECTORY, FILE};
use second::Lent;

pub const N: usize = 256;
pub const B: usize = 64;
pub const M: usize = 1024;

/// A file on which one operation in 64 is done, each an overwrite of another block, and then at most the last one of all.
pub const SELDOM: usize = 16;
/// A file on which at most the last operation of all is done.
pub const UNTOUCHED: usize = 17;

/// The program whose calls are made on the full logs, and the root.
pub const PROGRAM: usize = 5;
pub const ROOT: usize = 0;
/// A slot in the middle, of an operation on the file seldom used.
pub const MIDDLE: usize = M / 2;

/// How many operations are of mixed kinds. After them forders link every object but the two files above with the root.
const MIXED: usize = M - 1 - (N - 1).div_ceil(LINKED);
/// How many objects a forder links with the root.
const LINKED: usize = 7;

pub fn geometry() -> Geometry {
    Geometry::new(N as u64, B as u64, M as u64).expect("a geometry within the limits")
}

/// A server volume, a view and a log.
#[derive(Clone)]
pub struct Buffers {
    pub server: Vec<u8>,
    pub view: Vec<u8>,
    pub log: Vec<u8>,
}

impl Buffers {
    /// What a call is lent.
    pub fn lent(&mut self) -> Lent<'_> {
        let (n, b, m) = (N as u64, B as u64, M as u64);
        Lent { n, b, m, server: &mut self.server, view: &mut self.view, log: &mut self.log }
    }

    /// A volume with 15 directories and 112 files of half the greatest length, as mount leaves the buffers.
    pub fn mounted() -> Buffers {
        let volume = vec![0; geometry().volume_length()];
        let log = vec![0; geometry().log_length()];
        let mut buffers = Buffers { server: volume.clone(), view: volume, log };
        fill(&mut Volume::over(geometry(), &mut buffers.server[..]));
        second::mount(&mut buffers.lent()).expect("a volume that can be mounted");
        buffers
    }
}

/// Puts the directories and the files into a volume.
fn fill(volume: &mut Volume<&mut [u8]>) {
    let data: Vec<u8> = (0..geometry().longest_file() / 2).map(|at| (at % 255 + 1) as u8).collect();
    volume.clear_to_root();
    for object in 1..N / 2 {
        if object < 16 {
            volume.make(object, DIRECTORY, 0, format!("directory-{object:03}").as_bytes());
        } else {
            volume.make(object, FILE, 1 + object % 15, format!("file-{object:03}").as_bytes());
            volume.put_length(object, data.len());
            volume.put_data(object, 0, &data);
        }
    }
}

/// An empty log, and two full ones that differ in their last operation.
pub struct Logs {
    pub empty: Buffers,
    pub linked: Buffers,
    pub loose: Buffers,
}

impl Logs {
    /// A last forder of the root and the file seldom used makes the root need all operations of the linked log; the last
    /// operation of the loose one is an overwrite of the untouched file and has no predecessor.
    pub fn made() -> Logs {
        let mut linked = History { buffers: Buffers::mounted(), turn: 0, seed: 1 };
        while linked.turn < MIXED {
            linked.go_on();
        }
        linked.link_all();
        let mut loose = History { buffers: linked.buffers.clone(), ..linked };
        linked.issue(|lent, program| second::forder(lent, program, &list(&[ROOT, SELDOM])));
        let data = loose.data(BLOCK);
        loose.issue(|lent, program| second::write(lent, program, UNTOUCHED as u64, 0, &data));
        Logs { empty: Buffers::mounted(), linked: linked.buffers, loose: loose.buffers }
    }
}

/// The buffers, how many operations were issued, and the state of the numbers that choices are made by.
struct History {
    buffers: Buffers,
    turn: usize,
    seed: u64,
}

type View<'a> = Volume<&'a [u8]>;

impl History {
    /// Issues one operation, whose kind goes by the turn.
    fn go_on(&mut self) {
        if self.turn % 64 == 0 {
            return self.overwrite_seldom();
        }
        match self.turn % 16 {
            0 | 6 => self.create(),
            1 => self.make_directory(),
            2 => self.remove(),
            3 | 9 => self.rename(),
            4 => self.replace(),
            5 | 7 | 11 | 13 => self.overwrite(),
            8 | 10 | 14 => self.append(),
            12 => self.set_length(),
            _ => self.forder(),
        }
    }

    fn create(&mut self) {
        let (object, parent, name) = (self.free_number(), self.directory(), self.name());
        self.issue(|lent, program| second::create(lent, program, parent as u64, &name, object as u64));
    }

    fn make_directory(&mut self) {
        let (object, parent, name) = (self.free_number(), self.directory(), self.name());
        self.issue(|lent, program| second::make_directory(lent, program, parent as u64, &name, object as u64));
    }

    /// Removes a file or an empty directory, each by its own call.
    fn remove(&mut self) {
        let object = self.pick(|view, object| object > 0 && !view.is_free(object) && !view.has_children(object));
        let (parent, name) = self.place(object);
        let remove = if self.view().is_file(object) { second::remove_file } else { second::remove_directory };
        self.issue(|lent, program| remove(lent, program, parent, &name));
    }

    /// Gives a file a new name in some directory.
    fn rename(&mut self) {
        let (object, second_parent, second_name) = (self.file(), self.directory(), self.name());
        let (parent, name) = self.place(object);
        self.issue(|lent, program| {
            second::rename(lent, program, (parent, &name), (second_parent as u64, &second_name))
        });
    }

    /// Gives a file the name of another one, which is displaced.
    fn replace(&mut self) {
        let object = self.file();
        let displaced = self.pick(|view, other| other != object && view.is_file(other));
        let ((parent, name), (second_parent, second_name)) = (self.place(object), self.place(displaced));
        self.issue(|lent, program| second::rename(lent, program, (parent, &name), (second_parent, &second_name)));
    }

    /// Overwrites bytes of a file, from the start of a block or from anywhere.
    fn overwrite(&mut self) {
        let object = self.pick(|view, object| view.is_file(object) && view.length(object) > 0);
        let length = self.view().length(object);
        let place = self.below(length);
        let offset = if self.below(2) == 0 { place } else { place - place % BLOCK };
        let data = self.data((length - offset).min(BLOCK - offset % BLOCK));
        self.issue(|lent, program| second::write(lent, program, object as u64, offset as u64, &data));
    }

    /// Overwrites a whole block of the file seldom used, each time the next.
    fn overwrite_seldom(&mut self) {
        let (offset, data) = (self.turn / 64 * BLOCK, [self.turn as u8 | 1; BLOCK]);
        self.issue(|lent, program| second::write(lent, program, SELDOM as u64, offset as u64, &data));
    }

    fn append(&mut self) {
        let longest = geometry().longest_file();
        let object = self.pick(|view, object| view.is_file(object) && view.length(object) < longest);
        let offset = self.view().length(object);
        let data = self.data(BLOCK - offset % BLOCK);
        self.issue(|lent, program| second::write(lent, program, object as u64, offset as u64, &data));
    }

    fn set_length(&mut self) {
        let (object, length) = (self.file(), self.below(geometry().longest_file() + 1));
        self.issue(|lent, program| second::set_length(lent, program, object as u64, length as u64));
    }

    /// Orders 1 to 8 objects.
    fn forder(&mut self) {
        let mut objects: Vec<usize> =
            (0..1 + self.below(8)).map(|_| self.pick(|view, object| !view.is_free(object))).collect();
        objects.sort();
        objects.dedup();
        self.issue(|lent, program| second::forder(lent, program, &list(&objects)));
    }

    /// Links every object in use, but the two files apart, with the root.
    fn link_all(&mut self) {
        let used: Vec<usize> = (1..N).filter(|&object| is_common(object) && !self.view().is_free(object)).collect();
        let mut parts = used.chunks(LINKED);
        while self.turn < M - 1 {
            let objects = [&[ROOT], parts.next().unwrap_or(&[])].concat();
            self.issue(|lent, program| second::forder(lent, program, &list(&objects)));
        }
    }

    /// Issues an operation of some program, which must be accepted.
    fn issue(&mut self, call: impl FnOnce(&mut Lent, u64) -> Result<u64, Refusal>) {
        let program = self.below(32) as u64;
        call(&mut self.buffers.lent(), program).expect("a call that is accepted");
        self.turn += 1;
    }

    fn view(&self) -> View<'_> {
        Volume::over(geometry(), &self.buffers.view[..])
    }

    /// The parent and the name of an object.
    fn place(&self, object: usize) -> (u64, Vec<u8>) {
        (self.view().parent(object) as u64, self.view().name(object).to_vec())
    }

    fn file(&mut self) -> usize {
        self.pick(|view, object| view.is_file(object))
    }

    fn directory(&mut self) -> usize {
        self.pick(|view, object| view.is_directory(object))
    }

    fn free_number(&mut self) -> usize {
        self.pick(|view, object| view.is_free(object))
    }

    /// Some object for which a test holds, not one of the two files apart.
    fn pick(&mut self, wanted: impl Fn(&View, usize) -> bool) -> usize {
        let found: Vec<usize> = (0..N).filter(|&object| is_common(object) && wanted(&self.view(), object)).collect();
        found[self.below(found.len())]
    }

    /// A name that no other turn gives.
    fn name(&mut self) -> Vec<u8> {
        let (turn, length) = (self.turn, 1 + self.below(LONGEST_NAME));
        format!("{turn:-<length$x}").into_bytes()
    }

    /// From 1 byte to so many, none of them zero.
    fn data(&mut self, most: usize) -> Vec<u8> {
        (0..1 + self.below(most)).map(|_| 1 + self.below(255) as u8).collect()
    }

    /// Some number below another (splitmix64).
    fn below(&mut self, limit: usize) -> usize {
        self.seed = self.seed.wrapping_add(0x9e37_79b9_7f4a_7c15);
        let mixed = (self.seed ^ self.seed >> 30).wrapping_mul(0xbf58_476d_1ce4_e5b9);
        let mixed = (mixed ^ mixed >> 27).wrapping_mul(0x94d0_49bb_1331_11eb);
        ((mixed ^ mixed >> 31) % limit as u64) as usize
    }
}

/// Whether an object is not one of the two files apart.
fn is_common(object: usize) -> bool {
    object != SELDOM && object != UNTOUCHED
}

/// A list of objects as forder is lent it.
fn list(objects: &[usize]) -> Vec<u8> {
    objects.iter().flat_map(|&object| (object as u16).to_le_bytes()).collect()
}
