//! An ordered write-behind volume, as document 01 and the requests K1 to K4 of document 02 describe it.
//!
//! The calls take a geometry, numbers and byte slices and answer with the numbers of document 01:
//! see [`session`] (format, mount), [`questions`], [`changes`], [`sends`] and [`losses`].
//!
//! ```
//! use second::{geometry::Geometry, Lent};
//! let (n, b, m) = (4, 1, 4);
//! let lengths = Geometry::new(n, b, m).ok_or(second::Refusal::WrongBuffer)?;
//! let (mut server, mut view) = (vec![0; lengths.volume_length()], vec![0; lengths.volume_length()]);
//! let mut log = vec![0; lengths.log_length()];
//! second::format(n, b, m, &mut server)?;
//! let mut lent = Lent { n, b, m, server: &mut server, view: &mut view, log: &mut log };
//! second::mount(&mut lent)?;
//! assert_eq!(second::create(&mut lent, 0, 0, b"task", 1)?, 1);
//! assert_eq!(second::lookup(&mut lent, 0, b"/task")?, 1);
//! # Ok::<(), second::Refusal>(())
//! ```
#![forbid(unsafe_code)]

pub mod apply;
pub mod bytes;
pub mod changes;
pub mod form;
pub mod geometry;
pub mod log;
pub mod losses;
pub mod names;
pub mod order;
pub mod player;
pub mod printer;
pub mod questions;
pub mod record;
pub mod refusal;
pub mod script;
pub mod sends;
pub mod session;
pub mod volume;

pub use changes::{create, forder, make_directory, remove_directory, remove_file, rename, set_length, write};
pub use losses::{read_record, renew, take, Head};
pub use questions::{list, lookup, read, stat, Stat};
pub use refusal::Refusal;
pub use sends::{cut, fsync, push, Fsync};
pub use session::{format, mount, Lent};
