//! A seeded generator of call scripts: `generate KIND SEED` prints one script, the same bytes for the same seed.
//! The kinds are listed in [`KINDS`]; `cases/seeds` says which of them are stored.
#![forbid(unsafe_code)]

mod across;
mod bad;
mod builder;
mod damage;
mod limits;
mod logs;
mod pairs;
mod random;
mod records;
mod runs;
mod spelling;

use builder::Builder;
use std::io::Write;

/// What makes a script of one kind.
type Maker = fn(&mut Builder);

/// The kinds of script, and what makes each.
const KINDS: [(&str, Maker); 12] = [
    ("run", runs::run),
    ("fill", runs::fill),
    ("files", runs::files),
    ("across", across::across),
    ("spelling", spelling::spelling),
    ("limits", limits::limits),
    ("damage", damage::damage),
    ("sizes", damage::sizes),
    ("logs", logs::logs),
    ("records", records::records),
    ("pairs", pairs::pairs),
    ("bad", bad::bad),
];

fn main() -> std::io::Result<()> {
    let words: Vec<String> = std::env::args().skip(1).collect();
    let kind = words.first().and_then(|word| KINDS.iter().find(|(name, _)| name == word));
    let seed = words.get(1).and_then(|word| word.parse().ok());
    let (Some((name, make)), Some(seed)) = (kind, seed) else {
        let names: Vec<&str> = KINDS.iter().map(|(name, _)| *name).collect();
        eprintln!("usage: generate {} SEED", names.join("|"));
        std::process::exit(2);
    };
    let mut builder = Builder::new(seed);
    builder.comment(&format!("Made by: generate {name} {seed}"));
    make(&mut builder);
    std::io::stdout().write_all(builder.text().as_bytes())
}
