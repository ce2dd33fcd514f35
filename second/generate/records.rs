//! Records for the reader: good ones alone and in a row, truncated ones, and corrupted ones.

use crate::builder::{hex, Builder, BLOCK};
use crate::random::Random;
use second::names::LONGEST_NAME;
use second::record::{Kind, Record};

/// A valid record that fits n objects and files of that length.
pub fn valid(random: &mut Random, n: u64, longest: u64) -> Record {
    let kind = random.pick(&Kind::ALL);
    let object = random.between(1, n - 1) as u16;
    let mut record = Record { program: random.pick(&[0, 1, 2, 3, 31]), ..Record::blank(kind) };
    record.sequence = random.pick(&[1, 2, 300, 4_294_967_294]);
    if kind != Kind::Forder {
        record.object = object;
    }
    match kind {
        Kind::Create | Kind::MakeDirectory | Kind::Remove => place(random, n, &mut record),
        Kind::Rename => {
            place(random, n, &mut record);
            record.second_parent = random.below(n) as u16;
            record.second_name = name(random);
            let displaced = random.between(1, n - 1) as u16;
            record.displaced = (displaced != object && random.chance(50)).then_some(displaced);
        }
        Kind::Overwrite | Kind::Append => {
            let block = random.below(longest / BLOCK) * BLOCK;
            let within = random.pick(&[0, 0, 1, 2, 4, 1000, BLOCK - 1]);
            let count = random.between(1, 5).min(BLOCK - within);
            record.offset = (block + within) as u32;
            record.data = (0..count).map(|at| at as u8 + 65).collect();
        }
        Kind::SetLength => record.offset = random.pick(&[0, 1, 4, 8, longest - 1, longest]) as u32,
        Kind::Forder => record.list = list(random, n),
    }
    record
}

fn place(random: &mut Random, n: u64, record: &mut Record) {
    let any = random.below(n);
    record.parent = random.pick(&[0, 0, 0, any]) as u16;
    record.name = name(random);
}

fn name(random: &mut Random) -> Vec<u8> {
    random.weighted(&[(8, b"a".to_vec()), (8, b"b".to_vec()), (4, b"task".to_vec()), (1, vec![b'n'; LONGEST_NAME])])
}

/// 1 to 8 different objects.
fn list(random: &mut Random, n: u64) -> Vec<u16> {
    let count = random.pick(&[1, 2, 2, 3, 8]).min(n);
    let start = random.below(n);
    (0..count).map(|at| ((start + at) % n) as u16).collect()
}

pub fn records(builder: &mut Builder) {
    builder.comment("A place at or past the end, and nothing at all.");
    for line in ["record 0 =", "record 1 =", "record 18446744073709551615 =00", "record 1 =00", "record 0 =00"] {
        builder.say(line);
    }
    for _ in 0..20 {
        builder.comment("A record by itself, in a row, cut short, and with a byte changed.");
        let record = valid(&mut builder.random, 256, 65_536);
        let bytes = record.to_bytes();
        builder.say(&format!("record 0 {}", hex(&bytes)));
        row(builder, &bytes);
        for _ in 0..3 {
            let end = builder.random.below(bytes.len() as u64) as usize;
            builder.say(&format!("record 0 {}", hex(&bytes[..end])));
        }
        for _ in 0..7 {
            corrupt(builder, &bytes);
        }
    }
    edges(builder);
}

/// Two more records after the first, read at their places and next to them.
fn row(builder: &mut Builder, first: &[u8]) {
    let mut bytes = first.to_vec();
    let mut places = vec![0];
    for _ in 0..2 {
        places.push(bytes.len());
        bytes.extend(valid(&mut builder.random, 256, 65_536).to_bytes());
    }
    places.extend([1, bytes.len() - 1, bytes.len(), bytes.len() + 1]);
    for place in places {
        builder.say(&format!("record {place} {}", hex(&bytes)));
    }
}

/// Changes one byte, mostly of the head, to another value.
fn corrupt(builder: &mut Builder, bytes: &[u8]) {
    let mut bytes = bytes.to_vec();
    let limit = if builder.random.chance(60) { 16.min(bytes.len()) } else { bytes.len() };
    let at = builder.random.below(limit as u64) as usize;
    let any = builder.random.below(256) as u8;
    bytes[at] = builder.random.pick(&[0, 1, 255, any, bytes[at].wrapping_add(1), bytes[at] ^ 128]);
    builder.say(&format!("record 0 {}", hex(&bytes)));
}

/// Data and offsets at the ends of blocks and of the longest file.
fn edges(builder: &mut Builder) {
    builder.comment("Writes at the ends of blocks and of the longest file.");
    let cases = [
        (0, BLOCK),
        (0, BLOCK + 1),
        (1, BLOCK),
        (BLOCK - 1, 1),
        (BLOCK - 1, 2),
        (65_536 - BLOCK, BLOCK),
        (65_535, 1),
        (65_535, 2),
        (65_536, 1),
    ];
    for (offset, count) in cases {
        for kind in [Kind::Overwrite, Kind::Append] {
            let (offset, data) = (offset as u32, vec![7; count as usize]);
            let record = Record { sequence: 5, object: 9, offset, data, ..Record::blank(kind) };
            builder.say(&format!("record 0 {}", hex(&record.to_bytes())));
        }
    }
    builder.comment("New lengths at the end of the longest file.");
    for length in [0, 65_535, 65_536, 65_537, 4_294_967_295] {
        let record = Record { sequence: 5, object: 9, offset: length, ..Record::blank(Kind::SetLength) };
        builder.say(&format!("record 0 {}", hex(&record.to_bytes())));
    }
}
