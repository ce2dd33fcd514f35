//! Times the proved form check of a volume against a plain `|` over the same bytes (the floor) and against the second
//! program's check, by turns, on volumes of 256 objects and 64 blocks a file. The only argument is the number of turns.
//! The exit status is 1 if a check gives a wrong answer, and 0 whatever the times are.

use second::form::well_formed;
use second::geometry::Geometry;
use second::names::LONGEST_NAME;
use second::volume::{Volume, DIRECTORY, FILE, LENGTH_AT};
use std::hint::black_box;
use std::time::{Duration, Instant};

const N: usize = 256;
const B: usize = 64;

// A slice goes to Rattle as its address and its length.
extern "C" {
    fn bench_volume_form(volume: *const u8, length: usize, n: usize, b: usize) -> u64;
}

/// The proved check: 0 well formed, 1 wrong numbers or length, 2 not well formed.
#[inline(never)]
fn proved(bytes: &[u8]) -> u64 {
    unsafe { bench_volume_form(bytes.as_ptr(), bytes.len(), N, B) }
}

/// The second program's check.
#[inline(never)]
fn second(bytes: &[u8]) -> bool {
    well_formed(&Volume::over(geometry(), bytes))
}

/// The floor: every byte is read once and nothing else is done.
#[inline(never)]
fn floor(bytes: &[u8]) -> u8 {
    let mut seen = 0;
    for byte in bytes {
        seen |= byte;
    }
    seen
}

fn geometry() -> Geometry {
    Geometry::new(N as u64, B as u64, 1).expect("a geometry within the limits")
}

type Made = Volume<Vec<u8>>;

/// A volume with only a root.
fn empty() -> Made {
    let mut volume = Volume::over(geometry(), vec![0; geometry().volume_length()]);
    volume.clear_to_root();
    volume
}

/// Fifteen directories in the root, and files in them up to a number of used entries, each of one length.
fn tree(used: usize, length: usize) -> Made {
    let mut volume = empty();
    let data: Vec<u8> = (0..length).map(|at| (at % 255 + 1) as u8).collect();
    for object in 1..used {
        if object < 16 {
            volume.make(object, DIRECTORY, 0, format!("directory-{object:03}").as_bytes());
        } else {
            volume.make(object, FILE, 1 + object % 15, format!("file-{object:03}").as_bytes());
            volume.put_length(object, length);
            volume.put_data(object, 0, &data);
        }
    }
    volume
}

/// Half of the entries are used, and the files have half of the greatest length.
fn half() -> Made {
    tree(N / 2, geometry().longest_file() / 2)
}

/// All entries are used, and the files have the greatest length.
fn full() -> Made {
    tree(N, geometry().longest_file())
}

/// A name of so many bytes, that differs from those of other objects only at its end.
fn long_name(object: usize, length: usize) -> Vec<u8> {
    format!("{:n<1$}{object:03}", "", length - 3).into_bytes()
}

/// Empty files in one directory, with names of 60 bytes that differ only at their ends: the longest comparisons.
fn flat() -> Made {
    let mut volume = empty();
    for object in 1..N {
        volume.make(object, FILE, 0, &long_name(object, LONGEST_NAME));
    }
    volume
}

/// Files of the greatest length in one directory, with names of 59 bytes that differ only at their ends: no data to test.
fn packed() -> Made {
    let mut volume = empty();
    let data = vec![1; geometry().longest_file()];
    for object in 1..N {
        volume.make(object, FILE, 0, &long_name(object, LONGEST_NAME - 1));
        volume.put_length(object, data.len());
        volume.put_data(object, 0, &data);
    }
    volume
}

/// Directories, each in the one before it: the longest ways to the root.
fn chain() -> Made {
    let mut volume = empty();
    for object in 1..N {
        volume.make(object, DIRECTORY, object - 1, format!("level-{object:03}").as_bytes());
    }
    volume
}

/// The bytes of a volume.
fn bytes(volume: &Made) -> Vec<u8> {
    (0..N).flat_map(|object| volume.entry(object)).copied().collect()
}

/// The last place of a volume where only a zero may stand.
fn last_zero(volume: &Made) -> usize {
    let entry = geometry().entry_length();
    if volume.length(N - 1) == geometry().longest_file() {
        return (N - 1) * entry + LENGTH_AT - 1;
    }
    N * entry - 1
}

/// Ends the run if a check does not give the answer that is expected.
fn expect(what: &str, bytes: &[u8], form: u64) {
    let answers = [proved(bytes), if second(bytes) { 0 } else { 2 }];
    if answers != [form, form] {
        eprintln!(
            "{what}: expected {form}, but the proved check says {} and the second program {}",
            answers[0], answers[1]
        );
        std::process::exit(1);
    }
}

/// The shorter of a time and that of one run. The floor goes before it, so that every run finds the caches alike.
fn time<R>(best: Duration, bytes: &[u8], run: impl Fn(&[u8]) -> R) -> Duration {
    black_box(floor(black_box(bytes)));
    let start = Instant::now();
    black_box(run(black_box(bytes)));
    start.elapsed().min(best)
}

/// A volume by its name, and the greatest ratio of the proved check to the floor that the target allows on it.
struct Case {
    name: &'static str,
    make: fn() -> Made,
    most: f64,
}

const CASES: [Case; 6] = [
    Case { name: "empty", make: empty, most: 1.5 },
    Case { name: "half", make: half, most: 3.0 },
    Case { name: "full", make: full, most: 3.0 },
    Case { name: "flat", make: flat, most: 3.0 },
    Case { name: "packed", make: packed, most: 3.0 },
    Case { name: "chain", make: chain, most: 3.0 },
];

/// Tries the answers of both checks on a volume, and on the same with a stray byte.
fn try_answers(case: &Case) {
    let volume = (case.make)();
    let mut bytes = bytes(&volume);
    expect(case.name, &bytes, 0);
    bytes[last_zero(&volume)] = 1;
    expect(&format!("{} with a stray byte", case.name), &bytes, 2);
}

/// Times the floor, the proved check and the second program on a volume by turns, prints a line, and notes what misses a target.
fn measure(case: &Case, turns: usize, missed: &mut Vec<String>) {
    let bytes = bytes(&(case.make)());
    let mut best = [Duration::MAX; 3];
    for _ in 0..turns {
        best[0] = time(best[0], &bytes, floor);
        best[1] = time(best[1], &bytes, proved);
        best[2] = time(best[2], &bytes, second);
    }
    let [floor, proved, second] = best.map(|time| time.as_secs_f64() * 1e6);
    let (rate, over, ahead) = (bytes.len() as f64 / floor / 1e3, proved / floor, second / proved);
    let name = case.name;
    println!("{name:6} {floor:9.1} {rate:7.1} {proved:9.1} {second:9.1} {over:14.2} {ahead:15.2}");
    if over > case.most {
        missed.push(format!("{name}: proved/floor is {over:.2}, above {}", case.most));
    }
    if ahead < 3.0 {
        missed.push(format!("{name}: second/proved is {ahead:.2}, below 3"));
    }
}

fn main() {
    let turns = std::env::args().nth(1).map_or(100, |word| word.parse().expect("a number of turns"));
    CASES.iter().for_each(try_answers);
    println!("both checks accept each volume, and refuse it with a stray byte");
    println!("volumes of {} bytes, best of {turns} turns, in microseconds:", geometry().volume_length());
    println!("volume     floor  (GB/s)    proved    second   proved/floor   second/proved");
    let mut missed = Vec::new();
    for case in &CASES {
        measure(case, turns, &mut missed);
    }
    println!("targets: proved/floor at most 1.5 on the empty volume and 3 on the others; second/proved at least 3");
    if missed.is_empty() {
        println!("all hold");
    }
    for line in missed {
        println!("missed, {line}");
    }
}
