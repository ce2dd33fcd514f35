//! Every refusal of every call at its boundary, and every pair of refusals that can hold at once:
//! the lower number wins (document 01, "Returned numbers").
//!
//! A fault is one way to bring about one refusal; it says which parts of the call it needs for itself.
//! Two faults with no part in common hold at once when both are made.

mod common;
use common::{entry_length, forder_record, log_length, lost, set_length_record, waiting, World};
use second::geometry::LONGEST_RECORD;
use second::log::Log;

/// A call with all arguments that any call takes; each uses its own.
#[derive(Clone)]
struct Setup {
    world: World,
    call: &'static str,
    program: u64,
    parent: u64,
    name: Vec<u8>,
    second_parent: u64,
    second_name: Vec<u8>,
    object: u64,
    /// Offset, new length, sequence or sends.
    number: u64,
    /// Path, data, list or buffer.
    bytes: Vec<u8>,
}

impl Setup {
    /// Makes the call; gives the returned number, and the other results with the buffer.
    fn run(&mut self) -> (u64, Vec<u64>) {
        let Setup { world, call, program, parent, name, second_parent, second_name, object, number, bytes } = self;
        let one = |answer: common::Answer| answer.map_or_else(|code| (code, vec![0]), |result| (0, vec![result]));
        match *call {
            "format" => one(world.format()),
            "mount" => one(world.mount()),
            "lookup" => one(world.lookup(*program, bytes)),
            "list" => one(world.list(*program, *object, bytes)),
            "stat" => match world.stat(*program, *object) {
                Ok(stat) => (0, vec![stat.kind, stat.length, stat.usage]),
                Err(code) => (code, vec![0]),
            },
            "read" => one(world.read(*program, *object, *number, bytes)),
            "create" => one(world.create(*program, *parent, name, *object)),
            "mkdir" => one(world.mkdir(*program, *parent, name, *object)),
            "rmfile" => one(world.rmfile(*program, *parent, name)),
            "rmdir" => one(world.rmdir(*program, *parent, name)),
            "rename" => one(world.rename(*program, *parent, name, *second_parent, second_name)),
            "write" => one(world.write(*program, *object, *number, bytes)),
            "setlen" => one(world.setlen(*program, *object, *number)),
            "forder" => one(world.forder_bytes(*program, bytes)),
            "push" => one(world.push(*number)),
            "fsync" => {
                let (code, sends) = world.fsync(*program, *object, *number);
                (code, vec![sends])
            }
            "cut" => one(world.cut()),
            "take" => one(world.take(*program, bytes)),
            "renew" => one(world.renew(*program)),
            other => panic!("no call {other}"),
        }
    }
}

struct Fault {
    number: u64,
    parts: &'static [&'static str],
    make: fn(&mut Setup),
}

fn fault(number: u64, parts: &'static [&'static str], make: fn(&mut Setup)) -> Fault {
    Fault { number, parts, make }
}

/// The lengths of an entry, of the volumes and of the log of [`base`].
const ENTRY: usize = entry_length(2);
const VOLUME: usize = 8 * ENTRY;
const LOG: usize = log_length(4);

/// n = 8, b = 2, m = 4. Sent: 1 file f of 10 bytes, 2 empty directory d, 3 directory e with 4 file x, 6 empty
/// directory g. 5 and 7 are free. Lost: a forder of program 0. Waiting: a set length of 1, then one of it again.
fn base(call: &'static str) -> Setup {
    let mut world = World::new(8, 2, 8);
    world.create(0, 0, b"f", 1).unwrap();
    world.setlen(0, 1, 10).unwrap();
    world.mkdir(0, 0, b"d", 2).unwrap();
    world.mkdir(0, 0, b"e", 3).unwrap();
    world.create(0, 3, b"x", 4).unwrap();
    world.mkdir(0, 0, b"g", 6).unwrap();
    world.push_all();
    world.m = 4;
    world.log.truncate(LOG);
    let slots = vec![
        lost(forder_record(20, 0, &[0])),
        waiting(set_length_record(21, 1, 1, 10)),
        waiting(set_length_record(22, 1, 1, 10)),
    ];
    world.set_log(&Log { next: 23, marks: 0, slots });
    Setup {
        world,
        call,
        program: 2,
        parent: 0,
        name: b"new".to_vec(),
        second_parent: 0,
        second_name: b"new".to_vec(),
        object: 1,
        number: 0,
        bytes: b"/f".to_vec(),
    }
}

/// The faults of refusals 1 and 2 of every call that is lent all three buffers.
fn buffer_faults() -> Vec<Fault> {
    vec![
        fault(1, &["n"], |s| s.world.n = 1),
        fault(1, &["n"], |s| s.world.n = 257),
        fault(1, &["n"], |s| s.world.n = 8 + (1 << 32)),
        fault(1, &["b"], |s| s.world.b = 0),
        fault(1, &["b"], |s| s.world.b = 65),
        fault(1, &["m"], |s| s.world.m = 0),
        fault(1, &["m"], |s| s.world.m = 1025),
        fault(1, &["server length"], |s| s.world.server.truncate(VOLUME - 1)),
        fault(1, &["server length"], |s| s.world.server.push(0)),
        fault(1, &["view length"], |s| s.world.view.truncate(VOLUME - 1)),
        fault(1, &["view length"], |s| s.world.view.push(0)),
        fault(1, &["log length"], |s| s.world.log.truncate(LOG - 1)),
        fault(1, &["log length"], |s| s.world.log.push(0)),
        fault(2, &["server"], |s| s.world.server[7 * ENTRY] = 3),
        fault(2, &["view"], |s| s.world.view[7 * ENTRY] = 3),
        fault(2, &["slot 4"], |s| *s.world.log.last_mut().unwrap() = 1),
    ]
}

fn program_faults() -> Vec<Fault> {
    let mut faults = buffer_faults();
    faults.push(fault(3, &["program"], |s| s.program = 32));
    faults.push(fault(3, &["program"], |s| s.program = 1 << 32));
    faults
}

fn marked_faults() -> Vec<Fault> {
    let mut faults = program_faults();
    faults.push(fault(4, &["program"], |s| s.world.log[4] |= 4));
    faults
}

fn object_faults() -> Vec<Fault> {
    let mut faults = marked_faults();
    faults.push(fault(7, &["object"], |s| s.object = 8));
    faults.push(fault(7, &["object"], |s| s.object = 65_536));
    faults.push(fault(8, &["object"], |s| s.object = 5));
    faults
}

/// Adds the faults 13 and 14 of a change. The full log keeps its next number apart from refusal 14.
fn with_log_faults(mut faults: Vec<Fault>) -> Vec<Fault> {
    faults.push(fault(13, &["slot 4", "slots"], |s| s.world.fill_log()));
    faults.push(fault(14, &["next"], |s| s.world.log[..4].fill(255)));
    faults
}

fn name_faults() -> Vec<Fault> {
    let mut faults = marked_faults();
    faults.push(fault(5, &["name"], |s| s.name = b"".to_vec()));
    faults.push(fault(5, &["name"], |s| s.name = b".".to_vec()));
    faults.push(fault(5, &["name"], |s| s.name = b"..".to_vec()));
    faults.push(fault(5, &["name"], |s| s.name = b"a/b".to_vec()));
    faults.push(fault(5, &["name"], |s| s.name = b"a\0".to_vec()));
    faults.push(fault(5, &["name"], |s| s.name = [b"/".as_slice(), &[b'a'; 60]].concat()));
    faults.push(fault(6, &["name"], |s| s.name = vec![b'a'; 61]));
    faults
}

/// Checks that the base is accepted, each fault alone gives its number, and each pair the lower one; and
/// that a refusal's other results are 0 and no buffer changes.
fn check(base: Setup, faults: Vec<Fault>) {
    let call = base.call;
    assert_eq!(base.clone().run().0, 0, "{call} is accepted");
    for (at, one) in faults.iter().enumerate() {
        check_refused(&base, &[one], one.number, &format!("{call} {} ({at})", one.number));
        for (second_at, other) in faults.iter().enumerate().skip(at + 1) {
            if one.parts.iter().all(|part| !other.parts.contains(part)) {
                let label = format!("{call} {} ({at}) with {} ({second_at})", one.number, other.number);
                check_refused(&base, &[one, other], one.number.min(other.number), &label);
            }
        }
    }
}

fn check_refused(base: &Setup, faults: &[&Fault], expected: u64, label: &str) {
    let mut setup = base.clone();
    // Contents first and lengths last, so that the lengths do not cut the contents.
    faults.iter().rev().filter(|fault| fault.number > 2).for_each(|fault| (fault.make)(&mut setup));
    faults.iter().filter(|fault| fault.number == 2).for_each(|fault| (fault.make)(&mut setup));
    faults.iter().filter(|fault| fault.number == 1).for_each(|fault| (fault.make)(&mut setup));
    let before = setup.clone();
    let (code, results) = setup.run();
    assert_eq!(code, expected, "{label}");
    if code != 17 {
        assert!(results.iter().all(|&result| result == 0), "{label}: other results");
        assert!(setup.world == before.world && setup.bytes == before.bytes, "{label}: buffers");
    }
}

#[test]
fn format_and_mount() {
    let mut faults = buffer_faults();
    faults.retain(|fault| fault.number == 1 && !["view length", "log length"].contains(&fault.parts[0]));
    check(base("format"), faults);
    let mut faults = buffer_faults();
    faults.retain(|fault| fault.number == 1 || fault.parts[0] == "server");
    check(base("mount"), faults);
}

#[test]
fn format_and_mount_do_not_look_at_the_rest() {
    let mut world = base("format").world;
    world.server.fill(255);
    world.log.truncate(3);
    assert_eq!(world.format(), Ok(0));
    let mut world = base("mount").world;
    world.view.fill(255);
    world.log.fill(255);
    assert_eq!(world.mount(), Ok(0));
    assert_eq!(world.view, world.server);
    assert_eq!(world.log_now(), Log::empty());
}

#[test]
fn lookup() {
    let mut faults = marked_faults();
    faults.push(fault(5, &["path"], |s| s.bytes = b"".to_vec()));
    faults.push(fault(5, &["path"], |s| s.bytes = b"f".to_vec()));
    faults.push(fault(5, &["path"], |s| s.bytes = b"/a".repeat(512)));
    faults.push(fault(5, &["path"], |s| s.bytes = b"//".to_vec()));
    faults.push(fault(5, &["path"], |s| s.bytes = b"/f/".to_vec()));
    faults.push(fault(5, &["path"], |s| s.bytes = b"/d/..".to_vec()));
    faults.push(fault(5, &["path"], |s| s.bytes = b"/d/.".to_vec()));
    faults.push(fault(5, &["path"], |s| s.bytes = b"/a\0".to_vec()));
    faults.push(fault(5, &["path"], |s| s.bytes = [b"/\0".as_slice(), &[b'a'; 60]].concat()));
    faults.push(fault(6, &["path"], |s| s.bytes = [b"/".as_slice(), &[b'a'; 61]].concat()));
    faults.push(fault(6, &["path"], |s| s.bytes = [b"/f/".as_slice(), &[b'a'; 61]].concat()));
    faults.push(fault(8, &["path"], |s| s.bytes = b"/y".to_vec()));
    faults.push(fault(8, &["path"], |s| s.bytes = b"/e/y".to_vec()));
    faults.push(fault(8, &["path"], |s| s.bytes = b"/y/".to_vec()));
    faults.push(fault(8, &["path"], |s| s.bytes = [b"/y/".as_slice(), &[b'a'; 61]].concat()));
    faults.push(fault(9, &["path"], |s| s.bytes = b"/f/x".to_vec()));
    faults.push(fault(9, &["path"], |s| s.bytes = b"/f/x/".to_vec()));
    check(base("lookup"), faults);
}

#[test]
fn long_paths_are_compared_whole() {
    let mut world = World::new(20, 1, 31);
    let mut path = Vec::new();
    for object in 1..=17 {
        world.mkdir(0, object - 1, &[b'a'; 60], object).unwrap();
        path.extend([b"/".as_slice(), &[b'a'; 60]].concat());
        assert_eq!(world.lookup(0, &path[..path.len().min(1023)]).is_ok(), path.len() <= 1023);
    }
    path.truncate(16 * 61);
    assert_eq!(world.lookup(0, &path), Ok(16));
    *path.last_mut().unwrap() = b'b';
    assert_eq!(world.lookup(0, &path), Err(8));
    let longest = [&path[..15 * 61], b"/", &[b'a'; 60], b"/", &[b'c'; 46]].concat();
    assert_eq!(longest.len(), 1023);
    assert_eq!(world.create(0, 16, &[b'c'; 46], 18).map(|_| 18), world.lookup(0, &longest));
}

#[test]
fn list() {
    let mut setup = base("list");
    setup.object = 3;
    setup.bytes = vec![7; 5];
    let mut faults = object_faults();
    faults.push(fault(9, &["object"], |s| s.object = 1));
    faults.push(fault(19, &["buffer"], |s| s.bytes.truncate(4)));
    check(setup, faults);
}

#[test]
fn stat_and_read() {
    check(base("stat"), object_faults());
    let mut setup = base("read");
    setup.number = 10;
    let mut faults = object_faults();
    faults.push(fault(9, &["object"], |s| s.object = 2));
    faults.push(fault(12, &["offset"], |s| s.number = 11));
    faults.push(fault(12, &["offset"], |s| s.number = u64::MAX));
    check(setup, faults);
}

#[test]
fn create_and_make_directory() {
    for call in ["create", "mkdir"] {
        let mut setup = base(call);
        setup.object = 5;
        let mut faults = with_log_faults(name_faults());
        faults.push(fault(7, &["parent"], |s| s.parent = 8));
        faults.push(fault(7, &["object"], |s| s.object = 8));
        faults.push(fault(7, &["object"], |s| s.object = 0));
        faults.push(fault(8, &["parent"], |s| s.parent = 7));
        faults.push(fault(9, &["parent"], |s| s.parent = 1));
        faults.push(fault(10, &["name"], |s| s.name = b"f".to_vec()));
        faults.push(fault(10, &["object"], |s| s.object = 4));
        check(setup, faults);
    }
}

/// The faults of both removals; an object of the other kind is one of each.
fn removal_faults() -> Vec<Fault> {
    let mut faults = with_log_faults(name_faults());
    faults.push(fault(7, &["parent"], |s| s.parent = 8));
    faults.push(fault(7, &["parent"], |s| s.parent = 1 << 32));
    faults.push(fault(8, &["parent"], |s| s.parent = 7));
    faults.push(fault(8, &["parent", "name"], |s| s.name = b"y".to_vec()));
    faults.push(fault(8, &["parent", "name"], |s| s.name = b"x".to_vec()));
    faults.push(fault(9, &["parent"], |s| s.parent = 1));
    faults
}

#[test]
fn remove_file() {
    let mut setup = base("rmfile");
    setup.name = b"f".to_vec();
    let mut faults = removal_faults();
    faults.push(fault(9, &["parent", "name"], |s| s.name = b"d".to_vec()));
    faults.push(fault(9, &["parent", "name"], |s| s.name = b"D".to_vec()));
    faults.push(fault(9, &["parent", "name"], |s| s.name = b"e".to_vec()));
    check(setup, faults);
}

#[test]
fn remove_directory() {
    let mut setup = base("rmdir");
    setup.name = b"d".to_vec();
    let mut faults = removal_faults();
    faults.push(fault(9, &["parent", "name"], |s| s.name = b"f".to_vec()));
    faults.push(fault(9, &["parent", "name"], |s| s.name = b"F".to_vec()));
    faults.push(fault(9, &["parent", "name"], |s| (s.parent, s.name) = (3, b"x".to_vec())));
    faults.push(fault(11, &["parent", "name"], |s| s.name = b"e".to_vec()));
    check(setup, faults);
}

#[test]
fn rename() {
    let mut setup = base("rename");
    setup.name = b"f".to_vec();
    let mut faults = with_log_faults(name_faults());
    faults.push(fault(5, &["second name"], |s| s.second_name = b"..".to_vec()));
    faults.push(fault(6, &["second name"], |s| s.second_name = vec![b'a'; 61]));
    faults.push(fault(7, &["parent"], |s| s.parent = 8));
    faults.push(fault(7, &["second parent"], |s| s.second_parent = 8));
    faults.push(fault(8, &["parent"], |s| s.parent = 7));
    faults.push(fault(8, &["second parent"], |s| s.second_parent = 7));
    faults.push(fault(8, &["parent", "name"], |s| s.name = b"y".to_vec()));
    faults.push(fault(9, &["parent"], |s| s.parent = 1));
    faults.push(fault(9, &["second parent"], |s| s.second_parent = 1));
    faults.push(fault(9, &["parent", "name", "second parent"], |s| {
        s.name = b"d".to_vec();
        s.second_parent = 6;
    }));
    faults.push(fault(9, &["parent", "name", "second parent", "second name"], |s| s.second_name = b"d".to_vec()));
    faults.push(fault(9, &["parent", "name", "second parent", "second name"], |s| {
        s.name = b"d".to_vec();
        s.second_name = b"f".to_vec();
    }));
    faults.push(fault(11, &["parent", "name", "second parent", "second name"], |s| {
        s.name = b"d".to_vec();
        s.second_name = b"e".to_vec();
    }));
    check(setup, faults);
}

#[test]
fn rename_judges_8_before_9_and_9_before_11() {
    // A file onto a directory with children is of another kind; a directory that leaves onto one too.
    let mut world = base("rename").world;
    assert_eq!(world.rename(0, 0, b"f", 0, b"e"), Err(9));
    assert_eq!(world.rename(0, 0, b"d", 3, b"x"), Err(9));
    // An absent first name and a second parent that is a file.
    assert_eq!(world.rename(0, 0, b"y", 1, b"x"), Err(8));
    // A directory that leaves for a parent that is free, and for one that is a file.
    assert_eq!(world.rename(0, 0, b"d", 7, b"x"), Err(8));
    assert_eq!(world.rename(0, 0, b"d", 1, b"x"), Err(9));
    // A first parent that is a file and a second one that is free.
    assert_eq!(world.rename(0, 1, b"y", 7, b"x"), Err(8));
}

#[test]
fn rename_onto_its_own_name() {
    let mut world = base("rename").world;
    assert_eq!(world.rename(2, 0, b"e", 0, b"e"), Ok(23));
    assert_eq!(world.log_now().slots[3].record.map(), 55);
    assert_eq!(world.view, world.server);
    assert_eq!(world.rename(2, 0, b"e", 0, b"e"), Err(13));
    let mut world = base("rename").world;
    world.log[..4].fill(255);
    assert_eq!(world.rename(2, 0, b"e", 0, b"e"), Err(14));
}

#[test]
fn write() {
    let mut setup = base("write");
    setup.bytes = b"ab".to_vec();
    let mut faults = with_log_faults(object_faults());
    faults.push(fault(9, &["object"], |s| s.object = 0));
    faults.push(fault(9, &["object"], |s| s.object = 3));
    faults.push(fault(12, &["range"], |s| s.bytes.clear()));
    faults.push(fault(12, &["range"], |s| s.number = 11));
    faults.push(fault(12, &["range"], |s| s.number = u64::MAX));
    faults.push(fault(12, &["range"], |s| s.bytes = vec![1; 1025]));
    faults.push(fault(12, &["range"], |s| (s.number, s.bytes) = (10, vec![1; 1015])));
    check(setup, faults);
}

/// Document 02, K1: two slots and two numbers are needed, of which the base leaves just two slots free.
#[test]
fn write_across_the_end() {
    let mut setup = base("write");
    (setup.number, setup.bytes) = (9, b"ab".to_vec());
    let mut log = setup.world.log_now();
    log.slots.pop();
    setup.world.set_log(&log);
    let mut faults = with_log_faults(object_faults());
    faults.push(fault(9, &["object"], |s| s.object = 0));
    faults.push(fault(9, &["object"], |s| s.object = 3));
    faults.push(fault(12, &["range"], |s| s.bytes = vec![1; 1016]));
    faults.push(fault(12, &["range"], |s| s.bytes.clear()));
    faults.push(fault(12, &["range"], |s| s.number = 11));
    faults.push(fault(13, &["slot 4", "slots"], |s| {
        let mut log = s.world.log_now();
        log.slots.push(waiting(set_length_record(22, 1, 1, 10)));
        s.world.set_log(&log);
    }));
    faults.push(fault(14, &["next"], |s| s.world.log[..4].copy_from_slice(&4_294_967_294_u32.to_le_bytes())));
    check(setup, faults);
}

#[test]
fn write_at_the_ends_of_blocks() {
    let mut world = World::new(2, 2, 8);
    world.create(0, 0, b"f", 1).unwrap();
    assert_eq!(world.write(0, 1, 0, &[1; 1025]), Err(12), "an append across blocks");
    assert_eq!(world.write(0, 1, 0, &[1; 1024]), Ok(2), "an append of a whole block");
    assert_eq!(world.write(0, 1, 1023, &[1; 2]), Err(12), "across the end and across blocks");
    assert_eq!(world.write(0, 1, 1024, &[2; 1024]), Ok(3), "an append of the last block");
    assert_eq!(world.write(0, 1, 2048, &[1]), Err(12), "beyond b");
    assert_eq!(world.write(0, 1, 1023, &[1; 2]), Err(12), "an overwrite across blocks");
    assert_eq!(world.write(0, 1, 1023, &[1]), Ok(4));
    assert_eq!(world.write(0, 1, 1024, &[1; 1024]), Ok(5));
    assert_eq!(world.write(0, 1, 1024, &[1; 1025]), Err(12));
    assert_eq!(world.write(0, 1, 2048, &[]), Err(12));
}

#[test]
fn set_length() {
    let mut setup = base("setlen");
    setup.number = 2048;
    let mut faults = with_log_faults(object_faults());
    faults.push(fault(9, &["object"], |s| s.object = 2));
    faults.push(fault(12, &["length"], |s| s.number = 2049));
    faults.push(fault(12, &["length"], |s| s.number = 1 << 32));
    check(setup, faults);
}

#[test]
fn forder() {
    let mut setup = base("forder");
    setup.bytes = vec![0, 0, 1, 0, 2, 0, 3, 0, 4, 0, 6, 0];
    let mut faults = with_log_faults(marked_faults());
    faults.push(fault(7, &["list"], |s| s.bytes.clear()));
    faults.push(fault(7, &["list"], |s| s.bytes = vec![1]));
    faults.push(fault(7, &["list"], |s| s.bytes.push(0)));
    faults.push(fault(7, &["list"], |s| s.bytes = (0..9).flat_map(|object| [object, 0]).collect()));
    faults.push(fault(7, &["list"], |s| s.bytes = vec![1, 0, 1, 0]));
    faults.push(fault(7, &["list"], |s| s.bytes = vec![5, 0, 1, 0, 5, 0]));
    faults.push(fault(7, &["list"], |s| s.bytes = vec![5, 0, 8, 0]));
    faults.push(fault(7, &["list"], |s| s.bytes = vec![1, 1]));
    faults.push(fault(8, &["list"], |s| s.bytes = vec![0, 0, 5, 0]));
    check(setup, faults);
    let mut world = World::new(9, 1, 20);
    (1..8).for_each(|object| assert!(world.create(0, 0, &[b'a' + object as u8], object).is_ok()));
    assert!(world.forder(0, &[0, 1, 2, 3, 4, 5, 6, 7]).is_ok());
}

#[test]
fn push() {
    let mut setup = base("push");
    setup.number = 21;
    let mut faults = buffer_faults();
    faults.push(fault(15, &["sequence"], |s| s.number = 22));
    for make in [
        |s: &mut Setup| s.number = 0,
        |s: &mut Setup| s.number = 20,
        |s: &mut Setup| s.number = 23,
        |s: &mut Setup| s.number = (1 << 32) + 21,
    ] {
        faults.push(fault(16, &["sequence"], make));
    }
    check(setup, faults);
}

#[test]
fn push_of_what_does_not_apply_comes_last() {
    let mut world = base("push").world;
    let slots = vec![waiting(set_length_record(21, 1, 5, 10)), waiting(set_length_record(22, 1, 5, 10))];
    world.set_log(&Log { next: 23, marks: 0, slots });
    let before = world.clone();
    assert_eq!(world.push(22), Err(15));
    assert_eq!(world.push(20), Err(16));
    assert_eq!(world.push(21), Err(2));
    assert!(world == before);
}

#[test]
fn fsync() {
    let mut setup = base("fsync");
    setup.number = 2;
    let mut faults = object_faults();
    faults.push(fault(17, &["sends"], |s| s.number = 0));
    faults.push(fault(17, &["sends"], |s| s.number = 1));
    check(setup, faults);
}

#[test]
fn cut() {
    check(base("cut"), buffer_faults());
}

#[test]
fn take_and_renew() {
    let mut setup = base("take");
    setup.program = 0;
    setup.bytes = vec![7; 1040];
    let mut faults = program_faults();
    faults.push(fault(16, &["program"], |s| s.program = 1));
    faults.push(fault(19, &["buffer"], |s| s.bytes.truncate(1039)));
    faults.push(fault(19, &["buffer"], |s| s.bytes.clear()));
    check(setup, faults);
    let mut setup = base("renew");
    setup.program = 1;
    let mut faults = program_faults();
    faults.push(fault(18, &["program"], |s| s.program = 0));
    check(setup, faults);
}

#[test]
fn take_and_renew_skip_4() {
    let mut world = base("take").world;
    world.log[4] = 255;
    assert_eq!(world.renew(0), Err(18));
    assert_eq!(world.take(0, &mut [0; LONGEST_RECORD]), Ok(11));
    assert_eq!(world.take(0, &mut [0; LONGEST_RECORD]), Err(16));
    assert_eq!(world.renew(0), Ok(0));
    assert_eq!(world.log_now().marks, 254);
    assert_eq!(world.renew(0), Ok(0), "an unmarked program may renew");
}
