//! The second program's calls for a program in C: `second_X` has the parameters and the results of `wb_X`. Each only passes
//! its arguments on to the call in `second/src` and gives its answer back; with a refusal the other results are 0.
//! `second_calls.h` declares them.

use second::record::Record;
use second::{Head, Lent, Refusal};

/// The results, laid out as in `writebehind.h`.
#[repr(C)]
pub struct Code {
    returned: u64,
}

#[repr(C)]
pub struct Value {
    returned: u64,
    value: u64,
}

#[repr(C)]
pub struct Status {
    returned: u64,
    kind: u64,
    length: u64,
    usage: u64,
}

#[repr(C)]
#[derive(Default)]
pub struct Loss {
    returned: u64,
    next: u64,
    sequence: u64,
    program: u64,
    kind: u64,
    map: u64,
    object: u64,
    parent: u64,
    second_parent: u64,
    displaced: u64,
    name_at: u64,
    name_len: u64,
    second_name_at: u64,
    second_name_len: u64,
    offset: u64,
    data_at: u64,
    data_len: u64,
    list_at: u64,
    list_len: u64,
}

/// The bytes that a caller in C lends: so many from the pointer on, and in no other buffer of the call. With length 0 the
/// pointer may be null. What is lent only for reading is not written to.
fn bytes<'a>(at: *const u8, length: u64) -> &'a mut [u8] {
    if length == 0 {
        return &mut [];
    }
    unsafe { std::slice::from_raw_parts_mut(at.cast_mut(), length as usize) }
}

fn code(answer: Result<(), Refusal>) -> Code {
    Code { returned: answer.map_or_else(Refusal::number, |()| 0) }
}

fn value(answer: Result<u64, Refusal>) -> Value {
    let (returned, value) = answer.map_or_else(|refusal| (refusal.number(), 0), |value| (0, value));
    Value { returned, value }
}

/// Declares the entries that are lent all three buffers: their name, their parameters after these, their result, and the call.
macro_rules! entries {
    ($($name:ident($($given:ident: $kind:ty),*) -> $result:ty, |$lent:ident| $call:expr;)*) => {$(
        #[no_mangle]
        pub extern "C" fn $name(
            n: u64,
            b: u64,
            m: u64,
            server: *const u8,
            server_length: u64,
            view: *const u8,
            view_length: u64,
            log: *const u8,
            log_length: u64,
            $($given: $kind),*
        ) -> $result {
            let (server, view, log) = (bytes(server, server_length), bytes(view, view_length), bytes(log, log_length));
            let $lent = &mut Lent { n, b, m, server, view, log };
            $call
        }
    )*};
}

entries! {
    second_mount() -> Code, |lent| code(second::mount(lent));

    second_lookup(program: u64, path: *const u8, path_length: u64) -> Value,
        |lent| value(second::lookup(lent, program, bytes(path, path_length)));
    second_list(program: u64, object: u64, buffer: *mut u8, buffer_length: u64) -> Value,
        |lent| value(second::list(lent, program, object, bytes(buffer, buffer_length)));
    second_stat(program: u64, object: u64) -> Status, |lent| status(second::stat(lent, program, object));
    second_read(program: u64, object: u64, offset: u64, buffer: *mut u8, buffer_length: u64) -> Value,
        |lent| value(second::read(lent, program, object, offset, bytes(buffer, buffer_length)));

    second_create(program: u64, parent: u64, name: *const u8, name_length: u64, object: u64) -> Value,
        |lent| value(second::create(lent, program, parent, bytes(name, name_length), object));
    second_mkdir(program: u64, parent: u64, name: *const u8, name_length: u64, object: u64) -> Value,
        |lent| value(second::make_directory(lent, program, parent, bytes(name, name_length), object));
    second_remove_file(program: u64, parent: u64, name: *const u8, name_length: u64) -> Value,
        |lent| value(second::remove_file(lent, program, parent, bytes(name, name_length)));
    second_remove_directory(program: u64, parent: u64, name: *const u8, name_length: u64) -> Value,
        |lent| value(second::remove_directory(lent, program, parent, bytes(name, name_length)));
    second_rename(program: u64, parent: u64, name: *const u8, name_length: u64,
                  second_parent: u64, second_name: *const u8, second_name_length: u64) -> Value,
        |lent| {
            let second_name = bytes(second_name, second_name_length);
            value(second::rename(lent, program, (parent, bytes(name, name_length)), (second_parent, second_name)))
        };
    second_write(program: u64, object: u64, offset: u64, data: *const u8, data_length: u64) -> Value,
        |lent| value(second::write(lent, program, object, offset, bytes(data, data_length)));
    second_setlen(program: u64, object: u64, length: u64) -> Value,
        |lent| value(second::set_length(lent, program, object, length));
    second_forder(program: u64, list: *const u8, list_length: u64) -> Value,
        |lent| value(second::forder(lent, program, bytes(list, list_length)));

    second_push(sequence: u64) -> Code, |lent| code(second::push(lent, sequence));
    second_fsync(program: u64, object: u64, sends: u64) -> Value, |lent| sent(second::fsync(lent, program, object, sends));
    second_cut() -> Code, |lent| code(second::cut(lent));

    second_take(program: u64, buffer: *mut u8, buffer_length: u64) -> Value,
        |lent| value(second::take(lent, program, bytes(buffer, buffer_length)));
    second_renew(program: u64) -> Code, |lent| code(second::renew(lent, program));
}

#[no_mangle]
pub extern "C" fn second_format(n: u64, b: u64, m: u64, server: *mut u8, server_length: u64) -> Code {
    code(second::format(n, b, m, bytes(server, server_length)))
}

fn status(answer: Result<second::Stat, Refusal>) -> Status {
    match answer {
        Ok(stat) => Status { returned: 0, kind: stat.kind, length: stat.length, usage: stat.usage },
        Err(refusal) => Status { returned: refusal.number(), kind: 0, length: 0, usage: 0 },
    }
}

/// Fsync has its sends with a refusal too.
fn sent(answer: second::Fsync) -> Value {
    Value { returned: answer.refusal.map_or(0, Refusal::number), value: answer.sends }
}

/// The record is read twice: by the second program's call, which tells only its head, and for the other fields.
#[no_mangle]
pub extern "C" fn second_record(at: u64, buffer: *const u8, buffer_length: u64) -> Loss {
    let buffer = bytes(buffer, buffer_length);
    match second::read_record(at, buffer) {
        Ok(Head { next, sequence, program, kind }) => {
            Loss { next, sequence, program, kind, ..fields(at, &buffer[at as usize..]) }
        }
        Err(refusal) => Loss { returned: refusal.number(), ..Loss::default() },
    }
}

/// The fields after the head of the record that the bytes begin with; it stands at a place of the buffer.
fn fields(at: u64, bytes: &[u8]) -> Loss {
    let Some((record, _)) = Record::from_bytes(bytes) else { return Loss::default() };
    let mut loss = Loss {
        map: record.map() as u64,
        object: record.object as u64,
        parent: record.parent as u64,
        second_parent: record.second_parent as u64,
        displaced: record.displaced.unwrap_or(0) as u64,
        name_len: record.name.len() as u64,
        second_name_len: record.second_name.len() as u64,
        offset: record.offset as u64,
        data_len: record.data.len() as u64,
        list_len: 2 * record.list.len() as u64,
        ..Loss::default()
    };
    (loss.name_at, loss.second_name_at) = (place(&loss, at, 4), place(&loss, at, 5));
    (loss.data_at, loss.list_at) = (place(&loss, at, 7), place(&loss, at, 8));
    loss
}

/// The bytes of a record before its fields: map (2), sequence (4), program (1), kind (1).
const RECORD_HEAD: u64 = 8;

/// Where the bytes of a bit's field begin: behind the fields of lower bits, and behind the field's own length.
fn place(loss: &Loss, at: u64, bit: usize) -> u64 {
    let heads = [0, 0, 0, 0, 1, 1, 0, 2, 1];
    let lengths = [2, 2, 2, 2, loss.name_len, loss.second_name_len, 4, loss.data_len, loss.list_len];
    let stands = |bit: &usize| loss.map >> bit & 1 == 1;
    let before: u64 = (0..bit).filter(stands).map(|lower| heads[lower] + lengths[lower]).sum();
    if stands(&bit) {
        at + RECORD_HEAD + before + heads[bit]
    } else {
        0
    }
}
