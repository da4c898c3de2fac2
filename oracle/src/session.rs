//! The session program, as a function from input bytes to output bytes.

use crate::bits::Reader;
use crate::call::*;
use crate::state::*;
use crate::store;
use std::fmt::Write;

/// "It formats 64 blocks".
const SESSION_BLOCKS: usize = 64;
/// "a length over 4,096 ... prints `end`"
const LONGEST_WRITE: usize = 4_096;
const CALL_BYTES: usize = 8;

/// "A call is op 4 bits, set 4, file 4, other 4, offset 16, length 16, fill
/// 8, zero 8."
struct SessionCall {
    op: u32,
    set: u32,
    file: u32,
    other: u32,
    offset: u32,
    length: usize,
    fill: u8,
    zero: u32,
}

/// "It formats 64 blocks, reads 8-byte calls from standard input, then lists."
pub fn session(input: &[u8]) -> Vec<u8> {
    let mut tables = vec![0; TABLES_BYTES];
    let mut pages = vec![0; SESSION_BLOCKS * PAGE_BYTES];
    store::format(&mut tables, &mut pages);
    let mut output = String::new();
    for (index, bytes) in input.chunks(CALL_BYTES).enumerate() {
        let count = index + 1;
        let Some(call) = read_call(bytes) else {
            // "prints `end` and the call's count from 1, and stops reading"
            line(&mut output, &format!("end {count}"));
            break;
        };
        let answer = run(&call, &mut tables, &mut pages);
        // "`call` count, op, number, three counts."
        let Answer { number, first, second, third } = answer;
        line(&mut output, &format!("call {count} {} {number} {first} {second} {third}", call.op));
    }
    list_set(&State::unpack(&tables), 0, &mut output);
    output.into_bytes()
}

fn line(output: &mut String, text: &str) {
    writeln!(output, "{text}").expect("a string takes any line");
}

/// None for what "prints `end`": "A short call (1 to 7 bytes), another op, a
/// length over 4,096, or a nonzero field that the op does not use".
fn read_call(bytes: &[u8]) -> Option<SessionCall> {
    if bytes.len() < CALL_BYTES {
        return None;
    }
    let mut reader = Reader::new(bytes);
    let call = SessionCall {
        op: reader.take(4),
        set: reader.take(4),
        file: reader.take(4),
        other: reader.take(4),
        offset: reader.take(16),
        length: reader.take(16) as usize,
        fill: reader.take(8) as u8,
        zero: reader.take(8),
    };
    if call.length > LONGEST_WRITE || has_unused_field(&call)? {
        return None;
    }
    Some(call)
}

/// Whether a field that the op does not use is not zero; None for another op.
fn has_unused_field(call: &SessionCall) -> Option<bool> {
    let file = call.file != 0;
    let other = call.other != 0;
    let offset = call.offset != 0;
    let length = call.length != 0;
    let fill = call.fill != 0;
    let unused = match call.op {
        // Create and delete use set and file.
        1 | 4 => other || offset || length || fill,
        // Write uses set, file, offset, length and fill.
        2 => other,
        // Truncate uses set, file and offset.
        3 => other || length || fill,
        // Make uses set and other.
        5 | 6 => file || offset || length || fill,
        // Remove uses set.
        7 => file || other || offset || length || fill,
        _ => return None,
    };
    Some(unused || call.zero != 0)
}

/// "Ops: 1 create, 2 write (length copies of fill), 3 truncate (offset is the
/// size), 4 delete, 5 make read-only set `other` from set, 6 same, writeable,
/// 7 remove."
fn run(call: &SessionCall, tables: &mut [u8], pages: &mut [u8]) -> Answer {
    let SessionCall { set, file, other, offset, .. } = *call;
    match call.op {
        1 => store::create(tables, pages, set, file),
        // Document 02: "The session program and the rows of document 01 relied on
        // the old default and now ask for narrow writes."
        2 => store::write_narrow(tables, pages, set, file, offset, &vec![call.fill; call.length]),
        3 => store::truncate(tables, pages, set, file, offset),
        4 => store::delete(tables, pages, set, file),
        5 => store::make(tables, pages, set, other, 0),
        6 => store::make(tables, pages, set, other, 1),
        _ => store::remove(tables, pages, set),
    }
}

/// "The listing goes: the set itself, then its children in order of making,
/// each in the same way; files stand under their set, by number, absent ones
/// left out."
fn list_set(state: &State, set: usize, output: &mut String) {
    let record = &state.sets[set];
    // "`set` number, level, parent, writeable."
    let writeable = u32::from(record.writeable);
    line(output, &format!("set {set} {} {} {writeable}", record.level, record.parent));
    for file in (0..FILES).filter(|file| state.files[set][*file].is_present()) {
        list_file(state, set, file, output);
    }
    for child in state.children(set) {
        list_set(state, child, output);
    }
}

/// "`file` set, number, state, size by reading (0 if marked)." "Marked files
/// have no `ext`."
fn list_file(state: &State, set: usize, file: usize, output: &mut String) {
    let record = &state.files[set][file];
    let marked = record.state == FileState::Marked;
    let size = if marked { 0 } else { state.size_by_reading(set, file) };
    line(output, &format!("file {set} {file} {} {size}", record.state as u32));
    if marked {
        return;
    }
    for page in 0..PAGES {
        if page == 0 || !continues(record.entries[page - 1], record.entries[page]) {
            list_extent(set, record.entries[page], page, output);
        }
    }
    // "`ext 64 -1` closes a file." Document 02: "The closing line stays
    // `ext 64 -1` in every set."
    line(output, "ext 64 -1");
}

/// Whether an entry is in the same extent as the one before it. "An extent is
/// a longest run in the file's own map of pages in consecutive blocks, or of
/// pages not stored". Document 02, of a hole and an unmapped page: "the two no
/// longer join in one run." (Set 0 has no unmapped page.)
fn continues(before: Entry, entry: Entry) -> bool {
    match (before.kind, entry.kind) {
        (Kind::Stored, Kind::Stored) => entry.block == before.block + 1,
        (before, entry) => before == entry,
    }
}

/// "`ext` first page, block", and pages not stored "shown as -1". Document 02:
/// "Set 0 keeps -1 for its holes. In any other set a hole is listed as -2 and
/// an unmapped page as -1".
fn list_extent(set: usize, entry: Entry, page: usize, output: &mut String) {
    match entry.kind {
        Kind::Stored => line(output, &format!("ext {page} {}", entry.block)),
        Kind::Hole if set != 0 => line(output, &format!("ext {page} -2")),
        _ => line(output, &format!("ext {page} -1")),
    }
}
