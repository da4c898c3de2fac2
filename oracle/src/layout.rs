//! Where the parts of the tables stand, and fields read straight from their bytes, for
//! the judges that read the tables anew. No code of `state` is used.

use crate::bits::field;
use crate::call::{FILES, LATEST_END, PAGES, SETS};

/// Where the parts of the tables begin, and how long their records are: "header, 4
/// bytes", "bitmap, 512 bytes", "8 set records, 3 bytes each", which Ask 8 made 7,
/// "128 file records, 132 bytes each".
pub const BITMAP: usize = 4;
pub const SET_RECORDS: usize = 516;
pub const SET_BYTES: usize = 7;
pub const FILE_RECORDS: usize = 572;
pub const FILE_BYTES: usize = 132;
/// "state 2, size 16, zero 14" come before a file's entries.
pub const FILE_HEAD_BYTES: usize = 4;
/// "State: ... 3 marked out of sync."
const MARKED: u8 = 3;
/// "Kind: 0 unmapped, 1 hole, 2 stored; 3 is bad."
pub const STORED: usize = 2;
/// All entries. They stand by set, then file, then page: an entry's place is
/// (set x 16 + file) x 64 + page.
pub const ENTRIES: usize = SETS * FILES * PAGES;

/// "block count B 13"
pub fn block_count(tables: &[u8]) -> usize {
    field(tables, 0, 13) as usize
}

/// "next start 12"
pub fn next_start(tables: &[u8]) -> usize {
    field(tables, 13, 12) as usize
}

/// "bit b is 1 when block b is used"; the most significant bit of a byte is first.
pub fn is_used_block(tables: &[u8], block: usize) -> bool {
    tables[BITMAP + block / 8] >> (7 - block % 8) & 1 == 1
}

/// The record of set s stands at 516 + 7 s.
pub fn set_record(tables: &[u8], set: usize) -> &[u8] {
    &tables[SET_RECORDS + SET_BYTES * set..][..SET_BYTES]
}

/// "used 1"
pub fn is_used_set(tables: &[u8], set: usize) -> bool {
    set_record(tables, set)[0] >> 7 == 1
}

/// "used 1, writeable 1"
pub fn is_read_only(tables: &[u8], set: usize) -> bool {
    set_record(tables, set)[0] >> 6 == 0b10
}

/// First day and end day, "16 bits" each.
pub fn term(tables: &[u8], set: usize) -> (usize, usize) {
    let record = set_record(tables, set);
    let day = |at: usize| usize::from(record[at]) << 8 | usize::from(record[at + 1]);
    (day(3), day(5))
}

/// Whether a set has a term that is not the default one.
pub fn has_own_term(tables: &[u8], set: usize) -> bool {
    is_used_set(tables, set) && term(tables, set) != (0, LATEST_END)
}

/// Whether the file with this record is marked; its place is "set x 16 + file", and
/// its state the first two bits.
pub fn is_marked(tables: &[u8], place: usize) -> bool {
    tables[FILE_RECORDS + FILE_BYTES * place] >> 6 == MARKED
}

/// Where the two bytes of the entry at this place stand.
pub fn entry_at(place: usize) -> usize {
    FILE_RECORDS + FILE_BYTES * (place / PAGES) + FILE_HEAD_BYTES + 2 * (place % PAGES)
}

/// An entry's "kind 2 and block 14".
pub fn entry(tables: &[u8], place: usize) -> (usize, usize) {
    let bytes = &tables[entry_at(place)..][..2];
    let word = usize::from(bytes[0]) << 8 | usize::from(bytes[1]);
    (word >> 14, word & 0x3FFF)
}

/// The set, the file and the page of the entry at this place.
pub fn place_parts(place: usize) -> (usize, usize, usize) {
    (place / PAGES / FILES, place / PAGES % FILES, place % PAGES)
}
