//! The tables as a plain Rust state, and the way from and to packed bytes.
//! Every field of the tables is kept, also those that must be zero, so that
//! unpacking and packing again gives the same bytes whatever they were.

use crate::bits::{field, put_field, Reader, Writer};
use crate::call::*;

/// The lengths of the parts, in the order of the tables.
const HEADER_BYTES: usize = 4;
const BITMAP_BYTES: usize = 512;
const SET_BYTES: usize = 7;
/// Before Ask 8: "8 set records, 3 bytes each".
const OLDER_SET_BYTES: usize = 3;
const FILE_BYTES: usize = 132;

/// "State: 0 absent, 1 own, 2 virgin (nothing copied yet, size included), 3
/// marked out of sync."
#[derive(Clone, Copy, PartialEq, Eq, Debug)]
pub enum FileState {
    Absent,
    Own,
    Virgin,
    Marked,
}

pub const FILE_STATES: [FileState; 4] =
    [FileState::Absent, FileState::Own, FileState::Virgin, FileState::Marked];

/// "Kind: 0 unmapped, 1 hole, 2 stored; 3 is bad."
#[derive(Clone, Copy, PartialEq, Eq, Debug)]
pub enum Kind {
    Unmapped,
    Hole,
    Stored,
    Bad,
}

pub const KINDS: [Kind; 4] = [Kind::Unmapped, Kind::Hole, Kind::Stored, Kind::Bad];

/// An entry of a file's map.
#[derive(Clone, Copy, PartialEq, Eq, Debug)]
pub struct Entry {
    pub kind: Kind,
    pub block: usize,
}

pub const UNMAPPED: Entry = Entry { kind: Kind::Unmapped, block: 0 };
pub const HOLE: Entry = Entry { kind: Kind::Hole, block: 0 };

pub fn stored(block: usize) -> Entry {
    Entry { kind: Kind::Stored, block }
}

#[derive(Clone, PartialEq, Eq, Debug)]
pub struct FileRecord {
    pub state: FileState,
    pub size: usize,
    pub zero: usize,
    pub entries: [Entry; PAGES],
}

/// "Unused sets and absent files are all zero."
pub const ABSENT_FILE: FileRecord =
    FileRecord { state: FileState::Absent, size: 0, zero: 0, entries: [UNMAPPED; PAGES] };

/// Document 02, of marking: it "leaves size 0 and all entries unmapped". All marked files
/// are alike.
pub const MARKED_FILE: FileRecord = FileRecord { state: FileState::Marked, ..ABSENT_FILE };

impl FileRecord {
    pub fn is_present(&self) -> bool {
        self.state != FileState::Absent
    }

    pub fn is_own_or_virgin(&self) -> bool {
        matches!(self.state, FileState::Own | FileState::Virgin)
    }

    pub fn has_unmapped(&self) -> bool {
        self.entries.iter().any(|entry| entry.kind == Kind::Unmapped)
    }

    /// Whether an entry is not unmapped.
    pub fn is_mapped(&self) -> bool {
        self.entries.iter().any(|entry| entry.kind != Kind::Unmapped)
    }
}

#[derive(Clone, Copy, PartialEq, Eq, Debug)]
pub struct SetRecord {
    pub used: bool,
    pub writeable: bool,
    pub level: usize,
    pub parent: usize,
    pub first_child: usize,
    pub next_sibling: usize,
    pub zero: usize,
    /// The set's term. Document 02: "first day 16 bits, end day 16 bits".
    pub first_day: usize,
    pub end_day: usize,
}

pub const UNUSED_SET: SetRecord = SetRecord {
    used: false,
    writeable: false,
    level: 0,
    parent: 0,
    first_child: 0,
    next_sibling: 0,
    zero: 0,
    first_day: 0,
    end_day: 0,
};

#[derive(Clone, PartialEq, Eq, Debug)]
pub struct State {
    pub block_count: usize,
    pub next_start: usize,
    pub header_zero: usize,
    /// "bit b is 1 when block b is used"
    pub bits: Vec<bool>,
    pub sets: [SetRecord; SETS],
    /// The record of file f of set s is `files[s][f]`: "at set x 16 + file".
    pub files: Vec<Vec<FileRecord>>,
}

impl State {
    /// "Format makes set 0 alone, next start 0, every page zero."
    pub fn formatted(block_count: usize) -> State {
        let mut sets = [UNUSED_SET; SETS];
        sets[0] = SetRecord {
            used: true,
            writeable: true,
            parent: NONE,
            first_child: NONE,
            next_sibling: NONE,
            // Document 02: "Format and making a set give 0 and 36,525."
            end_day: LATEST_END,
            ..UNUSED_SET
        };
        State {
            block_count,
            next_start: 0,
            header_zero: 0,
            bits: vec![false; MOST_BLOCKS],
            sets,
            files: vec![vec![ABSENT_FILE; FILES]; SETS],
        }
    }

    /// Reads tables of the right length, whatever their bytes.
    pub fn unpack(tables: &[u8]) -> State {
        assert_eq!(tables.len(), TABLES_BYTES);
        State::unpack_records(tables, SET_BYTES, unpack_set)
    }

    /// Reads tables of the length before Ask 8, whatever their bytes. Their sets have
    /// no term; it is 0 and 0 here.
    pub fn unpack_older(tables: &[u8]) -> State {
        assert_eq!(tables.len(), OLDER_TABLES_BYTES);
        State::unpack_records(tables, OLDER_SET_BYTES, unpack_older_set)
    }

    /// Reads tables of either length, whatever their bytes; none of another length.
    pub fn unpack_either(tables: &[u8]) -> Option<State> {
        match tables.len() {
            TABLES_BYTES => Some(State::unpack(tables)),
            OLDER_TABLES_BYTES => Some(State::unpack_older(tables)),
            _ => None,
        }
    }

    /// Reads tables with set records of so many bytes.
    fn unpack_records(
        tables: &[u8],
        set_bytes: usize,
        unpack_set: fn(&[u8]) -> SetRecord,
    ) -> State {
        let (header, rest) = tables.split_at(HEADER_BYTES);
        let (bitmap, rest) = rest.split_at(BITMAP_BYTES);
        let (set_records, file_records) = rest.split_at(SETS * set_bytes);
        // "header, 4 bytes: block count B 13, next start 12, zero 7"
        let mut header = Reader::new(header);
        let mut sets = [UNUSED_SET; SETS];
        for (set, bytes) in sets.iter_mut().zip(set_records.chunks(set_bytes)) {
            *set = unpack_set(bytes);
        }
        State {
            block_count: header.take(13) as usize,
            next_start: header.take(12) as usize,
            header_zero: header.take(7) as usize,
            bits: (0..MOST_BLOCKS).map(|block| field(bitmap, block, 1) == 1).collect(),
            sets,
            // "at set x 16 + file"
            files: file_records
                .chunks(FILES * FILE_BYTES)
                .map(|files| files.chunks(FILE_BYTES).map(unpack_file).collect())
                .collect(),
        }
    }

    /// Writes the state to tables of the right length.
    pub fn pack(&self, tables: &mut [u8]) {
        assert_eq!(tables.len(), TABLES_BYTES);
        let (header, rest) = tables.split_at_mut(HEADER_BYTES);
        let (bitmap, rest) = rest.split_at_mut(BITMAP_BYTES);
        let (set_records, file_records) = rest.split_at_mut(SETS * SET_BYTES);
        let mut header = Writer::new(header);
        header.put(13, self.block_count);
        header.put(12, self.next_start);
        header.put(7, self.header_zero);
        for (block, bit) in self.bits.iter().enumerate() {
            put_field(bitmap, block, 1, u32::from(*bit));
        }
        for (set, bytes) in self.sets.iter().zip(set_records.chunks_mut(SET_BYTES)) {
            pack_set(bytes, set);
        }
        let all_files = self.files.iter().flatten();
        for (file, bytes) in all_files.zip(file_records.chunks_mut(FILE_BYTES)) {
            pack_file(bytes, file);
        }
    }

    pub fn packed(&self) -> Vec<u8> {
        let mut tables = vec![0; TABLES_BYTES];
        self.pack(&mut tables);
        tables
    }
}

/// "8 set records, 3 bytes each: used 1, writeable 1, level 3, parent 4,
/// first child 4, next sibling 4, zero 7"
fn unpack_older_set(bytes: &[u8]) -> SetRecord {
    let mut reader = Reader::new(bytes);
    let mut take = |width| reader.take(width) as usize;
    SetRecord {
        used: take(1) == 1,
        writeable: take(1) == 1,
        level: take(3),
        parent: take(4),
        first_child: take(4),
        next_sibling: take(4),
        zero: take(7),
        ..UNUSED_SET
    }
}

/// Document 02: "Each set record grows at its end by 4 bytes: first day 16 bits, end
/// day 16 bits".
fn unpack_set(bytes: &[u8]) -> SetRecord {
    let (older, term) = bytes.split_at(OLDER_SET_BYTES);
    let mut reader = Reader::new(term);
    let mut take = |width| reader.take(width) as usize;
    SetRecord { first_day: take(16), end_day: take(16), ..unpack_older_set(older) }
}

fn pack_set(bytes: &mut [u8], set: &SetRecord) {
    let mut writer = Writer::new(bytes);
    writer.put(1, usize::from(set.used));
    writer.put(1, usize::from(set.writeable));
    writer.put(3, set.level);
    writer.put(4, set.parent);
    writer.put(4, set.first_child);
    writer.put(4, set.next_sibling);
    writer.put(7, set.zero);
    writer.put(16, set.first_day);
    writer.put(16, set.end_day);
}

/// "128 file records, 132 bytes each: state 2, size 16, zero 14, then 64
/// entries of kind 2 and block 14"
fn unpack_file(bytes: &[u8]) -> FileRecord {
    let mut file = ABSENT_FILE;
    // Most records are all zero, and then there is nothing more to read.
    if *bytes == [0; FILE_BYTES] {
        return file;
    }
    let mut reader = Reader::new(bytes);
    let mut take = |width| reader.take(width) as usize;
    file.state = FILE_STATES[take(2)];
    file.size = take(16);
    file.zero = take(14);
    for entry in &mut file.entries {
        *entry = Entry { kind: KINDS[take(2)], block: take(14) };
    }
    file
}

fn pack_file(bytes: &mut [u8], file: &FileRecord) {
    if *file == ABSENT_FILE {
        bytes.fill(0);
        return;
    }
    let mut writer = Writer::new(bytes);
    writer.put(2, file.state as usize);
    writer.put(16, file.size);
    writer.put(14, file.zero);
    for entry in &file.entries {
        writer.put(2, entry.kind as usize);
        writer.put(14, entry.block);
    }
}

#[cfg(test)]
mod tests {
    use super::*;
    use crate::rng::Rng;

    #[test]
    fn unpacking_and_packing_gives_the_same_bytes() {
        let mut rng = Rng::new(1);
        for _ in 0..50 {
            let tables: Vec<u8> = (0..TABLES_BYTES).map(|_| rng.word() as u8).collect();
            assert_eq!(State::unpack(&tables).packed(), tables);
        }
    }

    #[test]
    fn the_parts_stand_where_the_paper_says() {
        let mut state = State::formatted(4_096);
        state.next_start = 4_095;
        state.bits[9] = true;
        state.files[1][2].state = FileState::Own;
        state.files[1][2].size = 32_768;
        state.files[1][2].entries[63] = stored(4_095);
        let tables = state.packed();
        assert_eq!(tables[0..4], [0x80, 0x07, 0xFF, 0x80]);
        assert_eq!(tables[4..6], [0x00, 0x40]);
        // First day 0; end day 36,525.
        assert_eq!(tables[516..523], [0xC4, 0x44, 0x00, 0x00, 0x00, 0x8E, 0xAD]);
        let record = 572 + 132 * (16 + 2);
        assert_eq!(tables[record..record + 4], [0x60, 0x00, 0x00, 0x00]);
        assert_eq!(tables[record + 130..record + 132], [0x8F, 0xFF]);
    }

    /// The same store, packed as document 01 says.
    #[test]
    fn older_tables_have_the_same_parts_and_no_terms() {
        let mut rng = Rng::new(2);
        for _ in 0..50 {
            let tables: Vec<u8> = (0..TABLES_BYTES).map(|_| rng.word() as u8).collect();
            let mut older = tables[..516].to_vec();
            for set in 0..8 {
                older.extend_from_slice(&tables[516 + 7 * set..][..3]);
            }
            older.extend_from_slice(&tables[572..]);
            let mut state = State::unpack(&tables);
            for set in &mut state.sets {
                (set.first_day, set.end_day) = (0, 0);
            }
            assert!(State::unpack_older(&older) == state);
        }
    }
}
