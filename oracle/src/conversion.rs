//! Conversions of tables, judged byte by byte. Ask 8 of document 02: "A converter, lent the
//! pages too, takes well-formed tables of 17,436 bytes into a second buffer of 17,468,
//! adding the default term to used sets; otherwise it answers 1 and writes nothing." Ask
//! 10: "the converter of Ask 8 clears them", the marked files, "in older tables of either
//! length, keeping terms already there". The bytes are read here anew; whether the older
//! tables are well formed is asked of `check`.

use crate::bits::put_field;
use crate::call::{Answer, FILES, LARGEST_SIZE, MOST_BLOCKS, OLDER_TABLES_BYTES, PAGES};
use crate::call::{SETS, TABLES_BYTES};
use crate::check::check_older;
use crate::layout::{block_count, is_used_block, BITMAP, FILE_BYTES, FILE_HEAD_BYTES};
use crate::layout::{SET_BYTES, SET_RECORDS, STORED};
use crate::rng::Rng;

/// How long a set record is before Ask 8.
const OLDER_SET_BYTES: usize = 3;
/// 0 and 36,525, in 16 bits each.
const DEFAULT_TERM: [u8; 4] = [0, 0, 142, 173];
/// "State: ... 3 marked out of sync", in the first two bits.
const MARKED: u8 = 0b1100_0000;
/// "Kind: 0 unmapped, 1 hole".
const HOLE: usize = 1;

/// The tables without their terms: what a store had before Ask 8. Tables of another
/// length are given as they are.
pub fn narrowed(tables: &[u8]) -> Vec<u8> {
    if tables.len() != TABLES_BYTES {
        return tables.to_vec();
    }
    let (before, rest) = tables.split_at(SET_RECORDS);
    let (set_records, file_records) = rest.split_at(SETS * SET_BYTES);
    let mut older = before.to_vec();
    for record in set_records.chunks(SET_BYTES) {
        older.extend_from_slice(&record[..OLDER_SET_BYTES]);
    }
    older.extend_from_slice(file_records);
    older
}

/// Tables of 17,436 bytes with the default term in used sets; tables of another length are
/// given as they are.
pub fn widened(older: &[u8]) -> Vec<u8> {
    if older.len() != OLDER_TABLES_BYTES {
        return older.to_vec();
    }
    let (before, rest) = older.split_at(SET_RECORDS);
    let (set_records, file_records) = rest.split_at(SETS * OLDER_SET_BYTES);
    let mut tables = before.to_vec();
    for record in set_records.chunks(OLDER_SET_BYTES) {
        let is_used = record[0] >= 128;
        tables.extend_from_slice(record);
        tables.extend_from_slice(if is_used { &DEFAULT_TERM } else { &[0; 4] });
    }
    tables.extend_from_slice(file_records);
    tables
}

/// Where the file records of tables of either length begin: they stand last.
fn file_records(tables: &[u8]) -> usize {
    tables.len() - SETS * FILES * FILE_BYTES
}

/// Where the records of the marked files of tables of either length begin.
fn marked_records(tables: &[u8]) -> Vec<usize> {
    let records = (0..SETS * FILES).map(|place| file_records(tables) + FILE_BYTES * place);
    records.filter(|at| tables[*at] & MARKED == MARKED).collect()
}

/// The stored entries of the file record that begins here, as the blocks that they name.
fn blocks_of(tables: &[u8], record: usize) -> Vec<usize> {
    let entries = &tables[record + FILE_HEAD_BYTES..record + FILE_BYTES];
    let words = entries.chunks(2).map(|e| usize::from(e[0]) << 8 | usize::from(e[1]));
    words.filter(|word| word >> 14 == STORED).map(|word| word & 0x3FFF).collect()
}

/// Puts the bit of a block.
fn put_bit(tables: &mut [u8], block: usize, bit: u32) {
    put_field(tables, 8 * BITMAP + block, 1, bit);
}

/// The tables with every marked file of size 0 and all unmapped, and the bits of its blocks
/// 0. They are of either length, and well formed by the rules of their time.
pub fn cleared(older: &[u8]) -> Vec<u8> {
    let mut tables = older.to_vec();
    for record in marked_records(older) {
        for block in blocks_of(older, record) {
            put_bit(&mut tables, block, 0);
        }
        tables[record..record + FILE_BYTES].fill(0);
        tables[record] = MARKED;
    }
    tables
}

/// What a marked file holds.
#[derive(Clone, Copy, PartialEq, Eq, Debug)]
pub enum Load {
    Nothing,
    /// A size or holes, and no block.
    Other,
    Blocks,
}

/// What each marked file of tables of either length holds.
pub fn loaded_files(tables: &[u8]) -> Vec<Load> {
    let load = |record: usize| {
        let is_empty = |at: usize| tables[at] == 0;
        match blocks_of(tables, record).is_empty() {
            false => Load::Blocks,
            // But for the state.
            true if tables[record] != MARKED => Load::Other,
            true if (record + 1..record + FILE_BYTES).all(is_empty) => Load::Nothing,
            true => Load::Other,
        }
    };
    marked_records(tables).into_iter().map(load).collect()
}

/// Older tables as marking left them before Ask 10: marked files that hold nothing get,
/// as the seed says, a size, holes, and blocks that are free. Of well-formed tables of
/// either length come such ones by the rules of before. Tables of another length are given
/// as they are.
pub fn loaded(older: &[u8], seed: u32) -> Vec<u8> {
    let mut tables = older.to_vec();
    if ![TABLES_BYTES, OLDER_TABLES_BYTES].contains(&tables.len()) {
        return tables;
    }
    let mut rng = Rng::new(u64::from(seed));
    let blocks = 0..block_count(older).min(MOST_BLOCKS);
    let mut free: Vec<usize> = blocks.filter(|block| !is_used_block(older, *block)).collect();
    rng.shuffle(&mut free);
    for (record, load) in marked_records(older).into_iter().zip(loaded_files(older)) {
        if load == Load::Nothing {
            load_file(&mut rng, &mut tables, record, &mut free);
        }
    }
    tables
}

fn load_file(rng: &mut Rng, tables: &mut [u8], record: usize, free: &mut Vec<usize>) {
    let random = rng.below(LARGEST_SIZE + 1);
    let size = rng.pick(&[0, 1, 512, LARGEST_SIZE, random, random]);
    put_field(tables, 8 * record + 2, 16, size as u32);
    let (blocks, holes) = rng.pick(&[(0, 0), (0, 3), (1, 0), (1, 1), (3, 3), (10, 0), (64, 0)]);
    let mut put = |page: usize, kind: usize, block: usize| {
        let entry = 8 * (record + FILE_HEAD_BYTES + 2 * page);
        put_field(tables, entry, 16, (kind << 14 | block) as u32);
        if kind == STORED {
            put_bit(tables, block, 1);
        }
    };
    let mut pages: Vec<usize> = (0..PAGES).collect();
    rng.shuffle(&mut pages);
    for page in pages.split_off(PAGES.saturating_sub(blocks)) {
        if let Some(block) = free.pop() {
            put(page, STORED, block);
        }
    }
    for page in pages.into_iter().take(holes) {
        put(page, HOLE, 0);
    }
}

/// A conversion that was done.
#[derive(Clone, Copy)]
pub struct Converted<'a> {
    pub older: &'a [u8],
    pub pages_length: usize,
    /// The new buffer before and after.
    pub before: &'a [u8],
    pub after: &'a [u8],
    pub answer: Answer,
}

impl Converted<'_> {
    /// The number that the conversion must give.
    pub fn number(&self) -> u32 {
        let is_taken = self.before.len() == TABLES_BYTES
            && check_older(self.older, self.pages_length).is_empty();
        u32::from(!is_taken)
    }

    /// An error says what is wrong.
    pub fn judge(&self) -> Result<(), String> {
        let wanted = Answer::refused(self.number());
        if self.answer != wanted {
            return Err(format!("the conversion's answer is {}; it must be {wanted}", self.answer));
        }
        let right = match wanted.number {
            0 => cleared(&widened(self.older)),
            _ => self.before.to_vec(),
        };
        match (0..right.len()).find(|at| self.after[*at] != right[*at]) {
            None => Ok(()),
            Some(at) => Err(format!(
                "byte {at} of the new tables is {}; after the conversion it must be {}",
                self.after[at], right[at]
            )),
        }
    }
}
