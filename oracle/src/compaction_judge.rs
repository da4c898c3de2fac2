//! Compactions (Ask 9 of document 02), judged from the answer and the bytes of tables,
//! pages and spare page before and after. The bytes are read here anew, and no code of
//! `store`, `maps` or `state` is used; whether the tables before are well formed is asked
//! of `check`.

use crate::bits::put_field;
use crate::call::*;
use crate::check::is_well_formed;
use crate::judging::{self, unless};
use crate::layout::*;
use crate::lent::Buffers;
use std::collections::BTreeSet;

/// 16: "a spare page of other than 512 bytes".
const WRONG_SPARE: u32 = 16;

/// A compaction that was done, with its buffers before and after it.
#[derive(Clone, Copy)]
pub struct Compacted<'a> {
    pub answer: Answer,
    pub before: &'a Buffers,
    pub after: &'a Buffers,
}

/// A stored entry: its place among all entries, which stand by set number, then file,
/// then page, and the block that it names.
#[derive(Clone, Copy, PartialEq, Eq, Debug)]
pub struct Named {
    pub place: usize,
    pub block: usize,
}

/// All stored entries in order.
pub fn stored_entries(tables: &[u8]) -> Vec<Named> {
    let named = |place: usize| match entry(tables, place) {
        (STORED, block) => Some(Named { place, block }),
        _ => None,
    };
    (0..ENTRIES).filter_map(named).collect()
}

/// The used blocks, by the bitmap.
pub fn used_blocks(tables: &[u8]) -> BTreeSet<usize> {
    (0..MOST_BLOCKS).filter(|block| is_used_block(tables, *block)).collect()
}

/// The bytes of a block; none for one that there is not.
fn page(pages: &[u8], block: usize) -> Option<&[u8]> {
    pages.get(block * PAGE_BYTES..(block + 1) * PAGE_BYTES)
}

/// What a compaction can break.
#[derive(Clone, Copy, PartialEq, Eq, PartialOrd, Ord, Debug)]
pub enum Demand {
    /// The number is 1, else 16, else 0, and the counts are 0.
    Answer,
    /// A refusal leaves tables, pages and spare page.
    Unchanged,
    /// The stored entries are the same ones, and name 0, 1, 2 and so on in order.
    Names,
    /// Used blocks before and after belong together one to one.
    OneToOne,
    /// Each block's bytes are found under its new number.
    PageBytes,
    /// The bits of the blocks below the number of used blocks are 1, all others 0.
    Bits,
    /// Next start is the number of used blocks modulo B.
    NextStart,
    /// All other bits of the tables are as before.
    OtherBits,
    /// A second compaction changes nothing but what is free.
    Twice,
}

impl Demand {
    pub const ALL: [Demand; 9] = [
        Demand::Answer,
        Demand::Unchanged,
        Demand::Names,
        Demand::OneToOne,
        Demand::PageBytes,
        Demand::Bits,
        Demand::NextStart,
        Demand::OtherBits,
        Demand::Twice,
    ];
}

/// A demand that was broken, in words and numbers.
pub type Broken = judging::Broken<Demand>;

/// Tables, pages and spare page.
fn lent(buffers: &Buffers) -> [&[u8]; 3] {
    [Buffer::Tables, Buffer::Pages, Buffer::Spare].map(|buffer| buffers[buffer].as_slice())
}

/// The first byte that differs; none if they are the same.
fn first_difference(before: &[u8], after: &[u8]) -> Option<usize> {
    (0..before.len().max(after.len())).find(|at| before.get(*at) != after.get(*at))
}

impl Compacted<'_> {
    /// The number that the compaction must give: "It refuses a spare page of other than
    /// 512 bytes with 16, after 1".
    pub fn number(&self) -> u32 {
        let [tables, pages, spare] = lent(self.before);
        match (is_well_formed(tables, pages.len()), spare.len()) {
            (false, _) => 1,
            (true, PAGE_BYTES) => 0,
            _ => WRONG_SPARE,
        }
    }

    /// The demands that the compaction broke.
    pub fn judge(&self) -> Vec<Broken> {
        let wanted = Answer::refused(self.number());
        let answer = unless(self.answer == wanted, Demand::Answer, || {
            format!("the answer is {}; it must be {wanted}", self.answer)
        });
        let bytes = match (wanted.number, self.answer.number) {
            (0, 0) => self.pulled_together(),
            _ => self.unchanged(),
        };
        answer.into_iter().chain(bytes).collect()
    }

    /// The same for a compaction of what an accepted one left.
    pub fn judge_second(&self) -> Vec<Broken> {
        let mut broken = self.judge();
        broken.extend(self.twice());
        broken
    }

    /// An error says every demand that was broken.
    pub fn outcome(&self) -> Result<(), String> {
        judging::outcome("compaction", &self.judge())
    }

    pub fn outcome_of_second(&self) -> Result<(), String> {
        judging::outcome("a second compaction", &self.judge_second())
    }

    /// "any refusal leaves the spare page too"
    fn unchanged(&self) -> Vec<Broken> {
        let pairs = lent(self.before).into_iter().zip(lent(self.after));
        let names = ["tables", "pages", "spare page"];
        let changed = names.into_iter().zip(pairs).filter_map(|(name, (before, after))| {
            let at = first_difference(before, after)?;
            Some(format!("nothing may change, and the {name} did at byte {at}"))
        });
        changed.map(|text| Broken { bound: Demand::Unchanged, text }).collect()
    }

    /// What is demanded of an accepted compaction.
    fn pulled_together(&self) -> Vec<Broken> {
        let [tables, ..] = lent(self.before);
        let entries = stored_entries(tables);
        let found = [
            self.names(&entries),
            self.one_to_one(&entries),
            self.page_bytes(&entries),
            self.bits(entries.len()),
            self.next_start(entries.len()),
            self.other_bits(),
        ];
        found.into_iter().flatten().collect()
    }

    /// "renumbers used blocks from 0 up, by set number, then file, then page"
    fn names(&self, entries: &[Named]) -> Option<Broken> {
        let [after, ..] = lent(self.after);
        let now = stored_entries(after);
        let right = |(new, old): (usize, &Named)| Named { place: old.place, block: new };
        let wanted: Vec<Named> = entries.iter().enumerate().map(right).collect();
        unless(now == wanted, Demand::Names, || {
            let at = (0..).find(|at| now.get(*at) != wanted.get(*at)).unwrap_or_default();
            let told = |named: Option<&Named>| match named {
                None => "no entry more".to_string(),
                Some(Named { place, block }) => {
                    let (set, file, page) = place_parts(*place);
                    format!("set {set} file {file} page {page} in block {block}")
                }
            };
            let (found, wanted) = (told(now.get(at)), told(wanted.get(at)));
            format!("stored entry {at} is {found}; it must be {wanted}")
        })
    }

    /// "none lost or doubled": the used blocks before and the used blocks after belong
    /// together one to one, by the entries that name them.
    fn one_to_one(&self, entries: &[Named]) -> Option<Broken> {
        let [before, after] =
            [self.before, self.after].map(|buffers| used_blocks(&buffers[Buffer::Tables]));
        let old: BTreeSet<usize> = entries.iter().map(|named| named.block).collect();
        let new: BTreeSet<usize> = entries.iter().map(|named| self.new_block(named)).collect();
        let count = entries.len();
        let is_all = |names: &BTreeSet<usize>, used| names.len() == count && names == used;
        unless(is_all(&old, &before) && is_all(&new, &after), Demand::OneToOne, || {
            format!(
                "{count} entries named {} of {} used blocks, and now name {} of {}",
                old.intersection(&before).count(),
                before.len(),
                new.intersection(&after).count(),
                after.len()
            )
        })
    }

    /// The block that an entry stored before names after, whatever its kind is then.
    fn new_block(&self, named: &Named) -> usize {
        entry(&self.after[Buffer::Tables], named.place).1
    }

    /// "Each block's bytes are found again under the new number".
    fn page_bytes(&self, entries: &[Named]) -> Option<Broken> {
        let ([_, before, _], [_, after, _]) = (lent(self.before), lent(self.after));
        let found =
            |named: &&Named| page(before, named.block) == page(after, self.new_block(named));
        let lost = entries.iter().find(|named| !found(named));
        unless(lost.is_none(), Demand::PageBytes, || {
            let old = lost.map_or(0, |named| named.block);
            let new = lost.map_or(0, |named| self.new_block(named));
            format!("the bytes of block {old} are not found in block {new}")
        })
    }

    /// All 4,096 bits.
    fn bits(&self, used: usize) -> Option<Broken> {
        let [after, ..] = lent(self.after);
        let wrong = (0..MOST_BLOCKS).find(|block| is_used_block(after, *block) != (*block < used));
        unless(wrong.is_none(), Demand::Bits, || {
            format!("the bit of block {} is wrong, {used} being used", wrong.unwrap_or_default())
        })
    }

    /// "Next start becomes the number of used blocks modulo B."
    fn next_start(&self, used: usize) -> Option<Broken> {
        let ([before, ..], [after, ..]) = (lent(self.before), lent(self.after));
        let (found, wanted) = (next_start(after), used % block_count(before));
        unless(found == wanted, Demand::NextStart, || {
            format!("next start is {found}; it must be {wanted}")
        })
    }

    /// B and the zero field of the header, the set records with their terms, the heads of
    /// the files, and the entries but for the blocks of those stored.
    fn other_bits(&self) -> Option<Broken> {
        let ([before, ..], [after, ..]) = (lent(self.before), lent(self.after));
        let at = first_difference(&without_blocks(before), &without_blocks(after));
        unless(at.is_none(), Demand::OtherBits, || {
            format!("byte {} of the tables changed beside blocks", at.unwrap_or_default())
        })
    }

    /// A second compaction leaves the tables, and the pages of used blocks.
    fn twice(&self) -> Option<Broken> {
        let ([tables, pages, _], [tables_after, pages_after, _]) =
            (lent(self.before), lent(self.after));
        let used = used_blocks(tables).len() * PAGE_BYTES;
        let same = tables == tables_after && pages[..used] == pages_after[..used];
        unless(same, Demand::Twice, || "what the first one left was changed".to_string())
    }
}

/// The tables with all zero in next start, in the bitmap and in the blocks of stored
/// entries.
fn without_blocks(tables: &[u8]) -> Vec<u8> {
    let mut others = tables.to_vec();
    put_field(&mut others, 13, 12, 0);
    others[BITMAP..SET_RECORDS].fill(0);
    for Named { place, .. } in stored_entries(tables) {
        put_field(&mut others, 8 * entry_at(place) + 2, 14, 0);
    }
    others
}
