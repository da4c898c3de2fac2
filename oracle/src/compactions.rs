//! What the compactions of Ask 9 of document 02 met, and the writes after them, told from
//! the answer and the bytes of the tables before and after. The tables are read here
//! anew.

use crate::bits::field;
use crate::call::*;
use crate::compaction_judge::{stored_entries, used_blocks, Named};
use crate::judging::{self, cases, those};
use crate::layout::*;
use crate::lent::Buffers;
use std::collections::BTreeSet;

cases! {
    // What moves.
    NextStartAlone "nothing to move, and next start changes";
    NoChange "no change at all";
    ToFree "a block moves to a free one";
    Exchange "two blocks exchange places";
    Cycle "three blocks or more go round";
    Chain "a chain of two moves or more ends in a free block";
    AllMove "every used block moves, two or more";
    // What the store holds.
    Empty "the store is empty";
    Full "the store is full, next start becomes 0";
    FullMost "4,096 blocks are used, and one of them moves";
    WithMarked "a file is marked, and a block moves";
    OfReadOnly "a read-only set's block moves";
    OfThreeSets "blocks of three sets or more move";
    OtherTree "the order by the tree would be another";
    OtherFile "the order by file, then set, would be another";
    WithTerm "a set has a term that is not the default";
    // What comes after.
    WriteAfter "a write after a compaction takes the block at next start";
    TwoInTurn "a compaction of what a compaction left";
    // What is refused.
    ShortSpare "refused with 16 for a shorter spare page";
    LongSpare "refused with 16 for a longer spare page";
    EmptySpare "refused with 16 for an empty spare page";
    TablesAndSpare "refused with 1, the spare page being wrong too";
    TablesAlone "refused with 1, the spare page being right";
}

/// A call that was done, with its buffers before and after it.
#[derive(Clone, Copy)]
pub struct Pulled<'a> {
    pub call: &'a Call,
    pub answer: Answer,
    pub before: &'a Buffers,
    pub after: &'a Buffers,
    /// Whether the store is as an accepted compaction left it.
    pub after_compaction: bool,
}

impl Pulled<'_> {
    fn tables(&self) -> &[u8] {
        &self.before[Buffer::Tables]
    }

    /// The cases that the call met.
    pub fn cases(&self) -> Vec<Case> {
        match (self.call, self.answer.number) {
            (Call::Compact {}, 0) => self.cases_of_moves(),
            (Call::Compact {}, number) => self.cases_of_refusal(number),
            (call, 0) if call.as_write().is_some() => {
                those(&[(self.takes_next_start(), Case::WriteAfter)])
            }
            _ => Vec::new(),
        }
    }

    /// A write that finds what a compaction left, and takes the block at next start.
    fn takes_next_start(&self) -> bool {
        let block = next_start(self.tables());
        let is_used = |buffers: &Buffers| is_used_block(&buffers[Buffer::Tables], block);
        self.after_compaction && !is_used(self.before) && is_used(self.after)
    }

    fn cases_of_refusal(&self, number: u32) -> Vec<Case> {
        let spare = self.before[Buffer::Spare].len();
        let right = spare == PAGE_BYTES;
        match number {
            1 => those(&[(!right, Case::TablesAndSpare), (right, Case::TablesAlone)]),
            _ => those(&[
                ((1..PAGE_BYTES).contains(&spare), Case::ShortSpare),
                (spare > PAGE_BYTES, Case::LongSpare),
                (spare == 0, Case::EmptySpare),
            ]),
        }
    }

    fn cases_of_moves(&self) -> Vec<Case> {
        let tables = self.tables();
        let moves = Moves::of(tables);
        let (used, all) = (moves.entries.len(), block_count(tables));
        let moved: Vec<usize> = moves.moved().map(|named| named.place).collect();
        let sets: BTreeSet<usize> = moved.iter().map(|place| place_parts(*place).0).collect();
        let stays = moved.is_empty();
        let next_start_stays = next_start(tables) == used % all;
        let [chains, cycles] = moves.chains_and_cycles();
        let listing = listed(tables, 0);
        those(&[
            (stays && !next_start_stays, Case::NextStartAlone),
            (stays && next_start_stays, Case::NoChange),
            (chains.contains(&1), Case::ToFree),
            (cycles.contains(&2), Case::Exchange),
            (cycles.iter().any(|length| *length > 2), Case::Cycle),
            (chains.iter().any(|length| *length > 1), Case::Chain),
            (used > 1 && moved.len() == used, Case::AllMove),
            (used == 0, Case::Empty),
            (used == all, Case::Full),
            (used == MOST_BLOCKS && !stays, Case::FullMost),
            (!stays && (0..SETS * FILES).any(|file| is_marked(tables, file)), Case::WithMarked),
            (sets.iter().any(|set| is_read_only(tables, *set)), Case::OfReadOnly),
            (sets.len() >= 3, Case::OfThreeSets),
            (moves.differ_by(|place| tree_order(&listing, place)), Case::OtherTree),
            (moves.differ_by(file_order), Case::OtherFile),
            ((0..SETS).any(|set| has_own_term(tables, set)), Case::WithTerm),
            (self.after_compaction, Case::TwoInTurn),
        ])
    }
}

/// Where an entry would stand by file, then set, then page.
fn file_order(place: usize) -> usize {
    let (set, file, page) = place_parts(place);
    (file * SETS + set) * PAGES + page
}

/// Where an entry would stand if the sets went as the listing has them: "the set itself,
/// then its children in order of making, each in the same way".
fn tree_order(listing: &[usize], place: usize) -> usize {
    let (set, file, page) = place_parts(place);
    let turn = listing.iter().position(|other| *other == set);
    (turn.expect("a used set") * FILES + file) * PAGES + page
}

/// A set and all sets below it: "parent 4, first child 4, next sibling 4".
fn listed(tables: &[u8], set: usize) -> Vec<usize> {
    let link = |set: usize, bit: usize| field(set_record(tables, set), bit, 4) as usize;
    let mut list = vec![set];
    let mut child = link(set, 9);
    while child != NONE {
        list.extend(listed(tables, child));
        child = link(child, 13);
    }
    list
}

/// Where a compaction of well-formed tables moves the used blocks: that of each stored
/// entry to this entry's place among them.
struct Moves {
    entries: Vec<Named>,
    used: BTreeSet<usize>,
    /// The new number of each used block, by its old one.
    new: Vec<usize>,
}

impl Moves {
    fn of(tables: &[u8]) -> Moves {
        let entries = stored_entries(tables);
        let mut new = vec![0; MOST_BLOCKS];
        for (number, named) in entries.iter().enumerate() {
            new[named.block] = number;
        }
        Moves { entries, used: used_blocks(tables), new }
    }

    fn moved(&self) -> impl Iterator<Item = &Named> {
        self.entries.iter().filter(|named| self.new[named.block] != named.block)
    }

    /// How many moves each chain has, and how many blocks each cycle. A chain begins at a
    /// block that no other moves to, as the new numbers are all below the number of used
    /// blocks, and ends in a free block. All other used blocks stand in cycles; one that
    /// stays is a cycle of its own.
    fn chains_and_cycles(&self) -> [Vec<usize>; 2] {
        let mut left = self.used.clone();
        let run_from = |left: &mut BTreeSet<usize>, mut block: usize| {
            let mut moves = 0;
            while left.remove(&block) {
                block = self.new[block];
                moves += 1;
            }
            moves
        };
        let starts = self.used.range(self.entries.len()..);
        let chains = starts.map(|start| run_from(&mut left, *start)).collect();
        let mut cycles = Vec::new();
        while let Some(start) = left.first().copied() {
            cycles.push(run_from(&mut left, start));
        }
        [chains, cycles]
    }

    /// Whether the stored entries would stand in another order.
    fn differ_by(&self, order: impl Fn(usize) -> usize) -> bool {
        let places: Vec<usize> = self.entries.iter().map(|named| order(named.place)).collect();
        !places.is_sorted()
    }
}

/// How often each case was met.
pub type Met = judging::Met<Case>;

impl Met {
    pub fn count(&mut self, pulled: &Pulled, is_linked: bool) {
        if matches!(pulled.call, Call::Compact {}) {
            self.count_call(is_linked);
        }
        self.count_cases(&pulled.cases());
    }
}
