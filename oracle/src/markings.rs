//! What calls met of Ask 10 of document 02, "Marked files give their room back": blocks that
//! marking freed and what became of them, told from the turns of the call; conversions of
//! older tables of either length; and calls that tables with marked files of before are
//! refused to.

use crate::call::*;
use crate::check::{rules_broken, Rule};
use crate::conversion::{loaded_files, Load};
use crate::judging::{self, cases, those};
use crate::layout::has_own_term;
use crate::lent::Buffers;
use crate::state::State;
use crate::turns::{Copied, Turn, Turns};
use std::collections::BTreeSet;

cases! {
    // What marking frees.
    Frees "marking frees a block";
    FreesNothing "marking frees no block, the file having none";
    ByWrite "marking frees a block in a write";
    ByTruncate "marking frees a block in a truncate";
    ByDelete "marking frees a block in a delete";
    OfDependent "a dependent's block is freed";
    OfReadOnly "a read-only set's block is freed";
    CopyFreed "a copy made earlier in the call is freed";
    HandedFreed "a block handed over is freed by marking";
    // What becomes of the blocks.
    SamePage "a freed block is taken by a later child of the same page";
    LaterPage "a freed block is taken by a copy of a later page";
    ExtraPage "a freed block is taken by a copy of an extra page";
    DependentTaken "a dependent's block is taken";
    HandedTaken "a block handed over, freed by marking, is taken and not freed again";
    FreedTwice "a block is freed more than once in one call";
    MarkedTwice "two markings by different copies in one call";
    LeftFree "a freed block is free after the call";
    MoreThanFree "a call takes more blocks than were free before it";
    // Conversions that are accepted.
    ShortBlocks "17,436 bytes, a marked file holds a block";
    ShortOther "17,436 bytes, a marked file holds a size or a hole, and no block";
    LongBlocks "17,468 bytes, a marked file holds a block";
    LongOther "17,468 bytes, a marked file holds a size or a hole, and no block";
    LongTerms "17,468 bytes, a marked file holds a block, and a set has a term of its own";
    LongNew "17,468 bytes that are new already, with a marked file";
    // Conversions that are refused.
    LongRefused "older tables of 17,468 bytes are refused, and of wrong length is none";
    // Other calls.
    RefusedSize "a call is refused for a marked file's size alone";
    RefusedMapped "a call is refused for a marked file's entries alone";
}

/// A call that was done, or that a panel command ran, with the buffers that it was lent,
/// before it.
#[derive(Clone, Copy)]
pub struct Freeing<'a> {
    pub call: &'a Call,
    pub answer: Answer,
    pub before: &'a Buffers,
}

impl Freeing<'_> {
    /// The cases that the call met.
    pub fn cases(&self) -> Vec<Case> {
        let tables = &self.before[Buffer::Tables];
        match (self.call, self.answer.number) {
            (Call::Convert {}, number) => self.cases_of_conversion(number),
            (Call::Format { .. } | Call::CheckBlocks {}, 1) => Vec::new(),
            (_, 1) if tables.len() == TABLES_BYTES => self.cases_of_refusal(),
            (_, 0) if drops_or_writes(self.call) && self.answer.third > 0 => {
                let before = State::unpack(tables);
                let turns = Turns::of(self.call, &before);
                turns.map_or(Vec::new(), |turns| self.cases_of_turns(&before, &turns))
            }
            _ => Vec::new(),
        }
    }

    fn cases_of_turns(&self, before: &State, turns: &Turns) -> Vec<Case> {
        let fates = Fates::of(turns);
        let frees = !fates.freed.is_empty();
        let is_freed = |block: &usize| fates.freed.iter().any(|freed| freed.block == *block);
        let handed = turns.handed_over();
        let mut handed_blocks = handed.iter().map(|handed| handed.block);
        let any = |holds: &dyn Fn(&Freed) -> bool| fates.freed.iter().any(holds);
        let taken = |holds: &dyn Fn(&Taken) -> bool| fates.taken.iter().any(holds);
        let is_handed = |block: usize| handed.iter().any(|handed| handed.block == block);
        let is_write = self.call.as_write().is_some();
        let [own, copies, _] = turns.counts();
        let used = |block: &usize| turns.bits[*block];
        those(&[
            (frees, Case::Frees),
            (fates.frees_nothing, Case::FreesNothing),
            (frees && is_write, Case::ByWrite),
            (frees && matches!(self.call, Call::Truncate { .. }), Case::ByTruncate),
            (frees && matches!(self.call, Call::Delete { .. }), Case::ByDelete),
            (any(&|freed| freed.set != freed.child), Case::OfDependent),
            (any(&|freed| !before.sets[freed.set].writeable), Case::OfReadOnly),
            (any(&|freed| freed.was_copy), Case::CopyFreed),
            (handed_blocks.any(|block| is_freed(&block)), Case::HandedFreed),
            (taken(&|taken| taken.copy.page == taken.freed.page), Case::SamePage),
            (
                taken(&|taken| !taken.copy.extra && taken.copy.page > taken.freed.page),
                Case::LaterPage,
            ),
            (taken(&|taken| taken.copy.extra), Case::ExtraPage),
            (taken(&|taken| taken.freed.set != taken.freed.child), Case::DependentTaken),
            (
                taken(&|taken| is_handed(taken.copy.block) && used(&taken.copy.block)),
                Case::HandedTaken,
            ),
            (fates.has_twice(), Case::FreedTwice),
            (fates.turns_of_marking.len() > 1, Case::MarkedTwice),
            (any(&|freed| !used(&freed.block)), Case::LeftFree),
            ((own + copies) as usize > free_blocks(before), Case::MoreThanFree),
        ])
    }

    fn cases_of_conversion(&self, number: u32) -> Vec<Case> {
        let older = self.before[Buffer::Second].as_slice();
        let is_long = older.len() == TABLES_BYTES;
        let right_new = self.before[Buffer::Tables].len() == TABLES_BYTES;
        if number != 0 {
            return those(&[(is_long && right_new, Case::LongRefused)]);
        }
        let loads = loaded_files(older);
        let blocks = loads.contains(&Load::Blocks);
        let other = loads.contains(&Load::Other);
        let is_new = is_long && !loads.is_empty() && !blocks && !other;
        let own_term = is_long && (0..SETS).any(|set| has_own_term(older, set));
        those(&[
            (!is_long && blocks, Case::ShortBlocks),
            (!is_long && other, Case::ShortOther),
            (is_long && blocks, Case::LongBlocks),
            (is_long && other, Case::LongOther),
            (blocks && own_term, Case::LongTerms),
            (is_new, Case::LongNew),
        ])
    }

    /// Tables that would be well formed but for their marked files.
    fn cases_of_refusal(&self) -> Vec<Case> {
        let (tables, pages) = (&self.before[Buffer::Tables], &self.before[Buffer::Pages]);
        // The check is dear, so it is asked only where a marked file holds anything.
        if loaded_files(tables).iter().all(|load| *load == Load::Nothing) {
            return Vec::new();
        }
        let broken = rules_broken(tables, pages.len());
        those(&[
            (broken == BTreeSet::from([Rule::MarkedSize]), Case::RefusedSize),
            (broken == BTreeSet::from([Rule::MarkedMapped]), Case::RefusedMapped),
        ])
    }
}

fn drops_or_writes(call: &Call) -> bool {
    call.as_write().is_some() || matches!(call, Call::Truncate { .. } | Call::Delete { .. })
}

fn free_blocks(state: &State) -> usize {
    state.bits[..state.block_count].iter().filter(|used| !**used).count()
}

/// A block that a marking freed.
#[derive(Clone, Copy, PartialEq, Eq, Debug)]
struct Freed {
    block: usize,
    /// The page whose copy found no block free, the child that needed it, and the set whose
    /// file had the block.
    page: usize,
    child: usize,
    set: usize,
    /// Whether the call had made a copy there.
    was_copy: bool,
}

/// A freed block that a copy took, and its last freeing before.
struct Taken {
    freed: Freed,
    copy: Copied,
}

/// What became of the blocks that markings freed.
#[derive(Default)]
struct Fates {
    freed: Vec<Freed>,
    taken: Vec<Taken>,
    /// Page and child of each copy that found no block free.
    turns_of_marking: BTreeSet<(usize, usize)>,
    frees_nothing: bool,
}

impl Fates {
    fn of(turns: &Turns) -> Fates {
        let mut fates = Fates::default();
        let mut copies: Vec<Copied> = Vec::new();
        for turn in &turns.list {
            match turn {
                Turn::Marked { page, child, set, blocks } => {
                    let freed = |block: &usize| Freed {
                        block: *block,
                        page: *page,
                        child: *child,
                        set: *set,
                        was_copy: copies.iter().any(|c| (c.block, c.child) == (*block, *set)),
                    };
                    fates.freed.extend(blocks.iter().map(freed));
                    fates.turns_of_marking.insert((*page, *child));
                    fates.frees_nothing |= blocks.is_empty();
                }
                Turn::Copied(copy) => {
                    let last = fates.freed.iter().rev().find(|freed| freed.block == copy.block);
                    fates.taken.extend(last.map(|freed| Taken { freed: *freed, copy: *copy }));
                    copies.push(*copy);
                }
                _ => {}
            }
        }
        fates
    }

    fn has_twice(&self) -> bool {
        let different: BTreeSet<usize> = self.freed.iter().map(|freed| freed.block).collect();
        different.len() < self.freed.len()
    }
}

/// How often each case was met.
pub type Met = judging::Met<Case>;

impl Met {
    /// The calls are those that freed a block by marking.
    pub fn count(&mut self, freeing: &Freeing, is_linked: bool) {
        let cases = freeing.cases();
        if cases.contains(&Case::Frees) {
            self.count_call(is_linked);
        }
        self.count_cases(&cases);
    }
}
