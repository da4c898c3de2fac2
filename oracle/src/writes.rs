//! What accepted writes met besides their touched pages (Ask 5 of document 02),
//! told from the tables before and after them.

use crate::call::*;
use crate::state::*;
use std::collections::BTreeMap;

/// What became of an extra page that a child needed before the call.
#[derive(Clone, Copy, PartialEq, Eq, Debug)]
pub enum Fate {
    Copied,
    Hole,
    /// It found no block free.
    NoBlock,
    /// The child was marked in step 4.
    ChildMarked,
}

/// An extra page, and a child that needed it before the call.
#[derive(Clone, Copy, PartialEq, Eq, Debug)]
pub struct Turn {
    pub page: usize,
    pub child: usize,
    pub fate: Fate,
}

/// An accepted write of at least one byte, with the tables before and after it.
pub struct Written<'a> {
    pub before: &'a State,
    pub after: &'a State,
    /// The pages of a group.
    pub group: usize,
    pub set: usize,
    pub file: usize,
    pub touched: Vec<usize>,
    /// The other pages of the touched groups.
    pub others: Vec<usize>,
}

/// The cases that a write can meet. The first is of narrow writes, the others
/// are of writes by groups.
pub const CASES: [&str; 19] = [
    "pages of its groups of eight stay unmapped in a child",
    "an extra page is copied",
    "an extra page finds no block free",
    "an extra page is copied, another finds no block free",
    "an extra page becomes a hole",
    "an extra page becomes a hole, no block being free",
    "an extra page becomes a hole past the child's size",
    "an extra page becomes a hole after another found no block free",
    "an extra page is mapped in a child already",
    "a child marked by the call has extra pages left",
    "a child is marked by the call, another gets holes",
    "two children or more get copies of extra pages",
    "an extra page read through the parent is copied, the file was virgin",
    "an extra page read through the parent is copied, the file was own",
    "a set below the child reads an extra page copied to it",
    "a read-only child gets a copy of an extra page",
    "extra pages before the touched ones and after them",
    "extra pages of a last group that ends short at page 63",
    "extra pages, more than one group being touched",
];

impl<'a> Written<'a> {
    /// None for a call that is not an accepted write of at least one byte.
    pub fn of(
        call: &Call,
        answer: &Answer,
        before: &'a State,
        after: &'a State,
    ) -> Option<Written<'a>> {
        let write = call.as_write()?;
        if answer.number != 0 || write.length == 0 {
            return None;
        }
        let (first, end) = (write.offset as usize, write.offset as usize + write.length);
        let touched: Vec<usize> = (first / PAGE_BYTES..end.div_ceil(PAGE_BYTES)).collect();
        Some(Written {
            before,
            after,
            group: write.group,
            set: write.set as usize,
            file: write.file as usize,
            others: others(&touched, write.group),
            touched,
        })
    }

    fn children(&self) -> Vec<usize> {
        self.before.children(self.set)
    }

    /// The extra pages, ascending, each with the children that needed it before
    /// the call, in order of making.
    pub fn turns(&self) -> Vec<Turn> {
        let mut turns = Vec::new();
        for &page in &self.others {
            for child in self.children() {
                if self.before.needs(child, self.file, page) {
                    turns.push(Turn { page, child, fate: self.fate(child, page) });
                }
            }
        }
        turns
    }

    fn fate(&self, child: usize, page: usize) -> Fate {
        let record = &self.after.files[child][self.file];
        match record.entries[page].kind {
            Kind::Stored => Fate::Copied,
            Kind::Hole => Fate::Hole,
            _ if record.state == FileState::Marked => Fate::ChildMarked,
            _ => Fate::NoBlock,
        }
    }

    /// The blocks free when the extra pages begin: their copies are the last that take any,
    /// and nothing comes free after them.
    fn room(&self, turns: &[Turn]) -> usize {
        let extra = turns.iter().filter(|turn| turn.fate == Fate::Copied).count();
        self.after.free_blocks() + extra
    }

    /// Whether each of `CASES` was met.
    pub fn cases(&self) -> [bool; CASES.len()] {
        let turns = self.turns();
        let any = |fate: Fate| turns.iter().any(|turn| turn.fate == fate);
        let (copied, hole) = (any(Fate::Copied), any(Fate::Hole));
        let (no_block, marked) = (any(Fate::NoBlock), any(Fate::ChildMarked));
        let copies: Vec<Turn> =
            turns.iter().copied().filter(|turn| turn.fate == Fate::Copied).collect();
        let through = |turn: &Turn| self.reads_through(self.before, self.set, turn.page);
        let read_through = copies.iter().any(through);
        let virgin = self.before.files[self.set][self.file].state == FileState::Virgin;
        [
            self.leaves_pages_of_eight(),
            copied,
            no_block,
            copied && no_block,
            hole,
            hole && self.room(&turns) == 0,
            turns.iter().any(|turn| turn.fate == Fate::Hole && self.is_past_size(turn)),
            turns.iter().skip_while(|t| t.fate != Fate::NoBlock).any(|t| t.fate == Fate::Hole),
            self.is_mapped_already(),
            marked,
            marked && hole,
            copies.iter().any(|turn| turn.child != copies[0].child),
            read_through && virgin,
            read_through && !virgin,
            copies.iter().any(|turn| self.is_read_below(turn)),
            copies.iter().any(|turn| !self.before.sets[turn.child].writeable),
            self.has_before(&turns) && self.has_after(&turns),
            turns.iter().any(|turn| self.is_in_short_group(turn.page)),
            !turns.is_empty() && self.touched[0] / self.group != self.last() / self.group,
        ]
    }

    fn last(&self) -> usize {
        self.touched[self.touched.len() - 1]
    }

    /// A narrow write, and a child that is left unmarked still needs pages of
    /// the groups of eight.
    fn leaves_pages_of_eight(&self) -> bool {
        let pages = others(&self.touched, WRITE_GROUP);
        let needs = |child: &usize| pages.iter().any(|p| self.after.needs(*child, self.file, *p));
        self.group == NARROW_GROUP && self.children().iter().any(needs)
    }

    fn is_past_size(&self, turn: &Turn) -> bool {
        turn.page * PAGE_BYTES >= self.after.files[turn.child][self.file].size
    }

    fn is_mapped_already(&self) -> bool {
        self.children().into_iter().any(|child| {
            let record = &self.before.files[child][self.file];
            let mapped = |page: &usize| record.entries[*page].kind != Kind::Unmapped;
            record.is_own_or_virgin() && self.others.iter().any(mapped)
        })
    }

    /// Whether the file of a set reads the page through its parent.
    fn reads_through(&self, state: &State, set: usize, page: usize) -> bool {
        state.files[set][self.file].entries[page].kind == Kind::Unmapped
    }

    fn is_read_below(&self, turn: &Turn) -> bool {
        let below = self.after.children(turn.child);
        below.iter().any(|set| self.after.needs(*set, self.file, turn.page))
    }

    fn has_before(&self, turns: &[Turn]) -> bool {
        turns.iter().any(|turn| turn.page < self.touched[0])
    }

    fn has_after(&self, turns: &[Turn]) -> bool {
        turns.iter().any(|turn| turn.page > self.last())
    }

    fn is_in_short_group(&self, page: usize) -> bool {
        PAGES % self.group != 0 && page / self.group == (PAGES - 1) / self.group
    }
}

/// The pages of the touched groups that are not touched.
fn others(touched: &[usize], group: usize) -> Vec<usize> {
    let in_touched_group = |page: &usize| touched.iter().any(|t| t / group == page / group);
    (0..PAGES).filter(|page| !touched.contains(page)).filter(in_touched_group).collect()
}

/// Accepted writes of one kind whose answers and bytes were compared.
#[derive(Default, Clone, PartialEq, Eq, Debug)]
pub struct Writes {
    pub compared: u64,
    /// Those of at least one byte.
    pub of_bytes: u64,
    /// How often each of `CASES` was met.
    pub met: [u64; CASES.len()],
}

impl Writes {
    /// Counts an accepted write, with the cases it met if it has a byte.
    pub fn count(&mut self, cases: &Option<[bool; CASES.len()]>) {
        self.compared += 1;
        let Some(cases) = cases else { return };
        self.of_bytes += 1;
        for (count, met) in self.met.iter_mut().zip(cases) {
            *count += u64::from(*met);
        }
    }
}

/// Writes by the place of their kind in `CALL_NAMES`.
pub type ByKind = BTreeMap<usize, Writes>;

/// Tells the writes of each kind, a line for the sum and one for each case.
pub fn show(compared_with: &str, by_kind: &ByKind) {
    for (index, writes) in by_kind {
        let name = CALL_NAMES[*index];
        let Writes { compared, of_bytes, met } = writes;
        print!("accepted {name} compared with {compared_with} {compared}");
        println!(", of at least one byte {of_bytes}");
        let of_kind = if name == "write-narrow" { 0..1 } else { 1..CASES.len() };
        for case in of_kind {
            println!("  {name}, {}: {}", CASES[case], met[case]);
        }
    }
}
