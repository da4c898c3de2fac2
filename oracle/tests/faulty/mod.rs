//! Wrong programs for Ask 10 of document 02: write, truncate and delete done turn by turn,
//! with one fault in what marking frees. Without a fault they are right.

// Not every test uses all of it.
#![allow(dead_code)]

use oracle::bench::Other;
use oracle::call::*;
use oracle::maps::{block_range, carry_old_bytes, copy_block, Resolved};
use oracle::state::*;
use oracle::store;
use oracle::turns::Plan;

#[derive(Clone, Copy, PartialEq, Eq, Debug)]
pub enum Fault {
    None,
    /// The blocks come free, but only when the call ends.
    FreedAtTheEnd,
    /// The file that is marked first is cleared, and those that depend on it hold what they
    /// had.
    DependentsKeep,
    SizeKept,
    /// The blocks come free, and the holes stay.
    HolesKept,
    /// At the end a delete or truncate frees all blocks that its file had before, but those
    /// that a child has not marked took over.
    FreedTwice,
    /// The copy that found no block free is tried again for the child just marked.
    TriedAgain,
    ExtraPagesBarred,
    /// A block handed over in the call is not freed by marking.
    HandedOverKept,
    /// A copy made in the call is not freed by marking.
    CopiesKept,
    /// Nothing is freed, as before Ask 10.
    NothingFreed,
    /// The copies of a child that is marked later are not counted.
    LostCopiesNotCounted,
}

impl Fault {
    pub const ALL: [Fault; 11] = [
        Fault::FreedAtTheEnd,
        Fault::DependentsKeep,
        Fault::SizeKept,
        Fault::HolesKept,
        Fault::FreedTwice,
        Fault::TriedAgain,
        Fault::ExtraPagesBarred,
        Fault::HandedOverKept,
        Fault::CopiesKept,
        Fault::NothingFreed,
        Fault::LostCopiesNotCounted,
    ];
}

/// A library that has writes, truncate and delete, with a fault.
pub struct Faulty(pub Fault);

impl Other for Faulty {
    fn has(&self, index: usize) -> bool {
        ["write", "write-narrow", "truncate", "delete"].contains(&CALL_NAMES[index])
    }

    fn run(&mut self, index: usize, n: &Numbers, mut lent: Lent) -> Answer {
        let [tables, pages] = [lent.tables.to_vec(), lent.pages.to_vec()];
        let bytes = lent.bytes.to_vec();
        let answer = store::run(index, n, lent.again());
        let call = call_of(index, n, bytes.len());
        let before = (answer.number == 0).then(|| State::unpack(&tables));
        let plan = before.as_ref().and_then(|before| Plan::of(&call, before));
        let (Some(before), Some(plan)) = (before, plan) else { return answer };
        let mut doing = Doing::new(self.0, before, pages, plan);
        let answer = doing.call(&call, &bytes);
        doing.state.pack(lent.tables);
        lent.pages.copy_from_slice(&doing.pages);
        answer
    }
}

fn call_of(index: usize, n: &Numbers, length: usize) -> Call {
    let (set, file, offset, seed) = (n[0], n[1], n[2], 0);
    match CALL_NAMES[index] {
        "write" => Call::Write { set, file, offset, length, seed },
        "write-narrow" => Call::WriteNarrow { set, file, offset, length, seed },
        "truncate" => Call::Truncate { set, file, size: n[2] },
        _ => Call::Delete { set, file },
    }
}

struct Doing {
    fault: Fault,
    before: State,
    state: State,
    pages: Vec<u8>,
    plan: Plan,
    /// Blocks that come free at the end.
    at_the_end: Vec<usize>,
    /// Blocks that marked files keep.
    given: Vec<usize>,
    copied: Vec<(usize, usize)>,
    freed: bool,
    copies: u32,
    marked: u32,
}

impl Doing {
    fn new(fault: Fault, before: State, pages: Vec<u8>, plan: Plan) -> Doing {
        let (at_the_end, given, copied) = (Vec::new(), Vec::new(), Vec::new());
        let (state, freed, copies, marked) = (before.clone(), false, 0, 0);
        Doing {
            fault,
            before,
            state,
            pages,
            plan,
            at_the_end,
            given,
            copied,
            freed,
            copies,
            marked,
        }
    }

    fn call(&mut self, call: &Call, bytes: &[u8]) -> Answer {
        let (set, file) = (self.plan.set, self.plan.file);
        let old_size = self.state.size_by_reading(set, file);
        match call {
            Call::Delete { .. } => self.state.virgin_children_to_own(set, file),
            _ => self.state.step_2(set, file),
        }
        let own: Vec<(usize, usize)> =
            self.plan.own.iter().map(|page| (*page, self.state.take_block().unwrap())).collect();
        for page in self.plan.touched.clone() {
            self.page(page, false);
        }
        for page in self.plan.extra.clone() {
            self.page(page, true);
        }
        for (page, block) in &own {
            carry_old_bytes(&mut self.pages, self.state.resolve(set, file, *page), *block);
            self.state.files[set][file].entries[*page] = stored(*block);
        }
        self.end(call, bytes, old_size);
        Answer::accepted([own.len() as u32, self.copies, self.marked])
    }

    fn page(&mut self, page: usize, extra: bool) {
        let (set, file) = (self.plan.set, self.plan.file);
        let source = self.state.resolve(set, file, page);
        for child in self.state.children(set) {
            if !self.state.needs(child, file, page) {
                continue;
            }
            let Resolved::Stored(block) = source else {
                self.state.files[child][file].entries[page] = HOLE;
                continue;
            };
            if self.plan.dropped.contains(&page) && self.state.is_stored(set, file, page) {
                self.state.files[child][file].entries[page] = stored(block);
                self.state.files[set][file].entries[page] = HOLE;
                self.given.push(block);
            } else if !self.copy(block, child, page, extra) && !extra {
                self.mark(child);
                let state = &self.state.files[child][file];
                if self.fault == Fault::TriedAgain && *state == MARKED_FILE {
                    self.try_again(block, child, page);
                }
            }
        }
    }

    fn copy(&mut self, source: usize, child: usize, page: usize, extra: bool) -> bool {
        if extra && self.freed && self.fault == Fault::ExtraPagesBarred {
            return false;
        }
        let Some(block) = self.state.take_block() else { return false };
        copy_block(&mut self.pages, source, block);
        self.state.files[child][self.plan.file].entries[page] = stored(block);
        self.copied.push((child, block));
        self.copies += 1;
        true
    }

    /// The child is own again, with the one page, if a block is free now.
    fn try_again(&mut self, source: usize, child: usize, page: usize) {
        let size = self.state.files[child][self.plan.file].size;
        if self.copy(source, child, page, false) {
            let record = &mut self.state.files[child][self.plan.file];
            (record.state, record.size) = (FileState::Own, size);
            self.marked -= 1;
        }
    }

    /// Marks a file and those that depend on it.
    fn mark(&mut self, set: usize) {
        let file = self.plan.file;
        let old = self.state.files[set][file].clone();
        let lost = self.copied.iter().filter(|(child, _)| *child == set).count();
        if self.fault == Fault::LostCopiesNotCounted {
            self.copies -= lost as u32;
        }
        self.marked += 1;
        let is_first = self.state.sets[set].parent == self.plan.set;
        let keeps_all =
            self.fault == Fault::NothingFreed || (self.fault == Fault::DependentsKeep && !is_first);
        let mut marked = MARKED_FILE;
        if self.fault == Fault::SizeKept {
            marked.size = old.size;
        }
        for (page, entry) in old.entries.into_iter().enumerate() {
            let is_copy = self.copied.contains(&(set, entry.block));
            let keeps = match self.fault {
                Fault::HolesKept => entry.kind == Kind::Hole,
                Fault::HandedOverKept => self.given.contains(&entry.block),
                Fault::CopiesKept => is_copy,
                _ => keeps_all,
            };
            if keeps && entry.kind != Kind::Unmapped {
                marked.entries[page] = entry;
            } else if entry.kind == Kind::Stored {
                self.free(entry.block);
            }
        }
        self.state.files[set][file] = marked;
        for child in self.state.children(set) {
            let record = &self.state.files[child][file];
            if record.is_own_or_virgin() && record.has_unmapped() {
                self.mark(child);
            }
        }
    }

    fn free(&mut self, block: usize) {
        self.freed = true;
        if self.fault == Fault::FreedAtTheEnd {
            self.at_the_end.push(block);
        } else {
            self.state.bits[block] = false;
        }
    }

    fn end(&mut self, call: &Call, bytes: &[u8], old_size: usize) {
        let (set, file) = (self.plan.set, self.plan.file);
        for page in self.plan.dropped.clone() {
            let entry = std::mem::replace(&mut self.state.files[set][file].entries[page], HOLE);
            if entry.kind == Kind::Stored {
                self.state.bits[entry.block] = false;
            }
            if self.fault == Fault::FreedTwice {
                self.free_by_the_old_map(page);
            }
        }
        for block in std::mem::take(&mut self.at_the_end) {
            self.state.bits[block] = false;
        }
        let record = &mut self.state.files[set][file];
        match call {
            Call::Delete { .. } => *record = ABSENT_FILE,
            Call::Truncate { size, .. } => {
                let size = *size as usize;
                record.size = size;
                let part = record.entries[(size / PAGE_BYTES).min(PAGES - 1)];
                if size % PAGE_BYTES != 0 && part.kind == Kind::Stored {
                    self.pages[block_range(part.block)][size % PAGE_BYTES..].fill(0);
                }
            }
            _ => {
                let offset = call.as_write().expect("a write").offset as usize;
                for (step, byte) in bytes.iter().enumerate() {
                    let place = offset + step;
                    let block = record.entries[place / PAGE_BYTES].block;
                    self.pages[block * PAGE_BYTES + place % PAGE_BYTES] = *byte;
                }
                record.size = old_size.max(offset + bytes.len());
            }
        }
    }

    /// The block that the page had before the call, unless a child that is not marked has it
    /// at this page.
    fn free_by_the_old_map(&mut self, page: usize) {
        let (set, file) = (self.plan.set, self.plan.file);
        let old = self.before.files[set][file].entries[page];
        let has = |child: usize| self.state.files[child][file].entries[page] == old;
        let has_heir = self.state.children(set).into_iter().any(has);
        if old.kind == Kind::Stored && !has_heir {
            self.state.bits[old.block] = false;
        }
    }
}
