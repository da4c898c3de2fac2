//! The turns of a write, truncate or delete, gone through once more on the tables before
//! it, and what each of them did. The tables after a call do not tell which blocks its
//! markings freed, nor how often: a block may have been taken since (Ask 10 of document
//! 02). No code of `store` is used, and of `maps` the order of children alone.

use crate::call::*;
use crate::state::*;

/// What one turn did.
#[derive(Clone, PartialEq, Eq, Debug)]
pub enum Turn {
    /// Step 3.
    Own {
        page: usize,
        block: usize,
    },
    /// "the first child that needs it takes over the block itself"
    HandedOver(Handed),
    Copied(Copied),
    /// A file marked, and the blocks that came free with it. `page` is the one whose copy
    /// found no block free, `child` the child that needed it: `set` is this child, or one
    /// of those that depend on it.
    Marked {
        page: usize,
        child: usize,
        set: usize,
        blocks: Vec<usize>,
    },
    /// At the end, of a page that is dropped and still in the file's own map.
    Dropped {
        page: usize,
        block: usize,
    },
}

/// A page whose block a child took over.
#[derive(Clone, Copy, PartialEq, Eq, Debug)]
pub struct Handed {
    pub page: usize,
    pub block: usize,
    pub heir: usize,
}

/// A page that a child got a copy of.
#[derive(Clone, Copy, PartialEq, Eq, Debug)]
pub struct Copied {
    pub page: usize,
    pub block: usize,
    pub child: usize,
    /// Whether the page is an extra page.
    pub extra: bool,
}

/// The maps of one file's number, by set; none where the file is absent or marked.
pub type Maps = Vec<Option<[Entry; PAGES]>>;

/// All turns of one call, in order, and what they leave.
#[derive(Clone, PartialEq, Eq, Debug)]
pub struct Turns {
    pub list: Vec<Turn>,
    pub bits: Vec<bool>,
    pub next_start: usize,
    pub maps: Maps,
}

/// The file that a call changes, and which of its pages are gone through.
#[derive(Default)]
pub struct Plan {
    pub set: usize,
    pub file: usize,
    /// Touched pages, and those of them that the call drops whole.
    pub touched: Vec<usize>,
    pub dropped: Vec<usize>,
    /// The other pages of the groups that a write touches.
    pub extra: Vec<usize>,
    /// The pages that own blocks are taken for.
    pub own: Vec<usize>,
}

impl Turns {
    /// The turns of a call on well-formed tables; none if it is no write, truncate or
    /// delete, or has no turns, or needs more own blocks than are free, or finds no file
    /// that is own or virgin.
    pub fn of(call: &Call, before: &State) -> Option<Turns> {
        Turns::of_plan(&Plan::of(call, before)?, before)
    }

    /// The same of a write of any kind.
    pub fn of_write(write: &AnyWrite, before: &State) -> Option<Turns> {
        Turns::of_plan(&plan_of_write(write, before)?, before)
    }

    fn of_plan(plan: &Plan, before: &State) -> Option<Turns> {
        let file = plan.file;
        let map = |set: usize| {
            let record = &before.files[set][file];
            matches!(record.state, FileState::Own | FileState::Virgin).then_some(record.entries)
        };
        let turns = Turns {
            list: Vec::new(),
            bits: before.bits.clone(),
            next_start: before.next_start,
            maps: (0..SETS).map(map).collect(),
        };
        turns.maps[plan.set]?;
        turns.gone_through(before, plan)
    }

    fn gone_through(mut self, before: &State, plan: &Plan) -> Option<Turns> {
        for page in &plan.own {
            let block = self.take(before.block_count)?;
            self.list.push(Turn::Own { page: *page, block });
        }
        for page in &plan.touched {
            self.page(before, plan, *page, false);
        }
        for page in &plan.extra {
            self.page(before, plan, *page, true);
        }
        self.end(plan);
        Some(self)
    }

    /// "the first free one from next start, going round"
    fn take(&mut self, block_count: usize) -> Option<usize> {
        let order = (self.next_start..block_count).chain(0..self.next_start);
        let block = order.into_iter().find(|block| !self.bits[*block])?;
        self.bits[block] = true;
        self.next_start = (block + 1) % block_count;
        Some(block)
    }

    fn entry(&mut self, set: usize, page: usize) -> &mut Entry {
        &mut self.maps[set].as_mut().expect("a file that is own or virgin")[page]
    }

    /// What the page is in the map of the set, or else in the first map above that is not
    /// unmapped there.
    fn source(&self, before: &State, mut set: usize, page: usize) -> Entry {
        loop {
            let entry = self.maps[set].expect("a file that is own or virgin")[page];
            if entry.kind != Kind::Unmapped {
                return entry;
            }
            set = before.sets[set].parent;
        }
    }

    /// The turns of one page: each child in order of making, if it needs the page then.
    fn page(&mut self, before: &State, plan: &Plan, page: usize, extra: bool) {
        let source = self.source(before, plan.set, page);
        for child in before.children(plan.set) {
            if self.maps[child].is_none_or(|map| map[page].kind != Kind::Unmapped) {
                continue;
            }
            let in_own_map = *self.entry(plan.set, page) == source;
            if source.kind == Kind::Hole {
                *self.entry(child, page) = HOLE;
            } else if plan.dropped.contains(&page) && in_own_map {
                *self.entry(child, page) = source;
                *self.entry(plan.set, page) = HOLE;
                let handed = Handed { page, block: source.block, heir: child };
                self.list.push(Turn::HandedOver(handed));
            } else if let Some(block) = self.take(before.block_count) {
                *self.entry(child, page) = stored(block);
                self.list.push(Turn::Copied(Copied { page, block, child, extra }));
            } else if !extra {
                self.mark(before, page, child, child);
            }
        }
    }

    /// Marks the file of a set, and all that depend on it.
    fn mark(&mut self, before: &State, page: usize, child: usize, set: usize) {
        let map = self.maps[set].take().expect("a file that is own or virgin");
        let stored = map.iter().filter(|entry| entry.kind == Kind::Stored);
        let blocks: Vec<usize> = stored.map(|entry| entry.block).collect();
        for block in &blocks {
            assert!(self.bits[*block], "block {block} is free already");
            self.bits[*block] = false;
        }
        self.list.push(Turn::Marked { page, child, set, blocks });
        for below in before.children(set) {
            if self.maps[below].is_some_and(|map| map.contains(&UNMAPPED)) {
                self.mark(before, page, child, below);
            }
        }
    }

    /// Own blocks enter the map, and the blocks of the pages dropped come free, if they are
    /// still in it.
    fn end(&mut self, plan: &Plan) {
        for turn in self.list.clone() {
            if let Turn::Own { page, block } = turn {
                *self.entry(plan.set, page) = stored(block);
            }
        }
        for page in plan.dropped.iter().copied() {
            let entry = std::mem::replace(self.entry(plan.set, page), HOLE);
            if entry.kind == Kind::Stored {
                self.bits[entry.block] = false;
                self.list.push(Turn::Dropped { page, block: entry.block });
            }
        }
    }

    /// The blocks that markings freed, in order, each as often as it was freed.
    pub fn freed(&self) -> Vec<usize> {
        let freed = self.list.iter().map(|turn| match turn {
            Turn::Marked { blocks, .. } => blocks.as_slice(),
            _ => &[],
        });
        freed.collect::<Vec<_>>().concat()
    }

    pub fn handed_over(&self) -> Vec<Handed> {
        let handed = self.list.iter().filter_map(|turn| match turn {
            Turn::HandedOver(handed) => Some(*handed),
            _ => None,
        });
        handed.collect()
    }

    /// Own blocks, copies, and files newly marked.
    pub fn counts(&self) -> [u32; 3] {
        let count = |holds: fn(&&Turn) -> bool| self.list.iter().filter(holds).count() as u32;
        [
            count(|turn| matches!(turn, Turn::Own { .. })),
            count(|turn| matches!(turn, Turn::Copied(_))),
            count(|turn| matches!(turn, Turn::Marked { .. })),
        ]
    }
}

impl Plan {
    /// None for a call that has no turns.
    pub fn of(call: &Call, before: &State) -> Option<Plan> {
        if let Some(write) = call.as_write() {
            return plan_of_write(&write, before);
        }
        match *call {
            Call::Truncate { set, file, size } => {
                let (set, file, size) = (set as usize, file as usize, size as usize);
                let old_size = size_by_reading(before, set, file);
                (size < old_size).then(|| plan_of_truncate(before, (set, file), size, old_size))
            }
            Call::Delete { set, file } => {
                let (set, file) = (set as usize, file as usize);
                let all: Vec<usize> = (0..PAGES).collect();
                let marked = before.files[set][file].state == FileState::Marked;
                let (touched, dropped) = (all.clone(), all);
                (!marked).then(|| Plan { set, file, touched, dropped, ..Plan::default() })
            }
            _ => None,
        }
    }
}

/// None for a write of length 0.
fn plan_of_write(write: &AnyWrite, before: &State) -> Option<Plan> {
    let (set, file, group) = (write.set as usize, write.file as usize, write.group);
    let (start, end) = (write.offset as usize, write.offset as usize + write.length);
    let touched: Vec<usize> = (start / PAGE_BYTES..end.div_ceil(PAGE_BYTES)).collect();
    let in_group = |page: &usize| touched.iter().any(|other| other / group == page / group);
    let all_of_groups = (0..PAGES).filter(in_group);
    let extra = all_of_groups.filter(|page| !touched.contains(page)).collect();
    let is_own = |page: &usize| before.files[set][file].entries[*page].kind != Kind::Stored;
    let own = touched.iter().copied().filter(is_own).collect();
    let plan = Plan { set, file, touched, dropped: Vec::new(), extra, own };
    (write.length > 0).then_some(plan)
}

fn plan_of_truncate(
    before: &State,
    (set, file): (usize, usize),
    size: usize,
    old_size: usize,
) -> Plan {
    let first = size / PAGE_BYTES;
    let touched: Vec<usize> = (first..old_size.div_ceil(PAGE_BYTES)).collect();
    // The part page, if there is one, is not dropped.
    let whole = size.div_ceil(PAGE_BYTES);
    let dropped = touched.iter().copied().filter(|page| *page >= whole).collect();
    let takes_own = whole > first && is_stored_above(before, set, file, first);
    let own = if takes_own { vec![first] } else { Vec::new() };
    Plan { set, file, touched, dropped, own, ..Plan::default() }
}

/// Whether a page is unmapped in the set's own map, and stored in the first map above that
/// is not.
fn is_stored_above(before: &State, set: usize, file: usize, page: usize) -> bool {
    let kind = |set: usize| before.files[set][file].entries[page].kind;
    let mut at = set;
    while kind(at) == Kind::Unmapped {
        at = before.sets[at].parent;
    }
    at != set && kind(at) == Kind::Stored
}

fn size_by_reading(before: &State, set: usize, file: usize) -> usize {
    let mut at = set;
    while before.files[at][file].state == FileState::Virgin {
        at = before.sets[at].parent;
    }
    before.files[at][file].size
}
