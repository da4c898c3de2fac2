//! The tally of "Demand 3": it "does the same calls under the rules above
//! with sets, states, sizes, kinds and a count of free blocks (B at format),
//! but no block numbers or bytes". It has its own code for every step.

use crate::call::{FILES, PAGES, PAGE_BYTES, SETS};

#[derive(Clone, Copy, PartialEq, Eq, Debug)]
pub enum TallyKind {
    Unmapped,
    Hole,
    Stored,
}

use TallyKind::{Hole, Stored, Unmapped};

#[derive(Clone, Copy, PartialEq, Eq, Debug)]
pub enum Condition {
    Absent,
    Own,
    Virgin,
    Marked,
}

#[derive(Clone, PartialEq, Eq, Debug)]
pub struct TallyFile {
    pub condition: Condition,
    /// The recorded size: 0 for a virgin file.
    pub size: usize,
    pub kinds: Vec<TallyKind>,
}

impl TallyFile {
    fn new(condition: Condition, kind: TallyKind) -> TallyFile {
        TallyFile { condition, size: 0, kinds: vec![kind; PAGES] }
    }

    /// Own or virgin.
    fn lives(&self) -> bool {
        self.condition == Condition::Own || self.condition == Condition::Virgin
    }

    /// "an own or virgin file depends on the parent set's file as long as it
    /// has any unmapped page, whatever its size"
    fn depends(&self) -> bool {
        self.lives() && self.kinds.contains(&Unmapped)
    }

    fn stored_pages(&self) -> usize {
        self.kinds.iter().filter(|kind| **kind == Stored).count()
    }
}

#[derive(Clone, PartialEq, Eq, Debug)]
pub struct TallySet {
    pub parent: Option<usize>,
    pub children: Vec<usize>,
    pub files: Vec<TallyFile>,
}

#[derive(Clone, PartialEq, Eq, Debug)]
pub struct Tally {
    pub free: usize,
    pub sets: Vec<Option<TallySet>>,
}

/// What the children got in one call.
#[derive(Default)]
struct Given {
    /// Copies made: needed ones, and in a write those of extra pages.
    copies: u32,
    /// Files newly marked.
    marked: u32,
    /// Blocks handed over: the call frees so many fewer at its end, whatever became of
    /// them since.
    handed_over: usize,
}

impl Tally {
    /// "a count of free blocks (B at format)"
    pub fn format(block_count: usize) -> Tally {
        let absent = TallyFile::new(Condition::Absent, Unmapped);
        let mut sets = vec![None; SETS];
        sets[0] = Some(TallySet { parent: None, children: Vec::new(), files: vec![absent; FILES] });
        Tally { free: block_count, sets }
    }

    pub fn set(&self, set: usize) -> &TallySet {
        self.sets[set].as_ref().expect("a used set")
    }

    pub fn file(&self, set: usize, file: usize) -> &TallyFile {
        &self.set(set).files[file]
    }

    fn file_mut(&mut self, set: usize, file: usize) -> &mut TallyFile {
        &mut self.sets[set].as_mut().expect("a used set").files[file]
    }

    pub fn is_marked(&self, set: usize, file: usize) -> bool {
        self.file(set, file).condition == Condition::Marked
    }

    /// The kind a page resolves to.
    fn resolves(&self, set: usize, file: usize, page: usize) -> TallyKind {
        let mut at = set;
        while self.file(at, file).kinds[page] == Unmapped {
            at = self.set(at).parent.expect("set 0 has no unmapped page");
        }
        self.file(at, file).kinds[page]
    }

    /// The size by reading.
    pub fn size(&self, set: usize, file: usize) -> usize {
        let mut at = set;
        while self.file(at, file).condition == Condition::Virgin {
            at = self.set(at).parent.expect("set 0 has no virgin file");
        }
        self.file(at, file).size
    }

    /// The pages that hold a byte from `offset` up to `end`, so none if there is
    /// no such byte.
    fn pages_of(offset: usize, end: usize) -> Vec<usize> {
        let holds_one = |page: &usize| {
            let first = offset.max(page * PAGE_BYTES);
            first < end.min((page + 1) * PAGE_BYTES)
        };
        (0..PAGES).filter(holds_one).collect()
    }

    // Step 1.

    /// Own need of a write of one byte or more: "the touched pages not stored
    /// in this file's map".
    pub fn own_need_of_write(&self, set: usize, file: usize, offset: usize, end: usize) -> usize {
        let kinds = &self.file(set, file).kinds;
        Tally::pages_of(offset, end).iter().filter(|page| kinds[**page] != Stored).count()
    }

    /// Own need of a truncate: "1 if t is no multiple of 512 and its page
    /// resolves to stored but is not stored in this map, else 0"; nothing is
    /// needed at or above the size.
    pub fn own_need_of_truncate(&self, set: usize, file: usize, size: usize) -> usize {
        if size >= self.size(set, file) || size % PAGE_BYTES == 0 {
            return 0;
        }
        let page = size / PAGE_BYTES;
        let stored_here = self.file(set, file).kinds[page] == Stored;
        usize::from(!stored_here && self.resolves(set, file, page) == Stored)
    }

    // Step 2.

    fn settle(&mut self, set: usize, file: usize) {
        if self.file(set, file).condition == Condition::Virgin {
            let size = self.size(set, file);
            let record = self.file_mut(set, file);
            record.size = size;
            record.condition = Condition::Own;
        }
    }

    fn settle_children(&mut self, set: usize, file: usize) {
        for child in self.set(set).children.clone() {
            self.settle(child, file);
        }
    }

    // Step 4 and marking.

    /// The children whose file waits for a page: it lives and is unmapped
    /// there. In order of making.
    fn waiting(&self, set: usize, file: usize, page: usize) -> Vec<usize> {
        let waits = |child: &usize| {
            let record = self.file(*child, file);
            record.lives() && record.kinds[page] == Unmapped
        };
        self.set(set).children.iter().copied().filter(waits).collect()
    }

    /// Step 4. Of the touched pages, those from `first_dropped` on are dropped
    /// whole.
    fn give_to_children(
        &mut self,
        set: usize,
        file: usize,
        touched: &[usize],
        first_dropped: usize,
    ) -> Given {
        let mut given = Given::default();
        for &page in touched {
            let mut waiting = self.waiting(set, file, page).into_iter();
            // Document 02: "When delete, or truncate dropping a whole page,
            // reaches a page stored in the file's own map, the first child that
            // needs it takes over the block itself. Other children needing it
            // still get copies."
            let stored_here = self.file(set, file).kinds[page] == Stored;
            if page >= first_dropped && stored_here {
                if let Some(heir) = waiting.next() {
                    self.file_mut(heir, file).kinds[page] = Stored;
                    given.handed_over += 1;
                }
            }
            let kind = self.resolves(set, file, page);
            for child in waiting {
                self.give(child, file, page, kind, &mut given);
            }
        }
        given
    }

    /// What a waiting child gets at its turn, if no block is handed over to it.
    /// "A needed copy is step 4's, of a needed page resolving to stored; it
    /// finds none free if, at its turn, no block is free, own blocks and that
    /// call's earlier copies being taken", and by document 02 the blocks that the
    /// call's earlier markings freed being free.
    fn give(&mut self, child: usize, file: usize, page: usize, kind: TallyKind, given: &mut Given) {
        if kind == Stored && self.free == 0 {
            given.marked += self.mark(child, file);
            return;
        }
        self.file_mut(child, file).kinds[page] = kind;
        if kind == Stored {
            self.free -= 1;
            given.copies += 1;
        }
    }

    /// The pages that share a group with one of these, without these. A page's
    /// group is its number divided by the size of groups, rounded down.
    fn others_in_groups(touched: &[usize], group: usize) -> Vec<usize> {
        let groups: Vec<usize> = touched.iter().map(|page| page / group).collect();
        let is_other = |page: &usize| groups.contains(&(page / group)) && !touched.contains(page);
        (0..PAGES).filter(is_other).collect()
    }

    /// Document 02, of the other pages of the touched groups: "an extra page
    /// finding no free block stays unmapped, marks nothing and is not a needed
    /// copy". All else is as for a touched page.
    fn give_extra_pages(&mut self, set: usize, file: usize, others: &[usize], given: &mut Given) {
        for &page in others {
            let kind = self.resolves(set, file, page);
            for child in self.waiting(set, file, page) {
                let has_room = kind == Hole || self.free > 0;
                if has_room {
                    self.give(child, file, page, kind, given);
                }
            }
        }
    }

    /// Document 02: "Marking now frees its stored blocks at that moment ... and leaves
    /// size 0 and all entries unmapped, for dependents too." A block handed over is
    /// counted among the heir's stored pages by then.
    fn mark(&mut self, set: usize, file: usize) -> u32 {
        let mut to_mark = vec![set];
        let mut marked = 0;
        while let Some(at) = to_mark.pop() {
            self.free += self.file(at, file).stored_pages();
            *self.file_mut(at, file) = TallyFile::new(Condition::Marked, Unmapped);
            marked += 1;
            for &child in &self.set(at).children {
                if self.file(child, file).depends() {
                    to_mark.push(child);
                }
            }
        }
        marked
    }

    // The calls, once accepted.

    pub fn create(&mut self, set: usize, file: usize) {
        *self.file_mut(set, file) = TallyFile::new(Condition::Own, Hole);
    }

    /// A write of the bytes from `offset` up to `end`, by groups of `group` pages.
    pub fn write(
        &mut self,
        set: usize,
        file: usize,
        offset: usize,
        end: usize,
        group: usize,
    ) -> [u32; 3] {
        if offset == end {
            return [0, 0, 0];
        }
        let own = self.own_need_of_write(set, file, offset, end);
        self.settle(set, file);
        self.settle_children(set, file);
        self.free -= own;
        let touched = Tally::pages_of(offset, end);
        // Nothing is dropped.
        let mut given = self.give_to_children(set, file, &touched, PAGES);
        let others = Tally::others_in_groups(&touched, group);
        self.give_extra_pages(set, file, &others, &mut given);
        let record = self.file_mut(set, file);
        for page in touched {
            record.kinds[page] = Stored;
        }
        record.size = record.size.max(end);
        [own as u32, given.copies, given.marked]
    }

    pub fn truncate(&mut self, set: usize, file: usize, size: usize) -> [u32; 3] {
        let old_size = self.size(set, file);
        if size == old_size {
            return [0, 0, 0];
        }
        let own = self.own_need_of_truncate(set, file, size);
        self.settle(set, file);
        self.settle_children(set, file);
        let mut given = Given::default();
        if size < old_size {
            self.free -= own;
            let touched: Vec<usize> = (0..PAGES)
                .filter(|page| *page >= size / PAGE_BYTES && page * PAGE_BYTES < old_size)
                .collect();
            // The part page is not dropped, if there is one; all others are.
            given = self.give_to_children(set, file, &touched, size.div_ceil(PAGE_BYTES));
            self.cut(set, file, size, own == 1, &touched);
            // Document 02, of a block handed over: "the delete or truncate
            // itself does not free it".
            self.free -= given.handed_over;
        }
        self.file_mut(set, file).size = size;
        [own as u32, given.copies, given.marked]
    }

    /// The map after a truncate below the size, the blocks of the pages dropped
    /// being free.
    fn cut(&mut self, set: usize, file: usize, size: usize, own: bool, touched: &[usize]) {
        let before = self.file(set, file).stored_pages();
        let record = self.file_mut(set, file);
        for &page in touched {
            if page * PAGE_BYTES >= size {
                record.kinds[page] = Hole;
            }
        }
        let after = record.stored_pages();
        if own {
            record.kinds[size / PAGE_BYTES] = Stored;
        }
        self.free += before - after;
    }

    pub fn delete(&mut self, set: usize, file: usize) -> [u32; 3] {
        let mut given = Given::default();
        if !self.is_marked(set, file) {
            self.settle_children(set, file);
            let all: Vec<usize> = (0..PAGES).collect();
            given = self.give_to_children(set, file, &all, 0);
        }
        // Document 02, of a block handed over: "the delete or truncate itself
        // does not free it".
        self.free += self.file(set, file).stored_pages() - given.handed_over;
        *self.file_mut(set, file) = TallyFile::new(Condition::Absent, Unmapped);
        [0, given.copies, given.marked]
    }

    pub fn make(&mut self, parent: usize, set: usize) {
        let files = (0..FILES)
            .map(|file| {
                let condition = match self.file(parent, file).condition {
                    Condition::Own => Condition::Virgin,
                    other => other,
                };
                TallyFile::new(condition, Unmapped)
            })
            .collect();
        self.sets[set] = Some(TallySet { parent: Some(parent), children: Vec::new(), files });
        let above = self.sets[parent].as_mut().expect("a used set");
        above.children.push(set);
    }

    pub fn remove(&mut self, set: usize) {
        let gone = self.sets[set].take().expect("a used set");
        self.free += gone.files.iter().map(TallyFile::stored_pages).sum::<usize>();
        for other in self.sets.iter_mut().flatten() {
            other.children.retain(|child| *child != set);
        }
    }

    /// The maps looked at by a read of the bytes from `offset` up to `end`.
    /// Document 02: "For each page holding a byte read, the count is one for the
    /// file's own map and one for each parent map gone to, ending at the first
    /// that is not unmapped." Counted set by set, going up: a set's map is looked
    /// at for those of the pages that are unmapped in every map before it.
    pub fn maps_looked_at(&self, set: usize, file: usize, offset: usize, end: usize) -> u32 {
        let mut not_found = Tally::pages_of(offset, end);
        let mut looks = 0;
        let mut next = Some(set);
        while let Some(at) = next {
            looks += not_found.len();
            let kinds = &self.file(at, file).kinds;
            not_found.retain(|page| kinds[*page] == Unmapped);
            next = self.set(at).parent;
        }
        assert!(not_found.is_empty(), "set 0 has no unmapped page");
        looks as u32
    }
}
