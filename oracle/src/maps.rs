//! Maps and copying: resolving a page, taking a block, and the steps that
//! write, truncate and delete have in common. All of it works on a state that
//! is well formed.

use crate::call::*;
use crate::state::*;

/// What a page resolves to.
#[derive(Clone, Copy, PartialEq, Eq, Debug)]
pub enum Resolved {
    Hole,
    Stored(usize),
}

/// A resolved page with the maps looked at on the way: "one for the file's own
/// map and one for each parent map gone to, ending at the first that is not
/// unmapped" (document 02).
pub struct Look {
    pub resolved: Resolved,
    pub maps: u32,
}

impl State {
    /// "A stored page is its block. A hole is 512 zeros. In an own or virgin
    /// file, an unmapped page is what the same page is in the parent set."
    pub fn look(&self, set: usize, file: usize, page: usize) -> Look {
        let entry = self.files[set][file].entries[page];
        match entry.kind {
            Kind::Stored => Look { resolved: Resolved::Stored(entry.block), maps: 1 },
            Kind::Hole => Look { resolved: Resolved::Hole, maps: 1 },
            Kind::Unmapped => {
                let above = self.look(self.sets[set].parent, file, page);
                Look { maps: above.maps + 1, ..above }
            }
            Kind::Bad => unreachable!("a well-formed state has no kind 3"),
        }
    }

    pub fn resolve(&self, set: usize, file: usize, page: usize) -> Resolved {
        self.look(set, file, page).resolved
    }

    /// "A virgin file has the size of the parent's."
    pub fn size_by_reading(&self, set: usize, file: usize) -> usize {
        match self.files[set][file].state {
            FileState::Virgin => self.size_by_reading(self.sets[set].parent, file),
            _ => self.files[set][file].size,
        }
    }

    /// A set's children in order of making.
    pub fn children(&self, set: usize) -> Vec<usize> {
        let mut children = Vec::new();
        let mut link = self.sets[set].first_child;
        while link != NONE {
            children.push(link);
            link = self.sets[link].next_sibling;
        }
        children
    }

    pub fn free_blocks(&self) -> usize {
        self.bits[..self.block_count].iter().filter(|used| !**used).count()
    }

    /// "Taking a block: the first free one from next start, going round; next
    /// start then is that block plus one, modulo B." None if none is free.
    pub fn take_block(&mut self) -> Option<usize> {
        let count = self.block_count;
        let block = (0..count)
            .map(|step| (self.next_start + step) % count)
            .find(|block| !self.bits[*block])?;
        self.bits[block] = true;
        self.next_start = (block + 1) % count;
        Some(block)
    }

    /// Frees the block of an entry, if it is stored. "A freed block keeps its
    /// bytes."
    pub fn free_entry(&mut self, entry: Entry) {
        if entry.kind == Kind::Stored {
            assert!(self.bits[entry.block], "block {} is free already", entry.block);
            self.bits[entry.block] = false;
        }
    }

    /// Frees the blocks of a file and leaves it absent.
    pub fn drop_file(&mut self, set: usize, file: usize) {
        for entry in self.files[set][file].entries {
            self.free_entry(entry);
        }
        self.files[set][file] = ABSENT_FILE;
    }

    /// "A child needs page p when its file is own or virgin and p is unmapped
    /// there."
    pub fn needs(&self, child: usize, file: usize, page: usize) -> bool {
        let record = &self.files[child][file];
        record.is_own_or_virgin() && record.entries[page].kind == Kind::Unmapped
    }

    /// Document 02: "Marking now frees its stored blocks at that moment, any handed over
    /// earlier in the same call among them, and leaves size 0 and all entries unmapped".
    /// A block handed over stands in this file's map, and in no other.
    pub fn clear_marked(&mut self, set: usize, file: usize) {
        self.drop_file(set, file);
        self.files[set][file] = MARKED_FILE;
    }

    /// Marks a file. "Marking a file marks every own or virgin file of its
    /// number in a child set that has any unmapped page, and so on down." Document 02:
    /// the blocks come free "for dependents too". Gives how many files were newly marked.
    pub fn mark(&mut self, set: usize, file: usize) -> u32 {
        self.clear_marked(set, file);
        let mut marked = 1;
        for child in self.children(set) {
            let record = &self.files[child][file];
            if record.is_own_or_virgin() && record.has_unmapped() {
                marked += self.mark(child, file);
            }
        }
        marked
    }

    /// Step 2 for one file: a virgin file "becomes own with the size it had
    /// by reading".
    pub fn virgin_to_own(&mut self, set: usize, file: usize) {
        if self.files[set][file].state == FileState::Virgin {
            self.files[set][file].size = self.size_by_reading(set, file);
            self.files[set][file].state = FileState::Own;
        }
    }

    /// Step 2 for "each virgin child".
    pub fn virgin_children_to_own(&mut self, set: usize, file: usize) {
        for child in self.children(set) {
            self.virgin_to_own(child, file);
        }
    }

    /// Step 2: "A virgin file, and each virgin child, becomes own with the
    /// size it had by reading."
    pub fn step_2(&mut self, set: usize, file: usize) {
        self.virgin_to_own(set, file);
        self.virgin_children_to_own(set, file);
    }

    /// Whether a page is stored in this file's own map.
    pub fn is_stored(&self, set: usize, file: usize, page: usize) -> bool {
        self.files[set][file].entries[page].kind == Kind::Stored
    }

    /// Step 4: "For each touched page ascending, for each child in order of
    /// making that needs it". `dropped` are those of the touched pages that
    /// the call drops whole. Gives copies made and files newly marked. Document 02:
    /// "no free block" is judged at each copy's turn.
    pub fn step_4(
        &mut self,
        pages: &mut [u8],
        set: usize,
        file: usize,
        touched: &[usize],
        dropped: &[usize],
    ) -> (u32, u32) {
        let (mut copies, mut marked) = (0, 0);
        for &page in touched {
            // Looked up once for all children: handing the block over takes it
            // out of this file's map, and the later children still copy it.
            let resolved = self.resolve(set, file, page);
            for child in self.children(set) {
                if !self.needs(child, file, page) {
                    continue;
                }
                let Resolved::Stored(source) = resolved else {
                    // "a page resolving to a hole becomes a hole there"
                    self.files[child][file].entries[page] = HOLE;
                    continue;
                };
                // Document 02: "When delete, or truncate dropping a whole page,
                // reaches a page stored in the file's own map, the first child
                // that needs it takes over the block itself."
                if dropped.contains(&page) && self.is_stored(set, file, page) {
                    self.hand_over(set, child, file, page);
                } else if self.copy_to_child(pages, source, child, file, page) {
                    copies += 1;
                } else {
                    // Document 02: "A later copy in the same call may take these
                    // blocks", so the turn of this child is over.
                    marked += self.mark(child, file);
                }
            }
        }
        (copies, marked)
    }

    /// Document 02: "the other pages of each touched group are gone through,
    /// ascending, children in order of making, with the same copying." So a page
    /// resolving to a hole becomes a hole in each child that needs it, also in a
    /// full store and past the size. A child marked in step 4 needs nothing, and the
    /// blocks that its marking freed are there for these copies. Gives copies made.
    pub fn extra_pages(
        &mut self,
        pages: &mut [u8],
        set: usize,
        file: usize,
        others: &[usize],
    ) -> u32 {
        let mut copies = 0;
        for &page in others {
            let resolved = self.resolve(set, file, page);
            for child in self.children(set) {
                if !self.needs(child, file, page) {
                    continue;
                }
                match resolved {
                    Resolved::Hole => self.files[child][file].entries[page] = HOLE,
                    // "an extra page finding no free block stays unmapped, marks
                    // nothing and is not a needed copy"
                    Resolved::Stored(source) => {
                        let copied = self.copy_to_child(pages, source, child, file, page);
                        copies += u32::from(copied);
                    }
                }
            }
        }
        copies
    }

    /// "One resolving to stored is copied to a block taken; with none free, the
    /// child's file is marked." Document 02: "Other children needing it still
    /// get copies. Pages that the file only reads through its parent are copied
    /// as before, and so is the part page of a truncate." An extra page is copied
    /// in the same way. Gives false, and changes nothing, if none is free.
    fn copy_to_child(
        &mut self,
        pages: &mut [u8],
        source: usize,
        child: usize,
        file: usize,
        page: usize,
    ) -> bool {
        let Some(block) = self.take_block() else {
            return false;
        };
        copy_block(pages, source, block);
        self.files[child][file].entries[page] = stored(block);
        true
    }

    /// Gives a child the block of a page. The block leaves this file's map at
    /// once. Document 02: "A block handed over counts as no copy, and the
    /// delete or truncate itself does not free it."
    fn hand_over(&mut self, set: usize, child: usize, file: usize, page: usize) {
        self.files[child][file].entries[page] = self.files[set][file].entries[page];
        self.files[set][file].entries[page] = HOLE;
    }
}

/// The bytes of a block.
pub fn block_range(block: usize) -> std::ops::Range<usize> {
    block * PAGE_BYTES..(block + 1) * PAGE_BYTES
}

pub fn copy_block(pages: &mut [u8], source: usize, target: usize) {
    pages.copy_within(block_range(source), target * PAGE_BYTES);
}

/// Gives a block the bytes that a resolved page has.
pub fn carry_old_bytes(pages: &mut [u8], old: Resolved, target: usize) {
    match old {
        Resolved::Hole => pages[block_range(target)].fill(0),
        Resolved::Stored(source) => copy_block(pages, source, target),
    }
}
