//! Facts found by running the store, which follow from documents 01 and 02 (Asks
//! 2, 5, 9 and 10). Each is checked after every call of random histories, and those of
//! calls on random well-formed stores too.

use oracle::call::*;
use oracle::maps::{block_range, Resolved};
use oracle::state::*;
use std::collections::BTreeSet;

mod walk;
use walk::{bits_are_names, Change, Seen};

const SEED: u64 = 16_000_016;

fn all_files(state: &State) -> Vec<(usize, usize)> {
    (0..SETS)
        .flat_map(|set| (0..FILES).map(move |file| (set, file)))
        .filter(|(set, file)| state.files[*set][*file].is_present())
        .collect()
}

// Facts of states.

/// In an own or virgin file every byte at or past the size by reading is 0 in
/// the page it resolves to.
fn zero_tail(state: &State, pages: &[u8], set: usize, file: usize) {
    let size = state.size_by_reading(set, file);
    for page in size / PAGE_BYTES..PAGES {
        if let Resolved::Stored(block) = state.resolve(set, file, page) {
            let first = size.saturating_sub(page * PAGE_BYTES);
            let tail = &pages[block_range(block)][first..];
            assert!(tail.iter().all(|byte| *byte == 0), "set {set} file {file} page {page}");
        }
    }
}

/// The own or virgin children of a marked file have no unmapped entry.
fn children_of_a_marked_file(state: &State, set: usize, file: usize) {
    for child in state.children(set) {
        let record = &state.files[child][file];
        assert!(!record.is_own_or_virgin() || !record.has_unmapped());
    }
}

/// In a store that calls have led to, the parent's file of a marked file is not virgin.
fn parents_of_marked_files(state: &State, set: usize, file: usize) {
    assert_ne!(state.files[state.sets[set].parent][file].state, FileState::Virgin);
}

#[test]
fn facts_of_states() {
    let mut see = |seen: Seen| {
        bits_are_names(seen.after);
        for (set, file) in all_files(seen.after) {
            if seen.after.files[set][file].is_own_or_virgin() {
                zero_tail(seen.after, seen.pages_after, set, file);
            } else {
                children_of_a_marked_file(seen.after, set, file);
                parents_of_marked_files(seen.after, set, file);
            }
        }
    };
    walk::histories(SEED, 120, &mut see);
    walk::histories_of_marking(SEED, 120, &mut see);
    walk::stores(SEED, 200, |seen| {
        bits_are_names(seen.after);
        for (set, file) in all_files(seen.after) {
            if seen.after.files[set][file].state == FileState::Marked {
                children_of_a_marked_file(seen.after, set, file);
            }
        }
    });
}

// Facts of an accepted write, truncate or delete. "This file" is the file that
// the call names, and its children are the files of its number in child sets.

/// No set record changes. File records change only for this file and its
/// children, and deeper down only from own or virgin to marked, of size 0 and all unmapped.
fn records_change_here_and_below(change: &Change) {
    let (before, after) = (change.seen.before, change.seen.after);
    assert_eq!(before.sets, after.sets);
    assert_eq!(before.block_count, after.block_count);
    let children = change.children();
    for set in 0..SETS {
        for file in 0..FILES {
            let (old, new) = (&before.files[set][file], &after.files[set][file]);
            let near = file == change.file && (set == change.set || children.contains(&set));
            if near || old == new {
                continue;
            }
            assert!(file == change.file && is_below(before, set, change.set));
            assert!(old.is_own_or_virgin());
            assert_eq!(*new, MARKED_FILE);
        }
    }
}

/// Whether a set is a descendant of another.
fn is_below(state: &State, set: usize, above: usize) -> bool {
    let parent = state.sets[set].parent;
    set != 0 && state.sets[set].used && (parent == above || is_below(state, parent, above))
}

/// An entry of a child that is not marked by the call changes only from unmapped and only at
/// a touched page or, in a write, at a page of a touched group. Afterwards no own or virgin
/// child needs a touched page, and if a block is free, none needs a page of a touched group.
fn children_no_longer_need_touched_pages(change: &Change) {
    let after = change.seen.after;
    for child in change.children().into_iter().filter(|child| !change.marks(*child)) {
        for page in 0..PAGES {
            let old = change.seen.before.files[child][change.file].entries[page];
            let touched = change.touched.contains(&page);
            let extra = change.extra.contains(&page);
            let may_change = old == UNMAPPED && (touched || extra);
            assert!(old == change.entry_after(child, page) || may_change);
            let needs = after.needs(child, change.file, page);
            assert!(!(touched && needs));
            assert!(!(extra && needs && after.free_blocks() > 0));
        }
    }
}

/// The bytes of a page as it resolves; none for a hole.
fn resolved<'a>(
    state: &State,
    pages: &'a [u8],
    (set, file, page): (usize, usize, usize),
) -> Option<&'a [u8]> {
    match state.resolve(set, file, page) {
        Resolved::Hole => None,
        Resolved::Stored(block) => Some(&pages[block_range(block)]),
    }
}

/// In every other file of this number that is own or virgin afterwards, all 64
/// pages (also past the size) resolve to the same kind and the same 512 bytes as
/// before, and the size by reading is the same.
fn others_resolve_as_before(change: &Change) {
    let Seen { before, after, .. } = *change.seen;
    let file = change.file;
    for set in (0..SETS).filter(|set| *set != change.set) {
        if !after.files[set][file].is_own_or_virgin() {
            continue;
        }
        assert_eq!(before.size_by_reading(set, file), after.size_by_reading(set, file));
        for page in 0..PAGES {
            let place = (set, file, page);
            let old = resolved(before, change.seen.pages_before, place);
            assert!(old == resolved(after, change.seen.pages_after, place), "{}", change.seen.call);
        }
    }
}

/// How many pairs there are, before the call, of a child and one of these pages
/// that it needs and that resolves to stored in this file.
fn needed(change: &Change, pages: &[usize]) -> usize {
    let before = change.seen.before;
    let stored = |page: &&usize| before.resolve(change.set, change.file, **page) != Resolved::Hole;
    let needing = |page: &usize| {
        let needs = |child: &usize| before.needs(*child, change.file, *page);
        change.children().into_iter().filter(needs).count()
    };
    pages.iter().filter(stored).map(needing).sum()
}

/// How many pages dropped whole are, before the call, stored in this file's own
/// map and needed by some child.
fn to_hand_over(change: &Change) -> usize {
    let before = change.seen.before;
    let needed = |page: &&usize| {
        change.children().into_iter().any(|child| before.needs(child, change.file, **page))
    };
    let stored = |page: &&usize| before.is_stored(change.set, change.file, **page);
    change.whole.iter().filter(stored).filter(needed).count()
}

/// The copies called for are the pages needed less those to hand over, and in a
/// write the extra pages needed. If nothing is marked, all are made, or as many as blocks
/// are free besides the own blocks if those are too few. With a file marked they are at
/// least as many, and at most as many as with the freed blocks too. Some file is marked
/// exactly if the blocks free before are too few without the extra pages. At most the pages
/// to hand over are handed over, and all of them if nothing is marked.
fn copies_marking_and_handing_over(change: &Change) {
    let Seen { answer, before, call, .. } = *change.seen;
    let (needed, extra) = (needed(change, &change.touched), needed(change, &change.extra));
    let to_hand_over = to_hand_over(change);
    let called_for = needed - to_hand_over + extra;
    let room = before.free_blocks() - answer.first as usize;
    let least = called_for.min(room);
    let most = called_for.min(room + change.freed.len());
    assert!((least..=most).contains(&(answer.second as usize)), "{call}");
    assert!(answer.third > 0 || change.freed.is_empty(), "{call}");
    assert_eq!(answer.third > 0, needed - to_hand_over > room, "{call}");
    assert!(change.handed.len() <= to_hand_over, "{call}");
    assert!(answer.third > 0 || change.handed.len() == to_hand_over, "{call}");
}

fn stored_count(state: &State, set: usize, file: usize) -> usize {
    state.files[set][file].entries.iter().filter(|entry| entry.kind == Kind::Stored).count()
}

/// What marking freed, without the turns: the stored entries that the files newly marked had
/// before the call, with the copies and the blocks handed over, less the stored entries that
/// the children still own or virgin gained.
fn freed_blocks_by_the_tables(change: &Change) {
    let Seen { answer, before, after, call, .. } = *change.seen;
    let count = |state: &State, set: usize| stored_count(state, set, change.file);
    let marked = (0..SETS).filter(|set| change.marks(*set));
    let had: usize = marked.map(|set| count(before, set)).sum();
    let is_live = |child: &usize| after.files[*child][change.file].is_own_or_virgin();
    let live = change.children().into_iter().filter(is_live);
    let gained: usize = live.map(|child| count(after, child) - count(before, child)).sum();
    let given = answer.second as usize + change.handed.len();
    assert_eq!(change.freed.len() + gained, had + given, "{call}");
}

fn marked_count(state: &State) -> usize {
    let marked = |place: &&(usize, usize)| state.files[place.0][place.1].state == FileState::Marked;
    all_files(state).iter().filter(marked).count()
}

/// The marked files grow by the third count, less a marked file deleted. A file
/// marked by a call was own or virgin with an unmapped entry before it.
fn third_count_is_files_newly_marked(change: &Change) {
    let Seen { answer, before, after, .. } = *change.seen;
    let was_marked = before.files[change.set][change.file].state == FileState::Marked;
    let gone = usize::from(was_marked && after.files[change.set][change.file] == ABSENT_FILE);
    assert_eq!(marked_count(after) + gone, marked_count(before) + answer.third as usize);
    for set in (0..SETS).filter(|set| change.marks(*set)) {
        let record = &before.files[set][change.file];
        assert!(record.is_own_or_virgin() && record.has_unmapped());
    }
}

/// The blocks in this file's own map.
fn own_blocks(change: &Change, state: &State) -> BTreeSet<usize> {
    let entries = state.files[change.set][change.file].entries;
    entries.iter().filter(|e| e.kind == Kind::Stored).map(|e| e.block).collect()
}

/// Bytes change only in blocks that were free, were stored in this file's own map, or were
/// named by a file that the call marked. Bits become 0 only for blocks of this file's own
/// map and of files that the call marked. Neither happens to a block handed over, unless
/// marking freed it.
fn other_used_blocks_stay(change: &Change) {
    let Seen { before, after, pages_before, pages_after, call, .. } = *change.seen;
    let mut may = own_blocks(change, before);
    for handed in &change.handed {
        assert!(may.remove(&handed.block), "{call}");
    }
    for set in (0..SETS).filter(|set| change.marks(*set)) {
        let entries = before.files[set][change.file].entries;
        may.extend(entries.iter().filter(|e| e.kind == Kind::Stored).map(|e| e.block));
    }
    let freed = change.handed.iter().filter(|handed| change.freed.contains(&handed.block));
    may.extend(freed.map(|handed| handed.block));
    for block in 0..before.block_count {
        let same = pages_before[block_range(block)] == pages_after[block_range(block)];
        assert!(same || !before.bits[block] || may.contains(&block), "{call}: block {block}");
        let falls = before.bits[block] && !after.bits[block];
        assert!(!falls || may.contains(&block), "{call}: block {block}");
    }
}

/// Own blocks and copies come from the free blocks and from those that marking freed, a
/// block as often as it was freed; and the blocks that leave this file's map become free,
/// except those handed over. Own blocks are at most the touched pages, copies at most these
/// and the extra pages times the children. Without any, next start stays. A write hands
/// nothing over.
fn free_blocks_add_up(change: &Change) {
    let Seen { answer, before, after, call, .. } = *change.seen;
    let gone = own_blocks(change, before).difference(&own_blocks(change, after)).count();
    let taken = (answer.first + answer.second) as usize;
    let left = after.free_blocks() + taken + change.handed.len();
    assert_eq!(left, before.free_blocks() + gone + change.freed.len(), "{call}");
    assert!(taken <= before.free_blocks() + change.freed.len(), "{call}");
    let pages = change.touched.len() + change.extra.len();
    assert!(answer.first as usize <= change.touched.len(), "{call}");
    assert!(answer.second as usize <= pages * change.children().len(), "{call}");
    assert!(taken > 0 || after.next_start == before.next_start, "{call}");
    assert!(call.as_write().is_none() || change.handed.is_empty(), "{call}");
}

/// After a write every touched page is stored in this file's map. A write with
/// own need 0 in a set without children changes nothing in the tables but the
/// size.
fn written_pages_are_stored(change: &Change) {
    let Seen { answer, before, after, call, .. } = *change.seen;
    if call.as_write().is_none() {
        return;
    }
    for page in &change.touched {
        assert!(after.is_stored(change.set, change.file, *page), "{call}");
    }
    if answer.first == 0 && change.children().is_empty() {
        let mut same = before.clone();
        same.files[change.set][change.file].size = after.files[change.set][change.file].size;
        assert!(same == *after, "{call}");
    }
}

/// Create changes its record alone. Make changes no bit, page byte or next start,
/// and remove no page byte or next start.
fn create_make_and_remove(seen: &Seen) {
    let Seen { before, after, call, .. } = *seen;
    assert!(seen.pages_before == seen.pages_after, "{call}");
    assert_eq!(before.next_start, after.next_start, "{call}");
    match *call {
        Call::Create { set, file } => {
            let (set, file) = (set as usize, file as usize);
            let mut same = before.clone();
            same.files[set][file] = after.files[set][file].clone();
            assert!(same == *after, "{call}");
        }
        Call::Make { .. } => assert_eq!(before.bits, after.bits, "{call}"),
        _ => {}
    }
}

/// Compaction changes no set record, and no state, size or kind; next start and the
/// blocks free are what the used blocks say. All 64 pages of every file that is own or
/// virgin, also past the size, resolve to the same kind and the same 512 bytes as before.
fn compaction(seen: &Seen) {
    let Seen { before, after, .. } = *seen;
    assert_eq!(before.sets, after.sets);
    let used = before.block_count - before.free_blocks();
    assert!((0..MOST_BLOCKS).all(|block| after.bits[block] == (block < used)));
    assert_eq!(after.next_start, used % before.block_count);
    for (set, file) in (0..SETS).flat_map(|set| (0..FILES).map(move |file| (set, file))) {
        let (old, new) = (&before.files[set][file], &after.files[set][file]);
        assert_eq!((old.state, old.size), (new.state, new.size));
        for page in 0..PAGES {
            assert_eq!(old.entries[page].kind, new.entries[page].kind);
            if old.is_own_or_virgin() {
                let place = (set, file, page);
                let bytes = resolved(before, seen.pages_before, place);
                assert!(bytes == resolved(after, seen.pages_after, place));
            }
        }
    }
}

/// All facts of one call; gives its counts, the blocks handed over and those freed by
/// marking.
fn facts_of_call(seen: &Seen) -> [usize; 5] {
    let Some(change) = Change::of(seen) else {
        match seen.call {
            Call::Compact {} => compaction(seen),
            _ => create_make_and_remove(seen),
        }
        return [0; 5];
    };
    records_change_here_and_below(&change);
    children_no_longer_need_touched_pages(&change);
    others_resolve_as_before(&change);
    copies_marking_and_handing_over(&change);
    freed_blocks_by_the_tables(&change);
    third_count_is_files_newly_marked(&change);
    other_used_blocks_stay(&change);
    free_blocks_add_up(&change);
    written_pages_are_stored(&change);
    let Answer { first, second, third, .. } = seen.answer;
    let [first, second, third] = [first, second, third].map(|count| count as usize);
    [first, second, third, change.handed.len(), change.freed.len()]
}

#[derive(Default)]
struct Sums([usize; 5]);

impl Sums {
    fn add(&mut self, counts: [usize; 5]) {
        for (sum, count) in self.0.iter_mut().zip(counts) {
            *sum += count;
        }
    }

    fn check(&self) {
        let [own, copies, marked, handed, freed] = self.0;
        println!("own {own}, copies {copies}, marked {marked}, handed over {handed}");
        println!("freed by marking {freed}");
        assert!(self.0.iter().all(|sum| *sum > 100));
    }
}

#[test]
fn facts_of_calls_in_histories() {
    let mut sums = Sums::default();
    walk::histories(SEED ^ 1, 150, |seen| sums.add(facts_of_call(&seen)));
    walk::histories_of_marking(SEED ^ 4, 200, |seen| sums.add(facts_of_call(&seen)));
    sums.check();
}

#[test]
fn facts_of_calls_on_well_formed_stores() {
    let mut sums = Sums::default();
    walk::stores(SEED ^ 2, 800, |seen| sums.add(facts_of_call(&seen)));
    walk::written_stores(SEED ^ 3, 800, |seen| sums.add(facts_of_call(&seen)));
    walk::marked_stores(SEED ^ 5, 800, |seen| sums.add(facts_of_call(&seen)));
    sums.check();
}
