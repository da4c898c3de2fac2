//! Ask 2 of document 02 in random histories and random well-formed stores: what
//! it promises of files that are left unmarked and of marking, and that the
//! cases that matter are met, and how often.

use oracle::call::*;
use oracle::maps::Resolved;
use oracle::state::*;
use oracle::store::read_bytes;
use oracle::turns::{Handed, Turn};
use std::collections::{BTreeMap, BTreeSet};

mod walk;
use walk::{Change, Seen};

const SEED: u64 = 20_000_002;

/// A truncate below the size or a delete, of a file that is not marked.
fn drops<'a>(seen: &'a Seen<'a>) -> Option<Change<'a>> {
    let change = Change::of(seen)?;
    let drops = matches!(seen.call, Call::Truncate { .. } | Call::Delete { .. });
    (drops && !change.touched.is_empty()).then_some(change)
}

/// Whether a child got a block of its own for the page, not handed over.
fn copied(change: &Change, child: usize, page: usize) -> bool {
    change.seen.before.needs(child, change.file, page)
        && change.entry_after(child, page).kind == Kind::Stored
        && !change.handed.iter().any(|handed| handed.heir == child && handed.page == page)
}

fn bytes(state: &State, pages: &[u8], set: usize, file: usize) -> Vec<u8> {
    let mut bytes = vec![0; state.size_by_reading(set, file)];
    read_bytes(state, pages, set, file, 0, &mut bytes);
    bytes
}

/// "Every file of another set that is left unmarked reads as before the call".
fn others_read_as_before(seen: &Seen, changed: usize) {
    for set in (0..SETS).filter(|set| *set != changed) {
        for file in 0..FILES {
            let (before, after) = (&seen.before.files[set][file], &seen.after.files[set][file]);
            assert_eq!(before.is_present(), after.is_present(), "{}", seen.call);
            if after.is_own_or_virgin() {
                assert!(before.is_own_or_virgin(), "{}", seen.call);
                let old = bytes(seen.before, seen.pages_before, set, file);
                let new = bytes(seen.after, seen.pages_after, set, file);
                assert!(old == new, "{}: set {set} file {file}", seen.call);
            }
        }
    }
}

/// "marking still needs a copy with no block free", which "is judged at each copy's turn":
/// at that turn own blocks and copies have taken all that were free, with those that
/// earlier markings freed. A file is marked either because the file that it reads through
/// is, or because it lacks a page that was not to be had without a copy.
fn marking_needs_a_copy_with_no_block_free(change: &Change) {
    let (seen, file) = (change.seen, change.file);
    let turns = change.turns.as_ref().expect("a call that drops pages has turns");
    let newly: Vec<usize> = (0..SETS).filter(|set| change.marks(*set)).collect();
    assert_eq!(newly.len(), seen.answer.third as usize);
    let mut free = seen.before.free_blocks();
    for turn in &turns.list {
        match turn {
            Turn::Own { .. } | Turn::Copied(_) => free -= 1,
            Turn::Marked { page, child, set, blocks } => {
                assert!(newly.contains(set), "{}", seen.call);
                if set == child {
                    assert_eq!(free, 0, "{}", seen.call);
                    let resolved = seen.before.resolve(change.set, file, *page);
                    assert!(resolved != Resolved::Hole, "{}", seen.call);
                    assert!(seen.before.needs(*child, file, *page), "{}", seen.call);
                    assert!(needs_a_copy(change, *child, *page), "{}: set {set}", seen.call);
                } else {
                    assert!(change.marks(seen.before.sets[*set].parent), "{}", seen.call);
                    assert!(seen.before.files[*set][file].has_unmapped(), "{}", seen.call);
                }
                free += blocks.len();
            }
            _ => {}
        }
    }
}

/// Whether a page can come to a child by a copy alone: it is not one that the
/// call hands over, or a sibling before this child has it.
fn needs_a_copy(change: &Change, child: usize, page: usize) -> bool {
    let in_own_map = change.seen.before.is_stored(change.set, change.file, page);
    let order = change.children();
    let place = |set: usize| order.iter().position(|child| *child == set);
    let heir = change.handed.iter().find(|handed| handed.page == page);
    !change.whole.contains(&page)
        || !in_own_map
        || heir.is_some_and(|handed| place(handed.heir) < place(child))
}

/// The promise, for one call.
fn promise(seen: &Seen) {
    let (Call::Truncate { set, .. } | Call::Delete { set, .. }) = *seen.call else { return };
    others_read_as_before(seen, set as usize);
    if let Some(change) = drops(seen) {
        marking_needs_a_copy_with_no_block_free(&change);
    }
}

/// How often each case was met.
#[derive(Default)]
struct Met {
    cases: BTreeMap<&'static str, usize>,
    by_children: [usize; SETS],
    /// Blocks handed over that the heir still has, with its set and file.
    taken_over: BTreeMap<usize, (usize, usize)>,
}

impl Met {
    fn count(&mut self, case: &'static str, met: bool) {
        *self.cases.entry(case).or_default() += usize::from(met);
    }

    fn see(&mut self, seen: &Seen) {
        if seen.first {
            self.taken_over.clear();
        }
        if let Some(change) = drops(seen) {
            self.see_drop(&change);
        }
        self.see_heirs(seen);
    }

    fn see_drop(&mut self, change: &Change) {
        let (before, handed) = (change.seen.before, &change.handed);
        let delete = matches!(change.seen.call, Call::Delete { .. });
        let hands = !handed.is_empty();
        self.count("calls that drop pages", true);
        self.count("deletes that hand over", hands && delete);
        self.count("truncates that hand over", hands && !delete);
        if !hands {
            return;
        }
        let free = before.free_blocks();
        *self.cases.entry("blocks handed over").or_default() += handed.len();
        self.by_children[change.children().len()] += 1;
        self.count("with no block free", free == 0);
        self.count("with 1 to 3 blocks free", (1..=3).contains(&free));
        self.count("in the middle of the tree", change.set != 0);
        self.count("a file is marked too", change.seen.answer.third > 0);
        self.count("a copy is made too", change.seen.answer.second > 0);
        self.count("the part page is touched too", change.whole.len() < change.touched.len());
        self.see_heirs_of(change);
        self.see_others_of(change);
        if let Call::Truncate { .. } = change.seen.call {
            let size = before.size_by_reading(change.set, change.file);
            let inside = size % PAGE_BYTES != 0;
            let last = handed.iter().any(|handed| handed.page == size / PAGE_BYTES);
            self.count("the old last page is handed over, the size inside it", inside && last);
        }
    }

    fn see_heirs_of(&mut self, change: &Change) {
        let (before, file) = (change.seen.before, change.file);
        let any = |holds: &dyn Fn(&Handed) -> bool| change.handed.iter().any(holds);
        let read_only = any(&|handed| !before.sets[handed.heir].writeable);
        let virgin = any(&|h| before.files[h.heir][file].state == FileState::Virgin);
        let dependents =
            any(&|h| before.children(h.heir).iter().any(|set| before.needs(*set, file, h.page)));
        let passed_over = any(&|handed| {
            let needing = |child: &usize| before.needs(*child, file, handed.page);
            change.children().into_iter().find(needing) != Some(handed.heir)
        });
        let heirs: BTreeSet<usize> = change.handed.iter().map(|handed| handed.heir).collect();
        self.count("an heir is read-only", read_only);
        self.count("an heir was virgin", virgin);
        self.count("an heir has children that read through it", dependents);
        self.count("a child marked earlier in the call is passed over", passed_over);
        self.count("an heir is marked later in the call", any(&|h| change.marks(h.heir)));
        self.count("two heirs in one call", heirs.len() > 1);
    }

    fn see_others_of(&mut self, change: &Change) {
        let children = change.children();
        let copied = |page: usize| children.iter().any(|child| copied(change, *child, page));
        let lacks = |page: usize| {
            let needed = |child: &&usize| change.seen.before.needs(**child, change.file, page);
            let lacks = |child: &usize| change.entry_after(*child, page) == UNMAPPED;
            children.iter().filter(needed).any(lacks)
        };
        let through =
            |page: &&usize| !change.seen.before.is_stored(change.set, change.file, **page);
        let another = change.handed.iter().any(|handed| copied(handed.page));
        let marked = change.handed.iter().any(|handed| lacks(handed.page));
        self.count("another child gets a copy of the page", another);
        self.count("another child is marked without the page", marked);
        let read_through = change.touched.iter().filter(through).any(|page| copied(*page));
        self.count("a page read through the parent is copied too", read_through);
    }

    /// What becomes later of blocks handed over.
    fn see_heirs(&mut self, seen: &Seen) {
        let delete = matches!(seen.call, Call::Delete { .. });
        let freed = self.taken_over.keys().any(|block| !seen.after.bits[*block]);
        self.count("an heir's delete frees blocks handed over", freed && delete);
        self.count("an heir's truncate or removal frees blocks handed over", freed && !delete);
        if let Some(change) = Change::of(seen) {
            let again = |handed: &Handed| self.taken_over.contains_key(&handed.block);
            let on = change.handed.iter().any(again);
            self.count("an heir hands blocks on", on);
            let places = change.handed.iter().map(|h| (h.block, (h.heir, change.file)));
            self.taken_over.extend(places);
        }
        self.taken_over.retain(|block, (set, file)| {
            seen.after.files[*set][*file].entries.contains(&stored(*block))
        });
    }

    fn show(&self) {
        for (case, count) in &self.cases {
            println!("{case}: {count}");
        }
        println!("calls that hand over by number of children: {:?}", &self.by_children[1..]);
    }

    /// Each case is met at least so often, and each number of children too.
    fn check(&self, least: usize) {
        self.show();
        for (case, count) in &self.cases {
            assert!(*count >= least, "{case}: {count}");
        }
        assert!(self.by_children[1..].iter().all(|count| *count >= least));
    }
}

#[test]
fn histories_keep_the_promise_and_meet_every_case() {
    let mut met = Met::default();
    walk::histories(SEED, 450, |seen| {
        promise(&seen);
        met.see(&seen);
    });
    met.check(5);
}

#[test]
fn well_formed_stores_keep_the_promise_and_meet_every_case() {
    let mut met = Met::default();
    walk::stores(SEED, 2_500, |seen| {
        promise(&seen);
        met.see(&seen);
    });
    met.check(5);
}
