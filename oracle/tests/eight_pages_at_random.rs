//! Ask 5 of document 02 in random histories and random well-formed stores, with
//! writes of every kind and size of groups: what a write by groups has in common
//! with the narrow write on the same store, what it does besides, and that the
//! cases that matter are met, and how often. All of it runs with plain store and
//! tally beside.

use oracle::bench::{Bench, NoOther};
use oracle::call::*;
use oracle::gen::GROUP_SIZES;
use oracle::maps::block_range;
use oracle::rng::Rng;
use oracle::room::{self, Taken};
use oracle::state::*;
use oracle::store;
use oracle::writes::{ByKind, Written, CASES};
use std::collections::{BTreeMap, BTreeSet};

mod script;
use script::Store;
mod walk;
use walk::{others_of_groups, Seen};

const SEED: u64 = 50_000_005;

/// A store after a write, and the write's answer.
struct Done {
    answer: Answer,
    tables: Vec<u8>,
    state: State,
    pages: Vec<u8>,
}

/// The write of a call, done by groups of this size on the store that the call
/// found. It is judged by the room it takes.
fn done(seen: &Seen, write: &AnyWrite, group: usize) -> Done {
    let before = seen.before.packed();
    let (mut tables, mut pages) = (before.clone(), seen.pages_before.to_vec());
    let data = data_bytes(write.length, write.seed);
    let AnyWrite { set, file, offset, .. } = *write;
    let answer = store::write_groups(&mut tables, &mut pages, group, set, file, offset, &data);
    let write = AnyWrite { group, ..*write };
    let (before, after, pages_length) = (before.as_slice(), tables.as_slice(), pages.len());
    let judgement = room::judge(&Taken { write, answer, before, after, pages_length });
    assert_eq!(judgement.outcome(), Ok(()), "{write:?}");
    Done { answer, state: State::unpack(&tables), tables, pages }
}

/// A write done narrowly and by groups, on the same store.
struct Pair<'a> {
    before: &'a State,
    set: usize,
    file: usize,
    narrow: &'a Done,
    grouped: &'a Done,
    /// The other pages of the touched groups.
    others: Vec<usize>,
    name: String,
}

impl Pair<'_> {
    fn children(&self) -> Vec<usize> {
        self.before.children(self.set)
    }

    /// The places of entries that a write by groups may change besides those that
    /// the narrow write does: of a child that is left unmarked, at another page of
    /// a touched group, unmapped before.
    fn may_be_extra(&self, set: usize, file: usize, page: usize) -> bool {
        file == self.file
            && self.others.contains(&page)
            && self.children().contains(&set)
            && self.before.files[set][file].entries[page] == UNMAPPED
            && self.grouped.state.files[set][file].is_own_or_virgin()
    }
}

/// The own blocks and the files marked are those of the narrow write, and the
/// copies are as many or more.
fn counts(pair: &Pair) {
    let (narrow, grouped) = (pair.narrow.answer, pair.grouped.answer);
    assert_eq!(grouped.number, narrow.number, "{}", pair.name);
    assert_eq!(grouped.first, narrow.first, "{}", pair.name);
    assert_eq!(grouped.third, narrow.third, "{}", pair.name);
    assert!(grouped.second >= narrow.second, "{}", pair.name);
}

/// The bytes of all 64 pages of a file, none for a hole.
fn readable(done: &Done, set: usize, file: usize) -> Vec<Option<&[u8]>> {
    let state = &done.state;
    (0..PAGES)
        .map(|page| {
            let mut at = set;
            while state.files[at][file].entries[page] == UNMAPPED {
                at = state.sets[at].parent;
            }
            let entry = state.files[at][file].entries[page];
            (entry.kind == Kind::Stored).then(|| &done.pages[block_range(entry.block)])
        })
        .collect()
}

/// A reader of any file sees what he sees after the narrow write: states, sizes,
/// and all pages of the files that are not marked, also past the size.
fn readers(pair: &Pair) {
    let (narrow, grouped) = (&pair.narrow.state, &pair.grouped.state);
    assert_eq!(narrow.sets, grouped.sets, "{}", pair.name);
    for set in 0..SETS {
        for file in 0..FILES {
            let (old, new) = (&narrow.files[set][file], &grouped.files[set][file]);
            assert_eq!((old.state, old.size), (new.state, new.size), "{}", pair.name);
            if old.is_own_or_virgin() {
                let same = readable(pair.narrow, set, file) == readable(pair.grouped, set, file);
                assert!(same, "{}: set {set} file {file}", pair.name);
            }
        }
    }
}

/// The tables are those of the narrow write but for entries of children, which
/// change from unmapped only and at pages of touched groups only, and for the bits
/// of blocks that they name and next start. The pages differ in these blocks
/// alone.
fn besides(pair: &Pair) {
    let (narrow, grouped) = (pair.narrow, pair.grouped);
    let mut without = grouped.state.clone();
    let mut blocks = BTreeSet::new();
    for (set, file, page) in all_entries() {
        let entry = grouped.state.files[set][file].entries[page];
        if entry == narrow.state.files[set][file].entries[page] {
            continue;
        }
        assert!(pair.may_be_extra(set, file, page), "{}: {set} {file} {page}", pair.name);
        without.files[set][file].entries[page] = UNMAPPED;
        if entry.kind == Kind::Stored {
            without.bits[entry.block] = false;
            assert!(blocks.insert(entry.block), "{}", pair.name);
        }
    }
    assert_eq!(blocks.len() as u32, grouped.answer.second - narrow.answer.second, "{}", pair.name);
    if !blocks.is_empty() {
        without.next_start = narrow.state.next_start;
    }
    assert!(without == narrow.state, "{}", pair.name);
    for block in (0..without.block_count).filter(|block| !blocks.contains(block)) {
        let range = block_range(block);
        assert!(narrow.pages[range.clone()] == grouped.pages[range], "{}", pair.name);
    }
}

fn all_entries() -> impl Iterator<Item = (usize, usize, usize)> {
    (0..SETS * FILES * PAGES).map(|n| (n / (FILES * PAGES), n / PAGES % FILES, n % PAGES))
}

/// Where no child needs another page of a touched group, as in a set without
/// children or by groups of one page, the write is the narrow one, byte for byte.
fn without_need(pair: &Pair) -> bool {
    let needs = |child: usize, page: &usize| pair.before.needs(child, pair.file, *page);
    if pair.children().into_iter().any(|child| pair.others.iter().any(|p| needs(child, p))) {
        return false;
    }
    let (narrow, grouped) = (pair.narrow, pair.grouped);
    assert_eq!(grouped.answer, narrow.answer, "{}", pair.name);
    assert!(grouped.tables == narrow.tables && grouped.pages == narrow.pages, "{}", pair.name);
    true
}

/// "After a grouped write, if a block is free no live child needs a page of a
/// touched group".
fn free_blocks(pair: &Pair) {
    let state = &pair.grouped.state;
    for child in pair.children() {
        let needs = pair.others.iter().any(|page| state.needs(child, pair.file, *page));
        assert!(!(needs && state.free_blocks() > 0), "{}", pair.name);
    }
}

/// The first free block from next start, going round.
fn next_free(state: &State) -> Option<usize> {
    let round = (state.next_start..state.block_count).chain(0..state.next_start);
    round.into_iter().find(|block| !state.bits[*block])
}

/// The write by groups is the narrow one, and then the extra pages: ascending, for
/// each the children in order of making.
fn as_reckoned(pair: &Pair) {
    let mut state = pair.narrow.state.clone();
    let mut pages = pair.narrow.pages.clone();
    let mut copies = pair.narrow.answer.second;
    let sources = readable(pair.narrow, pair.set, pair.file);
    for &page in &pair.others {
        for child in pair.children() {
            let record = &state.files[child][pair.file];
            if !record.is_own_or_virgin() || record.entries[page] != UNMAPPED {
                continue;
            }
            let entry = match (sources[page], next_free(&state)) {
                (None, _) => HOLE,
                (Some(_), None) => UNMAPPED,
                (Some(bytes), Some(block)) => {
                    state.bits[block] = true;
                    state.next_start = (block + 1) % state.block_count;
                    pages[block_range(block)].copy_from_slice(bytes);
                    copies += 1;
                    stored(block)
                }
            };
            state.files[child][pair.file].entries[page] = entry;
        }
    }
    assert_eq!(copies, pair.grouped.answer.second, "{}", pair.name);
    assert!(state.packed() == pair.grouped.tables, "{}", pair.name);
    assert!(pages == pair.grouped.pages, "{}", pair.name);
}

/// How often each case was met.
#[derive(Default)]
struct Met {
    kinds: ByKind,
    /// Writes with an extra page that a child needed, by the size of groups; by
    /// groups of one page, writes of at least one byte.
    sizes: BTreeMap<usize, u64>,
    /// Pairs in which no child needs an extra page.
    without_need: u64,
    /// The sizes of groups of the list in hand.
    in_list: BTreeSet<usize>,
    /// Lists with three sizes or more.
    mixed_lists: u64,
}

impl Met {
    /// Does the write of a call by groups of several sizes; all that is said above
    /// must hold of each.
    fn see(&mut self, rng: &mut Rng, seen: &Seen) {
        if seen.first {
            self.in_list.clear();
        }
        let Some(write) = seen.call.as_write() else { return };
        self.count(seen, &write);
        let narrow = done(seen, &write, 1);
        let sizes = [write.group, rng.pick(&GROUP_SIZES), rng.between(1, PAGES)];
        for (place, group) in sizes.into_iter().enumerate() {
            let grouped = done(seen, &write, group);
            // The call itself is the first of them.
            if place == 0 {
                assert_eq!(grouped.answer, seen.answer, "{}", seen.call);
                assert!(grouped.state == *seen.after, "{}", seen.call);
                assert!(grouped.pages == seen.pages_after, "{}", seen.call);
            }
            self.compare(seen, &write, group, &narrow, &grouped);
        }
    }

    fn compare(
        &mut self,
        seen: &Seen,
        write: &AnyWrite,
        group: usize,
        narrow: &Done,
        grouped: &Done,
    ) {
        let first = write.offset as usize / PAGE_BYTES;
        let end = (write.offset as usize + write.length).div_ceil(PAGE_BYTES);
        let touched: Vec<usize> = if write.length == 0 { vec![] } else { (first..end).collect() };
        let pair = Pair {
            before: seen.before,
            set: write.set as usize,
            file: write.file as usize,
            narrow,
            grouped,
            others: others_of_groups(&touched, group),
            name: format!("{}, by groups of {group}", seen.call),
        };
        counts(&pair);
        readers(&pair);
        besides(&pair);
        free_blocks(&pair);
        as_reckoned(&pair);
        self.without_need += u64::from(without_need(&pair));
    }

    fn count(&mut self, seen: &Seen, write: &AnyWrite) {
        let is_new = self.in_list.insert(write.group);
        self.mixed_lists += u64::from(is_new && self.in_list.len() == 3);
        let written = Written::of(seen.call, &seen.answer, seen.before, seen.after);
        let cases = written.as_ref().map(|written| written.cases());
        self.kinds.entry(seen.call.index()).or_default().count(&cases);
        let counts = written.is_some_and(|w| w.group == 1 || !w.turns().is_empty());
        *self.sizes.entry(write.group).or_default() += u64::from(counts);
    }

    /// Each case is met at least so often by each kind that can meet it, and each
    /// size of groups too.
    fn check(&self, least: u64) {
        oracle::writes::show("plain store and tally", &self.kinds);
        println!("by size of groups: {:?}", self.sizes);
        println!("no extra page needed: {}", self.without_need);
        println!("lists with three sizes or more: {}", self.mixed_lists);
        let place = |name: &str| CALL_NAMES.iter().position(|other| *other == name).unwrap();
        let met = |name: &str, case: usize| self.kinds[&place(name)].met[case];
        for (case, name) in CASES.iter().enumerate().skip(1) {
            // Groups of eight never end short.
            let short = name.contains("short at page 63");
            assert!(met("write-groups", case) >= least, "write-groups, {name}");
            assert!(short || met("write", case) >= least, "write, {name}");
        }
        assert!(met("write-narrow", 0) >= least);
        for size in GROUP_SIZES {
            assert!(self.sizes[&size] >= least, "groups of {size}");
        }
        assert!(self.without_need >= least && self.mixed_lists >= least);
    }
}

#[test]
fn histories_keep_to_it_and_meet_every_case() {
    let (mut met, mut rng) = (Met::default(), Rng::new(SEED));
    walk::histories_of_groups(SEED, 500, |seen| met.see(&mut rng, &seen));
    walk::histories(SEED, 40, |seen| met.see(&mut rng, &seen));
    met.check(10);
}

#[test]
fn well_formed_stores_keep_to_it_and_meet_every_case() {
    let (mut met, mut rng) = (Met::default(), Rng::new(SEED ^ 1));
    walk::written_stores(SEED, 3_000, |seen| met.see(&mut rng, &seen));
    met.check(5);
}

/// The pages of 0 to 2 that these bits name, written in a set.
fn writes_of(set: usize, bits: usize) -> String {
    let pages = (0..3).filter(|page| bits >> page & 1 == 1);
    pages.map(|page| format!("; write-narrow {set} 0 {} 512 {}", page * 512, page + 1)).collect()
}

/// Every store with some of pages 0 to 2 written in set 0 and then in set 1, with
/// set 2 beside it or not, and 0 to 3 blocks free; every write of whole pages among
/// these by groups of 1, 2 and 3. Each agrees with plain store and tally.
#[test]
fn every_small_store() {
    for (above, below) in (0..64).map(|n| (n / 8, n % 8)) {
        for (second, free) in (0..8).map(|n| (["", "; make 0 2 0"][n / 4], n % 4)) {
            let blocks = (above as u32).count_ones() + (below as u32).count_ones() + free as u32;
            let script =
                ["create 0 0", &writes_of(0, above), "; make 0 1 1", second, &writes_of(1, below)];
            if blocks > 0 {
                every_write(&Store::after(blocks as usize, &script.concat()));
            }
        }
    }
}

fn every_write(made: &Store) {
    for group in 1..=3 {
        for (first, last) in [(0, 0), (0, 1), (0, 2), (1, 1), (1, 2), (2, 2)] {
            let length = (last + 1 - first) * PAGE_BYTES;
            let line = format!("write-groups {group} 0 0 {} {length} 9", first * PAGE_BYTES);
            let mut bench = Bench::with(made.0.tables().to_vec(), made.0.pages().to_vec());
            bench.beside = made.0.beside.clone();
            let outcome = bench.step(&Item::parse(&line).unwrap(), &mut NoOther);
            assert!(outcome.is_ok(), "{line}: {outcome:?}");
        }
    }
}
