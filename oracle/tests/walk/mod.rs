//! Random histories and random well-formed stores, shown call by call. All of
//! it is done with plain store and tally beside.

// Not every test uses all of it.
#![allow(dead_code)]

use oracle::agree::read_off;
use oracle::bench::{Bench, NoOther};
use oracle::call::*;
use oracle::gen::{self, Made, Start, Style};
use oracle::judge::Beside;
use oracle::rng::Rng;
use oracle::state::*;
use oracle::turns::{Handed, Turns};
use std::collections::BTreeSet;

/// An accepted call that can change the store, with the store before and after
/// it.
pub struct Seen<'a> {
    pub call: &'a Call,
    pub answer: Answer,
    pub before: &'a State,
    pub pages_before: &'a [u8],
    pub after: &'a State,
    pub pages_after: &'a [u8],
    /// Whether this is the first call shown of its store.
    pub first: bool,
}

/// An accepted read, with the store that it reads.
pub struct SeenRead<'a> {
    pub call: &'a Call,
    pub answer: Answer,
    pub state: &'a State,
}

enum Shown<'a> {
    Change(Seen<'a>),
    Read(SeenRead<'a>),
}

fn changes(mut see: impl FnMut(Seen)) -> impl FnMut(Shown) {
    move |shown: Shown| {
        if let Shown::Change(seen) = shown {
            see(seen);
        }
    }
}

fn reads(mut see: impl FnMut(SeenRead)) -> impl FnMut(Shown) {
    move |shown: Shown| {
        if let Shown::Read(read) = shown {
            see(read);
        }
    }
}

/// A write, truncate or delete.
pub struct Change<'a> {
    pub seen: &'a Seen<'a>,
    pub set: usize,
    pub file: usize,
    /// Touched pages. There are none if nothing is written or cut, or if a
    /// marked file is deleted.
    pub touched: Vec<usize>,
    /// Those of them that the call drops whole.
    pub whole: Vec<usize>,
    /// The other pages of the groups that a write touches.
    pub extra: Vec<usize>,
    /// The turns of the call; none if it has none.
    pub turns: Option<Turns>,
    /// The blocks handed over, those that marking freed since among them.
    pub handed: Vec<Handed>,
    /// The blocks that marking freed, each as often as it was freed.
    pub freed: Vec<usize>,
}

impl<'a> Change<'a> {
    pub fn of(seen: &'a Seen<'a>) -> Option<Change<'a>> {
        let write = seen.call.as_write();
        let (set, file) = match (write, seen.call) {
            (Some(write), _) => (write.set as usize, write.file as usize),
            (_, Call::Truncate { set, file, .. } | Call::Delete { set, file }) => {
                (*set as usize, *file as usize)
            }
            _ => return None,
        };
        let old_size = match seen.before.files[set][file].state {
            FileState::Marked => 0,
            _ => seen.before.size_by_reading(set, file),
        };
        let (touched, first_whole) = match (write, seen.call) {
            (Some(write), _) if write.length == 0 => (0..0, 0),
            (Some(write), _) => {
                let first = write.offset as usize / PAGE_BYTES;
                (first..(write.offset as usize + write.length).div_ceil(PAGE_BYTES), PAGES)
            }
            (_, Call::Truncate { size, .. }) if *size as usize >= old_size => (0..0, 0),
            (_, Call::Truncate { size, .. }) => {
                let first = *size as usize / PAGE_BYTES;
                (first..old_size.div_ceil(PAGE_BYTES), (*size as usize).div_ceil(PAGE_BYTES))
            }
            _ if seen.before.files[set][file].state == FileState::Marked => (0..0, 0),
            _ => (0..PAGES, 0),
        };
        let turns = Turns::of(seen.call, seen.before);
        let handed = turns.as_ref().map_or(Vec::new(), Turns::handed_over);
        let freed = turns.as_ref().map_or(Vec::new(), Turns::freed);
        let whole = touched.clone().filter(|page| *page >= first_whole).collect();
        let touched: Vec<usize> = touched.collect();
        // Only writes go by groups.
        let extra = write.map_or(Vec::new(), |write| others_of_groups(&touched, write.group));
        Some(Change { seen, set, file, touched, whole, extra, turns, handed, freed })
    }

    pub fn children(&self) -> Vec<usize> {
        self.seen.before.children(self.set)
    }

    /// Whether the file of a set became marked by the call.
    pub fn marks(&self, set: usize) -> bool {
        let state = |state: &State| state.files[set][self.file].state;
        state(self.seen.before) != FileState::Marked && state(self.seen.after) == FileState::Marked
    }

    pub fn entry_after(&self, child: usize, page: usize) -> Entry {
        self.seen.after.files[child][self.file].entries[page]
    }
}

/// No free block has a name in any map, and no used one is without: a bit is 1 exactly if
/// one entry names the block, whatever the file's state. Marked files hold nothing.
pub fn bits_are_names(state: &State) {
    let mut names = vec![0; MOST_BLOCKS];
    for record in state.files.iter().flatten() {
        assert!(record.state != FileState::Marked || *record == MARKED_FILE);
        for entry in record.entries.iter().filter(|entry| entry.kind == Kind::Stored) {
            names[entry.block] += 1;
        }
    }
    for (block, bit) in state.bits.iter().enumerate() {
        assert_eq!(names[block], usize::from(*bit), "block {block}");
    }
}

/// The pages that are in a group with one of these, and are not among them.
pub fn others_of_groups(touched: &[usize], group: usize) -> Vec<usize> {
    let groups: BTreeSet<usize> = touched.iter().map(|page| page / group).collect();
    let mut others: BTreeSet<usize> =
        (0..PAGES).filter(|page| groups.contains(&(page / group))).collect();
    others.retain(|page| !touched.contains(page));
    others.into_iter().collect()
}

/// A store, and what has been shown of it.
struct Walk {
    bench: Bench,
    first: bool,
}

impl Walk {
    fn new(bench: Bench) -> Walk {
        Walk { bench, first: true }
    }

    fn step(&mut self, call: &Call, see: &mut dyn FnMut(Shown)) {
        let (before, pages_before) = self.store();
        let answer = self.bench.call(call, &mut NoOther);
        let answer = answer.unwrap_or_else(|text| panic!("{call}: {text}"));
        if answer.number != 0 {
            return;
        }
        if let Call::Read { .. } = call {
            see(Shown::Read(SeenRead { call, answer, state: &before }));
        }
        if !call.changes() || matches!(call, Call::Format { .. }) {
            return;
        }
        let (after, pages_after) = self.store();
        see(Shown::Change(Seen {
            call,
            answer,
            before: &before,
            pages_before: &pages_before,
            after: &after,
            pages_after: &pages_after,
            first: self.first,
        }));
        self.first = false;
    }

    /// Plain store and tally as they are read off the store now.
    fn read_off(&mut self) -> &Beside {
        let (state, pages) = self.store();
        self.bench.beside.insert(read_off(&state, &pages))
    }

    fn store(&self) -> (State, Vec<u8>) {
        (State::unpack(self.bench.tables()), self.bench.pages().to_vec())
    }
}

/// Shows the calls of random histories from format on.
pub fn histories(seed: u64, rounds: usize, see: impl FnMut(Seen)) {
    show_histories(seed, rounds, &mut changes(see));
}

/// Shows the reads of random histories from format on.
pub fn reads_of_histories(seed: u64, rounds: usize, see: impl FnMut(SeenRead)) {
    show_histories(seed, rounds, &mut reads(see));
}

/// Shows the calls of random histories that begin with a family for writes by
/// groups; fewer calls than in others follow.
pub fn histories_of_groups(seed: u64, rounds: usize, see: impl FnMut(Seen)) {
    show_short_histories(seed, rounds, gen::group_start, &mut changes(see));
}

/// The same with a family for marking.
pub fn histories_of_marking(seed: u64, rounds: usize, see: impl FnMut(Seen)) {
    show_short_histories(seed, rounds, gen::marking_start, &mut changes(see));
}

fn show_short_histories(seed: u64, rounds: usize, begin: Begin, see: &mut dyn FnMut(Shown)) {
    println!("seed {seed}");
    let mut rng = Rng::new(seed);
    for round in 0..rounds {
        let block_count = if round % 5 == 0 { 64 } else { rng.between(3, 16) };
        let start = begin(&mut rng, block_count);
        show_history(&mut rng, start, 20, see);
    }
}

fn show_histories(seed: u64, rounds: usize, see: &mut dyn FnMut(Shown)) {
    println!("seed {seed}");
    let mut rng = Rng::new(seed);
    for round in 0..rounds {
        let block_count = if round % 10 == 0 { 64 } else { rng.between(1, 12) };
        let start = gen::start(&mut rng, block_count);
        show_history(&mut rng, start, 80, see);
    }
}

/// The calls that begin a history, and so many random ones.
fn show_history(rng: &mut Rng, mut start: Start, length: usize, see: &mut dyn FnMut(Shown)) {
    start.style.weights[0] = 0;
    let mut walk = Walk::new(Bench::with(vec![0; TABLES_BYTES], Vec::new()));
    for call in start.calls.into_iter().chain(start.then) {
        match call {
            Call::Format { .. } => drop(walk.bench.call(&call, &mut NoOther).unwrap()),
            _ => walk.step(&call, see),
        }
    }
    for _ in 0..length {
        let beside = walk.bench.beside.as_ref().expect("a history begins with format");
        let call = gen::call(rng, &start.style, beside);
        walk.step(&call, see);
    }
}

/// Shows calls on random well-formed stores, whether or not calls could bring
/// them there. Plain store and tally are read off before each call. Most calls
/// are truncates and deletes.
pub fn stores(seed: u64, rounds: usize, see: impl FnMut(Seen)) {
    show_stores(seed, rounds, gen::start, &["truncate", "delete"], see);
}

/// The same with stores of families for writes by groups; most calls are writes.
pub fn written_stores(seed: u64, rounds: usize, see: impl FnMut(Seen)) {
    let most = ["write", "write-narrow", "write-groups"];
    show_stores(seed, rounds, gen::group_start, &most, see);
}

/// The same with stores of families for marking; most calls write or drop pages.
pub fn marked_stores(seed: u64, rounds: usize, see: impl FnMut(Seen)) {
    let most = ["write", "write-narrow", "write-groups", "truncate", "delete"];
    show_stores(seed, rounds, gen::marking_start, &most, see);
}

/// How a store of this many blocks begins.
type Begin = fn(&mut Rng, usize) -> Start;

fn show_stores(seed: u64, rounds: usize, begin: Begin, most: &[&str], see: impl FnMut(Seen)) {
    let mut see = changes(see);
    let place = |name: &&str| CALL_NAMES.iter().position(|other| other == name).unwrap();
    let most: Vec<usize> = most.iter().map(place).collect();
    each_store(seed, rounds, begin, |rng, style, mut walk| {
        for _ in 0..5 {
            let beside = walk.read_off();
            let call = match rng.below(6) {
                0..=3 => {
                    let index = rng.pick(&most);
                    gen::call_of(rng, style, beside, index)
                }
                _ => gen::call(rng, style, beside),
            };
            if !grows_over_a_gap(&walk.store().0, &call) {
                walk.step(&call, &mut see);
            }
        }
    });
}

/// Shows reads of such stores.
pub fn reads_of_stores(seed: u64, rounds: usize, see: impl FnMut(SeenRead)) {
    let mut see = reads(see);
    each_store(seed, rounds, gen::start, |rng, style, mut walk| {
        let beside = walk.read_off().clone();
        for _ in 0..8 {
            let call = gen::call_of(rng, style, &beside, 3);
            walk.step(&call, &mut see);
        }
    });
}

/// Random well-formed stores, with the style of the calls that made them.
fn each_store(
    seed: u64,
    rounds: usize,
    begin: Begin,
    mut use_it: impl FnMut(&mut Rng, &Style, Walk),
) {
    println!("seed {seed}");
    let mut rng = Rng::new(seed);
    let mut pool: Vec<Made> = Vec::new();
    for round in 0..rounds {
        if round % 4 == 0 {
            let block_count = match rng.below(10) {
                0 => rng.between(1, 2),
                9 => 64,
                _ => rng.between(3, 12),
            };
            let length = gen::made_length(&mut rng);
            let start = begin(&mut rng, block_count);
            pool.push(gen::made_from(&mut rng, start, length));
        }
        let made = rng.pick(&pool);
        let (mut tables, mut pages) = (made.tables, made.pages);
        gen::twist(&mut rng, &mut tables, &mut pages);
        use_it(&mut rng, &made.style, Walk::new(Bench::with(tables, pages)));
    }
}

/// A truncate above the size, or a write that starts past it: it shows bytes
/// past the size, which a well-formed store may hold.
pub fn grows_over_a_gap(state: &State, call: &Call) -> bool {
    let size = |set: u32, file: u32| {
        let there = set < 8 && file < 16 && state.files[set as usize][file as usize].is_present();
        there.then(|| state.size_by_reading(set as usize, file as usize))
    };
    let (set, file, place) = match (call.as_write(), call) {
        (Some(write), _) => (write.set, write.file, write.offset),
        (_, Call::Truncate { set, file, size }) => (*set, *file, *size),
        _ => return false,
    };
    size(set, file).is_some_and(|size| place as usize > size)
}
