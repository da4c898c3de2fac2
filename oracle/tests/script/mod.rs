//! A store that is worked on by scripts, with plain store and tally beside.

// Not every test uses all of it.
#![allow(dead_code)]

use oracle::bench::{replay, Bench, NoOther, Other};
use oracle::call::*;
use oracle::check::is_well_formed;
use oracle::lent::Lending;
use oracle::maps::block_range;
use oracle::state::*;
use oracle::store;

/// A line of a script, the numbers that its call is told, and the buffers it is lent.
pub type Named = (&'static str, &'static [u32], &'static [(Buffer, Lending)]);

/// The call of such a line, which stands at a place of the names.
pub fn call_at(place: usize, (line, numbers, lent): Named) -> Call {
    let Item::Call(call) = Item::parse(line).unwrap() else { unreachable!() };
    assert_eq!((call.index(), call.to_string().as_str()), (place, line));
    assert_eq!(CALL_NAMES[place], line.split(' ').next().unwrap());
    assert_eq!(&call.numbers()[..numbers.len()], numbers);
    let found: Vec<_> = call.row().lent().map(|b| (b, call.row().lends(b))).collect();
    assert_eq!(found, lent, "{line}");
    call
}

pub struct Store(pub Bench);

impl Store {
    /// A store after a script, whose calls are all accepted.
    pub fn after(blocks: usize, script: &str) -> Store {
        let mut store = Store(Bench::new());
        store.accepts(&format!("format {}; {script}", blocks * PAGE_BYTES));
        store
    }

    pub fn accepts(&mut self, script: &str) {
        for item in Item::parse_script(script).unwrap() {
            assert_eq!(self.step(&item).unwrap().number, 0, "{item} is accepted");
        }
    }

    /// The answer of one call, which leaves well-formed tables well formed; of a
    /// change of the buffers, nothing.
    pub fn does(&mut self, line: &str) -> String {
        let item = Item::parse(line).unwrap();
        let formed = self.is_formed();
        let Some(answer) = self.step(&item) else { return String::new() };
        assert!(!formed || self.is_formed(), "{item} leaves the tables well formed");
        answer.to_string()
    }

    fn step(&mut self, item: &Item) -> Option<Answer> {
        self.0.step(item, &mut NoOther).unwrap_or_else(|text| panic!("{item}: {text}"))
    }

    fn is_formed(&self) -> bool {
        is_well_formed(self.0.tables(), self.0.pages().len())
    }

    pub fn state(&self) -> State {
        State::unpack(self.0.tables())
    }

    /// The record of file 0.
    pub fn file(&self, set: usize) -> FileRecord {
        self.state().files[set][0].clone()
    }

    /// The file's own map, a run as its first page and what it is: `0:3` for
    /// pages from 0 on in blocks from 3 on, `2:hole`, `5:unmapped`.
    pub fn map(&self, set: usize) -> String {
        let entries = self.file(set).entries;
        let mut runs = Vec::new();
        for (page, entry) in entries.iter().enumerate() {
            let before = page.checked_sub(1).map(|before| entries[before]);
            match (entry.kind, before) {
                (Kind::Stored, Some(b)) if b == stored(entry.block.wrapping_sub(1)) => {}
                (Kind::Stored, _) => runs.push(format!("{page}:{}", entry.block)),
                (_, Some(b)) if b == *entry => {}
                (Kind::Hole, _) => runs.push(format!("{page}:hole")),
                _ => runs.push(format!("{page}:unmapped")),
            }
        }
        runs.join(" ")
    }

    /// Whether the file is marked. If it is, it has size 0 and all entries unmapped.
    pub fn is_marked(&self, set: usize) -> bool {
        let file = self.file(set);
        assert!(file.state != FileState::Marked || file == MARKED_FILE, "set {set}: {file:?}");
        file.state == FileState::Marked
    }

    /// All bytes by reading.
    pub fn reads(&self, set: u32) -> Vec<u8> {
        let mut bytes = vec![0; LARGEST_SIZE];
        let answer = store::read(self.0.tables(), self.0.pages(), set, 0, 0, &mut bytes);
        assert_eq!(answer.number, 0, "the file of set {set} can be read");
        let size = store::size(self.0.tables(), self.0.pages(), set, 0);
        assert_eq!(size, Answer::accepted([answer.first, 0, 0]));
        bytes.truncate(answer.first as usize);
        bytes
    }

    pub fn free(&self) -> u32 {
        store::free(self.0.tables(), self.0.pages()).first
    }
}

// Other implementations.

/// How a library does a call.
pub type Run = fn(usize, &Numbers, Lent) -> Answer;

/// A library that has some of the calls, and does them in a way of its own.
pub struct Wrong {
    pub calls: &'static [&'static str],
    pub run: Run,
}

impl Other for Wrong {
    fn has(&self, index: usize) -> bool {
        self.calls.contains(&CALL_NAMES[index])
    }

    fn run(&mut self, index: usize, numbers: &Numbers, lent: Lent) -> Answer {
        (self.run)(index, numbers, lent)
    }
}

/// Does the call rightly.
pub fn right(index: usize, n: &Numbers, lent: Lent) -> Answer {
    store::run(index, n, lent)
}

/// A compaction done in place, by exchanges through the spare page. Each stored entry in
/// turn gets the next block: its page changes places with the one there, if a later entry
/// names that block, and else is copied. So it leaves other bytes free than the oracle.
pub fn compact_in_place(mut lent: Lent) -> Answer {
    let is_formed = is_well_formed(lent.tables, lent.pages.len());
    if !is_formed || lent.spare.len() != PAGE_BYTES {
        return Answer::refused(if is_formed { 16 } else { 1 });
    }
    let mut state = State::unpack(lent.tables);
    let stored_places: Vec<Place> = stored_places(&state);
    for (block, place) in stored_places.iter().enumerate() {
        let old = state.files[place.0][place.1].entries[place.2].block;
        let later = stored_places[block..].iter().find(|(set, file, page)| {
            old != block && state.files[*set][*file].entries[*page].block == block
        });
        match later {
            None => lent.pages.copy_within(block_range(old), block * PAGE_BYTES),
            Some((set, file, page)) => {
                exchange(&mut lent, old, block);
                state.files[*set][*file].entries[*page].block = old;
            }
        }
        state.files[place.0][place.1].entries[place.2].block = block;
    }
    let used = stored_places.len();
    (0..MOST_BLOCKS).for_each(|block| state.bits[block] = block < used);
    state.next_start = used % state.block_count;
    state.pack(lent.tables);
    Answer::default()
}

fn exchange(lent: &mut Lent, one: usize, other: usize) {
    lent.spare.copy_from_slice(&lent.pages[block_range(one)]);
    lent.pages.copy_within(block_range(other), one * PAGE_BYTES);
    lent.pages[block_range(other)].copy_from_slice(lent.spare);
}

/// A set, a file and a page.
pub type Place = (usize, usize, usize);

/// The places of all stored entries, by set, then file, then page.
pub fn stored_places(state: &State) -> Vec<Place> {
    let all = (0..SETS * FILES * PAGES).map(|n| (n / PAGES / FILES, n / PAGES % FILES, n % PAGES));
    let is_stored =
        |(set, file, page): &Place| state.files[*set][*file].entries[*page].kind == Kind::Stored;
    all.filter(is_stored).collect()
}

/// The first difference that a line of the script shows, if there is one.
pub fn difference(script: &str, other: &mut dyn Other) -> Option<String> {
    replay(&Item::parse_script(script).unwrap(), other).map(|(_, text)| text)
}

/// The bytes of pages, each written whole with a seed of its own (0: zeros).
pub fn pages(seeds: &[u32]) -> Vec<u8> {
    seeds.iter().flat_map(|seed| data_bytes(PAGE_BYTES, *seed)).collect()
}
