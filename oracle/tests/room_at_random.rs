//! Ask 7 of document 02, with the blocks that marking frees (Ask 10), in random stores,
//! crowded and small, with writes of every size of groups: what each write finds and takes is reckoned once more, the judge must
//! agree, and the cases that matter are met. Claims that one could believe and that
//! are false: an example against each is found at random. All of it runs with plain
//! store and tally beside.
//!
//! In the comments k is the number of touched pages, p that of the pages of the
//! touched groups, c that of the set's children.

use oracle::bench::{Bench, Counts, NoOther};
use oracle::call::*;
use oracle::gen::{self, Start};
use oracle::history::{short_history, Short};
use oracle::maps::Resolved;
use oracle::rng::Rng;
use oracle::room::{self, Judged, Judgement, Room, Taken, CASES};
use oracle::state::*;
use oracle::turns::Turns;
use std::collections::{BTreeMap, BTreeSet, VecDeque};

mod walk;
use walk::{others_of_groups, Seen};

const SEED: u64 = 70_000_007;

/// A write that was done, with the tables before and after it.
#[derive(Clone)]
struct Done {
    /// The calls that made the store, as far as they are known.
    calls: Vec<Call>,
    write: AnyWrite,
    answer: Answer,
    before: Vec<u8>,
    after: Vec<u8>,
    pages_length: usize,
}

/// The write as a call of its kind.
fn call_of(write: &AnyWrite) -> Call {
    let AnyWrite { group, set, file, offset, length, seed } = *write;
    match group {
        1 => Call::WriteNarrow { set, file, offset, length, seed },
        8 => Call::Write { set, file, offset, length, seed },
        _ => {
            let group = Group::new(group).expect("1 to 64 pages");
            Call::WriteGroups { group, set, file, offset, length, seed }
        }
    }
}

impl Done {
    /// Does a write on a copy of a store.
    fn on(bench: &Bench, calls: &[Call], write: &AnyWrite) -> Done {
        let mut copy = Bench::with(bench.tables().to_vec(), bench.pages().to_vec());
        copy.beside = bench.beside.clone();
        let call = call_of(write);
        let answer = copy.call(&call, &mut NoOther);
        Done {
            calls: calls.to_vec(),
            write: *write,
            answer: answer.unwrap_or_else(|text| panic!("{call}: {text}")),
            before: bench.tables().to_vec(),
            after: copy.tables().to_vec(),
            pages_length: bench.pages().len(),
        }
    }

    /// A write that was shown, if the call is one.
    fn seen(seen: &Seen) -> Option<Done> {
        Some(Done {
            calls: Vec::new(),
            write: seen.call.as_write()?,
            answer: seen.answer,
            before: seen.before.packed(),
            after: seen.after.packed(),
            pages_length: seen.pages_before.len(),
        })
    }

    /// A write after these calls, on a store of its own.
    fn after(calls: &[Call], write: &AnyWrite) -> Done {
        let mut bench = Bench::new();
        for call in calls {
            step(&mut bench, call);
        }
        Done::on(&bench, calls, write)
    }

    fn judgement(&self) -> Judgement {
        room::judge(&Taken {
            write: self.write,
            answer: self.answer,
            before: &self.before,
            after: &self.after,
            pages_length: self.pages_length,
        })
    }

    /// The first and the second count together.
    fn total(&self) -> usize {
        (self.answer.first + self.answer.second) as usize
    }

    fn is_narrow(&self) -> bool {
        self.write.group == 1
    }

    /// The calls and the write, as a script has them.
    fn script(&self) -> String {
        let write = call_of(&self.write);
        let calls = self.calls.iter().chain([&write]).map(Call::to_string);
        calls.collect::<Vec<String>>().join("; ")
    }
}

fn step(bench: &mut Bench, call: &Call) {
    bench.call(call, &mut NoOther).unwrap_or_else(|text| panic!("{call}: {text}"));
}

/// Random crowded stores and small ones. Shows writes of each, with the calls' own
/// groups, narrowly, by eights and by groups of another size, each on a copy of the
/// store, until `see` gives false.
fn each_write(seed: u64, rounds: usize, mut see: impl FnMut(Done) -> bool) {
    println!("seed {seed}");
    let mut rng = Rng::new(seed);
    for round in 0..rounds {
        let start = begin(&mut rng, round);
        let (mut bench, mut calls) = (Bench::new(), start.calls);
        calls.iter().for_each(|call| step(&mut bench, call));
        let mut coming = VecDeque::from(start.then);
        for _ in 0..coming.len() + 4 {
            let beside = bench.beside.as_ref().expect("a store begins with format");
            let next = coming.pop_front();
            let call = next.unwrap_or_else(|| gen::call(&mut rng, &start.style, beside));
            if let Some(write) = call.as_write() {
                for group in [write.group, 1, 8, rng.between(1, PAGES)] {
                    if !see(Done::on(&bench, &calls, &AnyWrite { group, ..write })) {
                        return;
                    }
                }
            }
            step(&mut bench, &call);
            calls.push(call);
        }
    }
}

/// How a store begins; no format follows.
fn begin(rng: &mut Rng, round: usize) -> Start {
    let small = rng.between(1, 24);
    let mut start = match round % 5 {
        0 | 1 => gen::room_start(rng, 64),
        2 => gen::room_start(rng, small),
        3 => gen::group_start(rng, small.max(3)),
        _ => gen::marking_start(rng, small.max(4)),
    };
    start.style.weights[0] = 0;
    start
}

/// What a write finds, reckoned from the state: the touched pages and the other pages of
/// their groups, and the children.
struct Found {
    state: State,
    touched: Vec<usize>,
    others: Vec<usize>,
    children: Vec<usize>,
}

impl Found {
    fn of(done: &Done) -> Found {
        let AnyWrite { group, set, offset, length, .. } = done.write;
        let (start, end) = (offset as usize, offset as usize + length);
        let holds_a_byte = |page: &usize| start.max(page * 512) < end.min((page + 1) * 512);
        let touched: Vec<usize> = (0..PAGES).filter(holds_a_byte).collect();
        let state = State::unpack(&done.before);
        Found {
            others: others_of_groups(&touched, group),
            touched,
            children: state.children(set as usize),
            state,
        }
    }

    /// The pairs of a child and one of these pages that the child needs and that resolves
    /// to stored.
    fn copies(&self, write: &AnyWrite, pages: &[usize]) -> usize {
        let (set, file) = (write.set as usize, write.file as usize);
        let is_stored = |page: usize| self.state.resolve(set, file, page) != Resolved::Hole;
        let needing = |page: usize| {
            self.children.iter().filter(move |child| self.state.needs(**child, file, page)).count()
        };
        pages.iter().filter(|page| is_stored(**page)).map(|page| needing(*page)).sum()
    }
}

/// "Own need is the touched pages not stored in this file's map." With N needed copies and
/// X extra ones: a write is refused with 8 exactly when the own need is over the free
/// blocks. It marks exactly when N is over the blocks left. If it does not, its copies are
/// the smaller of N + X and these; if it does, they are not fewer, and at most the smaller
/// of N + X and these with the freed ones. The bitmap says the same.
fn as_reckoned(done: &Done, room: &Room) {
    let found = Found::of(done);
    let (k, others, c) = (found.touched.len(), found.others.len(), found.children.len());
    let (free, freed) = (found.state.free_blocks(), freed_by_the_tables(done, &found));
    let wanted = Room { touched: k, in_groups: k + others, children: c, free, freed };
    assert_eq!(*room, wanted, "{}", done.script());
    let (set, file) = (done.write.set as usize, done.write.file as usize);
    let is_own = |page: &&usize| !found.state.is_stored(set, file, **page);
    let own = found.touched.iter().filter(is_own).count();
    assert_eq!(done.answer.number == 8, own > free, "{}", done.script());
    if done.answer.number == 8 {
        return;
    }
    let needed = found.copies(&done.write, &found.touched);
    let called_for = needed + found.copies(&done.write, &found.others);
    let copies = called_for.min(free - own)..=called_for.min(free - own + freed);
    assert_eq!(done.answer.first as usize, own, "{}", done.script());
    assert!(copies.contains(&(done.answer.second as usize)), "{}", done.script());
    assert_eq!(done.answer.third > 0, needed > free - own, "{}", done.script());
    bitmap_as_reckoned(done, &found.state, freed);
}

/// The blocks that marking freed, without going through the turns: the stored entries that
/// the files newly marked had before, with the copies, less the stored entries that the
/// children still own or virgin gained.
fn freed_by_the_tables(done: &Done, found: &Found) -> usize {
    let (before, after) = (&found.state, State::unpack(&done.after));
    let file = done.write.file as usize;
    let count = |state: &State, set: usize| {
        let entries = state.files[set][file].entries;
        entries.iter().filter(|entry| entry.kind == Kind::Stored).count()
    };
    let is_marked = |state: &State, set: usize| state.files[set][file].state == FileState::Marked;
    let newly = (0..SETS).filter(|set| !is_marked(before, *set) && is_marked(&after, *set));
    let had: usize = newly.map(|set| count(before, set)).sum();
    let live = found.children.iter().filter(|set| after.files[**set][file].is_own_or_virgin());
    let gained: usize = live.map(|set| count(&after, *set) - count(before, *set)).sum();
    had + done.answer.second as usize - gained
}

/// The bits, and the marked files of all sets.
fn bitmap_as_reckoned(done: &Done, before: &State, freed: usize) {
    let after = State::unpack(&done.after);
    let bits = || before.bits.iter().zip(&after.bits);
    let falls = bits().any(|(old, new)| *old && !*new);
    let newly = bits().filter(|(old, new)| !**old && **new).count();
    if done.answer.third == 0 {
        assert!(!falls && freed == 0 && newly == done.total(), "{}", done.script());
    }
    assert!(newly <= done.total(), "{}", done.script());
    let (left, free) = (after.free_blocks() + done.total(), before.free_blocks());
    assert_eq!(left, free + freed, "{}", done.script());
    let marked = |state: &State| {
        let records = state.files.iter().flatten();
        records.filter(|record| record.state == FileState::Marked).count()
    };
    let third = done.answer.third as usize;
    assert_eq!(marked(before) + third, marked(&after), "{}", done.script());
}

/// How often each case was met.
#[derive(Default)]
struct Met {
    narrow: Judged,
    grouped: Judged,
    /// Writes by the size of groups.
    sizes: BTreeMap<usize, u64>,
    /// Writes with just k + k x c blocks free, by c, k being over 0.
    by_children: [u64; SETS],
}

impl Met {
    fn see(&mut self, done: &Done) {
        let judgement = done.judgement();
        assert_eq!(judgement.outcome(), Ok(()), "{}", done.script());
        let kind = if done.is_narrow() { &mut self.narrow } else { &mut self.grouped };
        kind.count(&judgement, false);
        *self.sizes.entry(done.write.group).or_default() += 1;
        if let Some(room) = judgement.room {
            as_reckoned(done, &room);
            let just_enough = room.touched > 0 && room.free == room.enough();
            self.by_children[room.children] += u64::from(just_enough);
        }
    }

    /// Each case is met at least so often by narrow and by grouped writes, but for those
    /// with one of these words.
    fn check(&self, least: u64, but: &[&str]) {
        println!("narrow: {}", self.narrow);
        println!("by groups: {}", self.grouped);
        println!("by size of groups: {:?}", self.sizes);
        println!("just enough blocks free, by children: {:?}", self.by_children);
        for (case, name) in CASES.iter().enumerate() {
            let is_left_out = but.iter().any(|words| name.contains(words));
            let (narrow, grouped) = (self.narrow.met[case], self.grouped.met[case]);
            let of_narrow = is_left_out || name.starts_with("by groups") || narrow >= least;
            assert!(of_narrow, "narrow, {name}: {narrow}");
            let of_grouped = is_left_out || name.starts_with("narrow") || grouped >= least;
            assert!(of_grouped, "by groups, {name}: {grouped}");
        }
    }
}

#[test]
fn writes_keep_to_it_and_meet_every_case() {
    let mut met = Met::default();
    each_write(SEED, 625, |done| {
        met.see(&done);
        true
    });
    met.check(10, &[]);
    for size in 1..=PAGES {
        assert!(met.sizes.contains_key(&size), "groups of {size}");
    }
    assert!(met.by_children.iter().all(|count| *count >= 4));
}

/// Only accepted writes are shown of these.
#[test]
fn well_formed_stores_keep_to_it() {
    let mut met = Met::default();
    walk::written_stores(SEED, 1_500, |seen| {
        if let Some(done) = Done::seen(&seen) {
            met.see(&done);
        }
    });
    met.check(5, &["refused with 8", "just k + k x c", "narrow, first", "by groups, second"]);
}

/// The histories that `compare` makes: so many of them meet every case, whatever the
/// seed, but for those of blocks freed by marking, for which there are others.
#[test]
fn histories_of_compare_meet_every_case() {
    for seed in 0..4 {
        let mut seeds = Rng::new(SEED ^ seed);
        let mut counts = Counts::default();
        for _ in 0..300 {
            let outcome =
                short_history(Short::Room, seeds.word(), &mut NoOther, &mut counts, &mut |_| {});
            assert!(outcome.is_ok(), "{}", outcome.err().unwrap().text);
        }
        println!("{}", counts.room);
        let cases = CASES.iter().zip(counts.room.met);
        for (case, met) in cases.filter(|(case, _)| !case.contains("marking")) {
            assert!(met >= 8, "seed {seed}, {case}: {met}");
        }
    }
}

// Claims that are false.

/// A claim about writes, with an example that denies it.
struct Claim {
    name: &'static str,
    /// Whether a write, which is accepted or refused with 8, denies it.
    denies: fn(&Done, &Room) -> bool,
    /// Found by hand; its last call is the write.
    example: &'static str,
}

impl Claim {
    fn is_denied_by(&self, done: &Done) -> bool {
        done.judgement().room.is_some_and(|room| (self.denies)(done, &room))
    }

    /// An example that is found at random, as short as can be.
    fn found_at_random(&self) -> Done {
        let (mut looked_at, mut found) = (0, None);
        each_write(SEED ^ 7, 400, |done| {
            looked_at += 1;
            if self.is_denied_by(&done) {
                found = Some(done);
            }
            found.is_none()
        });
        let found = found.unwrap_or_else(|| {
            let Claim { name, example, .. } = self;
            panic!("no example against \"{name}\" among {looked_at} writes; one is: {example}")
        });
        self.shortened(found)
    }

    /// Calls are left out one by one as long as the write still denies the claim, the
    /// store having so many blocks fewer as are free then.
    fn shortened(&self, mut done: Done) -> Done {
        for place in (1..done.calls.len()).rev() {
            let mut calls = done.calls.clone();
            calls.remove(place);
            let shorter = self.with_room(&done, calls);
            done = shorter.unwrap_or(done);
        }
        done
    }

    /// The same write after other calls, if it denies the claim too, as the store is or
    /// with as many blocks free as before.
    fn with_room(&self, done: &Done, mut calls: Vec<Call>) -> Option<Done> {
        let other = Done::after(&calls, &done.write);
        let more = other.judgement().room?.free.checked_sub(done.judgement().room?.free)?;
        if let Call::Format { pages_length } = &mut calls[0] {
            *pages_length -= more * PAGE_BYTES;
        }
        let fewer_blocks = Done::after(&calls, &done.write);
        [fewer_blocks, other].into_iter().find(|done| self.is_denied_by(done))
    }
}

/// k + k x c, with c counted without the children whose file is virgin.
fn without_virgin(done: &Done, room: &Room) -> usize {
    let state = State::unpack(&done.before);
    let file = done.write.file as usize;
    let is_virgin = |child: &&usize| state.files[**child][file].state == FileState::Virgin;
    let children = state.children(done.write.set as usize);
    let virgin = children.iter().filter(is_virgin).count();
    room.touched + room.touched * (room.children - virgin)
}

/// How many different blocks the markings of a write freed.
fn different_freed(done: &Done) -> usize {
    let turns = Turns::of_write(&done.write, &State::unpack(&done.before));
    let freed = turns.map_or(Vec::new(), |turns| turns.freed());
    freed.into_iter().collect::<BTreeSet<usize>>().len()
}

const FALSE: [Claim; 7] = [
    // Set 2 takes the block that set 1's marking freed.
    Claim {
        name: "a write takes at most the blocks that were free",
        denies: |done, room| done.total() > room.free,
        example: "format 2048; create 0 0; write-narrow 0 0 0 1024 1; make 0 1 0; make 0 2 0; \
            write-narrow 0 0 0 1024 9",
    },
    // Four blocks are free and three different ones are freed, one of them twice: eight
    // copies.
    Claim {
        name: "a write takes at most the blocks that were free and those freed, once each",
        denies: |done, room| done.total() > room.free + different_freed(done),
        example: "format 4096; create 0 0; write-narrow 0 0 0 2048 1; make 0 1 0; make 0 2 0; \
            make 0 3 0; make 0 4 0; write-narrow 0 0 0 2048 9",
    },
    // The copy of page 0 is freed, and nobody takes it.
    Claim {
        name: "after a write that marks no block is free",
        denies: |done, _| done.answer.third > 0 && State::unpack(&done.after).free_blocks() > 0,
        example: "format 1536; create 0 0; write-narrow 0 0 0 1024 1; make 0 1 0; \
            write-narrow 0 0 0 1024 9",
    },
    // One touched page and one child, but by groups it takes three blocks.
    Claim {
        name: "a grouped write takes at most k + k x c",
        denies: |done, room| !done.is_narrow() && done.total() > room.enough(),
        example: "format 6656; create 0 0; write-narrow 0 0 0 1536 1; make 0 1 0; \
            write-groups 4 0 0 0 512 9",
    },
    // Two virgin children get a copy each.
    Claim {
        name: "a narrow write takes at most k + k x c, c without virgin children",
        denies: |done, room| done.is_narrow() && done.total() > without_virgin(done, room),
        example: "format 2048; create 0 0; write-narrow 0 0 0 512 1; make 0 1 0; make 0 2 0; \
            write-narrow 0 0 0 1 9",
    },
    // Set 1 takes the only block, and set 2, virgin, is marked.
    Claim {
        name: "with k + k x c blocks free, c without virgin children, nothing is marked",
        denies: |done, room| room.free >= without_virgin(done, room) && done.answer.third > 0,
        example: "format 1024; create 0 0; write-narrow 0 0 0 512 1; make 0 1 1; make 1 2 0; \
            write-narrow 1 0 0 1 9",
    },
    // The same.
    Claim {
        name: "with k + k x c - 1 blocks free nothing is marked",
        denies: |done, room| room.free + 1 == room.enough() && done.answer.third > 0,
        example: "format 1024; create 0 0; write-narrow 0 0 0 512 1; make 0 1 1; make 1 2 0; \
            write 1 0 0 1 9",
    },
];

/// The calls of a script, and its last one, which is a write.
fn parsed(script: &str) -> (Vec<Call>, AnyWrite) {
    let items = Item::parse_script(script).unwrap();
    let mut calls: Vec<Call> = items
        .into_iter()
        .map(|item| match item {
            Item::Call(call) => call,
            item => panic!("{item} is no call"),
        })
        .collect();
    let write = calls.pop().and_then(|call| call.as_write());
    (calls, write.expect("the last call is a write"))
}

/// Each of these claims is denied by its example, and by one found at random. What Ask 7
/// says holds of both.
#[test]
fn claims_that_are_false() {
    for claim in FALSE {
        let (calls, write) = parsed(claim.example);
        let by_hand = Done::after(&calls, &write);
        assert!(claim.is_denied_by(&by_hand), "{}: {}", claim.name, claim.example);
        let found = claim.found_at_random();
        assert!(claim.is_denied_by(&found), "{}: {}", claim.name, found.script());
        for done in [&by_hand, &found] {
            assert_eq!(done.judgement().outcome(), Ok(()), "{}", done.script());
        }
        let room = found.judgement().room.expect("the write was judged");
        println!("false: {}", claim.name);
        println!("  found at random: {}", found.script());
        println!("  {room:?}, the answer is {}", found.answer);
    }
}

/// What Ask 7 does say is denied by no write among many.
#[test]
fn claims_that_are_true() {
    let claims: [fn(&Done, &Room) -> bool; 4] = [
        |done, room| done.is_narrow() && done.total() > room.enough(),
        |done, room| done.total() > room.free + room.freed,
        |done, room| done.answer.second as usize > room.in_groups * room.children,
        |done, room| {
            room.free >= room.enough() && (done.answer.third > 0 || done.answer.number == 8)
        },
    ];
    each_write(SEED ^ 7, 200, |done| {
        if let Some(room) = done.judgement().room {
            let denied = claims.iter().any(|denies| denies(&done, &room));
            assert!(!denied, "{}: {room:?}, {}", done.script(), done.answer);
        }
        true
    });
}
