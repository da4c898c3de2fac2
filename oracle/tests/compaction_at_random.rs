//! Ask 9 of document 02 on random stores and in random histories: what a compaction
//! leaves, that later calls answer as they would have without it, and that the cases that
//! matter are met, and how often. Histories run with plain store and tally beside.

use oracle::agree::read_off;
use oracle::bench::{Bench, Counts, NoOther, Other};
use oracle::call::*;
use oracle::compactions::Case;
use oracle::gen::compact::{self, Order, WRONG_SPARES};
use oracle::gen::{self, panel, Made, COMPACT};
use oracle::history::{any_history, short_history, Failure, Short};
use oracle::rng::Rng;
use oracle::state::State;

mod script;
mod walk;
use script::{compact_in_place, Run, Wrong};

const SEED: u64 = 90_000_009;

/// A library whose compactions are done in place.
const IN_PLACE: Run = |_, _, lent| compact_in_place(lent);

/// So many histories of this kind; gives what they met.
fn histories(
    seed: u64,
    rounds: usize,
    other: &mut dyn Other,
    history: impl Fn(u64, &mut dyn Other, &mut Counts) -> Result<(), Failure>,
) -> Counts {
    println!("seed {seed}");
    let mut seeds = Rng::new(seed);
    let mut counts = Counts::default();
    for _ in 0..rounds {
        let outcome = history(seeds.word(), other, &mut counts);
        assert!(outcome.is_ok(), "{}", outcome.err().unwrap().text);
    }
    counts
}

/// The cases that need damaged tables, or 4,096 used blocks: these histories have none.
const NOT_IN_HISTORIES: [Case; 3] = [Case::FullMost, Case::TablesAndSpare, Case::TablesAlone];

/// The histories that `compare` makes: no difference without another implementation, and
/// every case.
#[test]
fn histories_meet_every_case() {
    let counts = histories(SEED, 120, &mut NoOther, |seed, other, counts| {
        short_history(Short::Compact, seed, other, counts, &mut |_| {})
    });
    counts.compactions.demand(5, &NOT_IN_HISTORIES);
    assert!(counts.numbers[16] > 30 && counts.compactions.linked == 0);
}

/// The same beside an implementation that does it in place and leaves other bytes free:
/// they are taken over, and the history goes on.
#[test]
fn histories_go_on_with_another_ones_free_bytes() {
    let mut other = Wrong { calls: &["compact"], run: IN_PLACE };
    let counts = histories(SEED ^ 1, 60, &mut other, |seed, other, counts| {
        short_history(Short::Compact, seed, other, counts, &mut |_| {})
    });
    let met = &counts.compactions;
    assert!(met.linked == met.calls && met.calls > 200);
    assert!(met.of(Case::WriteAfter) > 20 && met.of(Case::Chain) > 20);
}

/// The other histories have them too, fewer of them.
#[test]
fn other_histories_have_compactions() {
    let counts = histories(SEED ^ 2, 60, &mut NoOther, |seed, other, counts| {
        any_history(seed, other, counts, &mut |_| {})
    });
    println!("{}", counts.compactions);
    assert!(counts.calls[COMPACT] > 60 && counts.numbers[16] > 5);
}

/// Well-formed stores with their blocks in any order, whether or not calls could bring them
/// there: "a reader of any file sees no difference". Plain store, tally and terms, read
/// off before, are the same after; and they go on through further calls.
#[test]
fn stores_with_blocks_in_any_order() {
    println!("seed {SEED}");
    let mut rng = Rng::new(SEED ^ 3);
    let pool = gen::pool(&mut rng, 40);
    let (mut counts, mut further) = (Counts::default(), 0);
    for round in 0..300 {
        let made = &pool[rng.below(pool.len())];
        let (mut tables, mut pages) = (made.tables.clone(), made.pages.clone());
        gen::twist(&mut rng, &mut tables, &mut pages);
        compact::reorder(&mut rng, &mut tables, Order::ALL[round % Order::ALL.len()]);
        let beside = read_off(&State::unpack(&tables), &pages);
        let mut bench = Bench::with(tables, pages);
        bench.beside = Some(beside.clone());
        std::mem::swap(&mut bench.counts, &mut counts);
        for item in compact::compaction(&mut rng) {
            bench.step(&item, &mut NoOther).unwrap_or_else(|text| panic!("{item}: {text}"));
        }
        assert_eq!(read_off(&State::unpack(bench.tables()), bench.pages()), beside);
        for _ in 0..4 {
            further += usize::from(one_call(&mut rng, made, &mut bench));
        }
        bench.call(&Call::Compact {}, &mut NoOther).unwrap();
        std::mem::swap(&mut bench.counts, &mut counts);
    }
    println!("{further} further calls");
    assert!(further > 600);
    counts.compactions.demand(3, &NOT_IN_HISTORIES);
}

/// A random call, with plain store and tally read off before it; none that would show
/// bytes past the size, which these stores may hold.
fn one_call(rng: &mut Rng, made: &Made, bench: &mut Bench) -> bool {
    let state = State::unpack(bench.tables());
    let beside = bench.beside.insert(read_off(&state, bench.pages()));
    let call = gen::call(rng, &made.style, beside);
    let is_fit = !walk::grows_over_a_gap(&state, &call);
    if is_fit {
        bench.call(&call, &mut NoOther).unwrap_or_else(|text| panic!("{call}: {text}"));
    }
    is_fit
}

/// The same calls on a store and on what a compaction made of it: every answer is the
/// same, and so is what reading, tally and terms say. Block numbers alone differ.
#[test]
fn later_calls_answer_the_same() {
    println!("seed {SEED}");
    let mut rng = Rng::new(SEED ^ 4);
    let (mut calls, mut moved, mut accepted) = (0, 0, 0);
    for made in gen::pool(&mut rng, 60) {
        let mut left = Bench::with(made.tables.clone(), made.pages.clone());
        left.beside = Some(made.beside.clone());
        let mut pulled = Bench::with(made.tables.clone(), made.pages.clone());
        pulled.beside = Some(made.beside.clone());
        pulled.call(&Call::Compact {}, &mut NoOther).unwrap();
        moved += usize::from(pulled.tables()[572..] != left.tables()[572..]);
        for _ in 0..25 {
            let beside = left.beside.clone().unwrap();
            let call = gen::call(&mut rng, &made.style, &beside);
            let answer = left.call(&call, &mut NoOther).unwrap();
            assert_eq!(pulled.call(&call, &mut NoOther), Ok(answer), "{call}");
            assert!(pulled.beside == left.beside, "{call}");
            calls += 1;
            accepted += usize::from(answer.number == 0);
        }
    }
    println!("{calls} calls, {accepted} accepted; blocks moved in {moved} stores");
    assert!(calls == 1_500 && accepted > 750 && moved > 25);
}

/// Plain store and tally that agreed with a store agree with what a compaction left, in
/// which accesses of the panel, conversions and further compactions follow.
#[test]
fn plain_store_and_tally_go_on_after_a_compaction() {
    println!("seed {SEED}");
    let mut rng = Rng::new(SEED ^ 5);
    let mut further = 0;
    for made in gen::pool(&mut rng, 60) {
        let mut bench = Bench::with(made.tables.clone(), made.pages.clone());
        bench.beside = Some(made.beside.clone());
        let mut other = Wrong { calls: &["compact"], run: IN_PLACE };
        bench.call(&Call::Compact {}, &mut other).unwrap();
        assert!(bench.beside.as_ref() == Some(&made.beside));
        for turn in 0..20 {
            let beside = bench.beside.clone().expect("the history goes on");
            let items = match turn % 5 {
                4 => compact::compaction(&mut rng),
                _ => panel::turn(&mut rng, &made.style, &beside),
            };
            for item in items {
                bench.step(&item, &mut other).unwrap_or_else(|text| panic!("{item}: {text}"));
                further += 1;
            }
        }
        assert!(bench.beside.is_some());
    }
    assert!(further > 1_000, "{further}");
}

/// Stores of 4,096 blocks that are all used, in every order, those that cost most among
/// them; and smaller ones, full and empty.
#[test]
fn full_and_empty_stores_in_every_order() {
    println!("seed {SEED}");
    let mut rng = Rng::new(SEED ^ 6);
    let mut counts = Counts::default();
    for blocks in [1, 2, 3, 64, MOST_BLOCKS] {
        let made = compact::full_store(&mut rng, blocks);
        assert_eq!(made.beside.tally.free, 0);
        for order in Order::ALL {
            let mut tables = made.tables.clone();
            compact::reorder(&mut rng, &mut tables, order);
            let mut bench = Bench::with(tables.clone(), made.pages.clone());
            std::mem::swap(&mut bench.counts, &mut counts);
            let mut other = Wrong { calls: &["compact"], run: IN_PLACE };
            bench.call(&Call::Compact {}, &mut other).unwrap();
            let (before, after) = (State::unpack(&tables), State::unpack(bench.tables()));
            assert!(after.bits == before.bits && after.next_start == 0);
            std::mem::swap(&mut bench.counts, &mut counts);
        }
        let format = Call::Format { pages_length: blocks * PAGE_BYTES };
        let mut bench = Bench::new();
        for call in [format, Call::Compact {}] {
            assert_eq!(bench.call(&call, &mut NoOther), Ok(Answer::default()));
        }
    }
    println!("{}", counts.compactions);
    let full = [Case::Cycle, Case::Exchange, Case::FullMost, Case::AllMove, Case::OtherTree];
    assert!(full.iter().all(|case| counts.compactions.of(*case) >= 3));
}

/// Wrong lengths of the spare page on tables of right and wrong length, on damaged tables
/// and on good ones.
#[test]
fn spare_pages_of_every_length() {
    println!("seed {SEED}");
    let mut rng = Rng::new(SEED ^ 7);
    let mut counts = Counts::default();
    for made in gen::pool(&mut rng, 15) {
        for spare in WRONG_SPARES.into_iter().chain([PAGE_BYTES]) {
            let mut bench = Bench::with(made.tables.clone(), made.pages.clone());
            std::mem::swap(&mut bench.counts, &mut counts);
            for item in compact::compactions_with(&mut rng, spare, made.pages.len()) {
                bench.step(&item, &mut NoOther).unwrap_or_else(|text| panic!("{item}: {text}"));
            }
            std::mem::swap(&mut bench.counts, &mut counts);
        }
    }
    println!("{}", counts.compactions);
    let cases = [
        Case::ShortSpare,
        Case::LongSpare,
        Case::EmptySpare,
        Case::TablesAndSpare,
        Case::TablesAlone,
        Case::TwoInTurn,
    ];
    assert!(cases.iter().all(|case| counts.compactions.of(*case) >= 15));
    // Each of ten lengths: five compactions on what is not well formed, and two on a store.
    assert_eq!(counts.numbers[1], 15 * 10 * 5);
    assert_eq!((counts.numbers[16], counts.numbers[0]), (15 * 9 * 2, 15 * 2));
}
