//! Ask 10 of document 02 in random histories and random well-formed stores: the turns of
//! each call gone through once more give what it left; marked files hold nothing, and bits
//! and names agree; the cases that must be met; wrong programs that random histories notice.

use oracle::bench::{Bench, Counts, NoOther};
use oracle::call::*;
use oracle::check::Rule;
use oracle::gen;
use oracle::history::{any_history, short_history, Short};
use oracle::maps::Resolved;
use oracle::markings::{Case, Met};
use oracle::rng::Rng;
use oracle::room::CASES;
use oracle::turns::Turn;

mod faulty;
use faulty::{Fault, Faulty};
mod walk;
use walk::{bits_are_names, Change, Seen};

const SEED: u64 = 100_000_010;

/// What the turns leave is what the call left: the counts, the bits, next start, and the
/// maps of all files of its number.
fn turns_are_the_calls(change: &Change) {
    let Some(turns) = &change.turns else { return };
    let Seen { after, answer, call, .. } = *change.seen;
    assert_eq!(Answer::accepted(turns.counts()), answer, "{call}");
    assert_eq!((&turns.bits, turns.next_start), (&after.bits, after.next_start), "{call}");
    for (set, map) in turns.maps.iter().enumerate() {
        let record = &after.files[set][change.file];
        let live = record.is_own_or_virgin().then_some(record.entries);
        // A file that is deleted is absent, and its map is of no use.
        let is_deleted = set == change.set && matches!(call, Call::Delete { .. });
        assert!(is_deleted || *map == live, "{call}: set {set}");
    }
}

/// No block is freed that is free, and none is taken that is used; no copy is of a block
/// that is free. A file is marked once at most.
fn turns_are_in_order(change: &Change) {
    let Some(turns) = &change.turns else { return };
    let (before, call) = (change.seen.before, change.seen.call);
    let mut used = before.bits.clone();
    let mut marked = Vec::new();
    for turn in &turns.list {
        match turn {
            Turn::Own { block, .. } => {
                assert!(!std::mem::replace(&mut used[*block], true), "{call}");
            }
            Turn::Copied(copy) => {
                let source = before.resolve(change.set, change.file, copy.page);
                assert!(matches!(source, Resolved::Stored(block) if used[block]), "{call}");
                assert!(!std::mem::replace(&mut used[copy.block], true), "{call}");
            }
            Turn::Marked { set, blocks, .. } => {
                assert!(!marked.contains(set), "{call}");
                marked.push(*set);
                for block in blocks {
                    assert!(std::mem::replace(&mut used[*block], false), "{call}");
                }
            }
            Turn::HandedOver(handed) => assert!(used[handed.block], "{call}"),
            Turn::Dropped { block, .. } => {
                assert!(std::mem::replace(&mut used[*block], false), "{call}");
            }
        }
    }
    assert_eq!(used, change.seen.after.bits, "{call}");
}

fn see(seen: &Seen) -> usize {
    bits_are_names(seen.after);
    let Some(change) = Change::of(seen) else { return 0 };
    turns_are_the_calls(&change);
    turns_are_in_order(&change);
    change.freed.len()
}

#[test]
fn histories_keep_to_it() {
    let mut freed = 0;
    walk::histories_of_marking(SEED, 500, |seen| freed += see(&seen));
    walk::histories(SEED, 100, |seen| freed += see(&seen));
    println!("{freed} blocks freed by marking");
    assert!(freed > 1_000);
}

#[test]
fn well_formed_stores_keep_to_it() {
    let mut freed = 0;
    walk::marked_stores(SEED, 1_500, |seen| freed += see(&seen));
    walk::stores(SEED, 300, |seen| freed += see(&seen));
    println!("{freed} blocks freed by marking");
    assert!(freed > 600);
}

/// Refusals for what marked files hold come only on damaged tables.
const NOT_IN_HISTORIES: [Case; 2] = [Case::RefusedSize, Case::RefusedMapped];

/// Conversions are not of these histories.
const OF_CONVERSIONS: [Case; 7] = [
    Case::ShortBlocks,
    Case::ShortOther,
    Case::LongBlocks,
    Case::LongOther,
    Case::LongTerms,
    Case::LongNew,
    Case::LongRefused,
];

/// The histories that `compare` makes: so many of them meet every case, whatever the seed,
/// and the cases of the room that a write can take by freed blocks.
#[test]
fn histories_of_compare_meet_every_case() {
    for seed in 0..2 {
        let mut seeds = Rng::new(SEED ^ seed);
        let mut counts = Counts::default();
        for _ in 0..400 {
            let seed = seeds.word();
            let outcome =
                short_history(Short::Marking, seed, &mut NoOther, &mut counts, &mut |_| {});
            assert!(outcome.is_ok(), "{}", outcome.err().unwrap().text);
        }
        counts.markings.demand(5, &[&NOT_IN_HISTORIES[..], &OF_CONVERSIONS].concat());
        let room = CASES.iter().zip(counts.room.met);
        for (case, met) in room.filter(|(case, _)| case.contains("marking")) {
            assert!(met >= 5, "seed {seed}, {case}: {met}");
        }
    }
}

/// Conversions of older tables of either length, in histories with terms; plain store and
/// tally go on after them.
#[test]
fn histories_with_conversions_meet_every_case() {
    let mut seeds = Rng::new(SEED ^ 9);
    let mut counts = Counts::default();
    for _ in 0..500 {
        let outcome =
            short_history(Short::Terms, seeds.word(), &mut NoOther, &mut counts, &mut |_| {});
        assert!(outcome.is_ok(), "{}", outcome.err().unwrap().text);
    }
    println!("{}", counts.markings);
    assert!(OF_CONVERSIONS.iter().all(|case| counts.markings.of(*case) >= 5));
}

/// Tables in which a marked file holds a size, a hole or a block: every call but format,
/// the first part of the check and the converter refuses them.
#[test]
fn damaged_tables_are_refused() {
    println!("seed {SEED}");
    let mut rng = Rng::new(SEED ^ 10);
    let mut met = Met::default();
    for rule in [Rule::MarkedSize, Rule::MarkedMapped] {
        for _ in 0..25 {
            let broke = gen::break_alone(&mut rng, rule);
            let mut bench = Bench::with(broke.tables.clone(), broke.pages);
            for index in 1..CALLS {
                let refused = ![10, 13, 14, 15, 16, gen::CONVERT].contains(&index);
                if refused {
                    let call = gen::call_of(&mut rng, &broke.made.style, &broke.made.beside, index);
                    let answer = bench.call(&call, &mut NoOther);
                    assert_eq!(answer, Ok(Answer::refused(1)), "{call}");
                }
            }
            assert_eq!(bench.call(&Call::CheckBlocks {}, &mut NoOther), Ok(Answer::default()));
            assert!(bench.tables() == broke.tables);
            for line in ["keep", "convert", "check"] {
                let item = Item::parse(line).unwrap();
                let answer = bench.step(&item, &mut NoOther).unwrap();
                assert!(answer.is_none_or(|answer| answer.number == 0), "{line}");
            }
            met.cases.extend(bench.counts.markings.cases);
        }
    }
    assert!(NOT_IN_HISTORIES.iter().all(|case| met.of(*case) > 0));
}

/// Each wrong program is noticed by random histories, by those for marking soon; the right
/// one is not.
#[test]
fn wrong_programs_are_noticed() {
    println!("seed {SEED}");
    for fault in Fault::ALL {
        let mut seeds = Rng::new(SEED ^ 11);
        let mut noticed = |_: &usize| {
            let (seed, mut counts) = (seeds.word(), Counts::default());
            let other = &mut Faulty(fault);
            short_history(Short::Marking, seed, other, &mut counts, &mut |_| {}).is_err()
        };
        let first = (0..400).find(|round| noticed(round));
        println!("{fault:?}: noticed in history {first:?}");
        assert!(first.is_some(), "{fault:?}");
    }
    let mut seeds = Rng::new(SEED ^ 12);
    for _ in 0..150 {
        let (seed, mut counts) = (seeds.word(), Counts::default());
        let outcome =
            short_history(Short::Marking, seed, &mut Faulty(Fault::None), &mut counts, &mut |_| {});
        assert!(outcome.is_ok(), "{}", outcome.err().unwrap().text);
    }
    for _ in 0..60 {
        let (seed, mut counts) = (seeds.word(), Counts::default());
        let outcome = any_history(seed, &mut Faulty(Fault::None), &mut counts, &mut |_| {});
        assert!(outcome.is_ok(), "{}", outcome.err().unwrap().text);
    }
}
