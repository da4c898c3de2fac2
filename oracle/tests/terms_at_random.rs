//! Ask 8 of document 02 on random stores and in random histories: what a term changes and
//! what it does not, conversions, and that the cases that matter are met, and how often.
//! Histories run with plain store and tally beside, and with each set's term told from the
//! calls alone.

use oracle::agree::{agree, read_off};
use oracle::bench::{Bench, Counts, NoOther};
use oracle::call::*;
use oracle::check::{check_all, check_older, is_well_formed, rules_broken, Rule};
use oracle::conversion::narrowed;
use oracle::gen::{self, panel, terms, CONVERT, CURRENT, SET_TERM};
use oracle::history::{any_history, short_history, Short};
use oracle::rng::Rng;
use oracle::state::State;
use oracle::terms::Case;
use std::collections::BTreeSet;

const SEED: u64 = 88_000_088;

/// The cases that need damaged tables, or pages of another length: no history has them.
const NOT_IN_HISTORIES: [Case; 3] = [Case::ConvertPages, Case::OlderTables, Case::BadTerm];

/// The histories that `compare` makes: no difference without another implementation,
/// and every case.
#[test]
fn histories_meet_every_case() {
    println!("seed {SEED}");
    let mut seeds = Rng::new(SEED);
    let mut counts = Counts::default();
    for _ in 0..360 {
        let outcome =
            short_history(Short::Terms, seeds.word(), &mut NoOther, &mut counts, &mut |_| {});
        assert!(outcome.is_ok(), "{}", outcome.err().unwrap().text);
    }
    counts.terms.demand(5, &NOT_IN_HISTORIES);
    assert!(counts.numbers[14] > 200 && counts.numbers[15] > 100);
}

/// The other histories have them too, fewer of them.
#[test]
fn other_histories_have_terms_and_conversions() {
    println!("seed {SEED}");
    let mut seeds = Rng::new(SEED ^ 1);
    let mut counts = Counts::default();
    for _ in 0..150 {
        let outcome = any_history(seeds.word(), &mut NoOther, &mut counts, &mut |_| {});
        assert!(outcome.is_ok(), "{}", outcome.err().unwrap().text);
    }
    println!("{}", counts.terms);
    assert!(counts.calls[SET_TERM] > 200 && counts.calls[CURRENT] > 200);
    assert!(counts.calls[CONVERT] > 50 && counts.terms.of(Case::Converted) > 30);
}

/// Wrong lengths of all buffers, older tables in which a rule of document 01 is broken,
/// any bytes in the new buffer, on stores that calls made and on others.
#[test]
fn conversions_of_any_store() {
    println!("seed {SEED}");
    let mut rng = Rng::new(SEED ^ 2);
    let pool = gen::pool(&mut rng, 40);
    let mut counts = Counts::default();
    for round in 0..600 {
        let made = &pool[round % pool.len()];
        let (mut tables, mut pages) = (made.tables.clone(), made.pages.clone());
        if round % 2 == 0 {
            gen::twist(&mut rng, &mut tables, &mut pages);
        }
        let items = terms::conversions(&mut rng, &tables, pages.len());
        let mut bench = Bench::with(tables, pages);
        std::mem::swap(&mut bench.counts, &mut counts);
        for item in items {
            bench.step(&item, &mut NoOther).unwrap_or_else(|text| panic!("{item}: {text}"));
        }
        std::mem::swap(&mut bench.counts, &mut counts);
        assert!(is_well_formed(bench.tables(), bench.pages().len()));
    }
    println!("{}", counts.terms);
    let cases = [
        Case::Converted,
        Case::ConvertedSets,
        Case::ConvertedMarked,
        Case::OverOther,
        Case::OverTerm,
        Case::OlderLength,
        Case::OlderTerm,
        Case::NewLength,
        Case::ShortNew,
        Case::ConvertPages,
        Case::OlderFirstPart,
        Case::OlderSecondPart,
    ];
    assert!(cases.iter().all(|case| counts.terms.of(*case) >= 30));
}

/// Plain store and tally that agree with the older tables agree with the new ones, and go
/// on agreeing through further calls. "keeping terms already there": those of the longer
/// older tables stay. Marked files hold what they did before Ask 10 until then.
#[test]
fn plain_store_and_tally_go_on_after_a_conversion() {
    println!("seed {SEED}");
    let mut rng = Rng::new(SEED ^ 3);
    let (mut further, mut had_terms) = (0, 0);
    for (round, made) in gen::pool(&mut rng, 120).into_iter().enumerate() {
        let state = State::unpack(&made.tables);
        had_terms += usize::from(state.sets.iter().any(|set| set.used && set.end_day != 36_525));
        let mut bench = Bench::with(made.tables.clone(), made.pages.clone());
        bench.beside = Some(made.beside.clone());
        let is_long = round % 2 == 0;
        let older = if is_long { Item::Keep } else { Item::Narrow };
        let load = Item::LoadMarked { seed: round as u32 };
        for item in [older, load, Item::Call(Call::Convert {})] {
            bench.step(&item, &mut NoOther).unwrap();
        }
        let new = State::unpack(bench.tables());
        let beside = bench.beside.clone().expect("plain store and tally of the older tables");
        assert_eq!((&beside.plain, &beside.tally), (&made.beside.plain, &made.beside.tally));
        assert_eq!(agree(&new, bench.pages(), &beside), Ok(()));
        assert_eq!(read_off(&new, bench.pages()).terms, beside.terms);
        for set in 0..SETS {
            let (old, new) = (&state.sets[set], &new.sets[set]);
            let by_default = if old.used { (0, 36_525) } else { (0, 0) };
            let kept = (old.first_day, old.end_day);
            let wanted = if is_long { kept } else { by_default };
            assert_eq!((new.first_day, new.end_day), wanted);
        }
        for _ in 0..20 {
            let beside = bench.beside.clone().expect("the history goes on");
            for item in panel::turn(&mut rng, &made.style, &beside) {
                bench.step(&item, &mut NoOther).unwrap_or_else(|text| panic!("{item}: {text}"));
                further += 1;
            }
        }
        assert!(bench.beside.is_some());
    }
    println!("{further} further lines, {had_terms} stores had terms that were set");
    assert!(further > 1_000 && had_terms > 10);
}

/// The tables with every used set's term the default one.
fn without_terms(tables: &[u8]) -> Vec<u8> {
    let mut state = State::unpack(tables);
    for set in state.sets.iter_mut().filter(|set| set.used) {
        (set.first_day, set.end_day) = (0, 36_525);
    }
    state.packed()
}

/// "Reading does not depend on the term", and no other call does but those of terms: the
/// same calls on two stores that differ in their terms alone.
#[test]
fn other_calls_do_not_depend_on_terms() {
    println!("seed {SEED}");
    let mut rng = Rng::new(SEED ^ 4);
    let (mut calls, mut reads) = (0, 0);
    for made in gen::pool(&mut rng, 60) {
        let mut dated = Bench::with(made.tables.clone(), made.pages.clone());
        let mut plain = Bench::with(without_terms(&made.tables), made.pages.clone());
        plain.beside = Some(made.beside.converted());
        for _ in 0..25 {
            let beside = plain.beside.clone().unwrap();
            let term = terms::set_term(&mut rng, &made.style, &beside);
            dated.call(&term, &mut NoOther).unwrap();
            let index = rng.pick(&[1, 2, 3, 3, 3, 4, 5, 6, 7, 8, 9, 10, 11, 12, 20, 21]);
            let call = gen::call_of(&mut rng, &made.style, &beside, index);
            let answer = plain.call(&call, &mut NoOther).unwrap();
            assert_eq!(dated.call(&call, &mut NoOther), Ok(answer), "{call}");
            assert!(without_terms(dated.tables()) == plain.tables(), "{call}");
            assert!(dated.pages() == plain.pages(), "{call}");
            calls += 1;
            reads += usize::from(index == 3 && answer.first > 0);
        }
    }
    println!("{calls} calls, {reads} reads of at least one byte");
    assert!(calls == 1_500 && reads > 100);
}

/// A term changes its four bytes and nothing else; an accepted one is well formed.
#[test]
fn a_term_changes_four_bytes() {
    println!("seed {SEED}");
    let mut rng = Rng::new(SEED ^ 5);
    let pool = gen::pool(&mut rng, 40);
    let mut accepted = 0;
    for _ in 0..1_500 {
        let made = &pool[rng.below(pool.len())];
        let (mut tables, mut pages) = (made.tables.clone(), made.pages.clone());
        gen::twist(&mut rng, &mut tables, &mut pages);
        let beside = read_off(&State::unpack(&tables), &pages);
        let call = terms::set_term(&mut rng, &made.style, &beside);
        let mut bench = Bench::with(tables.clone(), pages);
        bench.beside = Some(beside);
        let answer = bench.call(&call, &mut NoOther).unwrap();
        let Call::SetTerm { set, .. } = call else { unreachable!() };
        if answer.number == 0 {
            let range = 519 + 7 * set as usize..523 + 7 * set as usize;
            tables[range.clone()].copy_from_slice(&bench.tables()[range]);
            accepted += 1;
        }
        assert!(bench.tables() == tables);
        assert_eq!(check_all(&tables, bench.pages().len()), []);
    }
    assert!(accepted > 700, "{accepted}");
}

/// Older tables are judged by the rules of their time. What is broken in tables is broken in
/// them without their terms, but for the rules on terms and on marked files; and in older
/// ones of the same length, but for the rules on marked files.
#[test]
fn older_tables_are_judged_by_the_rules_of_their_time() {
    println!("seed {SEED}");
    let mut rng = Rng::new(SEED ^ 6);
    let pool = gen::pool(&mut rng, 60);
    let mut met = BTreeSet::new();
    let of_marked = [Rule::MarkedSize, Rule::MarkedMapped];
    for round in 0..6_000 {
        let made = &pool[rng.below(pool.len())];
        let mut tables = made.tables.clone();
        let rule = Rule::ALL[round % Rule::ALL.len()];
        match round % 3 {
            0 => gen::scatter(&mut rng, &mut tables),
            1 => drop(gen::damage(&mut rng, &mut tables)),
            _ => drop(gen::damage_rule(&mut rng, &mut tables, rule)),
        }
        if tables.len() != TABLES_BYTES {
            continue;
        }
        let found = |older: &[u8]| -> BTreeSet<Rule> {
            check_older(older, made.pages.len()).iter().map(|broken| broken.rule).collect()
        };
        let wanted = |tables: &[u8]| -> BTreeSet<Rule> {
            let mut broken = rules_broken(tables, made.pages.len());
            broken.retain(|rule| !of_marked.contains(rule));
            broken
        };
        let short = found(&narrowed(&tables));
        // The same tables with terms that break no rule.
        assert_eq!(short, wanted(&without_any_terms(&tables)));
        assert_eq!(found(&tables), wanted(&tables));
        met.extend(short);
    }
    let of_terms = [Rule::FirstNotBelowEnd, Rule::EndDayOver, Rule::TablesLength];
    let is_later = |rule: &Rule| of_terms.contains(rule) || of_marked.contains(rule);
    let of_document_01 = Rule::ALL.iter().filter(|rule| !is_later(rule));
    assert_eq!(met, of_document_01.copied().collect());
}

/// The tables with the default term in used sets and none in others, by the bytes.
fn without_any_terms(tables: &[u8]) -> Vec<u8> {
    let mut tables = tables.to_vec();
    for set in 0..SETS {
        let record = &mut tables[516 + 7 * set..][..7];
        let term = if record[0] >= 128 { [0, 0, 142, 173] } else { [0; 4] };
        record[3..].copy_from_slice(&term);
    }
    tables
}
