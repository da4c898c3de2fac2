//! Each rule of the well-formed check, broken by a damage aimed at it.

use oracle::agree::{agree, read_off};
use oracle::bench::{Bench, NoOther};
use oracle::call::*;
use oracle::check::{check_all, check_blocks, is_well_formed, rules_broken, Rule};
use oracle::gen::{self, panel, CONVERT};
use oracle::panel_judge;
use oracle::rng::Rng;
use oracle::state::State;
use std::collections::BTreeSet;

const SEED: u64 = 20_260_101;

#[test]
fn made_states_are_well_formed() {
    println!("seed {SEED}");
    for made in gen::pool(&mut Rng::new(SEED), 40) {
        let broken = check_all(&made.tables, made.pages.len());
        assert!(broken.is_empty(), "{}", broken[0]);
    }
}

/// Plain store and tally read off a store agree with it; of a store that calls
/// made they are those beside, but for the bytes of marked files.
#[test]
fn plain_store_and_tally_are_read_off() {
    println!("seed {SEED}");
    let mut rng = Rng::new(SEED ^ 3);
    for made in gen::pool(&mut rng, 30) {
        let state = State::unpack(&made.tables);
        let beside = read_off(&state, &made.pages);
        assert_eq!(beside.tally, made.beside.tally);
        assert_eq!(beside.terms, made.beside.terms);
        assert_eq!(agree(&state, &made.pages, &beside), Ok(()));
        assert_eq!(agree(&state, &made.pages, &made.beside), Ok(()));
        let (mut tables, mut pages) = (made.tables, made.pages);
        gen::twist(&mut rng, &mut tables, &mut pages);
        let state = State::unpack(&tables);
        assert_eq!(agree(&state, &pages, &read_off(&state, &pages)), Ok(()));
    }
}

/// Well formed is kept by every call, also from states that no history need
/// reach.
#[test]
fn well_formed_is_kept_from_any_well_formed_state() {
    println!("seed {SEED}");
    let mut rng = Rng::new(SEED ^ 2);
    let pool = gen::pool(&mut rng, 20);
    for _ in 0..400 {
        let made = rng.pick(&pool);
        let (mut tables, mut pages) = (made.tables.clone(), made.pages.clone());
        gen::twist(&mut rng, &mut tables, &mut pages);
        assert!(is_well_formed(&tables, pages.len()));
        let beside = read_off(&State::unpack(&tables), &pages);
        let mut bench = Bench::with(tables, pages);
        for _ in 0..10 {
            let call = gen::call(&mut rng, &made.style, &beside);
            let answer = bench.call(&call, &mut NoOther).unwrap();
            assert_ne!(answer.number, 1);
            let broken = check_all(bench.tables(), bench.pages().len());
            assert!(broken.is_empty(), "{call}: {}", broken[0]);
        }
    }
}

#[test]
fn each_rule_is_reported_when_its_damage_is_done() {
    println!("seed {SEED}");
    let mut rng = Rng::new(SEED);
    let pool = gen::pool(&mut rng, 60);
    // Damages to these break others too, by their nature.
    let never_alone = [Rule::Set0NotUsed, Rule::Set0State, Rule::BlockCount];
    for rule in Rule::ALL {
        let (mut done, mut alone) = (0, 0);
        let mut tries = 0;
        while done < 40 {
            tries += 1;
            assert!(tries < 3_000, "too few states offer a place for {rule:?}");
            let made = rng.pick(&pool);
            let mut tables = made.tables.clone();
            if !gen::damage_rule(&mut rng, &mut tables, *rule) {
                continue;
            }
            let found = rules_broken(&tables, made.pages.len());
            assert!(found.contains(rule), "{rule:?} was damaged, reported {found:?}");
            assert!(!is_well_formed(&tables, made.pages.len()));
            done += 1;
            alone += usize::from(found.len() == 1);
        }
        println!("{}: {done} damages in {tries} tries, {alone} broke this rule alone", rule.name());
        assert!(
            alone * 5 >= done || never_alone.contains(rule),
            "{rule:?}: {alone} of {done} alone"
        );
    }
}

/// The rules reported after a script of pokes on a small store.
fn reported(script: &str) -> Vec<Rule> {
    let mut bench = Bench::new();
    for item in Item::parse_script(script).unwrap() {
        bench.step(&item, &mut NoOther).unwrap();
    }
    check_all(bench.tables(), bench.pages().len()).iter().map(|broken| broken.rule).collect()
}

/// Damages by hand, byte by byte: the packing is looked at once more.
#[test]
fn damages_by_hand() {
    // The record of set s begins at 516 + 7 x s, that of file f of set s at
    // 572 + 132 x (16 x s + f).
    let base = "format 2048; create 0 0; write 0 0 0 600 1; make 0 1 1; ";
    let cases: [(&str, &[Rule]); 34] = [
        ("", &[]),
        ("poke 3 1", &[Rule::HeaderZero]),
        ("poke 1 34", &[Rule::NextStart]),
        // B = 4,097 with as many pages, and B = 0 with none.
        ("poke 0 128; poke 1 8; pages 2097664", &[Rule::BlockCount]),
        ("remove 1; delete 0 0; poke 1 0; pages 0", &[Rule::BlockCount, Rule::NextStart]),
        ("pages 2047", &[Rule::PagesLength]),
        ("tables 17469", &[Rule::TablesLength]),
        ("poke 4 64", &[Rule::EntryWithoutBit]),
        ("poke 4 224", &[Rule::BitWithoutEntry]),
        ("poke 515 1", &[Rule::BitWithoutEntry]),
        ("poke 516 132", &[Rule::Set0NotWriteable]),
        ("poke 516 204", &[Rule::Set0Level, Rule::LevelWrong]),
        ("poke 518 1", &[Rule::SetZero]),
        ("poke 530 64", &[Rule::UnusedSetNotZero]),
        ("poke 530 1", &[Rule::UnusedSetNotZero]),
        ("poke 532 1", &[Rule::SetZero, Rule::UnusedSetNotZero]),
        ("poke 574 1", &[Rule::FileZero]),
        ("poke 575 1", &[Rule::FileZero]),
        // Entry 2 of file 0 of set 0.
        ("poke 580 192", &[Rule::KindThree]),
        ("poke 581 1", &[Rule::BlockNotStored]),
        ("poke 580 0", &[Rule::Set0Unmapped]),
        // Size 600 becomes 512: page 1 is wholly past it.
        ("poke 573 128; poke 574 0", &[Rule::PastSizeStored]),
        // Entry 1 names block 0, entry 0 block 0 too.
        ("poke 579 0; poke 4 128", &[Rule::BlockNamedTwice]),
        // File 0 of set 1 is virgin: a size, a hole.
        ("poke 2685 1", &[Rule::VirginSize]),
        ("poke 2688 64", &[Rule::VirginMapped]),
        // The term of set 0, first day 0 and end day 36,525 (142, 173): end day 0, end
        // day 36,526, first day 36,525, first day 65,535, end day 65,535.
        ("poke 521 0; poke 522 0", &[Rule::FirstNotBelowEnd]),
        ("poke 522 174", &[Rule::EndDayOver]),
        ("poke 519 142; poke 520 173", &[Rule::FirstNotBelowEnd]),
        ("poke 519 142; poke 520 172", &[]),
        (
            "poke 519 255; poke 520 255; poke 521 255; poke 522 255",
            &[Rule::FirstNotBelowEnd, Rule::EndDayOver],
        ),
        // The term of set 1, and a term in set 2, which is not used.
        ("poke 528 0; poke 529 0", &[Rule::FirstNotBelowEnd]),
        ("poke 533 1", &[Rule::UnusedSetNotZero]),
        ("poke 535 142; poke 536 173", &[Rule::UnusedSetNotZero]),
        // File 0 of set 2, which is not used.
        ("poke 4796 192", &[Rule::UnusedSetHasFile]),
    ];
    for (damage, wanted) in cases {
        assert_eq!(reported(&format!("{base}{damage}")), wanted, "{damage}");
    }
}

/// The check is a sum of its rules for any bytes: it never fails to end, and
/// damaged tables give 1 in every call but the first part of the check, which
/// does not look at all of it, and the panel's, where a command gives 1 in register
/// 1.
#[test]
fn any_bytes_are_judged() {
    println!("seed {SEED}");
    let mut rng = Rng::new(SEED ^ 1);
    let pool = gen::pool(&mut rng, 20);
    let mut commands = 0;
    for round in 0..600 {
        let made = rng.pick(&pool);
        let mut tables = made.tables.clone();
        if round % 10 == 0 {
            tables.iter_mut().for_each(|byte| *byte = rng.word() as u8);
        } else {
            gen::damage(&mut rng, &mut tables);
        }
        let well_formed = is_well_formed(&tables, made.pages.len());
        let mut bench = Bench::with(tables, made.pages.clone());
        let turn_of = |index| panel::turn_of(&mut rng, &made.style, &made.beside, index);
        // A conversion is judged by the older tables, and may mend the tables.
        let calls = (1..CALLS).filter(|index| *index != CONVERT);
        for item in calls.flat_map(turn_of) {
            let Item::Call(call) = item else {
                // Another spare page.
                bench.step(&item, &mut NoOther).unwrap();
                continue;
            };
            let command = panel_judge::call_run(&call, bench.registers());
            let answer = bench.call(&call, &mut NoOther).unwrap();
            if call.is_of_panel() {
                assert_eq!(answer.number, panel_judge::number(&call, 16));
                if command.is_some() && !well_formed {
                    assert_eq!(bench.registers()[1], 1);
                    commands += 1;
                }
            } else if call == (Call::CheckBlocks {}) {
                let number = u32::from(!check_blocks(bench.tables()).is_empty());
                assert_eq!(answer, Answer::refused(number));
            } else if !well_formed {
                assert_eq!(answer, Answer::refused(1));
            } else if answer.number == 0 {
                break;
            }
        }
    }
    assert!(commands > 500, "{commands} commands on damaged tables");
}

#[test]
fn every_rule_has_a_name_of_its_own() {
    let names: BTreeSet<&str> = Rule::ALL.iter().map(|rule| rule.name()).collect();
    assert_eq!(names.len(), Rule::ALL.len());
    assert_eq!(Rule::ALL.len(), 39);
}
