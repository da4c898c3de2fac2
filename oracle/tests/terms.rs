//! Ask 8 of document 02, "Reference terms", case by case, worked out by hand from the
//! documents and the readings T1 to T6. Scripts run with plain store and tally beside,
//! and with each set's term told from the calls alone.

use oracle::bench::{Bench, NoOther, Other};
use oracle::call::*;
use oracle::check::{check_all, check_older, is_well_formed, Rule};
use oracle::conversion::{narrowed, Converted};
use oracle::dates::{date_of, day_number, end_day, end_uncut, Date, DAYS};
use oracle::gen;
use oracle::lent::Lending;
use oracle::rng::Rng;
use oracle::state::State;
use oracle::store;
use oracle::term_judge::{is_date, term_from};
use oracle::terms::{Case, Met};
use std::collections::BTreeSet;

mod script;
use script::{call_at, difference, pages, right, Named, Run, Store, Wrong};

const SEED: u64 = 80_000_008;

fn date(year: u32, month: u32, day: u32) -> Date {
    Date { year, month, day }
}

/// First day and end day of a set, straight from the bytes: the record of set s stands at
/// 516 + 7 s, and its term in its last four bytes.
fn term(store: &Store, set: usize) -> (usize, usize) {
    let record = &store.0.tables()[516 + 7 * set..][..7];
    let day = |at: usize| 256 * usize::from(record[at]) + usize::from(record[at + 1]);
    (day(3), day(5))
}

const DEFAULT: (usize, usize) = (0, 36_525);

// Dates.

/// "Day 0 is 1998-01-01 and day 36,524 is 2097-12-31, Gregorian."
#[test]
fn day_numbers() {
    let days = [
        (0, date(1998, 1, 1)),
        (30, date(1998, 1, 31)),
        (31, date(1998, 2, 1)),
        (58, date(1998, 2, 28)),
        (59, date(1998, 3, 1)),
        (60, date(1998, 3, 2)),
        (364, date(1998, 12, 31)),
        (365, date(1999, 1, 1)),
        (730, date(2000, 1, 1)),
        // 2000 is a leap year: the hundreds are, if four hundred divides them.
        (788, date(2000, 2, 28)),
        (789, date(2000, 2, 29)),
        (790, date(2000, 3, 1)),
        (1_095, date(2000, 12, 31)),
        (1_096, date(2001, 1, 1)),
        // Four years are 1,461 days.
        (1_461, date(2002, 1, 1)),
        (2_250, date(2004, 2, 29)),
        (35_853, date(2096, 2, 29)),
        (36_160, date(2097, 1, 1)),
        (36_218, date(2097, 2, 28)),
        (36_524, date(2097, 12, 31)),
    ];
    for (day, date) in days {
        assert_eq!(day_number(date), Some(day), "{date:?}");
        assert_eq!(date_of(day), date);
    }
}

/// Each date from a hundred years and more, by both reckonings; numbers at full width.
#[test]
fn dates_that_exist() {
    let mut count = 0;
    for year in 1_890..2_210 {
        for month in 0..15 {
            for day in 0..34 {
                let found = day_number(date(year, month, day));
                assert_eq!(found.is_some(), is_date(year, month, day), "{year}-{month}-{day}");
                assert!(found.is_none_or(|day| day == count), "they follow each other");
                count += usize::from(found.is_some());
            }
        }
    }
    assert_eq!(count, DAYS);
    let wrong = [
        (1997, 12, 31),
        (2098, 1, 1),
        (1999, 2, 29),
        (2001, 2, 29),
        (2000, 2, 30),
        (2097, 2, 29),
        (2010, 4, 31),
        (2010, 6, 31),
        (2010, 9, 31),
        (2010, 11, 31),
        (2010, 0, 1),
        (2010, 13, 1),
        (2010, 1, 0),
        (2010, 1, 32),
        (2_010 + 65_536, 1, 1),
        (2010, 257, 1),
        (2010, 1, 257),
        (u32::MAX, u32::MAX, u32::MAX),
    ];
    for (year, month, day) in wrong {
        assert_eq!(day_number(date(year, month, day)), None, "{year}-{month}-{day}");
        assert!(!is_date(year, month, day), "{year}-{month}-{day}");
    }
}

/// Every date with every count of months: the days counted one by one, against a
/// formula. 4,383,000 pairs.
#[test]
fn every_date_with_every_count_of_months() {
    let [mut cut, mut last_day] = [0; 2];
    for first in 0..DAYS {
        let date = date_of(first);
        let mut before = first;
        for months in 1..=120 {
            let end = end_day(date, months);
            let by_formula = term_from((date.year, date.month, date.day), months);
            assert_eq!((by_formula.first, by_formula.end), (first as u32, end as u32), "{date:?}");
            // "first below end and end at most 36,525"; more months, no earlier end.
            assert!(first < end && before <= end && end <= 36_525);
            let uncut = end_uncut(date, months);
            cut += usize::from(uncut > 36_525);
            last_day += usize::from(uncut < DAYS && date_of(uncut).day != date.day);
            before = end;
        }
    }
    println!("cut {cut}, last day of a month {last_day}");
    assert!(cut > 100_000 && last_day > 50_000);
}

/// The date, the months, first day and end day.
type Term = ((u32, u32, u32), u32, (usize, usize));

/// "the end is the same day of the later month, or that month's last day if it has no
/// such day; a later end is cut to 36,525".
const TERMS: [Term; 33] = [
    ((1998, 1, 1), 1, (0, 31)),
    ((1998, 1, 1), 12, (0, 365)),
    ((1998, 1, 1), 119, (0, 3_621)),
    ((1998, 1, 1), 120, (0, 3_652)),
    // 31 January and one month: the last day of February.
    ((1998, 1, 31), 1, (30, 58)),
    ((1998, 1, 30), 1, (29, 58)),
    ((1998, 1, 29), 1, (28, 58)),
    ((1998, 1, 28), 1, (27, 58)),
    ((1998, 1, 31), 2, (30, 89)),
    ((1999, 1, 31), 1, (395, 423)),
    ((2000, 1, 31), 1, (760, 789)),
    ((2000, 1, 30), 1, (759, 789)),
    ((2000, 1, 29), 1, (758, 789)),
    ((2000, 1, 28), 1, (757, 788)),
    // The last day of February is the 28th of March, not its last.
    ((1998, 2, 28), 1, (58, 86)),
    ((2000, 2, 29), 1, (789, 818)),
    // Months of 30 days.
    ((1998, 3, 31), 1, (89, 119)),
    ((1998, 8, 31), 1, (242, 272)),
    // Past December.
    ((1999, 12, 15), 1, (713, 744)),
    ((1999, 12, 31), 2, (729, 789)),
    ((1998, 12, 31), 14, (364, 789)),
    ((1998, 11, 30), 3, (333, 423)),
    // Leap days.
    ((2000, 2, 29), 12, (789, 1_154)),
    ((2000, 2, 29), 48, (789, 2_250)),
    ((2096, 2, 29), 12, (35_853, 36_218)),
    // 2100 is no leap year, but its days are cut anyway.
    ((2096, 2, 29), 48, (35_853, 36_525)),
    // Ends in the last month, on the day after it, and later.
    ((2097, 11, 30), 1, (36_493, 36_523)),
    ((2087, 12, 31), 120, (32_871, 36_524)),
    ((2088, 1, 1), 120, (32_872, 36_525)),
    ((2088, 1, 2), 120, (32_873, 36_525)),
    ((2097, 12, 1), 1, (36_494, 36_525)),
    ((2097, 12, 31), 1, (36_524, 36_525)),
    ((2097, 12, 31), 120, (36_524, 36_525)),
];

#[test]
fn terms_from_dates() {
    let mut store = Store::after(1, "make 0 3 0");
    for ((year, month, day), months, wanted) in TERMS {
        for set in [0, 3] {
            let line = format!("set-term {set} {year} {month} {day} {months}");
            let before = store.0.tables().to_vec();
            assert_eq!(store.does(&line), "0; 0, 0, 0", "{line}");
            assert_eq!(term(&store, set), wanted, "{line}");
            // No other byte changes.
            let mut kept = store.0.tables().to_vec();
            let range = 519 + 7 * set..523 + 7 * set;
            kept[range.clone()].copy_from_slice(&before[range]);
            assert!(kept == before, "{line}");
        }
    }
}

// Which sets have a term.

/// "Format and making a set give 0 and 36,525", whatever the parent's term; removing
/// leaves the record all zero.
#[test]
fn format_make_and_remove() {
    let mut store = Store::after(2, "");
    assert_eq!(term(&store, 0), DEFAULT);
    assert_eq!(store.0.tables()[519..523], [0, 0, 142, 173]);
    assert!((1..8).all(|set| term(&store, set) == (0, 0)));
    store.accepts("set-term 0 2000 2 29 1; make 0 1 0; make 0 7 1");
    assert_eq!(term(&store, 0), (789, 818));
    assert_eq!((term(&store, 1), term(&store, 7)), (DEFAULT, DEFAULT));
    store.accepts("set-term 1 1998 1 31 1; set-term 7 2097 12 31 1; make 1 2 0");
    assert_eq!([1, 7, 2].map(|set| term(&store, set)), [(30, 58), (36_524, 36_525), DEFAULT]);
    store.accepts("remove 7");
    assert_eq!(store.0.tables()[565..572], [0; 7]);
    store.accepts("make 2 7 1");
    assert_eq!(term(&store, 7), DEFAULT);
    store.accepts("format 512");
    assert_eq!(term(&store, 0), DEFAULT);
    assert!((1..8).all(|set| term(&store, set) == (0, 0)));
}

/// Any used set: 4 is for create, write, truncate and delete only (T3). Other calls leave
/// the term.
#[test]
fn of_set_0_and_of_read_only_sets() {
    let mut store = Store::after(4, "create 0 0; make 0 1 0; make 1 2 1");
    store.accepts("set-term 0 1998 1 1 1; set-term 1 1999 1 1 2; set-term 2 2000 1 1 3");
    let terms = [(0, 31), (365, 424), (730, 821)];
    let kept = |store: &Store| [0, 1, 2].map(|set| term(store, set)) == terms;
    assert!(kept(&store));
    store.accepts("write 0 0 0 600 1; truncate 0 0 100; create 2 1; delete 0 0; make 0 3 1");
    store.accepts("remove 3; read 2 1 0 5; free; check; check-blocks; current 1 365");
    assert!(kept(&store));
    for line in ["set-term 3 2000 1 1 1", "set-term 0 2000 2 30 1", "set-term 1 2000 1 1 121"] {
        assert_ne!(store.does(line), "0; 0, 0, 0", "{line}");
    }
    assert!(kept(&store));
}

// Numbers.

/// "It refuses a date that does not exist or lies outside these years with 14, and a month
/// count of 0 or over 120 with 15, both after 2, with 14 first."
#[test]
fn numbers_of_set_term() {
    let mut store = Store::after(1, "make 0 1 0");
    let cases = [
        // 2 before 14 and 15: set 2 is not used, 8 is no set.
        ("set-term 2 2000 1 1 1", 2),
        ("set-term 2 2000 2 30 1", 2),
        ("set-term 7 2000 1 1 0", 2),
        ("set-term 8 1997 13 32 121", 2),
        ("set-term 256 2000 1 1 1", 2),
        ("set-term 4294967295 2000 1 1 1", 2),
        // 14 before 15.
        ("set-term 0 1997 12 31 0", 14),
        ("set-term 1 2001 2 29 121", 14),
        ("set-term 0 1997 12 31 1", 14),
        ("set-term 0 2098 1 1 1", 14),
        ("set-term 0 0 1 1 1", 14),
        ("set-term 0 67534 1 1 1", 14),
        ("set-term 0 4294967295 1 1 1", 14),
        ("set-term 0 2000 0 1 1", 14),
        ("set-term 0 2000 13 1 1", 14),
        ("set-term 0 2000 257 1 1", 14),
        ("set-term 0 2000 4294967295 1 1", 14),
        ("set-term 0 2000 1 0 1", 14),
        ("set-term 0 2000 1 32 1", 14),
        ("set-term 0 2000 1 257 1", 14),
        ("set-term 0 2000 1 4294967295 1", 14),
        ("set-term 0 2000 2 30 1", 14),
        ("set-term 0 2001 2 29 1", 14),
        ("set-term 0 1998 2 30 1", 14),
        ("set-term 0 2000 4 31 1", 14),
        ("set-term 0 2000 6 31 1", 14),
        ("set-term 0 2000 9 31 1", 14),
        ("set-term 0 2000 11 31 1", 14),
        ("set-term 0 2000 1 1 0", 15),
        ("set-term 0 2000 1 1 121", 15),
        ("set-term 0 2000 1 1 256", 15),
        ("set-term 0 2000 1 1 257", 15),
        ("set-term 0 2000 1 1 65537", 15),
        ("set-term 1 2000 1 1 4294967295", 15),
        ("set-term 0 2000 2 29 1", 0),
        ("set-term 0 2000 1 31 120", 0),
        ("set-term 1 2000 12 31 1", 0),
    ];
    for (line, number) in cases {
        let before = store.0.tables().to_vec();
        assert_eq!(store.does(line), format!("{number}; 0, 0, 0"), "{line}");
        assert_eq!(store.0.tables() == before, number != 0, "{line}");
    }
    // 1 before all others.
    store.does("poke 3 1");
    assert_eq!(store.does("set-term 9 0 0 0 0"), "1; 0, 0, 0");
    assert_eq!(store.does("current 9 0"), "1; 0, 0, 0");
}

/// "A set is current on a day from the first day up to, but without, the end day. Asking
/// this for a day number gives 1 or 0 as the first count." Any number is taken (T5).
#[test]
fn current_days() {
    let mut store = Store::after(1, "make 0 1 0; set-term 1 2000 2 29 1");
    let cases: [(u32, u32); 16] = [
        (0, 0),
        (787, 0),
        (788, 0),
        (789, 1),
        (790, 1),
        (816, 1),
        (817, 1),
        (818, 0),
        (819, 0),
        (36_524, 0),
        (36_525, 0),
        (65_535, 0),
        // 789 but for the highest bits.
        (65_536 + 789, 0),
        (65_536 * 256 + 789, 0),
        ((1 << 31) + 789, 0),
        (u32::MAX, 0),
    ];
    for (day, is_current) in cases {
        let line = format!("current 1 {day}");
        assert_eq!(store.does(&line), format!("0; {is_current}, 0, 0"), "{line}");
    }
    // The default term: every day of the hundred years, and no other.
    for (day, is_current) in [(0, 1), (1, 1), (36_524, 1), (36_525, 0), (65_536, 0)] {
        assert_eq!(store.does(&format!("current 0 {day}")), format!("0; {is_current}, 0, 0"));
    }
    // The shortest term that there is.
    store.accepts("set-term 0 2097 12 31 1");
    for (day, is_current) in [(36_523, 0), (36_524, 1), (36_525, 0)] {
        assert_eq!(store.does(&format!("current 0 {day}")), format!("0; {is_current}, 0, 0"));
    }
    for set in [2, 7, 8, 257, u32::MAX] {
        assert_eq!(store.does(&format!("current {set} 0")), "2; 0, 0, 0");
    }
}

/// "Reading does not depend on the term."
#[test]
fn reading_does_not_depend_on_the_term() {
    let script = "create 0 0; write-narrow 0 0 0 512 1; make 0 1 1; write-narrow 0 0 0 512 2";
    let mut store = Store::after(4, script);
    let before = [store.reads(0), store.reads(1)];
    assert_eq!(before, [pages(&[2]), pages(&[1])]);
    for line in ["set-term 0 1998 1 1 1", "set-term 1 2097 12 31 1", "set-term 1 1998 1 1 1"] {
        store.accepts(line);
        assert_eq!([store.reads(0), store.reads(1)], before, "{line}");
        assert_eq!(store.does("read 1 0 0 512"), "0; 512, 1, 0");
        assert_eq!(store.does("size 1 0"), "0; 512, 0, 0");
    }
    assert_eq!(store.does("write 1 0 100 1 9"), "0; 0, 0, 0");
}

// Well formed.

/// The term of set 1 as bytes 526 to 529.
fn with_term(first: usize, end: usize) -> Vec<u8> {
    let store = Store::after(1, "make 0 1 0");
    let mut tables = store.0.tables().to_vec();
    let bytes = [first >> 8, first & 255, end >> 8, end & 255].map(|byte| byte as u8);
    tables[526..530].copy_from_slice(&bytes);
    tables
}

/// "Well formed now also asks, of a used set, first below end and end at most 36,525."
#[test]
fn well_formed_terms() {
    use Rule::{EndDayOver, FirstNotBelowEnd};
    let cases: [(usize, usize, &[Rule]); 12] = [
        (0, 36_525, &[]),
        (0, 1, &[]),
        (36_524, 36_525, &[]),
        (789, 790, &[]),
        (0, 0, &[FirstNotBelowEnd]),
        (1, 0, &[FirstNotBelowEnd]),
        (789, 789, &[FirstNotBelowEnd]),
        (36_525, 36_525, &[FirstNotBelowEnd]),
        (65_535, 1, &[FirstNotBelowEnd]),
        (0, 36_526, &[EndDayOver]),
        (65_534, 65_535, &[EndDayOver]),
        (65_535, 65_535, &[FirstNotBelowEnd, EndDayOver]),
    ];
    for (first, end, wanted) in cases {
        let tables = with_term(first, end);
        let found: Vec<Rule> = check_all(&tables, 512).iter().map(|broken| broken.rule).collect();
        assert_eq!(found, wanted, "{first} {end}");
        assert!(check_all(&tables, 512).iter().all(|broken| broken.set == Some(1)));
        // They are rules of the second part, and refusal 1 of every call.
        assert_eq!(store::check_blocks(&tables).number, 0);
        let number = u32::from(!wanted.is_empty());
        assert_eq!(store::check(&tables, &[0; 512]).number, number);
        assert_eq!(store::free(&tables, &[0; 512]).number, number);
    }
}

/// In words, with the place.
#[test]
fn broken_terms_are_told() {
    let told = |first, end| check_all(&with_term(first, end), 512)[0].to_string();
    let order = "first-day-not-below-end: A used set's first day is not below its end day. set 1";
    assert_eq!(told(5, 5), order);
    assert_eq!(told(0, 36_526), "end-day-over: A used set's end day is over 36,525. set 1");
}

/// From Ask 8 on every call takes 17,468 bytes only.
#[test]
fn other_calls_refuse_older_tables() {
    let mut store = Store::after(2, "create 0 0; write 0 0 0 600 1; make 0 1 1; panel-reset");
    let older = narrowed(store.0.tables());
    assert_eq!(older.len(), 17_436);
    assert!(check_older(&older, 1_024).is_empty());
    let mut bench = Bench::with(older.clone(), store.0.pages().to_vec());
    let calls = "create 0 1; write 0 0 0 1 1; write-narrow 0 0 0 1 1; write-groups 3 0 0 0 1 1; \
        read 0 0 0 1; truncate 0 0 0; delete 0 0; make 0 2 1; remove 1; size 0 0; free; \
        check-blocks; check; set-term 0 2000 1 1 1; current 0 0; format 1024";
    for item in Item::parse_script(calls).unwrap() {
        assert_eq!(bench.step(&item, &mut NoOther), Ok(Some(Answer::refused(1))), "{item}");
    }
    assert!(bench.tables() == older);
    store.does("tables 17436");
    store.does("panel-write 0 7");
    assert_eq!(store.0.registers()[1], 1);
}

// Conversions.

/// B = 3: file 0 stored in set 0, sets 1 (read-only) and 5 made from it, file 0 marked in
/// both, a set made from set 5, and terms.
const OLDER: &str = "create 0 0; write 0 0 0 1536 1; make 0 1 0; make 0 5 1; make 5 2 0; \
    write 0 0 0 600 2; set-term 0 2000 2 29 1; set-term 5 2097 12 31 1";

/// "A converter, lent the pages too, takes well-formed tables of 17,436 bytes into a second
/// buffer of 17,468, adding the default term to used sets".
#[test]
fn tables_are_converted() {
    let store = Store::after(3, OLDER);
    let (tables, pages) = (store.0.tables(), store.0.pages());
    let older = narrowed(tables);
    assert_eq!(older[..516], tables[..516]);
    assert_eq!(older[516..519], tables[516..519]);
    assert_eq!(older[531..534], tables[551..554]);
    assert_eq!(older[540..], tables[572..]);
    // What the new buffer holds makes no difference.
    for fill in [0, 0x5A, 255] {
        let mut new = vec![fill; 17_468];
        assert_eq!(store::convert(&older, pages, &mut new), Answer::default());
        assert_eq!(new[..516], older[..516]);
        for set in 0..8 {
            let record = &new[516 + 7 * set..][..7];
            assert_eq!(record[..3], older[516 + 3 * set..][..3]);
            let used = [0, 1, 2, 5].contains(&set);
            assert_eq!(record[3..], if used { [0, 0, 142, 173] } else { [0; 4] }, "{set}");
        }
        assert_eq!(new[572..], older[540..]);
        assert!(is_well_formed(&new, pages.len()));
        assert_eq!(narrowed(&new), older);
    }
}

/// "otherwise it answers 1 and writes nothing."
#[test]
fn conversions_are_refused() {
    let store = Store::after(3, OLDER);
    let (tables, pages) = (store.0.tables(), store.0.pages());
    let older = narrowed(tables);
    let refused = |older: &[u8], pages: &[u8], length: usize| {
        let mut new = vec![0xA7; length];
        assert_eq!(store::convert(older, pages, &mut new), Answer::refused(1));
        assert!(new.iter().all(|byte| *byte == 0xA7), "nothing is written");
    };
    // The new length.
    for length in [0, 1, 516, 17_436, 17_467, 17_469, 34_936] {
        refused(&older, pages, length);
    }
    // The older length. Of 17,468 bytes too, if they are only made longer.
    for length in [0, 1, 3, 540, 17_435, 17_437, 17_467, 17_468, 17_469, 34_872] {
        let mut other = older.clone();
        other.resize(length, 0);
        refused(&other, pages, 17_468);
    }
    // The pages' length.
    for length in [0, 1, 1_024, 1_535, 1_537, 2_048] {
        refused(&older, &vec![0; length], 17_468);
    }
    // Bytes: header, bitmap, set records of sets 0, 1 and 3 (unused), file records.
    for (at, value) in [(3, 1), (4, 0), (515, 1), (516, 132), (518, 1), (519, 0), (525, 1)] {
        let mut other = older.clone();
        other[at] = value;
        refused(&other, pages, 17_468);
    }
    for (at, value) in [(540, 192), (543, 1), (544, 192), (17_435, 1)] {
        let mut other = older.clone();
        other[at] = value;
        refused(&other, pages, 17_468);
    }
    refused(&[0x69; 17_436], pages, 17_468);
}

/// Each rule of their time, broken alone in the older tables. A broken term is not in those
/// of 17,436 bytes, and no rule on marked files is of their time in either.
#[test]
fn each_rule_of_their_time_is_asked_of_older_tables() {
    println!("seed {SEED}");
    let mut rng = Rng::new(SEED);
    for rule in Rule::ALL {
        for _ in 0..10 {
            let broke = gen::break_alone(&mut rng, *rule);
            for older in [narrowed(&broke.tables), broke.tables.clone()] {
                let before = vec![0xA7; TABLES_BYTES];
                let mut new = before.clone();
                let answer = store::convert(&older, &broke.pages, &mut new);
                let broken = check_older(&older, broke.pages.len());
                let rules: BTreeSet<Rule> = broken.iter().map(|broken| broken.rule).collect();
                let is_short = older.len() == OLDER_TABLES_BYTES;
                let is_taken = match rule {
                    Rule::MarkedSize | Rule::MarkedMapped => true,
                    Rule::FirstNotBelowEnd | Rule::EndDayOver => is_short,
                    // A term in an unused set, or another field of it.
                    Rule::UnusedSetNotZero => is_short && rules.is_empty(),
                    // Tables of 17,436 bytes that were well formed before Ask 8.
                    Rule::TablesLength => is_short && rules.is_empty(),
                    _ => false,
                };
                assert_eq!(answer, Answer::refused(u32::from(!is_taken)), "{rule:?}");
                assert_eq!(new == before, !is_taken, "{rule:?}");
                assert_eq!(rules.contains(rule), !is_taken, "{rule:?}: {rules:?}");
                assert!(!is_taken || is_well_formed(&new, broke.pages.len()));
            }
        }
    }
}

/// A script: the tables go to the second buffer without their terms, and are converted
/// back. Plain store and tally go on.
#[test]
fn plain_store_and_tally_go_on() {
    let mut store = Store::after(3, OLDER);
    store.does("narrow");
    assert_eq!(store.0.second(), narrowed(store.0.tables()));
    assert_eq!(store.does("current 5 36523"), "0; 0, 0, 0");
    // Calls that change the tables alone come between.
    store.accepts("set-term 1 1998 1 1 1; make 0 3 1; create 3 4");
    assert_eq!(store.does("convert"), "0; 0, 0, 0");
    assert_eq!([0, 1, 2, 3, 5].map(|set| term(&store, set)), {
        [DEFAULT, DEFAULT, DEFAULT, (0, 0), DEFAULT]
    });
    assert!(store.0.beside.is_some());
    assert_eq!(store.does("current 5 36523"), "0; 1, 0, 0");
    assert_eq!(store.does("size 3 4"), "2; 0, 0, 0");
    // Into other bytes, after lengths that are refused.
    store.does("narrow");
    for line in ["tables 0", "tables 17436", "fill-tables 5", "tables 17467"] {
        store.does(line);
        assert!(store.0.beside.is_none());
        assert_eq!(store.does("convert"), "1; 0, 0, 0", "{line}");
    }
    store.does("tables 17468");
    store.does("fill-tables 9");
    assert!(store.0.tables().iter().all(|byte| *byte != 0));
    assert_eq!(store.does("convert"), "0; 0, 0, 0");
    assert!(store.0.beside.is_some());
    // Another change of the second tables, or of the pages: nothing is known of them.
    store.does("narrow");
    store.does("poke-second 3 1");
    assert_eq!(store.does("convert"), "1; 0, 0, 0");
    assert!(store.0.beside.is_some());
    store.does("poke-second 3 0");
    assert_eq!(store.does("convert"), "0; 0, 0, 0");
    assert!(store.0.beside.is_none());
    store.accepts("format 1536; create 0 0");
    store.does("narrow");
    store.accepts("write 0 0 0 1 9");
    assert_eq!(store.does("convert"), "0; 0, 0, 0");
    assert!(store.0.beside.is_none());
}

/// The judge of conversions, by hand: a changed answer, and a changed byte of each part.
#[test]
fn the_judge_of_conversions_can_say_no() {
    let store = Store::after(3, OLDER);
    let older = narrowed(store.0.tables());
    let before = vec![0x5A; TABLES_BYTES];
    let mut after = before.clone();
    let answer = store::convert(&older, store.0.pages(), &mut after);
    let right =
        Converted { older: &older, pages_length: 1_536, before: &before, after: &after, answer };
    assert_eq!(right.judge(), Ok(()));
    for at in [0, 3, 515, 516, 519, 522, 523, 537, 543, 571, 572, 17_467] {
        let mut changed = after.clone();
        changed[at] ^= 1;
        let text = Converted { after: &changed, ..right }.judge().expect_err("a changed byte");
        assert!(text.starts_with(&format!("byte {at} of the new tables is ")), "{text}");
    }
    let other_answers = [Answer::refused(1), Answer::refused(2), Answer::accepted([1, 0, 0])];
    for answer in other_answers {
        assert!(Converted { answer, ..right }.judge().is_err());
    }
    // Refused: nothing may be written.
    let refused = Converted { pages_length: 1_535, answer: Answer::refused(1), ..right };
    assert!(refused.judge().is_err());
    assert_eq!(Converted { after: &before, ..refused }.judge(), Ok(()));
}

// Lines of scripts, and what the calls are lent.

#[test]
fn calls_and_lines() {
    use Buffer::{Pages, Second, Tables};
    use Lending::{Changed, ReadOnly};
    let wanted: [Named; 3] = [
        (
            "set-term 1 2000 2 29 120",
            &[1, 2000, 2, 29, 120],
            &[(Tables, Changed), (Pages, Changed)],
        ),
        ("current 7 4294967295", &[7, u32::MAX], &[(Tables, ReadOnly), (Pages, ReadOnly)]),
        ("convert", &[], &[(Tables, Changed), (Pages, ReadOnly), (Second, ReadOnly)]),
    ];
    for (place, named) in (17..).zip(wanted) {
        call_at(place, named);
    }
    assert_eq!((gen::SET_TERM, gen::CURRENT, gen::CONVERT), (17, 18, 19));
    assert_eq!(Item::parse("narrow"), Ok(Item::Narrow));
    assert_eq!(Item::Narrow.to_string(), "narrow");
    let fill = Item::Fill { buffer: Tables, seed: 7 };
    assert_eq!(
        (fill.to_string().as_str(), Item::parse("fill-tables 7")),
        ("fill-tables 7", Ok(fill))
    );
    for bad in [
        "narrow 1",
        "fill-tables",
        "fill 7",
        "convert 0",
        "set-term 0 2000 1 1",
        "current 0",
        "current 0 -1",
    ] {
        assert!(Item::parse(bad).is_err(), "{bad}");
    }
}

// Wrong programs.

/// Sets, terms, days and conversions in which each wrong program shows itself.
const ALL_CASES: &str = "format 1536; create 0 0; write 0 0 0 600 1; make 0 1 0; \
    set-term 0 2000 2 29 1; set-term 1 1998 1 31 1; set-term 0 1998 3 31 1; \
    set-term 0 2010 4 31 1; set-term 0 2010 4 30 1; set-term 0 2000 2 30 1; \
    set-term 0 2001 2 29 1; set-term 0 1999 12 15 3; set-term 0 2097 12 31 5; \
    set-term 0 2097 12 31 0; set-term 0 1997 12 31 121; set-term 2 2000 1 1 1; \
    set-term 9 2000 2 30 0; set-term 0 2000 1 1 121; set-term 0 2000 1 1 257; \
    set-term 0 2000 257 1 1; set-term 1 2000 2 29 12; current 1 788; current 1 789; \
    current 1 1153; current 1 1154; current 1 66325; current 1 4294967295; current 2 0; \
    read 1 0 0 5; make 1 4 1; make 0 5 1; remove 5; set-term 4 1998 1 1 120; \
    narrow; convert; set-term 1 2000 1 1 1; narrow; tables 17467; convert; tables 17468; convert; \
    narrow; second 17468; convert; narrow; poke-second 3 1; convert; narrow; pages 1535; convert; \
    pages 1536; convert; tables 17436; free; size 0 0; check; check-blocks; narrow; tables 17468; \
    format 1536";

fn put_end(tables: &mut [u8], set: u32, end: usize) {
    let at = 516 + 7 * set as usize + 5;
    tables[at..at + 2].copy_from_slice(&(end as u16).to_be_bytes());
}

/// A wrong reckoning of the end, from the date, the months and the right uncut end.
fn wrong_end(n: &Numbers, lent: Lent, reckon: fn(Date, u32, usize) -> usize) -> Answer {
    let tables = &mut *lent.tables;
    let lent = Lent::store(&mut *tables, lent.pages, lent.bytes);
    let answer = store::run(gen::SET_TERM, n, lent);
    if answer.number == 0 {
        let date = date(n[1], n[2], n[3]);
        put_end(tables, n[0], reckon(date, n[4], end_uncut(date, n[4])));
    }
    answer
}

const SET_TERM: &[&str] = &["set-term"];
const CURRENT: &[&str] = &["current"];
const CONVERT: &[&str] = &["convert"];

/// Each wrong program is seen; the right one is not.
#[test]
fn wrong_programs_are_noticed() {
    let all: &[&str] = &CALL_NAMES[..20];
    assert_eq!(difference(ALL_CASES, &mut Wrong { calls: all, run: right }), None);
    let wrong: [(&str, &'static [&'static str], Run); 30] = [
        ("31 April is taken", SET_TERM, |index, n, lent| {
            let day = if n[2] == 4 && n[3] == 31 { 30 } else { n[3] };
            right(index, &[n[0], n[1], n[2], day, n[4]], lent)
        }),
        ("2000 is no leap year", SET_TERM, |index, n, lent| match (n[1], n[2], n[3]) {
            (2000, 2, 29) => Answer::refused(14),
            _ => right(index, n, lent),
        }),
        ("2000 is no leap year, for an end", SET_TERM, |_, n, lent| {
            wrong_end(n, lent, |_, _, end| if end > 789 { end - 1 } else { end }.min(36_525))
        }),
        ("every year is a leap year", SET_TERM, |index, n, lent| {
            let missing = n[2] == 2 && n[3] == 29 && !is_date(n[1], n[2], n[3]);
            let day = if missing { 28 } else { n[3] };
            right(index, &[n[0], n[1], n[2], day, n[4]], lent)
        }),
        ("30 February is taken", SET_TERM, |index, n, lent| {
            let day = if n[2] == 2 && n[3] == 30 { 28 } else { n[3] };
            right(index, &[n[0], n[1], n[2], day, n[4]], lent)
        }),
        ("months past December are not carried", SET_TERM, |_, n, lent| {
            wrong_end(n, lent, |date, months, end| {
                let month = (date.month + months - 1) % 12 + 1;
                let same_year = Date { month, ..date };
                if date.month + months <= 12 {
                    end
                } else {
                    day_number(same_year).unwrap_or(end)
                }
            })
        }),
        ("the day is not cut to the month's last", SET_TERM, |_, n, lent| {
            wrong_end(n, lent, |date, _, end| {
                let more = if end < DAYS { date.day - date_of(end).day } else { 0 };
                (end + more as usize).min(36_525)
            })
        }),
        ("the 28th where the day is missing", SET_TERM, |_, n, lent| {
            wrong_end(n, lent, |date, _, end| match end < DAYS && date_of(end).day < date.day {
                true => end + 28 - date_of(end).day as usize,
                false => end.min(36_525),
            })
        }),
        ("the last day of a month stays the last", SET_TERM, |_, n, lent| {
            wrong_end(n, lent, |date, _, end| match (date.month, date.day) {
                (4, 30) => end + 1,
                _ => end.min(36_525),
            })
        }),
        ("the end is not cut", SET_TERM, |_, n, lent| wrong_end(n, lent, |_, _, end| end)),
        ("the end is cut to 36,524", SET_TERM, |_, n, lent| {
            wrong_end(n, lent, |_, _, end| end.min(36_524))
        }),
        ("the end day is one of the term", SET_TERM, |_, n, lent| {
            wrong_end(n, lent, |_, _, end| (end - 1).min(36_525))
        }),
        ("15 before 14", SET_TERM, |index, n, lent| match right(index, n, lent) {
            Answer { number: 14, .. } if n[4] == 0 || n[4] > 120 => Answer::refused(15),
            answer => answer,
        }),
        ("14 before 2", SET_TERM, |index, n, lent| match right(index, n, lent) {
            Answer { number: 2, .. } if !is_date(n[1], n[2], n[3]) => Answer::refused(14),
            answer => answer,
        }),
        ("121 months are taken", SET_TERM, |index, n, lent| {
            right(index, &[n[0], n[1], n[2], n[3], if n[4] == 121 { 120 } else { n[4] }], lent)
        }),
        ("0 months are taken", SET_TERM, |index, n, lent| {
            right(index, &[n[0], n[1], n[2], n[3], n[4].max(1)], lent)
        }),
        ("months by their low byte", SET_TERM, |index, n, lent| {
            right(index, &[n[0], n[1], n[2], n[3], n[4] & 255], lent)
        }),
        ("the month by its low byte", SET_TERM, |index, n, lent| {
            right(index, &[n[0], n[1], n[2] & 255, n[3], n[4]], lent)
        }),
        ("the term of a read-only set is refused", SET_TERM, |index, n, lent| match n[0] {
            1 => Answer::refused(4),
            _ => right(index, n, lent),
        }),
        ("a term in an unused set", SET_TERM, |index, n, lent| {
            let tables = &mut *lent.tables;
            let unused = n[0] < 8 && tables[516 + 7 * n[0] as usize] == 0;
            let answer = right(index, n, Lent::store(&mut *tables, lent.pages, lent.bytes));
            if answer.number != 2 || !unused {
                return answer;
            }
            put_end(tables, n[0], 36_525);
            Answer::default()
        }),
        ("the end day is current", CURRENT, |index, n, lent| {
            let at = 516 + 7 * (n[0] as usize & 7) + 5;
            let end = u32::from(lent.tables[at]) << 8 | u32::from(lent.tables[at + 1]);
            match right(index, n, lent) {
                Answer { number: 0, .. } if n[1] == end => Answer::accepted([1, 0, 0]),
                answer => answer,
            }
        }),
        ("a day by its low 16 bits", CURRENT, |index, n, lent| {
            right(index, &[n[0], n[1] & 65_535, 0, 0, 0], lent)
        }),
        ("a late day is no day", CURRENT, |index, n, lent| match n[1] {
            0..=36_524 => right(index, n, lent),
            _ => Answer::refused(14),
        }),
        ("the converter writes before it has checked", CONVERT, |index, n, mut lent| {
            lent.tables[0] ^= 1;
            let answer = right(index, n, lent.again());
            if answer.number != 0 {
                lent.tables[0] ^= 1;
                lent.tables[572] = 0xEE;
            }
            answer
        }),
        ("the converter takes any tables of the new length", CONVERT, |index, n, mut lent| {
            let answer = right(index, n, lent.again());
            match lent.second.len() == lent.tables.len() {
                true => Answer::default(),
                false => answer,
            }
        }),
        ("the converter does not look at the pages", CONVERT, |index, n, mut lent| {
            let blocks = usize::from(lent.second[0]) << 5 | usize::from(lent.second[1]) >> 3;
            let mut pages = vec![0; blocks * 512];
            let buffers = lent.again();
            right(index, n, Lent { pages: &mut pages, ..buffers })
        }),
        ("unused sets get the default term", CONVERT, |index, n, mut lent| {
            let answer = right(index, n, lent.again());
            if answer.number == 0 {
                (0..8).for_each(|set| put_end(lent.tables, set, 36_525));
            }
            answer
        }),
        ("older tables are changed", CONVERT, |index, n, mut lent| {
            let answer = right(index, n, lent.again());
            if answer.number == 0 {
                lent.second[100] ^= 1;
            }
            answer
        }),
        ("another call takes the older length", &["free"], |index, n, mut lent| {
            match right(index, n, lent.again()) {
                Answer { number: 1, .. } if lent.tables.len() == 17_436 => {
                    Answer::accepted([1, 0, 0])
                }
                answer => answer,
            }
        }),
        ("a set is made with its parent's term", &["make"], |index, n, mut lent| {
            let answer = right(index, n, lent.again());
            if answer.number == 0 {
                let parent = 519 + 7 * n[0] as usize;
                lent.tables.copy_within(parent..parent + 4, 519 + 7 * n[1] as usize);
            }
            answer
        }),
    ];
    for (name, calls, run) in wrong {
        assert!(difference(ALL_CASES, &mut Wrong { calls, run }).is_some(), "{name}");
    }
    type Fault = fn(&mut [u8]);
    let left: [(&str, &'static [&'static str], Fault); 2] = [
        ("a removed set keeps its term", &["remove"], |tables| put_end(tables, 5, 36_525)),
        ("a format leaves set 0 without a term", &["format"], |tables| put_end(tables, 0, 0)),
    ];
    for (name, calls, fault) in left {
        assert!(difference(ALL_CASES, &mut After { calls, fault }).is_some(), "{name}");
    }
}

/// The right calls, with a change of the tables after an accepted one.
struct After {
    calls: &'static [&'static str],
    fault: fn(&mut [u8]),
}

impl Other for After {
    fn has(&self, index: usize) -> bool {
        self.calls.contains(&CALL_NAMES[index])
    }

    fn run(&mut self, index: usize, numbers: &Numbers, mut lent: Lent) -> Answer {
        let answer = store::run(index, numbers, lent.again());
        if answer.number == 0 {
            (self.fault)(lent.tables);
        }
        answer
    }
}

// What is counted.

/// Lines on a store of one block, with the cases that the last of them meets.
const COUNTED: [(&str, &[Case]); 43] = [
    ("set-term 0 1998 1 1 1", &[Case::SameDay, Case::OneMonth, Case::FirstDate, Case::OfSet0]),
    ("set-term 1 1998 1 31 1", &[Case::LastDay, Case::OneMonth, Case::OfReadOnly]),
    ("set-term 2 1998 1 31 1", &[Case::LastDay, Case::OneMonth]),
    (
        "set-term 2 1998 3 3 3; set-term 2 1999 11 30 3",
        &[Case::LastDay, Case::PastDecember, Case::EndLeapDay, Case::SetAgain],
    ),
    ("set-term 2 2000 2 29 3", &[Case::SameDay, Case::LeapDay]),
    (
        "set-term 2 2000 2 29 120",
        &[Case::LastDay, Case::PastDecember, Case::LeapDay, Case::MostMonths],
    ),
    (
        "set-term 2 2000 2 29 48",
        &[Case::SameDay, Case::PastDecember, Case::LeapDay, Case::EndLeapDay],
    ),
    ("set-term 2 2097 12 1 1", &[Case::PastDecember, Case::EndJust, Case::OneMonth]),
    ("set-term 2 2097 12 31 2", &[Case::PastDecember, Case::EndCut, Case::LastDate]),
    ("set-term 3 2000 2 30 0", &[Case::TermNoSet]),
    ("set-term 3 2000 2 28 0", &[]),
    ("set-term 0 1997 1 1 1", &[Case::YearOutside]),
    ("set-term 0 2000 13 1 1", &[Case::MonthOutside]),
    ("set-term 0 2000 1 32 1", &[Case::DayOutside]),
    ("set-term 0 2000 2 30 1", &[Case::DayMissing]),
    ("set-term 0 2000 4 31 121", &[Case::DayMissing, Case::DateAndMonths]),
    ("set-term 0 2001 2 29 1", &[Case::NoLeapDay]),
    ("set-term 0 2000 2 29 0", &[Case::NoMonths]),
    ("set-term 0 2000 2 29 121", &[Case::ManyMonths]),
    ("set-term 2 2000 2 29 1; current 2 789", &[Case::OnFirst]),
    ("set-term 2 2000 2 29 1; current 2 817", &[Case::BeforeEnd]),
    ("set-term 2 2000 2 29 1; current 2 788", &[Case::BeforeFirst]),
    ("set-term 2 2000 2 29 1; current 2 818", &[Case::OnEnd]),
    ("set-term 2 2000 2 29 1; current 2 800", &[]),
    ("current 2 36525", &[Case::OnEnd, Case::AfterAll]),
    ("current 2 65535", &[Case::AfterAll]),
    ("current 2 65536", &[Case::WideDay]),
    ("current 3 65536", &[Case::CurrentNoSet]),
    ("narrow; convert", &[Case::Converted, Case::ConvertedSets]),
    (
        "remove 1; remove 2; set-term 0 1998 1 1 1; narrow; convert",
        &[Case::Converted, Case::OverTerm],
    ),
    (
        "narrow; tables 0; tables 17468; convert",
        &[Case::Converted, Case::ConvertedSets, Case::OverOther],
    ),
    ("narrow; second 17437; convert", &[Case::OlderLength]),
    ("keep; convert", &[Case::Converted, Case::ConvertedSets]),
    ("set-term 0 1998 1 1 1; keep; convert", &[Case::Converted, Case::ConvertedSets]),
    (
        "keep; set-term 0 1998 1 1 1; convert",
        &[Case::Converted, Case::ConvertedSets, Case::OverTerm],
    ),
    (
        "keep; poke-second 521 0; poke-second 522 0; convert",
        &[Case::OlderTerm, Case::OlderSecondPart],
    ),
    ("narrow; tables 17467; convert", &[Case::NewLength]),
    ("narrow; tables 17436; convert", &[Case::NewLength, Case::ShortNew]),
    ("narrow; pages 513; convert", &[Case::ConvertPages]),
    ("narrow; poke-second 515 1; convert", &[Case::OlderFirstPart]),
    ("narrow; poke-second 3 1; convert", &[Case::OlderSecondPart]),
    ("set-term 2 1998 1 1 1; make 2 3 1", &[Case::MadeFromTerm]),
    ("poke 522 0; poke 521 0; free", &[Case::BadTerm]),
];

#[test]
fn cases_are_counted() {
    for (lines, wanted) in COUNTED {
        let mut store = Store::after(1, "make 0 1 0; make 0 2 1");
        let script = Item::parse_script(lines).unwrap();
        let (last, before) = script.split_last().unwrap();
        before.iter().for_each(|item| drop(store.does(&item.to_string())));
        store.0.counts = Default::default();
        store.0.step(last, &mut NoOther).unwrap();
        let found: Vec<Case> = store.0.counts.terms.cases.keys().copied().collect();
        assert_eq!(found, wanted, "{lines}");
        assert_eq!(store.0.counts.terms.unmet().len(), Case::ALL.len() - wanted.len());
    }
}

/// Sets that are removed and stores that are formatted anew; older tables; a marked file.
#[test]
fn more_cases_are_counted() {
    let mut store = Store::after(1, "create 0 0; write 0 0 0 1 1; make 0 1 0; write 0 0 0 1 2");
    store.accepts("set-term 0 1998 1 1 1; set-term 1 1998 1 1 1");
    let mut cases = |line: &str| {
        store.0.counts = Default::default();
        store.does(line);
        store.0.counts.terms.cases.keys().copied().collect::<Vec<Case>>()
    };
    assert_eq!(cases("narrow"), []);
    assert_eq!(cases("remove 1"), [Case::RemovedTerm]);
    let converted = [Case::Converted, Case::ConvertedSets, Case::ConvertedMarked];
    assert_eq!(cases("convert"), converted);
    assert_eq!(cases("set-term 0 1998 1 1 12")[0], Case::SameDay);
    assert_eq!(cases("format 512"), [Case::FormattedTerm]);
    let older = narrowed(&State::formatted(1).packed());
    let mut bench = Bench::with(older, vec![0; 512]);
    bench.call(&Call::Free {}, &mut NoOther).unwrap();
    assert_eq!(bench.counts.terms.of(Case::OlderTables), 1);
}

/// One line tells all.
#[test]
fn the_line_that_tells_of_it() {
    let mut store = Store::after(1, "");
    store.does("set-term 0 1998 1 1 1");
    store.does("free");
    let told = store.0.counts.terms.to_string();
    assert!(told.starts_with(
        "1, of the library 0; the end is the same day of the later month: 1; \
        the later month has no such day, the end is its last day: 0; "
    ));
    assert!(told.ends_with("; a call is refused for a term alone: 0"));
    assert_eq!(Met::default().unmet().len(), Case::ALL.len());
}
