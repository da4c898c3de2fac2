//! Random terms, days asked for, and conversions; and histories in which they come more
//! often than in others.

use super::*;
use crate::dates::{date_of, DAYS};

/// Dates at the edges of what is taken: the first and the last day, leap days, days that
/// later months have not, ends of years.
const EDGE_DATES: [(u32, u32, u32); 20] = [
    (1998, 1, 1),
    (1998, 1, 31),
    (1998, 12, 31),
    (1999, 2, 28),
    (1999, 12, 31),
    (2000, 1, 1),
    (2000, 1, 31),
    (2000, 2, 28),
    (2000, 2, 29),
    (2000, 3, 1),
    (2004, 2, 29),
    (2023, 8, 31),
    (2087, 12, 31),
    (2088, 1, 1),
    (2096, 2, 29),
    (2096, 12, 31),
    (2097, 1, 1),
    (2097, 11, 30),
    (2097, 12, 1),
    (2097, 12, 31),
];

/// Dates that do not exist or lie outside the years, some with numbers whose low bits
/// would do.
const WRONG_DATES: [(u32, u32, u32); 34] = [
    (1997, 12, 31),
    (2098, 1, 1),
    (0, 1, 1),
    (1900, 2, 28),
    (2100, 2, 28),
    (1998 + 65_536, 1, 1),
    (1998 + (1 << 31), 1, 1),
    (u32::MAX, 12, 31),
    (2010, 0, 1),
    (2010, 13, 1),
    (2010, 1 + 256, 1),
    (2010, 65_536 + 5, 5),
    (2010, u32::MAX, 5),
    (2010, 1, 0),
    (2010, 1, 32),
    (2010, 2, 0),
    (2010, 1, 1 + 256),
    (2010, 12, 65_536 + 12),
    (2010, 12, u32::MAX),
    (1999, 2, 29),
    (2001, 2, 29),
    (2097, 2, 29),
    (2000, 2, 30),
    (2001, 2, 30),
    (2096, 2, 31),
    (2010, 4, 31),
    (2010, 6, 31),
    (2010, 9, 31),
    (2010, 11, 31),
    (1998, 4, 31),
    (2097, 11, 31),
    (1997, 13, 32),
    (0, 0, 0),
    (u32::MAX, u32::MAX, u32::MAX),
];

const EDGE_MONTHS: [u32; 9] = [1, 1, 2, 11, 12, 13, 119, 120, 120];
const WRONG_MONTHS: [u32; 9] = [0, 0, 121, 122, 255, 256 + 12, 65_536 + 12, 1 << 31, u32::MAX];
/// Days that no set is current on, some with low bits that would do.
const LATE_DAYS: [u32; 7] = [36_525, 36_526, 65_535, 65_536, 65_537, 1 << 31, u32::MAX];

fn any_date(rng: &mut Rng, style: &Style) -> (u32, u32, u32) {
    if rng.percent(style.wild + 8) {
        return rng.pick(&WRONG_DATES);
    }
    match rng.below(10) {
        0..=2 => {
            let date = date_of(rng.below(DAYS));
            (date.year, date.month, date.day)
        }
        3 => rng.pick(&[(1998, 1, 1), (2097, 12, 31)]),
        4 | 5 => rng.pick(&EDGE_DATES),
        6 | 7 => {
            let (year, month) = (rng.between(1998, 2097), rng.between(1, 12));
            // Not all of them exist.
            (year as u32, month as u32, rng.between(28, 31) as u32)
        }
        8 => (rng.between(1998, 2097) as u32, 2, 29),
        // An end in the last years, cut or not.
        _ => (rng.between(2086, 2097) as u32, rng.between(1, 12) as u32, rng.pick(&[1, 15, 28])),
    }
}

fn any_months(rng: &mut Rng, style: &Style) -> u32 {
    if rng.percent(style.wild + 5) {
        return rng.pick(&WRONG_MONTHS);
    }
    let random = rng.between(1, 120) as u32;
    if rng.percent(60) {
        rng.pick(&EDGE_MONTHS)
    } else {
        random
    }
}

/// A random term for a set, mostly one that is used.
pub fn set_term(rng: &mut Rng, style: &Style, beside: &Beside) -> Call {
    let set = any_set(rng, style, beside);
    let ((year, month, day), months) = match rng.below(100) {
        // The later month is January 2098: from the first of a month the end is 36,525
        // without a cut.
        0..=4 => before_month(rng, (2098, 1), &[1, 1, 1, 2, 28]),
        // The later month has a leap day.
        5..=8 => {
            let leap_year = 2000 + 4 * rng.below(25) as u32;
            before_month(rng, (leap_year, 2), &[29, 29, 30, 31])
        }
        // Nothing is right, mostly not the set either.
        9 | 10 => {
            let wrong_set = [rng.below(SETS) as u32, rng.pick(&WILD_SETS)][rng.below(2)];
            let ((year, month, day), months) = (rng.pick(&WRONG_DATES), rng.pick(&WRONG_MONTHS));
            return Call::SetTerm { set: wrong_set, year, month, day, months };
        }
        _ => (any_date(rng, style), any_months(rng, style)),
    };
    Call::SetTerm { set, year, month, day, months }
}

/// One of these days of a month, and so many months that the later month is this one.
fn before_month(rng: &mut Rng, (year, month): (u32, u32), days: &[u32]) -> ((u32, u32, u32), u32) {
    // Months are counted from January 1998 on.
    let later = 12 * (year - 1998) + month - 1;
    let months = rng.between(1, later.min(120) as usize) as u32;
    let first = later - months;
    ((1998 + first / 12, 1 + first % 12, rng.pick(days)), months)
}

/// A day, mostly at the edges of the set's term.
pub fn current(rng: &mut Rng, style: &Style, beside: &Beside) -> Call {
    let set = any_set(rng, style, beside);
    let term = ((set as usize) < SETS).then(|| beside.terms.of(set as usize)).flatten();
    let mut days = vec![rng.below(DAYS) as u32, rng.pick(&[0, 36_524]), rng.pick(&LATE_DAYS)];
    if let Some(term) = term {
        let edges = [term.first, term.first + 1, term.end - 1, term.end, term.end + 1];
        for _ in 0..2 {
            days.extend(edges);
            days.extend(term.first.checked_sub(1));
        }
        // A day of the term but for its highest bits.
        days.push(term.first + (rng.between(1, 65_535) << 16) as u32);
    }
    Call::Current { set, day: rng.pick(&days) }
}

/// Bytes of older tables of either length that break a rule of document 01 wherever they
/// are put in a well-formed store's: a block count over 4,096, a zero field of the header
/// and of set 0, and set 0 not used, not writeable, at level 1.
const BREAKS: [(usize, u8); 6] = [(0, 255), (3, 1), (518, 1), (516, 68), (516, 132), (516, 204)];
/// The end day of set 0 becomes 0, in tables that have terms.
const BREAKS_TERM: [(usize, u8); 2] = [(521, 0), (522, 0)];
/// Lengths that the converter refuses, of the older tables and of the new buffer.
const WRONG_OLDER: [usize; 8] = [0, 1, 540, 17_435, 17_437, 17_467, 17_469, 40_000];
const WRONG_NEW: [usize; 7] = [0, 1, 572, 17_467, 17_469, OLDER_TABLES_BYTES, 40_000];

/// The new buffer is filled with any bytes, or with zeros, or has some other bytes.
fn any_new_buffer(rng: &mut Rng) -> Vec<Item> {
    if rng.percent(60) {
        return vec![Item::Fill { buffer: Buffer::Tables, seed: data_seed(rng) }];
    }
    let poke = |_| {
        let end = if rng.percent(50) { 572 } else { TABLES_BYTES };
        Item::Poke { buffer: Buffer::Tables, at: rng.below(end), value: rng.word() as u8 }
    };
    (0..30).map(poke).collect()
}

/// Calls that change the tables alone, so that the older tables and the pages are still
/// a store.
fn calls_meanwhile(rng: &mut Rng, style: &Style, beside: &Beside) -> Vec<Item> {
    let index = |rng: &mut Rng| rng.pick(&[CREATE, MAKE, REMOVE, SET_TERM, SET_TERM, CURRENT]);
    let mut calls = Vec::new();
    for _ in 0..rng.between(1, 3) {
        let index = index(rng);
        calls.push(Item::Call(call_of(rng, style, beside, index)));
    }
    calls
}

/// The tables go to the second buffer, without their terms or as they are; mostly their
/// marked files then get what they held before Ask 10.
fn older(rng: &mut Rng) -> Vec<Item> {
    let mut items = vec![rng.pick(&[Item::Narrow, Item::Keep])];
    if rng.percent(75) {
        items.push(Item::LoadMarked { seed: data_seed(rng) });
    }
    items
}

/// A conversion in a history: the tables go to the second buffer (see `older`) and are
/// converted back, so that plain store and tally go on. Sometimes calls come
/// between, or the new buffer gets any bytes; sometimes conversions that are refused come
/// first.
pub fn conversion(rng: &mut Rng, style: &Style, beside: &Beside) -> Vec<Item> {
    let convert = || Item::Call(Call::Convert {});
    let mut items = older(rng);
    match rng.below(10) {
        0..=2 => {}
        3 | 4 => items.extend(calls_meanwhile(rng, style, beside)),
        5 | 6 => items.extend(any_new_buffer(rng)),
        7 => {
            items.extend([length_of(Buffer::Tables, rng.pick(&WRONG_NEW)), convert()]);
            items.push(length_of(Buffer::Tables, TABLES_BYTES));
        }
        8 => {
            let has_terms = items[0] == Item::Keep;
            let breaks = match has_terms && rng.percent(40) {
                true => BREAKS_TERM.to_vec(),
                false => vec![rng.pick(&BREAKS)],
            };
            let buffer = Buffer::Second;
            items.extend(breaks.into_iter().map(|(at, value)| Item::Poke { buffer, at, value }));
            items.push(convert());
            items.extend(older(rng));
        }
        _ => {
            items.extend([length_of(Buffer::Second, rng.pick(&WRONG_OLDER)), convert()]);
            items.extend(older(rng));
        }
    }
    items.push(convert());
    items
}

/// A conversion on any store, well formed or not: what stands in the tables is converted
/// to itself, or mended.
pub fn any_conversion(rng: &mut Rng) -> Vec<Item> {
    let mut items = older(rng);
    if rng.percent(10) {
        items.push(length_of(Buffer::Second, rng.pick(&WRONG_OLDER)));
    }
    items.push(Item::Call(Call::Convert {}));
    items
}

/// Conversions of a well-formed store, whose older tables are of one length or the other:
/// with marked files that hold what they did before Ask 10, with wrong lengths of all three
/// buffers, with older tables in which a rule is broken, and accepted ones between them,
/// into a buffer of any bytes too.
pub fn conversions(rng: &mut Rng, tables: &[u8], pages_length: usize) -> Vec<Item> {
    let convert = || Item::Call(Call::Convert {});
    let older = rng.pick(&[Item::Narrow, Item::Keep]);
    let right = if older == Item::Keep { tables.to_vec() } else { narrowed(tables) };
    let mut items = vec![older.clone(), convert()];
    items.extend([Item::LoadMarked { seed: data_seed(rng) }, convert()]);
    items.extend(any_new_buffer(rng));
    items.push(convert());
    for length in [rng.pick(&WRONG_NEW), OLDER_TABLES_BYTES] {
        items.extend([length_of(Buffer::Tables, length), convert()]);
    }
    items.extend([length_of(Buffer::Tables, TABLES_BYTES), convert(), older.clone()]);
    items.extend([length_of(Buffer::Second, rng.pick(&WRONG_OLDER)), convert(), older.clone()]);
    for _ in 0..3 {
        items.extend(broken_older(rng, tables, &right));
        items.extend([convert(), older.clone()]);
    }
    let wrong = [0, 1, pages_length - 1, pages_length + 1, pages_length - 512, pages_length + 512];
    items.extend([length_of(Buffer::Pages, rng.pick(&wrong)), convert()]);
    items.extend([length_of(Buffer::Pages, pages_length), convert()]);
    items
}

/// Lines that break a rule in the second tables, which hold these tables as they are or
/// without their terms. A rule on terms cannot be broken in the shorter ones, and a rule on
/// marked files is none of theirs.
fn broken_older(rng: &mut Rng, tables: &[u8], right: &[u8]) -> Vec<Item> {
    let mut broken = tables.to_vec();
    let rule = rng.pick(Rule::ALL);
    if !damage_rule(rng, &mut broken, rule) {
        return Vec::new();
    }
    if right.len() == OLDER_TABLES_BYTES {
        broken = narrowed(&broken);
    }
    pokes(Buffer::Second, right, &broken)
}

/// A format, and mostly a family (see `family_calls`, `short_calls`, `line_calls`); most
/// turns that follow are of terms and sets, and many are conversions.
pub fn term_start(rng: &mut Rng, block_count: usize) -> Start {
    let mut style = style(rng, block_count);
    let (calls, then) = match rng.below(10) {
        0..=3 => family_calls(rng, &style),
        4 | 5 => short_calls(rng, &style),
        6 | 7 => line_calls(rng, &style),
        _ => (Vec::new(), Vec::new()),
    };
    style.weights[SET_TERM] = 300;
    style.weights[CURRENT] = 400;
    style.weights[0] = 30;
    style.convert = rng.pick(&[5, 10, 20]);
    begin(style, calls, then)
}
