//! Each set's term, told from the arguments of accepted calls alone (Ask 8 of document
//! 02), so that what `current` must answer is known without the tables. It uses no code
//! of `dates`: the days are reckoned once more, by a formula.

use crate::call::SETS;

/// The days from the first day on "up to, but without, the end day".
#[derive(Clone, Copy, PartialEq, Eq, Debug)]
pub struct Term {
    pub first: u32,
    pub end: u32,
}

/// "Format and making a set give 0 and 36,525."
pub const DEFAULT: Term = Term { first: 0, end: 36_525 };

/// The term of each used set.
#[derive(Clone, PartialEq, Eq, Debug)]
pub struct Terms {
    sets: [Option<Term>; SETS],
}

impl Terms {
    pub fn format() -> Terms {
        Terms::default_of([0])
    }

    /// The default term for each of these sets.
    pub fn default_of(sets: impl IntoIterator<Item = usize>) -> Terms {
        let mut terms = Terms { sets: [None; SETS] };
        sets.into_iter().for_each(|set| terms.make(set));
        terms
    }

    /// The terms that stand in tables.
    pub fn read_off(term: impl Fn(usize) -> Option<Term>) -> Terms {
        Terms { sets: std::array::from_fn(term) }
    }

    pub fn of(&self, set: usize) -> Option<Term> {
        self.sets[set]
    }

    pub fn make(&mut self, set: usize) {
        self.sets[set] = Some(DEFAULT);
    }

    pub fn remove(&mut self, set: usize) {
        self.sets[set] = None;
    }

    /// The date exists, and the months are 1 to 120.
    pub fn set(&mut self, set: usize, date: (u32, u32, u32), months: u32) {
        self.sets[set] = Some(term_from(date, months));
    }

    /// 1 or 0.
    pub fn is_current(&self, set: usize, day: u32) -> u32 {
        let term = self.sets[set].expect("a used set");
        u32::from(term.first <= day && day < term.end)
    }
}

/// The hundred years are 25 times the same four years, 1998 to 2001, as 2000 is a leap
/// year: 48 months of 1,461 days.
const CYCLE_MONTHS: u32 = 48;
const CYCLE_DAYS: u32 = 1_461;
/// All months of the hundred years.
const MONTHS: u32 = 25 * CYCLE_MONTHS;
const OF_A_YEAR: [u32; 12] = [31, 28, 31, 30, 31, 30, 31, 31, 30, 31, 30, 31];
/// February of 2000 among the 48 months.
const LEAP_MONTH: u32 = 25;

/// How long a month is; they are counted from January 1998 on.
fn length(month: u32) -> u32 {
    let leap_day = u32::from(month % CYCLE_MONTHS == LEAP_MONTH);
    OF_A_YEAR[(month % 12) as usize] + leap_day
}

/// The number of a month's first day.
fn start(month: u32) -> u32 {
    let of_cycle: u32 = (0..month % CYCLE_MONTHS).map(length).sum();
    month / CYCLE_MONTHS * CYCLE_DAYS + of_cycle
}

/// A month counted from January 1998 on, if it is one of these years.
fn month_count(year: u32, month: u32) -> Option<u32> {
    let is_month = (1998..=2097).contains(&year) && (1..=12).contains(&month);
    is_month.then(|| 12 * (year - 1998) + month - 1)
}

/// 14 is for "a date that does not exist or lies outside these years".
pub fn is_date(year: u32, month: u32, day: u32) -> bool {
    month_count(year, month).is_some_and(|month| 1 <= day && day <= length(month))
}

/// The term from a date that exists, for 1 to 120 months.
pub fn term_from((year, month, day): (u32, u32, u32), months: u32) -> Term {
    let month = month_count(year, month).expect("a month of these years");
    let later = month + months;
    // All days after 2097 come to the same: "a later end is cut to 36,525".
    let end = match later < MONTHS {
        true => start(later) + day.min(length(later)) - 1,
        false => MONTHS / CYCLE_MONTHS * CYCLE_DAYS,
    };
    Term { first: start(month) + day - 1, end }
}
