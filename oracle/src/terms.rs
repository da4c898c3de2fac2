//! What the calls of Ask 8 of document 02 met, and those that Ask 8 changed, told from
//! their arguments, their answers and the bytes of the tables before them. The terms are
//! read here anew.

use crate::call::*;
use crate::check::{check_older, is_well_formed, Rule};
use crate::conversion::{loaded_files, narrowed, widened, Load};
use crate::dates::{date_of, end_uncut, Date, DAYS};
use crate::judging::{self, cases, those};
use crate::layout::{block_count, has_own_term, is_marked, is_read_only, is_used_set, term};
use crate::lent::Buffers;
use crate::state::State;

cases! {
    // Terms that are set.
    SameDay "the end is the same day of the later month";
    LastDay "the later month has no such day, the end is its last day";
    PastDecember "the later month lies past December";
    EndCut "the end is cut to 36,525";
    EndJust "the end is 36,525 without a cut";
    LeapDay "the date is a leap day";
    EndLeapDay "the end is a leap day";
    OneMonth "a count of 1 month";
    MostMonths "a count of 120 months";
    FirstDate "the date is day 0";
    LastDate "the date is day 36,524";
    OfSet0 "the term of set 0 is set";
    OfReadOnly "the term of a read-only set is set";
    SetAgain "a term that is not the default is set anew";
    // Terms that are refused.
    TermNoSet "refused with 2, date and months being wrong too";
    YearOutside "refused with 14 for the year";
    MonthOutside "refused with 14 for the month";
    DayOutside "refused with 14 for a day that no month has";
    DayMissing "refused with 14 for a day that its month has not";
    NoLeapDay "refused with 14 for 29 February of a common year";
    DateAndMonths "refused with 14, the months being wrong too";
    NoMonths "refused with 15 for 0 months";
    ManyMonths "refused with 15 for over 120 months";
    // Days asked for.
    OnFirst "current on the first day";
    BeforeEnd "current on the day before the end day";
    BeforeFirst "not current on the day before the first day";
    OnEnd "not current on the end day";
    AfterAll "not current on a day from 36,525 to 65,535";
    WideDay "not current on a day over 65,535";
    CurrentNoSet "asked of a set with 2";
    // Conversions.
    Converted "a conversion is accepted";
    ConvertedSets "accepted with used sets beside set 0";
    ConvertedMarked "accepted with a marked file";
    OverOther "accepted over bytes that are not well formed";
    OverTerm "accepted over tables of the same store with other terms";
    OlderLength "a conversion is refused for the older length";
    OlderTerm "refused for a term of older tables of 17,468 bytes";
    NewLength "refused for the new length";
    ShortNew "refused for a new buffer of 17,436 bytes";
    ConvertPages "refused for the pages' length";
    OlderFirstPart "refused for a rule of the first part";
    OlderSecondPart "refused for another rule";
    // Other calls.
    MadeFromTerm "a set is made from one whose term is not the default";
    RemovedTerm "a set is removed whose term is not the default";
    FormattedTerm "a format ends a term that is not the default";
    OlderTables "another call is refused on well-formed tables of 17,436 bytes";
    BadTerm "a call is refused for a term alone";
}

/// A call that was done.
#[derive(Clone, Copy)]
pub struct Asked<'a> {
    pub call: &'a Call,
    pub answer: Answer,
    /// The buffers that it was lent, before it.
    pub before: &'a Buffers,
}

/// Whether some set's term breaks a rule.
fn has_bad_term(tables: &[u8]) -> bool {
    (0..SETS).any(|set| match term(tables, set) {
        (first, end) if is_used_set(tables, set) => first >= end || end > LATEST_END,
        term => term != (0, 0),
    })
}

impl Asked<'_> {
    fn tables(&self) -> &[u8] {
        &self.before[Buffer::Tables]
    }

    fn pages_length(&self) -> usize {
        self.before[Buffer::Pages].len()
    }

    /// The cases that the call met.
    pub fn cases(&self) -> Vec<Case> {
        let number = self.answer.number;
        match *self.call {
            Call::Convert {} => return self.cases_of_conversion(),
            _ if number == 1 => return self.cases_of_tables(),
            _ => {}
        }
        let own_term = |set: u32| has_own_term(self.tables(), set as usize);
        match *self.call {
            Call::SetTerm { set, year, month, day, months } if number == 0 => {
                self.cases_of_term(set as usize, Date { year, month, day }, months)
            }
            Call::SetTerm { year, month, day, months, .. } => {
                refused_term(number, Date { year, month, day }, months)
            }
            Call::Current { set, day } if number == 0 => self.cases_of_day(set as usize, day),
            Call::Current { .. } => vec![Case::CurrentNoSet],
            Call::Make { parent, .. } if number == 0 => {
                those(&[(own_term(parent), Case::MadeFromTerm)])
            }
            Call::Remove { set } if number == 0 => those(&[(own_term(set), Case::RemovedTerm)]),
            Call::Format { .. } if number == 0 && own_term(0) => {
                let blocks = State::unpack(self.tables()).block_count;
                let was_store = is_well_formed(self.tables(), blocks * PAGE_BYTES);
                those(&[(was_store, Case::FormattedTerm)])
            }
            _ => Vec::new(),
        }
    }

    fn cases_of_term(&self, set: usize, date: Date, months: u32) -> Vec<Case> {
        let end = end_uncut(date, months);
        let end_date = (end < DAYS).then(|| date_of(end));
        let is_leap_day = |date: Date| (date.month, date.day) == (2, 29);
        those(&[
            (end_date.is_some_and(|end| end.day == date.day), Case::SameDay),
            (end_date.is_some_and(|end| end.day < date.day), Case::LastDay),
            (date.month + months > 12, Case::PastDecember),
            (end > LATEST_END, Case::EndCut),
            (end == LATEST_END, Case::EndJust),
            (is_leap_day(date), Case::LeapDay),
            (end_date.is_some_and(is_leap_day), Case::EndLeapDay),
            (months == 1, Case::OneMonth),
            (months == 120, Case::MostMonths),
            (date == date_of(0), Case::FirstDate),
            (date == date_of(DAYS - 1), Case::LastDate),
            (set == 0, Case::OfSet0),
            (is_read_only(self.tables(), set), Case::OfReadOnly),
            (has_own_term(self.tables(), set), Case::SetAgain),
        ])
    }

    fn cases_of_day(&self, set: usize, day: u32) -> Vec<Case> {
        let (first, end) = term(self.tables(), set);
        let (day, is_current) = (day as usize, self.answer.first == 1);
        those(&[
            (is_current && day == first, Case::OnFirst),
            (is_current && day + 1 == end, Case::BeforeEnd),
            (!is_current && day + 1 == first, Case::BeforeFirst),
            (!is_current && day == end, Case::OnEnd),
            (!is_current && (DAYS..1 << 16).contains(&day), Case::AfterAll),
            (!is_current && day >= 1 << 16, Case::WideDay),
        ])
    }

    fn cases_of_conversion(&self) -> Vec<Case> {
        let (older, tables) = (self.before[Buffer::Second].as_slice(), self.tables());
        if self.answer.number == 0 {
            let wide = widened(older);
            let sets = (1..SETS).any(|set| is_used_set(&wide, set));
            let marked = (0..SETS * FILES).any(|place| is_marked(&wide, place));
            let is_formed = is_well_formed(tables, self.pages_length());
            let same_store = is_formed && narrowed(tables) == narrowed(older);
            return those(&[
                (true, Case::Converted),
                (sets, Case::ConvertedSets),
                (marked, Case::ConvertedMarked),
                (!is_formed, Case::OverOther),
                (same_store && tables != wide, Case::OverTerm),
            ]);
        }
        if ![OLDER_TABLES_BYTES, TABLES_BYTES].contains(&older.len()) {
            return vec![Case::OlderLength];
        }
        // What is wrong with the older tables, by their own count of blocks.
        let blocks = block_count(older);
        let broken = check_older(older, blocks * PAGE_BYTES);
        let of_term = |rule: Rule| matches!(rule, Rule::FirstNotBelowEnd | Rule::EndDayOver);
        let has_bad_term = broken.iter().any(|broken| of_term(broken.rule));
        let first_part = broken.iter().any(|broken| broken.rule.is_first_part());
        let pages = self.pages_length() != blocks * PAGE_BYTES;
        let new = tables.len() != TABLES_BYTES;
        those(&[
            (broken.is_empty() && !pages && new, Case::NewLength),
            (broken.is_empty() && tables.len() == OLDER_TABLES_BYTES, Case::ShortNew),
            (broken.is_empty() && !new && pages, Case::ConvertPages),
            (first_part && !new, Case::OlderFirstPart),
            (!first_part && !broken.is_empty() && !new, Case::OlderSecondPart),
            (has_bad_term && !new, Case::OlderTerm),
        ])
    }

    /// Tables that every call but the converter refuses.
    fn cases_of_tables(&self) -> Vec<Case> {
        let (tables, pages_length) = (self.tables(), self.pages_length());
        match tables.len() {
            OLDER_TABLES_BYTES if !matches!(self.call, Call::CheckBlocks {}) => {
                let formed = check_older(tables, pages_length).is_empty();
                those(&[(formed, Case::OlderTables)])
            }
            // Without their terms they would be well formed.
            TABLES_BYTES if has_bad_term(tables) => {
                let asks = !matches!(self.call, Call::Format { .. } | Call::CheckBlocks {});
                let formed = asks && check_older(&narrowed(tables), pages_length).is_empty();
                let marked = loaded_files(tables).iter().any(|load| *load != Load::Nothing);
                those(&[(formed && !marked, Case::BadTerm)])
            }
            _ => Vec::new(),
        }
    }
}

/// The days that a month has in some year.
fn most_days(month: u32) -> u32 {
    match month {
        2 => 29,
        4 | 6 | 9 | 11 => 30,
        _ => 31,
    }
}

fn refused_term(number: u32, date: Date, months: u32) -> Vec<Case> {
    let Date { year, month, day } = date;
    let wrong_year = !(1998..=2097).contains(&year);
    let wrong_month = !(1..=12).contains(&month);
    let wrong_day = !(1..=31).contains(&day);
    let in_range = !wrong_year && !wrong_month && !wrong_day;
    let missing = in_range && day > most_days(month);
    let wrong_months = months == 0 || months > 120;
    let wrong_date = !in_range || missing;
    match number {
        2 => those(&[(wrong_date && wrong_months, Case::TermNoSet)]),
        14 => those(&[
            (wrong_year && !wrong_month && !wrong_day, Case::YearOutside),
            (!wrong_year && wrong_month && !wrong_day, Case::MonthOutside),
            (!wrong_year && !wrong_month && wrong_day, Case::DayOutside),
            (missing, Case::DayMissing),
            (in_range && (month, day) == (2, 29), Case::NoLeapDay),
            (wrong_months, Case::DateAndMonths),
        ]),
        15 => those(&[(months == 0, Case::NoMonths), (months > 120, Case::ManyMonths)]),
        _ => Vec::new(),
    }
}

/// How often each case was met.
pub type Met = judging::Met<Case>;

impl Met {
    pub fn count(&mut self, asked: &Asked, is_linked: bool) {
        if matches!(asked.call, Call::SetTerm { .. } | Call::Current { .. } | Call::Convert {}) {
            self.count_call(is_linked);
        }
        self.count_cases(&asked.cases());
    }
}
