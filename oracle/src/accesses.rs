//! What panel accesses met (Ask 6 of document 02), told from the registers before
//! and after them and from the call that they ran.

use crate::call::*;
use crate::panel::REGISTERS;
use std::collections::BTreeMap;

/// A call of the panel, with the registers before and after it.
pub struct Access<'a> {
    pub call: &'a Call,
    pub answer: Answer,
    /// What the call that it ran answered, if it ran one.
    pub ran: Option<Answer>,
    pub before: &'a [u8],
    pub after: &'a [u8],
    /// Whether the registers are such as calls made from a reset on.
    pub from_reset: bool,
}

/// The cases that an access can meet.
pub const CASES: [&str; 18] = [
    "a command is accepted",
    "a command is refused",
    "a command finds tables that are not well formed or of wrong length",
    "a command adds bit 2, its third count being not 0",
    "a command leaves other bits that the cause has",
    "a count over 255 shows as 255",
    "another value runs nothing",
    "another value has a command in its low four bits",
    "another value leaves a number or counts of a command",
    "a write clears bits of the cause",
    "a write of the cause clears none",
    "a write changes mask, set, file or other",
    "a write is ignored",
    "the line is 1",
    "the line is 0",
    "accepted on registers that no reset made",
    "refused with 13 for the offset",
    "refused with 13 for the length",
];

impl Access<'_> {
    /// Whether each of `CASES` was met.
    pub fn cases(&self) -> [bool; CASES.len()] {
        if self.answer.number != 0 {
            let mut cases = [false; CASES.len()];
            let wrong_length = self.before.len() != REGISTERS;
            cases[CASES.len() - 1] = wrong_length;
            cases[CASES.len() - 2] = !wrong_length;
            return cases;
        }
        let number = self.ran.map(|answer| answer.number);
        let counts = self.ran.map_or([0; 3], |answer| [answer.first, answer.second, answer.third]);
        let no_command = self.no_command();
        let (cause, new_cause) = (self.before[2], self.after[2]);
        let clears = self.writes_at(2..3) && new_cause != cause;
        let is_line = *self.call == Call::PanelLine {};
        [
            number == Some(0),
            number.is_some_and(|number| number != 0),
            number == Some(1),
            counts[2] != 0,
            number.is_some() && cause & !added(number, counts[2]) != 0,
            counts.iter().any(|count| *count > 255),
            no_command.is_some(),
            no_command.is_some_and(|value| COMMANDS.contains(&(value & 15))),
            no_command.is_some() && [1, 7, 8, 9].iter().any(|at| self.before[*at] != 0),
            clears,
            self.writes_at(2..3) && !clears,
            self.writes_at(3..7) && self.before != self.after,
            self.is_ignored(),
            is_line && self.answer.first == 1,
            is_line && self.answer.first == 0,
            !self.from_reset,
            false,
            false,
        ]
    }

    fn writes_at(&self, offsets: std::ops::Range<u32>) -> bool {
        matches!(self.call, Call::PanelWrite { offset, .. } if offsets.contains(offset))
    }

    /// The value of a write to the command that runs nothing.
    fn no_command(&self) -> Option<u8> {
        match (self.call, self.ran) {
            (Call::PanelWrite { offset: 0, value }, None) => Some(*value),
            _ => None,
        }
    }

    /// A write of another value than it has to a register that ignores writes.
    fn is_ignored(&self) -> bool {
        match *self.call {
            Call::PanelWrite { offset, value } if offset == 1 || offset >= 7 => {
                self.before[offset as usize] != value
            }
            _ => false,
        }
    }
}

/// The bits that a command adds to the cause.
fn added(number: Option<u32>, third: u32) -> u8 {
    let by_number = if number == Some(0) { 1 } else { 2 };
    by_number | if third != 0 { 4 } else { 0 }
}

/// Panel accesses that were compared.
#[derive(Default, Clone, PartialEq, Eq, Debug)]
pub struct Accesses {
    /// By the place of the call in `CALL_NAMES`.
    pub by_kind: BTreeMap<usize, u64>,
    /// How often each of `CASES` was met.
    pub met: [u64; CASES.len()],
    /// Commands that ran, by the call they are and the number they returned.
    pub commands: BTreeMap<(u8, u32), u64>,
    /// Accepted reads and writes, by offset.
    pub by_offset: [[u64; 2]; REGISTERS],
}

impl Accesses {
    pub fn count(&mut self, access: &Access) {
        *self.by_kind.entry(access.call.index()).or_default() += 1;
        for (count, met) in self.met.iter_mut().zip(access.cases()) {
            *count += u64::from(met);
        }
        if access.answer.number != 0 {
            return;
        }
        match (access.call, access.ran) {
            (Call::PanelRead { offset }, _) => self.by_offset[*offset as usize][0] += 1,
            (Call::PanelWrite { offset, value }, ran) => {
                self.by_offset[*offset as usize][1] += 1;
                if let Some(answer) = ran {
                    *self.commands.entry((*value, answer.number)).or_default() += 1;
                }
            }
            _ => {}
        }
    }

    /// Commands that returned this number.
    pub fn returned(&self, number: u32) -> u64 {
        self.commands.iter().filter(|((_, n), _)| *n == number).map(|(_, count)| count).sum()
    }
}

/// Tells the accesses of each kind, the commands by number, and each case.
pub fn show(compared_with: &str, accesses: &Accesses) {
    for (index, compared) in &accesses.by_kind {
        println!("{} compared with {compared_with} {compared}", CALL_NAMES[*index]);
    }
    for (case, met) in CASES.iter().zip(accesses.met) {
        println!("  panel, {case}: {met}");
    }
    for op in COMMANDS {
        let of_op = accesses.commands.iter().filter(|((value, _), _)| *value == op);
        let returned: Vec<String> =
            of_op.map(|((_, number), count)| format!("{number}: {count}")).collect();
        println!("  panel, command {op} by the number it returned: {}", returned.join(", "));
    }
    let by_offset = |place: usize| {
        let counts = accesses.by_offset.iter().map(|counts| counts[place].to_string());
        counts.collect::<Vec<String>>().join(" ")
    };
    println!("  panel, accepted reads by offset: {}", by_offset(0));
    println!("  panel, accepted writes by offset: {}", by_offset(1));
}
