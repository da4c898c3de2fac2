//! Runs scripts. After every call it compares: with plain store and tally
//! ("Demand 3"), with what the panel's registers must show since a reset, with
//! the promise that a refused call changes nothing, and with another
//! implementation where there is one, byte for byte. Every write is judged by the
//! room it takes, and every conversion and every compaction by its bytes.

use crate::accesses::{Access, Accesses};
use crate::agree::agree;
use crate::call::*;
use crate::check::{check_state, Rule};
use crate::compaction_judge::Compacted;
use crate::compactions::{self, Pulled};
use crate::conversion::{self, Converted};
use crate::judge::{format_blocks, Beside};
use crate::lent::{check_unchanged, Buffer::*, Buffers, Guarded, Lending};
use crate::markings::{self, Freeing};
use crate::panel::REGISTERS;
use crate::panel_judge::{self, Since};
use crate::room::{self, Judged, Taken};
use crate::state::State;
use crate::store;
use crate::terms::{Asked, Met};
use crate::turns::Turns;
use crate::writes::{ByKind, Written};
use std::collections::BTreeMap;
use std::fmt;
use std::time::{Duration, Instant};

/// Another implementation of some of the calls.
pub trait Other {
    /// Whether this implementation has the call at this place in
    /// `CALL_NAMES`.
    fn has(&self, index: usize) -> bool;

    /// Does a call that it has, with these numbers on these buffers.
    fn run(&mut self, index: usize, numbers: &Numbers, lent: Lent) -> Answer;
}

/// No other implementation: the oracle alone.
pub struct NoOther;

impl Other for NoOther {
    fn has(&self, _: usize) -> bool {
        false
    }

    fn run(&mut self, _: usize, _: &Numbers, _: Lent) -> Answer {
        unreachable!("it has no calls")
    }
}

/// Accepted reads whose answers were compared.
#[derive(Default, Clone, PartialEq, Eq, Debug)]
pub struct Reads {
    pub compared: u64,
    /// Those that gave at least one byte.
    pub of_bytes: u64,
    /// Those that looked at more maps than pages, so that some parent map was
    /// gone to.
    pub to_a_parent: u64,
    /// The largest number of maps that one of them looked at.
    pub largest: u32,
}

impl Reads {
    /// Counts a call, if it is an accepted read.
    fn count(&mut self, call: &Call, answer: &Answer) {
        let (Call::Read { offset, .. }, 0) = (call, answer.number) else { return };
        self.compared += 1;
        if answer.first == 0 {
            return;
        }
        let page = |place: u32| place / PAGE_BYTES as u32;
        let pages_read = page(offset + answer.first - 1) - page(*offset) + 1;
        self.of_bytes += 1;
        self.to_a_parent += u64::from(answer.second > pages_read);
        self.largest = self.largest.max(answer.second);
    }
}

impl fmt::Display for Reads {
    fn fmt(&self, f: &mut fmt::Formatter) -> fmt::Result {
        write!(f, "{}, of at least one byte {}", self.compared, self.of_bytes)?;
        write!(f, ", gone to a parent map {}", self.to_a_parent)?;
        write!(f, ", most maps looked at by one {}", self.largest)
    }
}

/// What has been run so far.
#[derive(Default, Clone)]
pub struct Counts {
    /// By the place of the call in `CALL_NAMES`.
    pub calls: [u64; CALLS],
    /// The same, of the other implementation.
    pub linked: [u64; CALLS],
    /// By the number given.
    pub numbers: [u64; NUMBERS],
    pub copies: u64,
    pub files_marked: u64,
    /// Blocks that deletes and truncates handed over, and calls that did so.
    pub handed_over: u64,
    pub handing_calls: u64,
    /// Reads compared with the other implementation.
    pub reads_linked: Reads,
    /// Reads compared with plain store and tally.
    pub reads_beside: Reads,
    /// Writes compared with the other implementation.
    pub writes_linked: ByKind,
    /// Writes compared with plain store and tally.
    pub writes_beside: ByKind,
    /// Panel accesses compared with the other implementation.
    pub panel_linked: Accesses,
    /// Panel accesses compared with what is demanded of them.
    pub panel_judged: Accesses,
    /// Writes judged by the room they take.
    pub room: Judged,
    /// The cases of Ask 8 that calls met.
    pub terms: Met,
    /// The cases of Ask 9 that calls met.
    pub compactions: compactions::Met,
    /// The cases of Ask 10 that calls met.
    pub markings: markings::Met,
    /// Blocks that markings freed, a block as often as it was freed.
    pub freed: u64,
    pub damages: BTreeMap<Rule, u64>,
    pub flips: u64,
}

const BUFFER_FILL: u8 = 0xB7;
const OLD_PAGE_FILL: u8 = 0xA5;
const OLD_TABLE_FILL: u8 = 0x5A;
const OLD_REGISTER_FILL: u8 = 0x96;
const OLD_SECOND_FILL: u8 = 0x69;
const OLD_SPARE_FILL: u8 = 0x4B;

pub struct Bench {
    /// What the caller holds from call to call.
    buffers: Buffers,
    /// Plain store and tally; none before an accepted format and after a
    /// change of tables or pages made from outside.
    pub beside: Option<Beside>,
    /// What plain store and tally are of the store that the second tables hold, once
    /// converted; none where these are not the tables of a store that plain store and
    /// tally agreed with, or where the pages are not as they were then.
    pub older: Option<Beside>,
    /// What was done to the panel; none before an accepted panel-reset and after
    /// a change of registers made from outside.
    pub since: Option<Since>,
    /// Whether the store is as an accepted compaction left it.
    after_compaction: bool,
    pub counts: Counts,
}

/// A listed call that was done: the call itself, or the one that a panel command
/// ran.
struct Done {
    call: Call,
    answer: Answer,
}

impl Default for Bench {
    fn default() -> Bench {
        Bench::new()
    }
}

impl Bench {
    pub fn new() -> Bench {
        Bench::with(vec![OLD_TABLE_FILL; TABLES_BYTES], Vec::new())
    }

    /// A bench on given tables and pages, without plain store and tally, and with
    /// registers that no reset made.
    pub fn with(tables: Vec<u8>, pages: Vec<u8>) -> Bench {
        let mut buffers = Buffers::default();
        buffers[Tables] = tables;
        buffers[Pages] = pages;
        buffers[Registers] = vec![OLD_REGISTER_FILL; REGISTERS];
        buffers[Second] = vec![OLD_SECOND_FILL; OLDER_TABLES_BYTES];
        buffers[Spare] = vec![OLD_SPARE_FILL; PAGE_BYTES];
        let (beside, older, since) = (None, None, None);
        let counts = Counts::default();
        Bench { buffers, beside, older, since, after_compaction: false, counts }
    }

    pub fn tables(&self) -> &[u8] {
        &self.buffers[Tables]
    }

    pub fn pages(&self) -> &[u8] {
        &self.buffers[Pages]
    }

    pub fn registers(&self) -> &[u8] {
        &self.buffers[Registers]
    }

    /// The older tables that a conversion takes.
    pub fn second(&self) -> &[u8] {
        &self.buffers[Second]
    }

    /// The spare page that a compaction is lent.
    pub fn spare(&self) -> &[u8] {
        &self.buffers[Spare]
    }

    /// Does one line of a script. An error says the first difference.
    pub fn step(&mut self, item: &Item, other: &mut dyn Other) -> Result<Option<Answer>, String> {
        let changed = match *item {
            Item::Call(ref call) => return self.call(call, other).map(Some),
            Item::Poke { buffer, at, value } => {
                put_byte(&mut self.buffers[buffer], at, value);
                buffer
            }
            Item::Length { buffer, length } => {
                self.buffers[buffer].resize(length, 0);
                buffer
            }
            Item::Fill { buffer, seed } => {
                self.buffers[buffer] = data_bytes(self.buffers[buffer].len(), seed);
                buffer
            }
            Item::Narrow => {
                self.buffers[Second] = conversion::narrowed(&self.buffers[Tables]);
                self.older = self.beside.as_ref().map(Beside::converted);
                return Ok(None);
            }
            // "keeping terms already there"
            Item::Keep => {
                self.buffers[Second] = self.buffers[Tables].clone();
                self.older = self.beside.clone();
                return Ok(None);
            }
            // A conversion clears what is put there, so plain store and tally are those of
            // the store without it.
            Item::LoadMarked { seed } => {
                self.buffers[Second] = conversion::loaded(&self.buffers[Second], seed);
                return Ok(None);
            }
        };
        self.after_compaction &= ![Tables, Pages].contains(&changed);
        match changed {
            Tables => self.beside = None,
            Pages => (self.beside, self.older) = (None, None),
            Registers => self.since = None,
            Second => self.older = None,
            _ => {}
        }
        Ok(None)
    }

    pub fn call(&mut self, call: &Call, other: &mut dyn Other) -> Result<Answer, String> {
        let before = self.buffers_of(call);
        let mut after = before.clone();
        let answer = store::run(call.index(), &call.numbers(), after.lend());
        self.counts.calls[call.index()] += 1;
        self.counts.numbers[answer.number as usize] += 1;
        self.count_terms(call, answer, &before, other.has(call.index()));
        check_unchanged(call.row(), &answer, &before, &after)?;
        let done = listed(call, answer, &before, &after)?;
        if let Some(done) = &done {
            self.count(done, &before);
        }
        self.count_markings(call, answer, &done, &before, other.has(call.index()));
        self.compare_other(call, &answer, &before, &mut after, other)?;
        if let Some(done) = &done {
            self.compare_beside(done, &before, &after)?;
        }
        match call {
            Call::Convert {} => self.compare_conversion(answer, &before, &after)?,
            Call::Compact {} => self.compare_compaction(&before, &after)?,
            _ => {}
        }
        if call.is_of_panel() {
            let ran = done.map(|done| done.answer);
            let registers = (before[Registers].as_slice(), after[Registers].as_slice());
            self.compare_since(call, answer, ran, registers, other.has(call.index()))?;
        }
        if call.as_write().is_some() && answer.number == 0 {
            self.count_write(call, &answer, [&before, &after], other.has(call.index()));
        }
        self.count_compaction(call, answer, [&before, &after], other.has(call.index()));
        // The buffer of a refused format is not the store's.
        if !matches!(call, Call::Format { .. }) || answer.number == 0 {
            // With other pages, the second tables hold another store.
            if call.row().lends(Pages) == Lending::Changed && after[Pages] != self.buffers[Pages] {
                self.older = None;
            }
            self.keep(call, after);
        }
        Ok(answer)
    }

    fn buffers_of(&self, call: &Call) -> Buffers {
        let mut buffers = self.buffers.lent_by(call.row());
        if let Some(write) = call.as_write() {
            buffers[Bytes] = data_bytes(write.length, write.seed);
        }
        match *call {
            Call::Format { pages_length } => buffers[Pages].resize(pages_length, OLD_PAGE_FILL),
            Call::Read { length, .. } => buffers[Bytes] = vec![BUFFER_FILL; length],
            _ => {}
        }
        buffers
    }

    /// The next call gets the buffers as this one left them; data and read
    /// buffer belong to one call.
    fn keep(&mut self, call: &Call, mut after: Buffers) {
        for buffer in call.row().lent().filter(|buffer| *buffer != Bytes) {
            std::mem::swap(&mut self.buffers[buffer], &mut after[buffer]);
        }
    }

    /// Counts what a listed call did to the store.
    fn count(&mut self, Done { call, answer }: &Done, before: &Buffers) {
        let drops = matches!(call, Call::Truncate { .. } | Call::Delete { .. });
        if answer.number != 0 || !(drops || call.as_write().is_some()) {
            return;
        }
        self.counts.copies += u64::from(answer.second);
        self.counts.files_marked += u64::from(answer.third);
        // A write that marks nothing hands nothing over and frees nothing.
        let turns = (drops || answer.third > 0)
            .then(|| Turns::of(call, &State::unpack(&before[Tables])))
            .flatten();
        if let Some(turns) = turns {
            let handed = turns.handed_over();
            self.counts.handed_over += handed.len() as u64;
            self.counts.handing_calls += u64::from(!handed.is_empty());
            self.counts.freed += turns.freed().len() as u64;
        }
    }

    /// Counts the cases of Ask 10 that a call met, or the call that a panel command ran.
    fn count_markings(
        &mut self,
        call: &Call,
        answer: Answer,
        done: &Option<Done>,
        before: &Buffers,
        is_linked: bool,
    ) {
        let (call, answer) = match done {
            Some(done) => (&done.call, done.answer),
            None => (call, answer),
        };
        self.counts.markings.count(&Freeing { call, answer, before }, is_linked);
    }

    /// Counts the cases of Ask 8 that a call met. Accesses of the panel are left out.
    fn count_terms(&mut self, call: &Call, answer: Answer, before: &Buffers, is_linked: bool) {
        if !call.is_of_panel() {
            self.counts.terms.count(&Asked { call, answer, before }, is_linked);
        }
    }

    /// Counts an accepted write that was compared with plain store and tally, if
    /// they are there, and with the other implementation, if it is linked.
    fn count_write(
        &mut self,
        call: &Call,
        answer: &Answer,
        buffers: [&Buffers; 2],
        is_linked: bool,
    ) {
        let [before, after] = buffers.map(|buffers| State::unpack(&buffers[Tables]));
        let cases = Written::of(call, answer, &before, &after).map(|written| written.cases());
        if self.beside.is_some() {
            self.counts.writes_beside.entry(call.index()).or_default().count(&cases);
        }
        if is_linked {
            self.counts.writes_linked.entry(call.index()).or_default().count(&cases);
        }
    }

    /// Counts the cases of Ask 9 that a call met, and keeps in mind whether the store is
    /// as an accepted compaction left it.
    fn count_compaction(
        &mut self,
        call: &Call,
        answer: Answer,
        [before, after]: [&Buffers; 2],
        is_linked: bool,
    ) {
        let after_compaction = self.after_compaction;
        let pulled = Pulled { call, answer, before, after, after_compaction };
        self.counts.compactions.count(&pulled, is_linked);
        let is_compaction = *call == (Call::Compact {}) && answer.number == 0;
        let same_tables = before[Tables] == after[Tables];
        self.after_compaction = is_compaction || (after_compaction && same_tables);
    }

    /// "Demand 3" for one more call of the list. All three counts of every
    /// answer are compared, the maps looked at by a read among them.
    fn compare_beside(
        &mut self,
        Done { call, answer }: &Done,
        before: &Buffers,
        after: &Buffers,
    ) -> Result<(), String> {
        let Some(beside) = &mut self.beside else {
            if let (Call::Format { pages_length }, 0) = (call, answer.number) {
                let block_count = format_blocks(*pages_length).ok_or("a format was accepted")?;
                self.beside = Some(Beside::format(block_count));
            }
            return Ok(());
        };
        let (wanted, read) = beside.step(call);
        if *answer != wanted {
            return Err(format!("the answer is {answer}; by plain store and tally {wanted}"));
        }
        self.counts.reads_beside.count(call, answer);
        if matches!(call, Call::Read { .. }) && answer.number == 0 {
            check_read(&read, &after[Bytes])?;
        }
        agree_if_changed(before, after, beside)
    }

    /// Plain store and tally are not fed a compaction, which is no call at all for them:
    /// "a reader of any file sees no difference". They agree with what it left.
    fn compare_compaction(&self, before: &Buffers, after: &Buffers) -> Result<(), String> {
        let Some(beside) = &self.beside else { return Ok(()) };
        agree_if_changed(before, after, beside)
    }

    /// A conversion is judged by its bytes. If the older tables are those of a store that
    /// plain store and tally agreed with, these agree with the new tables too, and go on
    /// with them; else none are known of the new tables.
    fn compare_conversion(
        &mut self,
        answer: Answer,
        before: &Buffers,
        after: &Buffers,
    ) -> Result<(), String> {
        let pages_length = before[Pages].len();
        let (older, tables) = (&before[Second], &after[Tables]);
        Converted { older, pages_length, before: &before[Tables], after: tables, answer }
            .judge()?;
        let is_right_length = before[Tables].len() == TABLES_BYTES;
        if self.older.is_some() && is_right_length && answer.number != 0 {
            return Err(format!("the answer is {answer}; the older tables are a store's"));
        }
        if answer.number != 0 {
            return Ok(());
        }
        self.beside = self.older.clone();
        let Some(beside) = &self.beside else { return Ok(()) };
        agree_formed(after, beside)
    }

    /// What a call of the panel answers, and what the registers then show, is
    /// what was done since the last reset demands; `ran` is the answer of the
    /// call that it ran, which plain store and tally have seen. Without a reset
    /// the number alone is compared.
    fn compare_since(
        &mut self,
        call: &Call,
        answer: Answer,
        ran: Option<Answer>,
        (before, after): (&[u8], &[u8]),
        is_linked: bool,
    ) -> Result<(), String> {
        let number = panel_judge::number(call, before.len());
        if answer.number != number {
            return Err(format!("the answer is {answer}; the panel's number is {number}"));
        }
        let from_reset = self.since.is_some();
        let access = Access { call, answer, ran, before, after, from_reset };
        self.counts.panel_judged.count(&access);
        if is_linked {
            self.counts.panel_linked.count(&access);
        }
        if number == 0 && *call == (Call::PanelReset {}) {
            self.since.get_or_insert_default();
        }
        let (Some(since), 0) = (&mut self.since, number) else { return Ok(()) };
        let wanted = since.step(call, ran);
        if answer != wanted {
            return Err(format!("the answer is {answer}; since the reset it must be {wanted}"));
        }
        if after != since.registers() {
            let wanted = since.registers();
            return Err(format!("the registers are {after:?}; since the reset {wanted:?}"));
        }
        Ok(())
    }

    /// Compares with the other implementation, if it has the call. A write is judged
    /// by its room, and a compaction by its bytes, as this implementation did it, else as
    /// the oracle did.
    fn compare_other(
        &mut self,
        call: &Call,
        answer: &Answer,
        before: &Buffers,
        after: &mut Buffers,
        other: &mut dyn Other,
    ) -> Result<(), String> {
        let (index, numbers) = (call.index(), call.numbers());
        if !other.has(index) {
            self.judge_room(call, answer, before, &after[Tables], false)?;
            let run = &mut |lent: Lent| store::run(index, &numbers, lent);
            return judge_compaction(call, *answer, before, || after.clone(), run);
        }
        let mut lent = Guarded::new(before);
        let found = other.run(index, &numbers, lent.lend());
        self.counts.linked[index] += 1;
        let room = self.judge_room(call, &found, before, lent.found(Tables), true);
        let run = &mut |lent: Lent| other.run(index, &numbers, lent);
        let compaction = judge_compaction(call, found, before, || lent.left(), run);
        let same = compare_answers(answer, &found).and_then(|_| {
            self.counts.reads_linked.count(call, answer);
            lent.compare(call.row(), answer.number == 0, after)
        });
        both(both(same, room), compaction)
    }

    /// Ask 7 of document 02, "How much room a write can take", for one write.
    fn judge_room(
        &mut self,
        call: &Call,
        answer: &Answer,
        before: &Buffers,
        tables_after: &[u8],
        is_linked: bool,
    ) -> Result<(), String> {
        let Some(write) = call.as_write() else { return Ok(()) };
        let judgement = room::judge(&Taken {
            write,
            answer: *answer,
            before: &before[Tables],
            after: tables_after,
            pages_length: before[Pages].len(),
        });
        self.counts.room.count(&judgement, is_linked);
        judgement.outcome()
    }
}

/// Ask 9 of document 02, "Pull the blocks together", for one compaction. What an
/// accepted one left is pulled together once more, which must change nothing but what is
/// free.
fn judge_compaction(
    call: &Call,
    answer: Answer,
    before: &Buffers,
    left: impl FnOnce() -> Buffers,
    run: &mut dyn FnMut(Lent) -> Answer,
) -> Result<(), String> {
    if *call != (Call::Compact {}) {
        return Ok(());
    }
    let after = left();
    Compacted { answer, before, after: &after }.outcome()?;
    if answer.number != 0 {
        return Ok(());
    }
    let mut again = Guarded::new(&after);
    let answer = run(again.lend());
    again.check_guards()?;
    Compacted { answer, before: &after, after: &again.left() }.outcome_of_second()
}

/// The store is well formed, and agrees with plain store and tally.
fn agree_formed(after: &Buffers, beside: &Beside) -> Result<(), String> {
    let state = State::unpack(&after[Tables]);
    if let Some(broken) = check_state(&state, after[Pages].len()).first() {
        return Err(format!("the tables are not well formed: {broken}"));
    }
    agree(&state, &after[Pages], beside)
}

/// The same; bytes that did not change need not be compared once more.
fn agree_if_changed(before: &Buffers, after: &Buffers, beside: &Beside) -> Result<(), String> {
    if after[Tables] == before[Tables] && after[Pages] == before[Pages] {
        return Ok(());
    }
    agree_formed(after, beside)
}

/// Two outcomes as one, with the texts of both.
fn both(one: Result<(), String>, other: Result<(), String>) -> Result<(), String> {
    match (one, other) {
        (Err(text), Err(more)) => Err(format!("{text}; {more}")),
        (one, other) => one.and(other),
    }
}

/// The listed call that is done, none for a conversion or a compaction, which are judged
/// by themselves, and for a panel access that runs no command. What a command does to
/// tables and pages is what its call does, made directly: "Sequences through the panel
/// count as the calls they run."
fn listed(
    call: &Call,
    answer: Answer,
    before: &Buffers,
    after: &Buffers,
) -> Result<Option<Done>, String> {
    if matches!(call, Call::Convert {} | Call::Compact {}) {
        return Ok(None);
    }
    if !call.is_of_panel() {
        return Ok(Some(Done { call: call.clone(), answer }));
    }
    let mut direct = before.clone();
    let done = panel_judge::call_run(call, &before[Registers]).map(|call| {
        let answer = store::run(call.index(), &call.numbers(), direct.lend());
        Done { call, answer }
    });
    if direct[Tables] == after[Tables] && direct[Pages] == after[Pages] {
        return Ok(done);
    }
    Err(match done {
        Some(Done { call, .. }) => format!("the store is not as after the call {call}"),
        None => "the store changed, and no command ran".to_string(),
    })
}

/// The number and all three counts are equal. Document 02, of the maps looked at
/// by a read: "This number is then free no longer."
fn compare_answers(answer: &Answer, found: &Answer) -> Result<(), String> {
    if found == answer {
        Ok(())
    } else {
        Err(format!("the answer is {found}; the oracle's is {answer}"))
    }
}

fn put_byte(bytes: &mut [u8], at: usize, value: u8) {
    if let Some(byte) = bytes.get_mut(at) {
        *byte = value;
    }
}

/// "It fills that many bytes at the buffer's front and touches no others."
fn check_read(wanted: &[u8], buffer: &[u8]) -> Result<(), String> {
    if buffer[..wanted.len()] != *wanted {
        return Err("the bytes read are not the plain store's".to_string());
    }
    if buffer[wanted.len()..].iter().any(|byte| *byte != BUFFER_FILL) {
        return Err("a byte of the buffer past the count was touched".to_string());
    }
    Ok(())
}

/// Runs a script from nothing. Gives the place and text of the first
/// difference.
pub fn replay(script: &[Item], other: &mut dyn Other) -> Option<(usize, String)> {
    let mut bench = Bench::new();
    for (place, item) in script.iter().enumerate() {
        if let Err(text) = bench.step(item, other) {
            return Some((place, text));
        }
    }
    None
}

/// A shorter script that also ends in a difference: lines are left out one by
/// one as long as some difference stays.
pub fn shrink(script: &[Item], other: &mut dyn Other, limit: Duration) -> Vec<Item> {
    let start = Instant::now();
    let mut short = script.to_vec();
    let mut place = short.len();
    while place > 0 && start.elapsed() < limit {
        place -= 1;
        let mut shorter = short.clone();
        shorter.remove(place);
        if let Some((last, _)) = replay(&shorter, other) {
            shorter.truncate(last + 1);
            short = shorter;
            place = place.min(short.len());
        }
    }
    short
}

/// The text that goes with a difference: what differs, and the calls, one a
/// line, so that they can be done again.
pub fn report(script: &[Item], other: &mut dyn Other) -> String {
    let short = shrink(script, other, Duration::from_secs(20));
    let found = replay(&short, other);
    let text = found.map_or("the difference did not come again".to_string(), |(_, text)| text);
    let lines: Vec<String> = short.iter().map(Item::to_string).collect();
    format!("{text}\nafter the script:\n{}\n", lines.join("\n"))
}
