//! Whether tables and pages agree with plain store and tally, as "Demand 3"
//! compares them; and plain store and tally read off tables and pages.

use crate::call::*;
use crate::judge::Beside;
use crate::plain::{Plain, PlainSet};
use crate::state::*;
use crate::store::read_bytes;
use crate::tally::{Condition, Tally, TallyFile, TallyKind, TallySet};
use crate::term_judge::{Term, Terms};

/// Says the first disagreement. The state is well formed.
pub fn agree(state: &State, pages: &[u8], beside: &Beside) -> Result<(), String> {
    if state.free_blocks() != beside.tally.free {
        return Err(format!(
            "{} blocks free, {} by the tally",
            state.free_blocks(),
            beside.tally.free
        ));
    }
    for set in 0..SETS {
        agree_set(state, beside, set)?;
        agree_term(state, beside, set)?;
        if state.sets[set].used {
            for file in 0..FILES {
                agree_file(state, pages, beside, set, file)?;
            }
        }
    }
    Ok(())
}

/// "Compared are each set's number, parent, level, writeability and children
/// in order".
fn agree_set(state: &State, beside: &Beside, set: usize) -> Result<(), String> {
    let record = &state.sets[set];
    let Some(plain) = &beside.plain.sets[set] else {
        return if record.used { Err(format!("set {set} is used")) } else { Ok(()) };
    };
    let agrees = record.used
        && record.parent == plain.parent.unwrap_or(NONE)
        && record.level == plain.level
        && record.writeable == plain.writeable
        && state.children(set) == plain.children;
    if agrees {
        Ok(())
    } else {
        Err(format!("set {set} is {record:?}, by the plain store parent {:?}, level {}, writeable {}, children {:?}",
            plain.parent, plain.level, plain.writeable, plain.children))
    }
}

/// The term in a used set's record is the one that calls gave it.
fn agree_term(state: &State, beside: &Beside, set: usize) -> Result<(), String> {
    let found = term(state, set);
    let wanted = beside.terms.of(set);
    if found == wanted {
        Ok(())
    } else {
        Err(format!("set {set} has the term {found:?}, by the calls {wanted:?}"))
    }
}

fn term(state: &State, set: usize) -> Option<Term> {
    let record = &state.sets[set];
    let term = Term { first: record.first_day as u32, end: record.end_day as u32 };
    record.used.then_some(term)
}

fn condition(state: FileState) -> Condition {
    match state {
        FileState::Absent => Condition::Absent,
        FileState::Own => Condition::Own,
        FileState::Virgin => Condition::Virgin,
        FileState::Marked => Condition::Marked,
    }
}

fn tally_kind(kind: Kind) -> TallyKind {
    match kind {
        Kind::Unmapped => TallyKind::Unmapped,
        Kind::Hole => TallyKind::Hole,
        Kind::Stored => TallyKind::Stored,
        Kind::Bad => unreachable!("a well-formed state has no kind 3"),
    }
}

/// "which files are present; the size and bytes by reading of those not
/// marked"; and states, sizes and kinds are the tally's.
fn agree_file(
    state: &State,
    pages: &[u8],
    beside: &Beside,
    set: usize,
    file: usize,
) -> Result<(), String> {
    let record = &state.files[set][file];
    let tally = beside.tally.file(set, file);
    let place = format!("set {set} file {file}");
    if condition(record.state) != tally.condition {
        return Err(format!("{place} is {:?}, by the tally {:?}", record.state, tally.condition));
    }
    if record.size != tally.size {
        return Err(format!("{place} has size {}, by the tally {}", record.size, tally.size));
    }
    for page in 0..PAGES {
        if tally_kind(record.entries[page].kind) != tally.kinds[page] {
            return Err(format!(
                "{place} page {page} is {:?}, by the tally {:?}",
                record.entries[page].kind, tally.kinds[page]
            ));
        }
    }
    let plain = &beside.plain.set(set).files[file];
    match plain {
        None if record.is_present() => Err(format!("{place} is present")),
        Some(_) if !record.is_present() => Err(format!("{place} is absent")),
        Some(list) if record.state != FileState::Marked => {
            agree_reading(state, pages, beside, set, file, list)
        }
        _ => Ok(()),
    }
}

/// A read of the whole file gives the plain store's bytes, and has looked at as
/// many maps as the tally says.
fn agree_reading(
    state: &State,
    pages: &[u8],
    beside: &Beside,
    set: usize,
    file: usize,
    list: &[u8],
) -> Result<(), String> {
    let size = state.size_by_reading(set, file);
    if size != list.len() {
        return Err(format!(
            "set {set} file {file} reads with size {size}, by the plain store {}",
            list.len()
        ));
    }
    let mut bytes = vec![0; size];
    let maps = read_bytes(state, pages, set, file, 0, &mut bytes);
    let by_tally = beside.tally.maps_looked_at(set, file, 0, size);
    if maps != by_tally {
        return Err(format!(
            "a read of set {set} file {file} looks at {maps} maps, by the tally {by_tally}"
        ));
    }
    if bytes == list {
        return Ok(());
    }
    let at = (0..size).find(|at| bytes[*at] != list[*at]).expect("some byte differs");
    let (found, wanted) = (bytes[at], list[at]);
    Err(format!("set {set} file {file} byte {at} reads as {found}, by the plain store {wanted}"))
}

/// Plain store and tally that agree with a well-formed store, whether or not
/// calls could bring it there. Of a marked file no bytes are compared, so its
/// list is empty.
pub fn read_off(state: &State, pages: &[u8]) -> Beside {
    let plain = (0..SETS).map(|set| state.sets[set].used.then(|| plain_set(state, pages, set)));
    let tally = (0..SETS).map(|set| state.sets[set].used.then(|| tally_set(state, set)));
    Beside {
        plain: Plain { sets: plain.collect() },
        tally: Tally { free: state.free_blocks(), sets: tally.collect() },
        terms: Terms::read_off(|set| term(state, set)),
    }
}

fn parent(state: &State, set: usize) -> Option<usize> {
    Some(state.sets[set].parent).filter(|parent| *parent != NONE)
}

fn plain_set(state: &State, pages: &[u8], set: usize) -> PlainSet {
    PlainSet {
        parent: parent(state, set),
        level: state.sets[set].level,
        writeable: state.sets[set].writeable,
        children: state.children(set),
        files: (0..FILES).map(|file| plain_file(state, pages, set, file)).collect(),
    }
}

fn plain_file(state: &State, pages: &[u8], set: usize, file: usize) -> Option<Vec<u8>> {
    match state.files[set][file].state {
        FileState::Absent => None,
        FileState::Marked => Some(Vec::new()),
        FileState::Own | FileState::Virgin => {
            let mut bytes = vec![0; state.size_by_reading(set, file)];
            read_bytes(state, pages, set, file, 0, &mut bytes);
            Some(bytes)
        }
    }
}

fn tally_set(state: &State, set: usize) -> TallySet {
    let files = state.files[set].iter().map(|record| TallyFile {
        condition: condition(record.state),
        size: record.size,
        kinds: record.entries.iter().map(|entry| tally_kind(entry.kind)).collect(),
    });
    TallySet { parent: parent(state, set), children: state.children(set), files: files.collect() }
}
