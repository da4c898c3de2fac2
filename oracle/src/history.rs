//! Random histories from format on, compared after every call.

use crate::bench::{Bench, Counts, Other};
use crate::call::*;
use crate::gen::{self, compact, panel, terms, Start};
use crate::judge::Beside;
use crate::rng::Rng;
use std::collections::VecDeque;

/// A difference and the script that ends in it.
pub struct Failure {
    pub text: String,
    pub script: Vec<Item>,
}

/// What is told of each line of a script before it is done.
pub type Watch<'a> = &'a mut dyn FnMut(&Item);

/// A random history of its own seed: format, perhaps calls that fill the store,
/// make a family and drop its pages or write them by groups, or make a line and
/// read through it, then `length` turns: a random call, or accesses of the panel
/// that belong together, or a conversion, or compactions. The counts are added to.
/// Where the other implementation has only some of the calls, these come more often.
pub fn random_history(
    seed: u64,
    block_count: usize,
    length: usize,
    other: &mut dyn Other,
    counts: &mut Counts,
    watch: Watch,
) -> Result<(), Failure> {
    let mut rng = Rng::new(seed);
    let start = gen::start(&mut rng, block_count);
    history(&mut rng, start, length, other, counts, watch)
}

/// What a short history begins with.
#[derive(Clone, Copy, PartialEq, Eq, Debug)]
pub enum Short {
    /// A family for writes by groups.
    Groups,
    /// Calls made through the panel.
    Panel,
    /// A family for the room that a write can take.
    Room,
    /// A family whose sets get terms, and conversions.
    Terms,
    /// Blocks that are scattered, and compactions.
    Compact,
    /// A family in a store nearly full, in which marking frees blocks.
    Marking,
}

/// How a history of this many blocks begins.
type Begin = fn(&mut Rng, usize) -> Start;

impl Short {
    pub const ALL: [Short; 6] =
        [Short::Groups, Short::Panel, Short::Room, Short::Terms, Short::Compact, Short::Marking];

    /// Of a hundred stores so many have 64 blocks, and the others have from so many to
    /// so many; how the history begins; the turns after it.
    fn form(self) -> (usize, (usize, usize), Begin, usize) {
        match self {
            Short::Groups => (20, (3, 16), gen::group_start, 10),
            Short::Panel => (20, (1, 12), panel::panel_start, 10),
            Short::Room => (80, (2, 24), gen::room_start, 5),
            Short::Terms => (10, (1, 12), terms::term_start, 30),
            Short::Compact => (40, (2, 24), compact::compact_start, 15),
            Short::Marking => (30, (4, 24), gen::marking_start, 10),
        }
    }
}

/// A short history that begins in this way.
pub fn short_history(
    short: Short,
    seed: u64,
    other: &mut dyn Other,
    counts: &mut Counts,
    watch: Watch,
) -> Result<(), Failure> {
    let (large, (least, most), start, length) = short.form();
    let mut rng = Rng::new(seed);
    let block_count = if rng.percent(large) { 64 } else { rng.between(least, most) };
    let start = start(&mut rng, block_count);
    history(&mut rng, start, length, other, counts, watch)
}

/// A short history in which a delete through the panel can make more than 255
/// copies, so many blocks being free.
pub fn many_copies_history(
    seed: u64,
    free: usize,
    other: &mut dyn Other,
    counts: &mut Counts,
    watch: Watch,
) -> Result<(), Failure> {
    let mut rng = Rng::new(seed);
    let start = panel::many_copies_start(&mut rng, free);
    history(&mut rng, start, 5, other, counts, watch)
}

/// A history that begins in this way, and then so many turns.
fn history(
    rng: &mut Rng,
    start: Start,
    length: usize,
    other: &mut dyn Other,
    counts: &mut Counts,
    watch: Watch,
) -> Result<(), Failure> {
    let mut bench = Bench::new();
    std::mem::swap(&mut bench.counts, counts);
    let mut script = Vec::new();
    let mut coming: VecDeque<Item> =
        [start.calls, start.then].concat().into_iter().map(Item::Call).collect();
    // Mostly the panel is reset before it is used; format stands first.
    if rng.percent(85) {
        coming.insert(1, Item::Call(Call::PanelReset {}));
    }
    let mut outcome = Ok(());
    let mut turns = 0..length;
    while outcome.is_ok() {
        let Some(item) = coming.pop_front() else {
            if turns.next().is_none() {
                break;
            }
            let beside = bench.beside.as_ref().expect("a history begins with format");
            coming.extend(turn(rng, &start.style, beside, other));
            continue;
        };
        watch(&item);
        script.push(item.clone());
        let done = bench.step(&item, other);
        outcome = done.map(drop).map_err(|text| Failure { text, script: script.clone() });
    }
    std::mem::swap(&mut bench.counts, counts);
    outcome
}

/// What comes next. Where the other implementation has only some of the calls,
/// often one of these.
fn turn(rng: &mut Rng, style: &gen::Style, beside: &Beside, other: &dyn Other) -> Vec<Item> {
    // Format is left out: it would end each history soon.
    let others: Vec<usize> = (1..CALLS).filter(|index| other.has(*index)).collect();
    let some_others = !others.is_empty() && others.len() < CALLS - 1 - ORACLE_ALONE.len();
    if some_others && rng.percent(40) {
        let index = rng.pick(&others);
        return panel::turn_of(rng, style, beside, index);
    }
    panel::turn(rng, style, beside)
}

/// A random history with a random store size and length. Now and then it begins
/// with calls made through the panel, with a family for the room that a write can take,
/// with one whose sets get terms, with scattered blocks or with a family for marking, seldom
/// with a delete of many copies.
pub fn any_history(
    seed: u64,
    other: &mut dyn Other,
    counts: &mut Counts,
    watch: Watch,
) -> Result<(), Failure> {
    let mut rng = Rng::new(seed ^ 0x5EED);
    let block_count = gen::block_count(&mut rng);
    let length = rng.between(20, 160);
    match rng.below(100) {
        0 | 1 => {
            let free = rng.pick(&panel::LEFT_FREE);
            many_copies_history(seed, free, other, counts, watch)
        }
        2..=9 => short_history(Short::Panel, seed, other, counts, watch),
        10..=17 => short_history(Short::Room, seed, other, counts, watch),
        18..=25 => short_history(Short::Terms, seed, other, counts, watch),
        26..=33 => short_history(Short::Compact, seed, other, counts, watch),
        34..=45 => short_history(Short::Marking, seed, other, counts, watch),
        _ => random_history(seed, block_count, length, other, counts, watch),
    }
}
