//! How much room a write can take (Ask 7 of document 02): "Planners size a store by
//! it." A write is judged from its arguments, its answer and the bytes of the tables
//! before and after it: "State it of the counts and of the bitmap before and
//! after." The bytes are read here anew, and no code of a write is used.
//!
//! Ask 10: "The room bound of Ask 7 then counts the blocks that marking freed among the
//! free ones, a block as often as it was freed." How often that is, the turns of the write
//! tell, gone through once more (`turns`).
//!
//! In the comments k, p and c are the first three numbers of `Room`.

use crate::bits::field;
use crate::call::*;
use crate::check::is_well_formed;
use crate::judging::{self, unless};
use crate::layout::{block_count, entry, is_marked, is_used_block, set_record, STORED};
use crate::state::State;
use crate::turns::Turns;
use std::fmt;
use std::ops::Range;

/// 8: "own need over the free blocks".
const NO_ROOM: u32 = 8;
/// In groups of eight at most seven pages stand before the first touched page in its
/// group, and seven after the last.
const OTHERS_BY_EIGHTS: usize = 14;

/// A write that was done, with the bytes of the tables before and after it.
#[derive(Clone, Copy)]
pub struct Taken<'a> {
    pub write: AnyWrite,
    pub answer: Answer,
    pub before: &'a [u8],
    pub after: &'a [u8],
    /// The length of the pages buffer, which well-formed tables agree with.
    pub pages_length: usize,
}

/// What a write finds, by its arguments and the tables before it.
#[derive(Clone, Copy, PartialEq, Eq, Debug)]
pub struct Room {
    /// k: the touched pages, 0 for a write of length 0.
    pub touched: usize,
    /// p: the pages of the touched groups.
    pub in_groups: usize,
    /// c: all children of the set, whether or not they have the file.
    pub children: usize,
    /// The free blocks.
    pub free: usize,
    /// The blocks that the write's markings free, a block as often as it is freed; 0 for
    /// a write that is refused.
    pub freed: usize,
}

impl Room {
    /// Reads it off well-formed tables.
    pub fn of(write: &AnyWrite, tables: &[u8]) -> Room {
        let touched = touched_pages(write);
        let turns = Turns::of_write(write, &State::unpack(tables));
        Room {
            touched: touched.len(),
            in_groups: pages_of_groups(&touched, write.group),
            children: children(tables, write.set),
            free: free_blocks(tables),
            freed: turns.map_or(0, |turns| turns.freed().len()),
        }
    }

    /// "k + k x c blocks".
    pub fn enough(&self) -> usize {
        self.touched + self.touched * self.children
    }

    pub fn has_enough(&self) -> bool {
        self.free >= self.enough()
    }
}

/// A write touches "the pages that hold its bytes".
fn touched_pages(write: &AnyWrite) -> Range<usize> {
    let (start, end) = (write.offset as usize, write.offset as usize + write.length);
    if write.length == 0 {
        0..0
    } else {
        start / PAGE_BYTES..(end - 1) / PAGE_BYTES + 1
    }
}

/// How many of the 64 pages are in a group with a touched page: "any group size from
/// 1 to 64, the last group ending at page 63".
fn pages_of_groups(touched: &Range<usize>, group: usize) -> usize {
    let is_touched = |page: usize| touched.clone().any(|other| other / group == page / group);
    (0..PAGES).filter(|page| is_touched(*page)).count()
}

/// The used sets whose parent this set is: "used 1, writeable 1, level 3, parent 4".
/// In well-formed tables they are those of its chain.
fn children(tables: &[u8], set: u32) -> usize {
    let is_child = |other: &usize| {
        let record = set_record(tables, *other);
        field(record, 0, 1) == 1 && field(record, 5, 4) == set
    };
    (0..SETS).filter(is_child).count()
}

/// The blocks below B whose bit is 0.
fn free_blocks(tables: &[u8]) -> usize {
    let block_count = block_count(tables).min(MOST_BLOCKS);
    (0..block_count).filter(|block| !is_used_block(tables, *block)).count()
}

/// What a write can break.
#[derive(Clone, Copy, PartialEq, Eq, PartialOrd, Ord, Debug)]
pub enum Bound {
    /// First count <= k.
    OwnBlocks,
    /// Second count <= p x c.
    Copies,
    /// First + second <= free before + freed.
    FreeBefore,
    /// Narrow: first + second <= k + k x c.
    Narrow,
    /// By eights: first + second <= k + (k + 14) x c.
    ByEights,
    /// Free after + first + second = free before + freed.
    FreeAfter,
    /// A bit that was 1 is 0 after only if a file of the write's number that became marked
    /// named the block.
    BitsStay,
    /// At most first + second bits are newly 1.
    BitsNewlyOne,
    /// If no file became marked: exactly first + second bits are newly 1, and nothing was
    /// freed.
    NothingMarked,
    /// With k + k x c free: the number is not 8.
    NoRefusal,
    /// With k + k x c free: the third count is 0.
    ThirdCount,
    /// With k + k x c free: no file becomes marked.
    NoMark,
    /// A write that is refused, or finds tables that are not well formed, has counts
    /// of 0.
    NoCounts,
    /// And it leaves the tables as they were.
    SameBytes,
}

impl Bound {
    pub const ALL: [Bound; 14] = [
        Bound::OwnBlocks,
        Bound::Copies,
        Bound::FreeBefore,
        Bound::Narrow,
        Bound::ByEights,
        Bound::FreeAfter,
        Bound::BitsStay,
        Bound::BitsNewlyOne,
        Bound::NothingMarked,
        Bound::NoRefusal,
        Bound::ThirdCount,
        Bound::NoMark,
        Bound::NoCounts,
        Bound::SameBytes,
    ];
}

/// A bound that was broken, in words and numbers.
pub type Broken = judging::Broken<Bound>;

/// What the judge says of a write.
pub struct Judgement {
    /// None where it is judged only that the write took nothing.
    pub room: Option<Room>,
    pub broken: Vec<Broken>,
    /// Whether each of `CASES` was met.
    pub cases: [bool; CASES.len()],
}

impl Judgement {
    /// An error says every bound that was broken.
    pub fn outcome(&self) -> Result<(), String> {
        judging::outcome("room", &self.broken)
    }
}

/// Judges a write by all bounds.
pub fn judge(taken: &Taken) -> Judgement {
    let room = taken.room();
    let mut broken = Vec::new();
    match room {
        Some(room) if taken.answer.number == 0 => {
            broken.extend(taken.by_counts(&room));
            broken.extend(taken.by_bitmap(&room));
        }
        _ => broken.extend(taken.took_nothing()),
    }
    if let Some(room) = room.filter(Room::has_enough) {
        broken.extend(taken.with_enough(&room));
    }
    let cases = room.map_or([false; CASES.len()], |room| taken.cases(&room));
    Judgement { room, broken, cases }
}

impl Taken<'_> {
    /// The first and the second count.
    fn counts(&self) -> (usize, usize) {
        (self.answer.first as usize, self.answer.second as usize)
    }

    /// None for a write that is refused with another number than 8, and for tables
    /// that are not well formed.
    fn room(&self) -> Option<Room> {
        let is_of_room = matches!(self.answer.number, 0 | NO_ROOM);
        let formed = is_of_room && is_well_formed(self.before, self.pages_length);
        formed.then(|| Room::of(&self.write, self.before))
    }

    /// The bounds of an accepted write's counts.
    fn by_counts(&self, room: &Room) -> Vec<Broken> {
        let Room { touched: k, in_groups: p, children: c, free, freed } = *room;
        let (first, second) = self.counts();
        let total = first + second;
        let is_narrow = self.write.group == NARROW_GROUP;
        let by_eights = self.write.group == WRITE_GROUP;
        let most = k + (k + OTHERS_BY_EIGHTS) * c;
        let found = [
            // Own blocks are taken for touched pages alone.
            unless(first <= k, Bound::OwnBlocks, || {
                format!("the first count is {first}, over the {k} touched pages")
            }),
            // "For a grouped write the copied pages are at most those of the touched
            // groups, times c." Of a narrow write they are the touched pages.
            unless(second <= p * c, Bound::Copies, || {
                format!("the second count is {second}, over {p} pages of groups times {c} children")
            }),
            // "and never more than were free", which "then counts the blocks that
            // marking freed among the free ones"
            unless(total <= free + freed, Bound::FreeBefore, || {
                format!(
                    "{first} + {second} blocks taken are over the {free} that were free and \
                    the {freed} that marking freed"
                )
            }),
            // "An accepted narrow write of k touched pages in a set with c children
            // takes at most k + k x c blocks".
            unless(!is_narrow || total <= room.enough(), Bound::Narrow, || {
                format!("{first} + {second} blocks taken narrowly are over {k} + {k} x {c}")
            }),
            unless(!by_eights || total <= most, Bound::ByEights, || {
                format!("{first} + {second} blocks taken by eights are over {k} + ({k} + 14) x {c}")
            }),
        ];
        found.into_iter().flatten().collect()
    }

    /// The same "of the bitmap before and after", all 4,096 bits of it.
    fn by_bitmap(&self, room: &Room) -> Vec<Broken> {
        let (first, second) = self.counts();
        let Room { free, freed, .. } = *room;
        let left = free_blocks(self.after);
        let [before, after] = [self.before, self.after]
            .map(|tables| move |block: &usize| is_used_block(tables, *block));
        let may_fall = self.blocks_of_newly_marked();
        let falls = |block: &usize| before(block) && !after(block) && !may_fall.contains(block);
        let gone = (0..MOST_BLOCKS).find(falls);
        let new = (0..MOST_BLOCKS).filter(|block| !before(block) && after(block)).count();
        let marks = !self.newly_marked().is_empty();
        let found = [
            unless(left + first + second == free + freed, Bound::FreeAfter, || {
                format!(
                    "{first} + {second} blocks taken of {free} free and {freed} freed leave \
                    {left} free"
                )
            }),
            unless(gone.is_none(), Bound::BitsStay, || {
                format!("the bit of block {} was 1 and is 0", gone.unwrap_or_default())
            }),
            unless(new <= first + second, Bound::BitsNewlyOne, || {
                format!("{new} bits are newly 1, over the {first} + {second} blocks taken")
            }),
            unless(marks || (new, freed) == (first + second, 0), Bound::NothingMarked, || {
                format!(
                    "nothing is marked, {new} bits are newly 1 of {first} + {second} blocks \
                    taken, and {freed} are freed"
                )
            }),
        ];
        found.into_iter().flatten().collect()
    }

    /// The file records, "at set x 16 + file", that became marked.
    fn newly_marked(&self) -> Vec<usize> {
        let newly =
            |place: &usize| !is_marked(self.before, *place) && is_marked(self.after, *place);
        (0..SETS * FILES).filter(newly).collect()
    }

    /// The blocks that files of the write's number named which became marked.
    fn blocks_of_newly_marked(&self) -> Vec<usize> {
        let of_number = |place: &usize| place % FILES == self.write.file as usize;
        let files = self.newly_marked().into_iter().filter(of_number);
        let entries = files.flat_map(|place| place * PAGES..(place + 1) * PAGES);
        let named = entries.map(|place| entry(self.before, place));
        named.filter(|(kind, _)| *kind == STORED).map(|(_, block)| block).collect()
    }

    /// "With k + k x c blocks free, neither kind marks a file or is refused with 8."
    fn with_enough(&self, room: &Room) -> Vec<Broken> {
        let Room { touched: k, children: c, free, .. } = *room;
        let Answer { number, third, .. } = self.answer;
        let though = || format!("though {free} blocks were free and {k} + {k} x {c} are enough");
        let marked = self.newly_marked().first().copied();
        let found = [
            unless(number != NO_ROOM, Bound::NoRefusal, || format!("refused with 8, {}", though())),
            unless(third == 0, Bound::ThirdCount, || {
                format!("the third count is {third}, {}", though())
            }),
            unless(marked.is_none(), Bound::NoMark, || {
                let place = marked.unwrap_or_default();
                let (set, file) = (place / FILES, place % FILES);
                format!("set {set} file {file} became marked, {}", though())
            }),
        ];
        found.into_iter().flatten().collect()
    }

    /// "returned (counts 0, nothing changed)". On tables that are not well formed no
    /// write may take anything, whatever it answers.
    fn took_nothing(&self) -> Vec<Broken> {
        let Answer { first, second, third, .. } = self.answer;
        let length = self.before.len();
        let differs = |at: &usize| self.before.get(*at) != self.after.get(*at);
        let found = [
            unless([first, second, third] == [0; 3], Bound::NoCounts, || {
                format!("nothing may be taken, and the answer is {}", self.answer)
            }),
            unless(self.before == self.after, Bound::SameBytes, || {
                let at = (0..length).find(differs).unwrap_or(length);
                format!("nothing may be taken, and the tables changed at byte {at}")
            }),
        ];
        found.into_iter().flatten().collect()
    }

    /// Whether each of `CASES` was met; a write without touched pages meets none.
    fn cases(&self, room: &Room) -> [bool; CASES.len()] {
        let Room { touched: k, in_groups: p, children: c, free, .. } = *room;
        let (first, second) = self.counts();
        let (total, enough) = (first + second, room.enough());
        let accepted = self.answer.number == 0;
        let is_narrow = self.write.group == NARROW_GROUP;
        let cases = [
            room.has_enough(),
            free == enough,
            free + 1 == enough,
            accepted && first == k,
            accepted && is_narrow && c > 0 && total == enough,
            accepted && p > k && c > 0 && second == p * c,
            accepted && total > 0 && total == free,
            free < enough && self.answer.third > 0,
            free < enough && !accepted,
            accepted && !is_narrow && total > enough,
            accepted && total > free,
            accepted && room.freed > 0 && free_blocks(self.after) > 0,
        ];
        cases.map(|met| met && k > 0)
    }
}

/// The cases that a write can meet, if it touches a page and is accepted or refused
/// with 8.
pub const CASES: [&str; 12] = [
    "k + k x c blocks free or more",
    "just k + k x c free",
    "one less free",
    "first = k",
    "narrow, first + second = k + k x c, c > 0",
    "by groups, second = p x c, p > k, c > 0",
    "first + second = free, over 0",
    "fewer than k + k x c free, a file marked",
    "fewer than k + k x c free, refused with 8",
    "by groups, first + second over k + k x c",
    "first + second over free, marking having freed some",
    "marking freed some, and a block is free after",
];

/// Writes that were judged.
#[derive(Default, Clone, PartialEq, Eq, Debug)]
pub struct Judged {
    pub writes: u64,
    /// Those that were judged by the answer and the bytes of another implementation.
    pub linked: u64,
    /// How often each of `CASES` was met.
    pub met: [u64; CASES.len()],
}

impl Judged {
    pub fn count(&mut self, judgement: &Judgement, is_linked: bool) {
        self.writes += 1;
        self.linked += u64::from(is_linked);
        for (count, met) in self.met.iter_mut().zip(judgement.cases) {
            *count += u64::from(met);
        }
    }

    /// The cases that no write met.
    pub fn unmet(&self) -> Vec<&'static str> {
        let cases = CASES.iter().zip(self.met);
        cases.filter(|(_, met)| *met == 0).map(|(case, _)| *case).collect()
    }
}

impl fmt::Display for Judged {
    fn fmt(&self, f: &mut fmt::Formatter) -> fmt::Result {
        write!(f, "{}, of the library {}", self.writes, self.linked)?;
        CASES.iter().zip(self.met).try_for_each(|(case, met)| write!(f, "; {case}: {met}"))
    }
}
