//! What a caller lends and tells to any call: buffers, each to be changed or
//! only read, and numbers. Comparing what two implementations did with them.

use crate::call::Answer;
use std::ops::{Index, IndexMut, Range};

/// The most numbers that a call is told.
pub const MOST_NUMBERS: usize = 5;
/// The numbers of a call, in the order of include/sweep.h, then zeros.
pub type Numbers = [u32; MOST_NUMBERS];

/// The buffers that a call can be lent, in the order of
/// tests/boundary/harness.h.
#[derive(Clone, Copy, PartialEq, Eq, Debug)]
pub enum Buffer {
    Tables,
    Pages,
    /// The data of a write, the buffer of a read.
    Bytes,
    Registers,
    /// The spare page of a compaction.
    Spare,
    /// Second tables: the older ones that are converted.
    Second,
}

pub const BUFFERS: usize = 6;

impl Buffer {
    pub const ALL: [Buffer; BUFFERS] = [
        Buffer::Tables,
        Buffer::Pages,
        Buffer::Bytes,
        Buffer::Registers,
        Buffer::Spare,
        Buffer::Second,
    ];

    /// As messages and scripts name it.
    pub fn name(self) -> &'static str {
        ["tables", "pages", "bytes", "registers", "spare", "second"][self as usize]
    }
}

/// How a call is lent a buffer.
#[derive(Clone, Copy, PartialEq, Eq, Debug)]
pub enum Lending {
    NotLent,
    ReadOnly,
    Changed,
}

/// The bytes that an accepted call leaves free, in buffers as the oracle left
/// them: they are not compared, and the oracle goes on with the other
/// implementation's.
pub type Leaves = fn(&Buffers) -> Vec<(Buffer, Range<usize>)>;

/// What is the same in every call of a kind.
pub struct Row {
    /// By the buffer's place in `Buffer::ALL`.
    pub lends: [Lending; BUFFERS],
    /// None: no byte is left free.
    pub leaves: Option<Leaves>,
}

impl Row {
    /// The buffers that are lent.
    pub fn lent(&self) -> impl Iterator<Item = Buffer> + '_ {
        Buffer::ALL.into_iter().filter(|buffer| self.lends(*buffer) != Lending::NotLent)
    }

    pub fn lends(&self, buffer: Buffer) -> Lending {
        self.lends[buffer as usize]
    }
}

/// The buffers as a call gets them; those that it is not lent are empty.
pub struct Lent<'a> {
    pub tables: &'a mut [u8],
    pub pages: &'a mut [u8],
    pub bytes: &'a mut [u8],
    pub registers: &'a mut [u8],
    pub spare: &'a mut [u8],
    pub second: &'a mut [u8],
}

impl<'a> Lent<'a> {
    /// In the order of `Buffer::ALL`.
    pub fn new(all: [&'a mut [u8]; BUFFERS]) -> Lent<'a> {
        let [tables, pages, bytes, registers, spare, second] = all;
        Lent { tables, pages, bytes, registers, spare, second }
    }

    /// A store with data or a read buffer, and nothing else.
    pub fn store(tables: &'a mut [u8], pages: &'a mut [u8], bytes: &'a mut [u8]) -> Lent<'a> {
        Lent::new([tables, pages, bytes, &mut [], &mut [], &mut []])
    }

    /// The same buffers lent once more.
    pub fn again(&mut self) -> Lent<'_> {
        Lent::new([
            &mut *self.tables,
            &mut *self.pages,
            &mut *self.bytes,
            &mut *self.registers,
            &mut *self.spare,
            &mut *self.second,
        ])
    }
}

/// The caller's buffers.
#[derive(Clone, PartialEq, Eq, Default)]
pub struct Buffers {
    all: [Vec<u8>; BUFFERS],
}

impl Index<Buffer> for Buffers {
    type Output = Vec<u8>;

    fn index(&self, buffer: Buffer) -> &Vec<u8> {
        &self.all[buffer as usize]
    }
}

impl IndexMut<Buffer> for Buffers {
    fn index_mut(&mut self, buffer: Buffer) -> &mut Vec<u8> {
        &mut self.all[buffer as usize]
    }
}

impl Buffers {
    pub fn lend(&mut self) -> Lent<'_> {
        Lent::new(self.all.each_mut().map(Vec::as_mut_slice))
    }

    /// The same buffers, without those that are not lent.
    pub fn lent_by(&self, row: &Row) -> Buffers {
        let mut lent = Buffers::default();
        for buffer in row.lent() {
            lent[buffer] = self[buffer].clone();
        }
        lent
    }
}

const GUARD_BYTES: usize = 64;
const GUARD: u8 = 0xC3;

/// Buffers with guard bytes on both sides of each.
pub struct Guarded {
    all: [Vec<u8>; BUFFERS],
}

/// The part of a guarded buffer that is lent.
fn inside(bytes: &[u8]) -> Range<usize> {
    GUARD_BYTES..bytes.len() - GUARD_BYTES
}

impl Guarded {
    pub fn new(buffers: &Buffers) -> Guarded {
        Guarded {
            all: buffers.all.each_ref().map(|bytes| {
                let guard = [GUARD; GUARD_BYTES];
                [&guard, bytes.as_slice(), &guard].concat()
            }),
        }
    }

    pub fn lend(&mut self) -> Lent<'_> {
        Lent::new(self.all.each_mut().map(|bytes| {
            let range = inside(bytes);
            &mut bytes[range]
        }))
    }

    /// What a call left in a buffer.
    pub fn found(&self, buffer: Buffer) -> &[u8] {
        let bytes = &self.all[buffer as usize];
        &bytes[inside(bytes)]
    }

    fn guards_hold(&self, buffer: Buffer) -> bool {
        let bytes = &self.all[buffer as usize];
        let range = inside(bytes);
        bytes[..range.start].iter().chain(&bytes[range.end..]).all(|byte| *byte == GUARD)
    }

    /// No byte beside a buffer was changed.
    pub fn check_guards(&self) -> Result<(), String> {
        match Buffer::ALL.into_iter().find(|buffer| !self.guards_hold(*buffer)) {
            None => Ok(()),
            Some(buffer) => Err(format!("bytes beside the {} were changed", buffer.name())),
        }
    }

    /// What a call left in all buffers.
    pub fn left(&self) -> Buffers {
        let mut left = Buffers::default();
        for buffer in Buffer::ALL {
            left[buffer] = self.found(buffer).to_vec();
        }
        left
    }

    /// Compares what a call of the other implementation left here with what
    /// the oracle's call left in `after`. What an accepted call leaves free is
    /// taken over into `after`.
    pub fn compare(&self, row: &Row, accepted: bool, after: &mut Buffers) -> Result<(), String> {
        self.check_guards()?;
        if let (Some(leaves), true) = (row.leaves, accepted) {
            for (buffer, range) in leaves(after) {
                after[buffer][range.clone()].copy_from_slice(&self.found(buffer)[range]);
            }
        }
        row.lent().try_for_each(|buffer| compare_bytes(buffer, self.found(buffer), &after[buffer]))
    }
}

fn compare_bytes(buffer: Buffer, found: &[u8], wanted: &[u8]) -> Result<(), String> {
    if found == wanted {
        return Ok(());
    }
    let at = (0..wanted.len()).find(|at| found[*at] != wanted[*at]).expect("some byte differs");
    let (name, byte, other) = (buffer.name(), found[at], wanted[at]);
    Err(format!("{name} differ at byte {at}: {byte:#04x}; the oracle's is {other:#04x}"))
}

/// "returned (counts 0, nothing changed)"; what is lent to be read stays as it
/// was.
pub fn check_unchanged(
    row: &Row,
    answer: &Answer,
    before: &Buffers,
    after: &Buffers,
) -> Result<(), String> {
    if answer.number != 0 && *answer != Answer::refused(answer.number) {
        return Err(format!("a refused call gives counts: {answer}"));
    }
    let changed = |buffer: &Buffer| before[*buffer] != after[*buffer];
    let fixed = |buffer: &Buffer| answer.number != 0 || row.lends(*buffer) == Lending::ReadOnly;
    match row.lent().filter(fixed).find(changed) {
        None => Ok(()),
        Some(buffer) => Err(format!("the {} changed, with the answer {answer}", buffer.name())),
    }
}
