//! Constants of document 01, and the types that every part uses: a call, its
//! answer, and a script (a list of calls that can be written down and read).

pub use crate::lent::{Buffer, Lent, Numbers, BUFFERS, MOST_NUMBERS};
use crate::lent::{Buffers, Lending, Lending::*, Row};
pub use crate::names::{CALL_NAMES, ORACLE_ALONE};
use std::fmt;
use std::ops::Range;

/// How many calls there are.
pub const CALLS: usize = CALL_NAMES.len();
/// How many numbers an answer can have: 0 to 16.
pub const NUMBERS: usize = 17;

/// "Largest: 8 sets, 16 files a set, 64 pages of 512 bytes a file (32,768
/// bytes), 4,096 blocks of 512 bytes."
pub const SETS: usize = 8;
pub const FILES: usize = 16;
pub const PAGES: usize = 64;
pub const PAGE_BYTES: usize = 512;
pub const LARGEST_SIZE: usize = 32_768;
pub const MOST_BLOCKS: usize = 4_096;
/// "As in 002, the highest level is 5."
pub const HIGHEST_LEVEL: usize = 5;
/// Document 02: "so the tables become 17,468 bytes".
pub const TABLES_BYTES: usize = 17_468;
/// Before Ask 8: "The tables are 17,436 bytes." Only the converter takes them.
pub const OLDER_TABLES_BYTES: usize = 17_436;
/// Document 02: "end at most 36,525".
pub const LATEST_END: usize = 36_525;
/// "8 means none."
pub const NONE: usize = 8;
/// Document 02: "A write now copies by aligned groups of eight unless the caller
/// asks for a narrow one."
pub const WRITE_GROUP: usize = 8;
/// A narrow write is one by groups of one page.
pub const NARROW_GROUP: usize = 1;
/// Document 02, of the panel's command: "a session op 1, 4, 5, 6 or 7".
pub const COMMANDS: [u8; 5] = [1, 4, 5, 6, 7];

/// What a call gives: "An accepted call gives 0 and three counts."
#[repr(C)]
#[derive(Clone, Copy, PartialEq, Eq, Debug, Default)]
pub struct Answer {
    pub number: u32,
    pub first: u32,
    pub second: u32,
    pub third: u32,
}

impl Answer {
    pub fn accepted(counts: [u32; 3]) -> Answer {
        Answer { number: 0, first: counts[0], second: counts[1], third: counts[2] }
    }

    /// "returned (counts 0, nothing changed)"
    pub fn refused(number: u32) -> Answer {
        Answer { number, ..Answer::default() }
    }
}

impl fmt::Display for Answer {
    fn fmt(&self, f: &mut fmt::Formatter) -> fmt::Result {
        write!(f, "{}; {}, {}, {}", self.number, self.first, self.second, self.third)
    }
}

const STORE_CHANGED: [Lending; BUFFERS] = lends(Changed, NotLent);
const STORE_READ: [Lending; BUFFERS] = lends(ReadOnly, NotLent);
/// The tables alone: such a call never sees the pages.
const TABLES_READ: [Lending; BUFFERS] = [ReadOnly, NotLent, NotLent, NotLent, NotLent, NotLent];

/// The converter's: the new tables, which it writes, the pages, and the older tables,
/// which are the second ones.
const CONVERTED: [Lending; BUFFERS] = [Changed, ReadOnly, NotLent, NotLent, NotLent, ReadOnly];

/// A compaction's: the store, and "one spare page of 512 bytes lent for it".
const COMPACTED: [Lending; BUFFERS] = [Changed, Changed, NotLent, NotLent, Changed, NotLent];

/// What an accepted compaction leaves free. Document 02: "free pages and the spare page
/// may hold anything (named as free)". The free pages are those from the number of used
/// blocks up, which are the ones in the bitmap, 512 bytes after the header's 4.
pub fn left_by_compaction(after: &Buffers) -> Vec<(Buffer, Range<usize>)> {
    let bitmap = &after[Buffer::Tables][4..516];
    let used: usize = bitmap.iter().map(|byte| byte.count_ones() as usize).sum();
    let pages = after[Buffer::Pages].len();
    vec![(Buffer::Pages, used * PAGE_BYTES..pages), (Buffer::Spare, 0..after[Buffer::Spare].len())]
}

/// The panel's registers, to be changed or only read.
const REGISTERS_CHANGED: [Lending; BUFFERS] = lends_registers(NotLent, Changed);
const REGISTERS_READ: [Lending; BUFFERS] = lends_registers(NotLent, ReadOnly);

/// How a call is lent tables and pages, and its data or buffer.
const fn lends(store: Lending, bytes: Lending) -> [Lending; BUFFERS] {
    [store, store, bytes, NotLent, NotLent, NotLent]
}

/// How a call of the panel is lent tables and pages, and the registers.
const fn lends_registers(store: Lending, registers: Lending) -> [Lending; BUFFERS] {
    [store, store, NotLent, registers, NotLent, NotLent]
}

/// Makes of a table of calls: the type of a call, its place, what it is lent
/// and told, and its line of a script.
macro_rules! calls {
    ($($(#[$doc:meta])* $call:ident { $($field:ident: $kind:ty),* }
        told [$($told:ident),*] lends $lends:expr, leaves $leaves:expr;)*) => {
        /// One call with its arguments.
        #[derive(Clone, PartialEq, Eq, Debug)]
        pub enum Call {
            $($(#[$doc])* $call { $($field: $kind),* },)*
        }

        /// The calls alone, in the order of `CALL_NAMES`.
        #[derive(Clone, Copy)]
        enum Place {
            $($call,)*
        }

        /// In the order of `CALL_NAMES`.
        pub const ROWS: [Row; CALLS] = [$(Row { lends: $lends, leaves: $leaves },)*];

        impl Call {
            /// The call's place in `CALL_NAMES`.
            pub fn index(&self) -> usize {
                match self {
                    $(Call::$call { .. } => Place::$call as usize,)*
                }
            }

            /// The numbers that the call is told.
            pub fn numbers(&self) -> Numbers {
                let mut numbers = [0; MOST_NUMBERS];
                match *self {
                    $(Call::$call { $($told,)* .. } => {
                        let told: &[u32] = &[$(u32::from($told)),*];
                        numbers[..told.len()].copy_from_slice(told);
                    })*
                }
                numbers
            }

            /// The arguments as a line of a script has them.
            fn fmt_arguments(&self, f: &mut fmt::Formatter) -> fmt::Result {
                match self {
                    $(Call::$call { $($field),* } => {
                        $(write!(f, " {}", $field)?;)*
                    })*
                }
                Ok(())
            }

            fn parse_arguments(name: &str, words: &mut Words) -> Result<Call, String> {
                $(if name == CALL_NAMES[Place::$call as usize] {
                    return Ok(Call::$call { $($field: words.number::<$kind>()?),* });
                })*
                Err(format!("unknown call '{name}'"))
            }
        }
    };
}

calls! {
    /// Format of a pages buffer of this many bytes.
    Format { pages_length: usize } told [] lends STORE_CHANGED, leaves None;
    Create { set: u32, file: u32 } told [set, file] lends STORE_CHANGED, leaves None;
    /// A write of `length` bytes that follow from `seed` (see `data_bytes`), by
    /// groups of eight.
    Write { set: u32, file: u32, offset: u32, length: usize, seed: u32 }
        told [set, file, offset] lends lends(Changed, ReadOnly), leaves None;
    Read { set: u32, file: u32, offset: u32, length: usize }
        told [set, file, offset] lends lends(ReadOnly, Changed), leaves None;
    Truncate { set: u32, file: u32, size: u32 }
        told [set, file, size] lends STORE_CHANGED, leaves None;
    Delete { set: u32, file: u32 } told [set, file] lends STORE_CHANGED, leaves None;
    Make { parent: u32, set: u32, writeable: u32 }
        told [parent, set, writeable] lends STORE_CHANGED, leaves None;
    Remove { set: u32 } told [set] lends STORE_CHANGED, leaves None;
    Size { set: u32, file: u32 } told [set, file] lends STORE_READ, leaves None;
    Free {} told [] lends STORE_READ, leaves None;
    /// The first part of the well-formed check.
    CheckBlocks {} told [] lends TABLES_READ, leaves None;
    /// The whole well-formed check.
    Check {} told [] lends STORE_READ, leaves None;
    /// A narrow write.
    WriteNarrow { set: u32, file: u32, offset: u32, length: usize, seed: u32 }
        told [set, file, offset] lends lends(Changed, ReadOnly), leaves None;
    PanelReset {} told [] lends REGISTERS_CHANGED, leaves None;
    PanelRead { offset: u32 } told [offset] lends REGISTERS_READ, leaves None;
    /// A write of a register; at offset 0 it runs a command on the store.
    PanelWrite { offset: u32, value: u8 }
        told [offset, value] lends lends_registers(Changed, Changed), leaves None;
    /// Asking for the line.
    PanelLine {} told [] lends REGISTERS_READ, leaves None;
    /// Sets a set's term from a date and a count of months.
    SetTerm { set: u32, year: u32, month: u32, day: u32, months: u32 }
        told [set, year, month, day, months] lends STORE_CHANGED, leaves None;
    /// Asks whether a set is current on a day.
    Current { set: u32, day: u32 } told [set, day] lends STORE_READ, leaves None;
    /// The converter: from the second tables, of the length before Ask 8, to the tables.
    Convert {} told [] lends CONVERTED, leaves None;
    /// Compaction: pulls the blocks together.
    Compact {} told [] lends COMPACTED, leaves Some(left_by_compaction);
    /// A write by groups of any size.
    WriteGroups { group: Group, set: u32, file: u32, offset: u32, length: usize, seed: u32 }
        told [group, set, file, offset] lends lends(Changed, ReadOnly), leaves None;
}

/// How many pages a group has. Document 02: "any group size from 1 to 64".
#[derive(Clone, Copy, PartialEq, Eq, PartialOrd, Ord, Debug)]
pub struct Group(u32);

impl Group {
    /// None for a size that is not 1 to 64.
    pub fn new(pages: usize) -> Option<Group> {
        (1..=PAGES).contains(&pages).then_some(Group(pages as u32))
    }

    pub fn pages(self) -> usize {
        self.0 as usize
    }
}

impl From<Group> for u32 {
    fn from(group: Group) -> u32 {
        group.0
    }
}

impl fmt::Display for Group {
    fn fmt(&self, f: &mut fmt::Formatter) -> fmt::Result {
        self.0.fmt(f)
    }
}

impl std::str::FromStr for Group {
    type Err = String;

    fn from_str(word: &str) -> Result<Group, String> {
        let group = word.parse().ok().and_then(Group::new);
        group.ok_or_else(|| format!("'{word}' is not 1 to {PAGES}"))
    }
}

/// A write of any of the three kinds.
#[derive(Clone, Copy, PartialEq, Eq, Debug)]
pub struct AnyWrite {
    /// The pages of a group.
    pub group: usize,
    pub set: u32,
    pub file: u32,
    pub offset: u32,
    pub length: usize,
    pub seed: u32,
}

impl Call {
    pub fn row(&self) -> &'static Row {
        &ROWS[self.index()]
    }

    /// The call as a write with the size of its groups, if it is a write.
    pub fn as_write(&self) -> Option<AnyWrite> {
        Some(match *self {
            Call::Write { set, file, offset, length, seed } => {
                AnyWrite { group: WRITE_GROUP, set, file, offset, length, seed }
            }
            Call::WriteNarrow { set, file, offset, length, seed } => {
                AnyWrite { group: NARROW_GROUP, set, file, offset, length, seed }
            }
            Call::WriteGroups { group, set, file, offset, length, seed } => {
                AnyWrite { group: group.pages(), set, file, offset, length, seed }
            }
            _ => return None,
        })
    }

    /// Whether it is a call of the panel: no other is lent registers.
    pub fn is_of_panel(&self) -> bool {
        self.row().lends(Buffer::Registers) != NotLent
    }

    /// Whether the call may change tables or pages at all.
    pub fn changes(&self) -> bool {
        [Buffer::Tables, Buffer::Pages].iter().any(|buffer| self.row().lends(*buffer) == Changed)
    }
}

/// The bytes of a write: zeros for seed 0, otherwise bytes that are not zero
/// and differ from place to place.
pub fn data_bytes(length: usize, seed: u32) -> Vec<u8> {
    if seed == 0 {
        return vec![0; length];
    }
    (0..length).map(|place| data_byte(place as u64, seed)).collect()
}

fn data_byte(place: u64, seed: u32) -> u8 {
    let mixed = (u64::from(seed) + 1).wrapping_mul(0x9E37_79B9_7F4A_7C15);
    let mixed = (mixed ^ place).wrapping_mul(0xBF58_476D_1CE4_E5B9);
    ((mixed >> 32) % 255) as u8 + 1
}

/// A line of a script: a call, or a change made to the buffers from outside.
#[derive(Clone, PartialEq, Eq, Debug)]
pub enum Item {
    Call(Call),
    /// Put this value in this byte of the buffer.
    Poke {
        buffer: Buffer,
        at: usize,
        value: u8,
    },
    /// Give the buffer this length (new bytes are 0).
    Length {
        buffer: Buffer,
        length: usize,
    },
    /// Fill the buffer with bytes that follow from the seed, as those of a write do.
    Fill {
        buffer: Buffer,
        seed: u32,
    },
    /// Put the tables, without their terms, in the second tables.
    Narrow,
    /// Put the tables in the second tables, as they are.
    Keep,
    /// Give the marked files of the second tables what marking left them before Ask 10: as
    /// the seed says, a size, holes and free blocks.
    LoadMarked {
        seed: u32,
    },
}

/// The words of a script that do so.
const NARROW: &str = "narrow";
const KEEP: &str = "keep";
const LOAD_MARKED: &str = "load-marked";

/// The word of a script that changes a byte of a buffer. Its name alone gives
/// it a length.
fn poke_word(buffer: Buffer) -> String {
    match buffer {
        Buffer::Tables => "poke".to_string(),
        Buffer::Pages => "poke-page".to_string(),
        _ => format!("poke-{}", buffer.name()),
    }
}

/// The word of a script that fills a buffer.
fn fill_word(buffer: Buffer) -> String {
    format!("fill-{}", buffer.name())
}

impl fmt::Display for Call {
    fn fmt(&self, f: &mut fmt::Formatter) -> fmt::Result {
        write!(f, "{}", CALL_NAMES[self.index()])?;
        self.fmt_arguments(f)
    }
}

impl fmt::Display for Item {
    fn fmt(&self, f: &mut fmt::Formatter) -> fmt::Result {
        match self {
            Item::Call(call) => call.fmt(f),
            Item::Poke { buffer, at, value } => write!(f, "{} {at} {value}", poke_word(*buffer)),
            Item::Length { buffer, length } => write!(f, "{} {length}", buffer.name()),
            Item::Fill { buffer, seed } => write!(f, "{} {seed}", fill_word(*buffer)),
            Item::Narrow => write!(f, "{NARROW}"),
            Item::Keep => write!(f, "{KEEP}"),
            Item::LoadMarked { seed } => write!(f, "{LOAD_MARKED} {seed}"),
        }
    }
}

/// The arguments of one script line, each taken in turn.
struct Words<'a> {
    line: &'a str,
    rest: std::str::SplitWhitespace<'a>,
}

impl Words<'_> {
    fn number<T: std::str::FromStr>(&mut self) -> Result<T, String> {
        let word = self.rest.next().ok_or(format!("too few numbers in '{}'", self.line))?;
        word.parse().map_err(|_| format!("bad number '{word}' in '{}'", self.line))
    }
}

impl Item {
    /// Reads one line as `Display` writes it.
    pub fn parse(line: &str) -> Result<Item, String> {
        let mut rest = line.split_whitespace();
        let name = rest.next().ok_or("empty line")?;
        let mut words = Words { line, rest };
        let item = Item::parse_named(name, &mut words)?;
        match words.rest.next() {
            None => Ok(item),
            Some(_) => Err(format!("too many numbers in '{line}'")),
        }
    }

    fn parse_named(name: &str, words: &mut Words) -> Result<Item, String> {
        match name {
            NARROW => return Ok(Item::Narrow),
            KEEP => return Ok(Item::Keep),
            LOAD_MARKED => return Ok(Item::LoadMarked { seed: words.number()? }),
            _ => {}
        }
        for buffer in Buffer::ALL {
            if name == poke_word(buffer) {
                return Ok(Item::Poke { buffer, at: words.number()?, value: words.number()? });
            }
            if name == fill_word(buffer) {
                return Ok(Item::Fill { buffer, seed: words.number()? });
            }
            if name == buffer.name() {
                return Ok(Item::Length { buffer, length: words.number()? });
            }
        }
        Call::parse_arguments(name, words).map(Item::Call)
    }

    /// Reads a whole script: one item a line or between semicolons.
    pub fn parse_script(text: &str) -> Result<Vec<Item>, String> {
        text.split(['\n', ';'])
            .map(str::trim)
            .filter(|line| !line.is_empty() && !line.starts_with('#'))
            .map(Item::parse)
            .collect()
    }
}
