//! The table of numbers judged on plain store and tally, and both of them
//! doing a call: "the table of numbers, judged on it and the tally below,
//! says which calls are accepted".

use crate::call::*;
use crate::plain::Plain;
use crate::tally::Tally;
use crate::term_judge::{self, Terms};

/// Plain store and tally, fed the same calls, and each set's term, told from the
/// arguments of calls alone.
#[derive(Clone, PartialEq, Eq, Debug)]
pub struct Beside {
    pub plain: Plain,
    pub tally: Tally,
    pub terms: Terms,
}

/// The number of an accepted format's pages: "no multiple of 512 from 512 to
/// 2,097,152 bytes" is refused.
pub fn format_blocks(pages_length: usize) -> Option<usize> {
    (1..=MOST_BLOCKS).find(|count| count * PAGE_BYTES == pages_length)
}

/// Of a panel access, plain store and tally are fed the call that it runs, if
/// any, in its place (see `panel_judge`): "Sequences through the panel count as
/// the calls they run."
const NOT_LISTED: &str = "a panel access is fed as the call that it runs";

/// The converter's number goes by the older tables alone, and it leaves another store in
/// its place: see `conversion` and `Beside::converted`.
const NOT_OF_THIS_STORE: &str = "a conversion is judged by the older tables";

/// One line of the table of numbers: the number, and whether it applies.
type Lines = Vec<(u32, bool)>;

impl Beside {
    pub fn format(block_count: usize) -> Beside {
        let (plain, tally) = (Plain::format(), Tally::format(block_count));
        Beside { plain, tally, terms: Terms::format() }
    }

    /// What a conversion of this store's older tables gives: the same plain store and
    /// tally, as the converter runs none of the listed calls, and "the default term".
    pub fn converted(&self) -> Beside {
        let used = |set: &usize| self.plain.sets[*set].is_some();
        Beside { terms: Terms::default_of((0..SETS).filter(used)), ..self.clone() }
    }

    /// The number that the table gives, for tables that are well formed and
    /// of the right length (and, in format, of the right length). Each line's
    /// condition is judged where its words make sense, and the lowest number
    /// that applies is taken.
    pub fn number(&self, call: &Call) -> u32 {
        let lines = match *call {
            Call::Format { pages_length } => vec![(1, format_blocks(pages_length).is_none())],
            Call::Create { set, file } => {
                let mut lines = self.file_lines(set, file, true);
                lines.push((9, self.is_present(set, file)));
                lines
            }
            // The size of groups makes no difference.
            Call::Write { set, file, offset, length, .. }
            | Call::WriteNarrow { set, file, offset, length, .. }
            | Call::WriteGroups { set, file, offset, length, .. } => {
                let end = u64::from(offset) + length as u64;
                let mut lines = self.present_lines(set, file, true, true);
                lines.push((7, end > LARGEST_SIZE as u64));
                lines.push((8, self.write_lacks_room(&lines, set, file, offset, length)));
                lines
            }
            Call::Read { set, file, .. } | Call::Size { set, file } => {
                self.present_lines(set, file, false, true)
            }
            Call::Truncate { set, file, size } => {
                let mut lines = self.present_lines(set, file, true, true);
                lines.push((7, size > LARGEST_SIZE as u32));
                lines.push((8, self.truncate_lacks_room(&lines, set, file, size)));
                lines
            }
            Call::Delete { set, file } => self.present_lines(set, file, true, false),
            Call::Make { parent, set, .. } => vec![
                (2, !self.is_used(parent) || set > 7),
                (9, self.is_used(set)),
                (10, self.level(parent) == Some(HIGHEST_LEVEL)),
            ],
            Call::Remove { set } => {
                vec![(2, !self.is_used(set)), (11, self.has_children(set)), (12, set == 0)]
            }
            // Document 02: "both after 2, with 14 first".
            Call::SetTerm { set, year, month, day, months } => vec![
                (2, !self.is_used(set)),
                (14, !term_judge::is_date(year, month, day)),
                (15, !(1..=120).contains(&months)),
            ],
            Call::Current { set, .. } => vec![(2, !self.is_used(set))],
            Call::Convert {} => unreachable!("{NOT_OF_THIS_STORE}"),
            // They find nothing to refuse in well-formed tables, and a compaction nothing
            // but a spare page of a wrong length, which is none of theirs: 16 is asked of
            // `compaction_judge`.
            Call::Free {} | Call::CheckBlocks {} | Call::Check {} | Call::Compact {} => vec![],
            Call::PanelReset {}
            | Call::PanelRead { .. }
            | Call::PanelWrite { .. }
            | Call::PanelLine {} => unreachable!("{NOT_LISTED}"),
        };
        lines.iter().filter(|line| line.1).map(|line| line.0).min().unwrap_or(0)
    }

    fn is_used(&self, set: u32) -> bool {
        (set as usize) < SETS && self.plain.sets[set as usize].is_some()
    }

    fn level(&self, set: u32) -> Option<usize> {
        self.is_used(set).then(|| self.plain.set(set as usize).level)
    }

    fn has_children(&self, set: u32) -> bool {
        self.is_used(set) && !self.plain.set(set as usize).children.is_empty()
    }

    fn is_present(&self, set: u32, file: u32) -> bool {
        self.is_used(set)
            && (file as usize) < FILES
            && self.plain.set(set as usize).files[file as usize].is_some()
    }

    fn is_marked(&self, set: u32, file: u32) -> bool {
        self.is_present(set, file) && self.tally.is_marked(set as usize, file as usize)
    }

    /// Lines 2 to 4.
    fn file_lines(&self, set: u32, file: u32, changing: bool) -> Lines {
        let read_only = self.is_used(set) && !self.plain.set(set as usize).writeable;
        vec![(2, !self.is_used(set)), (3, file > 15), (4, changing && read_only)]
    }

    /// Lines 2 to 6.
    fn present_lines(&self, set: u32, file: u32, changing: bool, unmarked: bool) -> Lines {
        let mut lines = self.file_lines(set, file, changing);
        lines.push((5, !self.is_present(set, file)));
        lines.push((6, unmarked && self.is_marked(set, file)));
        lines
    }

    /// Line 8 of a write; it is judged only where no lower number applies.
    fn write_lacks_room(
        &self,
        lower: &Lines,
        set: u32,
        file: u32,
        offset: u32,
        length: usize,
    ) -> bool {
        if lower.iter().any(|line| line.1) || length == 0 {
            return false;
        }
        let (set, file, offset) = (set as usize, file as usize, offset as usize);
        self.tally.own_need_of_write(set, file, offset, offset + length) > self.tally.free
    }

    /// Line 8 of a truncate; it is judged only where no lower number applies.
    fn truncate_lacks_room(&self, lower: &Lines, set: u32, file: u32, size: u32) -> bool {
        if lower.iter().any(|line| line.1) {
            return false;
        }
        let (set, file, size) = (set as usize, file as usize, size as usize);
        self.tally.own_need_of_truncate(set, file, size) > self.tally.free
    }

    /// Does the call, which is no panel access, on plain store and tally. Gives the
    /// answer they demand, and the bytes that a read must give.
    pub fn step(&mut self, call: &Call) -> (Answer, Vec<u8>) {
        let number = self.number(call);
        if number != 0 {
            return (Answer::refused(number), Vec::new());
        }
        let mut bytes = Vec::new();
        let counts = match *call {
            Call::Format { pages_length } => {
                let block_count = format_blocks(pages_length).expect("an accepted format");
                *self = Beside::format(block_count);
                [0, 0, 0]
            }
            Call::Create { set, file } => {
                self.plain.create(set as usize, file as usize);
                self.tally.create(set as usize, file as usize);
                [0, 0, 0]
            }
            // Document 02: "A write now copies by aligned groups of eight unless
            // the caller asks for a narrow one."
            Call::Write { set, file, offset, length, seed } => {
                self.write(8, (set, file), offset, &data_bytes(length, seed))
            }
            Call::WriteNarrow { set, file, offset, length, seed } => {
                self.write(1, (set, file), offset, &data_bytes(length, seed))
            }
            Call::WriteGroups { group, set, file, offset, length, seed } => {
                self.write(group.pages(), (set, file), offset, &data_bytes(length, seed))
            }
            Call::Read { set, file, offset, length } => {
                let (set, file, offset) = (set as usize, file as usize, offset as usize);
                bytes = self.read(set, file, offset, length);
                let end = offset + bytes.len();
                // "Read: bytes, maps looked at, 0." The bytes are the plain
                // store's, the maps follow from the tally's kinds.
                [bytes.len() as u32, self.tally.maps_looked_at(set, file, offset, end), 0]
            }
            Call::Truncate { set, file, size } => {
                let (set, file, size) = (set as usize, file as usize, size as usize);
                self.plain.truncate(set, file, size);
                self.tally.truncate(set, file, size)
            }
            Call::Delete { set, file } => {
                self.plain.delete(set as usize, file as usize);
                self.tally.delete(set as usize, file as usize)
            }
            Call::Make { parent, set, writeable } => {
                self.plain.make(parent as usize, set as usize, writeable != 0);
                self.tally.make(parent as usize, set as usize);
                self.terms.make(set as usize);
                [0, 0, 0]
            }
            Call::Remove { set } => {
                self.plain.remove(set as usize);
                self.tally.remove(set as usize);
                self.terms.remove(set as usize);
                [0, 0, 0]
            }
            Call::Size { set, file } => [self.list(set as usize, file as usize).len() as u32, 0, 0],
            Call::Free {} => [self.tally.free as u32, 0, 0],
            // "for plain store and tally it is just the listed calls that it
            // runs, if any": none. A compaction is no call at all for them.
            Call::CheckBlocks {} | Call::Check {} | Call::Compact {} => [0, 0, 0],
            Call::SetTerm { set, year, month, day, months } => {
                self.terms.set(set as usize, (year, month, day), months);
                [0, 0, 0]
            }
            Call::Current { set, day } => [self.terms.is_current(set as usize, day), 0, 0],
            Call::Convert {} => unreachable!("{NOT_OF_THIS_STORE}"),
            Call::PanelReset {}
            | Call::PanelRead { .. }
            | Call::PanelWrite { .. }
            | Call::PanelLine {} => unreachable!("{NOT_LISTED}"),
        };
        (Answer::accepted(counts), bytes)
    }

    /// A write by groups of this size. The plain store knows no groups.
    fn write(
        &mut self,
        group: usize,
        (set, file): (u32, u32),
        offset: u32,
        data: &[u8],
    ) -> [u32; 3] {
        let (set, file, offset) = (set as usize, file as usize, offset as usize);
        self.plain.write(set, file, offset, data);
        self.tally.write(set, file, offset, offset + data.len(), group)
    }

    fn list(&self, set: usize, file: usize) -> &Vec<u8> {
        self.plain.set(set).files[file].as_ref().expect("a present file")
    }

    fn read(&self, set: usize, file: usize, offset: usize, length: usize) -> Vec<u8> {
        self.list(set, file).iter().skip(offset).take(length).copied().collect()
    }
}
