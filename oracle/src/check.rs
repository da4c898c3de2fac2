//! The well-formed check. It names each broken rule of document 01's "Well
//! formed means all of", with the place, so that a damaged store can be
//! judged by people. It works on any bytes and any lengths.
//!
//! By document 02 it goes in parts: "the well-formed check, however it is done
//! now, should go through the bitmap and the entries' kinds and blocks before it
//! follows set chains". The first part is a question about the tables alone.
//! The second part is all else, the pages' length before the rest. The rules on terms
//! (Ask 8) and on marked files (Ask 10) stand last in it. Older tables of either length are
//! judged by `check_older`, for the converter.

use crate::call::*;
use crate::state::*;
use std::collections::BTreeSet;
use std::fmt;

macro_rules! rules {
    (first { $($first:ident $first_name:literal $first_sentence:literal;)* }
        second { $($second:ident $second_name:literal $second_sentence:literal;)* }) => {
        /// One elementary rule of "Well formed means all of"; those of the first
        /// part stand before those of the second.
        #[derive(Clone, Copy, PartialEq, Eq, Debug, Hash, PartialOrd, Ord)]
        pub enum Rule { $($first,)* $($second,)* }

        impl Rule {
            pub const ALL: &'static [Rule] = &[$(Rule::$first,)* $(Rule::$second,)*];
            pub const FIRST_PART: &'static [Rule] = &[$(Rule::$first),*];
            pub const SECOND_PART: &'static [Rule] = &[$(Rule::$second),*];

            /// Whether the rule belongs to the first part of the check, which
            /// goes by the tables alone.
            pub fn is_first_part(self) -> bool {
                matches!(self, $(Rule::$first)|*)
            }

            /// A short name.
            pub fn name(self) -> &'static str {
                match self {
                    $(Rule::$first => $first_name,)*
                    $(Rule::$second => $second_name,)*
                }
            }

            /// What is wrong, in a sentence.
            pub fn sentence(self) -> &'static str {
                match self {
                    $(Rule::$first => $first_sentence,)*
                    $(Rule::$second => $second_sentence,)*
                }
            }
        }
    };
}

rules! {
    // Document 02: "the tables of right length that meet the rules on B, next
    // start, kinds, blocks and bits".
    first {
        TablesLength "tables-length" "The tables are not 17,468 bytes.";
        BlockCount "block-count" "The block count is not 1 to 4,096.";
        NextStart "next-start" "Next start is not below the block count.";
        KindThree "kind-three" "An entry has kind 3.";
        BlockNotStored "block-not-stored" "An entry that is not stored has a block other than 0.";
        BlockTooHigh "block-too-high" "A stored entry names a block at or over the block count.";
        BlockNamedTwice "block-named-twice" "A block is named by more than one stored entry.";
        BitWithoutEntry "bit-without-entry" "A bit is 1 but no stored entry names its block.";
        EntryWithoutBit "entry-without-bit" "A stored entry names a block whose bit is 0.";
    }
    second {
        PagesLength "pages-length" "The pages buffer is not block count x 512 bytes.";
        HeaderZero "header-zero" "The zero field of the header is not zero.";
        SetZero "set-zero" "The zero field of a set record is not zero.";
        FileZero "file-zero" "The zero field of a file record is not zero.";
        UnusedSetNotZero "unused-set-not-zero" "The record of an unused set is not all zero.";
        AbsentFileNotZero "absent-file-not-zero" "The record of an absent file is not all zero.";
        UnusedSetHasFile "unused-set-has-file" "An unused set has a file.";
        Set0NotUsed "set-0-not-used" "Set 0 is not used.";
        Set0NotWriteable "set-0-not-writeable" "Set 0 is not writeable.";
        Set0Level "set-0-level" "Set 0 is not at level 0.";
        Set0Parent "set-0-parent" "Set 0 has a parent.";
        Set0Sibling "set-0-sibling" "Set 0 has a sibling.";
        NoParent "no-parent" "A used set other than set 0 has no parent.";
        NotOnceInChain "not-once-in-chain" "A set does not stand once in its parent's child chain.";
        LevelWrong "level-wrong" "A set's level is not its parent's level plus one.";
        LevelOver5 "level-over-5" "A set's level is over 5.";
        ChainEndless "chain-endless" "A child chain does not end.";
        ChainForeign "chain-foreign" "A child chain holds a set that is not that parent's child.";
        LinkBad "link-bad" "A parent, first child or next sibling is neither 8 nor a used set.";
        FirstNotBelowEnd "first-day-not-below-end" "A used set's first day is not below its end day.";
        EndDayOver "end-day-over" "A used set's end day is over 36,525.";
        SizeOver "size-over" "A file's size is over 32,768.";
        VirginSize "virgin-size" "A virgin file has a size other than 0.";
        VirginMapped "virgin-mapped" "A virgin file has an entry that is not unmapped.";
        MarkedSize "marked-size" "A marked file has a size other than 0.";
        MarkedMapped "marked-mapped" "A marked file has an entry that is not unmapped.";
        Set0State "set-0-state" "Set 0 has a virgin or marked file.";
        Set0Unmapped "set-0-unmapped" "A file of set 0 has an unmapped entry.";
        UnmappedNoParentFile "unmapped-no-parent-file" "An own or virgin file has an unmapped entry, but the parent set has no own or virgin file of its number.";
        PastSizeStored "past-size-stored" "In an own file a page wholly past the size resolves to stored.";
    }
}

/// A broken rule and its place: the numbers that matter are given.
#[derive(Clone, Copy, PartialEq, Eq, Debug)]
pub struct Broken {
    pub rule: Rule,
    pub set: Option<usize>,
    pub file: Option<usize>,
    pub page: Option<usize>,
    pub block: Option<usize>,
}

impl Broken {
    fn new(rule: Rule) -> Broken {
        Broken { rule, set: None, file: None, page: None, block: None }
    }

    fn set(self, set: usize) -> Broken {
        Broken { set: Some(set), ..self }
    }

    fn file(self, file: usize) -> Broken {
        Broken { file: Some(file), ..self }
    }

    fn page(self, page: usize) -> Broken {
        Broken { page: Some(page), ..self }
    }

    fn block(self, block: usize) -> Broken {
        Broken { block: Some(block), ..self }
    }
}

impl fmt::Display for Broken {
    fn fmt(&self, f: &mut fmt::Formatter) -> fmt::Result {
        write!(f, "{}: {}", self.rule.name(), self.rule.sentence())?;
        let places =
            [("set", self.set), ("file", self.file), ("page", self.page), ("block", self.block)];
        for (name, place) in places {
            if let Some(number) = place {
                write!(f, " {name} {number}")?;
            }
        }
        Ok(())
    }
}

/// Whether tables and a pages buffer of this length are well formed.
pub fn is_well_formed(tables: &[u8], pages_length: usize) -> bool {
    check_all(tables, pages_length).is_empty()
}

/// Every broken rule found, those of the first part before the others. No list
/// is longer than the tables can explain; with tables of the wrong length
/// nothing else is looked at.
pub fn check_all(tables: &[u8], pages_length: usize) -> Vec<Broken> {
    unpacked(tables).map_or_else(wrong_length, |state| check_state(&state, pages_length))
}

/// The first part. Document 02: "That first part accepts exactly the tables of
/// right length that meet the rules on B, next start, kinds, blocks and bits,
/// whatever else they hold".
pub fn check_blocks(tables: &[u8]) -> Vec<Broken> {
    unpacked(tables).map_or_else(wrong_length, |state| first_part(&state))
}

/// Which rules are broken, wherever they are.
pub fn rules_broken(tables: &[u8], pages_length: usize) -> BTreeSet<Rule> {
    check_all(tables, pages_length).iter().map(|broken| broken.rule).collect()
}

/// Document 02: "the tables become 17,468 bytes".
fn unpacked(tables: &[u8]) -> Option<State> {
    (tables.len() == TABLES_BYTES).then(|| State::unpack(tables))
}

fn wrong_length() -> Vec<Broken> {
    vec![Broken::new(Rule::TablesLength)]
}

/// The whole check of tables that are unpacked already: the first part, then
/// the pages' length, then the rest.
pub fn check_state(state: &State, pages_length: usize) -> Vec<Broken> {
    let mut found = first_part(state);
    check_pages_length(state, pages_length, &mut found);
    check_rest(state, &mut found);
    check_terms(state, &mut found);
    check_marked(state, &mut found);
    found
}

/// The check of "older tables of either length", each by the rules of its time. Tables of
/// 17,436 bytes, with set records of 3 bytes that hold no term, are judged by document 01
/// alone; they are read as they are, no term being added before. Tables of 17,468 bytes
/// are judged by Ask 8 too, and not by Ask 10, so tables that meet Ask 10 already are
/// among them.
pub fn check_older(tables: &[u8], pages_length: usize) -> Vec<Broken> {
    let Some(state) = State::unpack_either(tables) else { return wrong_length() };
    let mut found = first_part(&state);
    check_pages_length(&state, pages_length, &mut found);
    check_rest(&state, &mut found);
    if tables.len() == TABLES_BYTES {
        check_terms(&state, &mut found);
    }
    found
}

/// The first part of tables that are unpacked already. It looks at block count,
/// next start, bits and entries, and at nothing else.
fn first_part(state: &State) -> Vec<Broken> {
    let mut found = Vec::new();
    check_header(state, &mut found);
    check_kinds(state, &mut found);
    check_names(state, &mut found);
    found
}

/// The rest of the rules of document 01.
fn check_rest(state: &State, found: &mut Vec<Broken>) {
    check_header_zero(state, found);
    check_set_records(state, found);
    check_file_records(state, found);
    check_set_0(state, found);
    check_tree(state, found);
    check_file_states(state, found);
    check_past_size(state, found);
}

/// Document 02: "Well formed now also asks, of a used set, first below end and end at
/// most 36,525." Of an unused set nothing is asked here: it is all zero, its term too.
fn check_terms(state: &State, found: &mut Vec<Broken>) {
    for (set, record) in state.sets.iter().enumerate().filter(|(_, record)| record.used) {
        if record.first_day >= record.end_day {
            found.push(Broken::new(Rule::FirstNotBelowEnd).set(set));
        }
        if record.end_day > LATEST_END {
            found.push(Broken::new(Rule::EndDayOver).set(set));
        }
    }
}

/// Document 02, of a marked file's size 0 and unmapped entries: "Well formed asks the same
/// of marked files".
fn check_marked(state: &State, found: &mut Vec<Broken>) {
    for (set, file, record) in file_records(state) {
        let mut push = |rule| found.push(Broken::new(rule).set(set).file(file));
        if record.state == FileState::Marked && record.size != 0 {
            push(Rule::MarkedSize);
        }
        if record.state == FileState::Marked && record.is_mapped() {
            push(Rule::MarkedMapped);
        }
    }
}

/// "B is 1 to 4,096, next start is below B".
fn check_header(state: &State, found: &mut Vec<Broken>) {
    if state.block_count < 1 || state.block_count > MOST_BLOCKS {
        found.push(Broken::new(Rule::BlockCount));
    }
    if state.next_start >= state.block_count {
        found.push(Broken::new(Rule::NextStart).block(state.next_start));
    }
}

/// All file records with their set and file numbers, whatever their state and
/// their set's use.
fn file_records(state: &State) -> impl Iterator<Item = (usize, usize, &FileRecord)> {
    (0..SETS).flat_map(move |set| (0..FILES).map(move |file| (set, file, &state.files[set][file])))
}

/// "No kind is 3, and the block is 0 unless stored."
fn check_kinds(state: &State, found: &mut Vec<Broken>) {
    for (set, file, record) in file_records(state) {
        for (page, entry) in record.entries.iter().enumerate() {
            let place = |rule| Broken::new(rule).set(set).file(file).page(page);
            if entry.kind == Kind::Bad {
                found.push(place(Rule::KindThree));
            }
            if entry.kind != Kind::Stored && entry.block != 0 {
                found.push(place(Rule::BlockNotStored).block(entry.block));
            }
        }
    }
}

/// "A bit is 1 exactly when one stored entry names that block. No block is
/// named twice, or is B or more."
fn check_names(state: &State, found: &mut Vec<Broken>) {
    let mut named = vec![false; 1 << 14];
    for (set, file, record) in file_records(state) {
        for (page, entry) in record.entries.iter().enumerate() {
            if entry.kind != Kind::Stored {
                continue;
            }
            let block = entry.block;
            let place = |rule| Broken::new(rule).set(set).file(file).page(page).block(block);
            if block >= state.block_count {
                found.push(place(Rule::BlockTooHigh));
            }
            if named[block] {
                found.push(place(Rule::BlockNamedTwice));
            } else if block < MOST_BLOCKS && !state.bits[block] {
                found.push(place(Rule::EntryWithoutBit));
            }
            named[block] = true;
        }
    }
    for block in (0..MOST_BLOCKS).filter(|block| state.bits[*block] && !named[*block]) {
        found.push(Broken::new(Rule::BitWithoutEntry).block(block));
    }
}

/// "the pages buffer is B x 512 bytes"
fn check_pages_length(state: &State, pages_length: usize, found: &mut Vec<Broken>) {
    if pages_length != state.block_count * PAGE_BYTES {
        found.push(Broken::new(Rule::PagesLength));
    }
}

/// "Zero fields are zero."
fn check_header_zero(state: &State, found: &mut Vec<Broken>) {
    if state.header_zero != 0 {
        found.push(Broken::new(Rule::HeaderZero));
    }
}

/// "Zero fields are zero." "Unused sets and absent files are all zero; an
/// unused set has no files."
fn check_set_records(state: &State, found: &mut Vec<Broken>) {
    for (set, record) in state.sets.iter().enumerate() {
        if record.zero != 0 {
            found.push(Broken::new(Rule::SetZero).set(set));
        }
        if record.used {
            continue;
        }
        if *record != UNUSED_SET {
            found.push(Broken::new(Rule::UnusedSetNotZero).set(set));
        }
        for file in (0..FILES).filter(|file| state.files[set][*file].is_present()) {
            found.push(Broken::new(Rule::UnusedSetHasFile).set(set).file(file));
        }
    }
}

/// "Zero fields are zero." "Unused sets and absent files are all zero".
fn check_file_records(state: &State, found: &mut Vec<Broken>) {
    for (set, file, record) in file_records(state) {
        if record.zero != 0 {
            found.push(Broken::new(Rule::FileZero).set(set).file(file));
        }
        if !record.is_present() && *record != ABSENT_FILE {
            found.push(Broken::new(Rule::AbsentFileNotZero).set(set).file(file));
        }
    }
}

/// "Set 0 is used, writeable, level 0, with no parent or sibling."
fn check_set_0(state: &State, found: &mut Vec<Broken>) {
    let set_0 = &state.sets[0];
    let rules = [
        (set_0.used, Rule::Set0NotUsed),
        (set_0.writeable, Rule::Set0NotWriteable),
        (set_0.level == 0, Rule::Set0Level),
        (set_0.parent == NONE, Rule::Set0Parent),
        (set_0.next_sibling == NONE, Rule::Set0Sibling),
    ];
    for (holds, rule) in rules {
        if !holds {
            found.push(Broken::new(rule).set(0));
        }
    }
}

fn is_used_set(state: &State, link: usize) -> bool {
    link < SETS && state.sets[link].used
}

/// The sets in a parent's child chain, up to its end, a link that names no
/// used set, or a set met before; and whether one was met before.
fn walk_chain(state: &State, parent: usize) -> (Vec<usize>, bool) {
    let mut chain = Vec::new();
    let mut link = state.sets[parent].first_child;
    while is_used_set(state, link) {
        if chain.contains(&link) {
            return (chain, true);
        }
        chain.push(link);
        link = state.sets[link].next_sibling;
    }
    (chain, false)
}

/// "Each other used set stands once, in its parent's child chain, with the
/// right level, at most 5. Chains end and hold only that parent's children;
/// links are 8 or used sets."
fn check_tree(state: &State, found: &mut Vec<Broken>) {
    for set in (0..SETS).filter(|set| state.sets[*set].used) {
        let record = &state.sets[set];
        for link in [record.parent, record.first_child, record.next_sibling] {
            if link != NONE && !is_used_set(state, link) {
                found.push(Broken::new(Rule::LinkBad).set(set));
            }
        }
        if record.level > HIGHEST_LEVEL {
            found.push(Broken::new(Rule::LevelOver5).set(set));
        }
        if set != 0 {
            check_parent(state, set, found);
        }
        check_chain(state, set, found);
    }
}

fn check_parent(state: &State, set: usize, found: &mut Vec<Broken>) {
    let record = &state.sets[set];
    if record.parent == NONE {
        found.push(Broken::new(Rule::NoParent).set(set));
    }
    if !is_used_set(state, record.parent) {
        return;
    }
    if record.level != state.sets[record.parent].level + 1 {
        found.push(Broken::new(Rule::LevelWrong).set(set));
    }
    if !walk_chain(state, record.parent).0.contains(&set) {
        found.push(Broken::new(Rule::NotOnceInChain).set(set));
    }
}

fn check_chain(state: &State, parent: usize, found: &mut Vec<Broken>) {
    let (chain, endless) = walk_chain(state, parent);
    if endless {
        found.push(Broken::new(Rule::ChainEndless).set(parent));
    }
    for child in chain {
        if state.sets[child].parent != parent {
            found.push(Broken::new(Rule::ChainForeign).set(child));
        }
    }
}

/// "No file's size is over 32,768. A virgin file has size 0 and only unmapped
/// entries." "Set 0 has no virgin or marked file and no unmapped entry
/// outside absent files."
fn check_file_states(state: &State, found: &mut Vec<Broken>) {
    for (set, file, record) in file_records(state) {
        let mut push = |rule| found.push(Broken::new(rule).set(set).file(file));
        if record.size > LARGEST_SIZE {
            push(Rule::SizeOver);
        }
        if record.state == FileState::Virgin && record.size != 0 {
            push(Rule::VirginSize);
        }
        if record.state == FileState::Virgin && record.is_mapped() {
            push(Rule::VirginMapped);
        }
        if set == 0 && matches!(record.state, FileState::Virgin | FileState::Marked) {
            push(Rule::Set0State);
        }
        if set == 0 && record.is_present() && record.has_unmapped() {
            push(Rule::Set0Unmapped);
        }
        if set != 0 && lacks_parent_file(state, set, file) {
            push(Rule::UnmappedNoParentFile);
        }
    }
}

/// "An own or virgin file with an unmapped entry has an own or virgin file of
/// its number in the parent set." A set without a parent set breaks another
/// rule, so nothing is said of it here.
fn lacks_parent_file(state: &State, set: usize, file: usize) -> bool {
    let record = &state.files[set][file];
    let parent = state.sets[set].parent;
    state.sets[set].used
        && is_used_set(state, parent)
        && record.is_own_or_virgin()
        && record.has_unmapped()
        && !state.files[parent][file].is_own_or_virgin()
}

/// "In an own file, no page wholly past the size resolves to stored." Wholly
/// past the size means page x 512 >= size.
fn check_past_size(state: &State, found: &mut Vec<Broken>) {
    for (set, file, record) in file_records(state) {
        if record.state != FileState::Own {
            continue;
        }
        for page in record.size.div_ceil(PAGE_BYTES)..PAGES {
            if let Some(block) = stored_block(state, set, file, page) {
                let place = Broken::new(Rule::PastSizeStored).set(set).file(file);
                found.push(place.page(page).block(block));
            }
        }
    }
}

/// The block a page resolves to, if it resolves to stored. The tables may be
/// damaged, so the way up ends at anything odd and after `SETS` steps.
fn stored_block(state: &State, set: usize, file: usize, page: usize) -> Option<usize> {
    let mut at = set;
    for _ in 0..SETS {
        let record = &state.files[at][file];
        if !record.is_own_or_virgin() {
            return None;
        }
        match record.entries[page].kind {
            Kind::Stored => return Some(record.entries[page].block),
            Kind::Unmapped if is_used_set(state, state.sets[at].parent) => {
                at = state.sets[at].parent;
            }
            _ => return None,
        }
    }
    None
}
