//! The calls over bytes. Each works on any bytes and any lengths. A
//! refused call changes nothing and gives counts of 0; "The lowest number
//! that applies is given", so the checks stand in the order of the numbers.

use crate::call::*;
use crate::check::{check_older, check_state};
use crate::dates::{self, Date};
use crate::maps::*;
use crate::panel;
use crate::state::*;

/// Three counts, or the number of a refusal.
pub(crate) type Outcome = Result<[u32; 3], u32>;

pub(crate) fn answer(outcome: Outcome) -> Answer {
    match outcome {
        Ok(counts) => Answer::accepted(counts),
        Err(number) => Answer::refused(number),
    }
}

pub fn format(tables: &mut [u8], pages: &mut [u8]) -> Answer {
    answer(try_format(tables, pages))
}

pub fn create(tables: &mut [u8], pages: &mut [u8], set: u32, file: u32) -> Answer {
    answer(try_create(tables, pages, set, file))
}

/// Document 02: "A write now copies by aligned groups of eight unless the caller
/// asks for a narrow one."
pub fn write(
    tables: &mut [u8],
    pages: &mut [u8],
    set: u32,
    file: u32,
    offset: u32,
    data: &[u8],
) -> Answer {
    answer(try_write(tables, pages, WRITE_GROUP, set, file, offset, data))
}

/// The narrow write: each page is a group, so no touched group has another page.
pub fn write_narrow(
    tables: &mut [u8],
    pages: &mut [u8],
    set: u32,
    file: u32,
    offset: u32,
    data: &[u8],
) -> Answer {
    answer(try_write(tables, pages, NARROW_GROUP, set, file, offset, data))
}

/// A write by groups of `group` pages, 1 to 64.
pub fn write_groups(
    tables: &mut [u8],
    pages: &mut [u8],
    group: usize,
    set: u32,
    file: u32,
    offset: u32,
    data: &[u8],
) -> Answer {
    assert!((1..=PAGES).contains(&group), "a group has 1 to 64 pages");
    answer(try_write(tables, pages, group, set, file, offset, data))
}

pub fn read(
    tables: &[u8],
    pages: &[u8],
    set: u32,
    file: u32,
    offset: u32,
    buffer: &mut [u8],
) -> Answer {
    answer(try_read(tables, pages, set, file, offset, buffer))
}

pub fn truncate(tables: &mut [u8], pages: &mut [u8], set: u32, file: u32, size: u32) -> Answer {
    answer(try_truncate(tables, pages, set, file, size))
}

pub fn delete(tables: &mut [u8], pages: &mut [u8], set: u32, file: u32) -> Answer {
    answer(try_delete(tables, pages, set, file))
}

/// `writeable` 0 makes a read-only set, any other value a writeable one.
pub fn make(tables: &mut [u8], pages: &mut [u8], parent: u32, set: u32, writeable: u32) -> Answer {
    answer(try_make(tables, pages, parent, set, writeable))
}

pub fn remove(tables: &mut [u8], pages: &mut [u8], set: u32) -> Answer {
    answer(try_remove(tables, pages, set))
}

pub fn size(tables: &[u8], pages: &[u8], set: u32, file: u32) -> Answer {
    answer(try_size(tables, pages, set, file))
}

pub fn free(tables: &[u8], pages: &[u8]) -> Answer {
    answer(try_free(tables, pages))
}

pub fn check_blocks(tables: &[u8]) -> Answer {
    answer(try_check_blocks(tables))
}

pub fn check(tables: &[u8], pages: &[u8]) -> Answer {
    answer(try_check(tables, pages))
}

/// Document 02: "A term may be set from a date and a count of months from 1 to 120".
pub fn set_term(
    tables: &mut [u8],
    pages: &mut [u8],
    set: u32,
    year: u32,
    month: u32,
    day: u32,
    months: u32,
) -> Answer {
    answer(try_set_term(tables, pages, set, Date { year, month, day }, months))
}

pub fn current(tables: &[u8], pages: &[u8], set: u32, day: u32) -> Answer {
    answer(try_current(tables, pages, set, day))
}

/// From older tables of either length to tables.
pub fn convert(older: &[u8], pages: &[u8], tables: &mut [u8]) -> Answer {
    answer(try_convert(older, pages, tables))
}

/// Document 02: "Pull the blocks together."
pub fn compact(tables: &mut [u8], pages: &mut [u8], spare: &mut [u8]) -> Answer {
    answer(try_compact(tables, pages, spare))
}

/// Each call with its numbers on the buffers it is lent, in the order of
/// `CALL_NAMES`.
const DOES: [fn(&Numbers, Lent) -> Answer; CALLS] = [
    |_, lent| format(lent.tables, lent.pages),
    |n, lent| create(lent.tables, lent.pages, n[0], n[1]),
    |n, lent| write(lent.tables, lent.pages, n[0], n[1], n[2], lent.bytes),
    |n, lent| read(lent.tables, lent.pages, n[0], n[1], n[2], lent.bytes),
    |n, lent| truncate(lent.tables, lent.pages, n[0], n[1], n[2]),
    |n, lent| delete(lent.tables, lent.pages, n[0], n[1]),
    |n, lent| make(lent.tables, lent.pages, n[0], n[1], n[2]),
    |n, lent| remove(lent.tables, lent.pages, n[0]),
    |n, lent| size(lent.tables, lent.pages, n[0], n[1]),
    |_, lent| free(lent.tables, lent.pages),
    |_, lent| check_blocks(lent.tables),
    |_, lent| check(lent.tables, lent.pages),
    |n, lent| write_narrow(lent.tables, lent.pages, n[0], n[1], n[2], lent.bytes),
    |_, lent| panel::reset(lent.registers),
    |n, lent| panel::read(lent.registers, n[0]),
    |n, lent| panel::write(lent.registers, lent.tables, lent.pages, n[0], n[1] as u8),
    |_, lent| panel::line(lent.registers),
    |n, lent| set_term(lent.tables, lent.pages, n[0], n[1], n[2], n[3], n[4]),
    |n, lent| current(lent.tables, lent.pages, n[0], n[1]),
    |_, lent| convert(lent.second, lent.pages, lent.tables),
    |_, lent| compact(lent.tables, lent.pages, lent.spare),
    |n, lent| write_groups(lent.tables, lent.pages, n[0] as usize, n[1], n[2], n[3], lent.bytes),
];

/// Does the call at this place in `CALL_NAMES`.
pub fn run(index: usize, numbers: &Numbers, lent: Lent) -> Answer {
    DOES[index](numbers, lent)
}

// The checks of the table of numbers.

/// 1: "tables not well formed or of wrong length".
fn open(tables: &[u8], pages: &[u8]) -> Result<State, u32> {
    if tables.len() != TABLES_BYTES {
        return Err(1);
    }
    let state = State::unpack(tables);
    if check_state(&state, pages.len()).is_empty() {
        Ok(state)
    } else {
        Err(1)
    }
}

/// 2: "a set number over 7, or a set that must be used is not".
fn used_set(state: &State, set: u32) -> Result<usize, u32> {
    let set = set_number(set)?;
    if state.sets[set].used {
        Ok(set)
    } else {
        Err(2)
    }
}

fn set_number(set: u32) -> Result<usize, u32> {
    if set > 7 {
        Err(2)
    } else {
        Ok(set as usize)
    }
}

/// 3: "file number over 15".
fn file_number(file: u32) -> Result<usize, u32> {
    if file > 15 {
        Err(3)
    } else {
        Ok(file as usize)
    }
}

/// 4: "create, write, truncate, delete in a read-only set".
fn in_writeable_set(state: &State, set: usize) -> Result<(), u32> {
    if state.sets[set].writeable {
        Ok(())
    } else {
        Err(4)
    }
}

/// 5: "file absent, where it must be present".
fn present(state: &State, set: usize, file: usize) -> Result<(), u32> {
    if state.files[set][file].is_present() {
        Ok(())
    } else {
        Err(5)
    }
}

/// 6: "read, size, write, truncate of a marked file".
fn unmarked(state: &State, set: usize, file: usize) -> Result<(), u32> {
    if state.files[set][file].state == FileState::Marked {
        Err(6)
    } else {
        Ok(())
    }
}

/// 8: "own need over the free blocks".
fn room_for(state: &State, own_need: usize) -> Result<(), u32> {
    if own_need > state.free_blocks() {
        Err(8)
    } else {
        Ok(())
    }
}

// The calls.

/// 1: "in format, tables of wrong length or pages no multiple of 512 from 512
/// to 2,097,152 bytes". "Format makes set 0 alone, next start 0, every page
/// zero."
fn try_format(tables: &mut [u8], pages: &mut [u8]) -> Outcome {
    let block_count = pages.len() / PAGE_BYTES;
    if tables.len() != TABLES_BYTES
        || pages.len() % PAGE_BYTES != 0
        || !(1..=MOST_BLOCKS).contains(&block_count)
    {
        return Err(1);
    }
    State::formatted(block_count).pack(tables);
    pages.fill(0);
    Ok([0, 0, 0])
}

/// "Create leaves an own file, size 0, all holes."
fn try_create(tables: &mut [u8], pages: &[u8], set: u32, file: u32) -> Outcome {
    let mut state = open(tables, pages)?;
    let set = used_set(&state, set)?;
    let file = file_number(file)?;
    in_writeable_set(&state, set)?;
    // 9: "create of a present file"
    if state.files[set][file].is_present() {
        return Err(9);
    }
    state.files[set][file] =
        FileRecord { state: FileState::Own, entries: [HOLE; PAGES], ..ABSENT_FILE };
    state.pack(tables);
    Ok([0, 0, 0])
}

/// A write by groups of `group` pages.
fn try_write(
    tables: &mut [u8],
    pages: &mut [u8],
    group: usize,
    set: u32,
    file: u32,
    offset: u32,
    data: &[u8],
) -> Outcome {
    let mut state = open(tables, pages)?;
    let set = used_set(&state, set)?;
    let file = file_number(file)?;
    in_writeable_set(&state, set)?;
    present(&state, set, file)?;
    unmarked(&state, set, file)?;
    // 7: "write end (offset plus length) ... over 32,768"
    let end = u64::from(offset) + data.len() as u64;
    if end > LARGEST_SIZE as u64 {
        return Err(7);
    }
    // "A write of length 0 passes checks 1 to 7 and changes nothing."
    if data.is_empty() {
        return Ok([0, 0, 0]);
    }
    let (offset, end) = (offset as usize, end as usize);
    let touched: Vec<usize> = (offset / PAGE_BYTES..=(end - 1) / PAGE_BYTES).collect();

    // Step 1: "Own need is the touched pages not stored in this file's map."
    // Extra pages are not in it.
    let own_pages: Vec<usize> =
        touched.iter().copied().filter(|page| !state.is_stored(set, file, *page)).collect();
    room_for(&state, own_pages.len())?;
    state.step_2(set, file);
    // Step 3: "Own blocks are taken, pages ascending; they enter the map in
    // step 5."
    let own: Vec<(usize, usize)> =
        own_pages.iter().map(|page| (*page, take_own(&mut state))).collect();
    // A write drops no page.
    let (copies, marked) = state.step_4(pages, set, file, &touched, &[]);
    // Document 02: "After step 4 for the touched pages, the other pages of each
    // touched group are gone through". "An extra copy made counts in the second
    // count".
    let extra_copies = state.extra_pages(pages, set, file, &other_pages(&touched, group));
    // Step 5: "Old bytes are carried to own pages, new bytes laid over, size
    // raised to the write's end if larger."
    for (page, block) in &own {
        enter_own_block(&mut state, pages, set, file, *page, *block);
    }
    lay_over(&state, pages, set, file, offset, data);
    let record = &mut state.files[set][file];
    record.size = record.size.max(end);
    state.pack(tables);
    Ok([own.len() as u32, copies + extra_copies, marked])
}

/// The other pages of the groups that a write touches, ascending. Group n of g
/// pages begins at page n x g, "the last group ending at page 63". The touched
/// pages follow each other, so the others stand before the first of them in its
/// group and after the last in its group.
fn other_pages(touched: &[usize], group: usize) -> Vec<usize> {
    let (first, last) = (touched[0], touched[touched.len() - 1]);
    let start = first / group * group;
    let end = ((last / group + 1) * group).min(PAGES);
    (start..first).chain(last + 1..end).collect()
}

/// Takes an own block; step 1 has seen to it that there is one.
fn take_own(state: &mut State) -> usize {
    state.take_block().expect("own need is not over the free blocks")
}

/// An own block "gets the old bytes and enters the map".
fn enter_own_block(
    state: &mut State,
    pages: &mut [u8],
    set: usize,
    file: usize,
    page: usize,
    block: usize,
) {
    carry_old_bytes(pages, state.resolve(set, file, page), block);
    state.files[set][file].entries[page] = stored(block);
}

/// Puts the new bytes of a write in the blocks of its pages.
fn lay_over(state: &State, pages: &mut [u8], set: usize, file: usize, offset: usize, data: &[u8]) {
    for (step, byte) in data.iter().enumerate() {
        let place = offset + step;
        let block = state.files[set][file].entries[place / PAGE_BYTES].block;
        pages[block * PAGE_BYTES + place % PAGE_BYTES] = *byte;
    }
}

/// "A read gives the smaller of the buffer's length and the bytes from the
/// offset to the size, none at or past it. It fills that many bytes at the
/// buffer's front and touches no others. It also gives the maps looked at", and
/// by document 02 exactly (see `read_bytes`).
fn try_read(
    tables: &[u8],
    pages: &[u8],
    set: u32,
    file: u32,
    offset: u32,
    buffer: &mut [u8],
) -> Outcome {
    let state = open(tables, pages)?;
    let set = used_set(&state, set)?;
    let file = file_number(file)?;
    present(&state, set, file)?;
    unmarked(&state, set, file)?;
    let left = state.size_by_reading(set, file).saturating_sub(offset as usize);
    let count = left.min(buffer.len());
    let maps = read_bytes(&state, pages, set, file, offset as usize, &mut buffer[..count]);
    Ok([count as u32, maps, 0])
}

/// Fills the whole buffer from the offset on. The caller has seen to it that
/// these bytes lie before the size. Gives the maps looked at. Document 02: "For
/// each page holding a byte read, the count is one for the file's own map and
/// one for each parent map gone to, ending at the first that is not unmapped."
/// An empty buffer holds no byte read: 0 maps.
pub fn read_bytes(
    state: &State,
    pages: &[u8],
    set: usize,
    file: usize,
    offset: usize,
    buffer: &mut [u8],
) -> u32 {
    let mut maps = 0;
    let mut done = 0;
    while done < buffer.len() {
        let (page, within) = ((offset + done) / PAGE_BYTES, (offset + done) % PAGE_BYTES);
        let count = (PAGE_BYTES - within).min(buffer.len() - done);
        let part = &mut buffer[done..done + count];
        let look = state.look(set, file, page);
        match look.resolved {
            Resolved::Hole => part.fill(0),
            Resolved::Stored(block) => {
                let start = block * PAGE_BYTES + within;
                part.copy_from_slice(&pages[start..start + count]);
            }
        }
        maps += look.maps;
        done += count;
    }
    maps
}

fn try_truncate(tables: &mut [u8], pages: &mut [u8], set: u32, file: u32, size: u32) -> Outcome {
    let mut state = open(tables, pages)?;
    let set = used_set(&state, set)?;
    let file = file_number(file)?;
    in_writeable_set(&state, set)?;
    present(&state, set, file)?;
    unmarked(&state, set, file)?;
    // 7: "new size over 32,768"
    if u64::from(size) > LARGEST_SIZE as u64 {
        return Err(7);
    }
    let new_size = size as usize;
    let old_size = state.size_by_reading(set, file);
    let counts = match new_size.cmp(&old_size) {
        // "At t equal to the size, nothing changes."
        std::cmp::Ordering::Equal => return Ok([0, 0, 0]),
        // "Above it, step 2 and the new size only."
        std::cmp::Ordering::Greater => {
            state.step_2(set, file);
            [0, 0, 0]
        }
        std::cmp::Ordering::Less => {
            truncate_below(&mut state, pages, set, file, new_size, old_size)?
        }
    };
    state.files[set][file].size = new_size;
    state.pack(tables);
    Ok(counts)
}

/// Truncate below the size: all but the new size itself.
fn truncate_below(
    state: &mut State,
    pages: &mut [u8],
    set: usize,
    file: usize,
    new_size: usize,
    old_size: usize,
) -> Outcome {
    // "touched pages run from t divided by 512, rounded down, to the old last
    // page"
    let first = new_size / PAGE_BYTES;
    let touched: Vec<usize> = (first..=(old_size - 1) / PAGE_BYTES).collect();
    let has_part_page = new_size % PAGE_BYTES != 0;
    // "Own need is 1 if t is no multiple of 512 and its page resolves to
    // stored but is not stored in this map, else 0."
    let needs_own = has_part_page
        && state.resolve(set, file, first) != Resolved::Hole
        && !state.is_stored(set, file, first);
    // "All other touched pages become holes in this map": the call drops them
    // whole, the old last page too, wherever in it the size ends.
    let dropped: Vec<usize> =
        touched.iter().copied().filter(|page| !(has_part_page && *page == first)).collect();
    // "Steps 1 to 4 follow."
    room_for(state, usize::from(needs_own))?;
    state.step_2(set, file);
    let own_block = needs_own.then(|| take_own(state));
    let (copies, marked) = state.step_4(pages, set, file, &touched, &dropped);
    // "An own block gets the old bytes and enters the map."
    if let Some(block) = own_block {
        enter_own_block(state, pages, set, file, first, block);
    }
    if has_part_page {
        zero_from(state, pages, set, file, new_size);
    }
    turn_to_holes(state, set, file, &dropped);
    Ok([u32::from(needs_own), copies, marked])
}

/// "All other touched pages become holes in this map, their blocks free."
/// Document 02, of a block handed over: "the delete or truncate itself does not
/// free it"; it is in this map no longer. So one that marking freed and a copy took
/// since is not freed a second time.
fn turn_to_holes(state: &mut State, set: usize, file: usize, dropped: &[usize]) {
    for page in dropped {
        let entry = state.files[set][file].entries[*page];
        state.free_entry(entry);
        state.files[set][file].entries[*page] = HOLE;
    }
}

/// "If t is no multiple of 512, its page, where stored, is zeroed from t on,
/// else its entry stays."
fn zero_from(state: &State, pages: &mut [u8], set: usize, file: usize, size: usize) {
    let entry = state.files[set][file].entries[size / PAGE_BYTES];
    if entry.kind == Kind::Stored {
        pages[block_range(entry.block)][size % PAGE_BYTES..].fill(0);
    }
}

/// "Delete does step 2 for the children and step 4 for all 64 pages, frees
/// the file's blocks, leaves it absent. A marked file is only freed and made
/// absent."
fn try_delete(tables: &mut [u8], pages: &mut [u8], set: u32, file: u32) -> Outcome {
    let mut state = open(tables, pages)?;
    let set = used_set(&state, set)?;
    let file = file_number(file)?;
    in_writeable_set(&state, set)?;
    present(&state, set, file)?;
    let (mut copies, mut marked) = (0, 0);
    if state.files[set][file].state != FileState::Marked {
        state.virgin_children_to_own(set, file);
        let all_pages: Vec<usize> = (0..PAGES).collect();
        // Delete drops every page whole.
        (copies, marked) = state.step_4(pages, set, file, &all_pages, &all_pages);
    }
    // The blocks that are still in the map: those handed over are not, whether the heir
    // has them still, or marking freed them, or a copy has taken them since.
    state.drop_file(set, file);
    state.pack(tables);
    Ok([0, copies, marked])
}

/// "Making a set appends it to the parent's chain; own and virgin files
/// become virgin in it, marked ones marked, all entries unmapped, size 0."
fn try_make(tables: &mut [u8], pages: &[u8], parent: u32, set: u32, writeable: u32) -> Outcome {
    let mut state = open(tables, pages)?;
    let parent = used_set(&state, parent)?;
    let set = set_number(set)?;
    // 9: "making a set under a used number"
    if state.sets[set].used {
        return Err(9);
    }
    // 10: "making from a level 5 set"
    if state.sets[parent].level == HIGHEST_LEVEL {
        return Err(10);
    }
    match state.children(parent).last() {
        Some(last) => state.sets[*last].next_sibling = set,
        None => state.sets[parent].first_child = set,
    }
    // "Every other set is made from a parent and has the parent's level plus
    // one."
    state.sets[set] = SetRecord {
        used: true,
        writeable: writeable != 0,
        level: state.sets[parent].level + 1,
        parent,
        first_child: NONE,
        next_sibling: NONE,
        zero: 0,
        // Document 02: "Format and making a set give 0 and 36,525", whatever the
        // parent's term.
        first_day: 0,
        end_day: LATEST_END,
    };
    for file in 0..FILES {
        let made = match state.files[parent][file].state {
            FileState::Absent => FileState::Absent,
            FileState::Own | FileState::Virgin => FileState::Virgin,
            FileState::Marked => FileState::Marked,
        };
        state.files[set][file] = FileRecord { state: made, ..ABSENT_FILE };
    }
    state.pack(tables);
    Ok([0, 0, 0])
}

/// "Removing frees its blocks and unlinks it."
fn try_remove(tables: &mut [u8], pages: &[u8], set: u32) -> Outcome {
    let mut state = open(tables, pages)?;
    let set = used_set(&state, set)?;
    // 11: "removing a set with children"
    if state.sets[set].first_child != NONE {
        return Err(11);
    }
    // 12: "removing set 0"
    if set == 0 {
        return Err(12);
    }
    for file in 0..FILES {
        state.drop_file(set, file);
    }
    unlink(&mut state, set);
    state.sets[set] = UNUSED_SET;
    state.pack(tables);
    Ok([0, 0, 0])
}

/// Takes a set out of its parent's chain.
fn unlink(state: &mut State, set: usize) {
    let parent = state.sets[set].parent;
    let after = state.sets[set].next_sibling;
    let siblings = state.children(parent);
    let place = siblings.iter().position(|sibling| *sibling == set);
    match place.expect("a used set stands in its parent's chain") {
        0 => state.sets[parent].first_child = after,
        place => state.sets[siblings[place - 1]].next_sibling = after,
    }
}

/// "Size and free: that number, 0, 0."
fn try_size(tables: &[u8], pages: &[u8], set: u32, file: u32) -> Outcome {
    let state = open(tables, pages)?;
    let set = used_set(&state, set)?;
    let file = file_number(file)?;
    present(&state, set, file)?;
    unmarked(&state, set, file)?;
    Ok([state.size_by_reading(set, file) as u32, 0, 0])
}

fn try_free(tables: &[u8], pages: &[u8]) -> Outcome {
    let state = open(tables, pages)?;
    Ok([state.free_blocks() as u32, 0, 0])
}

/// Document 02: "That first part accepts exactly the tables of right length that
/// meet the rules on B, next start, kinds, blocks and bits, whatever else they
/// hold". It is the only call but format, and those of the panel, that may be
/// accepted on tables that are not well formed.
fn try_check_blocks(tables: &[u8]) -> Outcome {
    if crate::check::check_blocks(tables).is_empty() {
        Ok([0, 0, 0])
    } else {
        Err(1)
    }
}

/// Document 02: "the whole check accepts what it did".
fn try_check(tables: &[u8], pages: &[u8]) -> Outcome {
    open(tables, pages)?;
    Ok([0, 0, 0])
}

/// Document 02: "It refuses a date that does not exist or lies outside these years with
/// 14, and a month count of 0 or over 120 with 15, both after 2, with 14 first." Any used
/// set has a term, set 0 and read-only ones too.
fn try_set_term(tables: &mut [u8], pages: &[u8], set: u32, date: Date, months: u32) -> Outcome {
    let mut state = open(tables, pages)?;
    let set = used_set(&state, set)?;
    let first_day = dates::day_number(date).ok_or(14u32)?;
    if months == 0 || months > dates::MOST_MONTHS {
        return Err(15);
    }
    state.sets[set].first_day = first_day;
    state.sets[set].end_day = dates::end_day(date, months);
    state.pack(tables);
    Ok([0, 0, 0])
}

/// Document 02: "A set is current on a day from the first day up to, but without, the
/// end day. Asking this for a day number gives 1 or 0 as the first count." Any number is
/// a day number.
fn try_current(tables: &[u8], pages: &[u8], set: u32, day: u32) -> Outcome {
    let state = open(tables, pages)?;
    let record = &state.sets[used_set(&state, set)?];
    let is_current = (record.first_day..record.end_day).contains(&(day as usize));
    Ok([u32::from(is_current), 0, 0])
}

/// Document 02: "A converter, lent the pages too, takes well-formed tables of 17,436
/// bytes into a second buffer of 17,468, adding the default term to used sets; otherwise
/// it answers 1 and writes nothing." Well formed is meant by the rules of the older
/// tables' time. "the converter of Ask 8 clears them", the marked files, "in older tables
/// of either length, keeping terms already there".
fn try_convert(older: &[u8], pages: &[u8], tables: &mut [u8]) -> Outcome {
    let state = State::unpack_either(older).filter(|_| tables.len() == TABLES_BYTES);
    let mut state = state.ok_or(1u32)?;
    if !check_older(older, pages.len()).is_empty() {
        return Err(1);
    }
    if older.len() == OLDER_TABLES_BYTES {
        for record in state.sets.iter_mut().filter(|record| record.used) {
            (record.first_day, record.end_day) = (0, LATEST_END);
        }
    }
    for (set, file) in (0..SETS).flat_map(|set| (0..FILES).map(move |file| (set, file))) {
        if state.files[set][file].state == FileState::Marked {
            state.clear_marked(set, file);
        }
    }
    state.pack(tables);
    Ok([0, 0, 0])
}

/// Document 02: "Compaction renumbers used blocks from 0 up, by set number, then file,
/// then page, and moves the pages to suit, with one spare page of 512 bytes lent for it."
/// The new pages are built from a copy of the old ones, so the spare page is not needed
/// here.
fn try_compact(tables: &mut [u8], pages: &mut [u8], spare: &mut [u8]) -> Outcome {
    let mut state = open(tables, pages)?;
    // "It refuses a spare page of other than 512 bytes with 16, after 1; any refusal
    // leaves the spare page too."
    if spare.len() != PAGE_BYTES {
        return Err(16);
    }
    let old_blocks = renumber(&mut state);
    let used = old_blocks.len();
    // "Each block's bytes are found again under the new number, none lost or doubled".
    let old_pages = pages.to_vec();
    for (new, old) in old_blocks.into_iter().enumerate() {
        pages[block_range(new)].copy_from_slice(&old_pages[block_range(old)]);
    }
    // "free pages and the spare page may hold anything (named as free)": each of their
    // bytes becomes another one here, so that nothing can rely on them.
    let free_pages = &mut pages[used * PAGE_BYTES..];
    free_pages.iter_mut().chain(spare).for_each(|byte| *byte = !*byte);
    // "bit b is 1 when block b is used"
    for (block, bit) in state.bits.iter_mut().enumerate() {
        *bit = block < used;
    }
    // "Next start becomes the number of used blocks modulo B."
    state.next_start = used % state.block_count;
    state.pack(tables);
    Ok([0, 0, 0])
}

/// Gives the blocks of all stored entries new numbers "from 0 up, by set number, then file,
/// then page". Gives the old ones in this order.
fn renumber(state: &mut State) -> Vec<usize> {
    let mut old_blocks = Vec::new();
    for file in state.files.iter_mut().flatten() {
        for entry in file.entries.iter_mut().filter(|entry| entry.kind == Kind::Stored) {
            old_blocks.push(entry.block);
            entry.block = old_blocks.len() - 1;
        }
    }
    old_blocks
}
