//! Claims about the store that one could believe and that are false: each
//! list of calls breaks its claim. The lists run with plain store and tally
//! beside.

use oracle::bench::{Bench, NoOther};
use oracle::call::*;
use oracle::state::*;

struct After {
    state: State,
    pages: Vec<u8>,
    answer: Answer,
}

fn after(script: &str) -> After {
    let mut bench = Bench::new();
    let mut last = None;
    for item in Item::parse_script(script).unwrap() {
        last = bench.step(&item, &mut NoOther).unwrap_or_else(|text| panic!("{item}: {text}"));
        assert_eq!(last.unwrap().number, 0, "{item} is accepted");
    }
    After {
        state: State::unpack(bench.tables()),
        pages: bench.pages().to_vec(),
        answer: last.unwrap(),
    }
}

impl After {
    fn file(&self, set: usize) -> &FileRecord {
        &self.state.files[set][0]
    }

    fn is_marked(&self, set: usize) -> bool {
        self.file(set).state == FileState::Marked
    }

    fn size(&self, set: usize) -> usize {
        self.state.size_by_reading(set, 0)
    }

    fn has_stored(&self, set: usize) -> bool {
        self.file(set).entries.iter().any(|entry| entry.kind == Kind::Stored)
    }
}

#[test]
fn pages_of_free_blocks_are_zero() {
    let after = after("format 512; create 0 0; write-narrow 0 0 0 1 1; delete 0 0");
    assert!(!after.state.bits[0] && after.pages[0] != 0);
}

#[test]
fn the_block_before_next_start_is_used_once_any_is() {
    let after = after("format 2048; create 0 0; write-narrow 0 0 0 543 1; truncate 0 0 1");
    assert!(after.state.bits[0] && after.state.next_start == 2 && !after.state.bits[1]);
}

#[test]
fn a_childs_size_is_at_most_the_parents() {
    let after = after("format 2048; create 0 0; make 0 1 1; truncate 1 0 1");
    assert!(after.size(1) > after.size(0));
}

#[test]
fn a_childs_size_is_at_least_the_parents() {
    let after = after("format 2048; create 0 0; make 0 1 0; write-narrow 0 0 0 1 1");
    assert!(after.size(1) < after.size(0));
}

const FULL: &str = "format 512; create 0 0; write-narrow 0 0 0 1 1; make 0 1 0";

/// Set 1 takes the block over, so set 2 is marked.
#[test]
fn the_parents_file_of_a_marked_file_is_present() {
    let after = after(&format!("{FULL}; make 0 2 0; delete 0 0"));
    assert!(after.is_marked(2) && !after.file(0).is_present());
}

#[test]
fn an_own_parents_file_of_a_marked_file_has_a_stored_page() {
    let after = after(&format!("{FULL}; make 0 2 0; truncate 0 0 0"));
    assert!(after.is_marked(2) && after.file(0).state == FileState::Own && !after.has_stored(0));
}

#[test]
fn a_present_child_of_a_marked_file_is_marked() {
    let after =
        after(&format!("{FULL}; make 1 2 1; write-narrow 0 0 0 1 1; delete 2 0; create 2 0"));
    assert!(after.is_marked(1) && after.file(2).state == FileState::Own);
    assert_eq!(after.state.sets[2].parent, 1);
}

#[test]
fn a_child_of_a_virgin_file_is_virgin_or_absent() {
    let after = after("format 2048; create 0 0; make 0 1 0; make 1 2 1; write-narrow 2 0 0 1 1");
    assert!(after.file(1).state == FileState::Virgin && after.file(2).state == FileState::Own);
}

#[test]
fn a_live_file_is_present_in_the_parent_set() {
    let after = after("format 2048; make 0 1 1; create 1 0");
    assert!(after.file(1).is_own_or_virgin() && !after.file(0).is_present());
}

#[test]
fn an_own_file_has_a_mapped_page() {
    let after = after("format 2048; create 0 0; make 0 1 0; truncate 0 0 1");
    assert!(after.file(1).state == FileState::Own && after.file(1).entries == [UNMAPPED; PAGES]);
}

#[test]
fn an_own_files_pages_past_its_size_are_holes_in_its_own_map() {
    let after = after("format 2048; create 0 0; make 0 1 0; write-narrow 0 0 0 1 1");
    assert!(after.file(1).state == FileState::Own && after.size(1) == 0);
    assert!(after.file(1).has_unmapped());
}

#[test]
fn no_live_child_is_unmapped_over_a_parents_hole() {
    let after = after("format 2048; create 0 0; make 0 1 0");
    assert!(after.file(1).is_own_or_virgin() && after.file(1).entries[0] == UNMAPPED);
    assert_eq!(after.file(0).entries[0], HOLE);
}

#[test]
fn siblings_ascend_and_a_childs_number_is_above_its_parents() {
    let siblings = after("format 512; make 0 2 0; make 0 1 0");
    assert_eq!(siblings.state.children(0), [2, 1]);
    let child = after("format 512; make 0 2 0; make 2 1 0");
    assert_eq!(child.state.sets[1].parent, 2);
}

#[test]
fn the_third_count_is_at_most_the_number_of_children() {
    let after = after(&format!("{FULL}; make 1 2 0; write-narrow 0 0 0 1 1"));
    assert_eq!(after.state.children(0).len(), 1);
    assert_eq!(after.answer, Answer::accepted([0, 0, 2]));
}

/// The only child is marked at the part page, and the block of page 1, dropped
/// whole and needed by a child before the call, is freed.
const PART_PAGE: &str = "format 1024; create 0 0; write-narrow 0 0 0 1024 1; make 0 1 0; \
    truncate 0 0 1";

#[test]
fn no_block_is_free_after_a_call_that_marked() {
    let after = after(PART_PAGE);
    assert_eq!(after.answer, Answer::accepted([0, 0, 1]));
    assert_eq!(after.state.free_blocks(), 1);
}

#[test]
fn every_block_that_a_child_needs_before_the_call_is_handed_over() {
    let after = after(PART_PAGE);
    assert!(after.is_marked(1) && !after.has_stored(1) && !after.state.bits[1]);
}

// Claims about a block handed over.

#[test]
fn the_heir_of_a_block_is_not_marked_by_the_call() {
    let after = after(
        "format 1024; create 0 0; write-narrow 0 0 512 512 1; make 0 1 1; \
        write-narrow 1 0 0 512 2; make 1 2 0; delete 1 0",
    );
    // Block 1 was handed over, and came free with the marking.
    assert_eq!(after.answer, Answer::accepted([0, 0, 1]));
    assert!(after.is_marked(2) && !after.state.bits[1]);
}

#[test]
fn in_a_full_store_delete_of_an_own_file_marks_nothing() {
    let after = after(&format!("{FULL}; make 0 2 0; delete 0 0"));
    assert_eq!(after.answer, Answer::accepted([0, 0, 1]));
}

// Claims about extra pages.

/// There is room for one page only, and the touched one has it.
#[test]
fn after_a_write_no_live_child_needs_a_page_of_a_touched_group() {
    let after = after(
        "format 1536; create 0 0; write-narrow 0 0 0 1024 1; make 0 1 0; \
        write-groups 2 0 0 0 512 2",
    );
    assert_eq!(after.answer, Answer::accepted([0, 1, 0]));
    assert!(after.state.needs(1, 0, 1) && !after.is_marked(1));
}

/// One touched page and one child: two blocks, but by groups it takes three.
#[test]
fn a_write_takes_at_most_its_pages_times_one_more_than_the_children() {
    let after = after(
        "format 6656; create 0 0; write-narrow 0 0 0 1536 1; make 0 1 0; \
        write-groups 4 0 0 0 512 2",
    );
    assert_eq!(after.answer, Answer::accepted([0, 3, 0]));
}

// Other claims.

#[test]
fn a_marked_child_got_no_copy_in_that_call() {
    let after = after(
        "format 1536; create 0 0; write-narrow 0 0 0 1024 1; make 0 1 0; write-narrow 0 0 0 1024 2",
    );
    // The only child.
    assert_eq!(after.answer, Answer::accepted([0, 1, 1]));
    assert!(after.is_marked(1));
}

// Claims about marking that frees blocks, true before Ask 10.

/// Each child gets a free block for page 0. Set 1 is marked at page 1, and set 2 takes its
/// block.
#[test]
fn a_call_takes_at_most_the_blocks_that_were_free() {
    let script = "format 2048; create 0 0; write-narrow 0 0 0 1024 1; make 0 1 0; make 0 2 0";
    assert_eq!(after(script).state.free_blocks(), 2);
    let after = after(&format!("{script}; write-narrow 0 0 0 1024 2"));
    assert_eq!(after.answer, Answer::accepted([0, 3, 1]));
}

/// Page 0 is copied and page 1 is not: the copy is freed, and nobody takes it.
#[test]
fn no_block_is_free_after_a_write_that_marked() {
    let after = after(
        "format 1536; create 0 0; write-narrow 0 0 0 1024 1; make 0 1 0; write-narrow 0 0 0 1024 2",
    );
    assert_eq!(after.answer, Answer::accepted([0, 1, 1]));
    assert_eq!(after.state.free_blocks(), 1);
}

/// Two needed copies, one block free and one freed, and one copy.
#[test]
fn copies_are_all_that_free_and_freed_blocks_allow() {
    let after = after(
        "format 2048; create 0 0; write-narrow 0 0 0 1536 1; make 0 1 0; write-narrow 0 0 0 1024 2",
    );
    assert_eq!(after.answer, Answer::accepted([0, 1, 1]));
    assert_eq!(after.state.free_blocks(), 1);
}

/// Set 1's own block, block 2, is freed; the own block of page 0 was taken before.
#[test]
fn a_write_lets_no_bit_fall() {
    let script = "format 2048; create 0 0; write-narrow 0 0 512 1024 1; make 0 1 1; \
        write-narrow 1 0 0 512 2";
    assert!(after(script).state.bits[2]);
    let after = after(&format!("{script}; write-narrow 0 0 0 1024 3"));
    assert_eq!(after.answer, Answer::accepted([1, 0, 1]));
    assert!(after.is_marked(1) && !after.state.bits[2]);
}

/// Page 4 was cut from set 0 and handed over to set 1; set 2 got a copy. Set 1 is marked at
/// page 2, and set 2 takes block 2, in which page 4 of set 1 was.
#[test]
fn a_write_changes_only_blocks_that_were_free_or_its_own() {
    let script = "format 2048; create 0 0; write-narrow 0 0 1024 1536 1; make 0 1 0; make 0 2 0; \
        truncate 0 0 2048";
    let before = after(script);
    assert_eq!(before.file(1).entries[4], stored(2));
    let after = after(&format!("{script}; write-narrow 0 0 1024 512 2"));
    assert_eq!(after.answer, Answer::accepted([0, 1, 1]));
    assert!(after.is_marked(1));
    assert_eq!(after.file(2).entries[2], stored(2));
    let block = oracle::maps::block_range(2);
    assert!(before.state.bits[2] && before.pages[block.clone()] != after.pages[block]);
}

/// Set 1 gets pages 0 and 1 in blocks 3 and 5, set 2 gets page 0 in block 4 and is marked at
/// page 1. Page 2 is extra, and block 4 is there for set 1.
#[test]
fn an_extra_page_is_copied_only_if_nothing_is_marked() {
    let after = after(
        "format 3072; create 0 0; write-narrow 0 0 0 1536 1; make 0 1 0; make 0 2 0; \
        write-groups 3 0 0 0 1024 2",
    );
    assert_eq!(after.answer, Answer::accepted([0, 4, 1]));
    assert!(after.is_marked(2));
    assert_eq!(after.file(1).entries[..3], [stored(3), stored(5), stored(4)]);
}

/// Without Ask 10 sets 2 and 3 would be marked at page 0, and set 4, which has page 0, would
/// take page 1 over. Now set 3 has page 0 in the block that set 2's marking freed, so it is
/// set 3 that takes page 1 over, and set 4 is marked.
#[test]
fn no_file_is_marked_that_would_be_spared_if_marking_freed_nothing() {
    let after = after(
        "format 2048; create 0 0; write-narrow 0 0 0 512 1; make 0 1 1; \
        write-narrow 1 0 512 512 2; make 1 2 1; make 1 3 0; make 1 4 1; \
        write-narrow 2 0 1024 512 3; write-narrow 4 0 0 512 4; delete 1 0",
    );
    assert_eq!(after.answer, Answer::accepted([0, 1, 2]));
    assert!(after.is_marked(2) && after.is_marked(4));
    assert_eq!(after.file(3).entries[..2], [stored(2), stored(1)]);
}

/// Size 100, byte 100 of its stored page not 0, truncate to 512: the tables
/// are well formed all along, yet byte 100 then reads as not 0.
#[test]
fn well_formed_alone_gives_demand_3() {
    let mut bench = Bench::new();
    let script = "format 512; create 0 0; write-narrow 0 0 0 100 1; poke-page 100 7; \
        truncate 0 0 512";
    for item in Item::parse_script(script).unwrap() {
        bench.step(&item, &mut NoOther).unwrap();
        assert!(oracle::check::is_well_formed(bench.tables(), bench.pages().len()));
    }
    let mut buffer = [0; 512];
    let answer = oracle::store::read(bench.tables(), bench.pages(), 0, 0, 0, &mut buffer);
    assert_eq!(answer, Answer::accepted([512, 1, 0]));
    assert_eq!(buffer[100], 7);
}
