//! Ask 2 of document 02, "Delete hands its blocks to the copy", as it is read
//! in docs/DECISIONS.md, "Readings of 02", Ask 2, with what marking frees (Ask 10). The expected answers, maps and
//! bytes were worked out by hand from the papers. Each script runs with plain
//! store and tally beside. All files have number 0; in the comments "set 1" is
//! short for the file of set 1.

use oracle::call::*;
use oracle::state::*;

mod script;
use script::{pages, Store};

/// File 0 with page 0 of seed 1 in block 0 and page 1 of seed 2 in block 1.
const TWO_PAGES: &str = "create 0 0; write-narrow 0 0 0 512 1; write-narrow 0 0 512 512 2";

// What is handed over.

/// "M12 becomes 0; 0, 0, 0 with no block free."
#[test]
fn delete_hands_over_every_page_stored_in_its_own_map() {
    let mut store = Store::after(2, &format!("{TWO_PAGES}; make 0 1 0"));
    assert_eq!(store.does("delete 0 0"), "0; 0, 0, 0");
    assert_eq!(store.file(0), ABSENT_FILE);
    assert_eq!(store.map(1), "0:0 2:hole");
    assert_eq!((store.file(1).state, store.file(1).size), (FileState::Own, 1_024));
    assert_eq!(store.reads(1), pages(&[1, 2]));
    assert_eq!(store.free(), 0);
    // Blocks 0 and 1 were taken, of two: next start is 0, and no block was
    // taken since.
    assert_eq!(store.state().next_start, 0);
}

/// "M11 becomes 0; 0, 0, 0".
#[test]
fn truncate_hands_over_the_pages_it_drops_whole() {
    let mut store = Store::after(8, &format!("{TWO_PAGES}; make 0 1 0"));
    assert_eq!(store.does("truncate 0 0 512"), "0; 0, 0, 0");
    assert_eq!(store.map(0), "0:0 1:hole");
    assert_eq!(store.map(1), "0:unmapped 1:1 2:unmapped");
    assert_eq!(store.reads(0), pages(&[1]));
    assert_eq!(store.reads(1), pages(&[1, 2]));
    assert_eq!((store.free(), store.state().next_start), (6, 2));
}

#[test]
fn truncate_to_0_has_no_part_page() {
    let mut store = Store::after(2, &format!("{TWO_PAGES}; make 0 1 0"));
    assert_eq!(store.does("truncate 0 0 0"), "0; 0, 0, 0");
    assert_eq!(store.map(0), "0:hole");
    assert_eq!(store.map(1), "0:0 2:unmapped");
    assert_eq!(store.reads(1), pages(&[1, 2]));
    assert_eq!(store.free(), 0);
}

/// "and so is the part page of a truncate", copied as before.
#[test]
fn the_part_page_is_copied() {
    let mut store = Store::after(3, &format!("{TWO_PAGES}; make 0 1 0"));
    assert_eq!(store.does("truncate 0 0 100"), "0; 0, 1, 0");
    // Page 0 was copied to block 2, page 1 was handed over.
    assert_eq!(store.map(0), "0:0 1:hole");
    assert_eq!(store.map(1), "0:2 1:1 2:unmapped");
    assert_eq!(store.reads(0), pages(&[1])[..100]);
    assert!(store.0.pages()[100..512].iter().all(|byte| *byte == 0));
    assert_eq!(store.reads(1), pages(&[1, 2]));
    assert_eq!((store.free(), store.state().next_start), (0, 0));
}

#[test]
fn the_part_page_alone_with_no_block_free_marks() {
    let mut store = Store::after(1, "create 0 0; write-narrow 0 0 0 512 1; make 0 1 0");
    assert_eq!(store.does("truncate 0 0 511"), "0; 0, 0, 1");
    assert!(store.is_marked(1));
    assert_eq!((store.map(0), store.map(1)), ("0:0 1:hole".into(), "0:unmapped".into()));
    assert_eq!(store.free(), 0);
}

/// The old last page is dropped whole though the size ends inside it.
#[test]
fn the_old_last_page_counts_as_whole() {
    let mut store = Store::after(2, "create 0 0; write-narrow 0 0 0 600 1; make 0 1 0");
    assert_eq!(store.does("truncate 0 0 512"), "0; 0, 0, 0");
    assert_eq!(store.map(0), "0:0 1:hole");
    assert_eq!(store.map(1), "0:unmapped 1:1 2:unmapped");
    assert_eq!(store.file(1).size, 600);
    assert_eq!(store.reads(1), data_bytes(600, 1));
    assert_eq!(store.free(), 0);
}

/// "Pages that the file only reads through its parent are copied as before".
/// Set 1 reads page 0 (block 0) through set 0 and has page 1 in block 1.
const READS_PAGE_0_THROUGH_PARENT: &str = "create 0 0; write-narrow 0 0 0 512 1; make 0 1 1; \
    write-narrow 1 0 512 512 2; make 1 2 0";

#[test]
fn a_page_read_through_the_parent_is_copied() {
    let mut store = Store::after(3, READS_PAGE_0_THROUGH_PARENT);
    assert_eq!(store.map(1), "0:unmapped 1:1 2:unmapped");
    assert_eq!(store.does("delete 1 0"), "0; 0, 1, 0");
    assert_eq!(store.map(0), "0:0 1:hole");
    assert_eq!(store.map(2), "0:2 1:1 2:hole");
    assert_eq!(store.reads(0), pages(&[1]));
    assert_eq!(store.reads(2), pages(&[1, 2]));
    assert_eq!(store.free(), 0);
}

/// With no block for the copy of page 0, set 2 is marked there. It needs page 1
/// no longer, so that block is freed.
#[test]
fn a_page_read_through_the_parent_marks_with_no_block_free() {
    let mut store = Store::after(2, READS_PAGE_0_THROUGH_PARENT);
    assert_eq!(store.does("delete 1 0"), "0; 0, 0, 1");
    assert!(store.is_marked(2));
    assert_eq!(store.reads(0), pages(&[1]));
    assert_eq!(store.free(), 1);
}

/// A truncate of such a file: page 0 is the part page and needs an own block.
/// Set 2 needs two pages and set 3 too: four copies, less the page handed over.
#[test]
fn a_truncate_with_an_own_block_copies_and_pages_handed_over() {
    let script = format!("{READS_PAGE_0_THROUGH_PARENT}; make 1 3 0");
    // No block is left for copies: both are marked, and block 1 is freed.
    let mut store = Store::after(3, &script);
    assert_eq!(store.does("truncate 1 0 100"), "0; 1, 0, 2");
    assert_eq!(store.map(1), "0:2 1:hole 2:unmapped");
    assert_eq!(store.free(), 1);
    // One block: set 2 has it for page 0, then takes page 1 over.
    let mut store = Store::after(4, &script);
    assert_eq!(store.does("truncate 1 0 100"), "0; 1, 1, 1");
    assert_eq!(store.map(1), "0:2 1:hole 2:unmapped");
    assert_eq!(store.map(2), "0:3 1:1 2:unmapped");
    assert!(store.is_marked(3));
    assert_eq!(store.reads(0), pages(&[1]));
    assert_eq!(store.reads(1), pages(&[1])[..100]);
    assert_eq!(store.reads(2), pages(&[1, 2]));
    assert_eq!(store.free(), 0);
    // Two: set 3 lacks one for page 1, and the copy of page 0 in block 4 comes free.
    let mut store = Store::after(5, &script);
    assert_eq!(store.does("truncate 1 0 100"), "0; 1, 2, 1");
    assert_eq!(store.map(2), "0:3 1:1 2:unmapped");
    assert!(store.is_marked(3));
    assert_eq!(store.free(), 1);
    // Three: nothing is marked.
    let mut store = Store::after(6, &script);
    assert_eq!(store.does("truncate 1 0 100"), "0; 1, 3, 0");
    assert_eq!(store.map(3), "0:4 2:unmapped");
    assert_eq!(store.reads(3), pages(&[1, 2]));
    assert_eq!(store.free(), 0);
}

/// A virgin file has nothing in its own map, so it hands nothing over.
#[test]
fn a_virgin_file_hands_nothing_over() {
    let script = "create 0 0; write-narrow 0 0 0 512 1; make 0 1 1; make 1 2 0";
    let mut store = Store::after(2, script);
    assert_eq!(store.does("delete 1 0"), "0; 0, 1, 0");
    assert_eq!((store.map(0), store.map(2)), ("0:0 1:hole".into(), "0:1 1:hole".into()));
    assert_eq!(store.reads(2), pages(&[1]));
    let mut store = Store::after(2, script);
    assert_eq!(store.does("truncate 1 0 0"), "0; 0, 1, 0");
    assert_eq!(store.map(1), "0:hole 1:unmapped");
    assert_eq!(store.map(2), "0:1 1:unmapped");
    assert_eq!(store.reads(2), pages(&[1]));
    let mut store = Store::after(1, script);
    assert_eq!(store.does("delete 1 0"), "0; 0, 0, 1");
    assert!(store.is_marked(2));
}

/// A page that is a hole becomes a hole in the child; no block goes with it.
#[test]
fn holes_stay_holes() {
    // Page 2 alone is stored, with one byte.
    let script = "create 0 0; write-narrow 0 0 1024 1 9; make 0 1 0";
    let mut store = Store::after(1, script);
    assert_eq!(store.does("truncate 0 0 0"), "0; 0, 0, 0");
    assert_eq!(store.map(0), "0:hole");
    assert_eq!(store.map(1), "0:hole 2:0 3:unmapped");
    assert_eq!(store.reads(1), [vec![0; 1_024], data_bytes(1, 9)].concat());
    let mut store = Store::after(1, script);
    assert_eq!(store.does("delete 0 0"), "0; 0, 0, 0");
    assert_eq!(store.map(1), "0:hole 2:0 3:hole");
    assert_eq!(store.reads(1), [vec![0; 1_024], data_bytes(1, 9)].concat());
    // A part page that is a hole is a hole in the child too, and stays here.
    let mut store = Store::after(1, script);
    assert_eq!(store.does("truncate 0 0 700"), "0; 0, 0, 0");
    assert_eq!(store.map(0), "0:hole");
    assert_eq!(store.map(1), "0:unmapped 1:hole 2:0 3:unmapped");
}

/// A write drops nothing (M6), and neither does a truncate at or above the
/// size.
#[test]
fn nothing_else_hands_over() {
    let script = "create 0 0; write-narrow 0 0 0 512 1; make 0 1 0";
    let mut store = Store::after(1, script);
    assert_eq!(store.does("write-narrow 0 0 0 512 2"), "0; 0, 0, 1");
    assert!(store.is_marked(1));
    let mut store = Store::after(1, script);
    assert_eq!(store.does("truncate 0 0 512"), "0; 0, 0, 0");
    assert_eq!(store.file(1).state, FileState::Virgin);
    assert_eq!(store.does("truncate 0 0 1024"), "0; 0, 0, 0");
    assert_eq!((store.map(0), store.map(1)), ("0:0 1:hole".into(), "0:unmapped".into()));
    assert_eq!((store.file(1).state, store.file(1).size), (FileState::Own, 512));
}

// Who the heir is.

/// The heir is first in order of making, not of number.
#[test]
fn the_heir_is_the_first_child_in_order_of_making() {
    let mut store = Store::after(1, "create 0 0; write-narrow 0 0 0 512 1; make 0 2 0; make 0 1 0");
    assert_eq!(store.does("delete 0 0"), "0; 0, 0, 1");
    assert_eq!(store.map(2), "0:0 1:hole");
    assert!(store.is_marked(1));
    assert_eq!(store.reads(2), pages(&[1]));
}

/// Set 1 has page 0 itself, set 2's file is absent, set 3 is the first that
/// needs it.
#[test]
fn children_that_do_not_need_the_page_are_passed_over() {
    let script = "create 0 0; write-narrow 0 0 0 512 1; make 0 1 1; make 0 2 1; make 0 3 0; \
        make 0 4 0; write-narrow 1 0 0 512 2; delete 2 0";
    let mut store = Store::after(3, script);
    assert_eq!(store.map(1), "0:1 1:unmapped");
    assert_eq!(store.does("delete 0 0"), "0; 0, 1, 0");
    assert_eq!(store.map(1), "0:1 1:hole");
    assert_eq!(store.file(2), ABSENT_FILE);
    assert_eq!(store.map(3), "0:0 1:hole");
    assert_eq!(store.map(4), "0:2 1:hole");
    assert_eq!(store.reads(1), pages(&[2]));
    assert_eq!(store.reads(3), pages(&[1]));
    assert_eq!(store.reads(4), pages(&[1]));
}

/// Each page has an heir of its own: set 1 has page 0 itself (block 2) and set
/// 2 has page 1 (block 3).
#[test]
fn the_pages_of_one_call_may_have_different_heirs() {
    let script = format!(
        "{TWO_PAGES}; make 0 1 1; make 0 2 1; write-narrow 1 0 0 512 3; write-narrow 2 0 512 512 4"
    );
    let mut store = Store::after(4, &script);
    assert_eq!(store.does("delete 0 0"), "0; 0, 0, 0");
    assert_eq!(store.map(1), "0:2 1:1 2:hole");
    assert_eq!(store.map(2), "0:0 1:3 2:hole");
    assert_eq!(store.reads(1), pages(&[3, 2]));
    assert_eq!(store.reads(2), pages(&[1, 4]));
    assert_eq!(store.free(), 0);
}

/// The first child is marked at the part page, so the next one takes page 1
/// over.
#[test]
fn a_child_marked_earlier_in_the_call_is_passed_over() {
    let script = "create 0 0; write-narrow 0 0 0 1024 1; make 0 1 1; make 0 2 1; \
        write-narrow 2 0 0 512 7";
    let mut store = Store::after(3, script);
    assert_eq!(store.does("truncate 0 0 100"), "0; 0, 0, 1");
    assert!(store.is_marked(1));
    assert_eq!(store.map(0), "0:0 1:hole");
    assert_eq!(store.map(2), "0:2 1:1 2:unmapped");
    assert_eq!(store.reads(0), data_bytes(1_024, 1)[..100]);
    assert_eq!(store.reads(2), [pages(&[7]), data_bytes(1_024, 1)[512..].to_vec()].concat());
    assert_eq!(store.free(), 0);
}

/// The same in a delete. Page 0 is read through the parent. Set 2 needs it and
/// is marked; set 3 has it and takes page 1 over.
#[test]
fn a_child_marked_earlier_in_a_delete_is_passed_over() {
    let script = "create 0 0; write-narrow 0 0 0 512 1; make 0 1 1; write-narrow 1 0 512 512 2; \
        make 1 2 0; make 1 3 1; write-narrow 3 0 0 512 3";
    let mut store = Store::after(3, script);
    assert_eq!(store.does("delete 1 0"), "0; 0, 0, 1");
    assert!(store.is_marked(2));
    assert_eq!(store.map(3), "0:2 1:1 2:hole");
    assert_eq!(store.reads(3), pages(&[3, 2]));
    assert_eq!(store.free(), 0);
}

/// A child marked by an earlier call needs nothing either.
#[test]
fn a_child_marked_before_the_call_is_passed_over() {
    let script = "create 0 0; write-narrow 0 0 0 512 1; make 0 1 0; write-narrow 0 0 0 512 2; \
        make 0 2 0";
    let mut store = Store::after(1, script);
    assert!(store.is_marked(1));
    assert_eq!(store.does("delete 0 0"), "0; 0, 0, 0");
    assert!(store.is_marked(1));
    assert_eq!(store.map(2), "0:0 1:hole");
    assert_eq!(store.reads(2), pages(&[2]));
}

/// The heir of page 0 is marked at page 1, which is read through the parent. The block that
/// it took over comes free with it, and its own delete frees nothing more.
#[test]
fn an_heir_marked_later_in_the_call_gives_the_block_back() {
    let script = "create 0 0; write-narrow 0 0 512 512 1; make 0 1 1; write-narrow 1 0 0 512 2; \
        make 1 2 1";
    let mut store = Store::after(2, script);
    assert_eq!(store.does("delete 1 0"), "0; 0, 0, 1");
    assert!(store.is_marked(2));
    assert_eq!(store.free(), 1);
    assert_eq!(store.does("delete 2 0"), "0; 0, 0, 0");
    assert_eq!(store.free(), 1);
    assert_eq!(store.reads(0), pages(&[0, 1]));
}

/// The block is there for the next child: set 2 takes page 0 over (block 1) and is marked at
/// page 1; set 3, which has page 0 itself, takes block 1 for page 1. The delete does not free
/// it, though it was in set 1's map before.
#[test]
fn a_block_of_an_heir_marked_later_is_free_for_this_calls_copies() {
    let script = "create 0 0; write-narrow 0 0 512 512 1; make 0 1 1; write-narrow 1 0 0 512 2; \
        make 1 2 0; make 1 3 1; write-narrow 3 0 0 512 3";
    let mut store = Store::after(3, script);
    assert_eq!(store.does("delete 1 0"), "0; 0, 1, 1");
    assert!(store.is_marked(2));
    assert_eq!(store.map(3), "0:2 1:1 2:hole");
    assert_eq!(store.reads(3), pages(&[3, 1]));
    assert_eq!(store.reads(0), pages(&[0, 1]));
    assert_eq!(store.free(), 0);
}

// The children behind the heir.

/// "Other children needing it still get copies."
#[test]
fn the_later_children_get_copies_of_the_same_block() {
    let script = format!("{TWO_PAGES}; make 0 1 0; make 0 2 0; make 0 3 0");
    // Page 0 goes to blocks 2 and 3, page 1 to blocks 4 and 5.
    let mut store = Store::after(6, &script);
    assert_eq!(store.does("delete 0 0"), "0; 0, 4, 0");
    assert_eq!(store.map(1), "0:0 2:hole");
    assert_eq!(store.map(2), "0:2 1:4 2:hole");
    assert_eq!(store.map(3), "0:3 1:5 2:hole");
    for set in 1..=3 {
        assert_eq!(store.reads(set), pages(&[1, 2]));
    }
    assert_eq!(store.free(), 0);
}

/// With no block free each is marked: set 2 at page 1, after it got a copy of
/// page 0, which comes free; set 3 at page 0.
#[test]
fn the_later_children_are_marked_with_no_block_free() {
    let script = format!("{TWO_PAGES}; make 0 1 0; make 0 2 0; make 0 3 0");
    let mut store = Store::after(3, &script);
    assert_eq!(store.does("delete 0 0"), "0; 0, 1, 2");
    assert_eq!(store.map(1), "0:0 2:hole");
    assert!(store.is_marked(2) && store.is_marked(3));
    assert_eq!(store.reads(1), pages(&[1, 2]));
    assert_eq!(store.free(), 1);
    // The same in truncate.
    let mut store = Store::after(3, &script);
    assert_eq!(store.does("truncate 0 0 0"), "0; 0, 1, 2");
    assert_eq!(store.map(1), "0:0 2:unmapped");
    assert!(store.is_marked(2) && store.is_marked(3));
    assert_eq!(store.reads(1), pages(&[1, 2]));
    assert_eq!(store.free(), 1);
}

/// M12 with 2 to 7 children: the first has both blocks, the others are marked;
/// with two blocks more for each of the others they have copies.
#[test]
fn row_12_with_2_to_7_children() {
    for children in 2..=7 {
        let makes: Vec<String> = (1..=children).map(|set| format!("make 0 {set} 0")).collect();
        let script = format!("{TWO_PAGES}; {}", makes.join("; "));
        let mut store = Store::after(2, &script);
        assert_eq!(store.does("delete 0 0"), format!("0; 0, 0, {}", children - 1));
        assert_eq!(store.map(1), "0:0 2:hole");
        assert_eq!(store.reads(1), pages(&[1, 2]));
        for set in 2..=children {
            assert!(store.is_marked(set));
        }
        assert_eq!(store.free(), 0);
        let mut store = Store::after(2 * children, &script);
        assert_eq!(store.does("delete 0 0"), format!("0; 0, {}, 0", 2 * (children - 1)));
        for set in 1..=children as u32 {
            assert_eq!(store.reads(set), pages(&[1, 2]));
        }
        assert_eq!(store.free(), 0);
    }
}

/// The most copies a delete can make: 64 pages, 7 children, of which one takes
/// the blocks over.
#[test]
fn sixty_four_pages_and_seven_children() {
    let script =
        "create 0 0; write-narrow 0 0 0 32768 5; make 0 1 0; make 0 2 0; make 0 3 0; make 0 4 0; \
        make 0 5 0; make 0 6 0; make 0 7 0";
    let mut store = Store::after(64 + 384, script);
    assert_eq!(store.does("delete 0 0"), "0; 0, 384, 0");
    assert_eq!(store.map(1), "0:0");
    for set in 1..=7 {
        assert_eq!(store.reads(set), data_bytes(32_768, 5));
    }
    assert_eq!(store.free(), 0);
}

/// Marking a later child marks what reads through it. What reads through the
/// heir reads on.
#[test]
fn the_dependents_of_heir_and_marked_child() {
    let script = "create 0 0; write-narrow 0 0 0 512 1; make 0 1 0; make 0 2 0; make 2 3 0; \
        make 1 4 0";
    let mut store = Store::after(1, script);
    assert_eq!(store.does("delete 0 0"), "0; 0, 0, 2");
    assert!(store.is_marked(2) && store.is_marked(3));
    assert_eq!(store.file(4).state, FileState::Virgin);
    assert_eq!(store.reads(1), pages(&[1]));
    assert_eq!(store.reads(4), pages(&[1]));
}

// Free blocks or not.

#[test]
fn blocks_are_handed_over_in_a_store_with_room() {
    let mut store = Store::after(64, &format!("{TWO_PAGES}; make 0 1 0; make 0 2 0"));
    assert_eq!(store.does("delete 0 0"), "0; 0, 2, 0");
    assert_eq!(store.map(1), "0:0 2:hole");
    assert_eq!(store.map(2), "0:2 2:hole");
    assert_eq!((store.free(), store.state().next_start), (60, 4));
}

// When blocks are freed.

/// Both children have a hole at page 0, which set 0 wrote later. Its block 1
/// comes free after step 4, so page 1 finds no block for set 2.
#[test]
fn blocks_that_no_child_needs_are_not_free_for_this_calls_copies() {
    let script = "create 0 0; write-narrow 0 0 512 512 1; make 0 1 0; make 0 2 0; \
        write-narrow 0 0 0 512 2";
    let mut store = Store::after(2, script);
    assert_eq!(store.map(0), "0:1 1:0 2:hole");
    assert_eq!(store.map(1), "0:hole 1:unmapped");
    assert_eq!(store.does("delete 0 0"), "0; 0, 0, 1");
    assert_eq!(store.map(1), "0:hole 1:0 2:hole");
    assert!(store.is_marked(2));
    assert_eq!(store.reads(1), pages(&[0, 1]));
    assert_eq!(store.free(), 1);
    // The same in truncate.
    let mut store = Store::after(2, script);
    assert_eq!(store.does("truncate 0 0 0"), "0; 0, 0, 1");
    assert_eq!(store.map(1), "0:hole 1:0 2:unmapped");
    assert_eq!(store.free(), 1);
}

/// "the delete or truncate itself does not free it". The heir's own delete,
/// truncate or removal does, and counts it once.
#[test]
fn the_heirs_own_call_frees_the_block() {
    let script = format!("{TWO_PAGES}; make 0 1 1; delete 0 0");
    for (call, free) in [
        ("delete 1 0", 2),
        ("truncate 1 0 0", 2),
        ("truncate 1 0 512", 1),
        ("truncate 1 0 100", 1),
        ("remove 1", 2),
    ] {
        let mut store = Store::after(2, &script);
        assert_eq!(store.free(), 0);
        assert_eq!(store.does(call), "0; 0, 0, 0", "{call}");
        assert_eq!(store.free(), free, "{call}");
    }
}

/// The heir's block is its own: it is written in place, and handed on.
#[test]
fn the_heirs_block_is_its_own() {
    let script = "create 0 0; write-narrow 0 0 0 512 1; make 0 1 1; make 1 2 1; delete 0 0";
    let mut store = Store::after(1, script);
    assert_eq!((store.map(1), store.map(2)), ("0:0 1:hole".into(), "0:unmapped".into()));
    assert_eq!(store.does("delete 1 0"), "0; 0, 0, 0");
    assert_eq!((store.file(1), store.map(2)), (ABSENT_FILE, "0:0 1:hole".into()));
    assert_eq!(store.free(), 0);
    assert_eq!(store.does("write-narrow 2 0 0 512 3"), "0; 0, 0, 0");
    assert_eq!(store.reads(2), pages(&[3]));
    assert_eq!(store.does("delete 2 0"), "0; 0, 0, 0");
    assert_eq!(store.free(), 1);
}

/// The file made anew in the parent set has nothing to do with the block.
#[test]
fn a_file_created_anew_in_the_parent_is_another() {
    let script = "create 0 0; write-narrow 0 0 0 512 1; make 0 1 0; delete 0 0; create 0 0";
    let mut store = Store::after(2, script);
    assert_eq!(store.does("write-narrow 0 0 0 512 9"), "0; 1, 0, 0");
    assert_eq!(store.map(0), "0:1 1:hole");
    assert_eq!(store.map(1), "0:0 1:hole");
    assert_eq!(store.does("delete 0 0"), "0; 0, 0, 0");
    assert_eq!(store.reads(1), pages(&[1]));
    assert_eq!(store.free(), 1);
}

/// After a truncate the pages are free to be written again in the parent.
#[test]
fn a_page_written_anew_after_a_truncate_is_another() {
    let script = format!("{TWO_PAGES}; make 0 1 0; truncate 0 0 512");
    let mut store = Store::after(3, &script);
    assert_eq!(store.does("write-narrow 0 0 512 512 8"), "0; 1, 0, 0");
    assert_eq!(store.map(0), "0:0 1:2 2:hole");
    assert_eq!(store.reads(0), pages(&[1, 8]));
    assert_eq!(store.reads(1), pages(&[1, 2]));
}

// What stays as in document 01.

#[test]
fn own_need_and_refusal_8_stay() {
    let script = "create 0 0; write-narrow 0 0 0 512 1; make 0 1 1; make 1 2 0";
    let mut store = Store::after(1, script);
    let before = store.state();
    assert_eq!(store.does("truncate 1 0 100"), "8; 0, 0, 0");
    assert_eq!(store.state(), before);
}

/// Step 2 comes first: each virgin child becomes own with the size by reading,
/// the heir and the others, also those that need no page.
#[test]
fn virgin_children_become_own_with_their_size_first() {
    let script = "create 0 0; write-narrow 0 0 0 600 1; make 0 1 0; make 0 2 0";
    for (call, size) in [("delete 0 0", 0), ("truncate 0 0 0", 0), ("truncate 0 0 512", 512)] {
        let mut store = Store::after(4, script);
        assert_eq!(store.file(1).state, FileState::Virgin);
        store.accepts(call);
        assert_eq!(store.file(0).size, size);
        for set in 1..=2 {
            assert_eq!((store.file(set).state, store.file(set).size), (FileState::Own, 600));
            assert_eq!(store.reads(set as u32), data_bytes(600, 1), "{call}");
        }
    }
}

/// The only child is marked at the part page, so page 1's block has no heir and
/// is freed.
#[test]
fn a_page_whose_only_heir_was_marked_is_freed() {
    let mut store = Store::after(2, "create 0 0; write-narrow 0 0 0 1024 1; make 0 1 0");
    assert_eq!(store.does("truncate 0 0 1"), "0; 0, 0, 1");
    assert!(store.is_marked(1));
    assert_eq!(store.map(0), "0:0 1:hole");
    assert_eq!(store.reads(0), data_bytes(1, 1));
    assert_eq!(store.free(), 1);
}

/// "A marked file is only freed and made absent." Set 1 had page 0 in block 2
/// and is marked with set 2: the block is free since then.
#[test]
fn delete_of_a_marked_file_hands_nothing_over() {
    let script = format!(
        "{TWO_PAGES}; make 0 1 1; write-narrow 1 0 0 512 3; make 1 2 1; write-narrow 0 0 512 1 4"
    );
    let mut store = Store::after(3, &script);
    assert!(store.is_marked(1) && store.is_marked(2));
    assert_eq!(store.free(), 1);
    assert_eq!(store.does("delete 1 0"), "0; 0, 0, 0");
    assert_eq!(store.file(1), ABSENT_FILE);
    assert!(store.is_marked(2));
    assert_eq!(store.free(), 1);
    // A live child of a marked file: it was deleted and created anew.
    let mut store = Store::after(3, &format!("{script}; delete 2 0; create 2 0"));
    assert_eq!(store.does("delete 1 0"), "0; 0, 0, 0");
    assert_eq!((store.file(2).state, store.map(2)), (FileState::Own, "0:hole".into()));
    assert_eq!(store.free(), 1);
}

// Read-only sets take blocks over too; only children do.

#[test]
fn a_read_only_set_takes_blocks_over() {
    for writeable in [0, 1] {
        let mut store = Store::after(2, &format!("{TWO_PAGES}; make 0 1 {writeable}"));
        assert_eq!(store.does("delete 0 0"), "0; 0, 0, 0");
        assert_eq!(store.map(1), "0:0 2:hole");
        assert_eq!(store.reads(1), pages(&[1, 2]));
        let write = store.does("write-narrow 1 0 0 1 1");
        assert_eq!(write, if writeable == 0 { "4; 0, 0, 0" } else { "0; 0, 0, 0" });
    }
}

/// The grandchild stays virgin and reads through the heir.
#[test]
fn the_heir_is_a_child_never_deeper() {
    let script = "create 0 0; write-narrow 0 0 0 512 1; make 0 1 0; make 1 2 0; make 2 3 0";
    let mut store = Store::after(1, script);
    assert_eq!(store.does("delete 0 0"), "0; 0, 0, 0");
    assert_eq!((store.file(1).state, store.map(1)), (FileState::Own, "0:0 1:hole".into()));
    for set in 2..=3 {
        assert_eq!(store.file(set).state, FileState::Virgin);
        assert_eq!(store.map(set), "0:unmapped");
        assert_eq!(store.reads(set as u32), pages(&[1]));
    }
}

/// Set 1 has page 0 itself and set 2 reads it there: nobody needs the block of
/// set 0, and it is freed.
#[test]
fn a_grandchild_that_is_unmapped_needs_nothing_of_this_file() {
    let script = "create 0 0; write-narrow 0 0 0 512 1; make 0 1 1; write-narrow 1 0 0 512 2; \
        make 1 2 0";
    let mut store = Store::after(2, script);
    assert_eq!(store.does("delete 0 0"), "0; 0, 0, 0");
    assert_eq!(store.map(1), "0:1 1:hole");
    assert_eq!((store.file(2).state, store.map(2)), (FileState::Virgin, "0:unmapped".into()));
    assert_eq!(store.reads(2), pages(&[2]));
    assert_eq!(store.free(), 1);
}

/// In the middle of the tree: set 1 hands its page to set 2, and neither its
/// parent nor its sibling 3 has any part in it.
#[test]
fn parents_and_siblings_have_no_part_in_it() {
    let script = "create 0 0; write-narrow 0 0 0 512 1; make 0 1 1; make 0 3 0; \
        write-narrow 1 0 0 512 2; make 1 2 0";
    let mut store = Store::after(2, script);
    assert_eq!(store.does("delete 1 0"), "0; 0, 0, 0");
    assert_eq!(store.map(0), "0:0 1:hole");
    assert_eq!(store.map(2), "0:1 1:hole");
    assert_eq!((store.file(3).state, store.map(3)), (FileState::Virgin, "0:unmapped".into()));
    assert_eq!(store.reads(0), pages(&[1]));
    assert_eq!(store.reads(2), pages(&[2]));
    assert_eq!(store.reads(3), pages(&[1]));
    assert_eq!(store.free(), 0);
}
