//! Ask 5 of document 02, "Eight pages at a time", as it is read in
//! docs/DECISIONS.md, "Readings of 02", Ask 5. The expected answers, maps and
//! bytes were worked out by hand from the papers. Each script runs with plain
//! store and tally beside. Where nothing else is said, files have number 0; in
//! the comments "set 1" is short for the file of set 1. Stores are set up by
//! narrow writes. `write` goes by groups of eight, `write-groups G` by groups of
//! G.

use oracle::bench::{NoOther, Other};
use oracle::call::*;
use oracle::lent::Lending;
use oracle::session::session;
use oracle::state::*;
use oracle::store;
use oracle::writes::{Writes, CASES};

mod script;
use script::{pages, Store};

/// Pages 0, 1 and 2 of seeds 1, 2 and 3, in blocks 0, 1 and 2.
const THREE_PAGES: &str = "create 0 0; write-narrow 0 0 0 512 1; write-narrow 0 0 512 512 2; \
    write-narrow 0 0 1024 512 3";

/// "A virgin file has size 0 and only unmapped entries."
const VIRGIN_FILE: FileRecord = FileRecord { state: FileState::Virgin, ..ABSENT_FILE };

/// A write of one byte at the front of a page of set 0.
fn one_byte(kind: &str, page: usize) -> String {
    format!("{kind} 0 0 {} 1 9", page * PAGE_BYTES)
}

/// The bytes with one byte of that write at their front.
fn with_one_byte(mut bytes: Vec<u8>) -> Vec<u8> {
    bytes[0] = data_bytes(1, 9)[0];
    bytes
}

// Groups of eight.

/// "A write now copies by aligned groups of eight". Page 0 is copied to block 3,
/// then pages 1 and 2 to blocks 4 and 5. Pages 3 to 7 are holes.
#[test]
fn a_write_copies_by_groups_of_eight() {
    let mut store = Store::after(12, &format!("{THREE_PAGES}; make 0 1 0"));
    assert_eq!(store.does("write 0 0 0 512 9"), "0; 0, 3, 0");
    assert_eq!(store.map(0), "0:0 3:hole");
    assert_eq!(store.map(1), "0:3 3:hole 8:unmapped");
    assert_eq!((store.file(1).state, store.file(1).size), (FileState::Own, 1_536));
    assert_eq!(store.reads(0), pages(&[9, 2, 3]));
    assert_eq!(store.reads(1), pages(&[1, 2, 3]));
    assert_eq!((store.free(), store.state().next_start), (6, 6));
}

/// "unless the caller asks for a narrow one".
#[test]
fn a_narrow_write_copies_its_touched_pages_alone() {
    let mut store = Store::after(12, &format!("{THREE_PAGES}; make 0 1 0"));
    assert_eq!(store.does("write-narrow 0 0 0 512 9"), "0; 0, 1, 0");
    assert_eq!(store.map(0), "0:0 3:hole");
    assert_eq!(store.map(1), "0:3 1:unmapped");
    assert_eq!(store.reads(0), pages(&[9, 2, 3]));
    assert_eq!(store.reads(1), pages(&[1, 2, 3]));
    assert_eq!((store.free(), store.state().next_start), (8, 4));
}

/// "aligned groups": page 10 is in the group of pages 8 to 15. Pages 6 to 17 are
/// in blocks 0 to 11. Page 10 goes to block 12, then 8 and 9 to 13 and 14, then
/// 11 to 15 to blocks 15 to 19.
#[test]
fn groups_are_aligned() {
    let script = "create 0 0; write-narrow 0 0 3072 6144 5; make 0 1 0";
    let mut store = Store::after(64, script);
    assert_eq!(store.does("write 0 0 5120 1 9"), "0; 0, 8, 0");
    assert_eq!(store.map(1), "0:unmapped 8:13 10:12 11:15 16:unmapped");
    assert_eq!(store.reads(1), [vec![0; 3_072], data_bytes(6_144, 5)].concat());
    assert_eq!((store.free(), store.state().next_start), (44, 20));
}

/// Whichever page of a group is touched, the whole group is copied: this page
/// first (block 10), then the others ascending (block 11 on).
#[test]
fn any_page_of_a_group_brings_the_whole_group() {
    let script = "create 0 0; write-narrow 0 0 0 5120 5; make 0 1 0";
    for touched in 0..8 {
        let mut store = Store::after(24, script);
        assert_eq!(store.does(&one_byte("write", touched)), "0; 0, 8, 0", "{touched}");
        for page in 0..8 {
            let block = match page {
                _ if page == touched => 10,
                _ if page < touched => 11 + page,
                _ => 10 + page,
            };
            assert_eq!(store.file(1).entries[page], stored(block), "{touched} {page}");
        }
        assert_eq!(store.file(1).entries[8..], [UNMAPPED; 56]);
    }
    // Pages 8 and 9 are stored, 10 to 15 are holes.
    for (touched, map) in [
        (8, "0:unmapped 8:10 10:hole 16:unmapped"),
        (9, "0:unmapped 8:11 9:10 10:hole 16:unmapped"),
    ] {
        let mut store = Store::after(24, script);
        assert_eq!(store.does(&one_byte("write", touched)), "0; 0, 2, 0");
        assert_eq!(store.map(1), map);
    }
}

/// "most sweeps are rewritten from front to back": the first page of each group
/// calls for all copies, the seven others for none.
#[test]
fn rewriting_from_front_to_back() {
    let mut store = Store::after(64, "create 0 0; write-narrow 0 0 0 8192 5; make 0 1 0");
    for page in 0..16 {
        let wanted = if page % 8 == 0 { "0; 0, 8, 0" } else { "0; 0, 0, 0" };
        assert_eq!(store.does(&one_byte("write", page)), wanted, "{page}");
    }
    assert_eq!(store.map(1), "0:16 16:unmapped");
    assert_eq!(store.reads(1), data_bytes(8_192, 5));
}

/// Both kinds in one list: page 1 was copied narrowly (block 3), so the write by
/// groups copies page 0 and, as an extra page, page 2. Then nothing is needed.
#[test]
fn kinds_are_mixed_in_one_list() {
    let mut store = Store::after(12, &format!("{THREE_PAGES}; make 0 1 0"));
    assert_eq!(store.does("write-narrow 0 0 512 1 8"), "0; 0, 1, 0");
    assert_eq!(store.does("write 0 0 0 1 9"), "0; 0, 2, 0");
    assert_eq!(store.map(1), "0:4 1:3 2:5 3:hole 8:unmapped");
    assert_eq!(store.does("write 0 0 1024 1 9"), "0; 0, 0, 0");
    assert_eq!(store.does("write-groups 64 0 0 1024 1 9"), "0; 0, 0, 0");
    assert_eq!(store.map(1), "0:4 1:3 2:5 3:hole");
    assert_eq!(store.reads(1), pages(&[1, 2, 3]));
}

// Room.

/// B=3: create; write 0..1; make 1; grouped page 0 by 2 (room for one). "an extra
/// page finding no free block stays unmapped, marks nothing".
#[test]
fn room_for_the_touched_page_alone() {
    let script = "create 0 0; write-narrow 0 0 0 512 1; write-narrow 0 0 512 512 2; make 0 1 0";
    let mut store = Store::after(3, script);
    assert_eq!(store.does("write-groups 2 0 0 0 512 9"), "0; 0, 1, 0");
    assert_eq!(store.map(1), "0:2 1:unmapped");
    assert_eq!((store.file(1).state, store.file(1).size), (FileState::Own, 1_024));
    assert_eq!(store.reads(0), pages(&[9, 2]));
    assert_eq!(store.reads(1), pages(&[1, 2]));
    assert_eq!((store.free(), store.state().next_start), (0, 0));
    // The page is needed still: a write that touches it marks.
    assert_eq!(store.does("write-groups 2 0 0 512 1 9"), "0; 0, 0, 1");
    assert!(store.is_marked(1));
}

/// B=13: create; write pages 0..2; make 1; grouped page 0 by 4: "An extra copy
/// made counts in the second count". Page 3 is a hole.
#[test]
fn extra_copies_count_in_the_second_count() {
    let mut store = Store::after(13, &format!("{THREE_PAGES}; make 0 1 0"));
    assert_eq!(store.does("write-groups 4 0 0 0 1 9"), "0; 0, 3, 0");
    assert_eq!(store.map(1), "0:3 3:hole 4:unmapped");
    assert_eq!(store.reads(0), with_one_byte(pages(&[1, 2, 3])));
    assert_eq!(store.reads(1), pages(&[1, 2, 3]));
    assert_eq!((store.free(), store.state().next_start), (7, 6));
}

/// Pages 0, 1 and 3 are in blocks 0, 1 and 2, page 2 is a hole, and block 3 goes
/// to page 0. Pages 1 and 3 find no block; pages 2 and 4 to 7 become holes.
#[test]
fn the_extra_pages_go_on_after_one_without_a_block() {
    let script = "create 0 0; write-narrow 0 0 0 1024 1; write-narrow 0 0 1536 512 2; make 0 1 0";
    let mut store = Store::after(4, script);
    assert_eq!(store.does("write 0 0 0 1 9"), "0; 0, 1, 0");
    assert_eq!(store.map(0), "0:0 2:hole 3:2 4:hole");
    assert_eq!(store.map(1), "0:3 1:unmapped 2:hole 3:unmapped 4:hole 8:unmapped");
    assert_eq!((store.file(1).state, store.file(1).size), (FileState::Own, 2_048));
    assert_eq!(store.reads(1), [data_bytes(1_024, 1), pages(&[0, 2])].concat());
    assert_eq!((store.free(), store.state().next_start), (0, 0));
}

/// "marks nothing", and so nothing that reads through the child either.
#[test]
fn an_extra_page_without_a_block_marks_no_file_below() {
    let script = "create 0 0; write-narrow 0 0 0 1024 1; make 0 1 1; make 1 2 1; make 2 3 0";
    let mut store = Store::after(3, script);
    assert_eq!(store.does("write 0 0 0 1 9"), "0; 0, 1, 0");
    assert_eq!(store.map(1), "0:2 1:unmapped 2:hole 8:unmapped");
    for set in 2..=3 {
        assert_eq!(store.file(set), VIRGIN_FILE);
        assert_eq!(store.reads(set as u32), data_bytes(1_024, 1));
    }
}

/// "After step 4 for the touched pages": the touched page has the block though an
/// extra page stands before it.
#[test]
fn touched_pages_come_before_extra_pages() {
    let script = "create 0 0; write-narrow 0 0 0 1024 1; make 0 1 0";
    let mut store = Store::after(3, script);
    assert_eq!(store.does("write-groups 2 0 0 512 1 9"), "0; 0, 1, 0");
    assert_eq!(store.map(1), "0:unmapped 1:2 2:unmapped");
    assert_eq!(store.reads(1), data_bytes(1_024, 1));
    // For every child: page 1 of sets 1 and 2 before page 0 of set 1.
    let mut store = Store::after(4, &format!("{script}; make 0 2 0"));
    assert_eq!(store.does("write-groups 2 0 0 512 1 9"), "0; 0, 2, 0");
    assert_eq!(store.map(1), "0:unmapped 1:2 2:unmapped");
    assert_eq!(store.map(2), "0:unmapped 1:3 2:unmapped");
    // For every group: pages 7 and 8 are in two groups. Pages 0 to 8 are in
    // blocks 0 to 8; pages 9 to 15 are holes.
    let script = "create 0 0; write-narrow 0 0 0 4608 1; make 0 1 0";
    let mut store = Store::after(11, script);
    assert_eq!(store.does("write 0 0 4095 2 9"), "0; 0, 2, 0");
    assert_eq!(store.map(1), "0:unmapped 7:9 9:hole 16:unmapped");
    assert_eq!(store.reads(1), data_bytes(4_608, 1));
}

/// "Own blocks are taken" in step 3, before step 4 and so before extra pages:
/// pages 1 and 2 have blocks 1 and 2, and page 0 has what is left.
#[test]
fn own_blocks_come_before_extra_pages() {
    let script = "create 0 0; write-narrow 0 0 0 512 1; make 0 1 0";
    for (blocks, answer, map) in [
        (3, "0; 2, 0, 0", "0:unmapped 1:hole 8:unmapped"),
        (4, "0; 2, 1, 0", "0:3 1:hole 8:unmapped"),
    ] {
        let mut store = Store::after(blocks, script);
        assert_eq!(store.does("write 0 0 512 1024 9"), answer);
        assert_eq!(store.map(0), "0:0 3:hole");
        assert_eq!(store.map(1), map);
        assert_eq!(store.file(1).size, 512);
        assert_eq!(store.reads(1), pages(&[1]));
        assert_eq!(store.free(), 0);
    }
}

/// "Own need is the touched pages not stored in this file's map": extra pages are
/// not in it, and the file itself gets no block for them.
#[test]
fn extra_pages_are_not_in_the_own_need() {
    // Set 1 reads eight pages through set 0 and has room for one.
    let script = "create 0 0; write-narrow 0 0 0 4096 1; make 0 1 1";
    let mut store = Store::after(9, script);
    assert_eq!(store.does("write 1 0 1536 1 9"), "0; 1, 0, 0");
    assert_eq!(store.map(1), "0:unmapped 3:8 4:unmapped");
    assert_eq!(store.free(), 0);
    // With a child there must be room for its copy of page 3, not for others.
    let mut store = Store::after(10, &format!("{script}; make 1 2 0"));
    assert_eq!(store.does("write 1 0 1536 1 9"), "0; 1, 1, 0");
    assert_eq!(store.map(1), "0:unmapped 3:8 4:unmapped");
    assert_eq!(store.map(2), "0:unmapped 3:9 4:unmapped");
    assert_eq!(store.reads(2), data_bytes(4_096, 1));
    assert_eq!(store.free(), 0);
}

/// 8: "own need over the free blocks", the same for every kind of write.
#[test]
fn number_8_does_not_see_extra_pages() {
    for kind in ["write", "write-narrow", "write-groups 2", "write-groups 64"] {
        let script = "create 0 0; write-narrow 0 0 0 512 1; make 0 1 0";
        let mut store = Store::after(2, script);
        let before = store.state();
        // Own need 2, one block free.
        assert_eq!(store.does(&format!("{kind} 0 0 512 1024 9")), "8; 0, 0, 0", "{kind}");
        assert_eq!(store.state(), before);
        // Own need 1.
        assert_eq!(store.does(&format!("{kind} 0 0 512 512 9")), "0; 1, 0, 0", "{kind}");
    }
}

/// The search goes on from next start for extra pages too. File 1 had blocks 0
/// and 1, file 0 has blocks 2 to 4: page 0 goes to block 5, page 1 to block 0,
/// page 2 to block 1.
#[test]
fn extra_pages_take_blocks_going_round() {
    let script = "create 0 1; write-narrow 0 1 0 1024 7; create 0 0; \
        write-narrow 0 0 0 1536 5; delete 0 1; make 0 1 0";
    let mut store = Store::after(6, script);
    assert_eq!(store.state().next_start, 5);
    assert_eq!(store.does("write 0 0 0 1 9"), "0; 0, 3, 0");
    assert_eq!(store.map(1), "0:5 1:0 3:hole 8:unmapped");
    assert_eq!(store.reads(1), data_bytes(1_536, 5));
    assert_eq!((store.free(), store.state().next_start), (0, 2));
}

// Children.

/// "ascending, children in order of making": page by page, and for each page set
/// 2 before set 1. Page 0 takes blocks 3 and 4, page 1 blocks 5 and 6, page 2
/// finds none, page 3 is a hole.
#[test]
fn page_by_page_and_children_in_order_of_making() {
    let mut store = Store::after(7, &format!("{THREE_PAGES}; make 0 2 0; make 0 1 0"));
    assert_eq!(store.does("write-groups 4 0 0 0 1 9"), "0; 0, 4, 0");
    assert_eq!(store.map(2), "0:3 1:5 2:unmapped 3:hole 4:unmapped");
    assert_eq!(store.map(1), "0:4 1:6 2:unmapped 3:hole 4:unmapped");
    // One block less: set 2 has page 1, set 1 does not.
    let mut store = Store::after(6, &format!("{THREE_PAGES}; make 0 2 0; make 0 1 0"));
    assert_eq!(store.does("write-groups 4 0 0 0 1 9"), "0; 0, 3, 0");
    assert_eq!(store.map(2), "0:3 1:5 2:unmapped 3:hole 4:unmapped");
    assert_eq!(store.map(1), "0:4 1:unmapped 3:hole 4:unmapped");
    for set in 1..=2 {
        assert_eq!(store.reads(set), pages(&[1, 2, 3]));
    }
}

/// A page that the child has already stays as it is: page 1 in block 3.
#[test]
fn pages_that_the_child_has_stay() {
    let script = format!("{THREE_PAGES}; make 0 1 1; write-narrow 1 0 512 512 7");
    let mut store = Store::after(10, &script);
    assert_eq!(store.does("write 0 0 0 1 9"), "0; 0, 2, 0");
    assert_eq!(store.map(1), "0:4 1:3 2:5 3:hole 8:unmapped");
    assert_eq!(store.reads(1), pages(&[1, 7, 3]));
    // Holes of the child too: it was cut to one page.
    let mut store = Store::after(10, &format!("{THREE_PAGES}; make 0 1 1; truncate 1 0 512"));
    assert_eq!(store.map(1), "0:unmapped 1:hole 3:unmapped");
    assert_eq!(store.does("write 0 0 0 1 9"), "0; 0, 1, 0");
    assert_eq!(store.map(1), "0:3 1:hole 8:unmapped");
    assert_eq!(store.reads(1), pages(&[1]));
}

/// "A child needs page p when its file is own or virgin": an absent file and one
/// marked by an earlier call get nothing.
#[test]
fn absent_and_marked_files_get_nothing() {
    let script = format!("{THREE_PAGES}; make 0 1 1; make 0 2 0; delete 1 0");
    let mut store = Store::after(12, &script);
    assert_eq!(store.does("write 0 0 0 1 9"), "0; 0, 3, 0");
    assert_eq!(store.file(1), ABSENT_FILE);
    assert_eq!(store.map(2), "0:3 3:hole 8:unmapped");
    let mut store = Store::after(3, &format!("{THREE_PAGES}; make 0 1 0"));
    assert_eq!(store.does("write-narrow 0 0 0 1 8"), "0; 0, 0, 1");
    let marked = store.file(1);
    assert_eq!(store.does("write 0 0 512 1 9"), "0; 0, 0, 0");
    assert_eq!(store.file(1), marked);
}

/// Pages 0 and 1 are in blocks 0 and 1, and no block is free. Set 1 is marked at
/// page 0 and gets no extra page, not even a hole.
#[test]
fn a_child_marked_in_step_4_gets_no_extra_page() {
    let script = "create 0 0; write-narrow 0 0 0 1024 1; make 0 1 0";
    let mut store = Store::after(2, script);
    assert_eq!(store.does("write 0 0 0 1 9"), "0; 0, 0, 1");
    assert!(store.is_marked(1));
    // Set 2 has page 0 (block 2) and is not marked: it gets the holes.
    let script = "create 0 0; write-narrow 0 0 0 1024 1; make 0 1 0; make 0 2 1; \
        write-narrow 2 0 0 512 7";
    let mut store = Store::after(3, script);
    assert_eq!(store.does("write 0 0 0 1 9"), "0; 0, 0, 1");
    assert!(store.is_marked(1));
    assert_eq!(store.file(2).state, FileState::Own);
    assert_eq!(store.map(2), "0:2 1:unmapped 2:hole 8:unmapped");
    assert_eq!(store.reads(2), [pages(&[7]), data_bytes(1_024, 1)[512..].to_vec()].concat());
    // Marked at the second touched page, after it got a copy of the first, which comes free.
    let mut store = Store::after(4, &format!("{THREE_PAGES}; make 0 1 0"));
    assert_eq!(store.does("write 0 0 0 1024 9"), "0; 0, 1, 1");
    assert!(store.is_marked(1));
    assert_eq!(store.free(), 1);
}

/// B=6: create; write 0..2; make 1; make 2; grouped 0..1 by 3. Page 0 goes to
/// blocks 3 and 4, page 1 to block 5 for set 1, and set 2 is marked. Its copy in block 4
/// comes free, and page 2 takes it for set 1.
#[test]
fn marking_frees_a_block_for_extra_pages() {
    let mut store = Store::after(6, &format!("{THREE_PAGES}; make 0 1 0; make 0 2 0"));
    assert_eq!(store.does("write-groups 3 0 0 0 1024 9"), "0; 0, 4, 1");
    let map = "0:3 1:5 2:4 3:unmapped";
    assert_eq!((store.file(1).state, store.map(1)), (FileState::Own, map.into()));
    assert!(store.is_marked(2));
    assert_eq!(store.reads(1), pages(&[1, 2, 3]));
    assert_eq!(store.free(), 0);
}

#[test]
fn read_only_and_writeable_children_get_extra_pages_alike() {
    for writeable in [0, 1] {
        let mut store = Store::after(6, &format!("{THREE_PAGES}; make 0 1 {writeable}"));
        assert_eq!(store.does("write 0 0 1024 1 9"), "0; 0, 3, 0");
        // Page 2 first (block 3), then pages 0 and 1.
        assert_eq!(store.map(1), "0:4 2:3 3:hole 8:unmapped");
        assert_eq!(store.reads(1), pages(&[1, 2, 3]));
    }
}

/// Files of other numbers have no part in it.
#[test]
fn other_files_have_no_part_in_it() {
    let script = format!("{THREE_PAGES}; create 0 1; write-narrow 0 1 0 1024 7; make 0 1 0");
    let mut store = Store::after(12, &script);
    assert_eq!(store.does("write 0 0 0 1 9"), "0; 0, 3, 0");
    assert_eq!(store.map(1), "0:5 3:hole 8:unmapped");
    assert_eq!(store.state().files[1][1], VIRGIN_FILE);
}

// Levels.

/// Set 1 is virgin and reads three pages through set 0. Its own block for page 0
/// is 3; set 2 gets page 0 in block 4 and pages 1 and 2, which set 1 only reads,
/// in blocks 5 and 6. Set 1 takes none for them.
#[test]
fn extra_pages_that_a_virgin_file_reads_through_its_parent() {
    let script = format!("{THREE_PAGES}; make 0 1 1; make 1 2 0; make 0 3 0");
    let mut store = Store::after(12, &script);
    assert_eq!(store.does("write 1 0 0 1 9"), "0; 1, 3, 0");
    assert_eq!(store.map(0), "0:0 3:hole");
    assert_eq!(store.map(1), "0:3 1:unmapped");
    assert_eq!(store.map(2), "0:4 3:hole 8:unmapped");
    for set in 1..=2 {
        assert_eq!((store.file(set).state, store.file(set).size), (FileState::Own, 1_536));
    }
    // The sibling has no part in it.
    assert_eq!(store.file(3), VIRGIN_FILE);
    assert_eq!(store.reads(0), pages(&[1, 2, 3]));
    assert_eq!(store.reads(1), with_one_byte(pages(&[1, 2, 3])));
    assert_eq!(store.reads(2), pages(&[1, 2, 3]));
}

/// Set 1 has page 1 itself (block 3) and reads pages 0 and 2 through set 0.
#[test]
fn extra_pages_of_an_own_file_in_the_middle_of_the_tree() {
    let script = format!("{THREE_PAGES}; make 0 1 1; write-narrow 1 0 512 512 7; make 1 2 0");
    let mut store = Store::after(12, &script);
    assert_eq!(store.does("write 1 0 0 1 9"), "0; 1, 3, 0");
    assert_eq!(store.map(1), "0:4 1:3 2:unmapped");
    assert_eq!(store.map(2), "0:5 3:hole 8:unmapped");
    assert_eq!(store.reads(1), with_one_byte(pages(&[1, 7, 3])));
    assert_eq!(store.reads(2), pages(&[1, 7, 3]));
}

/// Extra pages go to children alone: sets 2 and 3 stay virgin and read through
/// set 1, whose map has the pages now.
#[test]
fn extra_pages_go_to_children_never_deeper() {
    let script = format!("{THREE_PAGES}; make 0 1 1; make 1 2 1; make 2 3 0");
    let mut store = Store::after(12, &script);
    assert_eq!(store.does("write 0 0 0 1 9"), "0; 0, 3, 0");
    assert_eq!(store.map(1), "0:3 3:hole 8:unmapped");
    for set in 2..=3 {
        assert_eq!(store.file(set), VIRGIN_FILE);
        assert_eq!(store.reads(set as u32), pages(&[1, 2, 3]));
    }
    // A read of set 2 goes to the map of set 1 and no further.
    assert_eq!(store.does("read 2 0 512 512"), "0; 512, 2, 0");
}

// Holes.

/// "with the same copying": "a page resolving to a hole becomes a hole there". In
/// a full store, past the size: B = 1, and the only block is the write's own.
#[test]
fn holes_in_a_full_store_and_past_the_size() {
    let script = "create 0 0; make 0 1 0";
    let mut store = Store::after(1, script);
    assert_eq!(store.does("write 0 0 0 1 9"), "0; 1, 0, 0");
    assert_eq!(store.map(0), "0:0 1:hole");
    assert_eq!((store.map(1), store.file(1).size), ("0:hole 8:unmapped".into(), 0));
    assert_eq!(store.free(), 0);
    let mut store = Store::after(1, script);
    assert_eq!(store.does("write-groups 64 0 0 0 1 9"), "0; 1, 0, 0");
    assert_eq!(store.map(1), "0:hole");
    let mut store = Store::after(1, script);
    assert_eq!(store.does("write-narrow 0 0 0 1 9"), "0; 1, 0, 0");
    assert_eq!(store.map(1), "0:hole 1:unmapped");
}

/// Set 1 has size 2,048, set 0 has 512: pages 1 to 3 are past the size of set 0
/// only. What set 0 writes there later does not show through.
#[test]
fn holes_of_a_child_that_is_longer() {
    let script = "create 0 0; write-narrow 0 0 0 512 1; make 0 1 1; truncate 1 0 2048";
    let mut store = Store::after(4, script);
    assert_eq!(store.does("write 0 0 0 1 9"), "0; 0, 1, 0");
    assert_eq!(store.map(1), "0:1 1:hole 8:unmapped");
    assert_eq!(store.does("write 0 0 512 512 8"), "0; 1, 0, 0");
    assert_eq!(store.map(0), "0:0 1:2 2:hole");
    assert_eq!(store.map(1), "0:1 1:hole 8:unmapped");
    assert_eq!(store.reads(1), pages(&[1, 0, 0, 0]));
}

/// Set 1 was cut to one page: its pages 1 and 2 are holes, pages 3 to 7 are holes
/// of set 0. All become holes in set 2.
#[test]
fn holes_of_the_file_and_of_its_parent() {
    let script = format!("{THREE_PAGES}; make 0 1 1; truncate 1 0 512; make 1 2 0");
    let mut store = Store::after(8, &script);
    assert_eq!(store.does("write 1 0 0 1 9"), "0; 1, 1, 0");
    assert_eq!(store.map(1), "0:3 1:hole 3:unmapped");
    assert_eq!(store.map(2), "0:4 1:hole 8:unmapped");
    assert_eq!(store.reads(2), pages(&[1]));
}

// Sizes of groups.

/// Pages 56 to 63 are in blocks 0 to 7; set 1 is virgin.
const LAST_PAGES: &str = "create 0 0; write-narrow 0 0 28672 4096 5; make 0 1 0";

/// "any group size from 1 to 64, the last group ending at page 63". The touched
/// page goes to block 8, the others of its group to block 9 on.
#[test]
fn the_last_group_ends_at_page_63() {
    let cases = [
        // Each page is a group.
        (1, 62, "0; 0, 1, 0", "0:unmapped 62:8 63:unmapped"),
        (1, 63, "0; 0, 1, 0", "0:unmapped 63:8"),
        // 62 and 63.
        (2, 62, "0; 0, 2, 0", "0:unmapped 62:8"),
        (2, 63, "0; 0, 2, 0", "0:unmapped 62:9 63:8"),
        // 60 to 62; 63 alone.
        (3, 62, "0; 0, 3, 0", "0:unmapped 60:9 62:8 63:unmapped"),
        (3, 63, "0; 0, 1, 0", "0:unmapped 63:8"),
        // 55 to 59; 60 to 63, one page short.
        (5, 59, "0; 0, 4, 0", "0:unmapped 55:hole 56:9 59:8 60:unmapped"),
        (5, 60, "0; 0, 4, 0", "0:unmapped 60:8"),
        (5, 62, "0; 0, 4, 0", "0:unmapped 60:9 62:8 63:11"),
        (5, 63, "0; 0, 4, 0", "0:unmapped 60:9 63:8"),
        // 56 to 62; 63 alone.
        (7, 62, "0; 0, 7, 0", "0:unmapped 56:9 62:8 63:unmapped"),
        (7, 63, "0; 0, 1, 0", "0:unmapped 63:8"),
        // 56 to 63.
        (8, 62, "0; 0, 8, 0", "0:unmapped 56:9 62:8 63:15"),
        (8, 63, "0; 0, 8, 0", "0:unmapped 56:9 63:8"),
        // 52 to 63, one page short.
        (13, 62, "0; 0, 8, 0", "0:unmapped 52:hole 56:9 62:8 63:15"),
        (13, 63, "0; 0, 8, 0", "0:unmapped 52:hole 56:9 63:8"),
        // 44 to 63, two pages short.
        (22, 63, "0; 0, 8, 0", "0:unmapped 44:hole 56:9 63:8"),
        // 31 to 61; 62 and 63.
        (31, 61, "0; 0, 6, 0", "0:unmapped 31:hole 56:9 61:8 62:unmapped"),
        (31, 62, "0; 0, 2, 0", "0:unmapped 62:8"),
        // 32 to 63.
        (32, 63, "0; 0, 8, 0", "0:unmapped 32:hole 56:9 63:8"),
        // 33 to 63, two pages short.
        (33, 62, "0; 0, 8, 0", "0:unmapped 33:hole 56:9 62:8 63:15"),
        (33, 63, "0; 0, 8, 0", "0:unmapped 33:hole 56:9 63:8"),
        // 0 to 62; 63 alone.
        (63, 62, "0; 0, 7, 0", "0:hole 56:9 62:8 63:unmapped"),
        (63, 63, "0; 0, 1, 0", "0:unmapped 63:8"),
        // All pages. Page 0 is a hole: it needs an own block (8) and no copy.
        (64, 62, "0; 0, 8, 0", "0:hole 56:9 62:8 63:15"),
        (64, 0, "0; 1, 8, 0", "0:hole 56:9"),
    ];
    for (group, page, answer, map) in cases {
        let mut store = Store::after(64, LAST_PAGES);
        let call = one_byte(&format!("write-groups {group}"), page);
        assert_eq!(store.does(&call), answer, "{call}");
        assert_eq!(store.map(1), map, "{call}");
        assert_eq!(store.reads(1), [vec![0; 28_672], data_bytes(4_096, 5)].concat());
    }
}

/// Every size and every page: the pages of its group are those with the same
/// number divided by the size. The touched one is copied to block 64, the others,
/// ascending, to block 65 on.
#[test]
fn every_size_and_every_page() {
    let made = Store::after(128, "create 0 0; write-narrow 0 0 0 32768 5; make 0 1 0");
    for group in 1..=64 {
        for touched in 0..64 {
            let (mut tables, mut pages) = (made.0.tables().to_vec(), made.0.pages().to_vec());
            let offset = (touched * PAGE_BYTES) as u32;
            let answer = store::write_groups(&mut tables, &mut pages, group, 0, 0, offset, &[9, 9]);
            let mut wanted = [UNMAPPED; PAGES];
            wanted[touched] = stored(64);
            let mut copies = 1;
            for page in (0..64).filter(|page| *page != touched && page / group == touched / group) {
                wanted[page] = stored(64 + copies);
                copies += 1;
            }
            assert_eq!(answer, Answer::accepted([0, copies as u32, 0]), "{group} {touched}");
            let state = State::unpack(&tables);
            assert_eq!(state.files[1][0].entries, wanted, "{group} {touched}");
            let copied = &pages[64 * PAGE_BYTES..65 * PAGE_BYTES];
            assert_eq!(*copied, made.0.pages()[touched * PAGE_BYTES..][..PAGE_BYTES]);
        }
    }
}

// Several groups.

/// Pages 0 to 23 are in blocks 0 to 23; set 1 is virgin.
const LONG_FILE: &str = "create 0 0; write-narrow 0 0 0 12288 5; make 0 1 0";

/// "the other pages of each touched group": those before the first touched page
/// and those after the last.
#[test]
fn a_write_of_several_groups() {
    let cases = [
        // Pages 6 to 9, of two groups of eight.
        ("write 0 0 3072 2048 9", "0; 0, 16, 0", "0:28 6:24 10:34 16:unmapped"),
        // The last byte of page 7 and the first of page 8.
        ("write 0 0 4095 2 9", "0; 0, 16, 0", "0:26 7:24 9:33 16:unmapped"),
        // Whole groups, and a byte more at the front or at the end.
        ("write 0 0 0 4096 9", "0; 0, 8, 0", "0:24 8:unmapped"),
        ("write 0 0 4096 4096 9", "0; 0, 8, 0", "0:unmapped 8:24 16:unmapped"),
        ("write 0 0 4096 4097 9", "0; 0, 16, 0", "0:unmapped 8:24 24:unmapped"),
        ("write 0 0 4095 4097 9", "0; 0, 16, 0", "0:33 7:24 16:unmapped"),
        // Pages 2 to 6 of three groups of three: 0 and 1, 7 and 8 are extra.
        ("write-groups 3 0 0 1024 2560 9", "0; 0, 9, 0", "0:29 2:24 7:31 9:unmapped"),
        // Pages 1 to 6 of four groups of two: 0 and 7 are extra.
        ("write-groups 2 0 0 512 3072 9", "0; 0, 8, 0", "0:30 1:24 7:31 8:unmapped"),
        // Pages 12 and 13 of two groups of 13: 0 to 11 and 14 to 25, of which 24
        // and 25 are holes.
        ("write-groups 13 0 0 6144 1024 9", "0; 0, 24, 0", "0:26 12:24 14:38 24:hole 26:unmapped"),
        // Narrow.
        ("write-narrow 0 0 3072 2048 9", "0; 0, 4, 0", "0:unmapped 6:24 10:unmapped"),
    ];
    for (call, answer, map) in cases {
        let mut store = Store::after(64, LONG_FILE);
        assert_eq!(store.does(call), answer, "{call}");
        assert_eq!(store.map(1), map, "{call}");
        assert_eq!(store.reads(1), data_bytes(12_288, 5), "{call}");
    }
    // Pages 62 and 63 are of two groups of seven: 56 to 61 are extra.
    let mut store = Store::after(64, LAST_PAGES);
    assert_eq!(store.does("write-groups 7 0 0 31744 1024 9"), "0; 0, 8, 0");
    assert_eq!(store.map(1), "0:unmapped 56:10 62:8");
}

// What does not go by groups.

/// "A write of length 0 passes checks 1 to 7 and changes nothing": it has no
/// touched group.
#[test]
fn a_write_of_length_0_has_no_group() {
    let mut store = Store::after(12, &format!("{THREE_PAGES}; make 0 1 0"));
    let (tables, pages) = (store.0.tables().to_vec(), store.0.pages().to_vec());
    for kind in ["write", "write-narrow", "write-groups 1", "write-groups 64"] {
        for offset in [0, 600, 1_535, 1_536, 32_768] {
            assert_eq!(store.does(&format!("{kind} 0 0 {offset} 0 1")), "0; 0, 0, 0");
            assert!(store.0.tables() == tables && store.0.pages() == pages, "{kind} {offset}");
        }
        assert_eq!(store.does(&format!("{kind} 0 0 32769 0 1")), "7; 0, 0, 0");
    }
    assert_eq!(store.file(1).state, FileState::Virgin);
}

/// Only a write goes by groups. Truncate touches page 2 alone: as its part page
/// it is copied, dropped whole it is handed over.
#[test]
fn truncate_does_not_go_by_groups() {
    for (size, answer, map) in [
        (1_100, "0; 0, 1, 0", "0:unmapped 2:3 3:unmapped"),
        (1_024, "0; 0, 0, 0", "0:unmapped 2:2 3:unmapped"),
        (4_000, "0; 0, 0, 0", "0:unmapped"),
    ] {
        let mut store = Store::after(12, &format!("{THREE_PAGES}; make 0 1 0"));
        assert_eq!(store.does(&format!("truncate 0 0 {size}")), answer);
        assert_eq!(store.map(1), map);
        assert_eq!(store.reads(1), pages(&[1, 2, 3]));
    }
}

/// "The session program and the rows of document 01 relied on the old default and
/// now ask for narrow writes." Three pages, a copy, one byte in page 0.
#[test]
fn the_session_program_writes_narrowly() {
    let calls: [[u8; 8]; 4] = [
        [0x10, 0, 0, 0, 0, 0, 0, 0],
        [0x20, 0, 0, 0, 0x06, 0, 0x41, 0],
        [0x50, 0x01, 0, 0, 0, 0, 0, 0],
        [0x20, 0, 0, 0, 0, 0x01, 0x42, 0],
    ];
    let wanted = "call 1 1 0 0 0 0\ncall 2 2 0 3 0 0\ncall 3 5 0 0 0 0\ncall 4 2 0 0 1 0\n\
        set 0 0 8 1\nfile 0 0 1 1536\next 0 0\next 3 -1\next 64 -1\n\
        set 1 1 0 0\nfile 1 0 1 1536\next 0 3\next 1 -1\next 64 -1\n";
    assert_eq!(String::from_utf8(session(&calls.concat())).unwrap(), wanted);
}

// The kinds beside each other.

/// Stores with children of many sorts, and a write of one page or several.
const STORES: [(usize, &str); 6] = [
    (3, "create 0 0; write-narrow 0 0 0 1024 1; make 0 1 0"),
    (20, "create 0 0; write-narrow 0 0 0 5120 1; make 0 1 0; make 0 2 1; make 2 3 0"),
    (9, "create 0 0; write-narrow 0 0 512 600 1; make 0 1 1; make 0 2 0; write-narrow 1 0 512 1 2"),
    (1, "create 0 0; make 0 1 0; make 1 2 0"),
    (4, "create 0 0; write-narrow 0 0 0 2048 1; make 0 1 0; make 0 2 0"),
    (64, "create 0 0; write-narrow 0 0 30000 2768 1; make 0 1 0; truncate 0 0 20000; make 0 2 0"),
];
const PLACES: [(usize, usize); 5] = [(0, 1), (600, 100), (511, 1_026), (30_000, 512), (32_767, 1)];

/// What a write does to a store: its answer, the tables and the pages.
fn written(made: &Store, kind: &str, offset: usize, length: usize) -> (Answer, Vec<u8>, Vec<u8>) {
    let item = Item::parse(&format!("{kind} 0 0 {offset} {length} 9")).unwrap();
    let Item::Call(call) = item else { unreachable!() };
    let (mut tables, mut pages) = (made.0.tables().to_vec(), made.0.pages().to_vec());
    let mut data = data_bytes(length, 9);
    let lent = Lent::store(&mut tables, &mut pages, &mut data);
    (store::run(call.index(), &call.numbers(), lent), tables, pages)
}

/// `write` is the one by groups of 8, `write-narrow` the one by groups of 1.
#[test]
fn the_exported_kinds_are_groups_of_eight_and_of_one() {
    let mut differ = 0;
    for (blocks, script) in STORES {
        let made = Store::after(blocks, script);
        for (offset, length) in PLACES {
            let of = |kind: &str| written(&made, kind, offset, length);
            assert!(of("write") == of("write-groups 8"));
            assert!(of("write-narrow") == of("write-groups 1"));
            differ += usize::from(of("write") != of("write-narrow"));
        }
    }
    assert!(differ > 10, "{differ}");
}

/// Without children there is nobody to copy for: every size is the narrow write,
/// byte for byte.
#[test]
fn without_children_every_size_is_the_narrow_write() {
    let scripts = [
        (5, "create 0 0".to_string()),
        (5, "create 0 0; write-narrow 0 0 100 1000 1".to_string()),
        (5, "create 0 0; write-narrow 0 0 100 1000 1; make 0 1 1; remove 1".to_string()),
        // A child set without the file.
        (5, "create 0 0; make 0 1 1; delete 1 0; write-narrow 0 0 0 1 2".to_string()),
    ];
    for (blocks, script) in scripts {
        let made = Store::after(blocks, &script);
        for (offset, length) in PLACES {
            let narrow = written(&made, "write-narrow", offset, length);
            for group in 1..=64 {
                let grouped = written(&made, &format!("write-groups {group}"), offset, length);
                assert!(grouped == narrow, "{script}: {group} {offset} {length}");
            }
        }
    }
}

// Names, scripts and comparing.

#[test]
fn names_and_lines_of_scripts() {
    assert_eq!((CALL_NAMES[12], CALL_NAMES[21]), ("write-narrow", "write-groups"));
    assert_eq!(ORACLE_ALONE, ["write-groups"]);
    let kinds = [("write", 8), ("write-narrow", 1), ("write-groups 1", 1), ("write-groups 64", 64)];
    for (kind, group) in kinds {
        let line = format!("{kind} 1 2 3 4 5");
        let Item::Call(call) = Item::parse(&line).unwrap() else { unreachable!() };
        assert_eq!(call.to_string(), line);
        let wanted = AnyWrite { group, set: 1, file: 2, offset: 3, length: 4, seed: 5 };
        assert_eq!(call.as_write(), Some(wanted));
        let lent: Vec<Buffer> = call.row().lent().collect();
        assert_eq!(lent, [Buffer::Tables, Buffer::Pages, Buffer::Bytes]);
        assert_eq!(call.row().lends(Buffer::Bytes), Lending::ReadOnly);
        assert!(call.changes());
    }
    // A group has 1 to 64 pages, and no kind takes a number more or less.
    for bad in ["write-groups 0", "write-groups 65", "write-groups -1", "write-groups"] {
        assert!(Item::parse(&format!("{bad} 1 2 3 4 5")).is_err(), "{bad}");
    }
    assert!(Item::parse("write-narrow 1 2 3 4").is_err());
    assert!(Item::parse("write-narrow 8 1 2 3 4 5").is_err());
}

/// Another implementation of `write` and `write-narrow` that does both by groups
/// of this size.
struct ByGroups(usize);

impl Other for ByGroups {
    fn has(&self, index: usize) -> bool {
        ["write", "write-narrow"].contains(&CALL_NAMES[index])
    }

    fn run(&mut self, _: usize, n: &Numbers, lent: Lent) -> Answer {
        store::write_groups(lent.tables, lent.pages, self.0, n[0], n[1], n[2], lent.bytes)
    }
}

/// A library whose `write` is narrow, or whose `write-narrow` is not, is noticed,
/// where groups make a difference.
#[test]
fn another_size_of_groups_is_noticed() {
    for (line, right) in [("write 0 0 0 1 9", 8), ("write-narrow 0 0 0 1 9", 1)] {
        let Item::Call(call) = Item::parse(line).unwrap() else { unreachable!() };
        for group in 1..=64 {
            let mut store = Store::after(64, LONG_FILE);
            let outcome = store.0.call(&call, &mut ByGroups(group));
            assert_eq!(outcome.is_ok(), group == right, "{line} {group}");
        }
    }
    // With no block for extra pages the answers are alike, and the bytes are not:
    // page 1 of the child, a hole.
    let Item::Call(call) = Item::parse("write 0 0 0 1 9").unwrap() else { unreachable!() };
    let mut store = Store::after(1, "create 0 0; make 0 1 0");
    let outcome = store.0.call(&call, &mut ByGroups(1));
    assert!(outcome.unwrap_err().starts_with("tables differ at byte"));
}

/// "An extra copy made counts in the second count": the tally must say so too.
#[test]
fn the_tally_must_give_the_same_counts_and_kinds() {
    let made = || Store::after(12, &format!("{THREE_PAGES}; make 0 1 0"));
    let mut store = made();
    let files = &mut store.0.beside.as_mut().unwrap().tally.sets[1].as_mut().unwrap().files;
    files[0].kinds[2] = oracle::tally::TallyKind::Hole;
    let item = Item::parse("write 0 0 0 1 9").unwrap();
    let wanted = "the answer is 0; 0, 3, 0; by plain store and tally 0; 0, 2, 0";
    assert_eq!(store.0.step(&item, &mut NoOther), Err(wanted.to_string()));
    let mut store = made();
    store.0.beside.as_mut().unwrap().tally.free = 1;
    let wanted = "the answer is 0; 0, 3, 0; by plain store and tally 0; 0, 1, 0";
    assert_eq!(store.0.step(&item, &mut NoOther), Err(wanted.to_string()));
}

/// What is told of the writes compared. Each write is of set 0 or 1 in a store of
/// its own, with three pages stored in set 0; the cases that it meets, by their
/// place in `CASES`, were found by hand.
#[test]
fn writes_compared_are_counted() {
    let cases: [(usize, &str, &str, &[usize]); 14] = [
        // Copies of pages 1 and 2, holes past the size, read-only child.
        (12, "make 0 1 0", "write 0 0 0 1 9", &[1, 4, 6, 15]),
        // The same, writeable, with a child that reads through it; page 1 touched.
        (12, "make 0 1 1; make 1 2 0", "write 0 0 512 1 9", &[1, 4, 6, 14, 16]),
        // Two children, room for three copies of page 0 and 1.
        (6, "make 0 1 1; make 0 2 1", "write 0 0 0 1 9", &[1, 2, 3, 4, 6, 7]),
        // Room for all but one.
        (8, "make 0 1 1; make 0 2 1", "write 0 0 0 1 9", &[1, 2, 3, 4, 6, 7, 11]),
        // Room for the touched page alone.
        (4, "make 0 1 1", "write 0 0 0 1 9", &[2, 4, 5, 6, 7]),
        // No room at all: marked.
        (3, "make 0 1 1", "write 0 0 0 1 9", &[9]),
        // Set 1 is marked, set 2 has the page and gets holes.
        (
            4,
            "make 0 1 1; make 0 2 1; write-narrow 2 0 0 1 1",
            "write 0 0 0 1 9",
            &[2, 4, 5, 6, 7, 9, 10],
        ),
        // Page 1 is mapped in the child.
        (12, "make 0 1 1; write-narrow 1 0 512 1 1", "write 0 0 0 1 9", &[1, 4, 6, 8]),
        // Read through the parent by a virgin file, and by an own one.
        (12, "make 0 1 1; make 1 2 1", "write 1 0 0 1 9", &[1, 4, 6, 12]),
        (12, "make 0 1 1; write-narrow 1 0 0 1 1; make 1 2 1", "write 1 0 0 1 9", &[1, 4, 6, 13]),
        // Pages 60 to 63 are the last group of five; page 1 is in another.
        (12, "make 0 1 1; truncate 1 0 32768", "write-groups 5 0 0 32256 1 9", &[4, 17]),
        // Pages 2 and 3 are in two groups of three.
        (12, "make 0 1 1", "write-groups 3 0 0 1024 513 9", &[1, 4, 6, 16, 18]),
        // Narrow.
        (12, "make 0 1 1", "write-narrow 0 0 0 1 9", &[0]),
        // No child.
        (12, "make 0 1 1; remove 1", "write 0 0 0 1 9", &[]),
    ];
    for (blocks, script, call, met) in cases {
        let mut store = Store::after(blocks, &format!("{THREE_PAGES}; {script}"));
        let Item::Call(call) = Item::parse(call).unwrap() else { unreachable!() };
        store.0.counts = Default::default();
        store.0.call(&call, &mut ByGroups(call.as_write().unwrap().group)).unwrap();
        let mut wanted = Writes { compared: 1, of_bytes: 1, met: [0; CASES.len()] };
        for case in met {
            wanted.met[*case] = 1;
        }
        let counts = &store.0.counts;
        assert_eq!(counts.writes_beside[&call.index()], wanted, "{script}; {call}");
        let linked = (!matches!(call, Call::WriteGroups { .. })).then_some(&wanted);
        assert_eq!(counts.writes_linked.get(&call.index()), linked, "{script}; {call}");
        // One of length 0 is counted as compared; a refused one is not.
        store.does("write 0 0 0 0 1");
        store.does("write 0 0 32768 1 1");
        let of_write = &store.0.counts.writes_beside[&2];
        assert_eq!(of_write.compared - of_write.of_bytes, 1);
    }
}
