//! Ask 3 of document 02, "Maps looked at, exactly": "For each page holding a
//! byte read, the count is one for the file's own map and one for each parent
//! map gone to, ending at the first that is not unmapped." The numbers of the
//! cases were worked out by hand from this sentence. Each script runs with plain
//! store and tally beside. Where nothing else is said, the file has number 0,
//! and in the comments "set 1" is short for the file of set 1.

use oracle::bench::{NoOther, Other, Reads};
use oracle::call::*;
use oracle::state::*;
use oracle::store;
use oracle::tally::TallyKind;
use std::collections::{BTreeMap, BTreeSet};

mod script;
use script::Store;
mod walk;
use walk::SeenRead;

impl Store {
    /// Calls with the answers they must give.
    fn answers(&mut self, cases: &[(&str, &str)]) {
        for (call, wanted) in cases {
            assert_eq!(self.does(call), *wanted, "{call}");
        }
    }
}

/// Sets 1 to 5, each made from the one before: set n has level n.
const LINE: &str = "make 0 1 1; make 1 2 1; make 2 3 1; make 3 4 1; make 4 5 1";

// Which pages count.

/// Where no byte is read, no page holds one.
#[test]
fn no_byte_read_is_no_map_looked_at() {
    // File 0 has size 1,000, file 1 size 0; both are virgin in sets 1 and 2.
    let script = "create 0 0; create 0 1; write-narrow 0 0 0 1000 1; make 0 1 1; make 1 2 0";
    let mut store = Store::after(4, script);
    for set in [0, 1, 2] {
        let calls = [
            // An empty buffer: at the front, inside, in the last page, at the
            // size and past it.
            format!("read {set} 0 0 0"),
            format!("read {set} 0 300 0"),
            format!("read {set} 0 999 0"),
            format!("read {set} 0 1000 0"),
            format!("read {set} 0 5000 0"),
            // The offset is at the size. Page 1 holds bytes, but none is read.
            format!("read {set} 0 1000 1"),
            format!("read {set} 0 1000 40000"),
            // Past it: in the last page, at the next page, at the largest size
            // and at the largest number.
            format!("read {set} 0 1001 512"),
            format!("read {set} 0 1023 1"),
            format!("read {set} 0 1024 512"),
            format!("read {set} 0 32768 1"),
            format!("read {set} 0 4294967295 40000"),
            // A file of size 0.
            format!("read {set} 1 0 0"),
            format!("read {set} 1 0 1"),
            format!("read {set} 1 0 32768"),
            format!("read {set} 1 512 1"),
        ];
        for call in calls {
            assert_eq!(store.does(&call), "0; 0, 0, 0", "{call}");
        }
    }
}

/// In set 0 no entry of a present file is unmapped: the own map is the only one,
/// and the number is that of the pages that hold a byte read.
#[test]
fn in_set_0_pages_are_counted() {
    let mut store = Store::after(4, "create 0 0; write-narrow 0 0 0 1536 1");
    store.answers(&[
        // One byte, in each of the three pages: one map.
        ("read 0 0 0 1", "0; 1, 1, 0"),
        ("read 0 0 700 1", "0; 1, 1, 0"),
        ("read 0 0 1535 1", "0; 1, 1, 0"),
        // The last byte of page 0, the first of page 1, and both.
        ("read 0 0 511 1", "0; 1, 1, 0"),
        ("read 0 0 512 1", "0; 1, 1, 0"),
        ("read 0 0 511 2", "0; 2, 2, 0"),
        // A whole page, and one byte more at its end or at its front.
        ("read 0 0 512 512", "0; 512, 1, 0"),
        ("read 0 0 512 513", "0; 513, 2, 0"),
        ("read 0 0 511 513", "0; 513, 2, 0"),
        // As many bytes as a page has, from inside a page on: bytes 1 to 512.
        ("read 0 0 1 512", "0; 512, 2, 0"),
        ("read 0 0 1 511", "0; 511, 1, 0"),
        // Bytes 511 to 1,024: the last of page 0, all of page 1, the first of
        // page 2.
        ("read 0 0 511 514", "0; 514, 3, 0"),
        ("read 0 0 0 1536", "0; 1536, 3, 0"),
    ]);
}

/// The bytes end at the size, so the pages of the buffer's further bytes hold
/// no byte read.
#[test]
fn pages_past_the_size_are_not_counted() {
    let mut store = Store::after(4, "create 0 0; write-narrow 0 0 0 513 1; make 0 1 0");
    store.answers(&[
        // 513 bytes are in pages 0 and 1.
        ("read 0 0 0 32768", "0; 513, 2, 0"),
        ("read 0 0 0 70000", "0; 513, 2, 0"),
        ("read 0 0 0 512", "0; 512, 1, 0"),
        // From 1 on there are 512 bytes, from 512 on there is one.
        ("read 0 0 1 32768", "0; 512, 2, 0"),
        ("read 0 0 512 32768", "0; 1, 1, 0"),
        // Two maps for each of the same pages.
        ("read 1 0 0 32768", "0; 513, 4, 0"),
        ("read 1 0 512 32768", "0; 1, 2, 0"),
    ]);
    // At size 512 there is one page less.
    store.accepts("truncate 0 0 512");
    store.answers(&[("read 0 0 0 32768", "0; 512, 1, 0"), ("read 0 0 0 513", "0; 512, 1, 0")]);
}

// Which maps count.

/// A hole is not unmapped: it ends the walk like a stored page.
#[test]
fn a_hole_counts_like_a_stored_page() {
    // Page 2 alone is stored; pages 0, 1 and 3 are holes inside the size.
    let script = "create 0 0; write-narrow 0 0 1024 512 1; truncate 0 0 2048; make 0 1 1";
    let mut store = Store::after(4, script);
    store.answers(&[
        ("read 0 0 0 1", "0; 1, 1, 0"),
        ("read 0 0 1024 1", "0; 1, 1, 0"),
        ("read 0 0 0 2048", "0; 2048, 4, 0"),
        // Set 1 is virgin: two maps for a hole and two for a stored page.
        ("read 1 0 0 1", "0; 1, 2, 0"),
        ("read 1 0 1024 1", "0; 1, 2, 0"),
        ("read 1 0 0 2048", "0; 2048, 8, 0"),
    ]);
    // A file created in set 1 is all holes in its own map, whether set 0 has a
    // file of that number (0) or not (9).
    store.accepts("delete 1 0; create 1 0; truncate 1 0 2048; create 1 9; truncate 1 9 600");
    store.answers(&[
        ("read 1 0 0 2048", "0; 2048, 4, 0"),
        ("read 1 0 1024 1", "0; 1, 1, 0"),
        ("read 1 9 0 32768", "0; 600, 2, 0"),
    ]);
}

/// In a virgin file of level n every page is unmapped in n maps and found in the
/// map after them, that of set 0.
#[test]
fn an_untouched_file_of_level_n_looks_at_n_plus_1_maps() {
    let mut store = Store::after(4, &format!("create 0 0; write-narrow 0 0 0 1 1; {LINE}"));
    let lines = [
        ("read 0 0 0 1", "0; 1, 1, 0"),
        ("read 1 0 0 1", "0; 1, 2, 0"),
        ("read 2 0 0 1", "0; 1, 3, 0"),
        ("read 3 0 0 1", "0; 1, 4, 0"),
        ("read 4 0 0 1", "0; 1, 5, 0"),
        ("read 5 0 0 1", "0; 1, 6, 0"),
    ];
    store.answers(&lines);
    // The parent grows, so set 1 becomes own; its page 0 is unmapped as before.
    store.accepts("truncate 0 0 100");
    store.answers(&lines);
}

/// The number of a set is not its level, and its siblings are no parents.
#[test]
fn levels_count_and_not_set_numbers_or_siblings() {
    // From set 0 down: 6, 2, 7, 1, 4. Sets 3 and 5 are children of set 0 too.
    let line = "make 0 6 1; make 6 2 1; make 2 7 1; make 7 1 1; make 1 4 1; make 0 3 1; make 0 5 1";
    let mut store = Store::after(1, &format!("create 0 0; write-narrow 0 0 0 1 1; {line}"));
    store.answers(&[
        ("read 6 0 0 1", "0; 1, 2, 0"),
        ("read 2 0 0 1", "0; 1, 3, 0"),
        ("read 7 0 0 1", "0; 1, 4, 0"),
        ("read 1 0 0 1", "0; 1, 5, 0"),
        ("read 4 0 0 1", "0; 1, 6, 0"),
        ("read 3 0 0 1", "0; 1, 2, 0"),
        ("read 5 0 0 1", "0; 1, 2, 0"),
    ]);
}

/// The largest number there is: 64 pages x 6 maps.
#[test]
fn a_full_file_at_level_5() {
    let mut store = Store::after(64, &format!("create 0 0; write-narrow 0 0 0 32768 1; {LINE}"));
    store.answers(&[
        ("read 5 0 0 32768", "0; 32768, 384, 0"),
        ("read 5 0 0 70000", "0; 32768, 384, 0"),
        // The last 511 bytes of page 0, or none of it: 63 pages x 6.
        ("read 5 0 1 32768", "0; 32767, 384, 0"),
        ("read 5 0 512 32768", "0; 32256, 378, 0"),
        ("read 5 0 32767 1", "0; 1, 6, 0"),
        ("read 4 0 0 32768", "0; 32768, 320, 0"),
        ("read 0 0 0 32768", "0; 32768, 64, 0"),
    ]);
    // The same with holes alone.
    let mut store = Store::after(1, &format!("create 0 0; truncate 0 0 32768; {LINE}"));
    store.answers(&[("read 5 0 0 32768", "0; 32768, 384, 0")]);
}

/// Set 0 has pages 0 to 3. Set 1 has page 1, set 2 (made from set 1) page 2.
const MIXED: &str = "create 0 0; write-narrow 0 0 0 2048 1; make 0 1 1; \
    write-narrow 1 0 512 512 2; make 1 2 1; write-narrow 2 0 1024 512 3";

/// In set 2, page 0 is found in set 0 (3 maps), page 1 in set 1 (2), page 2 in
/// the own map (1) and page 3 in set 0 (3).
#[test]
fn each_page_counts_by_the_map_that_it_is_found_in() {
    let mut store = Store::after(8, MIXED);
    store.answers(&[
        ("read 2 0 0 512", "0; 512, 3, 0"),
        ("read 2 0 512 512", "0; 512, 2, 0"),
        ("read 2 0 1024 512", "0; 512, 1, 0"),
        ("read 2 0 1536 512", "0; 512, 3, 0"),
        ("read 2 0 0 2048", "0; 2048, 9, 0"),
        // In set 1: 2, 1, 2, 2. What set 2 has makes no difference here.
        ("read 1 0 0 2048", "0; 2048, 7, 0"),
        ("read 1 0 1024 512", "0; 512, 2, 0"),
        ("read 0 0 0 2048", "0; 2048, 4, 0"),
    ]);
}

/// The same store: pages before the offset's page and after the last byte's page
/// count nothing, pages with one byte read count in full.
#[test]
fn pages_that_hold_no_byte_read_are_not_counted() {
    let mut store = Store::after(8, MIXED);
    store.answers(&[
        // Inside page 1: 2. All of page 2 but its first and last byte: 1.
        ("read 2 0 700 100", "0; 100, 2, 0"),
        ("read 2 0 1025 510", "0; 510, 1, 0"),
        // The last byte of one page and the first of the next: 3 + 2, 2 + 1,
        // 1 + 3.
        ("read 2 0 511 2", "0; 2, 5, 0"),
        ("read 2 0 1023 2", "0; 2, 3, 0"),
        ("read 2 0 1535 2", "0; 2, 4, 0"),
        // Pages 1 and 2 whole: 2 + 1; with a byte more before: 3 + 2 + 1; with a
        // byte more after: 2 + 1 + 3; with both: 9.
        ("read 2 0 512 1024", "0; 1024, 3, 0"),
        ("read 2 0 511 1025", "0; 1025, 6, 0"),
        ("read 2 0 512 1025", "0; 1025, 6, 0"),
        ("read 2 0 511 1026", "0; 1026, 9, 0"),
        // From 700 to the size: pages 1, 2 and 3, so 2 + 1 + 3.
        ("read 2 0 700 40000", "0; 1348, 6, 0"),
        ("read 2 0 2047 40000", "0; 1, 3, 0"),
    ]);
}

/// Set 1 cut page 1 away and grew again, so page 1 is a hole in its map. Reads
/// below end there, though set 0 has a block for page 1.
#[test]
fn a_hole_in_the_middle_ends_the_walk() {
    let script = "create 0 0; write-narrow 0 0 0 1024 1; make 0 1 1; truncate 1 0 512; \
        truncate 1 0 1024; make 1 2 0; make 2 3 0";
    let mut store = Store::after(4, script);
    store.answers(&[
        // Page 0 is found in set 0, page 1 in set 1.
        ("read 1 0 0 512", "0; 512, 2, 0"),
        ("read 1 0 512 512", "0; 512, 1, 0"),
        ("read 2 0 0 512", "0; 512, 3, 0"),
        ("read 2 0 512 512", "0; 512, 2, 0"),
        ("read 2 0 0 1024", "0; 1024, 5, 0"),
        ("read 3 0 0 512", "0; 512, 4, 0"),
        ("read 3 0 512 512", "0; 512, 3, 0"),
        ("read 3 0 0 1024", "0; 1024, 7, 0"),
        ("read 0 0 0 1024", "0; 1024, 2, 0"),
    ]);
}

// After calls that change maps.

/// A write gives the child the hole that it needs; then the child's own map has
/// it.
#[test]
fn after_a_write_over_a_hole() {
    let mut store = Store::after(1, "create 0 0; truncate 0 0 512; make 0 1 0; make 1 2 0");
    store.answers(&[("read 1 0 0 1", "0; 1, 2, 0"), ("read 2 0 0 1", "0; 1, 3, 0")]);
    store.accepts("write-narrow 0 0 0 1 7");
    store.answers(&[
        ("read 0 0 0 1", "0; 1, 1, 0"),
        ("read 1 0 0 1", "0; 1, 1, 0"),
        ("read 2 0 0 1", "0; 1, 2, 0"),
    ]);
}

/// The same with a copy. Page 1 is not touched and is still read through set 0.
#[test]
fn after_a_write_that_copies() {
    let mut store =
        Store::after(3, "create 0 0; write-narrow 0 0 0 1024 1; make 0 1 0; make 1 2 0");
    store.answers(&[("read 1 0 0 1024", "0; 1024, 4, 0"), ("read 2 0 0 1024", "0; 1024, 6, 0")]);
    store.accepts("write-narrow 0 0 0 1 2");
    store.answers(&[
        ("read 1 0 0 512", "0; 512, 1, 0"),
        ("read 1 0 512 512", "0; 512, 2, 0"),
        ("read 1 0 0 1024", "0; 1024, 3, 0"),
        ("read 2 0 0 1024", "0; 1024, 5, 0"),
    ]);
}

/// Truncate leaves holes in this map. Set 1 has four pages of set 0 at first.
#[test]
fn a_file_that_shrank_and_grew_again() {
    let script = "create 0 0; write-narrow 0 0 0 2048 1; make 0 1 1";
    let mut store = Store::after(5, script);
    store.answers(&[("read 1 0 0 2048", "0; 2048, 8, 0")]);
    store.accepts("truncate 1 0 0");
    store.answers(&[("read 1 0 0 2048", "0; 0, 0, 0")]);
    store.accepts("truncate 1 0 2048");
    store.answers(&[("read 1 0 0 2048", "0; 2048, 4, 0"), ("read 1 0 600 1", "0; 1, 1, 0")]);
    // Pages 4 to 7 were never touched: unmapped here, holes in set 0. So 4 + 8.
    store.accepts("truncate 1 0 4096");
    store.answers(&[("read 1 0 0 4096", "0; 4096, 12, 0"), ("read 1 0 2048 1", "0; 1, 2, 0")]);
    // The same in set 0.
    store.accepts("truncate 0 0 0; truncate 0 0 2048");
    store.answers(&[("read 0 0 0 2048", "0; 2048, 4, 0")]);

    // Cut inside page 1: that page gets an own block, pages 2 and 3 are holes,
    // page 0 stays unmapped. So 2 + 1 + 1 + 1.
    let mut store = Store::after(5, script);
    store.accepts("truncate 1 0 700; truncate 1 0 2048");
    store.answers(&[("read 1 0 0 2048", "0; 2048, 5, 0"), ("read 1 0 511 2", "0; 2, 3, 0")]);

    // Where page 1 resolves to a hole, its entry stays unmapped: 2 + 2 + 1 + 1.
    let mut store = Store::after(1, "create 0 0; truncate 0 0 2048; make 0 1 1");
    store.accepts("truncate 1 0 700; truncate 1 0 2048");
    store.answers(&[("read 1 0 0 2048", "0; 2048, 6, 0"), ("read 1 0 1023 2", "0; 2, 3, 0")]);
}

/// A file that only grew has no entry of its own: each page is looked for in
/// set 0 too, also where set 0 ends before it.
#[test]
fn a_file_that_only_grew() {
    let mut store =
        Store::after(1, "create 0 0; write-narrow 0 0 0 1 1; make 0 1 1; truncate 1 0 2048");
    store.answers(&[
        ("read 1 0 0 2048", "0; 2048, 8, 0"),
        ("read 1 0 1536 1", "0; 1, 2, 0"),
        ("read 0 0 0 2048", "0; 1, 1, 0"),
    ]);
}

// After Ask 2's handing over.

/// Pages 0 and 1 of set 0, read through sets 1 and 2.
const TWO_PAGES: &str = "create 0 0; write-narrow 0 0 0 1024 1; make 0 1 1; make 1 2 0";

/// Delete hands both blocks to set 1: its own map has the pages now, and set 2
/// looks at one map fewer for each.
#[test]
fn after_a_delete_that_hands_over() {
    let mut store = Store::after(2, TWO_PAGES);
    store.answers(&[
        ("read 1 0 0 1024", "0; 1024, 4, 0"),
        ("read 2 0 0 1024", "0; 1024, 6, 0"),
        ("delete 0 0", "0; 0, 0, 0"),
        ("read 0 0 0 1024", "5; 0, 0, 0"),
        ("read 1 0 0 1", "0; 1, 1, 0"),
        ("read 1 0 0 1024", "0; 1024, 2, 0"),
        ("read 2 0 0 1", "0; 1, 2, 0"),
        ("read 2 0 0 1024", "0; 1024, 4, 0"),
        // Set 1 hands them on.
        ("delete 1 0", "0; 0, 0, 0"),
        ("read 2 0 0 1024", "0; 1024, 2, 0"),
    ]);
    // With a second child there is a copy too: its own map has the pages as well.
    let mut store = Store::after(4, &format!("{TWO_PAGES}; make 0 3 0"));
    store.answers(&[
        ("read 3 0 0 1024", "0; 1024, 4, 0"),
        ("delete 0 0", "0; 0, 2, 0"),
        ("read 1 0 0 1024", "0; 1024, 2, 0"),
        ("read 2 0 0 1024", "0; 1024, 4, 0"),
        ("read 3 0 0 1024", "0; 1024, 2, 0"),
    ]);
}

/// Truncate to 512 hands page 1 to set 1; page 0 is read through set 0 as
/// before.
#[test]
fn after_a_truncate_that_hands_over() {
    let mut store = Store::after(2, TWO_PAGES);
    store.answers(&[
        ("truncate 0 0 512", "0; 0, 0, 0"),
        ("read 0 0 0 1024", "0; 512, 1, 0"),
        // 2 + 1, and one more for each in set 2.
        ("read 1 0 0 1024", "0; 1024, 3, 0"),
        ("read 2 0 0 1024", "0; 1024, 5, 0"),
        ("read 1 0 512 512", "0; 512, 1, 0"),
        ("read 2 0 512 512", "0; 512, 2, 0"),
    ]);
}

/// Set 1 has page 0 and reads page 1 through set 0; sets 2 and 3 lie below it.
#[test]
fn after_a_handing_over_in_the_middle_of_the_tree() {
    let script = "create 0 0; write-narrow 0 0 0 1024 1; make 0 1 1; write-narrow 1 0 0 512 2; \
        make 1 2 0; make 2 3 0";
    let mut store = Store::after(4, script);
    store.answers(&[
        // Page 0 is found in set 1, page 1 in set 0: 1 + 2, 2 + 3, 3 + 4.
        ("read 1 0 0 1024", "0; 1024, 3, 0"),
        ("read 2 0 0 1024", "0; 1024, 5, 0"),
        ("read 3 0 0 1024", "0; 1024, 7, 0"),
        // Page 0 is handed to set 2, page 1 is copied there.
        ("delete 1 0", "0; 0, 1, 0"),
        ("read 2 0 0 1024", "0; 1024, 2, 0"),
        ("read 3 0 0 512", "0; 512, 2, 0"),
        ("read 3 0 512 512", "0; 512, 2, 0"),
        ("read 3 0 0 1024", "0; 1024, 4, 0"),
        ("read 0 0 0 1024", "0; 1024, 2, 0"),
    ]);
}

/// Set 1 is marked. Set 2, made from it, has a file of its own without unmapped
/// entries, so that no parent map is gone to.
#[test]
fn below_a_marked_file() {
    let script = "create 0 0; write-narrow 0 0 0 1 1; make 0 1 0; make 1 2 1; \
        write-narrow 0 0 0 1 2; delete 2 0; create 2 0; truncate 2 0 600";
    let mut store = Store::after(1, script);
    store.answers(&[("read 1 0 0 1", "6; 0, 0, 0"), ("read 2 0 0 32768", "0; 600, 2, 0")]);
}

/// "returned (counts 0, nothing changed)".
#[test]
fn refused_reads_give_no_count() {
    let script = "create 0 0; write-narrow 0 0 0 1 1; make 0 1 0; write-narrow 0 0 0 1 2";
    let mut store = Store::after(1, script);
    store.answers(&[
        ("read 8 0 0 1", "2; 0, 0, 0"),
        ("read 7 0 0 1", "2; 0, 0, 0"),
        ("read 0 16 0 1", "3; 0, 0, 0"),
        ("read 0 1 0 1", "5; 0, 0, 0"),
        ("read 1 0 0 1", "6; 0, 0, 0"),
        // With an empty buffer too.
        ("read 8 0 0 0", "2; 0, 0, 0"),
        ("read 0 16 0 0", "3; 0, 0, 0"),
        ("read 0 1 0 0", "5; 0, 0, 0"),
        ("read 1 0 0 0", "6; 0, 0, 0"),
        // This one is accepted.
        ("read 0 0 0 1", "0; 1, 1, 0"),
    ]);
    // Pages and tables of wrong length, and a block count of 8,160 and more.
    for change in
        ["pages 511", "pages 1024", "tables 17436", "tables 17467", "tables 17469", "poke 0 255"]
    {
        let mut store = Store::after(1, script);
        store.answers(&[(change, ""), ("read 0 0 0 1", "1; 0, 0, 0")]);
    }
}

// What is compared.

/// Reads as the oracle does, but with this second count.
struct OtherCount(u32);

impl Other for OtherCount {
    fn has(&self, index: usize) -> bool {
        CALL_NAMES[index] == "read"
    }

    fn run(&mut self, index: usize, numbers: &Numbers, lent: Lent) -> Answer {
        Answer { second: self.0, ..store::run(index, numbers, lent) }
    }
}

/// "This number is then free no longer." Of another implementation every other
/// number is a difference: none, the pages alone (4), the parents alone (5), one
/// too few or too many, and pages read x (level + 1), which is 12.
#[test]
fn another_implementation_must_give_the_same_number() {
    let mut store = Store::after(8, MIXED);
    let Item::Call(read) = Item::parse("read 2 0 0 2048").unwrap() else { unreachable!() };
    for second in 0..20 {
        let outcome = store.0.call(&read, &mut OtherCount(second));
        let wanted = match second {
            9 => Ok(Answer::accepted([2_048, 9, 0])),
            _ => Err(format!("the answer is 0; 2048, {second}, 0; the oracle's is 0; 2048, 9, 0")),
        };
        assert_eq!(outcome, wanted);
    }
    let Item::Call(read) = Item::parse("read 2 0 2048 1").unwrap() else { unreachable!() };
    assert!(store.0.call(&read, &mut OtherCount(0)).is_ok());
    assert!(store.0.call(&read, &mut OtherCount(1)).is_err());
}

/// "Demand 3": a tally with a hole where the tables have an unmapped entry gives
/// the same bytes and one map for that page instead of three.
#[test]
fn the_tally_must_give_the_same_number() {
    let mut store = Store::after(8, MIXED);
    let beside = store.0.beside.as_mut().unwrap();
    beside.tally.sets[2].as_mut().unwrap().files[0].kinds[0] = TallyKind::Hole;
    let mut read = |line| store.0.step(&Item::parse(line).unwrap(), &mut NoOther);
    let wanted = "the answer is 0; 2048, 9, 0; by plain store and tally 0; 2048, 7, 0";
    assert_eq!(read("read 2 0 0 2048"), Err(wanted.to_string()));
    assert_eq!(read("read 2 0 512 40000"), Ok(Some(Answer::accepted([1_536, 6, 0]))));
}

/// What is told of the reads compared: six accepted ones, four of at least one
/// byte, three of them by more maps than pages.
#[test]
fn reads_compared_are_counted() {
    let mut store = Store::after(8, MIXED);
    let mut both = |line: &str, maps: u32| {
        store.0.step(&Item::parse(line).unwrap(), &mut OtherCount(maps)).unwrap();
    };
    both("read 2 0 0 0", 0);
    both("read 2 0 4294967295 1", 0);
    both("read 2 0 1024 512", 1);
    both("read 2 0 1023 2", 3);
    both("read 2 0 0 2048", 9);
    both("read 2 0 0 1", 3);
    both("read 3 0 0 1", 0);
    both("size 2 0", 0);
    let wanted = Reads { compared: 6, of_bytes: 4, to_a_parent: 3, largest: 9 };
    assert_eq!(store.0.counts.reads_linked, wanted);
    assert_eq!(store.0.counts.reads_beside, wanted);
}

// Random reads.

const SEED: u64 = 30_000_003;

/// How a page is found: the maps looked at, and the kind in the last of them.
struct Found {
    maps: usize,
    kind: Kind,
}

/// The set and those above it, up to set 0.
fn line_above(state: &State, set: usize) -> Vec<usize> {
    let mut line = vec![set];
    while let Some(above) = line.last().map(|at| state.sets[*at].parent).filter(|at| *at != NONE) {
        line.push(above);
    }
    line
}

fn find(state: &State, set: usize, file: usize, page: usize) -> Found {
    let kinds: Vec<Kind> = line_above(state, set)
        .into_iter()
        .map(|at| state.files[at][file].entries[page].kind)
        .collect();
    let unmapped = kinds.iter().take_while(|kind| **kind == Kind::Unmapped).count();
    Found { maps: unmapped + 1, kind: kinds[unmapped] }
}

/// The size by reading: that of the first file above that is not virgin.
fn size(state: &State, set: usize, file: usize) -> usize {
    let line = line_above(state, set);
    let mut files = line.into_iter().map(|at| &state.files[at][file]);
    let own = files.find(|record| record.state != FileState::Virgin);
    own.expect("set 0 has no virgin file").size
}

/// How often each case was met.
#[derive(Default)]
struct Met {
    reads: usize,
    cases: BTreeMap<&'static str, usize>,
    /// Pages by the maps looked at, found as a hole and found stored.
    holes: [usize; HIGHEST_LEVEL + 1],
    stored: [usize; HIGHEST_LEVEL + 1],
}

impl Met {
    fn count(&mut self, case: &'static str, met: bool) {
        *self.cases.entry(case).or_default() += usize::from(met);
    }

    /// Reckons the counts of a read byte by byte and page by page, compares
    /// them, and counts the cases.
    fn see(&mut self, read: &SeenRead) {
        let Call::Read { set, file, offset, length } = *read.call else { unreachable!() };
        let (set, file, offset) = (set as usize, file as usize, offset as usize);
        let size = size(read.state, set, file);
        let bytes: Vec<usize> = (offset..size).take(length).collect();
        let pages: BTreeSet<usize> = bytes.iter().map(|byte| byte / PAGE_BYTES).collect();
        let found: Vec<Found> =
            pages.iter().map(|page| find(read.state, set, file, *page)).collect();
        let maps: usize = found.iter().map(|found| found.maps).sum();
        let wanted = Answer::accepted([bytes.len() as u32, maps as u32, 0]);
        assert_eq!(read.answer, wanted, "{}", read.call);

        self.reads += 1;
        self.count("0 bytes, of a file of size 0", size == 0);
        if bytes.is_empty() {
            self.count("0 bytes, by an empty buffer", size > 0 && length == 0);
            self.count("0 bytes, from the size on", size > 0 && length > 0 && offset == size);
            self.count("0 bytes, from past the size on", length > 0 && offset > size);
            return;
        }
        self.see_pages(&found);
        let level = read.state.sets[set].level;
        let between = maps > pages.len() && maps < pages.len() * (level + 1);
        self.count("more maps than pages, fewer than pages x (level + 1)", between);
        self.count("the offset inside a page", offset % PAGE_BYTES != 0);
        let buffer_pages = (offset + length).div_ceil(PAGE_BYTES) - offset / PAGE_BYTES;
        self.count("pages of the buffer past the size", buffer_pages > pages.len());
        self.count("in a read-only set", !read.state.sets[set].writeable);
        let virgin = read.state.files[set][file].state == FileState::Virgin;
        self.count("of a virgin file", virgin);
        self.count("of an own file, gone to a parent map", !virgin && maps > pages.len());
    }

    fn see_pages(&mut self, found: &[Found]) {
        for found in found {
            let by_maps = match found.kind {
                Kind::Hole => &mut self.holes,
                _ => &mut self.stored,
            };
            by_maps[found.maps - 1] += 1;
        }
        let numbers: BTreeSet<usize> = found.iter().map(|found| found.maps).collect();
        self.count("one page", found.len() == 1);
        self.count("several pages", found.len() > 1);
        self.count("several pages, different numbers of maps", numbers.len() > 1);
        self.count("several pages, three different numbers of maps", numbers.len() > 2);
        let ended = |kind: Kind| found.iter().any(|found| found.maps > 1 && found.kind == kind);
        self.count("ended at a parent's hole", ended(Kind::Hole));
        self.count("ended at a parent's stored page", ended(Kind::Stored));
    }

    /// Each case is met at least so often, and each number of maps too, for
    /// holes and for stored pages.
    fn check(&self, least: usize) {
        println!("accepted reads: {}", self.reads);
        for (case, count) in &self.cases {
            println!("{case}: {count}");
        }
        println!("holes found after 1 to 6 maps: {:?}", self.holes);
        println!("stored pages found after 1 to 6 maps: {:?}", self.stored);
        for (case, count) in &self.cases {
            assert!(*count >= least, "{case}: {count}");
        }
        assert!(self.holes.iter().chain(&self.stored).all(|count| *count >= least));
    }
}

#[test]
fn reads_of_histories_give_the_number_and_meet_every_case() {
    let mut met = Met::default();
    walk::reads_of_histories(SEED, 600, |read| met.see(&read));
    met.check(5);
}

#[test]
fn reads_of_well_formed_stores_give_the_number_and_meet_every_case() {
    let mut met = Met::default();
    walk::reads_of_stores(SEED, 1_000, |read| met.see(&read));
    met.check(5);
}
