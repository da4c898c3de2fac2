//! Ask 7 of document 02, "How much room a write can take", as it is read in
//! docs/DECISIONS.md, "Readings of 02", Ask 7, with the blocks that marking frees counted
//! among the free ones (Ask 10). The expected numbers and answers were
//! worked out by hand from the papers. Each script runs with plain store and tally
//! beside, and each write goes through the judge.
//!
//! In the comments k is the number of touched pages, p that of the pages of the
//! touched groups, c that of the set's children. Where nothing else is said, files
//! have number 0, and "set 1" is short for the file of set 1. Stores are set up by
//! narrow writes.

use oracle::bench::{NoOther, Other};
use oracle::call::*;
use oracle::room::{self, Bound, Judged, Judgement, Room, Taken, CASES};
use oracle::state::*;
use oracle::store;
use oracle::turns::Turns;
use std::collections::BTreeSet;

mod script;
use script::{pages, Store};

/// A write that was done, with the tables before and after it.
#[derive(Clone)]
struct Done {
    write: AnyWrite,
    answer: Answer,
    before: Vec<u8>,
    after: Vec<u8>,
    pages_length: usize,
}

fn call_of(line: &str) -> Call {
    match Item::parse(line).unwrap() {
        Item::Call(call) => call,
        item => panic!("{item} is no call"),
    }
}

impl Done {
    /// Does a write on a store.
    fn on(store: &mut Store, line: &str) -> Done {
        let call = call_of(line);
        let before = store.0.tables().to_vec();
        let answer = store.0.call(&call, &mut NoOther);
        Done {
            write: call.as_write().expect("a write"),
            answer: answer.unwrap_or_else(|text| panic!("{line}: {text}")),
            before,
            after: store.0.tables().to_vec(),
            pages_length: store.0.pages().len(),
        }
    }

    /// Does a write on a store of its own.
    fn after(blocks: usize, script: &str, line: &str) -> Done {
        Done::on(&mut Store::after(blocks, script), line)
    }

    fn judgement(&self) -> Judgement {
        room::judge(&Taken {
            write: self.write,
            answer: self.answer,
            before: &self.before,
            after: &self.after,
            pages_length: self.pages_length,
        })
    }

    /// k, p, c and the free blocks, if the judge looks at them.
    fn room(&self) -> Option<[usize; 4]> {
        let room = self.judgement().room?;
        Some([room.touched, room.in_groups, room.children, room.free])
    }
}

/// Does a write on a store of this many blocks, in which marking frees nothing. The judge
/// must find k, p, c and the free blocks to be these, and no bound broken; afterwards as many
/// blocks fewer are free as the first two counts say.
fn takes(blocks: usize, script: &str, line: &str, room: [usize; 4], answer: &str) -> Store {
    takes_and_frees(blocks, script, line, room, 0, answer)
}

/// The same of a write whose markings free so many blocks, a block as often as it is freed.
fn takes_and_frees(
    blocks: usize,
    script: &str,
    line: &str,
    room: [usize; 4],
    freed: usize,
    answer: &str,
) -> Store {
    let mut store = Store::after(blocks, script);
    let done = Done::on(&mut store, line);
    assert_eq!(done.room(), Some(room), "{blocks} blocks; {script}; {line}");
    assert_eq!(done.judgement().room.unwrap().freed, freed, "{blocks} blocks; {script}; {line}");
    assert_eq!(done.answer.to_string(), answer, "{blocks} blocks; {script}; {line}");
    assert_eq!(done.judgement().outcome(), Ok(()));
    let taken = (done.answer.first + done.answer.second) as usize;
    assert_eq!(store.free() as usize + taken, room[3] + freed);
    store
}

/// Pages 0 and 1 of set 0 are in blocks 0 and 1. Set 1 is virgin and reads them through
/// set 0; sets 2 and 3 are its children, virgin too.
const TWO_PAGES: &str = "create 0 0; write-narrow 0 0 0 1024 1; make 0 1 1; make 1 2 0; make 1 3 0";

/// Pages 0 to 15 of set 0 are in blocks 0 to 15. Set 1 reads them, set 2 is its child.
const TWO_EIGHTS: &str = "create 0 0; write-narrow 0 0 0 8192 1; make 0 1 1; make 1 2 0";

/// Pages 60 to 63 of set 0 are in blocks 0 to 3. Set 1 reads them, sets 2 and 3 are its
/// children. By groups of five the last group has these four pages.
const LAST_FOUR: &str =
    "create 0 0; write-narrow 0 0 30720 2048 1; make 0 1 1; make 1 2 0; make 1 3 0";

/// Kinds of write, and the pages of the group that pages 0 to 2 are in, so that p is
/// this number or, narrowly, k. By groups of three it is 3.
const KINDS: [(&str, usize); 5] = [
    ("write-narrow", 1),
    ("write", 8),
    ("write-groups 3", 3),
    ("write-groups 5", 5),
    ("write-groups 64", 64),
];

// Each bound met with equality.

/// "An accepted narrow write of k touched pages in a set with c children takes at most
/// k + k x c blocks, and never more than were free." k = 2, c = 2: set 1 stores neither
/// page, so 2 own blocks; both children need both pages, so 2 x 2 copies. 2 + 2 x 2 = 6
/// blocks are taken, and 6 of 8 were free.
#[test]
fn a_narrow_write_takes_all_that_it_may() {
    let store = takes(8, TWO_PAGES, "write-narrow 1 0 0 1024 9", [2, 2, 2, 6], "0; 2, 4, 0");
    assert_eq!(
        (store.map(1), store.map(2)),
        ("0:2 2:unmapped".into(), "0:4 1:6 2:unmapped".into())
    );
    assert_eq!(store.map(3), "0:5 1:7 2:unmapped");
    assert_eq!(store.reads(3), data_bytes(1_024, 1));
    // All 64 pages: 64 + 64 x 1 = 128 of 192 blocks.
    let all = "create 0 0; write-narrow 0 0 0 32768 1; make 0 1 1; make 1 2 0";
    takes(192, all, "write-narrow 1 0 0 32768 9", [64, 64, 1, 128], "0; 64, 64, 0");
}

/// Without children: k + k x 0 blocks. k = 3.
#[test]
fn a_write_without_children_takes_k() {
    for (kind, group) in KINDS {
        let room = [3, group.max(3), 0, 5];
        takes(5, "create 0 0", &format!("{kind} 0 0 0 1536 9"), room, "0; 3, 0, 0");
    }
}

/// "For a grouped write the copied pages are at most those of the touched groups, times
/// c." By eights the last byte of page 7 and the first of page 8 touch pages 0 to 15: k =
/// 2, p = 16. 2 own blocks and 16 x c copies, so k + (k + 14) x c in all.
#[test]
fn a_write_by_eights_takes_all_that_it_may() {
    let line = "write 1 0 4095 2 9";
    // c = 1: 2 + 16 = 18 = 2 + (2 + 14) x 1, and 34 - 16 = 18 were free.
    takes(34, TWO_EIGHTS, line, [2, 16, 1, 18], "0; 2, 16, 0");
    // c = 3: 2 + 48 = 50 = 2 + (2 + 14) x 3, and 66 - 16 = 50 were free.
    let three = format!("{TWO_EIGHTS}; make 1 3 1; make 1 4 0");
    takes(66, &three, line, [2, 16, 3, 50], "0; 2, 48, 0");
    // k = 1: page 0 alone, p = 8. 1 + 8 = 9 of 24 - 16 = 8 are not to be had: the extra
    // page 7 finds none. With 25 blocks all are copied.
    takes(24, TWO_EIGHTS, "write 1 0 0 1 9", [1, 8, 1, 8], "0; 1, 7, 0");
    takes(25, TWO_EIGHTS, "write 1 0 0 1 9", [1, 8, 1, 9], "0; 1, 8, 0");
}

/// The same by groups of other sizes: 3 and 5 do not divide 64, 16 and 64 do.
#[test]
fn writes_by_other_groups_take_all_that_they_may() {
    // Page 62 by fives: k = 1, p = 4 (60 to 63), c = 2. 1 + 4 x 2 = 9, and 13 - 4 = 9 free.
    takes(13, LAST_FOUR, "write-groups 5 1 0 31744 1 9", [1, 4, 2, 9], "0; 1, 8, 0");
    // Pages 2 and 3 by threes: k = 2, p = 6 (0 to 5), c = 1. 2 + 6 = 8, and 14 - 6 = 8 free.
    let six = "create 0 0; write-narrow 0 0 0 3072 1; make 0 1 1; make 1 2 0";
    takes(14, six, "write-groups 3 1 0 1024 1024 9", [2, 6, 1, 8], "0; 2, 6, 0");
    // Page 20 by sixteens: k = 1, p = 16 (16 to 31), c = 1. 1 + 16 = 17 of 33 - 16.
    let sixteen = "create 0 0; write-narrow 0 0 8192 8192 1; make 0 1 1; make 1 2 0";
    takes(33, sixteen, "write-groups 16 1 0 10240 1 9", [1, 16, 1, 17], "0; 1, 16, 0");
    // Page 0 by sixty-fours: k = 1, p = 64, c = 1. 1 + 64 = 65 of 129 - 64.
    let all = "create 0 0; write-narrow 0 0 0 32768 1; make 0 1 1; make 1 2 0";
    takes(129, all, "write-groups 64 1 0 0 1 9", [1, 64, 1, 65], "0; 1, 64, 0");
}

/// B=13: create; write pages 0..2; make 1; grouped page 0 by 4. k = 1, c = 1, so k + k x c
/// = 2, and 3 blocks are taken: "An extra copy made counts in the second count". p = 4,
/// and page 3 is a hole.
#[test]
fn a_grouped_write_can_take_more_than_a_narrow_one_may() {
    let script = "create 0 0; write-narrow 0 0 0 1536 1; make 0 1 0";
    takes(13, script, "write-groups 4 0 0 0 512 9", [1, 4, 1, 10], "0; 0, 3, 0");
    takes(13, script, "write-narrow 0 0 0 512 9", [1, 1, 1, 10], "0; 0, 1, 0");
    // By eights with own blocks: 18 over 4, as above.
    takes(40, TWO_EIGHTS, "write 1 0 4095 2 9", [2, 16, 1, 24], "0; 2, 16, 0");
}

// With k + k x c blocks free, and with one less.

/// "With k + k x c blocks free, neither kind marks a file or is refused with 8." k = 2, c
/// = 2: 6 blocks are enough for each kind, as pages 2 on are holes. With 5 the last copy,
/// of page 1 for set 3, finds none, and set 3's copy of page 0 comes free.
#[test]
fn just_enough_and_one_less() {
    for (kind, group) in KINDS {
        let line = format!("{kind} 1 0 0 1024 9");
        let p = group.max(2);
        for blocks in [8, 9, 64] {
            let store = takes(blocks, TWO_PAGES, &line, [2, p, 2, blocks - 2], "0; 2, 4, 0");
            assert!(!(1..4).any(|set| store.is_marked(set)), "{line}");
        }
        let store = takes_and_frees(7, TWO_PAGES, &line, [2, p, 2, 5], 1, "0; 2, 3, 1");
        assert!(store.is_marked(3) && !store.is_marked(2), "{line}");
    }
}

/// In a set without children k blocks are enough, and with one less 8 is given. k = 3.
#[test]
fn just_enough_and_one_less_without_children() {
    for (kind, group) in KINDS {
        let line = format!("{kind} 0 0 0 1536 9");
        takes(3, "create 0 0", &line, [3, group.max(3), 0, 3], "0; 3, 0, 0");
        takes(2, "create 0 0", &line, [3, group.max(3), 0, 2], "8; 0, 0, 0");
    }
    // In a set with children too, when less than k blocks are free: 1 of k = 2.
    for (kind, group) in KINDS {
        let line = format!("{kind} 1 0 0 1024 9");
        takes(3, TWO_PAGES, &line, [2, group.max(2), 2, 1], "8; 0, 0, 0");
        // With k free the own blocks are had, and both children are marked.
        takes(4, TWO_PAGES, &line, [2, group.max(2), 2, 2], "0; 2, 0, 2");
    }
}

/// Just k + k x c blocks are free, and extra pages find no block: "stays unmapped, marks
/// nothing". By fives, page 62: k = 1, c = 2, so 3 of 7 - 4 = 3. One own block, and page 62
/// for sets 2 and 3. With one block less set 3 is marked, with two less set 2 too, and
/// with none left 8 is given.
#[test]
fn extra_pages_without_a_block_where_there_is_just_enough() {
    let line = "write-groups 5 1 0 31744 1 9";
    let store = takes(7, LAST_FOUR, line, [1, 4, 2, 3], "0; 1, 2, 0");
    // The own block is 4, the copies are 5 and 6; pages 60, 61 and 63 are needed still.
    for (set, map) in [(2, "0:unmapped 62:5 63:unmapped"), (3, "0:unmapped 62:6 63:unmapped")] {
        assert_eq!((store.file(set).state, store.map(set)), (FileState::Own, map.into()));
        assert_eq!(store.reads(set as u32), [vec![0; 30_720], data_bytes(2_048, 1)].concat());
    }
    takes(6, LAST_FOUR, line, [1, 4, 2, 2], "0; 1, 1, 1");
    takes(5, LAST_FOUR, line, [1, 4, 2, 1], "0; 1, 0, 2");
    takes(4, LAST_FOUR, line, [1, 4, 2, 0], "8; 0, 0, 0");
    // By eights, pages 7 and 8: k = 2, c = 1, so 4 of 20 - 16 = 4.
    let line = "write 1 0 4095 2 9";
    let store = takes(20, TWO_EIGHTS, line, [2, 16, 1, 4], "0; 2, 2, 0");
    assert_eq!(store.map(2), "0:unmapped 7:18 9:unmapped");
    takes_and_frees(19, TWO_EIGHTS, line, [2, 16, 1, 3], 1, "0; 2, 1, 1");
    // By threes, pages 2 and 3 of 0 to 5: k = 2, c = 1, so 4 of 10 - 6 = 4.
    let six = "create 0 0; write-narrow 0 0 0 3072 1; make 0 1 1; make 1 2 0";
    let line = "write-groups 3 1 0 1024 1024 9";
    takes(10, six, line, [2, 6, 1, 4], "0; 2, 2, 0");
    takes_and_frees(9, six, line, [2, 6, 1, 3], 1, "0; 2, 1, 1");
}

/// One block less than k + k x c need not be too few. A hole needs an own block and no
/// copy: k = 1, c = 1, one block free. A stored page needs a copy and no own block.
#[test]
fn one_less_can_be_enough() {
    for (kind, group) in KINDS {
        let line = format!("{kind} 0 0 0 1 9");
        let hole = "create 0 0; make 0 1 0";
        takes(1, hole, &line, [1, group, 1, 1], "0; 1, 0, 0");
        let stored = "create 0 0; write-narrow 0 0 0 512 1; make 0 1 0";
        takes(2, stored, &line, [1, group, 1, 1], "0; 0, 1, 0");
    }
}

// Which children count.

/// "c all children of the set, whether or not they have the file". Set 0 has page 0
/// (block 0). Set 3 was marked when the store was full; set 1 has no file, set 2 has page
/// 0 itself. None of them needs page 0, and all count: k + k x c = 4 of 6 - 2 = 4.
#[test]
fn absent_own_and_marked_children_count() {
    let script = "create 0 0; write-narrow 0 0 0 512 1; make 0 3 0; create 0 1; \
        write-narrow 0 1 0 2560 2; write-narrow 0 0 0 1 3; delete 0 1; \
        make 0 1 1; delete 1 0; make 0 2 1; write-narrow 2 0 0 512 7";
    for (kind, group) in KINDS {
        let line = format!("{kind} 0 0 0 1 9");
        let store = takes(6, script, &line, [1, group, 3, 4], "0; 0, 0, 0");
        let states = [1, 2, 3].map(|set| store.file(set).state);
        assert_eq!(states, [FileState::Absent, FileState::Own, FileState::Marked]);
        // A virgin child beside them: c = 4, and one copy.
        let four = format!("{script}; make 0 4 0");
        takes(6, &four, &line, [1, group, 4, 4], "0; 0, 1, 0");
    }
}

/// Virgin children need every page. Both children of set 0 are virgin: k = 1, c = 2, two
/// copies, over k + k x 0 = 1. Set 1 is virgin itself and has a virgin child: k = 1, c =
/// 1, and 2 blocks are taken; with only one free the child is marked.
#[test]
fn virgin_children_count() {
    let two = "create 0 0; write-narrow 0 0 0 512 1; make 0 1 0; make 0 2 0";
    takes(4, two, "write-narrow 0 0 0 1 9", [1, 1, 2, 3], "0; 0, 2, 0");
    let below = "create 0 0; write-narrow 0 0 0 512 1; make 0 1 1; make 1 2 0";
    takes(3, below, "write-narrow 1 0 0 1 9", [1, 1, 1, 2], "0; 1, 1, 0");
    takes(2, below, "write-narrow 1 0 0 1 9", [1, 1, 1, 1], "0; 1, 0, 1");
}

/// Sets below the children, siblings and the parent do not count, nor does a set that
/// was removed. A child that never had the file does.
#[test]
fn only_children_count() {
    // Set 1 has one child, set 4; below it is set 5; sets 2 and 3 are beside set 1.
    let tree = "create 0 0; write-narrow 0 0 0 512 1; make 0 1 1; make 0 2 0; make 0 3 1; \
        make 1 4 1; make 4 5 0";
    takes(3, tree, "write-narrow 1 0 0 1 9", [1, 1, 1, 2], "0; 1, 1, 0");
    takes(6, tree, "write-narrow 0 0 0 1 9", [1, 1, 3, 5], "0; 0, 3, 0");
    let removed = "create 0 0; write-narrow 0 0 0 512 1; make 0 1 0; make 0 2 0; remove 1";
    takes(3, removed, "write-narrow 0 0 0 1 9", [1, 1, 1, 2], "0; 0, 1, 0");
    let without = "make 0 1 0; create 0 0";
    takes(1, without, "write 0 0 0 1 9", [1, 8, 1, 1], "0; 1, 0, 0");
    // Files of other numbers have no part in it: file 1 of set 2 is not marked.
    let other = "create 0 1; write-narrow 0 1 0 512 1; make 0 1 1; make 1 2 0; create 1 0";
    takes(2, other, "write 1 0 0 1 9", [1, 8, 1, 1], "0; 1, 0, 0");
}

/// Seven children of set 0, which are all sets. Its pages 0 to 7 are in blocks 0 to 7.
#[test]
fn seven_children() {
    let makes: String = (1..8).map(|set| format!("; make 0 {set} {}", set % 2)).collect();
    let script = format!("create 0 0; write-narrow 0 0 0 4096 1{makes}");
    // By eights k = 1, p = 8, c = 7: 8 x 7 = 56 copies of 64 - 8 = 56.
    takes(64, &script, "write 0 0 0 1 9", [1, 8, 7, 56], "0; 0, 56, 0");
    takes(64, &script, "write-narrow 0 0 0 1 9", [1, 1, 7, 56], "0; 0, 7, 0");
    // k + k x c = 8 of 16 - 8 = 8: seven copies of page 0 and one of page 1.
    takes(16, &script, "write 0 0 0 1 9", [1, 8, 7, 8], "0; 0, 8, 0");
    takes(16, &script, "write-narrow 0 0 0 1 9", [1, 1, 7, 8], "0; 0, 7, 0");
    // Set 0 needs no own block here, so 7 do, and with 6 the last child is marked.
    takes(15, &script, "write 0 0 0 1 9", [1, 8, 7, 7], "0; 0, 7, 0");
    let store = takes(14, &script, "write 0 0 0 1 9", [1, 8, 7, 6], "0; 0, 6, 1");
    assert!(store.is_marked(7) && !store.is_marked(6));
}

/// Six children of set 1: k = 1, c = 6. One own block and six copies are 1 + 1 x 6 = 7 of
/// 8 - 1; with one less the last child is marked.
#[test]
fn six_children_of_a_reader() {
    let makes: String = (2..8).map(|set| format!("; make 1 {set} 0")).collect();
    let script = format!("create 0 0; write-narrow 0 0 0 512 1; make 0 1 1{makes}");
    for (kind, group) in KINDS {
        let line = format!("{kind} 1 0 0 1 9");
        takes(8, &script, &line, [1, group, 6, 7], "0; 1, 6, 0");
        let store = takes(7, &script, &line, [1, group, 6, 6], "0; 1, 5, 1");
        assert!(store.is_marked(7) && !store.is_marked(6));
    }
}

/// Sets 1 to 4 are made one from the other; sets 5, 6 and 7, made from set 4, have level
/// 5. Pages 0 and 1 are in blocks 0 and 1 of set 0.
#[test]
fn level_5() {
    let script = "create 0 0; write-narrow 0 0 0 1024 1; make 0 1 1; make 1 2 1; make 2 3 1; \
        make 3 4 1; make 4 5 1; make 4 6 0; make 4 7 0";
    for (kind, group) in KINDS {
        let p = group.max(2);
        // In set 4: k = 2, c = 3. 2 + 2 x 3 = 8 of 10 - 2; with one less set 7 is marked.
        let line = format!("{kind} 4 0 0 1024 9");
        takes(10, script, &line, [2, p, 3, 8], "0; 2, 6, 0");
        takes_and_frees(9, script, &line, [2, p, 3, 7], 1, "0; 2, 5, 1");
        // In set 5, of level 5: no children. k = 2 of 4 - 2; with one less 8.
        let line = format!("{kind} 5 0 0 1024 9");
        takes(4, script, &line, [2, p, 0, 2], "0; 2, 0, 0");
        takes(3, script, &line, [2, p, 0, 1], "8; 0, 0, 0");
        // In set 3: c = 1. 2 + 2 x 1 = 4 of 6 - 2; with one less set 4 is marked, and the
        // three sets below it.
        let line = format!("{kind} 3 0 0 1024 9");
        takes(6, script, &line, [2, p, 1, 4], "0; 2, 2, 0");
        takes_and_frees(5, script, &line, [2, p, 1, 3], 1, "0; 2, 1, 4");
    }
}

// Blocks that marking freed.

/// B=4: create; write 0..1; make 1; make 2; write 0..1. Two blocks are free, one each for
/// page 0; at page 1 set 1 is marked, and set 2 takes its block. Three copies, over 2.
#[test]
fn more_is_taken_than_was_free() {
    let script = "create 0 0; write-narrow 0 0 0 1024 1; make 0 1 0; make 0 2 0";
    let line = "write-narrow 0 0 0 1024 9";
    let store = takes_and_frees(4, script, line, [2, 2, 2, 2], 1, "0; 0, 3, 1");
    assert!(store.is_marked(1));
    assert_eq!(store.map(2), "0:3 1:2 2:unmapped");
    assert_eq!(store.reads(2), data_bytes(1_024, 1));
}

/// "a block as often as it was freed". B=8: create; write 0..3; make 1, 2, 3, 4; write 0..3.
/// Pages 0 to 3 are in blocks 0 to 3. Page 0 goes to blocks 4 to 7, for sets 1 to 4. Page 1:
/// set 1 is marked (4), set 2 takes 4, set 3 is marked (6), set 4 takes 6. Page 2: set 2 is
/// marked (5 and 4), and set 4 takes 4, the first free one from next start 7, going round.
/// Page 3: set 4 takes 5. Eight copies; 4 blocks were free, and 3 different ones were freed,
/// block 4 twice: counted once each they would be 7.
#[test]
fn a_block_counts_as_often_as_it_was_freed() {
    let script =
        "create 0 0; write-narrow 0 0 0 2048 1; make 0 1 0; make 0 2 0; make 0 3 0; make 0 4 0";
    let line = "write-narrow 0 0 0 2048 9";
    let store = takes_and_frees(8, script, line, [4, 4, 4, 4], 4, "0; 0, 8, 3");
    assert!([1, 2, 3].into_iter().all(|set| store.is_marked(set)));
    assert_eq!(store.reads(4), data_bytes(2_048, 1));
    assert_eq!(store.free(), 0);
    let call = call_of(line);
    let before = Store::after(8, script).state();
    let freed = Turns::of(&call, &before).unwrap().freed();
    assert_eq!(freed.iter().collect::<BTreeSet<_>>().len(), 3);
    assert_eq!(freed.len(), 4);
}

/// B=6: create; write 0..2; make 1; make 2; grouped 0..1 by 3. Set 1 gets pages 0 and 1, set
/// 2 page 0; set 2 is marked at page 1, and the extra page 2 takes its block for set 1.
/// Narrowly the block stays free.
#[test]
fn an_extra_page_takes_a_freed_block() {
    let script = "create 0 0; write-narrow 0 0 0 1536 1; make 0 1 0; make 0 2 0";
    let grouped = "write-groups 3 0 0 0 1024 9";
    takes_and_frees(6, script, grouped, [2, 3, 2, 3], 1, "0; 0, 4, 1");
    let narrow = "write-narrow 0 0 0 1024 9";
    takes_and_frees(6, script, narrow, [2, 2, 2, 3], 1, "0; 0, 3, 1");
}

// Writes that take nothing.

/// "k counts touched pages (0 for an empty write)": 0 blocks are enough, also in a full
/// store with a child that needs the page.
#[test]
fn an_empty_write() {
    let script = "create 0 0; write-narrow 0 0 0 512 1; make 0 1 0";
    for (kind, _) in KINDS {
        for offset in [0, 100, 512, 32_768] {
            let line = format!("{kind} 0 0 {offset} 0 9");
            let store = takes(1, script, &line, [0, 0, 1, 0], "0; 0, 0, 0");
            assert_eq!(store.file(1).state, FileState::Virgin);
        }
    }
}

/// The page is stored in the file's own map, and no child needs it: with no block free,
/// one less than k = 1.
#[test]
fn a_write_that_takes_nothing() {
    for (kind, group) in KINDS {
        let line = format!("{kind} 0 0 0 512 9");
        let script = "create 0 0; write-narrow 0 0 0 512 1";
        let store = takes(1, script, &line, [1, group, 0, 0], "0; 0, 0, 0");
        assert_eq!(store.reads(0), pages(&[9]));
        // Set 1 has the page itself; its other pages become holes by groups.
        let script = format!("{script}; make 0 1 1; write-narrow 1 0 0 512 2");
        takes(2, &script, &line, [1, group, 1, 0], "0; 0, 0, 0");
    }
}

/// Of a write that is refused with another number than 8, and on tables that are not well
/// formed, it is judged only that it took nothing.
#[test]
fn refused_writes_take_nothing() {
    let refused = [
        ("make 0 1 0", "write 9 0 0 1 9", 2),
        ("make 0 1 0", "write 0 16 0 1 9", 3),
        ("make 0 1 0", "write-narrow 1 0 0 1 9", 4),
        ("make 0 1 0", "write-narrow 0 1 0 1 9", 5),
        // Set 1 is marked: the only block is that of set 0.
        ("write-narrow 0 0 0 1 1; make 0 1 1; write 0 0 0 1 9", "write 1 0 0 1 9", 6),
        ("make 0 1 0", "write-groups 7 0 0 32768 1 9", 7),
        ("make 0 1 0", "write 0 0 4294967295 70000 9", 7),
        // The header's zero field is not zero.
        ("make 0 1 0", "poke 3 1", 1),
        ("make 0 1 0", "tables 100", 1),
        ("make 0 1 0", "pages 511", 1),
    ];
    for (script, line, number) in refused {
        let mut store = Store::after(1, &format!("create 0 0; {script}"));
        let done = match number {
            1 => {
                store.does(line);
                Done::on(&mut store, "write 0 0 0 1 9")
            }
            _ => Done::on(&mut store, line),
        };
        assert_eq!(done.answer, Answer::refused(number), "{line}");
        assert_eq!((done.room(), done.judgement().outcome()), (None, Ok(())));
        assert_eq!(done.judgement().cases, [false; CASES.len()]);
    }
}

// How k and p are reckoned.

fn write_of(group: usize, offset: u32, length: usize) -> AnyWrite {
    AnyWrite { group, set: 0, file: 0, offset, length, seed: 1 }
}

#[test]
fn touched_pages() {
    let tables = State::formatted(5).packed();
    let cases = [
        (0, 0, 0),
        (600, 0, 0),
        (0, 1, 1),
        (0, 512, 1),
        (0, 513, 2),
        (511, 1, 1),
        (511, 2, 2),
        (511, 514, 3),
        (100, 412, 1),
        (100, 413, 2),
        (32_767, 1, 1),
        (0, 32_768, 64),
        (1, 32_767, 64),
    ];
    for (offset, length, touched) in cases {
        let wanted = Room { touched, in_groups: touched, children: 0, free: 5, freed: 0 };
        assert_eq!(Room::of(&write_of(1, offset, length), &tables), wanted, "{offset} {length}");
    }
}

/// First and last touched page, the size of groups, and p.
const IN_GROUPS: [(usize, usize, usize, usize); 24] = [
    (62, 62, 1, 1),
    (62, 62, 2, 2),
    (62, 62, 3, 3),
    (63, 63, 3, 1),
    // 60 to 63; 55 to 63.
    (62, 62, 5, 4),
    (59, 60, 5, 9),
    // 56 to 62; 63 alone; both.
    (62, 62, 7, 7),
    (63, 63, 7, 1),
    (62, 63, 7, 8),
    (7, 8, 8, 16),
    (0, 7, 8, 8),
    (1, 14, 8, 16),
    // 0 to 25; 52 to 63.
    (12, 13, 13, 26),
    (63, 63, 13, 12),
    // 44 to 63.
    (63, 63, 22, 20),
    // 31 to 61; 62 and 63; both.
    (61, 61, 31, 31),
    (62, 62, 31, 2),
    (61, 62, 31, 33),
    // 33 to 63; all.
    (40, 40, 33, 31),
    (32, 33, 33, 64),
    (62, 62, 63, 63),
    (63, 63, 63, 1),
    (0, 63, 1, 64),
    (5, 5, 64, 64),
];

/// "any group size from 1 to 64, the last group ending at page 63".
#[test]
fn pages_of_touched_groups() {
    let tables = State::formatted(5).packed();
    for (first, last, group, in_groups) in IN_GROUPS {
        let touched = last + 1 - first;
        let write = write_of(group, (first * PAGE_BYTES) as u32, touched * PAGE_BYTES);
        let wanted = Room { touched, in_groups, children: 0, free: 5, freed: 0 };
        assert_eq!(Room::of(&write, &tables), wanted, "{first} {last} {group}");
        assert_eq!(wanted.enough(), touched);
    }
}

// The judge can say no.

/// Turns the bit of a block.
fn turn_bit(tables: &mut [u8], block: usize) {
    tables[4 + block / 8] ^= 0x80 >> (block % 8);
}

/// Gives a file the state 3.
fn mark(tables: &mut [u8], set: usize, file: usize) {
    tables[572 + 132 * (set * 16 + file)] |= 0xC0;
}

/// What is changed in an answer or in the tables after a write.
type Change = fn(&mut Done);

/// A write, a change of it, and the bounds that are broken then.
type Case = (fn() -> Done, Change, &'static [Bound]);

const NO_BOUND: [Bound; 0] = [];

/// The bounds that are broken once this is changed, in the order of `Bound::ALL`.
fn broken(done: &Done, change: Change) -> Vec<Bound> {
    let mut changed = done.clone();
    change(&mut changed);
    let mut bounds: Vec<Bound> =
        changed.judgement().broken.iter().map(|broken| broken.bound).collect();
    bounds.sort();
    bounds
}

/// What the judge says once this is changed.
fn says(done: &Done, change: Change) -> String {
    let mut changed = done.clone();
    change(&mut changed);
    changed.judgement().outcome().expect_err("a bound is broken")
}

/// k = 2, p = 2, c = 2, 8 blocks free, which are enough: 0; 2, 4, 0. Blocks 0 to 7 are
/// used then, 8 and 9 are free.
fn narrow() -> Done {
    Done::after(10, TWO_PAGES, "write-narrow 1 0 0 1024 9")
}

/// The same with 5 blocks free, which are not: 0; 2, 3, 1. Block 5 was taken and freed.
fn too_few() -> Done {
    Done::after(7, TWO_PAGES, "write-narrow 1 0 0 1024 9")
}

/// B=4: create; write 1..2; make 1; write(1,0 page 0); write 0..1: 0; 1, 0, 1. One block was
/// free, block 3, which is the own block of page 0; block 2, set 1's own, is free after.
fn frees() -> Done {
    let script = "create 0 0; write-narrow 0 0 512 1024 1; make 0 1 1; write-narrow 1 0 0 512 2";
    Done::after(4, script, "write-narrow 0 0 0 1024 9")
}

/// And with 1: 8; 0, 0, 0.
fn refused() -> Done {
    Done::after(3, TWO_PAGES, "write-narrow 1 0 0 1024 9")
}

/// k = 2, p = 16, c = 1, 24 blocks free: 0; 2, 16, 0.
fn by_eights() -> Done {
    Done::after(40, TWO_EIGHTS, "write 1 0 4095 2 9")
}

/// k = 1, p = 4, c = 2, 16 blocks free: 0; 1, 8, 0.
fn by_fives() -> Done {
    Done::after(20, LAST_FOUR, "write-groups 5 1 0 31744 1 9")
}

/// Refused, with the tables as they were.
fn refuse(done: &mut Done, number: u32) {
    done.answer = Answer::refused(number);
    done.after = done.before.clone();
}

/// The file is own after all.
fn unmark(tables: &mut [u8], set: usize, file: usize) {
    tables[572 + 132 * (set * 16 + file)] ^= 0x80;
}

/// Changes of an accepted write, and the bounds that they break, found by hand.
const ACCEPTED: [Case; 30] = [
    // 3 > k; 3 + 4 > 6; 2 left + 7 is not 8; 6 new bits are not 7.
    (
        narrow,
        |done| done.answer.first = 3,
        &[Bound::OwnBlocks, Bound::Narrow, Bound::FreeAfter, Bound::NothingMarked],
    ),
    // 5 > 2 x 2; 2 + 5 > 6.
    (
        narrow,
        |done| done.answer.second = 5,
        &[Bound::Copies, Bound::Narrow, Bound::FreeAfter, Bound::NothingMarked],
    ),
    // 9 + 4 > 8 free.
    (
        narrow,
        |done| done.answer.first = 9,
        &[
            Bound::OwnBlocks,
            Bound::FreeBefore,
            Bound::Narrow,
            Bound::FreeAfter,
            Bound::NothingMarked,
        ],
    ),
    // Too little said, within all bounds of the counts: 6 new bits are over it.
    (
        narrow,
        |done| done.answer.first = 1,
        &[Bound::FreeAfter, Bound::BitsNewlyOne, Bound::NothingMarked],
    ),
    (
        narrow,
        |done| done.answer.second = 0,
        &[Bound::FreeAfter, Bound::BitsNewlyOne, Bound::NothingMarked],
    ),
    // One more own block and one copy less: the sum is right.
    (narrow, |done| (done.answer.first, done.answer.second) = (3, 3), &[Bound::OwnBlocks]),
    (narrow, |done| (done.answer.first, done.answer.second) = (1, 5), &[Bound::Copies]),
    // Block 0, which was used, is free: 3 left + 6 is not 8.
    (narrow, |done| turn_bit(&mut done.after, 0), &[Bound::FreeAfter, Bound::BitsStay]),
    // Block 7, which was taken, is free: 5 new bits.
    (narrow, |done| turn_bit(&mut done.after, 7), &[Bound::FreeAfter, Bound::NothingMarked]),
    // Block 8 is used too: 7 new bits.
    (
        narrow,
        |done| turn_bit(&mut done.after, 8),
        &[Bound::FreeAfter, Bound::BitsNewlyOne, Bound::NothingMarked],
    ),
    // A bit from B up is not among the free blocks, but it is newly 1.
    (narrow, |done| turn_bit(&mut done.after, 10), &[Bound::BitsNewlyOne, Bound::NothingMarked]),
    (narrow, |done| turn_bit(&mut done.after, 4_095), &[Bound::BitsNewlyOne, Bound::NothingMarked]),
    // Another block for one that was used: as many are left.
    (
        narrow,
        |done| [1, 9].into_iter().for_each(|block| turn_bit(&mut done.after, block)),
        &[Bound::BitsStay, Bound::BitsNewlyOne, Bound::NothingMarked],
    ),
    (narrow, |done| done.answer.third = 1, &[Bound::ThirdCount]),
    // A child's file; the file itself; an absent one; one of an unused set.
    (narrow, |done| mark(&mut done.after, 3, 0), &[Bound::NoMark]),
    (narrow, |done| mark(&mut done.after, 1, 0), &[Bound::NoMark]),
    (narrow, |done| mark(&mut done.after, 0, 5), &[Bound::NoMark]),
    (narrow, |done| mark(&mut done.after, 7, 15), &[Bound::NoMark]),
    // With too few blocks free a file may be marked. 3 + 3 are not over 5 free and 1 freed,
    // and 4 + 3 are; and not over 6, and are. 4 bits are newly 1.
    (too_few, |done| mark(&mut done.after, 2, 0), &[]),
    (too_few, |done| done.answer.first = 3, &[Bound::OwnBlocks, Bound::FreeAfter]),
    (
        too_few,
        |done| done.answer.first = 4,
        &[Bound::OwnBlocks, Bound::FreeBefore, Bound::Narrow, Bound::FreeAfter],
    ),
    // 1 left + 1 + 0 is 1 free + 1 freed. Block 2 may fall, and block 0 may not; if block 2
    // does not fall, 0 are left.
    (frees, |done| turn_bit(&mut done.after, 2), &[Bound::FreeAfter]),
    (frees, |done| turn_bit(&mut done.after, 0), &[Bound::FreeAfter, Bound::BitsStay]),
    (frees, |done| done.answer.second = 1, &[Bound::FreeAfter]),
    (frees, |done| unmark(&mut done.after, 1, 0), &[Bound::BitsStay, Bound::NothingMarked]),
    // A file of another number: its marking is no reason for block 2 to fall.
    (
        frees,
        |done| {
            unmark(&mut done.after, 1, 0);
            mark(&mut done.after, 1, 5);
        },
        &[Bound::BitsStay],
    ),
    // 17 > 16 x 1; 2 + 17 > 2 + (2 + 14) x 1.
    (
        by_eights,
        |done| done.answer.second = 17,
        &[Bound::Copies, Bound::ByEights, Bound::FreeAfter, Bound::NothingMarked],
    ),
    // 9 > 4 x 2. By groups of another size there is no bound of the sum but the free
    // blocks.
    (
        by_fives,
        |done| done.answer.second = 9,
        &[Bound::Copies, Bound::FreeAfter, Bound::NothingMarked],
    ),
    (by_fives, |done| done.answer.third = 2, &[Bound::ThirdCount]),
    // Which blocks are taken is not judged: block 9 for block 7.
    (narrow, |done| [7, 9].into_iter().for_each(|block| turn_bit(&mut done.after, block)), &[]),
];

/// The same of refused writes.
const REFUSED: [Case; 12] = [
    // With enough blocks free, for each kind.
    (narrow, |done| refuse(done, 8), &[Bound::NoRefusal]),
    (by_eights, |done| refuse(done, 8), &[Bound::NoRefusal]),
    (by_fives, |done| refuse(done, 8), &[Bound::NoRefusal]),
    // Refused with 8, and yet done.
    (narrow, |done| done.answer = Answer::refused(8), &[Bound::NoRefusal, Bound::SameBytes]),
    // 5 free are fewer than 6: whether 8 is right then is not judged here.
    (too_few, |done| refuse(done, 8), &[]),
    (too_few, |done| refuse(done, 7), &[]),
    (refused, |done| done.answer.first = 1, &[Bound::NoCounts]),
    (refused, |done| done.answer.second = 1, &[Bound::NoCounts]),
    (refused, |done| done.answer.third = 1, &[Bound::NoCounts]),
    (refused, |done| turn_bit(&mut done.after, 2), &[Bound::SameBytes]),
    // The last byte of the tables, in a write refused with 5.
    (
        refused,
        |done| {
            done.answer.number = 5;
            done.after[TABLES_BYTES - 1] ^= 1;
        },
        &[Bound::SameBytes],
    ),
    (
        refused,
        |done| {
            done.answer = Answer { number: 6, first: 0, second: 3, third: 0 };
            mark(&mut done.after, 1, 0);
        },
        &[Bound::NoCounts, Bound::SameBytes],
    ),
];

/// Each bound is broken by one of the changes at least, and none is broken without.
#[test]
fn each_bound_can_be_broken() {
    let mut seen = BTreeSet::new();
    for (place, (done, change, bounds)) in ACCEPTED.iter().chain(&REFUSED).enumerate() {
        let done = done();
        assert_eq!(broken(&done, |_| {}), NO_BOUND, "{place}");
        assert_eq!(broken(&done, *change), *bounds, "{place}");
        seen.extend(*bounds);
    }
    assert_eq!(seen, BTreeSet::from(Bound::ALL));
}

/// "A judgement that fails says in words which bound, with the numbers."
#[test]
fn what_the_judge_says() {
    let first_is_9 = "room: the first count is 9, over the 2 touched pages; \
        9 + 4 blocks taken are over the 8 that were free and the 0 that marking freed; \
        9 + 4 blocks taken narrowly are over 2 + 2 x 2; \
        9 + 4 blocks taken of 8 free and 0 freed leave 2 free; \
        nothing is marked, 6 bits are newly 1 of 9 + 4 blocks taken, and 0 are freed";
    assert_eq!(says(&narrow(), |done| done.answer.first = 9), first_is_9);
    let second_is_17 = "room: the second count is 17, over 16 pages of groups times 1 children; \
        2 + 17 blocks taken by eights are over 2 + (2 + 14) x 1; \
        2 + 17 blocks taken of 24 free and 0 freed leave 6 free; \
        nothing is marked, 18 bits are newly 1 of 2 + 17 blocks taken, and 0 are freed";
    assert_eq!(says(&by_eights(), |done| done.answer.second = 17), second_is_17);
    let too_little = "room: 1 + 4 blocks taken of 8 free and 0 freed leave 2 free; \
        6 bits are newly 1, over the 1 + 4 blocks taken; \
        nothing is marked, 6 bits are newly 1 of 1 + 4 blocks taken, and 0 are freed";
    assert_eq!(says(&narrow(), |done| done.answer.first = 1), too_little);
    let dropped = "room: 2 + 4 blocks taken of 8 free and 0 freed leave 3 free; \
        the bit of block 1 was 1 and is 0";
    assert_eq!(says(&narrow(), |done| turn_bit(&mut done.after, 1)), dropped);
    let though = "though 8 blocks were free and 2 + 2 x 2 are enough";
    let third = format!("room: the third count is 4, {though}");
    assert_eq!(says(&narrow(), |done| done.answer.third = 4), third);
    let marked = format!("room: set 3 file 12 became marked, {though}");
    assert_eq!(says(&narrow(), |done| mark(&mut done.after, 3, 12)), marked);
    assert_eq!(says(&narrow(), |done| refuse(done, 8)), format!("room: refused with 8, {though}"));
    let counts = "room: nothing may be taken, and the answer is 8; 0, 7, 0";
    assert_eq!(says(&refused(), |done| done.answer.second = 7), counts);
    let bytes = "room: nothing may be taken, and the tables changed at byte 4";
    assert_eq!(says(&refused(), |done| turn_bit(&mut done.after, 2)), bytes);
}

/// On tables that are not well formed, or with pages or tables of another length, it is
/// judged only that the write took nothing, whatever it answers.
#[test]
fn tables_that_are_not_well_formed() {
    // The header's zero field; the bit of a free block, so that fewer seem to be free.
    for line in ["poke 3 1", "poke 4 255", "tables 100", "tables 0", "pages 511"] {
        let mut store = Store::after(10, TWO_PAGES);
        store.does(line);
        let done = Done::on(&mut store, "write-narrow 1 0 0 1024 9");
        assert_eq!(done.answer, Answer::refused(1), "{line}");
        assert_eq!(broken(&done, |_| {}), NO_BOUND, "{line}");
        assert_eq!(broken(&done, |done| done.answer.number = 0), NO_BOUND, "{line}");
        assert_eq!(broken(&done, |done| done.answer.number = 8), NO_BOUND, "{line}");
        let takes = |done: &mut Done| done.answer = Answer::accepted([2, 4, 0]);
        assert_eq!(broken(&done, takes), [Bound::NoCounts], "{line}");
        let changes = |done: &mut Done| done.after.iter_mut().for_each(|byte| *byte ^= 1);
        let wanted: &[Bound] = if line == "tables 0" { &[] } else { &[Bound::SameBytes] };
        assert_eq!(broken(&done, changes), wanted, "{line}");
    }
}

// The writes of another implementation.

/// Another implementation of `write` and `write-narrow`: the right one, with a fault in
/// the answer or the tables.
struct Faulty(fn(&mut Answer, &mut [u8]));

impl Other for Faulty {
    fn has(&self, index: usize) -> bool {
        ["write", "write-narrow"].contains(&CALL_NAMES[index])
    }

    fn run(&mut self, index: usize, numbers: &Numbers, lent: Lent) -> Answer {
        let Lent { tables, pages, bytes, .. } = lent;
        let lent = Lent::store(&mut *tables, pages, bytes);
        let mut answer = store::run(index, numbers, lent);
        (self.0)(&mut answer, tables);
        answer
    }
}

fn said_of(fault: fn(&mut Answer, &mut [u8]), line: &str) -> Result<Answer, String> {
    Store::after(10, TWO_PAGES).0.call(&call_of(line), &mut Faulty(fault))
}

/// The other implementation's answer and bytes are judged, and what differs from the
/// oracle's is said too.
#[test]
fn writes_of_another_implementation_are_judged() {
    let line = "write-narrow 1 0 0 1024 9";
    assert_eq!(said_of(|_, _| {}, line), Ok(Answer::accepted([2, 4, 0])));
    let counts = "the answer is 0; 2, 5, 0; the oracle's is 0; 2, 4, 0; \
        room: the second count is 5, over 2 pages of groups times 2 children; \
        2 + 5 blocks taken narrowly are over 2 + 2 x 2; \
        2 + 5 blocks taken of 8 free and 0 freed leave 2 free; \
        nothing is marked, 6 bits are newly 1 of 2 + 5 blocks taken, and 0 are freed";
    assert_eq!(said_of(|answer, _| answer.second += 1, line), Err(counts.to_string()));
    let bits = "tables differ at byte 4: 0x7f; the oracle's is 0xff; \
        room: 2 + 4 blocks taken of 8 free and 0 freed leave 3 free; \
        the bit of block 0 was 1 and is 0";
    assert_eq!(said_of(|_, tables| turn_bit(tables, 0), line), Err(bits.to_string()));
    // Within all bounds: only the difference is said.
    let same_room = "tables differ at byte 4: 0xfe; the oracle's is 0xff";
    let moves = |_: &mut Answer, tables: &mut [u8]| {
        turn_bit(tables, 7);
        turn_bit(tables, 9);
    };
    assert_eq!(said_of(moves, line), Err(same_room.to_string()));
}

// What is told.

const NARROW: &str = "write-narrow 1 0 0 1024 9";
const BY_EIGHTS: &str = "write 1 0 0 1024 9";
const BY_FIVES: &str = "write-groups 5 1 0 31744 1 9";

/// Each write with the cases that it meets, by their place in `CASES`, found by hand.
const COUNTED: [(usize, &str, &str, &[usize]); 14] = [
    // 7 free, 6 enough and taken.
    (9, TWO_PAGES, NARROW, &[0, 3, 4]),
    // Just 6 free.
    (8, TWO_PAGES, NARROW, &[0, 1, 3, 4, 6]),
    // 5 free, all taken, a file marked, and its block free after.
    (7, TWO_PAGES, NARROW, &[2, 3, 6, 7, 11]),
    // 2 free, and 3 copies, by the block that marking freed.
    (
        4,
        "create 0 0; write-narrow 0 0 0 1024 1; make 0 1 0; make 0 2 0",
        "write-narrow 0 0 0 1024 9",
        &[7, 10],
    ),
    // 1 free.
    (3, TWO_PAGES, NARROW, &[8]),
    // By eights, 6 free and taken; p x c is 16.
    (8, TWO_PAGES, BY_EIGHTS, &[0, 1, 3, 6]),
    (10, TWO_PAGES, BY_EIGHTS, &[0, 3]),
    // All pages of the group are copied.
    (13, LAST_FOUR, BY_FIVES, &[0, 3, 5, 6, 9]),
    (14, LAST_FOUR, BY_FIVES, &[0, 3, 5, 9]),
    // Just 3 free, so the touched page alone.
    (7, LAST_FOUR, BY_FIVES, &[0, 1, 3, 6]),
    // No children.
    (3, "create 0 0", "write 0 0 0 1536 9", &[0, 1, 3, 6]),
    (2, "create 0 0", "write 0 0 0 1536 9", &[2, 8]),
    // Of no page, and refused with 7.
    (2, "create 0 0", "write 0 0 0 0 9", &[]),
    (2, "create 0 0", "write 0 0 32768 1 9", &[]),
];

#[test]
fn writes_judged_are_counted() {
    for (blocks, script, line, met) in COUNTED {
        let mut store = Store::after(blocks, script);
        store.0.counts = Default::default();
        store.0.call(&call_of(line), &mut Faulty(|_, _| {})).unwrap();
        let linked = u64::from(!line.starts_with("write-groups"));
        let mut wanted = Judged { writes: 1, linked, met: [0; CASES.len()] };
        for case in met {
            wanted.met[*case] = 1;
        }
        assert_eq!(store.0.counts.room, wanted, "{blocks}; {script}; {line}");
        assert_eq!(store.0.counts.room.unmet().len(), CASES.len() - met.len());
    }
}

/// All calls but writes are left out; one line tells all.
#[test]
fn the_line_that_tells_of_it() {
    let mut store = Store::after(8, TWO_PAGES);
    store.does("write-narrow 1 0 0 1024 9");
    store.does("truncate 1 0 0");
    store.does("read 1 0 0 512");
    // The first write is that of the script: k = 2, c = 0, 8 free.
    let wanted = "2, of the library 0; k + k x c blocks free or more: 2; just k + k x c free: 1; \
        one less free: 0; first = k: 2; narrow, first + second = k + k x c, c > 0: 1; \
        by groups, second = p x c, p > k, c > 0: 0; first + second = free, over 0: 1; \
        fewer than k + k x c free, a file marked: 0; \
        fewer than k + k x c free, refused with 8: 0; \
        by groups, first + second over k + k x c: 0; \
        first + second over free, marking having freed some: 0; \
        marking freed some, and a block is free after: 0";
    assert_eq!(store.0.counts.room.to_string(), wanted);
}
