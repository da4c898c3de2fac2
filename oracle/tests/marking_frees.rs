//! Ask 10 of document 02, "Marked files give their room back", as it is read in
//! docs/DECISIONS.md, "Readings of 02", Ask 10. The expected answers, maps and bytes were
//! worked out by hand from the papers. Each script runs with plain store and tally beside.
//! All files have number 0; in the comments "set 1" is short for the file of set 1. That a
//! marked file has size 0 and all entries unmapped is asked by `is_marked`.

use oracle::bench::{Bench, NoOther};
use oracle::call::*;
use oracle::check::{check_all, check_blocks, check_older, is_well_formed, Rule};
use oracle::conversion::{cleared, loaded, loaded_files, narrowed, widened, Converted, Load};
use oracle::markings::{Case, Met};
use oracle::state::*;
use oracle::store;
use oracle::turns::{Turn, Turns};

mod faulty;
use faulty::{Fault, Faulty};
mod script;
use script::{difference, pages, right, Run, Store, Wrong};

/// File 0 with page 0 of seed 1 in block 0 and page 1 of seed 2 in block 1.
const TWO_PAGES: &str = "create 0 0; write-narrow 0 0 0 512 1; write-narrow 0 0 512 512 2";

// What marking frees.

/// "Marking now frees its stored blocks at that moment". B=4: create; write 1..2; make 1;
/// write(1,0 page 0); write 0..1. The own block of page 0 is 3. Page 0 is a hole of set 0,
/// and set 1 has it itself (block 2); page 1 finds no block for set 1.
#[test]
fn the_files_own_blocks() {
    let script = "create 0 0; write-narrow 0 0 512 1024 1; make 0 1 1; write-narrow 1 0 0 512 2";
    let mut store = Store::after(4, script);
    assert_eq!(store.map(1), "0:2 1:unmapped");
    assert_eq!(store.does("write-narrow 0 0 0 1024 9"), "0; 1, 0, 1");
    assert!(store.is_marked(1));
    assert_eq!(store.map(0), "0:3 1:0 3:hole");
    assert_eq!((store.free(), store.state().bits[2]), (1, false));
    // Block 3 was taken last, and freeing changes no next start.
    assert_eq!(store.state().next_start, 0);
    // "A freed block keeps its bytes."
    assert_eq!(store.0.pages()[1_024..1_536], pages(&[2]));
}

/// "leaves size 0 and all entries unmapped": the size that step 2 gave is lost, and holes
/// too. Set 1 gets page 0 as a hole and is marked at page 1.
#[test]
fn sizes_and_holes() {
    let script = "create 0 0; write-narrow 0 0 512 1 1; make 0 1 0";
    let mut store = Store::after(2, script);
    assert_eq!(store.does("write-narrow 0 0 0 513 2"), "0; 1, 0, 1");
    assert!(store.is_marked(1));
    assert_eq!(store.free(), 0);
}

/// "any handed over earlier in the same call among them": B=2, set 2 takes page 0 over from
/// set 1 and is marked at page 1, which set 1 reads through set 0.
#[test]
fn blocks_handed_over() {
    let script = "create 0 0; write-narrow 0 0 512 512 1; make 0 1 1; write-narrow 1 0 0 512 2; \
        make 1 2 0";
    for call in ["delete 1 0", "truncate 1 0 0"] {
        let mut store = Store::after(2, script);
        assert_eq!(store.does(call), "0; 0, 0, 1");
        assert!(store.is_marked(2));
        assert_eq!((store.free(), store.state().bits[1]), (1, false));
        assert_eq!(store.reads(0), pages(&[0, 1]));
    }
}

/// Copies made in the same call, and they count. B=3: create; write 0..1; make 1; write
/// 0..1: the only free block is set 1's for page 0, and free again after page 1.
#[test]
fn copies_of_the_same_call() {
    let mut store = Store::after(3, &format!("{TWO_PAGES}; make 0 1 0"));
    assert_eq!(store.does("write-narrow 0 0 0 1024 9"), "0; 0, 1, 1");
    assert!(store.is_marked(1));
    assert_eq!((store.free(), store.state().next_start), (1, 0));
}

/// "for dependents too". Set 1 has page 0 in block 2, set 2, made from it, in block 3, and
/// set 3, made from that, is virgin. Set 4, made from set 1, was deleted and created anew:
/// its file has no unmapped page and keeps its block, 4.
#[test]
fn dependents_blocks() {
    let script = format!(
        "{TWO_PAGES}; make 0 1 1; write-narrow 1 0 0 512 3; make 1 2 1; write-narrow 2 0 0 512 4; \
        make 2 3 0; make 1 4 1; delete 4 0; create 4 0; write-narrow 4 0 0 512 5"
    );
    let mut store = Store::after(5, &script);
    assert_eq!(store.free(), 0);
    assert_eq!(store.does("write-narrow 0 0 512 1 9"), "0; 0, 0, 3");
    assert!((1..=3).all(|set| store.is_marked(set)));
    assert_eq!((store.map(4), store.reads(4)), ("0:4 1:hole".into(), pages(&[5])));
    assert_eq!(store.free(), 2);
}

/// A file that has no block of its own frees none.
#[test]
fn a_virgin_file_frees_nothing() {
    let mut store = Store::after(2, &format!("{TWO_PAGES}; make 0 1 0; make 1 2 0"));
    assert_eq!(store.does("write-narrow 0 0 0 1 9"), "0; 0, 0, 2");
    assert!(store.is_marked(1) && store.is_marked(2));
    assert_eq!(store.free(), 0);
}

/// Files of other numbers, and the blocks of siblings and parents, have no part in it.
#[test]
fn other_files_keep_their_blocks() {
    let script = format!(
        "{TWO_PAGES}; make 0 1 1; create 1 1; write-narrow 1 1 0 512 3; write-narrow 1 0 0 512 4; \
        make 0 2 1; write-narrow 2 0 512 512 5"
    );
    let mut store = Store::after(5, &script);
    assert_eq!(store.does("write-narrow 0 0 512 1 9"), "0; 0, 0, 1");
    assert!(store.is_marked(1));
    assert_eq!((store.map(2), store.free()), ("0:unmapped 1:4 2:unmapped".into(), 1));
    assert_eq!(store.does("size 1 1"), "0; 512, 0, 0");
    assert!(store.state().bits[2] && !store.state().bits[3]);
}

/// Delete of a marked file, and removing its set, free nothing: there is nothing left.
#[test]
fn deleting_and_removing_a_marked_file_frees_nothing() {
    let script = format!(
        "{TWO_PAGES}; make 0 1 1; write-narrow 1 0 0 512 3; \
        write-narrow 0 0 512 1 9"
    );
    for call in ["delete 1 0", "remove 1"] {
        let mut store = Store::after(3, &script);
        assert!(store.is_marked(1));
        assert_eq!(store.free(), 1);
        assert_eq!(store.does(call), "0; 0, 0, 0");
        assert_eq!(store.free(), 1);
    }
}

/// A set made from one with a marked file: all marked files are alike.
#[test]
fn a_marked_file_made_from_a_marked_one() {
    let mut store = Store::after(1, "create 0 0; write-narrow 0 0 0 1 1; make 0 1 0");
    store.accepts("write-narrow 0 0 0 1 2; make 1 2 0");
    assert!(store.is_marked(1) && store.is_marked(2));
    assert_eq!(store.file(1), store.file(2));
}

// "A later copy in the same call may take these blocks".

/// A later child of the same page. Set 1 has page 1 itself (block 1) and needs page 0; set 2
/// needs page 0 too. Set 1 is marked, and set 2 takes block 1.
#[test]
fn taken_by_a_later_child_of_the_same_page() {
    let script = "create 0 0; write-narrow 0 0 0 512 1; make 0 1 1; write-narrow 1 0 512 512 2; \
        make 0 2 0";
    let mut store = Store::after(2, script);
    assert_eq!(store.does("write-narrow 0 0 0 512 9"), "0; 0, 1, 1");
    assert!(store.is_marked(1));
    assert_eq!(store.map(2), "0:1 1:unmapped");
    assert_eq!(store.reads(2), pages(&[1]));
    assert_eq!((store.free(), store.state().next_start), (0, 0));
}

/// "The copy that found none is not tried again for the child just marked."
#[test]
fn not_taken_for_the_child_just_marked() {
    let script = "create 0 0; write-narrow 0 0 0 512 1; make 0 1 1; write-narrow 1 0 512 512 2";
    let mut store = Store::after(2, script);
    assert_eq!(store.does("write-narrow 0 0 0 512 9"), "0; 0, 0, 1");
    assert!(store.is_marked(1));
    assert_eq!((store.free(), store.state().next_start), (1, 0));
}

/// A later page. Set 1 is marked at page 0; set 2 has page 0 itself and takes set 1's block
/// for page 1. Of the two blocks that are freed one stays free.
#[test]
fn taken_by_a_later_page() {
    let script = format!(
        "{TWO_PAGES}; make 0 1 1; write-narrow 1 0 1024 1024 3; make 0 2 1; \
        write-narrow 2 0 0 512 5"
    );
    let mut store = Store::after(5, &script);
    assert_eq!((store.map(1), store.map(2)), {
        ("0:unmapped 2:2 4:unmapped".into(), "0:4 1:unmapped".into())
    });
    assert_eq!(store.does("write-narrow 0 0 0 1024 9"), "0; 0, 1, 1");
    assert!(store.is_marked(1));
    assert_eq!(store.map(2), "0:4 1:2 2:unmapped");
    assert_eq!(store.reads(2), pages(&[5, 2]));
    assert_eq!((store.free(), store.state().next_start), (1, 3));
}

/// B=4: create; write 2..4; make 1; make 2; truncate(0,0 to 2048); write page 2: set 1 has
/// taken page 4 over (block 2), set 2 has a copy (block 3). Set 1 is marked, and set 2 takes
/// its block.
#[test]
fn a_block_handed_over_by_an_earlier_call_is_taken() {
    let script = "create 0 0; write-narrow 0 0 1024 1536 1; make 0 1 0; make 0 2 0; \
        truncate 0 0 2048";
    let mut store = Store::after(4, script);
    assert_eq!(store.does("write-narrow 0 0 1024 512 9"), "0; 0, 1, 1");
    assert!(store.is_marked(1));
    assert_eq!(store.map(2), "0:unmapped 2:2 3:unmapped 4:3 5:unmapped");
    assert_eq!(store.reads(2), [vec![0; 1_024], data_bytes(1_536, 1)].concat());
}

/// A dependent's block. Set 1 has nothing itself; set 2, made from it, has page 1 (block 1).
/// Both are marked at page 0, and set 3, made from set 0, takes block 1.
#[test]
fn a_dependents_block_is_taken() {
    let script = "create 0 0; write-narrow 0 0 0 512 1; make 0 1 0; make 1 2 1; \
        write-narrow 2 0 512 512 2; make 0 3 0";
    let mut store = Store::after(2, script);
    assert_eq!(store.does("write-narrow 0 0 0 512 9"), "0; 0, 1, 2");
    assert!(store.is_marked(1) && store.is_marked(2));
    assert_eq!((store.map(3), store.reads(3)), ("0:1 1:unmapped".into(), pages(&[1])));
}

/// An extra page, in the default write. Pages 0 and 1 of set 0; set 1 has page 2 itself and
/// is marked at page 0; set 2 has page 0 itself, and page 1 is extra for it.
#[test]
fn taken_by_an_extra_page() {
    let script = format!(
        "{TWO_PAGES}; make 0 1 1; write-narrow 1 0 1024 512 3; make 0 2 1; \
        write-narrow 2 0 0 512 4"
    );
    let mut store = Store::after(4, &script);
    assert_eq!(store.does("write 0 0 0 1 9"), "0; 0, 1, 1");
    assert!(store.is_marked(1));
    assert_eq!(store.map(2), "0:3 1:2 2:hole 8:unmapped");
    assert_eq!(store.reads(2), pages(&[4, 2]));
    // Narrowly there is no extra page, and the block stays free.
    let mut store = Store::after(4, &script);
    assert_eq!(store.does("write-narrow 0 0 0 1 9"), "0; 0, 0, 1");
    assert_eq!((store.map(2), store.free()), ("0:3 1:unmapped".into(), 1));
}

/// B=4: create; write 0..2; make 1; write 0..1: one block is freed, and nobody takes it.
#[test]
fn a_freed_block_that_nobody_takes() {
    let script = "create 0 0; write-narrow 0 0 0 1536 1; make 0 1 0";
    let mut store = Store::after(4, script);
    assert_eq!(store.does("write-narrow 0 0 0 1024 9"), "0; 0, 1, 1");
    assert_eq!(store.free(), 1);
}

/// Own need is judged before any marking: refusal 8, though marking set 1 would free a
/// block.
#[test]
fn own_need_does_not_count_on_it() {
    let script = "create 0 0; write-narrow 0 0 0 512 1; make 0 1 1; write-narrow 1 0 512 512 2";
    let mut store = Store::after(2, script);
    assert_eq!(store.does("write-narrow 0 0 0 1024 9"), "8; 0, 0, 0");
    assert!(!store.is_marked(1));
}

// Blocks handed over, freed and taken.

/// B=3: create; write page 1; make 1; write(1,0 page 0); make 2; make 3; write(3,0 page 0).
const HANDED_AND_TAKEN: &str = "create 0 0; write-narrow 0 0 512 512 1; make 0 1 1; \
    write-narrow 1 0 0 512 2; make 1 2 0; make 1 3 1; write-narrow 3 0 0 512 3";

/// "a block handed over, freed by marking, is taken again": it is not freed a second time by
/// the call that handed it over, for it is in the file's own map no longer.
#[test]
fn a_block_handed_over_and_taken_is_not_freed_again() {
    for call in ["delete 1 0", "truncate 1 0 0"] {
        let mut store = Store::after(3, HANDED_AND_TAKEN);
        assert_eq!(store.does(call), "0; 0, 1, 1");
        assert!(store.is_marked(2));
        assert_eq!(store.reads(3), pages(&[3, 1]));
        assert!(store.state().bits[1] && store.free() == 0);
        // A write takes no block of it.
        store.accepts("create 0 1");
        assert_eq!(store.does("write-narrow 0 1 0 1 7"), "8; 0, 0, 0");
    }
    let mut store = Store::after(3, HANDED_AND_TAKEN);
    store.accepts("truncate 1 0 0");
    assert_eq!((store.map(1), store.map(3)), {
        ("0:hole 2:unmapped".into(), "0:2 1:1 2:unmapped".into())
    });
}

/// The turns of it.
#[test]
fn the_turns_of_a_delete() {
    let before = Store::after(3, HANDED_AND_TAKEN).state();
    let turns = Turns::of(&Call::Delete { set: 1, file: 0 }, &before).unwrap();
    let told: Vec<String> = turns.list.iter().map(|turn| format!("{turn:?}")).collect();
    assert_eq!(
        told,
        [
            "HandedOver(Handed { page: 0, block: 1, heir: 2 })",
            "Marked { page: 1, child: 2, set: 2, blocks: [1] }",
            "Copied(Copied { page: 1, block: 1, child: 3, extra: false })",
        ]
    );
    assert_eq!((turns.freed(), turns.counts()), (vec![1], [0, 1, 1]));
}

/// B=2: create; write 0..1; make 1; truncate(0,0 to 1). The only child is marked at the part
/// page, and page 1's block is freed by the truncate itself.
#[test]
fn a_page_without_an_heir_is_dropped() {
    let script = format!("{TWO_PAGES}; make 0 1 0");
    let mut store = Store::after(2, &script);
    let turns = Turns::of(&Call::Truncate { set: 0, file: 0, size: 1 }, &store.state()).unwrap();
    assert_eq!(turns.list.last(), Some(&Turn::Dropped { page: 1, block: 1 }));
    assert_eq!(turns.freed(), []);
    assert_eq!(store.does("truncate 0 0 1"), "0; 0, 0, 1");
    assert!(store.is_marked(1));
    assert_eq!((store.map(0), store.free()), ("0:0 1:hole".into(), 1));
}

/// The order of turns decides who is marked. Children 1 and 2 are made in either order; one
/// of them has page 1 itself. If it is first, its block saves the other one; if it is last,
/// both are marked.
#[test]
fn the_order_of_making_decides() {
    let base = "create 0 0; write-narrow 0 0 0 512 1";
    let first = format!("{base}; make 0 1 1; write-narrow 1 0 512 512 2; make 0 2 0");
    let mut store = Store::after(2, &first);
    assert_eq!(store.does("write-narrow 0 0 0 1 9"), "0; 0, 1, 1");
    assert!(store.is_marked(1) && !store.is_marked(2));
    let last = format!("{base}; make 0 2 0; make 0 1 1; write-narrow 1 0 512 512 2");
    let mut store = Store::after(2, &last);
    assert_eq!(store.does("write-narrow 0 0 0 1 9"), "0; 0, 0, 2");
    assert!(store.is_marked(1) && store.is_marked(2));
    assert_eq!(store.free(), 1);
}

/// Through the panel a delete does the same.
#[test]
fn through_the_panel() {
    let mut store = Store::after(3, HANDED_AND_TAKEN);
    store.accepts("panel-reset; panel-write 4 1; panel-write 0 4");
    assert_eq!(store.0.registers()[..10], [0, 0, 5, 0, 1, 0, 0, 0, 1, 1]);
    assert_eq!(store.reads(3), pages(&[3, 1]));
    assert_eq!(store.0.counts.markings.of(Case::HandedTaken), 1);
}

// Well formed.

/// B = 4: set 1 is marked, and blocks 2 and 3 are free. Set 1 has a term.
const MARKED: &str = "create 0 0; write-narrow 0 0 0 1024 1; make 0 1 1; \
    write-narrow 1 0 0 512 2; create 0 1; write-narrow 0 1 0 512 3; write-narrow 0 0 512 1 4; \
    delete 0 1; set-term 1 2000 2 29 1";

/// The store of `MARKED` with something else in the record of the marked file, the bits
/// being right.
fn with_record(change: fn(&mut FileRecord)) -> (Vec<u8>, Vec<u8>) {
    let store = Store::after(4, MARKED);
    let mut state = store.state();
    assert!(store.is_marked(1));
    change(&mut state.files[1][0]);
    for entry in state.files[1][0].entries.iter().filter(|entry| entry.kind == Kind::Stored) {
        state.bits[entry.block] = true;
    }
    (state.packed(), store.0.pages().to_vec())
}

/// What a marked file may no longer hold, and the rules that it breaks.
type Held = (fn(&mut FileRecord), &'static [Rule]);

const HELD: [Held; 8] = [
    (|record| record.size = 1, &[Rule::MarkedSize]),
    (|record| record.size = 32_768, &[Rule::MarkedSize]),
    (|record| record.size = 32_769, &[Rule::SizeOver, Rule::MarkedSize]),
    (|record| record.entries[0] = HOLE, &[Rule::MarkedMapped]),
    (|record| record.entries[63] = HOLE, &[Rule::MarkedMapped]),
    (|record| record.entries[0] = stored(3), &[Rule::MarkedMapped]),
    (|record| record.entries[63] = stored(2), &[Rule::MarkedMapped]),
    (
        |record| {
            record.size = 1_024;
            record.entries[0] = stored(2);
            record.entries[1] = HOLE;
        },
        &[Rule::MarkedSize, Rule::MarkedMapped],
    ),
];

/// "Well formed asks the same of marked files": all calls refuse such tables with 1. The
/// first part of the check does not look at it.
#[test]
fn well_formed_asks_it_of_marked_files() {
    let calls = "create 0 2; write 0 0 0 1 1; write-narrow 0 0 0 1 1; write-groups 3 0 0 0 1 1; \
        read 0 0 0 1; truncate 0 0 0; delete 0 0; delete 1 0; make 0 2 1; remove 1; size 0 0; \
        free; check; set-term 0 2000 1 1 1; current 0 0; compact";
    for (change, rules) in HELD {
        let (tables, pages) = with_record(change);
        let broken = check_all(&tables, pages.len());
        assert_eq!(broken.iter().map(|broken| broken.rule).collect::<Vec<Rule>>(), rules);
        assert!(broken.iter().all(|b| (b.set, b.file, b.page) == (Some(1), Some(0), None)));
        assert_eq!(check_blocks(&tables), []);
        let mut bench = Bench::with(tables.clone(), pages);
        for item in Item::parse_script(calls).unwrap() {
            assert_eq!(bench.step(&item, &mut NoOther), Ok(Some(Answer::refused(1))), "{item}");
        }
        for item in Item::parse_script("panel-reset; panel-write 4 1; panel-write 0 7").unwrap() {
            assert_eq!(bench.step(&item, &mut NoOther), Ok(Some(Answer::default())), "{item}");
        }
        assert_eq!(bench.registers()[1], 1);
        assert!(bench.tables() == tables);
    }
    let (tables, pages) = with_record(|_| {});
    assert!(is_well_formed(&tables, pages.len()));
}

/// In words, with the place.
#[test]
fn broken_rules_are_told() {
    let told = |change| check_all(&with_record(change).0, 2_048)[0].to_string();
    let size = "marked-size: A marked file has a size other than 0. set 1 file 0";
    assert_eq!(told(|record| record.size = 7), size);
    let mapped = "marked-mapped: A marked file has an entry that is not unmapped. set 1 file 0";
    assert_eq!(told(|record| record.entries[5] = HOLE), mapped);
}

// Conversions.

/// "the converter of Ask 8 clears them in older tables of either length, keeping terms
/// already there": size 0, all entries unmapped, the bits of its blocks 0; next start and all
/// else stay.
#[test]
fn the_converter_clears_marked_files() {
    for (change, rules) in HELD {
        if rules.contains(&Rule::SizeOver) {
            continue;
        }
        let (tables, pages) = with_record(change);
        let new = with_record(|_| {}).0;
        // 17,468 bytes: the term of set 1 stays.
        assert_eq!(check_older(&tables, pages.len()), []);
        let mut found = vec![0x5A; TABLES_BYTES];
        assert_eq!(store::convert(&tables, &pages, &mut found), Answer::default());
        assert!(found == new);
        // 17,436 bytes: the default term.
        let older = narrowed(&tables);
        assert_eq!(check_older(&older, pages.len()), []);
        let mut found = vec![0xA5; TABLES_BYTES];
        assert_eq!(store::convert(&older, &pages, &mut found), Answer::default());
        let mut wanted = State::unpack(&new);
        (wanted.sets[1].first_day, wanted.sets[1].end_day) = (0, 36_525);
        assert!(found == wanted.packed());
        assert_eq!(State::unpack(&found).free_blocks(), 2);
    }
}

/// "tables that meet Ask 10 already are taken too, and come out as they are".
#[test]
fn tables_that_are_new_already_come_out_as_they_are() {
    for script in [MARKED, "", HANDED_AND_TAKEN] {
        let store = Store::after(4, script);
        let mut found = vec![0x5A; TABLES_BYTES];
        let answer = store::convert(store.0.tables(), store.0.pages(), &mut found);
        assert_eq!(answer, Answer::default());
        assert!(found == store.0.tables());
    }
}

/// A live file below a marked one has no unmapped entry, so it reads on.
#[test]
fn a_live_file_below_a_marked_one_keeps_its_blocks() {
    let script = format!("{MARKED}; make 1 2 1; delete 2 0; create 2 0; write-narrow 2 0 0 512 9");
    let mut store = Store::after(4, &script);
    assert!(store.is_marked(1));
    for older in ["narrow", "keep"] {
        store.does(older);
        store.does("load-marked 5");
        assert_eq!(loaded_files(store.0.second()), [Load::Blocks]);
        assert_eq!(store.does("convert"), "0; 0, 0, 0");
        assert!(store.0.beside.is_some() && store.is_marked(1));
        assert_eq!(store.reads(2), pages(&[9]));
    }
}

/// "otherwise it answers 1 and writes nothing": by the rules of the tables' time. A marked
/// file's blocks are blocks like any others there, and its size is at most 32,768.
#[test]
fn conversions_are_refused() {
    let refused = |older: &[u8], pages: &[u8], new_length: usize| {
        let mut new = vec![0xA7; new_length];
        assert_eq!(store::convert(older, pages, &mut new), Answer::refused(1));
        assert!(new.iter().all(|byte| *byte == 0xA7), "nothing is written");
    };
    let held = |record: &mut FileRecord| record.entries[0] = stored(3);
    let (tables, pages) = with_record(held);
    let faults: [fn(&mut State); 8] = [
        // The block is not used; is named twice; is B.
        |state| state.bits[3] = false,
        |state| state.files[1][0].entries[5] = stored(0),
        |state| state.files[1][0].entries[0] = stored(4),
        |state| state.files[1][0].entries[1].kind = Kind::Bad,
        |state| state.files[1][0].entries[1].block = 1,
        |state| state.files[1][0].size = 32_769,
        |state| state.files[1][0].zero = 1,
        |state| state.sets[0].zero = 1,
    ];
    for fault in faults {
        let mut state = State::unpack(&tables);
        fault(&mut state);
        refused(&state.packed(), &pages, TABLES_BYTES);
        refused(&narrowed(&state.packed()), &pages, TABLES_BYTES);
    }
    // Terms are asked of the longer tables alone.
    let mut state = State::unpack(&tables);
    state.sets[1].first_day = state.sets[1].end_day;
    refused(&state.packed(), &pages, TABLES_BYTES);
    let mut new = vec![0; TABLES_BYTES];
    assert_eq!(store::convert(&narrowed(&state.packed()), &pages, &mut new), Answer::default());
    for older in [&tables, &narrowed(&tables)] {
        for length in [0, 17_436, 17_467, 17_469] {
            refused(older, &pages, length);
        }
        for length in [0, 2_047, 1_536, 2_560] {
            refused(older, &vec![0; length], TABLES_BYTES);
        }
        for length in [17_435, 17_437, 17_467, 17_469] {
            let mut other = older.to_vec();
            other.resize(length, 0);
            refused(&other, &pages, TABLES_BYTES);
        }
    }
}

/// What the lines of a script load is well formed by the rules of before, and is cleared
/// again; without a marked file, or of another length, nothing changes.
#[test]
fn loading_and_clearing() {
    let store = Store::after(4, MARKED);
    let new = store.0.tables();
    let mut seen = [false; 3];
    for older in [new.to_vec(), narrowed(new)] {
        for seed in 0..40 {
            let loaded = loaded(&older, seed);
            assert_eq!(check_older(&loaded, 2_048), [], "{seed}");
            assert!(cleared(&loaded) == older, "{seed}");
            assert_eq!(widened(&loaded).len(), TABLES_BYTES);
            seen[loaded_files(&loaded)[0] as usize] = true;
        }
    }
    assert_eq!(seen, [true; 3]);
    let without = State::formatted(4).packed();
    assert!(loaded(&without, 3) == without && loaded_files(&without).is_empty());
    assert_eq!(loaded(&[7; 100], 3), [7; 100]);
}

/// Lines of scripts.
#[test]
fn lines() {
    for line in ["keep", "load-marked 7", "load-marked 4294967295"] {
        assert_eq!(Item::parse(line).unwrap().to_string(), line);
    }
    for bad in ["keep 1", "load-marked", "load-marked x", "load-marked 1 2"] {
        assert!(Item::parse(bad).is_err(), "{bad}");
    }
    let mut store = Store::after(4, MARKED);
    store.does("keep");
    assert!(store.0.second() == store.0.tables());
    store.does("load-marked 5");
    assert!(store.0.second() == loaded(store.0.tables(), 5));
    store.accepts("convert");
    assert!(store.0.beside.is_some());
    assert_eq!(store.does("current 1 789"), "0; 1, 0, 0");
    // Another change of the second tables: nothing is known of them.
    store.does("poke-second 3 0");
    store.accepts("convert");
    assert!(store.0.beside.is_none());
}

// Wrong programs.

/// Scripts in which each wrong program shows itself.
fn all_cases() -> String {
    let page_0 = "create 0 0; write-narrow 0 0 0 512 1";
    format!(
        "format 1024; {page_0}; make 0 1 1; write-narrow 1 0 512 512 2; make 0 2 0; \
        write-narrow 0 0 0 512 9; free; read 2 0 0 512; format 1024; {page_0}; make 0 1 0; \
        make 1 2 1; write-narrow 2 0 512 512 2; make 0 3 0; write-narrow 0 0 0 512 9; free; \
        format 2048; {TWO_PAGES}; make 0 1 1; write-narrow 1 0 1024 512 3; make 0 2 1; \
        write-narrow 2 0 0 512 4; write 0 0 0 1 9; format 1536; {HANDED_AND_TAKEN}; delete 1 0; \
        free; read 3 0 0 1024; format 2048; {TWO_PAGES}; make 0 1 0; make 0 2 0; \
        write 0 0 0 1024 5; format 1024; create 0 0; write-narrow 0 0 512 1 1; make 0 1 0; \
        write-narrow 0 0 0 513 2; format 2048; {MARKED}; keep; load-marked 5; convert; \
        current 1 789; free; narrow; load-marked 6; convert; free; keep; convert"
    )
}

#[test]
fn wrong_programs_are_noticed() {
    assert_eq!(difference(&all_cases(), &mut Faulty(Fault::None)), None);
    for fault in Fault::ALL {
        assert!(difference(&all_cases(), &mut Faulty(fault)).is_some(), "{fault:?}");
    }
}

/// Does a conversion rightly, and then, if it was accepted, something wrong with the older
/// tables in hand.
fn wrongly(mut lent: Lent, wrong: fn(&[u8], &mut State)) -> Answer {
    let answer = right(oracle::gen::CONVERT, &[0; 5], lent.again());
    if answer.number == 0 {
        let mut state = State::unpack(lent.tables);
        wrong(lent.second, &mut state);
        state.pack(lent.tables);
    }
    answer
}

/// The marked file's record of before.
fn old_record(older: &[u8]) -> FileRecord {
    State::unpack_either(older).unwrap().files[1][0].clone()
}

const WRONG_CONVERTERS: [(&str, Run); 7] = [
    ("it keeps blocks", |_, _, lent| {
        wrongly(lent, |older, state| {
            state.files[1][0].entries = old_record(older).entries;
            state.bits = State::unpack_either(older).unwrap().bits;
        })
    }),
    ("it keeps the bits", |_, _, lent| {
        wrongly(lent, |older, state| state.bits = State::unpack_either(older).unwrap().bits)
    }),
    ("it keeps sizes", |_, _, lent| {
        wrongly(lent, |older, state| state.files[1][0].size = old_record(older).size)
    }),
    ("it loses terms", |_, _, lent| {
        wrongly(lent, |_, state| {
            for set in state.sets.iter_mut().filter(|set| set.used) {
                (set.first_day, set.end_day) = (0, 36_525);
            }
        })
    }),
    ("it changes next start", |_, _, lent| {
        wrongly(lent, |_, state| state.next_start = (state.next_start + 1) % state.block_count)
    }),
    ("it takes the shorter tables alone", |index, n, lent| match lent.second.len() {
        OLDER_TABLES_BYTES => right(index, n, lent),
        _ => Answer::refused(1),
    }),
    ("it takes older tables only", |index, n, lent| {
        let is_new = is_well_formed(lent.second, lent.pages.len());
        if is_new {
            Answer::refused(1)
        } else {
            right(index, n, lent)
        }
    }),
];

/// Each is seen by the comparison, and by the judge alone.
#[test]
fn wrong_converters_are_noticed() {
    for (name, run) in WRONG_CONVERTERS {
        let mut other = Wrong { calls: &["convert"], run };
        assert!(difference(&all_cases(), &mut other).is_some(), "{name}");
        let seen = [5, 6, 7].into_iter().any(|seed| !is_right(run, seed));
        assert!(seen, "{name}");
    }
    assert!([5, 6, 7].into_iter().all(|seed| is_right(right, seed)));
    assert_eq!(difference(&all_cases(), &mut Wrong { calls: &["convert"], run: right }), None);
}

/// What the judge of conversions says of a converter, on tables of either length, loaded and
/// not.
fn is_right(run: Run, seed: u32) -> bool {
    let store = Store::after(4, MARKED);
    let new = store.0.tables();
    let olders = [loaded(new, seed), loaded(&narrowed(new), seed), new.to_vec()];
    olders.into_iter().all(|mut older| {
        let (before, mut pages) = (vec![0x5A; TABLES_BYTES], store.0.pages().to_vec());
        let mut after = before.clone();
        let (pages_length, given) = (pages.len(), older.clone());
        let lent = Lent { second: &mut older, ..Lent::store(&mut after, &mut pages, &mut []) };
        let answer = run(oracle::gen::CONVERT, &[0; 5], lent);
        let (older, before, after) = (&given, &before, &after);
        Converted { older, pages_length, before, after, answer }.judge().is_ok()
    })
}

/// A library whose calls take tables of before Ask 10.
#[test]
fn calls_that_take_older_tables_are_noticed() {
    let run: Run = |index, n, mut lent| {
        if lent.tables.len() == TABLES_BYTES
            && check_older(lent.tables, lent.pages.len()).is_empty()
        {
            let mut tables = cleared(lent.tables);
            let buffers = lent.again();
            return right(index, n, Lent { tables: &mut tables, ..buffers });
        }
        right(index, n, lent)
    };
    for line in ["free", "check", "size 0 0", "current 0 0", "compact", "delete 0 0"] {
        for (change, rules) in HELD.iter().filter(|(_, rules)| !rules.contains(&Rule::SizeOver)) {
            let (tables, pages) = with_record(*change);
            let calls = &["free", "check", "size", "current", "compact", "delete"];
            let item = Item::parse(line).unwrap();
            let told = Bench::with(tables, pages).step(&item, &mut Wrong { calls, run });
            assert!(told.is_err(), "{line} {rules:?}: {told:?}");
        }
    }
}

// What is counted.

/// A store of so many blocks after a script, then a line, and the cases that it meets.
type Counted = (usize, &'static str, &'static str, &'static [Case]);

const COUNTED: [Counted; 12] = [
    (
        2,
        "create 0 0; write-narrow 0 0 0 512 1; make 0 1 1; write-narrow 1 0 512 512 2; make 0 2 0",
        "write-narrow 0 0 0 512 9",
        &[Case::Frees, Case::ByWrite, Case::SamePage, Case::MoreThanFree],
    ),
    (
        2,
        "create 0 0; write-narrow 0 0 0 512 1; make 0 1 1; write-narrow 1 0 512 512 2",
        "write-narrow 0 0 0 512 9",
        &[Case::Frees, Case::ByWrite, Case::LeftFree],
    ),
    (1, "create 0 0; write-narrow 0 0 0 1 1; make 0 1 0", "write 0 0 0 1 2", &[Case::FreesNothing]),
    (
        3,
        HANDED_AND_TAKEN,
        "delete 1 0",
        &[
            Case::Frees,
            Case::ByDelete,
            Case::OfReadOnly,
            Case::HandedFreed,
            Case::SamePage,
            Case::HandedTaken,
            Case::MoreThanFree,
        ],
    ),
    (
        3,
        "create 0 0; write-narrow 0 0 0 1024 1; make 0 1 1",
        "write-narrow 0 0 0 1024 9",
        &[Case::Frees, Case::ByWrite, Case::CopyFreed, Case::LeftFree],
    ),
    (
        2,
        "create 0 0; write-narrow 0 0 0 512 1; make 0 1 1; make 1 2 1; \
            write-narrow 2 0 512 512 2; make 0 3 0",
        "truncate 0 0 1",
        &[
            Case::Frees,
            Case::FreesNothing,
            Case::ByTruncate,
            Case::OfDependent,
            Case::SamePage,
            Case::DependentTaken,
            Case::MoreThanFree,
        ],
    ),
    (
        8,
        "create 0 0; write-narrow 0 0 0 2048 1; make 0 1 1; make 0 2 1; make 0 3 1; make 0 4 1",
        "write-narrow 0 0 0 2048 9",
        &[
            Case::Frees,
            Case::ByWrite,
            Case::CopyFreed,
            Case::SamePage,
            Case::LaterPage,
            Case::FreedTwice,
            Case::MarkedTwice,
            Case::MoreThanFree,
        ],
    ),
    (
        6,
        "create 0 0; write-narrow 0 0 0 1536 1; make 0 1 1; make 0 2 1",
        "write 0 0 0 1024 9",
        &[Case::Frees, Case::ByWrite, Case::CopyFreed, Case::ExtraPage, Case::MoreThanFree],
    ),
    (4, MARKED, "convert", &[Case::LongBlocks, Case::LongTerms]),
    (4, "make 0 1 1", "write 0 0 0 1 1", &[]),
    (4, MARKED, "free", &[]),
    (4, MARKED, "write 0 0 0 1 1", &[]),
];

#[test]
fn cases_are_counted() {
    for (blocks, script, line, wanted) in COUNTED {
        let mut store = Store::after(blocks, script);
        store.does("keep");
        store.does("load-marked 5");
        store.0.counts = Default::default();
        store.does(line);
        let met = &store.0.counts.markings;
        let found: Vec<Case> = met.cases.keys().copied().collect();
        assert_eq!(found, wanted, "{script}; {line}");
        assert_eq!(met.calls, u64::from(wanted.contains(&Case::Frees)), "{script}; {line}");
        assert_eq!(met.unmet().len(), Case::ALL.len() - wanted.len());
    }
}

/// Conversions and refusals.
#[test]
fn more_cases_are_counted() {
    let mut store = Store::after(4, MARKED);
    let mut cases = |lines: &[&str]| {
        for line in lines {
            store.0.counts = Default::default();
            store.does(line);
        }
        store.0.counts.markings.cases.keys().copied().collect::<Vec<Case>>()
    };
    assert_eq!(cases(&["narrow", "load-marked 5", "convert"]), [Case::ShortBlocks]);
    assert_eq!(cases(&["narrow", "convert"]), []);
    assert_eq!(cases(&["keep", "convert"]), [Case::LongNew]);
    assert_eq!(cases(&["keep", "load-marked 5", "convert"]), [Case::LongBlocks]);
    assert_eq!(cases(&["poke-second 3 1", "convert"]), [Case::LongRefused]);
    // The seeds that give a size or holes alone.
    let other = |older: &[u8]| {
        (0..).find(|seed| loaded_files(&loaded(older, *seed)) == [Load::Other]).unwrap()
    };
    let tables = with_record(|_| {}).0;
    let short = format!("load-marked {}", other(&narrowed(&tables)));
    assert_eq!(cases(&["narrow", &short, "convert"]), [Case::ShortOther]);
    let long = format!("load-marked {}", other(&tables));
    assert_eq!(cases(&["keep", &long, "convert"]), [Case::LongOther]);
    // The record of the marked file begins at byte 2684.
    assert_eq!(cases(&["poke 2685 1", "free"]), [Case::RefusedSize]);
    assert_eq!(cases(&["poke 2685 0", "poke 2688 64", "free"]), [Case::RefusedMapped]);
    assert_eq!(cases(&["poke 2685 1", "free"]), []);
}

/// One line tells all.
#[test]
fn the_line_that_tells_of_it() {
    let mut store = Store::after(3, HANDED_AND_TAKEN);
    store.does("delete 1 0");
    let told = store.0.counts.markings.to_string();
    assert!(told.starts_with("1, of the library 0; marking frees a block: 1; "));
    assert!(told.ends_with("; a call is refused for a marked file's entries alone: 0"));
    assert_eq!(store.0.counts.freed, 1);
    assert_eq!(Met::default().unmet().len(), Case::ALL.len());
}
