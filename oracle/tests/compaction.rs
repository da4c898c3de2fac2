//! Ask 9 of document 02, "Pull the blocks together", case by case, worked out by hand from
//! the documents and the readings C1 to C7. Scripts run with plain store and tally beside.

use oracle::bench::{Bench, NoOther, Other};
use oracle::call::*;
use oracle::check::Rule;
use oracle::compaction_judge::{Compacted, Demand};
use oracle::compactions::{Case, Met};
use oracle::export;
use oracle::export::Export;
use oracle::gen;
use oracle::lent::{Buffers, Lending};
use oracle::maps::block_range;
use oracle::rng::Rng;
use oracle::state::*;
use oracle::store;
use std::slice::from_raw_parts_mut;

mod script;
use script::*;

/// B = 12, in the order of the calls: file 1 of set 0 in block 0, page 1 of file 0 in
/// block 1 and page 0 in block 2; sets 5 and then 2 are made, and get copies of that page
/// 0 in blocks 3 and 4; set 5 has its own page 0 of file 1 in block 5, set 0 a page 2 of
/// file 0 in block 6. Then file 1 of set 0 is deleted, and set 2 takes block 0 over.
const SCATTERED: &str = "create 0 1; write-narrow 0 1 0 512 1; create 0 0; \
    write-narrow 0 0 512 512 2; write-narrow 0 0 0 512 3; make 0 5 1; make 0 2 0; \
    write-narrow 0 0 0 512 4; write-narrow 5 1 0 512 5; write-narrow 0 0 1024 512 6; \
    delete 0 1; set-term 2 2000 2 29 12";

/// The stored entries by set, file and page, each with its block, straight from the bytes:
/// the record of file f of set s stands at 572 + 132 (16 s + f), its entries after 4 bytes.
fn named(tables: &[u8]) -> Vec<(usize, usize, usize, usize)> {
    let mut list = Vec::new();
    for record in 0..128 {
        for page in 0..64 {
            let at = 572 + 132 * record + 4 + 2 * page;
            let word = 256 * usize::from(tables[at]) + usize::from(tables[at + 1]);
            if word >> 14 == 2 {
                list.push((record / 16, record % 16, page, word & 0x3FFF));
            }
        }
    }
    list
}

fn blocks(store: &Store) -> Vec<usize> {
    named(store.0.tables()).iter().map(|entry| entry.3).collect()
}

fn next_start(store: &Store) -> usize {
    store.state().next_start
}

/// The used blocks, straight from the bitmap.
fn used(store: &Store) -> Vec<usize> {
    let tables = store.0.tables();
    (0..4_096).filter(|block| tables[4 + block / 8] >> (7 - block % 8) & 1 == 1).collect()
}

/// Whether a block holds the bytes of a write of a whole page with this seed.
fn holds(store: &Store, block: usize, seed: u32) -> bool {
    store.0.pages()[block_range(block)] == data_bytes(512, seed)
}

// Order, pages, bits and next start.

/// "Compaction renumbers used blocks from 0 up, by set number, then file, then page, and
/// moves the pages to suit".
#[test]
fn by_set_number_then_file_then_page() {
    let mut store = Store::after(12, SCATTERED);
    let before = [
        (0, 0, 0, 2),
        (0, 0, 1, 1),
        (0, 0, 2, 6),
        (2, 0, 0, 4),
        (2, 1, 0, 0),
        (5, 0, 0, 3),
        (5, 1, 0, 5),
    ];
    assert_eq!(named(store.0.tables()), before);
    assert_eq!((used(&store), next_start(&store)), ((0..7).collect(), 7));
    let state = store.state();
    assert_eq!(store.does("compact"), "0; 0, 0, 0");
    let after: Vec<_> =
        (0..).zip(before).map(|(new, (set, file, page, _))| (set, file, page, new)).collect();
    assert_eq!(named(store.0.tables()), after);
    assert_eq!((used(&store), next_start(&store)), ((0..7).collect(), 7));
    // The seeds: set 0 has 4, 2 and 6; set 2 the old 3 and the 1 that it took over; set 5
    // the old 3 and its own 5.
    for (block, seed) in [4, 2, 6, 3, 1, 3, 5].into_iter().enumerate() {
        assert!(holds(&store, block, seed), "block {block}");
    }
    // Sets, terms, states, sizes and kinds stay.
    let now = store.state();
    assert_eq!((now.sets, now.block_count), (state.sets, 12));
    for (set, file) in (0..8).flat_map(|set| (0..16).map(move |file| (set, file))) {
        let (old, new) = (&state.files[set][file], &now.files[set][file]);
        assert_eq!((old.state, old.size, old.zero), (new.state, new.size, new.zero));
        assert!((0..64).all(|page| old.entries[page].kind == new.entries[page].kind));
    }
}

/// By the tree the order would be 0, 5, 2 here, and by file first that of the files.
#[test]
fn not_by_the_tree_nor_by_file_first() {
    let mut store = Store::after(12, SCATTERED);
    assert_eq!(store.state().children(0), [5, 2]);
    store.accepts("compact");
    let named = named(store.0.tables());
    let block_of = |set, file| named.iter().find(|e| (e.0, e.1) == (set, file)).unwrap().3;
    assert!(block_of(2, 0) < block_of(5, 0));
    assert!(block_of(2, 1) < block_of(5, 0));
}

/// A set made from a later one: set 6 is the parent of set 3.
#[test]
fn a_child_with_a_lower_number_comes_first() {
    let script = "make 0 6 1; make 6 3 1; create 6 0; create 3 1; write 6 0 0 512 1; \
        write 3 1 0 512 2";
    let mut store = Store::after(3, script);
    assert_eq!(named(store.0.tables()), [(3, 1, 0, 1), (6, 0, 0, 0)]);
    store.accepts("compact");
    assert_eq!(named(store.0.tables()), [(3, 1, 0, 0), (6, 0, 0, 1)]);
    assert!(holds(&store, 0, 2) && holds(&store, 1, 1));
}

/// Files 15 and 2, pages 63 and 0: the order is by number.
#[test]
fn files_and_pages_by_their_numbers() {
    let script = "create 0 15; create 0 2; write-narrow 0 15 32256 512 1; \
        write-narrow 0 2 32256 512 2; write-narrow 0 15 0 512 3; write-narrow 0 2 0 512 4";
    let mut store = Store::after(4, script);
    assert_eq!(blocks(&store), [3, 1, 2, 0]);
    store.accepts("compact");
    let wanted = [(0, 2, 0, 0), (0, 2, 63, 1), (0, 15, 0, 2), (0, 15, 63, 3)];
    assert_eq!(named(store.0.tables()), wanted);
    assert!((0..).zip([4, 2, 3, 1]).all(|(block, seed)| holds(&store, block, seed)));
}

/// Two blocks that exchange places.
const EXCHANGE: &str = "create 0 1; write-narrow 0 1 0 512 1; create 0 0; write-narrow 0 0 0 512 2";
/// Block 0 is free; block 2 moves to 1 and block 1 to 0.
const CHAIN: &str = "create 0 0; create 0 1; write-narrow 0 0 0 512 1; \
    write-narrow 0 1 0 1024 2; delete 0 0";
/// B = 3: all blocks are used, and next start is 1. Blocks 0, 1 and 2 go round.
const FULL: &str = "create 0 0; create 0 1; create 0 2; write-narrow 0 0 0 512 1; \
    write-narrow 0 1 0 512 2; write-narrow 0 1 512 512 3; delete 0 0; write-narrow 0 2 0 512 4";
/// B = 3: the file of set 1 has page 0 in block 2, and is marked for page 1; its block comes
/// free, and file 1 of set 0 takes it. Then file 0 of set 0 is deleted.
const MARKED: &str = "create 0 0; write-narrow 0 0 0 1024 1; make 0 1 1; \
    write-narrow 1 0 0 512 2; write-narrow 0 0 512 512 3; create 0 1; write-narrow 0 1 0 512 4; \
    delete 0 0";

#[test]
fn an_exchange_and_a_chain() {
    let mut store = Store::after(4, EXCHANGE);
    assert_eq!(blocks(&store), [1, 0]);
    store.accepts("compact");
    assert_eq!(blocks(&store), [0, 1]);
    assert!(holds(&store, 0, 2) && holds(&store, 1, 1));
    let mut store = Store::after(4, CHAIN);
    assert_eq!((blocks(&store), used(&store), next_start(&store)), (vec![1, 2], vec![1, 2], 3));
    store.accepts("compact");
    assert_eq!((blocks(&store), used(&store), next_start(&store)), (vec![0, 1], vec![0, 1], 2));
    assert_eq!(store.0.pages()[..1_024], data_bytes(1_024, 2));
}

/// "Next start becomes the number of used blocks modulo B": 0 when full and when empty. It
/// changes even where no block moves.
#[test]
fn next_start_of_full_empty_and_other_stores() {
    let mut store = Store::after(3, FULL);
    assert_eq!((blocks(&store), next_start(&store)), (vec![1, 2, 0], 1));
    store.accepts("compact");
    assert_eq!((blocks(&store), next_start(&store)), (vec![0, 1, 2], 0));
    assert!((0..).zip([2, 3, 4]).all(|(block, seed)| holds(&store, block, seed)));

    // Empty again, next start 1.
    let mut store = Store::after(3, "create 0 0; write 0 0 0 1 1; delete 0 0");
    assert_eq!((used(&store).len(), next_start(&store)), (0, 1));
    store.accepts("compact");
    assert_eq!((used(&store).len(), next_start(&store)), (0, 0));

    // One block stays, next start was 3: it alone changes.
    let mut store = Store::after(4, "create 0 0; write 0 0 0 1536 1; truncate 0 0 512");
    let mut tables = store.0.tables().to_vec();
    assert_eq!(next_start(&store), 3);
    store.accepts("compact");
    assert_eq!((blocks(&store), next_start(&store)), (vec![0], 1));
    // "block count B 13, next start 12": 4, 3 and then 1.
    assert_eq!(
        (&tables[..4], &store.0.tables()[..4]),
        (&[0, 32, 1, 128][..], &[0, 32, 0, 128][..])
    );
    tables[2] = 0;
    assert!(store.0.tables() == tables);

    // Nothing changes at all, and B = 1 is empty or full.
    for (blocks, script) in [(2, "create 0 0; write 0 0 0 1 1"), (1, ""), (1, "create 0 0")] {
        let mut store = Store::after(blocks, script);
        let tables = store.0.tables().to_vec();
        store.accepts("compact");
        assert!(store.0.tables() == tables, "{script}");
    }
    let mut store = Store::after(1, "create 0 0; write 0 0 0 512 7; compact");
    assert_eq!((blocks(&store), next_start(&store)), (vec![0], 0));
    store.accepts("compact");
    assert!(holds(&store, 0, 7));
}

/// The next write takes the block at next start, which is the first free one.
#[test]
fn the_next_write_takes_the_block_at_next_start() {
    let mut store = Store::after(12, SCATTERED);
    store.accepts("compact; create 0 9; write-narrow 0 9 0 1024 7");
    assert_eq!(used(&store), (0..9).collect::<Vec<_>>());
    assert_eq!(named(store.0.tables())[3..5], [(0, 9, 0, 7), (0, 9, 1, 8)]);
    assert_eq!(store.0.pages()[7 * 512..9 * 512], data_bytes(1_024, 7));
    // In a full store it goes round to a block freed since.
    let mut store = Store::after(3, FULL);
    store.accepts("compact; truncate 0 1 512; write-narrow 0 2 512 512 8");
    assert_eq!((blocks(&store), next_start(&store)), (vec![0, 2, 1], 2));
}

/// A marked file holds no block, and stays as it is.
#[test]
fn marked_files_hold_no_blocks() {
    let mut store = Store::after(3, MARKED);
    assert_eq!(store.file(1), MARKED_FILE);
    assert_eq!(named(store.0.tables()), [(0, 1, 0, 2)]);
    store.accepts("compact");
    assert_eq!((blocks(&store), used(&store), next_start(&store)), (vec![0], vec![0], 1));
    assert!(holds(&store, 0, 4));
    assert_eq!(store.file(1), MARKED_FILE);
    assert_eq!(store.does("read 1 0 0 1"), "6; 0, 0, 0");
}

/// "a reader of any file sees no difference": the bytes, the size and the maps looked at.
#[test]
fn a_reader_sees_no_difference() {
    let mut store = Store::after(12, SCATTERED);
    let lines = ["read 0 0 0 2000", "read 2 0 0 2000", "read 2 1 0 9", "read 5 0 100 600"];
    let others = ["size 5 1", "size 2 0", "free", "current 2 789", "current 2 788", "check"];
    let lines: Vec<&str> = lines.into_iter().chain(others).collect();
    let before: Vec<String> = lines.iter().map(|line| store.does(line)).collect();
    let bytes = [0, 2, 5].map(|set| store.reads(set));
    store.accepts("compact");
    let after: Vec<String> = lines.iter().map(|line| store.does(line)).collect();
    assert_eq!((before, bytes), (after, [0, 2, 5].map(|set| store.reads(set))));
    assert!(store.0.beside.is_some());
}

/// "free pages and the spare page may hold anything": here each byte is another than it
/// was, so that nothing can rely on them.
#[test]
fn what_is_free_holds_other_bytes() {
    let mut store = Store::after(12, SCATTERED);
    for _ in 0..2 {
        let (pages, spare) = (store.0.pages().to_vec(), store.0.spare().to_vec());
        store.accepts("compact");
        let free = pages[7 * 512..].iter().zip(&store.0.pages()[7 * 512..]);
        assert!(free.chain(spare.iter().zip(store.0.spare())).all(|(old, new)| old != new));
        assert_eq!(store.0.spare().len(), 512);
    }
}

/// Twice is once (C7).
#[test]
fn a_second_compaction_changes_nothing_but_what_is_free() {
    for (blocks, script) in
        [(12, SCATTERED), (4, EXCHANGE), (4, CHAIN), (3, FULL), (3, MARKED), (5, "")]
    {
        let mut store = Store::after(blocks, script);
        store.accepts("compact");
        let (tables, used) = (store.0.tables().to_vec(), used(&store).len() * 512);
        let pages = store.0.pages()[..used].to_vec();
        assert_eq!(store.does("compact"), "0; 0, 0, 0");
        assert!(store.0.tables() == tables && store.0.pages()[..used] == pages, "{script}");
    }
}

// Numbers.

/// What the caller holds.
fn held(store: &Store) -> [Vec<u8>; 3] {
    [store.0.tables(), store.0.pages(), store.0.spare()].map(<[u8]>::to_vec)
}

/// "It refuses a spare page of other than 512 bytes with 16, after 1; any refusal leaves
/// the spare page too."
#[test]
fn numbers() {
    let mut store = Store::after(12, SCATTERED);
    let mut refused = |change: &str, number: u32| {
        for line in change.split("; ") {
            store.does(line);
        }
        let before = held(&store);
        assert_eq!(store.does("compact"), format!("{number}; 0, 0, 0"), "{change}");
        assert_eq!(held(&store) == before, number != 0, "{change}");
    };
    for length in [0, 1, 2, 256, 511, 513, 1_024, 17_468, 100_000] {
        refused(&format!("spare {length}; fill-spare 5"), 16);
    }
    // 1 comes first: set 0's zero field, another length of the tables and of the pages.
    for length in [0, 1, 511, 512, 513, 1_024] {
        refused(&format!("spare {length}; fill-spare 6; poke 518 1"), 1);
        refused("poke 518 0; tables 17469", 1);
        refused("tables 17468; pages 6145", 1);
        refused("pages 6656", 1);
        // Well formed again.
        refused("pages 6144", if length == 512 { 0 } else { 16 });
    }
    refused("spare 512; fill-spare 0", 0);
    refused("spare 513", 16);
    refused("tables 17436", 1);
    refused("spare 512", 1);
    refused("tables 0", 1);
}

/// Each rule broken alone: 1, whatever the spare page.
#[test]
fn tables_that_are_not_well_formed() {
    let mut rng = Rng::new(9);
    for rule in Rule::ALL {
        for length in [512, 511] {
            let broke = gen::break_alone(&mut rng, *rule);
            let (mut tables, mut pages) = (broke.tables.clone(), broke.pages.clone());
            let mut spare = vec![7; length];
            let answer = store::compact(&mut tables, &mut pages, &mut spare);
            assert_eq!(answer, Answer::refused(1), "{rule:?}");
            assert!((tables, pages) == (broke.tables, broke.pages) && spare == vec![7; length]);
        }
    }
}

/// Nothing of it goes through the panel: op 9 or 20 is no command.
#[test]
fn it_is_no_command() {
    let mut store = Store::after(4, EXCHANGE);
    store.accepts("panel-reset; panel-write 0 9; panel-write 0 20");
    assert_eq!(blocks(&store), [1, 0]);
    assert_eq!(store.0.registers()[..3], [0, 0, 2]);
    store.accepts("compact; panel-write 4 0; panel-write 5 1; panel-write 0 4; compact");
    assert_eq!((blocks(&store), next_start(&store)), (vec![0], 1));
}

/// After a compaction the pages are others, so the second tables are no store's.
#[test]
fn second_tables_of_before_are_no_stores_then() {
    let mut store = Store::after(4, EXCHANGE);
    store.does("narrow");
    store.accepts("compact; convert");
    assert!(store.0.beside.is_none());
    let mut store = Store::after(4, EXCHANGE);
    store.accepts("compact");
    store.does("narrow");
    store.accepts("convert; read 0 0 0 512");
    assert!(store.0.beside.is_some());
}

// Lines of scripts, and what the call is lent.

#[test]
fn calls_and_lines() {
    use Buffer::{Pages, Spare, Tables};
    use Lending::Changed;
    let lent: Named = ("compact", &[], &[(Tables, Changed), (Pages, Changed), (Spare, Changed)]);
    let call = call_at(20, lent);
    assert!(call.changes() && !call.is_of_panel() && call.as_write().is_none());
    assert_eq!((gen::COMPACT, CALL_NAMES[21], NUMBERS), (20, "write-groups", 17));
    // No other call leaves bytes free, or is lent a spare page.
    for (place, row) in ROWS.iter().enumerate() {
        assert_eq!(row.leaves.is_some(), place == 20);
        assert_eq!(row.lends(Spare) != Lending::NotLent, place == 20);
    }
    for line in ["spare 511", "poke-spare 3 255", "fill-spare 9", "compact"] {
        assert_eq!(Item::parse(line).unwrap().to_string(), line);
    }
    assert!(Item::parse("compact 512").is_err());
}

/// Free are the pages from the number of used blocks up, and the spare page.
#[test]
fn what_an_accepted_compaction_leaves_free() {
    let mut after = Buffers::default();
    for (blocks, script, free) in [(12, SCATTERED, 3_584..6_144), (3, FULL, 1_536..1_536)] {
        let store = Store::after(blocks, &format!("{script}; compact"));
        [after[Buffer::Tables], after[Buffer::Pages], after[Buffer::Spare]] = held(&store);
        let wanted = vec![(Buffer::Pages, free), (Buffer::Spare, 0..512)];
        assert_eq!(left_by_compaction(&after), wanted);
    }
}

// Other implementations.

const COMPACT: &[&str] = &["compact"];

/// Stores in which each wrong program shows itself, and refusals: see the scripts.
fn all_cases() -> String {
    format!(
        "format 6144; {SCATTERED}; compact; create 0 9; write-narrow 0 9 0 600 7; delete 5 0; \
        compact; format 2048; {EXCHANGE}; compact; format 2048; {CHAIN}; compact; \
        format 1536; {FULL}; compact; truncate 0 1 512; write-narrow 0 2 512 512 8; compact; \
        format 1536; {MARKED}; compact; spare 511; compact; spare 513; fill-spare 3; compact; \
        spare 0; compact; poke 518 1; spare 7; compact; spare 512; compact; poke 518 0; compact"
    )
}

/// A compaction in another way is no difference, and the calls go on with its free bytes.
#[test]
fn what_is_free_is_taken_over() {
    let in_place: Run = |_, _, lent| compact_in_place(lent);
    assert_eq!(difference(&all_cases(), &mut Wrong { calls: COMPACT, run: in_place }), None);
    let all: Run = |index, n, lent| match index {
        20 => compact_in_place(lent),
        _ => right(index, n, lent),
    };
    assert_eq!(difference(&all_cases(), &mut Wrong { calls: &CALL_NAMES[..21], run: all }), None);
    // Any bytes: 0x11 in free pages and 0x22 in the spare page.
    let mut other = Wrong { calls: COMPACT, run: with_free_bytes };
    assert_eq!(difference(&all_cases(), &mut other), None);
    let mut store = Store::after(12, SCATTERED);
    store.0.step(&Item::Call(Call::Compact {}), &mut other).unwrap();
    assert!(store.0.pages()[3_584..].iter().all(|byte| *byte == 0x11));
    assert!(store.0.spare().iter().all(|byte| *byte == 0x22));
    assert!((0..).zip([4, 2, 6, 3, 1, 3, 5]).all(|(block, seed)| holds(&store, block, seed)));
    // A page that is taken then has nothing of these bytes.
    store.accepts("create 0 9; write-narrow 0 9 100 1 7");
    assert_eq!(store.0.pages()[3_584..4_096].iter().filter(|byte| **byte != 0).count(), 1);
    assert!(store.0.pages()[4_096..].iter().all(|byte| *byte == 0x11));
}

fn with_free_bytes(index: usize, n: &Numbers, mut lent: Lent) -> Answer {
    let answer = right(index, n, lent.again());
    if answer.number == 0 {
        let used: u32 = lent.tables[4..516].iter().map(|byte| byte.count_ones()).sum();
        lent.pages[512 * used as usize..].fill(0x11);
        lent.spare.fill(0x22);
    }
    answer
}

/// A library with a fault: after a right compaction of the scattered store it changes a
/// byte. Gives the difference found.
fn after_fault(fault: fn(&mut Lent), script: &str) -> Option<String> {
    struct Faulty(fn(&mut Lent));
    impl Other for Faulty {
        fn has(&self, index: usize) -> bool {
            index == 20
        }
        fn run(&mut self, index: usize, n: &Numbers, mut lent: Lent) -> Answer {
            let answer = right(index, n, lent.again());
            (self.0)(&mut lent);
            answer
        }
    }
    difference(&format!("format 6144; {SCATTERED}; {script}"), &mut Faulty(fault))
}

/// After an accepted compaction every byte is compared but those left free; after a
/// refused one, every byte.
#[test]
fn which_bytes_are_compared() {
    type Fault = fn(&mut Lent);
    // Seven blocks are used: byte 3,583 is the last of page 6.
    let compared: [(&str, Fault); 7] = [
        ("pages differ at byte 0:", |lent| lent.pages[0] ^= 1),
        ("pages differ at byte 3583:", |lent| lent.pages[3_583] ^= 1),
        ("pages differ at byte 2000:", |lent| lent.pages[2_000] = 0),
        ("tables differ at byte 3:", |lent| lent.tables[3] ^= 128),
        ("tables differ at byte 5:", |lent| lent.tables[5] ^= 1),
        ("tables differ at byte 536:", |lent| lent.tables[536] ^= 1),
        ("tables differ at byte 17467:", |lent| lent.tables[17_467] ^= 1),
    ];
    for (text, fault) in compared {
        let found = after_fault(fault, "compact").expect(text);
        assert!(found.starts_with(text) && found.contains("; compaction: "), "{found}");
    }
    let free: [Fault; 4] = [
        |lent| lent.pages[3_584] ^= 1,
        |lent| lent.pages[6_143] ^= 1,
        |lent| lent.spare[0] ^= 1,
        |lent| lent.spare.fill(9),
    ];
    for fault in free {
        assert_eq!(after_fault(fault, "compact"), None);
    }
    let refused: [(&str, Fault); 5] = [
        ("spare differ at byte 0:", |lent| lent.spare[0] ^= 1),
        ("spare differ at byte 510:", |lent| lent.spare[510] ^= 1),
        ("pages differ at byte 3584:", |lent| lent.pages[3_584] ^= 1),
        ("pages differ at byte 0:", |lent| lent.pages[0] ^= 1),
        ("tables differ at byte 516:", |lent| lent.tables[516] ^= 1),
    ];
    for (text, fault) in refused {
        for script in ["spare 511; compact", "spare 512; poke 515 1; compact"] {
            let found = after_fault(fault, script).expect(text);
            assert!(found.starts_with(text), "{script}: {found}");
            assert!(found.contains("; compaction: nothing may change, and the "), "{found}");
        }
    }
}

/// The bytes beside each buffer, which no call may touch.
#[test]
fn guard_bytes_are_compared() {
    // They stand in one piece of memory with the bytes lent.
    type Fault = fn(&mut Lent);
    let faults: [(&str, Fault); 3] = [
        ("spare", |lent| unsafe { *lent.spare.as_mut_ptr().add(lent.spare.len()) ^= 1 }),
        ("pages", |lent| unsafe { *lent.pages.as_mut_ptr().add(lent.pages.len()) ^= 1 }),
        ("tables", |lent| unsafe { *lent.tables.as_mut_ptr().sub(1) ^= 1 }),
    ];
    for (name, fault) in faults {
        for script in ["compact", "spare 511; compact"] {
            let found = after_fault(fault, script).expect(name);
            assert!(found.contains(&format!("bytes beside the {name} were changed")), "{found}");
        }
    }
}

/// Once the free bytes are taken over, later calls are compared in every byte.
#[test]
fn later_calls_are_compared_in_every_byte() {
    let run: Run = |index, n, mut lent| match index {
        20 => with_free_bytes(index, n, lent),
        _ => {
            let answer = right(index, n, lent.again());
            lent.pages[2_047] ^= 1;
            answer
        }
    };
    let script = format!("format 2048; {CHAIN}; compact; set-term 0 2000 1 1 1");
    let text = difference(&script, &mut Wrong { calls: &["compact", "set-term"], run });
    let text = text.expect("a free byte that a later call changes");
    assert!(text.starts_with("pages differ at byte 2047: 0x10; the oracle's is 0x11"), "{text}");
}

/// The C function: tables, pages and spare page, each a pointer and a length.
///
/// # Safety
/// Each pointer has as many bytes as the length after it says.
#[no_mangle]
unsafe extern "C" fn sweep_compact_stand_in(
    tables: *mut u8,
    tables_length: usize,
    pages: *mut u8,
    pages_length: usize,
    spare: *mut u8,
    spare_length: usize,
) -> Answer {
    compact_in_place(Lent {
        spare: from_raw_parts_mut(spare, spare_length),
        ..Lent::store(
            from_raw_parts_mut(tables, tables_length),
            from_raw_parts_mut(pages, pages_length),
            &mut [],
        )
    })
}

#[test]
fn a_function_for_c() {
    let run: Run = |_, n, lent| {
        let function: Export = export!(n lent sweep_compact_stand_in () ()
            change tables, change pages, change spare);
        function(n, lent)
    };
    assert_eq!(difference(&all_cases(), &mut Wrong { calls: COMPACT, run }), None);
}

// Wrong programs.

/// The tables and pages before, and what a right compaction left.
struct Wrongly<'a, 'b> {
    state: State,
    pages: Vec<u8>,
    lent: &'b mut Lent<'a>,
}

impl Wrongly<'_, '_> {
    /// Pulls the blocks of these entries together in this order; others stay.
    fn pull(&mut self, places: &[Place]) {
        let mut state = self.state.clone();
        for (new, (set, file, page)) in places.iter().enumerate() {
            let entry = &mut state.files[*set][*file].entries[*page];
            let old = std::mem::replace(&mut entry.block, new);
            self.lent.pages[block_range(new)].copy_from_slice(&self.pages[block_range(old)]);
        }
        let used = stored_places(&state).len();
        (0..MOST_BLOCKS).for_each(|block| state.bits[block] = block < used);
        state.next_start = used % state.block_count;
        state.pack(self.lent.tables);
    }

    /// Changes what the right compaction left in the tables.
    fn change(&mut self, change: impl FnOnce(&State, &mut State)) {
        let mut state = State::unpack(self.lent.tables);
        change(&self.state, &mut state);
        state.pack(self.lent.tables);
    }
}

/// Does a compaction rightly, and then, if it was accepted, something wrong.
fn wrongly(mut lent: Lent, wrong: fn(&mut Wrongly)) -> Answer {
    let (tables, pages) = (lent.tables.to_vec(), lent.pages.to_vec());
    let answer = right(20, &[0; 5], lent.again());
    if answer.number == 0 {
        wrong(&mut Wrongly { state: State::unpack(&tables), pages, lent: &mut lent });
    }
    answer
}

/// The sets in the order of the listing.
fn listing(state: &State, set: usize) -> Vec<usize> {
    let below = state.children(set).into_iter().flat_map(|child| listing(state, child));
    std::iter::once(set).chain(below).collect()
}

/// Each is seen by the comparison and by the judge.
const WRONG: [(&str, Run); 18] = [
    ("by file, then set", |_, _, lent| {
        wrongly(lent, |w| {
            let mut places = stored_places(&w.state);
            places.sort_by_key(|(set, file, page)| (*file, *set, *page));
            w.pull(&places);
        })
    }),
    ("by the tree", |_, _, lent| {
        wrongly(lent, |w| {
            let listing = listing(&w.state, 0);
            let turn = |set: usize| listing.iter().position(|other| *other == set);
            let mut places = stored_places(&w.state);
            places.sort_by_key(|(set, file, page)| (turn(*set), *file, *page));
            w.pull(&places);
        })
    }),
    ("by page, then file", |_, _, lent| {
        wrongly(lent, |w| {
            let mut places = stored_places(&w.state);
            places.sort_by_key(|(set, file, page)| (*set, *page, *file));
            w.pull(&places);
        })
    }),
    ("by the old block", |_, _, lent| {
        wrongly(lent, |w| {
            let mut places = stored_places(&w.state);
            let block = |place: &Place| w.state.files[place.0][place.1].entries[place.2].block;
            places.sort_by_key(block);
            w.pull(&places);
        })
    }),
    ("one page of an exchange is lost", |_, _, lent| {
        // Page by page, without the spare page.
        wrongly(lent, |w| {
            w.lent.pages.copy_from_slice(&w.pages);
            for (new, (set, file, page)) in stored_places(&w.state).into_iter().enumerate() {
                let old = w.state.files[set][file].entries[page].block;
                w.lent.pages.copy_within(block_range(old), new * PAGE_BYTES);
            }
        })
    }),
    ("the pages stay", |_, _, lent| wrongly(lent, |w| w.lent.pages.copy_from_slice(&w.pages))),
    ("next start is not reduced", |_, _, lent| {
        wrongly(lent, |w| w.change(|_, s| s.next_start = s.block_count - s.free_blocks()))
    }),
    ("next start is unchanged", |_, _, lent| {
        wrongly(lent, |w| w.change(|old, s| s.next_start = old.next_start))
    }),
    ("next start is 0", |_, _, lent| wrongly(lent, |w| w.change(|_, s| s.next_start = 0))),
    ("a bit of an old place is kept", |_, _, lent| {
        wrongly(lent, |w| w.change(|old, s| (0..4_096).for_each(|b| s.bits[b] |= old.bits[b])))
    }),
    ("the last entry is not renamed", |_, _, lent| {
        wrongly(lent, |w| {
            w.change(|old, s| {
                if let Some((set, file, page)) = stored_places(old).pop() {
                    s.files[set][file].entries[page] = old.files[set][file].entries[page];
                }
            })
        })
    }),
    ("terms are lost", |_, _, lent| {
        wrongly(lent, |w| {
            w.change(|_, s| {
                for set in s.sets.iter_mut().filter(|set| set.used) {
                    (set.first_day, set.end_day) = (0, 36_525);
                }
            })
        })
    }),
    ("a marked file becomes own", |_, _, lent| {
        wrongly(lent, |w| {
            w.change(|_, s| {
                let marked = |file: &&mut FileRecord| file.state == FileState::Marked;
                s.files.iter_mut().flatten().filter(marked).for_each(|f| f.state = FileState::Own);
            })
        })
    }),
    ("the moved blocks are counted", |_, _, lent| match wrongly(lent, |_| {}) {
        Answer { number: 0, .. } => Answer::accepted([1, 0, 0]),
        answer => answer,
    }),
    ("16 before 1", |_, _, lent| match lent.spare.len() {
        512 => wrongly(lent, |_| {}),
        _ => Answer::refused(16),
    }),
    ("a longer spare page is taken", |_, _, lent| {
        let length = lent.spare.len().min(512);
        wrongly(Lent { spare: &mut lent.spare[..length], ..lent }, |_| {})
    }),
    ("the spare page is touched in a refusal", |_, _, mut lent| {
        lent.spare.fill(0);
        wrongly(lent.again(), |_| {})
    }),
    ("the tables are pulled together in a refusal", |_, _, mut lent| {
        let mut spare = [0; 512];
        let right_length = lent.spare.len() == 512;
        let answer = wrongly(Lent { spare: &mut spare, ..lent.again() }, |_| {});
        if right_length || answer.number != 0 {
            return answer;
        }
        Answer::refused(16)
    }),
];

#[test]
fn wrong_programs_are_noticed() {
    let script = all_cases();
    let done = |run: Run| difference(&script, &mut Wrong { calls: COMPACT, run });
    assert_eq!(done(right), None);
    for (name, run) in WRONG {
        let text = done(run).unwrap_or_else(|| panic!("{name} is not noticed"));
        let compared = text.contains(" differ at byte ") || text.contains("the oracle's is");
        assert!(compared && text.contains("compaction: "), "{name}: {text}");
    }
}

/// One that is right the first time and not the second.
#[test]
fn a_wrong_second_compaction_is_noticed() {
    let run: Run = |index, n, mut lent| {
        let before = lent.tables.to_vec();
        let answer = right(index, n, lent.again());
        if answer.number == 0 && before == lent.tables {
            lent.pages[0] ^= 1;
        }
        answer
    };
    let script = format!("format 2048; {EXCHANGE}; compact");
    let text = difference(&script, &mut Wrong { calls: COMPACT, run }).unwrap();
    let wanted = "a second compaction: the bytes of block 0 are not found in block 0; \
        what the first one left was changed";
    assert_eq!(text, wanted);
}

// The judge.

/// The buffers of a compaction of the scattered store, before and after.
fn judged() -> [Buffers; 2] {
    let mut before = Buffers::default();
    let store = Store::after(12, SCATTERED);
    [before[Buffer::Tables], before[Buffer::Pages], before[Buffer::Spare]] = held(&store);
    let mut after = before.clone();
    assert_eq!(store::run(20, &[0; 5], after.lend()), Answer::default());
    [before, after]
}

/// The demands that are broken after a change of what the compaction left.
fn broken(change: impl FnOnce(&mut Answer, &mut Lent)) -> Vec<Demand> {
    let ([before, mut after], mut answer) = (judged(), Answer::default());
    change(&mut answer, &mut after.lend());
    let compacted = Compacted { answer, before: &before, after: &after };
    assert_eq!(compacted.outcome().is_err(), !compacted.judge().is_empty());
    compacted.judge().iter().map(|broken| broken.bound).collect()
}

/// The same for a change of the tables as a state.
fn broken_state(change: impl FnOnce(&mut State)) -> Vec<Demand> {
    broken(|_, lent| {
        let mut state = State::unpack(lent.tables);
        change(&mut state);
        state.pack(lent.tables);
    })
}

#[test]
fn each_demand_of_the_judge_can_be_broken() {
    use Demand::{Bits, Names, NextStart, OneToOne, OtherBits, PageBytes, Unchanged};
    assert_eq!(broken(|_, _| {}), []);
    // What is free.
    assert_eq!(broken(|_, lent| lent.pages[3_584..].fill(1)), []);
    assert_eq!(broken(|_, lent| lent.spare.fill(1)), []);
    // The answer; a refusal must leave everything.
    assert_eq!(broken(|answer, _| answer.first = 7), [Demand::Answer]);
    let refused = [Demand::Answer, Unchanged, Unchanged, Unchanged];
    assert_eq!(broken(|answer, _| answer.number = 16), refused);
    // A byte of a page that is used.
    assert_eq!(broken(|_, lent| lent.pages[3_583] ^= 1), [PageBytes]);
    assert_eq!(broken(|_, lent| lent.pages.swap(0, 512)), [PageBytes]);
    // Bits, of blocks that there are not too.
    assert_eq!(broken_state(|state| state.bits[6] = false), [OneToOne, Bits]);
    assert_eq!(broken_state(|state| state.bits[11] = true), [OneToOne, Bits]);
    assert_eq!(broken_state(|state| state.bits[4_095] = true), [OneToOne, Bits]);
    assert_eq!(broken_state(|state| state.next_start = 8), [NextStart]);
    // Two entries that change places, pages and all; and one that takes another's block.
    let exchanged = broken(|_, lent| {
        let mut state = State::unpack(lent.tables);
        state.files[0][0].entries.swap(0, 1);
        state.pack(lent.tables);
        (0..512).for_each(|at| lent.pages.swap(at, 512 + at));
    });
    assert_eq!(exchanged, [Names]);
    let doubled = broken_state(|state| state.files[0][0].entries[1].block = 0);
    assert_eq!(doubled, [Names, OneToOne, PageBytes]);
    // An entry that is stored no longer, and one that is now.
    let lost = broken_state(|state| state.files[5][1].entries[0] = HOLE);
    assert_eq!(lost, [Names, OneToOne, PageBytes, OtherBits]);
    let more = broken_state(|state| state.files[5][1].entries[1] = stored(7));
    assert_eq!(more, [Names, OtherBits]);
    // All else: B, zero fields, set records and terms, heads of files, kinds.
    let others: [fn(&mut State); 9] = [
        |state| state.block_count = 13,
        |state| state.header_zero = 1,
        |state| state.sets[2].writeable = true,
        |state| state.sets[2].first_day += 1,
        |state| state.sets[0].end_day -= 1,
        |state| state.files[5][1].size += 1,
        |state| state.files[5][1].state = FileState::Marked,
        |state| state.files[5][1].entries[63] = UNMAPPED,
        |state| state.files[7][15].entries[63] = HOLE,
    ];
    for change in others {
        assert_eq!(broken_state(change), [OtherBits]);
    }
}

/// The number that is demanded goes by the buffers before.
#[test]
fn the_judge_of_refusals() {
    let [mut before, after] = judged();
    let answer = Answer::default();
    assert_eq!(Compacted { answer, before: &before, after: &after }.number(), 0);
    before[Buffer::Spare].push(0);
    assert_eq!(Compacted { answer, before: &before, after: &after }.number(), 16);
    before[Buffer::Tables][3] = 1;
    let wrong = Compacted { answer, before: &before, after: &after };
    assert_eq!(wrong.number(), 1);
    let text = "compaction: the answer is 0; 0, 0, 0; it must be 1; 0, 0, 0; \
        nothing may change, and the tables did at byte 3; \
        nothing may change, and the pages did at byte 0; \
        nothing may change, and the spare page did at byte 0";
    assert_eq!(wrong.outcome(), Err(text.to_string()));
    let right = Compacted { answer: Answer::refused(1), before: &before, after: &before };
    assert_eq!(right.outcome(), Ok(()));
    // A second compaction that changes something.
    let [before, _] = judged();
    let second = Compacted { answer, before: &before, after: &after };
    assert_eq!(second.judge(), []);
    let bounds: Vec<Demand> = second.judge_second().iter().map(|broken| broken.bound).collect();
    assert_eq!(bounds, [Demand::Twice]);
    assert_eq!(Demand::ALL.len(), 9);
}

/// In words: the first entry that is wrong.
#[test]
fn the_judge_tells_what_is_wrong() {
    let told = |change: fn(&mut State)| {
        let [before, mut after] = judged();
        let mut state = State::unpack(&after[Buffer::Tables]);
        change(&mut state);
        state.pack(&mut after[Buffer::Tables]);
        Compacted { answer: Answer::default(), before: &before, after: &after }.outcome()
    };
    let wanted = "compaction: next start is 9; it must be 7";
    assert_eq!(told(|state| state.next_start = 9), Err(wanted.to_string()));
    let wanted = "compaction: stored entry 3 is set 2 file 0 page 0 in block 9; \
        it must be set 2 file 0 page 0 in block 3; \
        7 entries named 7 of 7 used blocks, and now name 6 of 7; \
        the bytes of block 4 are not found in block 9";
    assert_eq!(told(|state| state.files[2][0].entries[0].block = 9), Err(wanted.to_string()));
    let wanted = "compaction: stored entry 7 is set 7 file 0 page 3 in block 8; \
        it must be no entry more; byte 15366 of the tables changed beside blocks";
    assert_eq!(told(|state| state.files[7][0].entries[3] = stored(8)), Err(wanted.to_string()));
}

// What is counted.

/// A store of so many blocks after a script, then lines, and the cases that the last of
/// them meets.
type Counted = (usize, &'static str, &'static str, &'static [Case]);

const COUNTED: [Counted; 23] = [
    (2, "", "compact", &[Case::NoChange, Case::Empty]),
    (2, "create 0 0; write 0 0 0 1 1", "compact", &[Case::NoChange]),
    (1, "create 0 0; write 0 0 0 1 1", "compact", &[Case::NoChange, Case::Full]),
    (2, "create 0 0; write 0 0 0 1 1; delete 0 0", "compact", &[Case::NextStartAlone, Case::Empty]),
    (4, EXCHANGE, "compact", &[Case::Exchange, Case::AllMove]),
    (2, EXCHANGE, "compact", &[Case::Exchange, Case::AllMove, Case::Full]),
    (4, CHAIN, "compact", &[Case::Chain, Case::AllMove]),
    (3, FULL, "compact", &[Case::Cycle, Case::AllMove, Case::Full]),
    (3, MARKED, "compact", &[Case::ToFree, Case::WithMarked]),
    (
        12,
        SCATTERED,
        "compact",
        &[
            Case::Cycle,
            Case::OfReadOnly,
            Case::OfThreeSets,
            Case::OtherTree,
            Case::OtherFile,
            Case::WithTerm,
        ],
    ),
    (2, "", "set-term 0 2000 1 1 1; compact", &[Case::NoChange, Case::Empty, Case::WithTerm]),
    (2, "", "compact; compact", &[Case::NoChange, Case::Empty, Case::TwoInTurn]),
    (2, "", "compact; free; compact", &[Case::NoChange, Case::Empty, Case::TwoInTurn]),
    (2, "", "compact; create 0 0; compact", &[Case::NoChange, Case::Empty]),
    (2, "create 0 0", "compact; write 0 0 0 1 1", &[Case::WriteAfter]),
    (2, "create 0 0", "compact; read 0 0 0 1; write 0 0 0 1 1", &[Case::WriteAfter]),
    (2, "create 0 0", "compact; write 0 0 0 0 1", &[]),
    (2, "", "compact; create 0 0; write 0 0 0 1 1", &[]),
    (2, "", "spare 511; compact", &[Case::ShortSpare]),
    (2, "", "spare 513; compact", &[Case::LongSpare]),
    (2, "", "spare 0; compact", &[Case::EmptySpare]),
    (2, "", "spare 0; poke 3 1; compact", &[Case::TablesAndSpare]),
    (2, "", "poke 3 1; compact", &[Case::TablesAlone]),
];

#[test]
fn cases_are_counted() {
    for (blocks, script, lines, wanted) in COUNTED {
        let mut store = Store::after(blocks, script);
        for line in lines.split("; ") {
            store.0.counts = Default::default();
            store.does(line);
        }
        let met = &store.0.counts.compactions;
        let found: Vec<Case> = met.cases.keys().copied().collect();
        assert_eq!(found, wanted, "{script}; {lines}");
        assert_eq!(met.unmet().len(), Case::ALL.len() - wanted.len());
        assert_eq!((met.calls, met.linked), (u64::from(lines.ends_with("compact")), 0));
    }
}

/// One line tells all; a library's compactions are told apart.
#[test]
fn the_line_that_tells_of_it() {
    let mut bench = Bench::new();
    let script = Item::parse_script("format 512; compact; spare 1; compact; free").unwrap();
    let mut other = Wrong { calls: COMPACT, run: right };
    for item in &script {
        bench.step(item, &mut other).unwrap();
    }
    bench.step(&script[1], &mut NoOther).unwrap();
    let told = bench.counts.compactions.to_string();
    assert!(told.starts_with("3, of the library 2; nothing to move, and next start changes: 0; "));
    assert!(told.contains("; refused with 16 for a shorter spare page: 2; "));
    assert!(told.ends_with("; refused with 1, the spare page being right: 0"));
    assert_eq!(Met::default().unmet().len(), Case::ALL.len());
}
