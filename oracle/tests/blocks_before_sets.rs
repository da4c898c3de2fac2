//! Ask 4 of document 02, "Check blocks before sets": the first part of the
//! well-formed check and the whole check, case by case, worked out by hand from
//! the documents; then on random stores and damages, against a reckoning of the
//! first part that goes straight by the bytes.

use oracle::bench::{Bench, NoOther, Other};
use oracle::call::*;
use oracle::check::{check_all, check_blocks, rules_broken, Rule};
use oracle::gen;
use oracle::lent::Lending;
use oracle::rng::Rng;
use oracle::store;
use std::collections::BTreeSet;

const SEED: u64 = 20_260_404;

/// The numbers of `check-blocks` and `check`.
type Pair = (u32, u32);
const BOTH_ACCEPT: Pair = (0, 0);
const FIRST_PART_ACCEPTS: Pair = (0, 1);
const BOTH_REFUSE: Pair = (1, 1);

/// The numbers that both calls give for these buffers; the counts are 0, and
/// nothing changes.
fn numbers(tables: &[u8], pages: &[u8]) -> Pair {
    let mut bench = Bench::with(tables.to_vec(), pages.to_vec());
    let mut number = |call: Call| {
        let answer = bench.call(&call, &mut NoOther).unwrap();
        assert_eq!(answer, Answer::refused(answer.number), "{call} gives no counts");
        answer.number
    };
    let found = (number(Call::CheckBlocks {}), number(Call::Check {}));
    assert!(bench.tables() == tables && bench.pages() == pages, "nothing changes");
    assert_eq!(store::check_blocks(tables).number, found.0);
    assert_eq!(store::check(tables, pages).number, found.1);
    found
}

/// Tables and pages after a script.
fn after(script: &str) -> (Vec<u8>, Vec<u8>) {
    let mut bench = Bench::new();
    for item in Item::parse_script(script).unwrap() {
        let answer = bench.step(&item, &mut NoOther).unwrap();
        assert_eq!(answer.map_or(0, |answer| answer.number), 0, "{item} is accepted");
    }
    (bench.tables().to_vec(), bench.pages().to_vec())
}

/// B = 4. File 0 of set 0 is own, of 600 bytes: pages 0 and 1 are stored in
/// blocks 0 and 1, the others are holes. Set 1 is made from set 0, so file 0 is
/// virgin in it. Next start is 2. Header: B in 13 bits, next start in 12, so the
/// bytes are 0, 32, 1, 0. Bitmap: byte 4 is 192. The record of set s begins at
/// 516 + 7 x s, that of file f of set s at 572 + 132 x (16 x s + f), its entries
/// four bytes later, two bytes each.
const BASE: &str = "format 2048; create 0 0; write 0 0 0 600 1; make 0 1 1; ";

/// Lines that put an entry: kind 2 bits, block 14 bits.
fn entry(set: usize, file: usize, page: usize, kind: usize, block: usize) -> String {
    let at = 572 + 132 * (16 * set + file) + 4 + 2 * page;
    format!("poke {at} {}; poke {} {}; ", kind << 6 | block >> 8, at + 1, block & 255)
}

/// Lines that put the header: B 13 bits, next start 12, zero 7.
fn header(block_count: usize, next_start: usize) -> String {
    let word = block_count << 19 | next_start << 7;
    let bytes: Vec<String> =
        (0..4).map(|at| format!("poke {at} {}; ", word >> (24 - 8 * at) & 255)).collect();
    bytes.concat()
}

fn on_base(change: &str) -> (Vec<u8>, Vec<u8>) {
    after(&format!("{BASE}{change}"))
}

#[track_caller]
fn gives(change: &str, wanted: Pair) {
    let (tables, pages) = on_base(change);
    assert_eq!(numbers(&tables, &pages), wanted, "{change}");
}

#[test]
fn well_formed_tables_are_accepted_by_both() {
    gives("", BOTH_ACCEPT);
    // The same header, written once more by `header`.
    gives(&header(4, 2), BOTH_ACCEPT);
    // Next start at its largest.
    gives(&header(4, 3), BOTH_ACCEPT);
    // B at its least and at its largest, with as many pages.
    assert_eq!(numbers_after("format 512"), BOTH_ACCEPT);
    assert_eq!(numbers_after("format 2097152"), BOTH_ACCEPT);
    // Without any file, and after the blocks came free again.
    assert_eq!(numbers_after("format 2048"), BOTH_ACCEPT);
    gives("remove 1; delete 0 0", BOTH_ACCEPT);
}

fn numbers_after(script: &str) -> Pair {
    let (tables, pages) = after(script);
    numbers(&tables, &pages)
}

/// Each rule of the second part, broken by hand; with the others that break
/// too. The first part accepts all of these tables, the whole check none.
#[test]
fn the_first_part_looks_at_no_rule_of_the_second() {
    use Rule::*;
    let cases: [(&str, &[Rule]); 50] = [
        // "the pages buffer is B x 512 bytes": the tables do not hold it.
        ("pages 0", &[PagesLength]),
        ("pages 2047", &[PagesLength]),
        ("pages 2049", &[PagesLength]),
        ("pages 1536", &[PagesLength]),
        ("pages 2560", &[PagesLength]),
        // "Zero fields are zero": the header's lowest and all 7 bits, those of
        // set 0, of set 1, of file 0 of set 0 (14 bits).
        ("poke 3 1", &[HeaderZero]),
        ("poke 3 127", &[HeaderZero]),
        ("poke 518 1", &[SetZero]),
        ("poke 525 127", &[SetZero]),
        ("poke 575 1", &[FileZero]),
        ("poke 574 63; poke 575 255", &[FileZero]),
        // Set 2 is unused: writeable, and its zero field.
        ("poke 530 64", &[UnusedSetNotZero]),
        ("poke 532 1", &[SetZero, UnusedSetNotZero]),
        // File 1 of set 0 is absent: size 4, a zero field, and a hole.
        ("poke 705 1", &[AbsentFileNotZero]),
        ("poke 707 1", &[FileZero, AbsentFileNotZero]),
        ("poke 708 64", &[AbsentFileNotZero]),
        // File 0 of set 2, unused, is marked, or virgin.
        ("poke 4796 192", &[UnusedSetHasFile]),
        ("poke 4796 128", &[UnusedSetHasFile]),
        // Set 0: used 1, writeable 1, level 000, parent 1000 is 196 in byte 516.
        // Not used: its file and its child set break rules too.
        ("poke 516 68", &[UnusedSetNotZero, UnusedSetHasFile, Set0NotUsed, LinkBad]),
        ("remove 1; delete 0 0; poke 516 68", &[UnusedSetNotZero, Set0NotUsed]),
        // All zero, so with parent and sibling 0.
        (
            "remove 1; delete 0 0; poke 516 0; poke 517 0; poke 521 0; poke 522 0",
            &[Set0NotUsed, Set0NotWriteable, Set0Parent, Set0Sibling],
        ),
        ("poke 516 132", &[Set0NotWriteable]),
        ("remove 1; poke 516 204", &[Set0Level]),
        // Parent 0, which is a used set.
        ("poke 516 192", &[Set0Parent]),
        // Sibling 1: its highest three bits stand in byte 517 after first child 1.
        ("poke 517 8; poke 518 128", &[Set0Sibling]),
        // Set 1 has parent 8 (used 1, writeable 1, level 001, parent 1000), and set
        // 0 has no first child.
        ("poke 517 68; poke 523 204", &[NoParent]),
        // Set 0 has no first child, though set 1 is its child.
        ("poke 517 68", &[NotOnceInChain]),
        // Set 1 at level 2, and at level 6.
        ("poke 523 208", &[LevelWrong]),
        ("poke 523 240", &[LevelWrong, LevelOver5]),
        // Sets 2 to 5 in a line, then set 6 under set 5, at level 6: used 1,
        // writeable 1, level 110, parent 0101, first child 1000, sibling 1000; its end day
        // is 1.
        (
            "make 1 2 1; make 2 3 1; make 3 4 1; make 4 5 1; poke 552 52; poke 558 242; \
                poke 559 196; poke 564 1",
            &[LevelOver5],
        ),
        // Set 1 is its own sibling: a chain without end.
        ("poke 524 64; poke 525 128", &[ChainEndless]),
        // Set 1 has set 0 as first child.
        ("poke 524 4", &[ChainForeign]),
        // Set 1 has first child 9, and first child 2, which is unused.
        ("poke 524 76", &[LinkBad]),
        ("poke 524 20", &[LinkBad]),
        // The term of set 0 stands in bytes 519 to 522: end day 0; 36,526. That of set 1
        // in bytes 526 to 529: first day 36,525; end day 65,535.
        ("poke 521 0; poke 522 0", &[FirstNotBelowEnd]),
        ("poke 522 174", &[EndDayOver]),
        ("poke 526 142; poke 527 173", &[FirstNotBelowEnd]),
        ("poke 528 255; poke 529 255", &[EndDayOver]),
        // The default term in set 2, which is unused.
        ("poke 535 142; poke 536 173", &[UnusedSetNotZero]),
        // Size 65,535 of file 0 of set 0.
        ("poke 572 127; poke 573 255; poke 574 192", &[SizeOver]),
        // File 0 of set 1 is virgin: size 4, a hole.
        ("poke 2685 1", &[VirginSize]),
        ("poke 2688 64", &[VirginMapped]),
        // The same, marked, which is well formed; then size 4; a hole.
        ("poke 2684 192; poke 2685 1", &[MarkedSize]),
        ("poke 2684 192; poke 2688 64", &[MarkedMapped]),
        // File 0 of set 0 marked, without a child that needs it, and with one.
        ("remove 1; poke 572 192", &[MarkedSize, MarkedMapped, Set0State]),
        ("poke 572 192", &[MarkedSize, MarkedMapped, Set0State, UnmappedNoParentFile]),
        // Virgin: its entries are no longer allowed.
        ("poke 572 128; poke 573 0", &[VirginMapped, Set0State]),
        // Page 2 of file 0 of set 0, a hole, becomes unmapped.
        ("poke 580 0", &[Set0Unmapped]),
        // File 1 of set 1 is virgin, that of set 0 absent.
        ("poke 2816 128", &[UnmappedNoParentFile]),
        // Size 512: page 1 is wholly past it.
        ("poke 573 128; poke 574 0", &[PastSizeStored]),
    ];
    let mut met = BTreeSet::new();
    for (change, wanted) in cases {
        let (tables, pages) = on_base(change);
        let wanted: BTreeSet<Rule> = wanted.iter().copied().collect();
        assert_eq!(rules_broken(&tables, pages.len()), wanted, "{change}");
        assert_eq!(numbers(&tables, &pages), FIRST_PART_ACCEPTS, "{change}");
        met.extend(wanted);
    }
    assert_eq!(met, Rule::SECOND_PART.iter().copied().collect(), "each rule is met");
}

/// "whatever else they hold": entries count wherever they stand, with the bits
/// that go with them.
#[test]
fn entries_with_their_bits_pass_in_any_record() {
    // Bits 0 to 2: bit 2 goes with an entry that names block 2.
    let bits = "poke 4 224; ";
    let records = [
        // File 1 of set 0 is absent, and all zero but for this entry.
        (0, 1, ""),
        // File 0 of set 1 is virgin.
        (1, 0, ""),
        // The same file, marked.
        (1, 0, "poke 2684 192; "),
        // File 15 of set 7, which is unused: the last record, absent.
        (7, 15, ""),
        // Files of an unused set that are own, virgin and marked.
        (2, 0, "poke 4796 64; "),
        (2, 0, "poke 4796 128; "),
        (2, 0, "poke 4796 192; "),
    ];
    for (set, file, state) in records {
        for page in [0, 63] {
            let put = entry(set, file, page, 2, 2);
            gives(&format!("{state}{put}{bits}"), FIRST_PART_ACCEPTS);
            // Without the bit: an entry without a bit.
            gives(&format!("{state}{put}"), BOTH_REFUSE);
            // Block 1 is named by file 0 of set 0 too.
            gives(&format!("{state}{}", entry(set, file, page, 2, 1)), BOTH_REFUSE);
            // Block 4 is B, with its bit (128 + 64 + 8) and without.
            let high = entry(set, file, page, 2, 4);
            gives(&format!("{state}{high}poke 4 200"), BOTH_REFUSE);
            gives(&format!("{state}{high}"), BOTH_REFUSE);
            // Kind 3; a hole and an unmapped entry with a block.
            for (kind, block) in [(3, 0), (1, 3), (0, 3)] {
                gives(&format!("{state}{}", entry(set, file, page, kind, block)), BOTH_REFUSE);
            }
            // A hole: the bits stay right.
            let hole = entry(set, file, page, 1, 0);
            gives(&format!("{state}{hole}"), FIRST_PART_ACCEPTS);
        }
    }
    // Entry 1 of file 0 goes from set 0 to an unused set: block 1 is named once.
    let moved = entry(0, 0, 1, 1, 0) + &entry(6, 3, 30, 2, 1);
    gives(&moved, FIRST_PART_ACCEPTS);
    // All of the store in records of unused sets.
    let moved = moved + &entry(0, 0, 0, 1, 0) + &entry(5, 0, 0, 2, 0);
    gives(&moved, FIRST_PART_ACCEPTS);
}

#[test]
fn bits_go_with_entries() {
    // Bit 2 is 1, block 2 is named by no entry.
    gives("poke 4 224", BOTH_REFUSE);
    // Bits 4 (B), 7 and 4,095 are 1: "No block is ... B or more".
    gives("poke 4 200", BOTH_REFUSE);
    gives("poke 4 193", BOTH_REFUSE);
    gives("poke 515 1", BOTH_REFUSE);
    // B = 4,096: bit 4,095 may be 1, if an entry names it.
    let whole = header(4_096, 2) + "poke 515 1; pages 2097152; ";
    gives(&whole, BOTH_REFUSE);
    gives(&(whole + &entry(0, 0, 1, 2, 4_095) + "poke 4 128"), BOTH_ACCEPT);
    // Bit 1 is 0, but entry 1 of file 0 of set 0 names block 1.
    gives("poke 4 128", BOTH_REFUSE);
    // No bit is 1.
    gives("poke 4 0", BOTH_REFUSE);
}

#[test]
fn blocks_are_below_b_and_named_once() {
    // Entry 1 of file 0 of set 0 names B, 4,095, and numbers that have no bit.
    for block in [4, 5, 7, 4_095, 4_096, 4_097, 8_191, 8_192, 16_383] {
        gives(&entry(0, 0, 1, 2, block), BOTH_REFUSE);
        // Bit 1 is 0 now, so that no bit is without an entry.
        gives(&(entry(0, 0, 1, 2, block) + "poke 4 128"), BOTH_REFUSE);
    }
    // The largest B has no room for them either.
    for block in [4_096, 8_191, 16_383] {
        let put = entry(0, 0, 1, 2, block) + "poke 4 128; pages 2097152";
        gives(&(header(4_096, 2) + &put), BOTH_REFUSE);
    }
    // Bits 0 and 4, entry 1 names block 4: B = 5 has it, B = 4 has not.
    let put = entry(0, 0, 1, 2, 4) + "poke 4 136; ";
    gives(&put, BOTH_REFUSE);
    gives(&(header(5, 2) + &put + "pages 2560"), BOTH_ACCEPT);
    // Block 0 named twice in one file, and in two files of unused sets.
    gives(&(entry(0, 0, 1, 2, 0) + "poke 4 128"), BOTH_REFUSE);
    gives(&(entry(5, 1, 9, 2, 2) + &entry(6, 1, 9, 2, 2) + "poke 4 224"), BOTH_REFUSE);
    // Three times: as many as one would be, modulo 2.
    let thrice = entry(5, 1, 9, 2, 0) + &entry(6, 1, 9, 2, 0);
    gives(&thrice, BOTH_REFUSE);
}

#[test]
fn kinds_are_not_3_and_blocks_0_unless_stored() {
    // Page 2 of file 0 of set 0 is a hole.
    gives(&entry(0, 0, 2, 3, 0), BOTH_REFUSE);
    for block in [1, 2, 255, 256, 4_096, 16_383] {
        gives(&entry(0, 0, 2, 1, block), BOTH_REFUSE);
        // An unmapped entry of a virgin file.
        gives(&entry(1, 0, 2, 0, block), BOTH_REFUSE);
    }
    // A stored entry's kind becomes 3, unmapped and a hole, its block stays.
    for kind in [3, 0, 1] {
        gives(&(entry(0, 0, 1, kind, 1) + "poke 4 128"), BOTH_REFUSE);
        gives(&entry(0, 0, 1, kind, 1), BOTH_REFUSE);
    }
}

#[test]
fn b_and_next_start() {
    // B = 0: no next start is below it.
    for next_start in [0, 2] {
        gives(&header(0, next_start), BOTH_REFUSE);
        let empty = "remove 1; delete 0 0; pages 0; ";
        gives(&(empty.to_string() + &header(0, next_start)), BOTH_REFUSE);
    }
    // B over 4,096, with the old pages and with as many.
    for block_count in [4_097, 5_000, 8_191] {
        gives(&header(block_count, 2), BOTH_REFUSE);
        let pages = format!("pages {}", block_count * 512);
        gives(&(header(block_count, 2) + &pages), BOTH_REFUSE);
    }
    // Another B in range is a question of the pages' length.
    for block_count in [3, 5, 4_096] {
        gives(&header(block_count, 2), FIRST_PART_ACCEPTS);
        let pages = format!("pages {}", block_count * 512);
        gives(&(header(block_count, 2) + &pages), BOTH_ACCEPT);
    }
    // B = 1: block 1 is named.
    gives(&header(1, 0), BOTH_REFUSE);
    // Next start equal to B, one more, and its largest number.
    for next_start in [4, 5, 4_095] {
        gives(&header(4, next_start), BOTH_REFUSE);
    }
    gives(&(header(4_096, 4_095) + "pages 2097152"), BOTH_ACCEPT);
    gives(&(header(4_095, 4_095) + "pages 2096640"), BOTH_REFUSE);
}

/// "exactly the tables of right length": of no other length, whatever they
/// hold, and then nothing else is looked at.
#[test]
fn tables_of_another_length() {
    let (tables, pages) = on_base("");
    for length in [0, 1, 3, 4, 516, 572, 17_436, 17_467, 17_469, 34_936] {
        let mut other = tables.clone();
        other.resize(length, 0);
        assert_eq!(numbers(&other, &pages), BOTH_REFUSE, "{length}");
        assert_eq!(numbers(&other, &[]), BOTH_REFUSE, "{length}");
        let rules: Vec<Rule> = check_blocks(&other).iter().map(|broken| broken.rule).collect();
        assert_eq!(rules, [Rule::TablesLength]);
        assert_eq!(check_all(&other, pages.len()), check_blocks(&other));
    }
}

/// Each rule of the first part, broken: its name is told by both.
#[test]
fn rules_of_the_first_part_are_told_by_both() {
    let cases = [
        ("tables 17467".to_string(), Rule::TablesLength),
        (header(4_097, 2), Rule::BlockCount),
        (header(4, 4), Rule::NextStart),
        (entry(0, 0, 2, 3, 0), Rule::KindThree),
        (entry(0, 0, 2, 1, 1), Rule::BlockNotStored),
        (entry(0, 0, 1, 2, 4) + "poke 4 136", Rule::BlockTooHigh),
        (entry(0, 0, 1, 2, 0) + "poke 4 128", Rule::BlockNamedTwice),
        ("poke 4 224".to_string(), Rule::BitWithoutEntry),
        ("poke 4 128".to_string(), Rule::EntryWithoutBit),
    ];
    let mut met = BTreeSet::new();
    for (change, rule) in cases {
        gives(&change, BOTH_REFUSE);
        let (tables, pages) = on_base(&change);
        let rules: Vec<Rule> = check_blocks(&tables).iter().map(|broken| broken.rule).collect();
        assert_eq!(rules, [rule], "{change}");
        assert!(rules_broken(&tables, pages.len()).contains(&rule));
        met.insert(rule);
    }
    assert_eq!(met, Rule::FIRST_PART.iter().copied().collect(), "each rule is met");
}

/// A rule of each part broken: the first part's comes first, and is all that
/// the first part tells.
#[test]
fn the_first_part_is_told_first() {
    // Header zero field, pages' length, a set's zero field, and bit 2.
    let (tables, pages) = on_base("poke 3 1; pages 0; poke 518 1; poke 4 224");
    let rules: Vec<Rule> =
        check_all(&tables, pages.len()).iter().map(|broken| broken.rule).collect();
    assert_eq!(rules, [Rule::BitWithoutEntry, Rule::PagesLength, Rule::HeaderZero, Rule::SetZero]);
    assert_eq!(check_blocks(&tables), check_all(&tables, pages.len())[..1]);
    assert_eq!(numbers(&tables, &pages), BOTH_REFUSE);
}

/// The table of rules has the parts in their order, and the pages' length
/// before the rest.
#[test]
fn each_rule_is_of_one_part() {
    assert_eq!([Rule::FIRST_PART, Rule::SECOND_PART].concat(), Rule::ALL);
    assert!(Rule::ALL.windows(2).all(|pair| pair[0] < pair[1]));
    for rule in Rule::ALL {
        assert_eq!(rule.is_first_part(), Rule::FIRST_PART.contains(rule));
        assert_ne!(rule.is_first_part(), Rule::SECOND_PART.contains(rule));
    }
    assert_eq!(Rule::SECOND_PART[0], Rule::PagesLength);
    assert_eq!((Rule::FIRST_PART.len(), Rule::SECOND_PART.len()), (9, 30));
}

/// Both calls only look; the first part is lent the tables alone.
#[test]
fn what_the_calls_are_lent() {
    let (first, whole) = (Call::CheckBlocks {}, Call::Check {});
    assert!(!first.changes() && !whole.changes());
    let lent = |call: &Call| call.row().lent().collect::<Vec<Buffer>>();
    assert_eq!(lent(&first), [Buffer::Tables]);
    assert_eq!(lent(&whole), [Buffer::Tables, Buffer::Pages]);
    for call in [first, whole] {
        assert!(call.row().lent().all(|buffer| call.row().lends(buffer) == Lending::ReadOnly));
        assert_eq!(Item::parse(&call.to_string()), Ok(Item::Call(call)));
    }
    assert_eq!(CALL_NAMES[10..12], ["check-blocks", "check"]);
    assert!(Item::parse("check-blocks 1").is_err() && Item::parse("check 1").is_err());
}

/// They may stand anywhere in a list of calls, and plain store and tally, which
/// stand beside, go on as if they were not there.
#[test]
fn they_stand_anywhere_in_a_list() {
    let calls = "create 0 0; write 0 0 0 600 1; make 0 1 1; write 0 0 0 1 2; delete 0 0; \
        read 1 0 0 700; remove 1; free";
    let with = format!("; {calls}").replace(';', "; check-blocks; check;");
    let run = |script: &str| {
        let mut bench = Bench::new();
        for item in Item::parse_script(&format!("format 2048; {script}")).unwrap() {
            assert_eq!(bench.step(&item, &mut NoOther).unwrap().unwrap().number, 0, "{item}");
            assert!(bench.beside.is_some());
        }
        (bench.tables().to_vec(), bench.pages().to_vec(), bench.beside)
    };
    assert!(run(calls) == run(&with));
    // On damaged tables an accepted check-blocks brings plain store and tally
    // back no more than a refused one.
    let mut bench = Bench::new();
    for item in Item::parse_script("format 512; poke 3 1; check-blocks").unwrap() {
        bench.step(&item, &mut NoOther).unwrap();
    }
    assert!(bench.beside.is_none());
}

/// Another implementation, of both calls, that gives this number to the first.
struct Says(u32);

impl Other for Says {
    fn has(&self, index: usize) -> bool {
        ["check-blocks", "check"].contains(&CALL_NAMES[index])
    }

    fn run(&mut self, index: usize, numbers: &Numbers, lent: Lent) -> Answer {
        if CALL_NAMES[index] == "check" {
            return store::run(index, numbers, lent);
        }
        assert!(lent.pages.is_empty(), "the first part is lent no pages");
        Answer::refused(self.0)
    }
}

/// Another implementation that gives another number is noticed.
#[test]
fn another_answer_is_noticed() {
    for (change, number) in [("", 0), ("poke 3 1", 0), ("pages 0", 0), ("poke 4 224", 1)] {
        let (tables, pages) = on_base(change);
        for says in [0, 1] {
            let mut bench = Bench::with(tables.clone(), pages.clone());
            let found = bench.call(&Call::CheckBlocks {}, &mut Says(says));
            assert_eq!(found.is_ok(), says == number, "{change} {says}");
            assert!(bench.call(&Call::Check {}, &mut Says(says)).is_ok());
        }
    }
}

// Random stores.

/// The first part, reckoned once more, straight by the bytes.
fn meets_first_part(tables: &[u8]) -> bool {
    if tables.len() != 17_468 {
        return false;
    }
    let byte = |at: usize| usize::from(tables[at]);
    let block_count = byte(0) << 5 | byte(1) >> 3;
    let next_start = (byte(1) & 7) << 9 | byte(2) << 1 | byte(3) >> 7;
    if block_count == 0 || block_count > 4_096 || next_start >= block_count {
        return false;
    }
    let mut times = [0; 4_096];
    for record in 0..128 {
        for page in 0..64 {
            let at = 572 + 132 * record + 4 + 2 * page;
            let (kind, block) = (byte(at) >> 6, (byte(at) & 63) << 8 | byte(at + 1));
            match kind {
                0 | 1 if block != 0 => return false,
                2 if block >= block_count => return false,
                2 => times[block] += 1,
                3 => return false,
                _ => {}
            }
        }
    }
    (0..4_096).all(|block| times[block] == byte(4 + block / 8) >> (7 - block % 8) & 1)
}

/// What the parts say of tables, told from the rules that are reported.
#[derive(Default)]
struct Met {
    well_formed: usize,
    second_part_alone: usize,
    first_part_alone: usize,
    both: usize,
}

impl Met {
    /// The numbers are those that the broken rules and the bytes say. Gives
    /// these rules.
    fn judge(&mut self, tables: &[u8], pages: &[u8]) -> BTreeSet<Rule> {
        let broken = check_all(tables, pages.len());
        let first = broken.iter().filter(|broken| broken.rule.is_first_part()).count();
        let (first, second) = (first > 0, first < broken.len());
        assert_eq!(store::check_blocks(tables).number, u32::from(first));
        assert_eq!(store::check(tables, pages).number, u32::from(first || second));
        assert_eq!(meets_first_part(tables), !first, "{broken:?}");
        // The first part's rules stand first, and are what it tells alone.
        let told = check_blocks(tables);
        assert_eq!(told, broken[..told.len()]);
        assert!(broken[told.len()..].iter().all(|broken| !broken.rule.is_first_part()));
        match (first, second) {
            (false, false) => self.well_formed += 1,
            (false, true) => self.second_part_alone += 1,
            (true, false) => self.first_part_alone += 1,
            (true, true) => self.both += 1,
        }
        broken.iter().map(|broken| broken.rule).collect()
    }

    fn told(&self) -> [usize; 4] {
        [self.well_formed, self.second_part_alone, self.first_part_alone, self.both]
    }
}

#[test]
fn random_well_formed_stores_are_accepted_by_both() {
    println!("seed {SEED}");
    let mut rng = Rng::new(SEED);
    let pool = gen::pool(&mut rng, 40);
    let mut with_blocks = 0;
    for made in &pool {
        assert_eq!(numbers(&made.tables, &made.pages), BOTH_ACCEPT);
        assert!(meets_first_part(&made.tables));
    }
    for _ in 0..400 {
        let made = rng.pick(&pool);
        let (mut tables, mut pages) = (made.tables, made.pages);
        gen::twist(&mut rng, &mut tables, &mut pages);
        assert_eq!(numbers(&tables, &pages), BOTH_ACCEPT);
        assert!(meets_first_part(&tables));
        with_blocks += usize::from(tables[4..516].iter().any(|byte| *byte != 0));
    }
    assert!(with_blocks > 200, "{with_blocks} stores with used blocks");
}

/// Each rule broken alone, or with as few others as can be: the part it
/// belongs to is what the calls say.
#[test]
fn each_rule_broken_alone() {
    println!("seed {SEED}");
    let mut rng = Rng::new(SEED ^ 1);
    for rule in Rule::ALL {
        let mut stores = BTreeSet::new();
        for _ in 0..20 {
            let broke = gen::break_alone(&mut rng, *rule);
            let found = rules_broken(&broke.tables, broke.pages.len());
            assert!(found.contains(rule));
            assert_eq!(found.len() == 1, broke.alone, "{rule:?}: {found:?}");
            // The two rules that cannot be broken alone.
            assert_eq!(broke.alone, ![Rule::Set0NotUsed, Rule::Set0State].contains(rule));
            assert!(found.iter().all(|other| other.is_first_part() == rule.is_first_part()));
            let wanted = if rule.is_first_part() { BOTH_REFUSE } else { FIRST_PART_ACCEPTS };
            assert_eq!(numbers(&broke.tables, &broke.pages), wanted, "{rule:?}");
            assert_eq!(meets_first_part(&broke.tables), !rule.is_first_part());
            stores.insert((broke.tables, broke.pages.len()));
        }
        println!("{}: {} stores of 20 differ", rule.name(), stores.len());
        // Tables of the wrong length have few lengths.
        assert!(stores.len() >= 5, "{rule:?}");
    }
    let seeded = |seed| gen::break_alone(&mut Rng::new(seed), Rule::LinkBad).tables;
    assert!(seeded(5) == seeded(5) && seeded(5) != seeded(6));
}

#[test]
fn random_damages_are_judged_by_their_rules() {
    println!("seed {SEED}");
    let mut rng = Rng::new(SEED ^ 2);
    let pool = gen::pool(&mut rng, 60);
    let (mut met, mut rules) = (Met::default(), BTreeSet::new());
    for round in 0..6_000 {
        let made = &pool[rng.below(pool.len())];
        let mut tables = made.tables.clone();
        if round % 2 == 0 {
            gen::damage(&mut rng, &mut tables);
        } else if !gen::damage_rule(&mut rng, &mut tables, rule_in_turn(round)) {
            continue;
        }
        rules.extend(met.judge(&tables, &made.pages));
    }
    println!("well formed, second part, first part, both: {:?}", met.told());
    assert!(met.told()[1..].iter().all(|count| *count > 100));
    assert_eq!(rules.len(), Rule::ALL.len(), "each rule is met");
}

/// Each rule in its turn.
fn rule_in_turn(round: usize) -> Rule {
    Rule::ALL[round / 2 % Rule::ALL.len()]
}

/// Entries in any record, and any other fields: about half of them meet the
/// first part.
#[test]
fn scattered_entries_are_judged_by_the_bytes() {
    println!("seed {SEED}");
    let mut rng = Rng::new(SEED ^ 3);
    let pool = gen::pool(&mut rng, 60);
    let (mut met, mut rules) = (Met::default(), BTreeSet::new());
    let [mut in_unused, mut in_absent] = [[0; 2]; 2];
    for _ in 0..6_000 {
        let made = &pool[rng.below(pool.len())];
        let mut tables = made.tables.clone();
        gen::scatter(&mut rng, &mut tables);
        rules.extend(met.judge(&tables, &made.pages));
        let accepted = usize::from(meets_first_part(&tables));
        in_unused[accepted] += usize::from(stored_records(&tables).any(|record| !record.used));
        in_absent[accepted] += usize::from(stored_records(&tables).any(|record| !record.present));
    }
    println!("well formed, second part, first part, both: {:?}", met.told());
    println!("stored in unused sets {in_unused:?}, in absent files {in_absent:?}");
    assert!(met.second_part_alone > 1_500 && met.both > 1_000);
    assert!(in_unused.iter().chain(&in_absent).all(|count| *count > 500));
    let first_part = rules.iter().filter(|rule| rule.is_first_part()).count();
    assert_eq!(first_part, Rule::FIRST_PART.len() - 1, "each rule but the tables' length");
}

/// A file record with a stored entry.
struct StoredRecord {
    /// Its set's use.
    used: bool,
    present: bool,
}

/// The records with a stored entry, told by the bytes.
fn stored_records(tables: &[u8]) -> impl Iterator<Item = StoredRecord> + '_ {
    (0..128).filter_map(|record| {
        let bytes = &tables[572 + 132 * record..][..132];
        bytes[4..].iter().step_by(2).any(|byte| byte >> 6 == 2).then(|| StoredRecord {
            used: tables[516 + 7 * (record / 16)] >> 7 == 1,
            present: bytes[0] >> 6 != 0,
        })
    })
}

/// Wholly random bytes: in a file record, its first four bytes, the set records,
/// the header, the bitmap, and everywhere.
#[test]
fn random_bytes_are_judged_by_the_bytes() {
    println!("seed {SEED}");
    let mut rng = Rng::new(SEED ^ 4);
    let pool = gen::pool(&mut rng, 40);
    let mut met = Met::default();
    let mut accepted = [0; 6];
    for round in 0..6_000 {
        let made = &pool[rng.below(pool.len())];
        let mut tables = made.tables.clone();
        let record = 572 + 132 * rng.below(128);
        let place = round % accepted.len();
        let range = match place {
            0 => record..record + 132,
            1 => record..record + 4,
            2 => 516..572,
            3 => 0..4,
            4 => 4..516,
            _ => 0..TABLES_BYTES,
        };
        for byte in &mut tables[range] {
            *byte = rng.word() as u8;
        }
        // Sometimes the kinds and blocks of the record suit.
        if place == 0 && round % 4 == 0 {
            for at in (record + 4..record + 132).step_by(2) {
                (tables[at], tables[at + 1]) = (rng.pick(&[0, 64]), 0);
            }
            // It had stored entries perhaps; then their bits are too many.
        }
        met.judge(&tables, &made.pages);
        accepted[place] += usize::from(meets_first_part(&tables));
    }
    println!("well formed, second part, first part, both: {:?}", met.told());
    println!("accepted by place: {accepted:?}");
    assert!(met.second_part_alone > 1_500 && met.both > 1_000);
    // State, size and zero field of a file, and the set records, are nothing to
    // the first part; it hardly ever accepts a random bitmap or all random bytes.
    assert_eq!(accepted[1..3], [1_000, 1_000]);
    assert!(accepted[0] > 200 && accepted[3] > 0 && accepted[4..] == [0, 0]);
}

/// The first part says the same whatever stands in the bytes that it does not
/// go by: the header's zero field, the set records, the first four bytes of
/// each file record.
#[test]
fn other_fields_make_no_difference_to_the_first_part() {
    println!("seed {SEED}");
    let mut rng = Rng::new(SEED ^ 5);
    let pool = gen::pool(&mut rng, 40);
    let mut said = [0; 2];
    for round in 0..2_000 {
        let made = &pool[rng.below(pool.len())];
        let mut tables = made.tables.clone();
        if round % 2 == 0 {
            gen::scatter(&mut rng, &mut tables);
        }
        let number = store::check_blocks(&tables).number;
        tables[3] = (tables[3] & 128) | (rng.word() as u8 & 127);
        let fields = (516..572).chain((572..TABLES_BYTES).filter(|at| (at - 572) % 132 < 4));
        for at in fields {
            tables[at] = rng.word() as u8;
        }
        assert_eq!(store::check_blocks(&tables).number, number);
        assert_eq!(meets_first_part(&tables), number == 0);
        said[number as usize] += 1;
    }
    assert!(said.iter().all(|count| *count > 300), "{said:?}");
}
