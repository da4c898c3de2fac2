//! The calling of exports and the comparing of lent buffers, tried on a
//! stand-in call that has more than any call: a spare page and bytes that it leaves free,
//! as a compaction has, and second tables, registers, five numbers and two widths of them
//! beside.

use oracle::call::Answer;
use oracle::export;
use oracle::export::Export;
use oracle::lent::{check_unchanged, Buffer::*, Lending::*, *};
use std::ops::Range;
use std::slice::{from_raw_parts, from_raw_parts_mut};

const ROW: Row = Row {
    lends: [Changed, Changed, NotLent, Changed, Changed, ReadOnly],
    leaves: Some(last_page_and_spare),
};
const NUMBERS: Numbers = [7, 20, 1_000_000, u32::MAX, 255];

fn last_page_and_spare(after: &Buffers) -> Vec<(Buffer, Range<usize>)> {
    vec![(Pages, 512..1_024), (Spare, 0..after[Spare].len())]
}

/// Each buffer has bytes of its own.
fn buffers() -> Buffers {
    let lengths = [64, 1_024, 0, 16, 512, 100];
    let mut buffers = Buffers::default();
    for (buffer, length) in Buffer::ALL.into_iter().zip(lengths) {
        buffers[buffer] = (0..length).map(|place| place as u8 ^ buffer as u8).collect();
    }
    buffers
}

/// The stand-in; `free` is what it puts where anything may stand.
fn stand_in(n: &Numbers, lent: Lent, free: u8) -> Answer {
    lent.registers[n[0] as usize % 16] = n[4] as u8;
    lent.tables[n[1] as usize % 64] ^= lent.second[n[2] as usize % 100];
    lent.pages[..512].fill(n[3] as u8);
    lent.pages[512..].fill(free);
    lent.spare.fill(free);
    Answer::accepted([n[0], n[1], n[2]])
}

/// The other implementation's, as a library for C would have it.
///
/// # Safety
/// Each pointer has as many bytes as the length after it says.
#[no_mangle]
unsafe extern "C" fn stand_in_for_c(
    registers: *mut u8,
    registers_length: usize,
    tables: *mut u8,
    tables_length: usize,
    pages: *mut u8,
    pages_length: usize,
    second: *const u8,
    second_length: usize,
    spare: *mut u8,
    spare_length: usize,
    a: u32,
    b: u32,
    c: u32,
    d: u32,
    value: u8,
) -> Answer {
    let mut second = from_raw_parts(second, second_length).to_vec();
    let lent = Lent::new([
        from_raw_parts_mut(tables, tables_length),
        from_raw_parts_mut(pages, pages_length),
        &mut [],
        from_raw_parts_mut(registers, registers_length),
        from_raw_parts_mut(spare, spare_length),
        &mut second,
    ]);
    stand_in(&[a, b, c, d, u32::from(value)], lent, 2)
}

fn other() -> Export {
    export!(n lent stand_in_for_c () () change registers, change tables, change pages, look second,
        change spare, u32 0, u32 1, u32 2, u32 3, u8 4)
}

/// The oracle's call and the other's, which then does a fault. Gives what is
/// found, and the buffers that the oracle goes on with.
fn both(fault: impl Fn(&mut Lent)) -> (Result<(), String>, Buffers) {
    let before = buffers().lent_by(&ROW);
    let mut after = before.clone();
    let answer = stand_in(&NUMBERS, after.lend(), 1);
    assert_eq!(check_unchanged(&ROW, &answer, &before, &after), Ok(()));
    let mut lent = Guarded::new(&before);
    assert_eq!(other()(&NUMBERS, lent.lend()), answer);
    fault(&mut lent.lend());
    (lent.compare(&ROW, true, &mut after), after)
}

#[test]
fn free_bytes_are_taken_over() {
    let (found, after) = both(|_| {});
    assert_eq!(found, Ok(()));
    assert!(after[Spare].iter().chain(&after[Pages][512..]).all(|byte| *byte == 2));
}

#[test]
fn a_changed_byte_of_each_buffer_is_noticed() {
    type Fault = fn(&mut Lent);
    let faults: [(&str, Fault); 4] = [
        ("tables", |lent| lent.tables[63] ^= 1),
        ("pages", |lent| lent.pages[511] ^= 1),
        ("registers", |lent| lent.registers[15] ^= 1),
        ("second", |lent| lent.second[99] ^= 1),
    ];
    for (name, fault) in faults {
        let text = both(fault).0.expect_err(name);
        assert!(text.starts_with(&format!("{name} differ at byte ")), "{text}");
    }
}

#[test]
fn a_refused_call_leaves_no_byte_free() {
    let before = buffers().lent_by(&ROW);
    let mut other = Guarded::new(&before);
    other.lend().spare[0] ^= 1;
    let found = other.compare(&ROW, false, &mut before.clone());
    assert!(found.expect_err("a changed spare page").starts_with("spare differ at byte 0"));
}

#[test]
fn the_oracle_itself_keeps_to_what_it_is_lent() {
    let before = buffers().lent_by(&ROW);
    for (buffer, number, noticed) in
        [(Registers, 0, false), (Registers, 17, true), (Second, 0, true), (Spare, 16, true)]
    {
        let mut after = before.clone();
        after[buffer][3] ^= 1;
        let outcome = check_unchanged(&ROW, &Answer::refused(number), &before, &after);
        assert_eq!(outcome.is_err(), noticed, "{buffer:?} {number}");
    }
}
