//! Ask 6 of document 02, "A register page for the front panel", case by case,
//! worked out by hand from the documents and the readings P1 to P11. Scripts run
//! with plain store and tally beside, and with what the registers must show since
//! a reset.

use oracle::accesses::{Accesses, CASES};
use oracle::bench::{Bench, NoOther, Other};
use oracle::call::*;
use oracle::gen::{self, Made};
use oracle::lent::Lending;
use oracle::panel;
use oracle::panel_judge::{self, Since};
use oracle::rng::Rng;
use oracle::store;

mod script;
use script::{call_at, Named, Store};

type Registers = [u8; 16];

const ZEROS: Registers = [0; 16];
const ONES: Registers = [0xFF; 16];
/// Sixteen bytes that no reset made.
const ANY: Registers =
    [0x96, 0x21, 0xD8, 0x8C, 0x02, 0x0B, 0x05, 0x77, 0x80, 0xFF, 1, 2, 4, 0x55, 0xAA, 0xFE];
const DONE: Answer = Answer { number: 0, first: 0, second: 0, third: 0 };

/// The buffers of a panel and its store.
#[derive(Clone, PartialEq)]
struct Lab {
    registers: Vec<u8>,
    tables: Vec<u8>,
    pages: Vec<u8>,
}

impl Lab {
    fn new(registers: &[u8], made: &Store) -> Lab {
        let (tables, pages) = (made.0.tables().to_vec(), made.0.pages().to_vec());
        Lab { registers: registers.to_vec(), tables, pages }
    }

    /// A panel without a store.
    fn alone(registers: &[u8]) -> Lab {
        Lab { registers: registers.to_vec(), tables: Vec::new(), pages: Vec::new() }
    }

    fn write(&mut self, offset: u32, value: u8) -> Answer {
        panel::write(&mut self.registers, &mut self.tables, &mut self.pages, offset, value)
    }

    /// The registers after a write, which answers 0; 0, 0, 0.
    fn after(registers: Registers, offset: u32, value: u8) -> Registers {
        let mut lab = Lab::alone(&registers);
        assert_eq!(lab.write(offset, value), DONE);
        lab.registers.try_into().unwrap()
    }
}

/// These registers with some bytes changed.
fn with(registers: Registers, changes: &[(usize, u8)]) -> Registers {
    let mut changed = registers;
    for (at, value) in changes {
        changed[*at] = *value;
    }
    changed
}

/// Does the lines of a script; each panel write answers 0; 0, 0, 0.
fn run(store: &mut Store, script: &str) {
    for item in Item::parse_script(script).unwrap() {
        let answer = store.does(&item.to_string());
        assert!(!matches!(item, Item::Call(Call::PanelWrite { .. })) || answer == "0; 0, 0, 0");
    }
}

/// The lines that give a command with these registers 4 to 6.
fn command(op: u8, [set, file, other]: [u8; 3]) -> String {
    format!("panel-write 4 {set}; panel-write 5 {file}; panel-write 6 {other}; panel-write 0 {op}")
}

/// Two pages of file 0 stored in set 0, set 1 read-only and set 2 writeable made
/// from it, and a reset panel.
const FAMILY: &str = "create 0 0; write-narrow 0 0 0 1024 1; make 0 1 0; make 0 2 1; panel-reset";

fn family(blocks: usize) -> Store {
    Store::after(blocks, FAMILY)
}

// Names, what is lent, lines of scripts.

/// "lent as sixteen bytes that only the panel's calls write from reset on".
#[test]
fn names_and_what_the_calls_are_lent() {
    use Buffer::*;
    use Lending::*;
    let wanted: [Named; 4] = [
        ("panel-reset", &[], &[(Registers, Changed)]),
        ("panel-read 4294967295", &[u32::MAX], &[(Registers, ReadOnly)]),
        (
            "panel-write 15 255",
            &[15, 255],
            &[(Tables, Changed), (Pages, Changed), (Registers, Changed)],
        ),
        ("panel-line", &[], &[(Registers, ReadOnly)]),
    ];
    for (place, named) in (13..).zip(wanted) {
        assert!(call_at(place, named).is_of_panel());
    }
    for row in (0..13).chain(17..CALLS).map(|place| &ROWS[place]) {
        assert_eq!(row.lends(Registers), NotLent);
    }
    for bad in ["panel-write 0 256", "panel-write 0 -1", "panel-write 0", "panel-reset 1"] {
        assert!(Item::parse(bad).is_err(), "{bad}");
    }
}

/// Each random call is of the kind asked for.
#[test]
fn random_calls_are_of_their_kind() {
    let mut rng = Rng::new(6);
    let Made { style, beside, .. } = gen::made(&mut rng);
    for index in 0..CALLS {
        for _ in 0..20 {
            assert_eq!(gen::call_of(&mut rng, &style, &beside, index).index(), index);
        }
    }
}

// Reset, read and write of each register.

/// "All registers reset to 0." What they were makes no difference (P1).
#[test]
fn all_registers_reset_to_0() {
    for registers in [ZEROS, ONES, ANY] {
        let mut lent = registers;
        assert_eq!(panel::reset(&mut lent), DONE);
        assert_eq!(lent, ZEROS);
    }
}

/// "A read gives the value as the first count". "It reads as 0": the command does
/// so whatever byte 0 holds (P2).
#[test]
fn a_read_gives_the_value_of_any_register() {
    for offset in 0..16 {
        for value in 0..=255 {
            for others in [ZEROS, ONES, ANY] {
                let registers = with(others, &[(offset, value)]);
                let shown = if offset == 0 { 0 } else { u32::from(value) };
                let answer = panel::read(&registers, offset as u32);
                assert_eq!(answer, Answer::accepted([shown, 0, 0]), "{offset} {value}");
            }
        }
    }
}

/// "Offsets 3 to 6 are fully writable; 1 and 7 to 15 ignore writes." No other
/// register changes (P3). There is no store here: only a command looks at it.
#[test]
fn a_write_of_each_register_over_all_values() {
    for offset in (1..16).filter(|offset| *offset != 2) {
        for value in 0..=255 {
            for registers in [ZEROS, ONES, ANY] {
                let wanted = match offset {
                    3..=6 => with(registers, &[(offset, value)]),
                    _ => registers,
                };
                assert_eq!(Lab::after(registers, offset as u32, value), wanted, "{offset} {value}");
            }
        }
    }
}

/// "writing ones to the cause clears those bits". Bits 3 to 7 are not writable:
/// what no reset made stays there (P3).
#[test]
fn writing_ones_to_the_cause_clears_those_bits() {
    for (cause, value) in (0..=0xFFFF_u16).map(|pair| pair.to_be_bytes().into()) {
        let registers = with(ANY, &[(2, cause)]);
        let cleared = [1, 2, 4].into_iter().filter(|bit| value & bit != 0);
        let left = cleared.fold(cause, |left, bit| if left & bit != 0 { left - bit } else { left });
        assert_eq!(Lab::after(registers, 2, value), with(registers, &[(2, left)]));
    }
    let worked_out = [(7, 0, 7), (7, 1, 6), (7, 2, 5), (7, 4, 3), (5, 4, 1), (5, 2, 5), (7, 7, 0)];
    let more = [(7, 0xF8, 7), (0xFF, 0xFF, 0xF8), (0xD8, 0xFF, 0xD8), (0, 0xFF, 0)];
    for (cause, value, left) in worked_out.into_iter().chain(more) {
        assert_eq!(Lab::after(with(ZEROS, &[(2, cause)]), 2, value), with(ZEROS, &[(2, left)]));
    }
}

/// "Asking for the line gives 1 as the first count exactly when cause and mask
/// share a one, else 0": of all 65,536 pairs, whole bytes, whatever the other
/// registers hold (P2).
#[test]
fn the_line_over_all_pairs_of_cause_and_mask() {
    let mut lines = 0;
    for cause in 0..=255_u8 {
        for mask in 0..=255_u8 {
            let share = (0..8).any(|bit| cause >> bit & 1 == 1 && mask >> bit & 1 == 1);
            for others in [ZEROS, ONES, ANY] {
                let answer = panel::line(&with(others, &[(2, cause), (3, mask)]));
                assert_eq!(answer, Answer::accepted([u32::from(share), 0, 0]), "{cause} {mask}");
            }
            lines += u32::from(share);
        }
    }
    // Pairs without a common one: 3 of 4 for each of eight bits.
    assert_eq!(lines, 65_536 - 3_u32.pow(8));
}

// 13.

/// P1: "It refuses an offset over 15, or registers of another length, with 13,
/// checked before anything else, leaving registers and store as they were." Before
/// 1 too.
#[test]
fn number_13_comes_before_anything_else() {
    let offsets = [16, 17, 31, 32, 255, 256, 257, 260, 65_536, 1 << 31, u32::MAX];
    for damage in
        ["", "poke 3 1", "tables 0", "tables 17436", "tables 17469", "pages 0", "pages 511"]
    {
        let mut made = family(4);
        run(&mut made, damage);
        for offset in offsets {
            refuses_with_13(&made, &ANY, &[offset]);
        }
        for length in [0, 1, 15, 17, 32, 256] {
            let registers = vec![1; length];
            refuses_with_13(&made, &registers, &[0, 2, 4, 15, 16, u32::MAX]);
            assert_eq!(panel::line(&registers), Answer::refused(13));
            let mut lent = registers.clone();
            assert_eq!(panel::reset(&mut lent), Answer::refused(13));
            assert_eq!(lent, registers);
        }
    }
}

fn refuses_with_13(made: &Store, registers: &[u8], offsets: &[u32]) {
    let before = Lab::new(registers, made);
    for offset in offsets {
        assert_eq!(panel::read(registers, *offset), Answer::refused(13), "{offset}");
        for value in COMMANDS.into_iter().chain([0, 0x11, 0xFF]) {
            let mut lab = before.clone();
            assert_eq!(lab.write(*offset, value), Answer::refused(13), "{offset} {value}");
            assert!(lab == before, "{offset} {value}");
        }
    }
}

/// The offset 15 and sixteen bytes are taken.
#[test]
fn number_13_comes_nowhere_else() {
    for value in 0..=255 {
        for offset in 0..16 {
            assert_eq!(Lab::alone(&ONES).write(offset, value), DONE, "{offset} {value}");
            assert_eq!(panel::read(&ONES, offset).number, 0);
        }
    }
    let mut store = family(4);
    assert_eq!(store.does("panel-read 15"), "0; 0, 0, 0");
    assert_eq!(store.does("panel-read 16"), "13; 0, 0, 0");
    assert_eq!(store.does("panel-write 16 4"), "13; 0, 0, 0");
    run(&mut store, "registers 15");
    for call in ["panel-reset", "panel-read 0", "panel-write 0 4", "panel-line"] {
        assert_eq!(store.does(call), "13; 0, 0, 0");
    }
    assert_eq!(store.does("size 0 0"), "0; 1024, 0, 0");
}

// Commands.

/// A command, the registers 4 to 6 that it is given, the call that it runs, and its
/// number and counts, on `FAMILY` with so many blocks.
type Case = (usize, u8, [u8; 3], &'static str, [u8; 4]);

const ACCEPTED: [Case; 9] = [
    (4, 1, [0, 3, 9], "create 0 3", [0, 0, 0, 0]),
    (4, 1, [2, 15, 255], "create 2 15", [0, 0, 0, 0]),
    // Set 1 takes both blocks over, set 2 gets two copies, one, or none.
    (4, 4, [0, 0, 7], "delete 0 0", [0, 0, 2, 0]),
    (3, 4, [0, 0, 7], "delete 0 0", [0, 0, 1, 1]),
    (2, 4, [0, 0, 0], "delete 0 0", [0, 0, 0, 1]),
    // Nothing reads through set 2.
    (4, 4, [2, 0, 0], "delete 2 0", [0, 0, 0, 0]),
    (4, 5, [2, 77, 7], "make 2 7 0", [0, 0, 0, 0]),
    (4, 6, [1, 16, 3], "make 1 3 1", [0, 0, 0, 0]),
    (4, 7, [1, 200, 100], "remove 1", [0, 0, 0, 0]),
];

const REFUSED: [Case; 22] = [
    (4, 1, [3, 0, 0], "create 3 0", [2, 0, 0, 0]),
    (4, 1, [8, 16, 0], "create 8 16", [2, 0, 0, 0]),
    (4, 1, [0, 16, 0], "create 0 16", [3, 0, 0, 0]),
    (4, 1, [1, 5, 0], "create 1 5", [4, 0, 0, 0]),
    (4, 1, [2, 0, 0], "create 2 0", [9, 0, 0, 0]),
    (4, 4, [255, 0, 0], "delete 255 0", [2, 0, 0, 0]),
    (4, 4, [0, 255, 0], "delete 0 255", [3, 0, 0, 0]),
    (4, 4, [1, 0, 0], "delete 1 0", [4, 0, 0, 0]),
    (4, 4, [2, 9, 0], "delete 2 9", [5, 0, 0, 0]),
    // Parent and child are not exchanged: set 7 is not used.
    (4, 5, [7, 0, 0], "make 7 0 0", [2, 0, 0, 0]),
    (4, 5, [0, 0, 8], "make 0 8 0", [2, 0, 0, 0]),
    (4, 5, [0, 0, 1], "make 0 1 0", [9, 0, 0, 0]),
    (4, 5, [8, 0, 3], "make 8 3 0", [2, 0, 0, 0]),
    (4, 6, [7, 0, 0], "make 7 0 1", [2, 0, 0, 0]),
    (4, 6, [0, 0, 255], "make 0 255 1", [2, 0, 0, 0]),
    (4, 6, [0, 0, 0], "make 0 0 1", [9, 0, 0, 0]),
    (4, 6, [16, 0, 3], "make 16 3 1", [2, 0, 0, 0]),
    (4, 7, [3, 0, 1], "remove 3", [2, 0, 0, 0]),
    (4, 7, [9, 0, 1], "remove 9", [2, 0, 0, 0]),
    (4, 7, [0, 0, 1], "remove 0", [11, 0, 0, 0]),
    (4, 7, [128, 0, 1], "remove 128", [2, 0, 0, 0]),
    (4, 7, [248, 0, 1], "remove 248", [2, 0, 0, 0]),
];

/// All sixteen registers after each command, and the store, which is as after the
/// direct call. P10: the write itself answers 0; 0, 0, 0 (see `run`).
fn commands_show(cases: &[Case]) {
    for (blocks, op, [set, file, other], direct, [number, first, second, third]) in cases {
        let mut store = family(*blocks);
        run(&mut store, "panel-write 3 90");
        run(&mut store, &command(*op, [*set, *file, *other]));
        let cause = match (number, third) {
            (0, 0) => 1,
            (0, _) => 5,
            _ => 2,
        };
        let top = [0, *number, cause, 90, *set, *file, *other, *first, *second, *third];
        assert_eq!(store.0.registers()[..10], top, "{direct}");
        assert_eq!(store.0.registers()[10..], [0; 6]);
        let mut other_way = family(*blocks);
        let answer = format!("{number}; {first}, {second}, {third}");
        assert_eq!(other_way.does(direct), answer, "{direct}");
        assert!(store.0.tables() == other_way.0.tables(), "{direct}");
        assert!(store.0.pages() == other_way.0.pages(), "{direct}");
        assert!(store.0.beside == other_way.0.beside, "{direct}");
    }
}

/// "Offset 0 is the command: a session op 1, 4, 5, 6 or 7, run when written". P7:
/// set is the parent in 5 and 6, other the new set.
#[test]
fn each_command_accepted() {
    commands_show(&ACCEPTED);
}

/// P8: refused, register 1 is the number and 7 to 9 are 0. P7: whole bytes are
/// judged.
#[test]
fn each_command_refused() {
    commands_show(&REFUSED);
    let mut store = Store::after(1, "make 0 1 1; make 1 2 1; make 2 3 1; make 3 4 1; make 4 5 1");
    run(&mut store, &format!("panel-reset; {}", command(5, [5, 0, 6])));
    assert_eq!(store.0.registers(), with(ZEROS, &[(1, 10), (2, 2), (4, 5), (6, 6)]));
    let mut store = Store::after(1, "panel-reset; panel-write 0 7");
    assert_eq!(store.0.registers(), with(ZEROS, &[(1, 12), (2, 2)]));
    // "even where its command is refused"
    assert_eq!(store.does("panel-write 0 7"), "0; 0, 0, 0");
}

/// P8: on tables that are not well formed, or with tables or pages of wrong
/// length, a command ran and gave 1. P10: the write answers 0; 0, 0, 0.
#[test]
fn a_command_on_malformed_tables_ran_and_gave_1() {
    for damage in [
        "poke 3 1",
        "tables 0",
        "tables 17436",
        "tables 17467",
        "tables 17469",
        "pages 0",
        "pages 2049",
    ] {
        let mut made = family(4);
        run(&mut made, damage);
        for op in COMMANDS {
            let mut lab = Lab::new(&with(ANY, &[(2, 4)]), &made);
            let before = lab.clone();
            assert_eq!(lab.write(0, op), DONE);
            let wanted = with(ANY, &[(1, 1), (2, 6), (7, 0), (8, 0), (9, 0)]);
            assert_eq!(lab.registers, wanted, "{damage} {op}");
            assert!(lab.tables == before.tables && lab.pages == before.pages);
        }
        run(&mut made, "panel-write 4 2; panel-write 0 7");
        assert_eq!(made.0.registers(), with(ZEROS, &[(1, 1), (2, 2), (4, 2)]));
        assert!(made.0.since.is_some());
    }
}

/// P5: 0, 2, 3 and 8 to 255 are no commands, 0x11 and 0x41 among them. P6: "any
/// other value runs nothing, sets cause bit 1 and leaves the other registers";
/// the store is not looked at. P4: byte 0 stays as it is.
#[test]
fn any_other_value_runs_nothing() {
    let others: Vec<u8> = (0..=255).filter(|value| !COMMANDS.contains(value)).collect();
    assert_eq!(others.len(), 251);
    let mut broken = family(4);
    run(&mut broken, "poke 3 1");
    for made in [family(4), broken] {
        for value in &others {
            for registers in [ZEROS, ONES, ANY] {
                let mut lab = Lab::new(&registers, &made);
                let before = lab.clone();
                assert_eq!(lab.write(0, *value), DONE);
                assert_eq!(lab.registers, with(registers, &[(2, registers[2] | 2)]), "{value}");
                assert!(lab.tables == before.tables && lab.pages == before.pages);
            }
        }
    }
}

/// P6: "the last command run" stays the last one, number and counts.
#[test]
fn number_and_counts_stay_until_the_next_command() {
    let mut store = family(3);
    run(&mut store, &command(4, [0, 0, 0]));
    let shown = with(ZEROS, &[(2, 5), (8, 1), (9, 1)]);
    assert_eq!(store.0.registers(), shown);
    run(&mut store, "panel-write 0 17; panel-write 0 65; panel-write 0 0; panel-write 0 255");
    assert_eq!(store.0.registers(), with(shown, &[(2, 7)]));
    run(&mut store, "panel-write 1 9; panel-write 7 9; panel-write 8 0; panel-write 9 0");
    assert_eq!(store.0.registers(), with(shown, &[(2, 7)]));
    // Direct calls are no commands.
    run(&mut store, "create 0 1; delete 0 9; make 0 5 1; format 1024; create 0 0");
    assert_eq!(store.0.registers(), with(shown, &[(2, 7)]));
    // A refused command has counts of 0, and its number stays over other values.
    run(&mut store, "panel-write 0 1");
    assert_eq!(store.0.registers(), with(ZEROS, &[(1, 9), (2, 7)]));
    run(&mut store, "panel-write 0 2; panel-write 0 3; panel-write 0 8");
    assert_eq!(store.0.registers(), with(ZEROS, &[(1, 9), (2, 7)]));
    // An accepted one brings the number back to 0.
    run(&mut store, "panel-write 5 1; panel-write 0 1");
    assert_eq!(store.0.registers(), with(ZEROS, &[(2, 7), (5, 1)]));
}

/// P4: a command never changes byte 0, whatever it holds.
#[test]
fn the_command_is_not_kept() {
    for value in 0..=255 {
        for byte in [0, 1, 0xFF] {
            let mut lab = Lab::new(&with(ANY, &[(0, byte)]), &family(4));
            lab.write(0, value);
            assert_eq!(lab.registers[0], byte, "{value}");
            assert_eq!(panel::read(&lab.registers, 0), DONE);
        }
    }
}

/// P7: set and other over 7 give 2, file over 15 gives 3, over all 256 values.
/// Set 3 to 7 are not used; file 0 is there.
#[test]
fn set_file_and_other_are_whole_bytes() {
    let made = family(4);
    let number = |op: u8, place: usize, value: u8| {
        let mut lab = Lab::new(&with(ZEROS, &[(6, 3), (place, value)]), &made);
        assert_eq!(lab.write(0, op), DONE);
        lab.registers[1]
    };
    for value in 0..=255 {
        let of_set = |numbers: [u8; 3]| *numbers.get(value as usize).unwrap_or(&2);
        assert_eq!(number(1, 4, value), of_set([9, 4, 9]), "create in set {value}");
        assert_eq!(number(4, 4, value), of_set([0, 4, 0]), "delete in set {value}");
        assert_eq!(number(5, 4, value), of_set([0, 0, 0]), "make from set {value}");
        assert_eq!(number(6, 4, value), of_set([0, 0, 0]), "make from set {value}");
        assert_eq!(number(7, 4, value), of_set([11, 0, 0]), "remove set {value}");
        let of_file = |numbers: [u8; 2]| match value {
            0 => numbers[0],
            1..=15 => numbers[1],
            _ => 3,
        };
        assert_eq!(number(1, 5, value), of_file([9, 0]), "create file {value}");
        assert_eq!(number(4, 5, value), of_file([0, 5]), "delete file {value}");
        let of_other = match value {
            0..=2 => 9,
            3..=7 => 0,
            _ => 2,
        };
        assert_eq!(number(5, 6, value), of_other, "make set {value}");
        assert_eq!(number(6, 6, value), of_other, "make set {value}");
    }
}

/// "Registers that the op does not use are ignored": all 256 values of other in 1
/// and 4, of file in 5 and 6, of both in 7; and always of mask, number and the
/// rest.
#[test]
fn registers_that_the_op_does_not_use_are_ignored() {
    let made = family(4);
    let unused: [(u8, &[usize]); 5] = [(1, &[6]), (4, &[6]), (5, &[5]), (6, &[5]), (7, &[5, 6])];
    for (op, places) in unused {
        let base = with(ZEROS, &[(4, 2), (5, if op == 1 { 4 } else { 0 }), (6, 3)]);
        let mut wanted = Lab::new(&base, &made);
        wanted.write(0, op);
        assert_eq!(wanted.registers[1..3], [0, 1], "{op} is accepted");
        for place in places.iter().copied().chain([0, 1, 3, 7, 8, 9, 10, 15]) {
            for value in 0..=255 {
                let mut lab = Lab::new(&with(base, &[(place, value)]), &made);
                lab.write(0, op);
                assert!(lab.tables == wanted.tables && lab.pages == wanted.pages, "{op} {place}");
                assert_eq!(lab.registers[7..10], [0; 3]);
                assert_eq!(lab.registers[1..3], [0, 1]);
            }
        }
    }
}

/// "only a command looks at the store": all else is the same on any tables and
/// pages, and changes none of them.
#[test]
fn only_a_command_looks_at_the_store() {
    let script = "panel-reset; panel-write 3 255; panel-write 4 9; panel-write 5 1; \
        panel-write 6 2; panel-write 0 0; panel-write 0 3; panel-read 2; panel-line; \
        panel-write 2 2; panel-line; panel-write 7 1; panel-write 15 1; panel-read 15";
    for damage in ["", "poke 0 255", "tables 0", "tables 1", "pages 0", "tables 40000"] {
        let mut store = family(4);
        run(&mut store, damage);
        let (tables, pages) = (store.0.tables().to_vec(), store.0.pages().to_vec());
        let answers: Vec<String> = Item::parse_script(script)
            .unwrap()
            .iter()
            .map(|i| store.does(&i.to_string()))
            .collect();
        assert_eq!(answers[7..11], ["0; 2, 0, 0", "0; 1, 0, 0", "0; 0, 0, 0", "0; 0, 0, 0"]);
        assert_eq!(store.0.registers(), with(ZEROS, &[(3, 255), (4, 9), (5, 1), (6, 2)]));
        assert!(store.0.tables() == tables && store.0.pages() == pages, "{damage}");
    }
}

// The cause and the line from reset on.

/// P9: "A command that runs adds to the cause bit 0 when accepted, bit 1 when
/// refused, bit 2 when its third count is not 0". Bits are added and never taken
/// away by a command.
#[test]
fn bits_are_added_to_the_cause() {
    let mut store = family(2);
    // Each line, then the cause and whether the line is 1 with this mask.
    let steps = [
        ("panel-write 3 0", 0, 0),
        ("panel-write 5 1; panel-write 0 1", 1, 0),
        ("panel-write 3 2", 1, 0),
        ("panel-write 0 1", 3, 1),
        ("panel-write 2 2", 1, 0),
        ("panel-write 0 8", 3, 1),
        ("panel-write 3 4", 3, 0),
        // Accepted, and it marks file 0 of set 2: bits 0 and 2 together.
        ("panel-write 2 7; panel-write 5 0; panel-write 0 4", 5, 1),
        ("panel-write 2 1", 4, 1),
        // Absent now: refused, bit 2 stays.
        ("panel-write 0 4", 6, 1),
        ("panel-write 2 4", 2, 0),
        ("panel-write 3 255", 2, 1),
        ("panel-write 2 0", 2, 1),
        ("panel-write 2 248", 2, 1),
        ("panel-write 2 255", 0, 0),
        ("panel-write 0 255", 2, 1),
        ("panel-write 0 1", 3, 1),
        ("panel-reset", 0, 0),
    ];
    for (lines, cause, line) in steps {
        run(&mut store, lines);
        assert_eq!(store.does("panel-read 2"), format!("0; {cause}, 0, 0"), "{lines}");
        assert_eq!(store.does("panel-line"), format!("0; {line}, 0, 0"), "{lines}");
    }
}

/// P9: a command adds the same bits to any cause, whatever stands there.
#[test]
fn bits_are_added_to_any_cause() {
    // Accepted; accepted with a third count; refused; no command.
    let cases = [(1, 4, 1), (4, 0, 5), (1, 0, 2), (0x41, 0, 2)];
    let made = family(2);
    for (op, file, added) in cases {
        for cause in 0..=255 {
            let mut lab = Lab::new(&with(ZEROS, &[(2, cause), (5, file)]), &made);
            lab.write(0, op);
            assert_eq!(lab.registers[2], cause | added, "{op} {cause}");
        }
    }
}

// Counts over 255.

/// P11: a file of 64 pages in set 0 and seven children. The first takes the blocks
/// over, the others need 64 x 6 = 384 copies, page by page. Where none is free one of them
/// is marked, and its copies of the pages before come free for the others.
///
/// With 254 blocks: pages 0 to 41 take 252; of page 42 sets 2 and 3 get copies, set 4 is
/// marked, which frees 42, and sets 5 to 7 take 3 of them. The five left take 35 for pages
/// 43 to 49 and 4 for page 50, where set 7 is marked, which frees 50. The four left take 48
/// for pages 51 to 62 and 2 for page 63, where set 5 is marked, and set 6 takes one more:
/// 252 + 5 + 35 + 4 + 48 + 2 + 1 = 347. The other cases are reckoned in the same way.
#[test]
fn counts_over_255_show_as_255() {
    let children: String = (1..8).map(|set| format!("; make 0 {set} 0")).collect();
    let script = format!("create 0 0; write-narrow 0 0 0 32768 1{children}; panel-reset");
    // Blocks free; copies, shown as; files marked.
    let cases = [
        (0, 0, 0, 6),
        (1, 1, 1, 6),
        (2, 3, 3, 6),
        (134, 253, 253, 4),
        (135, 255, 255, 4),
        (136, 256, 255, 4),
        (254, 347, 255, 3),
        (256, 349, 255, 2),
        (383, 383, 255, 1),
        (384, 384, 255, 0),
        (400, 384, 255, 0),
    ];
    for (free, copies, shown, marked) in cases {
        let mut direct = Store::after(64 + free, &script);
        assert_eq!(direct.does("delete 0 0"), format!("0; 0, {copies}, {marked}"));
        let mut store = Store::after(64 + free, &script);
        run(&mut store, "panel-write 0 4");
        let cause = if marked == 0 { 1 } else { 5 };
        assert_eq!(store.0.registers(), with(ZEROS, &[(2, cause), (8, shown), (9, marked)]));
        assert_eq!(store.does("panel-read 8"), format!("0; {shown}, 0, 0"));
        assert!(store.0.tables() == direct.0.tables() && store.0.pages() == direct.0.pages());
    }
}

// Sequences.

/// "Sequences through the panel count as the calls they run": tables, pages,
/// plain store and tally are as after the direct calls, refused ones among them.
#[test]
fn sequences_count_as_the_calls_they_run() {
    let steps = [
        ("create 0 0", command(1, [0, 0, 0])),
        ("write 0 0 0 1500 7", String::new()),
        ("make 0 1 0", command(5, [0, 0, 1])),
        ("make 0 2 1", command(6, [0, 9, 2])),
        ("make 2 3 1", "panel-write 4 2; panel-write 6 3; panel-write 0 6".to_string()),
        ("write 2 0 0 1 9", String::new()),
        ("make 3 3 1", "panel-write 4 3; panel-write 0 6".to_string()),
        ("delete 1 0", command(4, [1, 0, 0])),
        ("remove 2", command(7, [2, 0, 0])),
        ("delete 0 0", command(4, [0, 0, 0])),
        ("remove 3", command(7, [3, 0, 0])),
        ("remove 2", command(7, [2, 0, 0])),
        ("create 0 0", command(1, [0, 0, 0])),
        ("write-narrow 0 0 700 3 4", String::new()),
    ];
    for blocks in 3..9 {
        let mut direct = Store::after(blocks, "panel-reset");
        let mut store = Store::after(blocks, "panel-reset");
        for (call, through) in &steps {
            direct.does(call);
            run(&mut store, if through.is_empty() { call } else { through });
            assert!(store.0.tables() == direct.0.tables(), "{blocks} {call}");
            assert!(store.0.pages() == direct.0.pages(), "{blocks} {call}");
            assert!(store.0.beside == direct.0.beside && store.0.beside.is_some());
        }
        assert_eq!(direct.0.registers(), ZEROS);
    }
}

// What is demanded since a reset, by hand.

fn panel_write(offset: u32, value: u8) -> Call {
    Call::PanelWrite { offset, value }
}

/// The judge of the registers, apart from the store.
#[test]
fn what_must_show_since_a_reset() {
    let mut since = Since::default();
    assert_eq!(since.registers(), ZEROS);
    let steps = [
        (panel_write(3, 0xA4), None, with(ZEROS, &[(3, 0xA4)])),
        (panel_write(6, 9), None, with(ZEROS, &[(3, 0xA4), (6, 9)])),
        (panel_write(0, 1), Some(Answer::refused(9)), with(ZEROS, &[(1, 9), (2, 2)])),
        (panel_write(0, 0x11), None, with(ZEROS, &[(1, 9), (2, 2)])),
        (panel_write(2, 0xFD), None, with(ZEROS, &[(1, 9), (2, 2)])),
        (panel_write(2, 2), None, with(ZEROS, &[(1, 9)])),
        (panel_write(7, 3), None, with(ZEROS, &[(1, 9)])),
        (
            panel_write(0, 4),
            Some(Answer::accepted([255, 256, 7])),
            with(ZEROS, &[(2, 5), (7, 255), (8, 255), (9, 7)]),
        ),
        (panel_write(2, 1), None, with(ZEROS, &[(2, 4), (7, 255), (8, 255), (9, 7)])),
        (panel_write(0, 5), Some(DONE), with(ZEROS, &[(2, 5)])),
    ];
    for (place, (call, ran, shown)) in steps.into_iter().enumerate() {
        assert_eq!(since.step(&call, ran), DONE);
        let kept: &[(usize, u8)] = if place == 0 { &[(3, 0xA4)] } else { &[(3, 0xA4), (6, 9)] };
        assert_eq!(since.registers(), with(shown, kept), "{call}");
    }
    let reads = [(0, 0), (2, 5), (3, 0xA4), (6, 9), (15, 0)];
    for (offset, value) in reads {
        let answer = since.step(&Call::PanelRead { offset }, None);
        assert_eq!(answer, Answer::accepted([value, 0, 0]));
    }
    assert_eq!(since.step(&Call::PanelLine {}, None).first, 1);
    assert_eq!(since.step(&panel_write(3, 0xFA), None), DONE);
    assert_eq!(since.step(&Call::PanelLine {}, None).first, 0);
    assert_eq!(since.step(&Call::PanelReset {}, None), DONE);
    assert_eq!(since, Since::default());
}

/// Which call a panel access runs, by the bytes of registers 4 to 6.
#[test]
fn which_call_is_run() {
    let registers = with(ONES, &[(4, 3), (5, 12), (6, 200)]);
    let runs = |offset, value, registers: &[u8]| {
        let call = panel_judge::call_run(&panel_write(offset, value), registers);
        call.map(|call| call.to_string())
    };
    let calls = ["create 3 12", "delete 3 12", "make 3 200 0", "make 3 200 1", "remove 3"];
    for value in 0..=255 {
        let place = COMMANDS.iter().position(|op| *op == value);
        assert_eq!(runs(0, value, &registers), place.map(|place| calls[place].to_string()));
        assert_eq!(runs(1, value, &registers), None);
        assert_eq!(runs(16, value, &registers), None);
        assert_eq!(runs(0, value, &registers[..15]), None);
    }
}

/// After a change from outside nothing is demanded of the registers until the next
/// accepted reset; plain store and tally go on.
#[test]
fn registers_changed_from_outside() {
    let mut bench = Bench::new();
    let mut step = |line: &str, from_reset: bool| {
        bench.step(&Item::parse(line).unwrap(), &mut NoOther).unwrap();
        assert_eq!(bench.since.is_some(), from_reset, "{line}");
        bench.registers().to_vec()
    };
    let old = step("format 2048", false);
    assert!(old.len() == 16 && old[2] != 0, "no reset made these registers");
    step("panel-write 4 0", false);
    step("panel-reset", true);
    step("create 0 0", true);
    step("format 2048", true);
    step("poke 3 1", true);
    step("panel-write 0 7", true);
    step("format 2048", true);
    step("poke-registers 5 3", false);
    step("panel-write 0 1", false);
    assert_eq!(step("panel-read 0", false)[..3], [0, 0, 3]);
    step("registers 17", false);
    step("panel-reset", false);
    step("registers 16", false);
    assert_eq!(step("panel-reset", true), ZEROS);
    step("poke-registers 99 3", false);
    step("panel-write 5 3", false);
    step("panel-write 0 4", false);
    assert!(bench.beside.is_some());
    assert_eq!(bench.registers()[1..3], [0, 1]);
    // The file that the command on poked registers made is gone again.
    assert_eq!(store::size(bench.tables(), bench.pages(), 0, 3), Answer::refused(5));
}

// Another implementation.

/// A wrong program: the right call's answer and registers, with the value told
/// and the registers before it, to be changed.
type Fault = fn(&mut Wrong);

struct Wrong {
    index: usize,
    numbers: Numbers,
    before: Vec<u8>,
    registers: Vec<u8>,
    answer: Answer,
}

impl Wrong {
    fn writes(&self, offset: u32) -> bool {
        CALL_NAMES[self.index] == "panel-write" && self.numbers[0] == offset
    }

    fn is_command(&self) -> bool {
        self.writes(0) && COMMANDS.contains(&self.value())
    }

    fn is_no_command(&self) -> bool {
        self.writes(0) && !COMMANDS.contains(&self.value())
    }

    fn value(&self) -> u8 {
        self.numbers[1] as u8
    }
}

/// The panel's calls with a fault; `tell` changes what the call is told first.
struct Faulty {
    fault: Fault,
    tell: fn(&mut Numbers, &mut [u8]),
}

impl Other for Faulty {
    fn has(&self, index: usize) -> bool {
        CALL_NAMES[index].starts_with("panel-")
    }

    fn run(&mut self, index: usize, numbers: &Numbers, lent: Lent) -> Answer {
        let Lent { tables, pages, registers, .. } = lent;
        let before = registers.to_vec();
        let (mut told, mut bytes) = (*numbers, before.clone());
        (self.tell)(&mut told, &mut bytes);
        let buffers = [tables, pages, &mut [], &mut bytes[..], &mut [], &mut []];
        let answer = store::run(index, &told, Lent::new(buffers));
        (self.tell)(&mut told, &mut bytes);
        let mut wrong = Wrong { index, numbers: *numbers, before, registers: bytes, answer };
        (self.fault)(&mut wrong);
        registers.copy_from_slice(&wrong.registers);
        wrong.answer
    }
}

/// Every case that a wrong program can be told by.
fn all_cases() -> String {
    let children: String = (1..8).map(|set| format!("; make 0 {set} 0")).collect();
    format!(
        "format 163840; panel-reset; create 0 0; write-narrow 0 0 0 32768 1{children}; \
        panel-write 3 7; panel-write 5 1; panel-write 0 1; panel-write 0 1; panel-line; \
        panel-write 2 3; panel-write 5 2; panel-write 0 17; panel-write 1 77; panel-read 16; \
        panel-write 5 0; panel-write 0 4; panel-write 4 1; panel-write 0 7; panel-write 4 2; \
        panel-write 6 1; panel-write 0 6; panel-read 2; panel-line; panel-reset"
    )
}

fn noticed(fault: Fault, tell: fn(&mut Numbers, &mut [u8])) -> bool {
    let script = Item::parse_script(&all_cases()).unwrap();
    let mut other = Faulty { fault, tell };
    oracle::bench::replay(&script, &mut other).is_some()
}

const FAULTS: [(&str, Fault); 10] = [
    ("ones set the cause", |w| {
        if w.writes(2) {
            w.registers[2] = w.before[2] | w.value();
        }
    }),
    ("a count over 255 by its low byte", |w| {
        if w.is_command() && w.registers[8] == 255 {
            w.registers[8] = 0;
        }
    }),
    ("offset 16 is taken", |w| {
        if w.numbers[0] == 16 {
            w.answer = DONE;
        }
    }),
    ("another value leaves the cause", |w| {
        if w.is_no_command() {
            w.registers[2] = w.before[2];
        }
    }),
    ("another value clears the number", |w| {
        if w.is_no_command() {
            w.registers[1] = 0;
        }
    }),
    ("a write ignores the writable bits", |w| {
        if w.writes(1) {
            w.registers[1] = w.value();
        }
    }),
    ("a refused command answers its number", |w| {
        if w.is_command() {
            w.answer = Answer::refused(w.registers[1].into());
        }
    }),
    ("bit 2 without a third count", |w| {
        if w.is_command() {
            w.registers[2] |= 4;
        }
    }),
    ("the cause is set anew", |w| {
        if w.is_command() {
            w.registers[2] &= if w.registers[1] == 0 { 5 } else { 2 };
        }
    }),
    ("a read clears the cause", |w| {
        if CALL_NAMES[w.index] == "panel-read" && w.numbers[0] == 2 {
            w.registers[2] = 0;
        }
    }),
];

/// The right program is not told from the oracle; each of these wrong ones is.
#[test]
fn wrong_programs_are_noticed() {
    assert!(!noticed(|_| {}, |_, _| {}));
    for (name, fault) in FAULTS {
        assert!(noticed(fault, |_, _| {}), "{name}");
    }
    assert!(noticed(|_| {}, |told, _| told[1] &= 15), "a value by its low four bits");
    let exchanged = |told: &mut Numbers, bytes: &mut [u8]| {
        if bytes.len() == 16 && told[0] == 0 && (5..7).contains(&told[1]) {
            bytes.swap(4, 6);
        }
    };
    assert!(noticed(|_| {}, exchanged), "parent and child exchanged in a making");
}

// What is told.

/// Each access with the cases that it meets, by their place in `CASES`, found by
/// hand.
#[test]
fn accesses_compared_are_counted() {
    let steps: [(&str, &[usize]); 22] = [
        ("panel-write 3 7", &[11, 15]),
        ("panel-reset", &[15]),
        ("panel-reset", &[]),
        ("panel-line", &[14]),
        ("panel-write 3 7", &[11]),
        ("panel-write 3 7", &[]),
        ("panel-write 0 4", &[0, 3]),
        ("panel-line", &[13]),
        ("panel-write 0 4", &[1, 4]),
        ("panel-write 0 0", &[6, 8]),
        ("panel-write 0 17", &[6, 7, 8]),
        ("panel-write 2 8", &[10]),
        ("panel-write 2 6", &[9]),
        ("panel-write 2 6", &[10]),
        ("panel-write 7 0", &[]),
        ("panel-write 7 1", &[12]),
        ("panel-read 9", &[]),
        ("panel-read 16", &[16]),
        ("panel-write 255 1", &[16]),
        ("poke 3 1; panel-write 0 7", &[1, 2, 4]),
        ("registers 15; panel-write 16 1", &[17]),
        ("registers 16; panel-read 16", &[16]),
    ];
    let mut store =
        Store::after(2, "create 0 0; write-narrow 0 0 0 1024 1; make 0 1 0; make 0 2 1");
    for (script, met) in steps {
        store.0.counts = Default::default();
        for item in Item::parse_script(script).unwrap() {
            store.0.step(&item, &mut Faulty { fault: |_| {}, tell: |_, _| {} }).unwrap();
        }
        let found: Vec<usize> =
            (0..CASES.len()).filter(|case| store.0.counts.panel_linked.met[*case] == 1).collect();
        assert_eq!(found, met, "{script}");
        assert_eq!(store.0.counts.panel_judged, store.0.counts.panel_linked);
    }
}

/// Commands by number, and a count over 255; without another implementation
/// nothing is compared with one.
#[test]
fn commands_are_counted_by_number() {
    let mut bench = Bench::new();
    for item in Item::parse_script(&all_cases()).unwrap() {
        bench.step(&item, &mut NoOther).unwrap();
    }
    let counts = &bench.counts.panel_judged;
    assert_eq!((counts.met[5], counts.returned(0), counts.returned(9)), (1, 4, 1));
    assert_eq!(counts.commands[&(4, 0)], 1);
    assert_eq!(bench.counts.panel_linked, Accesses::default());
}
