//! The front panel's registers (Ask 6 of document 02, "A register page for the
//! front panel"). Each call works on any bytes and any lengths; what no reset
//! made is taken as it stands.

use crate::call::*;
use crate::store::{self, answer, Outcome};
use std::ops::Range;

/// "The panel processor sees sixteen byte-wide registers, offsets 0 to 15".
pub const REGISTERS: usize = 16;

/// "Offset 0 is the command".
const COMMAND: usize = 0;
/// "Offset 1 is the number that the last command run returned, 2 the cause, 3 the
/// interrupt mask, 4 set, 5 file, 6 other, 7 to 9 that command's three counts, 10
/// to 15 zero."
const NUMBER: usize = 1;
const CAUSE: usize = 2;
const MASK: usize = 3;
const SET: usize = 4;
const FILE: usize = 5;
const OTHER: usize = 6;
const COUNTS: Range<usize> = 7..10;

/// "A table gives each register's reset value and its writable bits." Here the
/// reset values: "All registers reset to 0."
const RESET: [u8; REGISTERS] = [0; REGISTERS];
/// And the writable bits: "Offsets 3 to 6 are fully writable; 1 and 7 to 15 ignore
/// writes." Of the cause "bits 3 to 7 are 0 from reset on". The command is run and
/// not kept.
const WRITABLE: [u8; REGISTERS] = [
    0x00, 0x00, 0x07, 0xFF, 0xFF, 0xFF, 0xFF, 0x00, 0x00, 0x00, 0x00, 0x00, 0x00, 0x00, 0x00, 0x00,
];

/// "A command that runs adds to the cause bit 0 when accepted, bit 1 when refused,
/// bit 2 when its third count is not 0".
const ACCEPTED: u8 = 1 << 0;
const REFUSED: u8 = 1 << 1;
const THIRD_COUNT: u8 = 1 << 2;

pub fn reset(registers: &mut [u8]) -> Answer {
    answer(try_reset(registers))
}

pub fn read(registers: &[u8], offset: u32) -> Answer {
    answer(try_read(registers, offset))
}

/// A write; at offset 0 the command is run on tables and pages.
pub fn write(
    registers: &mut [u8],
    tables: &mut [u8],
    pages: &mut [u8],
    offset: u32,
    value: u8,
) -> Answer {
    answer(try_write(registers, tables, pages, offset, value))
}

pub fn line(registers: &[u8]) -> Answer {
    answer(try_line(registers))
}

/// "It refuses an offset over 15, or registers of another length, with 13, checked
/// before anything else, leaving registers and store as they were."
fn sixteen(registers: &[u8]) -> Result<(), u32> {
    if registers.len() == REGISTERS {
        Ok(())
    } else {
        Err(13)
    }
}

fn register_at(registers: &[u8], offset: u32) -> Result<usize, u32> {
    sixteen(registers)?;
    if offset > 15 {
        Err(13)
    } else {
        Ok(offset as usize)
    }
}

/// "All registers reset to 0", whatever they were.
fn try_reset(registers: &mut [u8]) -> Outcome {
    sixteen(registers)?;
    registers.copy_from_slice(&RESET);
    Ok([0, 0, 0])
}

/// "A read gives the value as the first count". Of the command: "It reads as 0",
/// its reset value, whatever byte 0 holds.
fn try_read(registers: &[u8], offset: u32) -> Outcome {
    let value = match register_at(registers, offset)? {
        COMMAND => RESET[COMMAND],
        register => registers[register],
    };
    Ok([u32::from(value), 0, 0])
}

/// "a write gives 0 and zeros, even where its command is refused". "only a command
/// looks at the store".
fn try_write(
    registers: &mut [u8],
    tables: &mut [u8],
    pages: &mut [u8],
    offset: u32,
    value: u8,
) -> Outcome {
    let register = register_at(registers, offset)?;
    let (old, written) = (registers[register], value & WRITABLE[register]);
    match register {
        COMMAND => command(registers, tables, pages, value),
        // "writing ones to the cause clears those bits"
        CAUSE => registers[CAUSE] = old & !written,
        _ => registers[register] = old & !WRITABLE[register] | written,
    }
    Ok([0, 0, 0])
}

/// "Asking for the line gives 1 as the first count exactly when cause and mask
/// share a one, else 0."
fn try_line(registers: &[u8]) -> Outcome {
    sixteen(registers)?;
    let share_a_one = registers[CAUSE] & registers[MASK] != 0;
    Ok([u32::from(share_a_one), 0, 0])
}

/// "Offset 0 is the command: a session op 1, 4, 5, 6 or 7, run when written".
fn command(registers: &mut [u8], tables: &mut [u8], pages: &mut [u8], value: u8) {
    let Some(answer) = run(registers, tables, pages, value) else {
        // "any other value runs nothing, sets cause bit 1 and leaves the other
        // registers"
        registers[CAUSE] |= REFUSED;
        return;
    };
    registers[NUMBER] = shown(answer.number);
    for (register, count) in COUNTS.zip([answer.first, answer.second, answer.third]) {
        registers[register] = shown(count);
    }
    registers[CAUSE] |= if answer.number == 0 { ACCEPTED } else { REFUSED };
    if answer.third != 0 {
        registers[CAUSE] |= THIRD_COUNT;
    }
}

/// "Counts over 255 show as 255." No number is over 255.
fn shown(count: u32) -> u8 {
    u8::try_from(count).unwrap_or(u8::MAX)
}

/// The answer of the op's call with the whole bytes of set, file and other, none
/// for a value that is no command. "Registers that the op does not use are
/// ignored".
fn run(registers: &[u8], tables: &mut [u8], pages: &mut [u8], op: u8) -> Option<Answer> {
    let [set, file, other] = [SET, FILE, OTHER].map(|register| u32::from(registers[register]));
    // Document 01: "Ops: 1 create, ... 4 delete, 5 make read-only set `other` from
    // set, 6 same, writeable, 7 remove."
    Some(match op {
        1 => store::create(tables, pages, set, file),
        4 => store::delete(tables, pages, set, file),
        5 => store::make(tables, pages, set, other, 0),
        6 => store::make(tables, pages, set, other, 1),
        7 => store::remove(tables, pages, set),
        _ => return None,
    })
}
