//! Random accesses of the panel: commands as the panel processor gives them, any
//! other accesses, registers changed from outside, and histories that begin with
//! calls made through the panel.

use super::*;
use crate::panel::REGISTERS;

/// Offsets that no register has.
pub const WRONG_OFFSETS: [u32; 6] = [16, 17, 255, 256, 1 << 31, u32::MAX];
/// Lengths of registers that are refused.
pub const WRONG_LENGTHS: [usize; 4] = [0, 15, 17, 32];
/// Values that are no command, most of them with one in their low or high four
/// bits.
const NO_COMMANDS: [u8; 15] =
    [0, 2, 3, 8, 0x10, 0x11, 0x14, 0x15, 0x16, 0x17, 0x41, 0x47, 0x81, 0x87, 0xFF];
/// The offsets of cause, mask, set, file and other.
const CAUSE: u32 = 2;
const MASK: u32 = 3;
const SET: u32 = 4;
const FILE: u32 = 5;
const OTHER: u32 = 6;

/// Mostly an offset from 0 to 15.
pub fn any_offset(rng: &mut Rng, style: &Style) -> u32 {
    if rng.percent(style.wild) {
        rng.pick(&WRONG_OFFSETS)
    } else {
        rng.below(REGISTERS) as u32
    }
}

/// A write of any register, often of one that writes change.
pub fn any_write(rng: &mut Rng, style: &Style) -> Call {
    let any = any_offset(rng, style);
    let offset = if rng.percent(50) { rng.pick(&[0, CAUSE, MASK, SET, FILE, OTHER]) } else { any };
    write(offset, any_value(rng, offset))
}

/// A value that says something at this offset, or any other.
fn any_value(rng: &mut Rng, offset: u32) -> u8 {
    let any = rng.word() as u8;
    let fond: &[u8] = match offset {
        0 => &[1, 4, 5, 6, 7, 0, 2, 3, 0x11, 0x41],
        CAUSE | MASK => &[1, 2, 3, 4, 5, 7, 0xF8, 0xFF],
        SET | OTHER => &[0, 1, 2, 3, 7, 8],
        FILE => &[0, 1, 15, 16],
        _ => &[],
    };
    match rng.pick_any(fond) {
        Some(value) if rng.percent(75) => value,
        _ => any,
    }
}

fn write(offset: u32, value: u8) -> Call {
    Call::PanelWrite { offset, value }
}

fn any_access(rng: &mut Rng, style: &Style) -> Call {
    match rng.below(10) {
        0..=3 => Call::PanelRead { offset: any_offset(rng, style) },
        4..=8 => any_write(rng, style),
        _ => Call::PanelLine {},
    }
}

fn any_accesses(rng: &mut Rng, style: &Style) -> Vec<Call> {
    (0..rng.between(1, 6)).map(|_| any_access(rng, style)).collect()
}

/// The accesses that make this call through the panel: writes of the registers
/// that its op uses, in any order and sometimes of others, then of the command.
/// None for a call that is no command. A number over 255 becomes 255.
fn through_panel(rng: &mut Rng, call: &Call) -> Option<Vec<Call>> {
    let (op, used) = match *call {
        Call::Create { set, file } => (1, vec![(SET, set), (FILE, file)]),
        Call::Delete { set, file } => (4, vec![(SET, set), (FILE, file)]),
        Call::Make { parent, set, writeable } => {
            (if writeable == 0 { 5 } else { 6 }, vec![(SET, parent), (OTHER, set)])
        }
        Call::Remove { set } => (7, vec![(SET, set)]),
        _ => return None,
    };
    let mut accesses: Vec<Call> =
        used.iter().map(|(offset, number)| write(*offset, (*number).min(255) as u8)).collect();
    for offset in [MASK, FILE, OTHER] {
        if rng.percent(20) && used.iter().all(|(register, _)| *register != offset) {
            accesses.push(write(offset, any_value(rng, offset)));
        }
    }
    rng.shuffle(&mut accesses);
    accesses.push(write(0, op));
    Some(accesses)
}

/// A call that a command can run, mostly one that is accepted.
fn call_to_run(rng: &mut Rng, style: &Style, beside: &Beside) -> Call {
    if rng.percent(2) {
        return Call::Remove { set: 0 };
    }
    let index = rng.pick(&[CREATE, CREATE, DELETE, DELETE, DELETE, MAKE, MAKE, MAKE, REMOVE]);
    let index = possible(rng, beside, index);
    call_of(rng, style, beside, index)
}

/// A command with the registers it uses.
pub fn command(rng: &mut Rng, style: &Style, beside: &Beside) -> Vec<Call> {
    let call = call_to_run(rng, style, beside);
    through_panel(rng, &call).expect("a call that a command can run")
}

/// What is looked at after a command, and perhaps cleared.
fn looks(rng: &mut Rng) -> Vec<Call> {
    let mut looks: Vec<Call> =
        [1, 2, 7, 8, 9].iter().map(|offset| Call::PanelRead { offset: *offset }).collect();
    looks.push(Call::PanelLine {});
    rng.shuffle(&mut looks);
    looks.truncate(rng.below(4));
    if rng.percent(30) {
        looks.push(write(CAUSE, any_value(rng, CAUSE)));
    }
    looks
}

/// A value that is no command, or a command with any bytes.
fn any_command(rng: &mut Rng) -> Vec<Call> {
    if rng.percent(70) {
        return vec![write(0, rng.pick(&NO_COMMANDS))];
    }
    let mut accesses: Vec<Call> =
        [SET, FILE, OTHER].iter().map(|offset| write(*offset, rng.word() as u8)).collect();
    accesses.push(write(0, rng.pick(&COMMANDS)));
    accesses
}

/// Sixteen registers with any bytes, put there from outside.
pub fn any_registers(rng: &mut Rng) -> Vec<Item> {
    let mut items = vec![Item::Length { buffer: Buffer::Registers, length: REGISTERS }];
    for at in 0..REGISTERS {
        items.push(Item::Poke { buffer: Buffer::Registers, at, value: rng.word() as u8 });
    }
    items
}

/// Registers of a wrong length, or with any bytes, and accesses of them; mostly a
/// reset ends it.
fn from_outside(rng: &mut Rng, style: &Style, beside: &Beside) -> Vec<Item> {
    let mut items = Vec::new();
    if rng.percent(50) {
        let length = rng.pick(&WRONG_LENGTHS);
        items.push(Item::Length { buffer: Buffer::Registers, length });
        items.extend(as_items(any_accesses(rng, style)));
        items.extend(as_items(vec![Call::PanelReset {}]));
    }
    items.extend(any_registers(rng));
    items.extend(as_items(any_accesses(rng, style)));
    items.extend(as_items(command(rng, style, beside)));
    items.extend(as_items(looks(rng)));
    if rng.percent(80) {
        items.push(Item::Call(Call::PanelReset {}));
    }
    items
}

fn as_items(calls: Vec<Call>) -> Vec<Item> {
    calls.into_iter().map(Item::Call).collect()
}

/// Accesses of the panel that belong together.
fn accesses(rng: &mut Rng, style: &Style, beside: &Beside) -> Vec<Item> {
    as_items(match rng.below(20) {
        0..=11 => [command(rng, style, beside), looks(rng)].concat(),
        12..=15 => any_accesses(rng, style),
        16 | 17 => [any_command(rng), looks(rng)].concat(),
        18 => vec![Call::PanelReset {}],
        _ => return from_outside(rng, style, beside),
    })
}

/// What comes next in a history: a call, or accesses of the panel, or a conversion, or
/// compactions. Document 02: "Compaction may stand among the calls of a sequence from then
/// on."
pub fn turn(rng: &mut Rng, style: &Style, beside: &Beside) -> Vec<Item> {
    if rng.percent(style.panel) {
        return accesses(rng, style, beside);
    }
    if rng.percent(style.convert) {
        return terms::conversion(rng, style, beside);
    }
    match call(rng, style, beside) {
        Call::Compact {} => compact::compaction(rng),
        call => vec![Item::Call(call)],
    }
}

/// A call of the kind at this place in `CALL_NAMES`; of panel writes, a command
/// with the registers it uses, sometimes after other writes; of conversions, one with
/// the older tables that it takes; of compactions, one with its spare page.
pub fn turn_of(rng: &mut Rng, style: &Style, beside: &Beside, index: usize) -> Vec<Item> {
    match index {
        CONVERT => return terms::conversion(rng, style, beside),
        COMPACT => return compact::compaction(rng),
        PANEL_WRITE => {}
        _ => return vec![Item::Call(call_of(rng, style, beside, index))],
    }
    let other_writes = match rng.below(10) {
        0 | 1 => any_command(rng),
        2 | 3 => (0..3).map(|_| any_write(rng, style)).collect(),
        _ => Vec::new(),
    };
    as_items([other_writes, command(rng, style, beside)].concat())
}

/// A start in which most calls that a command can run are made through the panel.
fn by_panel(rng: &mut Rng, style: Style, calls: Vec<Call>, then: Vec<Call>) -> Start {
    let [calls, then] = [calls, then].map(|calls| {
        let through = |call: Call| match through_panel(rng, &call) {
            Some(accesses) if rng.percent(80) => [accesses, looks(rng)].concat(),
            _ => vec![call],
        };
        calls.into_iter().flat_map(through).collect()
    });
    let wild = rng.pick(&[2, 5, 12, 25]);
    begin(Style { panel: 50, wild, ..style }, calls, then)
}

/// A format, and mostly a family whose calls are made through the panel (see
/// `family_calls`, `short_calls`); half of the turns that follow are the panel's.
pub fn panel_start(rng: &mut Rng, block_count: usize) -> Start {
    let style = style(rng, block_count);
    let (calls, then) = match rng.below(10) {
        0..=4 => family_calls(rng, &style),
        5..=7 => short_calls(rng, &style),
        _ => (Vec::new(), Vec::new()),
    };
    by_panel(rng, style, calls, then)
}

/// How many blocks `many_copies_start` leaves free. A child that is marked gives its copies
/// to the others, so that fewer blocks than copies do: for six children that need copies 135
/// make 255 of them and 136 make 256; for five, 164 make 255; for four, 256 make 256.
pub const LEFT_FREE: [usize; 8] = [135, 136, 164, 256, 300, 384, 400, 448];

/// A format, and a file of 64 stored pages in set 0; set 0, or a set made from it,
/// has up to seven children that need them, and so many blocks are free. Then a
/// delete makes more than 255 copies, or just as many; with too few blocks it marks
/// files too.
pub fn many_copies_start(rng: &mut Rng, free: usize) -> Start {
    let style = style(rng, PAGES + free);
    let mut scene = Scene::new(rng, &style);
    let file = scene.file;
    scene.add(Call::Create { set: 0, file });
    scene.add(write_call(rng, WRITE_NARROW, (0, file), 0, LARGEST_SIZE));
    let mut set = 0;
    if rng.percent(40) {
        set = scene.make(set, 1).expect("an unused number");
    }
    for _ in 0..rng.pick(&[5, 6, 7, 7]) {
        scene.make(set, rng.pick(&[0, 1]));
    }
    let mut start = by_panel(rng, style, scene.calls, Vec::new());
    let delete = through_panel(rng, &Call::Delete { set, file });
    start.then = [delete.expect("a command"), looks(rng)].concat();
    start
}
