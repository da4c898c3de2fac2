//! What the panel's calls must answer and what its registers must show, told from
//! what was done since the last reset (Ask 6 of document 02). It uses no code of
//! `panel` or `store`, and reckons each register from the list of events anew.

use crate::call::{Answer, Call};

/// The number of a panel call: "It refuses an offset over 15, or registers of
/// another length, with 13". All other calls of the panel are accepted, on any
/// store.
pub fn number(call: &Call, registers_length: usize) -> u32 {
    let offset_over_15 = match call {
        Call::PanelRead { offset } | Call::PanelWrite { offset, .. } => *offset > 15,
        _ => false,
    };
    if offset_over_15 || registers_length != 16 {
        13
    } else {
        0
    }
}

/// The call that a panel access runs, registers being lent that hold these bytes.
/// "Sequences through the panel count as the calls they run."
pub fn call_run(call: &Call, registers: &[u8]) -> Option<Call> {
    let Call::PanelWrite { offset: 0, value } = *call else { return None };
    if number(call, registers.len()) != 0 {
        return None;
    }
    // "4 set, 5 file, 6 other"; whole bytes.
    let (set, file) = (u32::from(registers[4]), u32::from(registers[5]));
    let other = u32::from(registers[6]);
    match value {
        1 => Some(Call::Create { set, file }),
        4 => Some(Call::Delete { set, file }),
        5 => Some(Call::Make { parent: set, set: other, writeable: 0 }),
        6 => Some(Call::Make { parent: set, set: other, writeable: 1 }),
        7 => Some(Call::Remove { set }),
        _ => None,
    }
}

/// Something that an accepted panel write did.
#[derive(Clone, PartialEq, Eq, Debug)]
enum Event {
    /// A command ran and returned this.
    Ran(Answer),
    /// A value that is no command was written to offset 0.
    NoCommand,
    /// A value was written to another offset.
    Wrote { offset: u32, value: u8 },
}

impl Event {
    /// "A command that runs adds to the cause bit 0 when accepted, bit 1 when
    /// refused, bit 2 when its third count is not 0". Another value "sets cause bit
    /// 1".
    fn adds(&self, bit: u32) -> bool {
        match (self, bit) {
            (Event::Ran(answer), 0) => answer.number == 0,
            (Event::Ran(answer), 1) => answer.number != 0,
            (Event::Ran(answer), 2) => answer.third > 0,
            (Event::NoCommand, 1) => true,
            _ => false,
        }
    }

    /// "writing ones to the cause clears those bits"
    fn clears(&self, bit: u32) -> bool {
        matches!(self, Event::Wrote { offset: 2, value } if value >> bit & 1 == 1)
    }
}

/// All that was done to the panel since its last reset, in order.
#[derive(Clone, PartialEq, Eq, Debug, Default)]
pub struct Since {
    events: Vec<Event>,
}

impl Since {
    /// Takes an accepted call of the panel, with what the call that it ran
    /// answered, if it ran one. Gives the answer that is demanded.
    pub fn step(&mut self, call: &Call, ran: Option<Answer>) -> Answer {
        let first = match (call, ran) {
            (Call::PanelReset {}, _) => {
                self.events.clear();
                0
            }
            // "A read gives the value as the first count".
            (Call::PanelRead { offset }, _) => u32::from(self.shows(*offset)),
            // "Asking for the line gives 1 as the first count exactly when cause
            // and mask share a one, else 0."
            (Call::PanelLine {}, _) => {
                let mask = self.shows(3);
                u32::from((0..8).any(|bit| self.stands(bit) && mask >> bit & 1 == 1))
            }
            // "a write gives 0 and zeros, even where its command is refused"
            (_, Some(answer)) => {
                self.events.push(Event::Ran(answer));
                0
            }
            (Call::PanelWrite { offset: 0, .. }, None) => {
                self.events.push(Event::NoCommand);
                0
            }
            (Call::PanelWrite { offset, value }, None) => {
                self.events.push(Event::Wrote { offset: *offset, value: *value });
                0
            }
            _ => unreachable!("the call is not one of the panel's"),
        };
        Answer::accepted([first, 0, 0])
    }

    /// What all registers must show.
    pub fn registers(&self) -> [u8; 16] {
        std::array::from_fn(|offset| self.shows(offset as u32))
    }

    fn shows(&self, offset: u32) -> u8 {
        let last = self.last_command();
        match offset {
            1 => last.number as u8,
            2 => (0..8).filter(|bit| self.stands(*bit)).map(|bit| 1 << bit).sum(),
            // "Offsets 3 to 6 are fully writable".
            3..=6 => self.last_written(offset),
            7 => up_to_255(last.first),
            8 => up_to_255(last.second),
            9 => up_to_255(last.third),
            // The command "reads as 0", and "10 to 15 zero".
            _ => 0,
        }
    }

    /// What the last command run returned; before any, zeros: "All registers reset
    /// to 0."
    fn last_command(&self) -> Answer {
        let ran = |event: &Event| match event {
            Event::Ran(answer) => Some(*answer),
            _ => None,
        };
        self.events.iter().rev().find_map(ran).unwrap_or_default()
    }

    fn last_written(&self, register: u32) -> u8 {
        let written = |event: &Event| match event {
            Event::Wrote { offset, value } if *offset == register => Some(*value),
            _ => None,
        };
        self.events.iter().rev().find_map(written).unwrap_or(0)
    }

    /// Whether a bit of the cause was added and not cleared since.
    fn stands(&self, bit: u32) -> bool {
        let last = self.events.iter().rev().find(|event| event.adds(bit) || event.clears(bit));
        last.is_some_and(|event| event.adds(bit))
    }
}

/// "Counts over 255 show as 255."
fn up_to_255(count: u32) -> u8 {
    if count > 255 {
        255
    } else {
        count as u8
    }
}
