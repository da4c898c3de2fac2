//! The second implementation as a library for C: one function that does any call on the buffers it
//! is given, with which the boundary tests compare the exported functions; and one that makes stores
//! in which a rule of the well-formed check is broken.

use oracle::call::{Answer, Lent, Numbers, BUFFERS};
use oracle::check::Rule;
use oracle::gen::{break_alone, Broke};
use oracle::rng::Rng;
use oracle::store;
use std::slice::from_raw_parts_mut;

/// A buffer, as `struct slice` of tests/boundary/harness.h.
#[repr(C)]
pub struct Slice {
    at: *mut u8,
    length: usize,
}

/// Does the call at this place in `oracle::call::CALL_NAMES`, with these numbers in the order of
/// include/sweep.h, on these buffers in the order of `oracle::call::Buffer`. A call uses the numbers
/// and the buffers that it has.
///
/// # Safety
/// Each pointer is not null and has as many bytes as its length says; the buffers do not overlap.
#[no_mangle]
pub unsafe extern "C" fn judge(name: u32, numbers: &Numbers, lent: &[Slice; BUFFERS]) -> Answer {
    let all = lent.each_ref().map(|slice| from_raw_parts_mut(slice.at, slice.length));
    store::run(name as usize, numbers, Lent::new(all))
}

/// What is known of a store in which a rule is broken, as `struct broken` of tests/boundary/parts.c.
#[repr(C)]
pub struct Broken {
    /// The rule's name, with a zero byte behind it.
    name: [u8; 64],
    /// Whether the rule is one of the first part of the check, and whether no other is broken.
    first_part: u32,
    alone: u32,
    tables_length: usize,
    pages_length: usize,
}

/// Makes a store in which the rule at this place in `Rule::ALL` is broken, and no other if that can
/// be; the seed chooses it. False where there is no such rule. Where the rule is `block-count`, the
/// pages, which the buffer cannot hold, are cut off at its end; that breaks the rule on their length too.
///
/// # Safety
/// Each buffer has as many bytes as its length says; they do not overlap.
#[no_mangle]
pub unsafe extern "C" fn break_rule(rule: u32, seed: u64, buffers: &[Slice; 2], made: &mut Broken) -> bool {
    let Some(&rule) = Rule::ALL.get(rule as usize) else {
        return false;
    };
    let mut rng = Rng::new(seed);
    let room = buffers[1].length;
    let mut broke = break_alone(&mut rng, rule);
    while broke.pages.len() > room && rule != Rule::BlockCount {
        broke = break_alone(&mut rng, rule);
    }
    let Broke { tables, mut pages, alone, .. } = broke;
    *made = Broken {
        name: [0; 64],
        first_part: u32::from(rule.is_first_part()),
        alone: u32::from(alone && pages.len() <= room),
        tables_length: tables.len(),
        pages_length: pages.len().min(room),
    };
    pages.truncate(room);
    made.name[..rule.name().len()].copy_from_slice(rule.name().as_bytes());
    for (slice, bytes) in buffers.iter().zip([tables, pages]) {
        from_raw_parts_mut(slice.at, slice.length)[..bytes.len()].copy_from_slice(&bytes);
    }
    true
}
