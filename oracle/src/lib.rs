//! A second implementation of the sweep store, written from document 01, Asks 1
//! to 10 of document 02 and their readings (docs/DECISIONS.md) alone. Clarity
//! goes before speed: each call unpacks the tables to a plain state, does the
//! paper's steps, and packs.
//!
//! The words are those of the documents: set, file, page, block, own, virgin,
//! marked, hole, stored, unmapped, next start, needs, hand over, group, extra
//! page, register, command, cause, mask, line, room, term, first day, end day,
//! current, compaction, spare page.

// The remainder is what document 01 speaks of.
#![allow(clippy::manual_is_multiple_of)]

pub mod accesses;
pub mod agree;
pub mod bench;
pub mod bits;
pub mod call;
pub mod check;
pub mod compaction_judge;
pub mod compactions;
pub mod conversion;
pub mod dates;
pub mod export;
pub mod gen;
pub mod history;
pub mod judge;
pub mod judging;
pub mod layout;
pub mod lent;
pub mod maps;
pub mod markings;
pub mod names;
pub mod panel;
pub mod panel_judge;
pub mod plain;
pub mod rng;
pub mod room;
pub mod rows;
pub mod session;
pub mod state;
pub mod store;
pub mod tally;
pub mod term_judge;
pub mod terms;
pub mod turns;
pub mod writes;
