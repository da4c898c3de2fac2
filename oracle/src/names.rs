//! The names of the calls, alone in a file: build.rs reads it too.

/// A call is told from others by its place here. First stand the calls that a
/// library has a function for, in the order in which they came, so that none of
/// them changes its place; a new one stands at their end. Those that the oracle
/// does alone stand last.
pub const CALL_NAMES: [&str; 22] = [
    "format",
    "create",
    "write",
    "read",
    "truncate",
    "delete",
    "make",
    "remove",
    "size",
    "free",
    "check-blocks",
    "check",
    "write-narrow",
    "panel-reset",
    "panel-read",
    "panel-write",
    "panel-line",
    "set-term",
    "current",
    "convert",
    "compact",
    "write-groups",
];

/// Those of them that no library has a function for: the oracle does them alone.
pub const ORACLE_ALONE: [&str; 1] = ["write-groups"];
