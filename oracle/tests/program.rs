//! The program `oracle` as people use it: what it prints and its exit status.

use oracle::call::*;
use oracle::conversion::narrowed;
use oracle::state::*;
use std::io::Write;
use std::path::PathBuf;
use std::process::{Command, Output, Stdio};

fn oracle(arguments: &[&str]) -> Output {
    Command::new(env!("CARGO_BIN_EXE_oracle")).args(arguments).output().unwrap()
}

fn status(arguments: &[&str]) -> i32 {
    oracle(arguments).status.code().unwrap()
}

fn printed(arguments: &[&str]) -> String {
    String::from_utf8(oracle(arguments).stdout).unwrap()
}

/// A file with these bytes, in the folder for tests' files.
fn file(name: &str, bytes: &[u8]) -> String {
    let path: PathBuf = [env!("CARGO_TARGET_TMPDIR"), name].iter().collect();
    std::fs::write(&path, bytes).unwrap();
    path.to_str().unwrap().to_string()
}

/// What `oracle session` prints for this input.
fn session(input: &[u8]) -> String {
    let mut program = Command::new(env!("CARGO_BIN_EXE_oracle"));
    let mut child =
        program.arg("session").stdin(Stdio::piped()).stdout(Stdio::piped()).spawn().unwrap();
    child.stdin.take().unwrap().write_all(input).unwrap();
    String::from_utf8(child.wait_with_output().unwrap().stdout).unwrap()
}

#[test]
fn check_says_well_formed_or_each_broken_rule() {
    let mut state = State::formatted(3);
    let good = file("good", &state.packed());
    assert_eq!(printed(&["check", &good]), "well formed\n");
    assert_eq!(status(&["check", &good]), 0);
    assert_eq!(status(&["check", &good, "1536"]), 0);
    assert_eq!(status(&["check", &good, "1535"]), 1);

    state.bits[1] = true;
    state.sets[0].zero = 5;
    let bad = file("bad", &state.packed());
    assert_eq!(status(&["check", &bad]), 1);
    // The rules of the first part of the check come first.
    let wanted = "not well formed, broken rules: 2\n\
        bit-without-entry: A bit is 1 but no stored entry names its block. block 1\n\
        set-zero: The zero field of a set record is not zero. set 0\n";
    assert_eq!(printed(&["check", &bad]), wanted);

    for length in [0, 3, TABLES_BYTES - 1] {
        let short = file(&format!("short-{length}"), &state.packed()[..length]);
        assert_eq!(status(&["check", &short]), 1);
        assert!(printed(&["check", &short]).contains("tables-length"));
    }
}

/// Ask 8 of document 02: broken terms are told with their set, and tables of the length
/// before it are judged by document 01's rules.
#[test]
fn check_tells_of_terms_and_of_older_tables() {
    let mut state = State::formatted(3);
    let older = file("older", &narrowed(&state.packed()));
    let told = "tables of 17,436 bytes, the length before Ask 8, judged by document 01's rules;\n\
        no call takes them but sweep_convert, if they are well formed\n";
    assert_eq!(printed(&["check", &older]), format!("{told}well formed\n"));
    assert_eq!(status(&["check", &older]), 0);
    assert_eq!(status(&["check", &older, "1535"]), 1);

    state.sets[0].first_day = 40_000;
    state.sets[0].end_day = 36_526;
    let bad = file("bad-term", &state.packed());
    let wanted = "not well formed, broken rules: 2\n\
        first-day-not-below-end: A used set's first day is not below its end day. set 0\n\
        end-day-over: A used set's end day is over 36,525. set 0\n";
    assert_eq!(printed(&["check", &bad]), wanted);
    assert_eq!(status(&["check", &bad]), 1);
    // Without its terms the store is well formed.
    assert_eq!(status(&["check", &file("narrowed", &narrowed(&state.packed()))]), 0);

    state.sets[0].zero = 5;
    let bad = file("bad-older", &narrowed(&state.packed()));
    let wanted = "not well formed, broken rules: 1\n\
        set-zero: The zero field of a set record is not zero. set 0\n";
    assert_eq!(printed(&["check", &bad]), format!("{told}{wanted}"));
    assert_eq!(status(&["check", &bad]), 1);
}

/// Ask 10: what marked files hold is told, and that the converter takes such tables.
#[test]
fn check_tells_of_marked_files() {
    let mut state = State::formatted(3);
    state.files[0][0] = FileRecord { state: FileState::Own, entries: [HOLE; PAGES], ..ABSENT_FILE };
    state.sets[0].first_child = 1;
    state.sets[1] = SetRecord {
        used: true,
        level: 1,
        first_child: NONE,
        next_sibling: NONE,
        end_day: LATEST_END,
        ..UNUSED_SET
    };
    state.files[1][0] = MARKED_FILE;
    assert_eq!(printed(&["check", &file("marked", &state.packed())]), "well formed\n");
    state.files[1][0].size = 9;
    state.files[1][0].entries[5] = stored(2);
    state.bits[2] = true;
    let loaded = file("loaded", &state.packed());
    let wanted = "not well formed, broken rules: 2\n\
        marked-size: A marked file has a size other than 0. set 1 file 0\n\
        marked-mapped: A marked file has an entry that is not unmapped. set 1 file 0\n\
        well formed before Ask 10; sweep_convert takes these tables and clears marked files\n";
    assert_eq!(printed(&["check", &loaded]), wanted);
    assert_eq!(status(&["check", &loaded]), 1);
    // By document 01 they are well formed.
    assert_eq!(status(&["check", &file("loaded-older", &narrowed(&state.packed()))]), 0);
    state.sets[1].end_day = 0;
    assert!(!printed(&["check", &file("both", &state.packed())]).contains("before Ask 10"));
}

#[test]
fn bad_usage_gives_2() {
    let bad: [&[&str]; 7] = [
        &[],
        &["nonsense"],
        &["check"],
        &["check", "no-such-file"],
        &["random", "1"],
        &["random", "x", "1"],
        &["rows", "more"],
    ];
    for arguments in bad {
        let output = oracle(arguments);
        assert_eq!(output.status.code(), Some(2), "{arguments:?}");
        assert!(output.stderr.starts_with(b"oracle: "), "{arguments:?}");
    }
    assert_eq!(status(&["help"]), 0);
}

#[test]
fn rows_random_and_session_run() {
    assert_eq!(printed(&["rows"]).lines().filter(|line| line.ends_with("holds")).count(), 12);
    assert_eq!(status(&["rows"]), 0);
    assert!(printed(&["random", "7", "2"]).ends_with("random: ok\n"));

    let wanted = "call 1 1 0 0 0 0\nend 2\nset 0 0 8 1\nfile 0 0 1 0\next 0 -1\next 64 -1\n";
    assert_eq!(session(&[0x10, 0, 0, 0, 0, 0, 0, 0, 1]), wanted);
}

/// Ask 1 of document 02: a new file is all holes, -1 in set 0 and -2 in set 1.
#[test]
fn session_lists_holes_by_set() {
    let input = [
        [0x10, 0, 0, 0, 0, 0, 0, 0],
        [0x60, 0x01, 0, 0, 0, 0, 0, 0],
        [0x11, 0x10, 0, 0, 0, 0, 0, 0],
    ];
    let wanted = "call 1 1 0 0 0 0\ncall 2 6 0 0 0 0\ncall 3 1 0 0 0 0\n\
        set 0 0 8 1\nfile 0 0 1 0\next 0 -1\next 64 -1\n\
        set 1 1 0 1\nfile 1 0 2 0\next 0 -1\next 64 -1\n\
        file 1 1 1 0\next 0 -2\next 64 -1\n";
    assert_eq!(session(&input.concat()), wanted);
}

/// Without a library to compare with, `compare` says so.
#[test]
#[cfg(not(have_sweep))]
fn compare_without_a_library_gives_2() {
    let output = Command::new(env!("CARGO_BIN_EXE_compare")).output().unwrap();
    assert_eq!(output.status.code(), Some(2));
    assert!(output.stderr.starts_with(b"compare: built without"));
}
