//! Every refusal number, the lowest number that applies, and the edges of the
//! ranges. Each script runs with plain store and tally beside.

use oracle::bench::{Bench, NoOther};
use oracle::call::*;
use oracle::store;

/// Runs a script and gives the answer of its last call as text.
fn last(script: &str) -> String {
    let mut bench = Bench::new();
    let mut answer = None;
    for item in Item::parse_script(script).unwrap() {
        answer = bench.step(&item, &mut NoOther).unwrap_or_else(|text| panic!("{item}: {text}"));
    }
    answer.unwrap().to_string()
}

/// The call; of a write, all three kinds of it.
fn kinds(call: &str) -> Vec<String> {
    match call.strip_prefix("write ") {
        None => vec![call.to_string()],
        Some(rest) => ["write", "write-narrow", "write-groups 5", "write-groups 64"]
            .map(|name| format!("{name} {rest}"))
            .to_vec(),
    }
}

/// Each call gives its number, a write whatever its groups.
fn refusals(base: &str, cases: &[(&str, u32)]) {
    for (call, number) in cases {
        for call in kinds(call) {
            let found = last(&format!("{base}; {call}"));
            let found = found.split(';').next().unwrap();
            assert_eq!(found, number.to_string(), "{call}");
        }
    }
}

const BIG: u32 = u32::MAX;

/// File 0 stored in set 0, set 1 read-only and set 2 writeable made from it,
/// file 1 marked in sets 1 and 2, B = 3.
const BASE: &str = "format 1536; create 0 0; write 0 0 0 1 1; create 0 1; write 0 1 0 1024 2; \
    make 0 1 0; make 0 2 1; write 0 1 0 1 3";

#[test]
fn number_2_and_3() {
    let mut cases = Vec::new();
    for set in [3, 7, 8, 255, 256, BIG] {
        for call in [
            "create S 0",
            "write S 0 0 1 1",
            "read S 0 0 1",
            "truncate S 0 0",
            "delete S 0",
            "remove S",
            "size S 0",
            "make S 4 1",
            "set-term S 2000 2 30 0",
            "current S 0",
        ] {
            cases.push((call.replace('S', &set.to_string()), 2));
        }
        // Set before file: the lowest number is given.
        cases.push((format!("create {set} 16"), 2));
    }
    for set in [8, BIG] {
        cases.push((format!("make 0 {set} 1"), 2));
    }
    for file in [16, 17, 256, BIG] {
        for call in [
            "create 0 F",
            "write 0 F 0 1 1",
            "read 0 F 0 1",
            "truncate 0 F 0",
            "delete 0 F",
            "size 0 F",
            "create 1 F",
            "write 1 F 99999 1 1",
        ] {
            cases.push((call.replace('F', &file.to_string()), 3));
        }
    }
    let cases: Vec<(&str, u32)> = cases.iter().map(|(call, n)| (call.as_str(), *n)).collect();
    refusals(BASE, &cases);
}

#[test]
fn numbers_4_to_8() {
    refusals(
        BASE,
        &[
            // 4: set 1 is read-only, whatever the file.
            ("create 1 5", 4),
            ("create 1 0", 4),
            ("write 1 0 0 1 1", 4),
            ("write 1 5 0 1 1", 4),
            ("write 1 1 40000 0 1", 4),
            ("truncate 1 0 0", 4),
            ("delete 1 0", 4),
            ("delete 1 1", 4),
            // 5
            ("write 0 5 0 1 1", 5),
            ("write 0 5 40000 1 1", 5),
            ("read 0 5 0 1", 5),
            ("truncate 0 5 40000", 5),
            ("delete 0 5", 5),
            ("size 0 5", 5),
            ("read 1 5 0 1", 5),
            // 6
            ("write 2 1 0 1 1", 6),
            ("write 2 1 40000 1 1", 6),
            ("read 2 1 0 1", 6),
            ("truncate 2 1 40000", 6),
            ("size 2 1", 6),
            ("read 1 1 0 1", 6),
            ("size 1 1", 6),
            // 7
            ("write 0 0 32768 1 1", 7),
            ("write 0 0 32769 0 1", 7),
            ("write 0 0 0 32769 1", 7),
            ("write 0 0 4294967295 1 1", 7),
            ("write 0 0 4294967295 0 1", 7),
            ("write 0 0 4294967295 4097 1", 7),
            ("truncate 0 0 32769", 7),
            ("truncate 0 0 4294967295", 7),
            // 8: no block is free.
            ("write 2 0 0 1 1", 8),
            ("write 0 0 1 512 1", 8),
            ("write 0 0 512 1 1", 8),
            // Accepted: nothing more is needed.
            ("write 0 0 32768 0 1", 0),
            ("write 2 0 0 0 1", 0),
            ("write 0 0 1 511 1", 0),
            ("truncate 0 0 32768", 0),
            ("truncate 0 0 0", 0),
            ("truncate 2 0 0", 0),
            ("truncate 2 0 1", 0),
            ("delete 2 1", 0),
            ("delete 2 0", 0),
            ("read 1 0 4294967295 1", 0),
            ("size 1 0", 0),
            ("free", 0),
            ("check-blocks", 0),
            ("check", 0),
        ],
    );
    // A truncate needs an own block for its part page.
    let base = "format 512; create 0 0; write 0 0 0 100 1; make 0 1 1";
    refusals(
        base,
        &[
            ("truncate 1 0 50", 8),
            ("truncate 1 0 0", 0),
            ("truncate 1 0 100", 0),
            ("truncate 1 0 200", 0),
        ],
    );
}

#[test]
fn numbers_9_to_12() {
    refusals(
        BASE,
        &[
            ("create 0 0", 9),
            ("create 2 1", 9),
            ("create 2 0", 9),
            ("make 0 0 1", 9),
            ("make 0 1 1", 9),
            ("make 1 2 1", 9),
            ("remove 0", 11),
            ("remove 1", 0),
            ("remove 2", 0),
        ],
    );
    let deep = "format 512; make 0 1 1; make 1 2 1; make 2 3 1; make 3 4 1; make 4 5 1";
    refusals(
        deep,
        &[
            ("make 5 6 1", 10),
            ("make 5 1 1", 9),
            ("make 5 0 1", 9),
            ("make 5 8 1", 2),
            ("make 4 6 0", 0),
            ("remove 1", 11),
            ("remove 4", 11),
            ("remove 5", 0),
        ],
    );
    refusals("format 512", &[("remove 0", 12), ("free", 0), ("make 0 0 0", 9)]);
}

#[test]
fn number_1_in_format() {
    let mut tables = vec![0; TABLES_BYTES];
    for length in [0, 1, 511, 513, 1_023, 2_097_151, 2_097_153, 2_097_664] {
        let mut pages = vec![7; length];
        assert_eq!(store::format(&mut tables, &mut pages), Answer::refused(1), "{length}");
        assert!(pages.iter().all(|byte| *byte == 7) && tables.iter().all(|byte| *byte == 0));
    }
    for length in [512, 1_024, 2_097_152] {
        let mut pages = vec![7; length];
        assert_eq!(store::format(&mut tables, &mut pages), Answer::default(), "{length}");
        assert!(pages.iter().all(|byte| *byte == 0));
        assert_eq!(store::free(&tables, &pages).first as usize, length / 512);
    }
    for length in [0, 1, OLDER_TABLES_BYTES, TABLES_BYTES - 1, TABLES_BYTES + 1, 3 * TABLES_BYTES] {
        let mut tables = vec![9; length];
        let mut pages = vec![7; 512];
        assert_eq!(store::format(&mut tables, &mut pages), Answer::refused(1), "{length}");
        assert!(pages.iter().all(|byte| *byte == 7) && tables.iter().all(|byte| *byte == 9));
    }
}

#[test]
fn number_1_in_every_other_call() {
    let calls = [
        "create 9 99",
        "write 9 99 99999 3 1",
        "read 9 99 0 5",
        "truncate 9 99 99999",
        "delete 9 99",
        "make 9 9 1",
        "remove 9",
        "size 9 99",
        "free",
        "check",
        "set-term 9 0 0 0 0",
        "current 9 0",
    ];
    let damages = [
        "tables 0",
        "tables 17436",
        "tables 17467",
        "tables 17469",
        "pages 0",
        "pages 511",
        "pages 513",
        "pages 1024",
        "poke 3 1",
    ];
    for call in calls.into_iter().flat_map(kinds) {
        for damage in damages {
            assert_eq!(
                last(&format!("format 512; {damage}; {call}")),
                "1; 0, 0, 0",
                "{damage} {call}"
            );
        }
    }
}

#[test]
fn counts_of_read_size_and_free() {
    let base = "format 4096; create 0 0; write 0 0 0 1500 1; make 0 1 1; make 1 2 1; \
        write 2 0 0 1 2";
    let cases = [
        ("read 0 0 0 40000", "0; 1500, 3, 0"),
        // Own map for page 0; own map, set 1 and set 0 for pages 1 and 2.
        ("read 2 0 0 40000", "0; 1500, 7, 0"),
        ("read 2 0 511 1", "0; 1, 1, 0"),
        ("read 2 0 511 2", "0; 2, 4, 0"),
        ("read 2 0 1499 9", "0; 1, 3, 0"),
        ("read 2 0 1500 9", "0; 0, 0, 0"),
        ("read 2 0 0 0", "0; 0, 0, 0"),
        ("size 1 0", "0; 1500, 0, 0"),
        ("free", "0; 4, 0, 0"),
    ];
    for (call, wanted) in cases {
        assert_eq!(last(&format!("{base}; {call}")), wanted, "{call}");
    }
}
