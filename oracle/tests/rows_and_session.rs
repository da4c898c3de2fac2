//! Rows M1 to M12, the worked session to the byte, what the session program
//! does with bad and odd calls, how it lists holes (Ask 1 of document 02) and
//! blocks handed over (Ask 2).

use oracle::rows::rows;
use oracle::session::session;

#[test]
fn every_row_holds() {
    let rows = rows();
    assert_eq!(rows.len(), 12);
    for row in rows {
        assert!(row.holds(), "{}: wanted {}, found {}", row.name, row.wanted, row.found);
    }
}

fn bytes(text: &str) -> Vec<u8> {
    let digits: Vec<char> = text.chars().filter(|digit| !digit.is_whitespace()).collect();
    digits
        .chunks(2)
        .map(|pair| u8::from_str_radix(&pair.iter().collect::<String>(), 16).unwrap())
        .collect()
}

fn run(text: &str) -> String {
    String::from_utf8(session(&bytes(text))).unwrap()
}

#[test]
fn the_worked_session() {
    let wanted = "\
call 1 1 0 0 0 0
call 2 2 0 2 0 0
call 3 5 0 0 0 0
call 4 2 0 0 1 0
set 0 0 8 1
file 0 0 1 1024
ext 0 0
ext 2 -1
ext 64 -1
set 1 1 0 0
file 1 0 1 1024
ext 0 -1
ext 1 2
ext 2 -1
ext 64 -1
";
    let input = "1000000000000000 2000000004004100 5001000000000000 20000258000A4200";
    assert_eq!(run(input), wanted);
}

#[test]
fn no_input_lists_set_0_alone() {
    assert_eq!(run(""), "set 0 0 8 1\n");
}

#[test]
fn a_short_call_ends_and_lists() {
    for length in 1..8 {
        let input = [bytes("1000000000000000"), vec![0x10; length]].concat();
        let output = String::from_utf8(session(&input)).unwrap();
        let wanted = "call 1 1 0 0 0 0\nend 2\nset 0 0 8 1\nfile 0 0 1 0\next 0 -1\next 64 -1\n";
        assert_eq!(output, wanted);
    }
}

#[test]
fn bad_calls_end_before_any_refusal() {
    let bad = [
        "0000000000000000", // op 0
        "8000000000000000", // op 8
        "F000000000000000", // op 15
        "1001000000000000", // create with other
        "1000000100000000", // create with offset
        "1000000000010000", // create with length
        "1000000000000100", // create with fill
        "1000000000000001", // create with zero
        "2001000000000000", // write with other
        "2000000010010000", // write of length 4,097
        "20000000FFFF0000", // write of length 65,535
        "2000000000000001", // write with zero
        "3001000000000000", // truncate with other
        "3000000000010000", // truncate with length
        "3000000000000100", // truncate with fill
        "4001000000000000", // delete with other
        "4000000100000000", // delete with offset
        "5010000000000000", // make with file
        "5000000100000000", // make with offset
        "6010000000000000", // make with file
        "6000000000000100", // make with fill
        "7010000000000000", // remove with file
        "7001000000000000", // remove with other
        "7000000000000080", // remove with zero
        "1900000000010000", // create in set 9 with length: end, not refusal 2
    ];
    for call in bad {
        let output = run(&format!("{call} 1000000000000000"));
        assert_eq!(output, "end 1\nset 0 0 8 1\n", "{call}");
    }
}

#[test]
fn used_fields_out_of_range_are_refusals() {
    let cases = [
        ("1F00000000000000", "call 1 1 2 0 0 0"), // create in set 15
        ("20000000000000FF", "end 1"),            // zero field
        ("200000000000FF00", "call 1 2 5 0 0 0"), // fill is used by an empty write
        ("2000000010000000", "call 1 2 5 0 0 0"), // length 4,096 is allowed
        ("3000FFFF00000000", "call 1 3 5 0 0 0"), // truncate of an absent file
        ("5008000000000000", "call 1 5 2 0 0 0"), // make set 8
        ("6000000000000000", "call 1 6 9 0 0 0"), // make set 0
        ("7000000000000000", "call 1 7 12 0 0 0"),
        ("7100000000000000", "call 1 7 2 0 0 0"),
    ];
    for (input, wanted) in cases {
        assert_eq!(run(input).lines().next().unwrap(), wanted, "{input}");
    }
}

#[test]
fn the_listing_goes_children_in_order_and_marked_files_have_no_extents() {
    // 64 blocks filled by 8 writes of 4,096; sets 2 then 1; a write marks both.
    let mut input = "1000000000000000".to_string();
    for write in 0..8 {
        input += &format!("2000{:04x}10004100", write * 4_096);
    }
    input += "6002000000000000 5201000000000000 5003000000000000 2000000000014200";
    let output = run(&input);
    let tail: Vec<&str> = output.lines().skip(12).collect();
    let wanted = [
        "call 13 2 0 0 0 3",
        "set 0 0 8 1",
        "file 0 0 1 32768",
        "ext 0 0",
        "ext 64 -1",
        "set 2 1 0 1",
        "file 2 0 3 0",
        "set 1 2 2 0",
        "file 1 0 3 0",
        "set 3 1 0 0",
        "file 3 0 3 0",
    ];
    assert_eq!(tail, wanted);
}

#[test]
fn a_file_all_holes_is_one_run_and_so_is_a_virgin_file() {
    // File 0 of set 0 and file 1 of set 1 are all holes, file 0 of set 1 is virgin.
    let input = "1000000000000000 6001000000000000 1110000000000000";
    let wanted = "\
call 1 1 0 0 0 0
call 2 6 0 0 0 0
call 3 1 0 0 0 0
set 0 0 8 1
file 0 0 1 0
ext 0 -1
ext 64 -1
set 1 1 0 1
file 1 0 2 0
ext 0 -1
ext 64 -1
file 1 1 1 0
ext 0 -2
ext 64 -1
";
    assert_eq!(run(input), wanted);
}

#[test]
fn holes_beside_stored_pages_are_listed_by_set() {
    // File 0 is created in set 0 and in set 1, and pages 1, 2, 4 and 62 are
    // written in both: holes at the front, between and at the end.
    let input = "6001000000000000 1000000000000000 1100000000000000 \
        2000020004004100 2000080002004100 20007C0002004100 \
        2100020004004200 2100080002004200 21007C0002004200";
    let wanted = "\
call 1 6 0 0 0 0
call 2 1 0 0 0 0
call 3 1 0 0 0 0
call 4 2 0 2 0 0
call 5 2 0 1 0 0
call 6 2 0 1 0 0
call 7 2 0 2 0 0
call 8 2 0 1 0 0
call 9 2 0 1 0 0
set 0 0 8 1
file 0 0 1 32256
ext 0 -1
ext 1 0
ext 3 -1
ext 4 2
ext 5 -1
ext 62 3
ext 63 -1
ext 64 -1
set 1 1 0 1
file 1 0 1 32256
ext 0 -2
ext 1 4
ext 3 -2
ext 4 6
ext 5 -2
ext 62 7
ext 63 -2
ext 64 -1
";
    assert_eq!(run(input), wanted);
}

#[test]
fn holes_given_by_the_parents_writes_do_not_join_unmapped_pages() {
    // The file of set 0 is all holes when the read-only set 1 is made. Writes
    // of pages 0, 5 to 7 and 63 in set 0 make these pages holes in set 1.
    let input = "1000000000000000 5001000000000000 \
        2000000002004100 20000A0006004100 20007E0002004100";
    let wanted = "\
call 1 1 0 0 0 0
call 2 5 0 0 0 0
call 3 2 0 1 0 0
call 4 2 0 3 0 0
call 5 2 0 1 0 0
set 0 0 8 1
file 0 0 1 32768
ext 0 0
ext 1 -1
ext 5 1
ext 8 -1
ext 63 4
ext 64 -1
set 1 1 0 0
file 1 0 1 0
ext 0 -2
ext 1 -1
ext 5 -2
ext 8 -1
ext 63 -2
ext 64 -1
";
    assert_eq!(run(input), wanted);
}

#[test]
fn holes_given_by_a_delete_in_the_parent() {
    // Page 1's block is handed to the read-only set 1, all other pages become
    // holes there.
    let input = "1000000000000000 2000020002004100 5001000000000000 4000000000000000";
    let wanted = "\
call 1 1 0 0 0 0
call 2 2 0 1 0 0
call 3 5 0 0 0 0
call 4 4 0 0 0 0
set 0 0 8 1
set 1 1 0 0
file 1 0 1 1024
ext 0 -2
ext 1 0
ext 2 -2
ext 64 -1
";
    assert_eq!(run(input), wanted);
}

#[test]
fn blocks_handed_over_by_a_truncate_and_a_delete() {
    // Pages 0 to 2 are in blocks 0 to 2. Sets 1 (read-only) and 2 (writeable)
    // are made, then the file is cut to 600. Page 1 is the part page: it is
    // copied to blocks 3 and 4. Page 2 goes to set 1 itself and is copied to
    // block 5 for set 2.
    let cut = "1000000000000000 2000000006004100 5001000000000000 6002000000000000 \
        3000025800000000";
    let calls = "\
call 1 1 0 0 0 0
call 2 2 0 3 0 0
call 3 5 0 0 0 0
call 4 6 0 0 0 0
call 5 3 0 0 3 0
";
    let wanted = "\
set 0 0 8 1
file 0 0 1 600
ext 0 0
ext 2 -1
ext 64 -1
set 1 1 0 0
file 1 0 1 1536
ext 0 -1
ext 1 3
ext 2 2
ext 3 -1
ext 64 -1
set 2 1 0 1
file 2 0 1 1536
ext 0 -1
ext 1 4
ext 3 -1
ext 64 -1
";
    assert_eq!(run(cut), [calls, wanted].concat());
    // Then the file is deleted: page 0 goes to set 1 and is copied to block 6
    // for set 2. Nobody needs page 1, so block 1 is free. All pages from 3 on
    // become holes.
    let wanted = "\
call 6 4 0 0 1 0
set 0 0 8 1
set 1 1 0 0
file 1 0 1 1536
ext 0 0
ext 1 3
ext 2 2
ext 3 -2
ext 64 -1
set 2 1 0 1
file 2 0 1 1536
ext 0 6
ext 1 4
ext 3 -2
ext 64 -1
";
    assert_eq!(run(&format!("{cut} 4000000000000000")), [calls, wanted].concat());
}

#[test]
fn holes_made_by_truncates_in_copies() {
    let input = "\
        1000000000000000 200000000C004100 \
        1010000000000000 2010040004004100 \
        1020000000000000 3020800000000000 \
        6001000000000000 6002000000000000 \
        2100020002004200 3100040000000000 2100080002004200 \
        3110006400000000 3120780000000000 \
        3210000000000000 3220000000000000";
    // In set 0: file 0 has pages 0 to 5, file 1 pages 2 and 3, file 2 none and
    // the largest size.
    // In set 1: file 0 has page 1 written, is cut to 1,024, has page 4 written;
    // file 1 is cut to 100, over a hole, so its page 0 stays unmapped; file 2
    // is cut to 60 pages.
    // In set 2: file 0 is virgin, files 1 and 2 are cut to 0.
    let wanted = "\
call 1 1 0 0 0 0
call 2 2 0 6 0 0
call 3 1 0 0 0 0
call 4 2 0 2 0 0
call 5 1 0 0 0 0
call 6 3 0 0 0 0
call 7 6 0 0 0 0
call 8 6 0 0 0 0
call 9 2 0 1 0 0
call 10 3 0 0 0 0
call 11 2 0 1 0 0
call 12 3 0 0 0 0
call 13 3 0 0 0 0
call 14 3 0 0 0 0
call 15 3 0 0 0 0
set 0 0 8 1
file 0 0 1 3072
ext 0 0
ext 6 -1
ext 64 -1
file 0 1 1 2048
ext 0 -1
ext 2 6
ext 4 -1
ext 64 -1
file 0 2 1 32768
ext 0 -1
ext 64 -1
set 1 1 0 1
file 1 0 1 2560
ext 0 -1
ext 1 8
ext 2 -2
ext 4 9
ext 5 -2
ext 6 -1
ext 64 -1
file 1 1 1 100
ext 0 -1
ext 1 -2
ext 4 -1
ext 64 -1
file 1 2 1 30720
ext 0 -1
ext 60 -2
ext 64 -1
set 2 1 0 1
file 2 0 2 3072
ext 0 -1
ext 64 -1
file 2 1 1 0
ext 0 -2
ext 4 -1
ext 64 -1
file 2 2 1 0
ext 0 -2
ext 64 -1
";
    assert_eq!(run(input), wanted);
}

#[test]
fn holes_of_copies_at_every_level() {
    // Sets 7, 6, 5, 4 and 3, each made from the one before, are levels 1 to 5.
    // The file is all holes; then level n writes page n, from the root down,
    // and level n + 1 gets a hole there.
    let input = "1000000000000000 \
        6007000000000000 6706000000000000 6605000000000000 6504000000000000 6403000000000000 \
        2000000002004100 2700020002004200 2600040002004300 2500060002004400 2400080002004500 \
        23000A0002004600";
    let wanted = "\
call 1 1 0 0 0 0
call 2 6 0 0 0 0
call 3 6 0 0 0 0
call 4 6 0 0 0 0
call 5 6 0 0 0 0
call 6 6 0 0 0 0
call 7 2 0 1 0 0
call 8 2 0 1 0 0
call 9 2 0 1 0 0
call 10 2 0 1 0 0
call 11 2 0 1 0 0
call 12 2 0 1 0 0
set 0 0 8 1
file 0 0 1 512
ext 0 0
ext 1 -1
ext 64 -1
set 7 1 0 1
file 7 0 1 1024
ext 0 -2
ext 1 1
ext 2 -1
ext 64 -1
set 6 2 7 1
file 6 0 1 1536
ext 0 -1
ext 1 -2
ext 2 2
ext 3 -1
ext 64 -1
set 5 3 6 1
file 5 0 1 2048
ext 0 -1
ext 2 -2
ext 3 3
ext 4 -1
ext 64 -1
set 4 4 5 1
file 4 0 1 2560
ext 0 -1
ext 3 -2
ext 4 4
ext 5 -1
ext 64 -1
set 3 5 4 1
file 3 0 1 3072
ext 0 -1
ext 4 -2
ext 5 5
ext 6 -1
ext 64 -1
";
    assert_eq!(run(input), wanted);
}

#[test]
fn a_marked_file_with_a_hole_has_no_extents() {
    // File 0 of set 1 has a hole, page 9; then file 1 of set 0 fills the store.
    let full = "1000000000000000 2000000002004100 6001000000000000 2000120002004100 \
        1120000000000000 1010000000000000 \
        2010000010004300 2010100010004300 2010200010004300 2010300010004300 \
        2010400010004300 2010500010004300 2010600010004300 201070000C004300";
    let calls = "\
call 1 1 0 0 0 0
call 2 2 0 1 0 0
call 3 6 0 0 0 0
call 4 2 0 1 0 0
call 5 1 0 0 0 0
call 6 1 0 0 0 0
call 7 2 0 8 0 0
call 8 2 0 8 0 0
call 9 2 0 8 0 0
call 10 2 0 8 0 0
call 11 2 0 8 0 0
call 12 2 0 8 0 0
call 13 2 0 8 0 0
call 14 2 0 6 0 0
";
    let set_0 = "\
set 0 0 8 1
file 0 0 1 5120
ext 0 0
ext 1 -1
ext 9 1
ext 10 -1
ext 64 -1
file 0 1 1 31744
ext 0 2
ext 62 -1
ext 64 -1
";
    let before = "\
set 1 1 0 1
file 1 0 1 512
ext 0 -1
ext 9 -2
ext 10 -1
ext 64 -1
file 1 2 1 0
ext 0 -2
ext 64 -1
";
    assert_eq!(run(full), [calls, set_0, before].concat());
    let after = "\
set 1 1 0 1
file 1 0 3 0
file 1 2 1 0
ext 0 -2
ext 64 -1
";
    let marking = format!("{full} 2000000000014400");
    assert_eq!(run(&marking), [calls, "call 15 2 0 0 0 1\n", set_0, after].concat());
}
