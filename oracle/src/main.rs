//! The program `oracle`: checks a table file, runs a session, shows the rows,
//! and runs random histories against plain store and tally, what the panel's
//! registers must show, the room that a write can take, the sets' terms, and what a
//! compaction must leave.

use oracle::bench::{report, Counts, NoOther};
use oracle::call::*;
use oracle::check::{check_all, check_older};
use oracle::history::any_history;
use oracle::rng::Rng;
use oracle::{accesses, bits, rows, session, writes};
use std::io::{Read, Write};
use std::process::ExitCode;

const HELP: &str = "\
usage:
  oracle check FILE [PAGES-BYTES]  say whether the tables in FILE are well formed, or
                                   each rule that is broken, those on block count, next
                                   start, kinds, blocks and bits first; PAGES-BYTES is
                                   the length of the pages buffer (without it: block
                                   count x 512); tables of 17,436 bytes, the length
                                   before Ask 8, are judged by document 01's rules
  oracle session                   the session program, from standard input to output
  oracle rows                      rows M1 to M12 and their results
  oracle random SEED COUNT         COUNT random histories against plain store and tally,
                                   what the panel's registers must show, the room that
                                   a write can take, the sets' terms, and what a
                                   compaction must leave
  oracle help                      this text
exit status: 0 well, 1 a broken table, row or history, 2 bad usage
";

fn main() -> ExitCode {
    let arguments: Vec<String> = std::env::args().skip(1).collect();
    let words: Vec<&str> = arguments.iter().map(String::as_str).collect();
    let outcome = match words.as_slice() {
        ["check", file] => check(file, None),
        ["check", file, length] => number(length).and_then(|length| check(file, Some(length))),
        ["session"] => run_session(),
        ["rows"] => Ok(show_rows()),
        ["random", seed, count] => number(seed).and_then(|seed| Ok(random(seed, number(count)?))),
        ["help" | "--help" | "-h"] => {
            print!("{HELP}");
            Ok(true)
        }
        [] => Err("no command given".to_string()),
        _ => Err(format!("bad command or arguments: {}", words.join(" "))),
    };
    match outcome {
        Ok(true) => ExitCode::SUCCESS,
        Ok(false) => ExitCode::from(1),
        Err(text) => {
            eprintln!("oracle: {text} ('oracle help' shows the usage)");
            ExitCode::from(2)
        }
    }
}

fn number<T: std::str::FromStr>(word: &str) -> Result<T, String> {
    word.parse().map_err(|_| format!("'{word}' is not a number in range"))
}

/// True when the tables are well formed.
fn check(file: &str, pages_length: Option<usize>) -> Result<bool, String> {
    let tables = std::fs::read(file).map_err(|error| format!("cannot read {file}: {error}"))?;
    let by_header = || {
        // "block count B 13"
        if tables.len() < 4 {
            0
        } else {
            bits::field(&tables, 0, 13) as usize * PAGE_BYTES
        }
    };
    let pages_length = pages_length.unwrap_or_else(by_header);
    let broken = if tables.len() == OLDER_TABLES_BYTES {
        println!("tables of 17,436 bytes, the length before Ask 8, judged by document 01's rules;");
        println!("no call takes them but sweep_convert, if they are well formed");
        check_older(&tables, pages_length)
    } else {
        check_all(&tables, pages_length)
    };
    if broken.is_empty() {
        println!("well formed");
        return Ok(true);
    }
    println!("not well formed, broken rules: {}", broken.len());
    for rule in broken {
        println!("{rule}");
    }
    if check_older(&tables, pages_length).is_empty() {
        println!(
            "well formed before Ask 10; sweep_convert takes these tables and clears marked files"
        );
    }
    Ok(false)
}

fn run_session() -> Result<bool, String> {
    let mut input = Vec::new();
    let read = std::io::stdin().read_to_end(&mut input);
    read.map_err(|error| format!("cannot read standard input: {error}"))?;
    let written = std::io::stdout().write_all(&session::session(&input));
    written.map_err(|error| format!("cannot write standard output: {error}"))?;
    Ok(true)
}

fn show_rows() -> bool {
    let rows = rows::rows();
    for row in &rows {
        let verdict = if row.holds() { "holds" } else { "BROKEN" };
        println!("{} | {} | {} | found {} | {verdict}", row.name, row.case, row.wanted, row.found);
    }
    rows.iter().all(rows::Row::holds)
}

fn random(seed: u64, count: u64) -> bool {
    println!("seed {seed}, {count} histories");
    let mut seeds = Rng::new(seed);
    let mut counts = Counts::default();
    for index in 0..count {
        let seed = seeds.word();
        let outcome = any_history(seed, &mut NoOther, &mut counts, &mut |_| {});
        if let Err(failure) = outcome {
            println!("history {index} (seed {seed}): {}", failure.text);
            println!("{}", report(&failure.script, &mut NoOther));
            return false;
        }
    }
    show_counts(&counts);
    println!("random: ok");
    true
}

fn show_counts(counts: &Counts) {
    for (name, calls) in CALL_NAMES.iter().zip(counts.calls) {
        println!("calls {name} {calls}");
    }
    for (number, calls) in counts.numbers.iter().enumerate() {
        println!("number {number} {calls}");
    }
    println!("copies {}, files marked {}", counts.copies, counts.files_marked);
    println!("blocks handed over {} in {} calls", counts.handed_over, counts.handing_calls);
    println!("accepted reads compared {}", counts.reads_beside);
    println!("writes judged by the room they take {}", counts.room);
    println!("calls of terms {}", counts.terms);
    println!("compactions {}", counts.compactions);
    println!("blocks freed by marking {} in calls {}", counts.freed, counts.markings);
    writes::show("plain store and tally", &counts.writes_beside);
    accesses::show("what is demanded", &counts.panel_judged);
}
