//! "Demand 3" on random lists from format on. Every list is compared with
//! plain store and tally after every call (see `bench`).

use oracle::bench::{report, Counts, NoOther};
use oracle::history::random_history;
use oracle::rng::Rng;

const SEED: u64 = 3_000_003;

fn histories(block_counts: &[usize], rounds: usize, length: usize) -> Counts {
    println!("seed {SEED}");
    let mut seeds = Rng::new(SEED);
    let mut counts = Counts::default();
    for _ in 0..rounds {
        for &block_count in block_counts {
            let seed = seeds.word();
            let outcome =
                random_history(seed, block_count, length, &mut NoOther, &mut counts, &mut |_| {});
            if let Err(failure) = outcome {
                let text = report(&failure.script, &mut NoOther);
                panic!("{block_count} blocks, seed {seed}: {}\n{text}", failure.text);
            }
        }
    }
    println!("calls {:?}", counts.calls);
    println!("numbers {:?}", counts.numbers);
    println!("copies {}, files marked {}", counts.copies, counts.files_marked);
    println!("blocks handed over {} in {} calls", counts.handed_over, counts.handing_calls);
    println!("accepted reads compared {}", counts.reads_beside);
    counts
}

#[test]
fn stores_of_1_to_12_blocks() {
    let sizes: Vec<usize> = (1..=12).collect();
    let counts = histories(&sizes, 30, 120);
    assert!(counts.numbers.iter().all(|count| *count > 0), "every number is given");
    assert!(counts.calls.iter().all(|count| *count > 0), "every call is done");
    assert!(counts.copies > 600 && counts.files_marked > 800);
    assert!(counts.handed_over > 1_000 && counts.handing_calls > 500);
    assert!(counts.reads_beside.to_a_parent > 300);
}

#[test]
fn stores_of_64_blocks() {
    let counts = histories(&[64], 60, 120);
    assert!(counts.copies > 350 && counts.files_marked > 100);
    assert!(counts.handed_over > 1_000 && counts.handing_calls > 120);
    assert!(counts.reads_beside.to_a_parent > 60);
}

#[test]
fn stores_of_4096_blocks() {
    histories(&[4_096], 4, 60);
}
