//! Ask 6 of document 02 in random sequences: what is done through the panel and
//! the same calls made directly leave the same store, what the registers show
//! from a reset on, and that the cases that matter are met, and how often.
//! Histories run with plain store and tally beside, and with what the registers
//! must show since a reset.

use oracle::accesses::{self, Accesses, CASES};
use oracle::bench::{Bench, Counts, NoOther};
use oracle::call::*;
use oracle::check::is_well_formed;
use oracle::gen::{self, panel, Made, Start};
use oracle::history::{many_copies_history, short_history, Short};
use oracle::panel_judge;
use oracle::rng::Rng;

const SEED: u64 = 60_000_006;

/// The calls that commands run, and the numbers that each can return.
const RETURNED: [(u8, &[u32]); 5] = [
    (1, &[0, 1, 2, 3, 4, 9]),
    (4, &[0, 1, 2, 3, 4, 5]),
    (5, &[0, 1, 2, 9, 10]),
    (6, &[0, 1, 2, 9, 10]),
    (7, &[0, 1, 2, 11, 12]),
];

/// Two stores: one that is worked on through the panel, and one on which the calls
/// that commands run are made directly.
struct Twins {
    panel: Bench,
    direct: Bench,
}

impl Twins {
    fn new(tables: Vec<u8>, pages: Vec<u8>) -> Twins {
        let direct = Bench::with(tables.clone(), pages.clone());
        Twins { panel: Bench::with(tables, pages), direct }
    }

    fn step(&mut self, item: &Item) {
        let before = self.panel.registers().to_vec();
        let made = match item {
            Item::Call(call) if call.is_of_panel() => {
                panel_judge::call_run(call, &before).map(Item::Call)
            }
            _ => Some(item.clone()),
        };
        let answer = done(&mut self.panel, item);
        let made_answer = made.as_ref().and_then(|made| done(&mut self.direct, made));
        assert!(self.panel.tables() == self.direct.tables(), "{item}");
        assert!(self.panel.pages() == self.direct.pages(), "{item}");
        assert!(self.panel.beside == self.direct.beside, "{item}");
        match (item, made_answer) {
            (Item::Call(call), Some(ran)) if call.is_of_panel() => {
                assert_eq!(answer, Some(Answer::default()), "{item}");
                shows_the_command(&before, self.panel.registers(), &ran);
            }
            (Item::Call(call), _) if !call.is_of_panel() => assert_eq!(answer, made_answer),
            _ => {}
        }
        if self.panel.since.is_some() {
            from_reset_on(self.panel.registers());
        }
    }
}

fn done(bench: &mut Bench, item: &Item) -> Option<Answer> {
    bench.step(item, &mut NoOther).unwrap_or_else(|text| panic!("{item}: {text}"))
}

/// "Offset 1 is the number that the last command run returned", "7 to 9 that
/// command's three counts", and the cause has its old bits and those added. The
/// rest stays. All of it on any registers.
fn shows_the_command(before: &[u8], after: &[u8], ran: &Answer) {
    let mut wanted = before.to_vec();
    wanted[1] = ran.number as u8;
    wanted[2] |= match (ran.number, ran.third) {
        (0, 0) => 1,
        (0, _) => 5,
        _ => 2,
    };
    for (place, count) in (7..10).zip([ran.first, ran.second, ran.third]) {
        wanted[place] = count.min(255) as u8;
    }
    assert_eq!(after, wanted, "{ran}");
    // The counts that no command can have.
    assert!(ran.first == 0 && ran.second <= 384 && ran.third <= 7, "{ran}");
    assert!(ran.number == 0 || *ran == Answer::refused(ran.number));
}

/// "10 to 15 zero"; the cause's "bits 3 to 7 are 0 from reset on"; the command is
/// not kept.
fn from_reset_on(registers: &[u8]) {
    assert_eq!((registers.len(), registers[0]), (16, 0));
    assert!(registers[2] < 8);
    assert_eq!(registers[10..], [0; 6]);
}

/// Does a history of so many turns on both.
fn history(rng: &mut Rng, start: Start, length: usize, counts: &mut Counts) {
    let mut twins = Twins::new(vec![0; TABLES_BYTES], Vec::new());
    std::mem::swap(&mut twins.panel.counts, counts);
    let calls = [start.calls, start.then].concat();
    for (place, call) in calls.into_iter().enumerate() {
        twins.step(&Item::Call(call));
        if place == 0 {
            twins.step(&Item::Call(Call::PanelReset {}));
        }
    }
    for _ in 0..length {
        let beside = twins.panel.beside.clone().expect("a history begins with format");
        for item in panel::turn(rng, &start.style, &beside) {
            twins.step(&item);
        }
    }
    std::mem::swap(&mut twins.panel.counts, counts);
}

/// Each case is met at least so often, but for those in whose names these words
/// are.
fn check_cases(counts: &Accesses, least: u64, but: &[&str]) {
    accesses::show("what is demanded", counts);
    for (case, met) in CASES.iter().zip(counts.met) {
        let is_left_out = but.iter().any(|words| case.contains(words));
        assert!(is_left_out || met >= least, "{case}: {met}");
    }
}

fn check_offsets(counts: &Accesses, least: u64) {
    for (offset, counts) in counts.by_offset.iter().enumerate() {
        assert!(counts.iter().all(|count| *count >= least), "{offset}: {counts:?}");
    }
}

#[test]
fn histories_are_as_the_calls_they_run_and_meet_every_case() {
    println!("seed {SEED}");
    let mut rng = Rng::new(SEED);
    let mut counts = Counts::default();
    for round in 0..350 {
        let block_count = if round % 10 == 0 { 64 } else { rng.between(1, 12) };
        let start = panel::panel_start(&mut rng, block_count);
        history(&mut rng, start, 25, &mut counts);
    }
    for free in panel::LEFT_FREE.into_iter().cycle().take(24) {
        let start = panel::many_copies_start(&mut rng, free);
        history(&mut rng, start, 2, &mut counts);
    }
    let counts = &counts.panel_judged;
    // Tables are not damaged in a history.
    check_cases(counts, 10, &["not well formed"]);
    check_offsets(counts, 20);
    for (op, numbers) in RETURNED {
        for number in numbers.iter().filter(|number| **number != 1) {
            let met = counts.commands.get(&(op, *number)).copied().unwrap_or(0);
            assert!(met >= 3, "command {op} returned {number}: {met}");
        }
    }
    let possible = |(op, number): &(u8, u32)| {
        RETURNED.iter().any(|(other, numbers)| op == other && numbers.contains(number))
    };
    assert!(counts.commands.keys().all(possible), "no other number is returned");
}

/// Damaged tables, tables and pages of wrong length, and well-formed stores that no
/// history need reach.
#[test]
fn on_any_store_a_command_is_its_call() {
    println!("seed {SEED}");
    let mut rng = Rng::new(SEED ^ 1);
    let pool: Vec<Made> = (0..30).map(|_| gen::made(&mut rng)).collect();
    let mut counts = Counts::default();
    for _ in 0..400 {
        let made = rng.pick(&pool);
        let (mut tables, mut pages) = (made.tables, made.pages);
        match rng.below(4) {
            0 => gen::twist(&mut rng, &mut tables, &mut pages),
            1 => tables.resize(rng.pick(&[0, 1, TABLES_BYTES - 1, TABLES_BYTES + 1]), 0),
            2 => pages.resize(rng.pick(&[0, 511, 513]), 0),
            _ => drop(gen::damage(&mut rng, &mut tables)),
        }
        let formed = is_well_formed(&tables, pages.len());
        let mut twins = Twins::new(tables, pages);
        std::mem::swap(&mut twins.panel.counts, &mut counts);
        if rng.percent(50) {
            twins.step(&Item::Call(Call::PanelReset {}));
        }
        for _ in 0..3 {
            let index = rng.between(13, 16);
            let accesses = panel::turn_of(&mut rng, &made.style, &made.beside, index);
            let command = panel::command(&mut rng, &made.style, &made.beside);
            let items = accesses.into_iter().chain(command.into_iter().map(Item::Call));
            items.for_each(|item| twins.step(&item));
            assert_eq!(twins.panel.registers()[1] == 1, !formed);
        }
        std::mem::swap(&mut twins.panel.counts, &mut counts);
    }
    let counts = &counts.panel_judged;
    for (op, numbers) in RETURNED {
        assert!(counts.commands[&(op, 1)] >= 20 && numbers.contains(&1), "{op}");
    }
    assert!(counts.returned(0) >= 100);
    let met = |words: &str| counts.met[CASES.iter().position(|c| c.contains(words)).unwrap()];
    assert!(met("not well formed") >= 500 && met("that no reset made") >= 500);
}

/// Any accesses of any sixteen bytes: no call changes what it must leave, and
/// each answer is what the bytes say.
#[test]
fn any_sixteen_bytes() {
    println!("seed {SEED}");
    let mut rng = Rng::new(SEED ^ 2);
    let made = gen::made_of(&mut rng, 8, 30);
    let mut twins = Twins::new(made.tables.clone(), made.pages.clone());
    for _ in 0..3_000 {
        for item in panel::any_registers(&mut rng) {
            twins.step(&item);
        }
        let before = twins.panel.registers().to_vec();
        let offset = rng.below(16);
        let read = Item::Call(Call::PanelRead { offset: offset as u32 });
        let shown = if offset == 0 { 0 } else { before[offset] };
        assert_eq!(done(&mut twins.panel, &read), Some(Answer::accepted([shown.into(), 0, 0])));
        let line = u32::from(before[2] & before[3] != 0);
        let asked = done(&mut twins.panel, &Item::Call(Call::PanelLine {}));
        assert_eq!(asked, Some(Answer::accepted([line, 0, 0])));
        assert_eq!(twins.panel.registers(), before);
        let call = gen::call_of(&mut rng, &made.style, &made.beside, 15);
        twins.step(&Item::Call(call.clone()));
        let Call::PanelWrite { offset, value } = call else { unreachable!() };
        if offset != 0 {
            let mut wanted = before;
            match offset {
                2 => wanted[2] &= !(value & 7),
                3..=6 => wanted[offset as usize] = value,
                _ => {}
            }
            assert_eq!(twins.panel.registers(), wanted, "{offset} {value}");
        }
    }
}

/// The histories that `compare` makes: no difference without another
/// implementation, and every case.
#[test]
fn histories_of_compare_meet_every_case() {
    let mut seeds = Rng::new(SEED);
    let mut counts = Counts::default();
    for _ in 0..100 {
        let outcome =
            short_history(Short::Panel, seeds.word(), &mut NoOther, &mut counts, &mut |_| {});
        assert!(outcome.is_ok(), "{}", outcome.err().unwrap().text);
    }
    for free in panel::LEFT_FREE {
        let seed = seeds.word();
        let outcome = many_copies_history(seed, free, &mut NoOther, &mut counts, &mut |_| {});
        assert!(outcome.is_ok(), "{}", outcome.err().unwrap().text);
    }
    check_cases(&counts.panel_judged, 5, &["not well formed"]);
}
