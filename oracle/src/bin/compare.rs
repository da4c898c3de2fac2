//! The program `compare`: runs the C library libsweep.a beside the oracle,
//! compares answers and every byte that is not left free, and judges the library's writes
//! by the room they take and its compactions by their bytes. Terms are set from every
//! date. The library is linked when SWEEP_LIB (its
//! folder) is set at build time; SWEEP_CALLS says which calls it has.

use std::process::ExitCode;

#[cfg(not(have_sweep))]
fn main() -> ExitCode {
    eprintln!("compare: built without a library to compare with.");
    eprintln!("Set SWEEP_LIB to the folder of libsweep.a (and SWEEP_CALLS to its calls,");
    eprintln!("for example read,size,free) and build again.");
    ExitCode::from(2)
}

#[cfg(have_sweep)]
fn main() -> ExitCode {
    linked::main()
}

#[cfg(have_sweep)]
mod sweep {
    use oracle::bench::Other;
    use oracle::call::{Answer, Lent, Numbers, CALLS};
    use oracle::export;
    use oracle::export::Export;

    /// A function, if it is linked; none for a call that has no arguments here,
    /// as the oracle does it alone.
    macro_rules! export_if_linked {
        ($name:ident) => {
            None
        };
        ($name:ident($($argument:tt)*)) => {{
            #[cfg($name)]
            {
                Some(export!(n lent $name () () $($argument)*))
            }
            #[cfg(not($name))]
            {
                None
            }
        }};
    }

    /// The table: only functions that are linked are declared.
    macro_rules! exports {
        ($($name:ident $(($($argument:tt)*))?;)*) => {
            /// In the order of `CALL_NAMES`.
            static EXPORTS: [Option<Export>; CALLS] =
                [$(export_if_linked!($name $(($($argument)*))?)),*];
        };
    }

    exports! {
        sweep_format(change tables, change pages);
        sweep_create(change tables, change pages, u32 0, u32 1);
        sweep_write(change tables, change pages, u32 0, u32 1, u32 2, look bytes);
        sweep_read(look tables, look pages, u32 0, u32 1, u32 2, change bytes);
        sweep_truncate(change tables, change pages, u32 0, u32 1, u32 2);
        sweep_delete(change tables, change pages, u32 0, u32 1);
        sweep_make(change tables, change pages, u32 0, u32 1, u32 2);
        sweep_remove(change tables, change pages, u32 0);
        sweep_size(look tables, look pages, u32 0, u32 1);
        sweep_free(look tables, look pages);
        sweep_check_blocks(look tables);
        sweep_check(look tables, look pages);
        sweep_write_narrow(change tables, change pages, u32 0, u32 1, u32 2, look bytes);
        sweep_panel_reset(change registers);
        sweep_panel_read(look registers, u32 0);
        sweep_panel_write(change registers, change tables, change pages, u32 0, u8 1);
        sweep_panel_line(look registers);
        sweep_set_term(change tables, change pages, u32 0, u32 1, u32 2, u32 3, u32 4);
        sweep_current(look tables, look pages, u32 0, u32 1);
        sweep_convert(look second, look pages, change tables);
        sweep_compact(change tables, change pages, change spare);
        sweep_write_groups;
    }

    /// Whether the call at this place in `CALL_NAMES` is linked.
    pub fn linked(index: usize) -> bool {
        EXPORTS[index].is_some()
    }

    /// The library.
    pub struct Sweep;

    impl Other for Sweep {
        fn has(&self, index: usize) -> bool {
            linked(index)
        }

        fn run(&mut self, index: usize, numbers: &Numbers, lent: Lent) -> Answer {
            EXPORTS[index].expect("the call is linked")(numbers, lent)
        }
    }
}

#[cfg(have_sweep)]
mod linked {
    use super::sweep::{linked, Sweep};
    use super::ExitCode;
    use oracle::accesses;
    use oracle::agree::read_off;
    use oracle::bench::{replay, report, Bench, Counts, Other};
    use oracle::call::*;
    use oracle::check::{rules_broken, Rule};
    use oracle::conversion::narrowed;
    use oracle::dates::{date_of, day_number, end_day, Date, DAYS};
    use oracle::gen::compact::{self, Order};
    use oracle::gen::{self, length_of, panel, pokes, terms, Made, Style};
    use oracle::gen::{CONVERT, CURRENT, SET_TERM};
    use oracle::history::{any_history, many_copies_history, short_history};
    use oracle::history::{Failure, Short, Watch};
    use oracle::judge::Beside;
    use oracle::lent::{Buffers, Guarded};
    use oracle::rng::Rng;
    use oracle::state::State;
    use oracle::writes;
    use std::fs::File;
    use std::io::{Seek, Write};
    use std::time::{Duration, Instant};

    const HELP: &str = "\
usage:
  compare SEED SECONDS [TRACE-FILE]  wrong lengths, damaged tables, blocks in any order
                                     and random histories; the script in hand is kept
                                     in TRACE-FILE, for a library that ends the program
  compare replay FILE                run the script in FILE
  compare help                       this text
exit status: 0 no difference, 1 a difference or a case that no call met, 2 bad usage
";

    /// Each elementary rule is broken at least so many times.
    const DAMAGES_OF_EACH_RULE: u64 = 100;
    /// And so many times alone.
    const ALONE_OF_EACH_RULE: usize = 10;
    const SCATTERED: usize = 200;
    const GROUP_HISTORIES: usize = 100;
    const PANEL_HISTORIES: usize = 100;
    const ROOM_HISTORIES: usize = 300;
    const TERM_HISTORIES: usize = 150;
    const COMPACT_HISTORIES: usize = 150;
    const MARKING_HISTORIES: usize = 400;
    const CONVERSIONS: usize = 100;
    const COMPACTIONS: usize = 150;
    /// How many blocks the stores have whose blocks are all used or all free.
    const ORDERED: [usize; 6] = [1, 2, 3, 12, 64, MOST_BLOCKS];
    const STATES: usize = 60;
    const LENGTH_ROUNDS: usize = 15;

    pub fn main() -> ExitCode {
        let arguments: Vec<String> = std::env::args().skip(1).collect();
        let words: Vec<&str> = arguments.iter().map(String::as_str).collect();
        let outcome = match words.as_slice() {
            ["help" | "--help" | "-h"] => {
                print!("{HELP}");
                Ok(true)
            }
            ["replay", file] => run_script(file),
            [seed, seconds] => compare(seed, seconds, None),
            [seed, seconds, trace] => compare(seed, seconds, Some(trace)),
            _ => Err("bad arguments".to_string()),
        };
        match outcome {
            Ok(true) => ExitCode::SUCCESS,
            Ok(false) => ExitCode::from(1),
            Err(text) => {
                eprintln!("compare: {text} ('compare help' shows the usage)");
                ExitCode::from(2)
            }
        }
    }

    fn number(word: &str) -> Result<u64, String> {
        word.parse().map_err(|_| format!("'{word}' is not a number in range"))
    }

    fn run_script(file: &str) -> Result<bool, String> {
        let text = std::fs::read_to_string(file).map_err(|e| format!("cannot read {file}: {e}"))?;
        let script = Item::parse_script(&text)?;
        match replay(&script, &mut Sweep) {
            None => {
                println!("compare: ok");
                Ok(true)
            }
            Some((place, text)) => {
                println!("line {} ({}): {text}", place + 1, script[place]);
                Ok(false)
            }
        }
    }

    /// Keeps the script in hand in a file, if one was asked for.
    struct Trace(Option<File>);

    impl Trace {
        fn restart(&mut self) {
            if let Some(file) = &mut self.0 {
                let cut = file.set_len(0).and_then(|_| file.rewind());
                cut.expect("the trace file can be cut");
            }
        }

        fn line(&mut self, item: &Item) {
            if let Some(file) = &mut self.0 {
                writeln!(file, "{item}").expect("the trace file can be written");
            }
        }
    }

    fn compare(seed: &str, seconds: &str, trace: Option<&str>) -> Result<bool, String> {
        let (seed, seconds) = (number(seed)?, number(seconds)?);
        let file = match trace {
            None => None,
            Some(name) => {
                Some(File::create(name).map_err(|error| format!("cannot write {name}: {error}"))?)
            }
        };
        println!("seed {seed}, {seconds} seconds");
        let names: Vec<&str> =
            (0..CALLS).filter(|index| linked(*index)).map(|index| CALL_NAMES[index]).collect();
        println!("linked: {}", names.join(","));
        let mut run = Run {
            rng: Rng::new(seed),
            counts: Counts::default(),
            states: Vec::new(),
            histories: 0,
            short_histories: [0; Short::ALL.len()],
            many_copies: 0,
            twists: 0,
            conversions: 0,
            compactions: 0,
            terms_by_date: 0,
            days_by_date: 0,
            by_first_part: [0; 2],
            trace: Trace(file),
        };
        let outcome = run.all(Duration::from_secs(seconds));
        run.show();
        Ok(run.ends_well(outcome))
    }

    struct Run {
        rng: Rng,
        counts: Counts,
        /// Well-formed states to damage.
        states: Vec<Made>,
        histories: u64,
        /// In the order of `Short`.
        short_histories: [u64; Short::ALL.len()],
        /// Histories in which a panel command can make more than 255 copies.
        many_copies: u64,
        twists: u64,
        /// Well-formed stores whose older tables were converted, with wrong lengths and
        /// broken rules between.
        conversions: u64,
        /// Well-formed stores whose blocks stand in any order.
        compactions: u64,
        /// Terms set from every date, and days asked for then.
        terms_by_date: u64,
        days_by_date: u64,
        /// Damaged tables that the first part of the check accepts, and those
        /// that it refuses.
        by_first_part: [u64; 2],
        trace: Trace,
    }

    type Outcome = Result<(), Failure>;
    /// A kind of random history.
    type History<'a> = &'a dyn Fn(u64, &mut dyn Other, &mut Counts, Watch) -> Outcome;

    impl Run {
        fn all(&mut self, time: Duration) -> Outcome {
            let start = Instant::now();
            self.states = (0..STATES).map(|_| gen::made(&mut self.rng)).collect();
            self.always()?;
            while self.histories < 20 || start.elapsed() < time {
                self.round()?;
            }
            Ok(())
        }

        /// What is done however few the seconds are.
        fn always(&mut self) -> Outcome {
            for _ in 0..LENGTH_ROUNDS {
                self.wrong_lengths()?;
                self.wrong_registers()?;
                self.wrong_spares()?;
            }
            for _ in 0..PANEL_HISTORIES {
                self.short_history(Short::Panel)?;
            }
            for free in panel::LEFT_FREE {
                self.many_copies_history(free)?;
            }
            for rule in Rule::ALL {
                while self.damages_of(*rule) < DAMAGES_OF_EACH_RULE {
                    self.damaged(Some(*rule))?;
                }
            }
            for rule in Rule::ALL {
                for _ in 0..ALONE_OF_EACH_RULE {
                    self.broken_alone(*rule)?;
                }
            }
            for _ in 0..SCATTERED {
                self.scattered()?;
            }
            for _ in 0..GROUP_HISTORIES {
                self.short_history(Short::Groups)?;
            }
            for _ in 0..ROOM_HISTORIES {
                self.short_history(Short::Room)?;
            }
            for _ in 0..TERM_HISTORIES {
                self.short_history(Short::Terms)?;
            }
            for _ in 0..CONVERSIONS {
                self.converted()?;
            }
            for _ in 0..COMPACT_HISTORIES {
                self.short_history(Short::Compact)?;
            }
            for _ in 0..COMPACTIONS {
                self.compacted()?;
            }
            for _ in 0..MARKING_HISTORIES {
                self.short_history(Short::Marking)?;
            }
            for block_count in ORDERED {
                self.ordered(block_count)?;
            }
            self.every_date()
        }

        /// Some more of everything.
        fn round(&mut self) -> Outcome {
            self.history()?;
            for short in Short::ALL {
                self.short_history(short)?;
            }
            self.converted()?;
            self.compacted()?;
            for _ in 0..5 {
                self.damaged(None)?;
                self.twisted()?;
                self.scattered()?;
            }
            let rule = self.rng.pick(Rule::ALL);
            self.broken_alone(rule)?;
            if self.rng.percent(10) {
                self.new_state();
                self.wrong_lengths()?;
                self.wrong_registers()?;
                self.wrong_spares()?;
                let block_count = self.rng.pick(&ORDERED);
                self.ordered(block_count)?;
                let free = self.rng.pick(&panel::LEFT_FREE);
                self.many_copies_history(free)?;
            }
            Ok(())
        }

        fn damages_of(&self, rule: Rule) -> u64 {
            self.counts.damages.get(&rule).copied().unwrap_or(0)
        }

        fn new_state(&mut self) {
            let place = self.rng.below(STATES);
            self.states[place] = gen::made(&mut self.rng);
        }

        /// (a) A whole random history.
        fn history(&mut self) -> Outcome {
            self.histories += 1;
            self.one_history(&any_history)
        }

        /// A short history that begins in this way.
        fn short_history(&mut self, short: Short) -> Outcome {
            self.short_histories[short as usize] += 1;
            self.one_history(&|seed, other, counts, watch| {
                short_history(short, seed, other, counts, watch)
            })
        }

        fn many_copies_history(&mut self, free: usize) -> Outcome {
            self.many_copies += 1;
            self.one_history(&|seed, other, counts, watch| {
                many_copies_history(seed, free, other, counts, watch)
            })
        }

        fn one_history(&mut self, history: History) -> Outcome {
            let seed = self.rng.word();
            self.trace.restart();
            let trace = &mut self.trace;
            history(seed, &mut Sweep, &mut self.counts, &mut |item| trace.line(item))
        }

        /// (b) Damaged tables: every linked call on them.
        fn damaged(&mut self, rule: Option<Rule>) -> Outcome {
            let made = self.rng.pick(&self.states);
            let mut tables = made.tables.clone();
            match rule {
                Some(rule) if !gen::damage_rule(&mut self.rng, &mut tables, rule) => {
                    // No place for this damage here: another state comes.
                    if self.rng.percent(5) {
                        self.new_state();
                    }
                    return Ok(());
                }
                Some(_) => {}
                None => {
                    self.counts.flips +=
                        u64::from(gen::damage(&mut self.rng, &mut tables).is_none())
                }
            }
            self.count_damage(&tables, made.pages.len());
            let mut script = script_to(&made, &tables, &made.pages);
            let mut bench = Bench::with(tables, made.pages.clone());
            // A block count out of range, but as many pages.
            if rule == Some(Rule::BlockCount) && self.rng.percent(50) {
                let length = State::unpack(bench.tables()).block_count * PAGE_BYTES;
                self.do_item(&mut bench, &mut script, length_of(Buffer::Pages, length))?;
            }
            let items = self.each_call(&made.style, &made.beside);
            self.items_on(bench, script, items)
        }

        fn count_damage(&mut self, tables: &[u8], pages_length: usize) {
            let broken = rules_broken(tables, pages_length);
            if !broken.is_empty() {
                let refused = broken.iter().any(|rule| rule.is_first_part());
                self.by_first_part[usize::from(refused)] += 1;
            }
            for rule in broken {
                *self.counts.damages.entry(rule).or_default() += 1;
            }
        }

        /// A store in which one rule is broken alone: every linked call on it, and the
        /// check, linked or not.
        fn broken_alone(&mut self, rule: Rule) -> Outcome {
            let broke = gen::break_alone(&mut self.rng, rule);
            self.count_damage(&broke.tables, broke.pages.len());
            let script = script_to(&broke.made, &broke.tables, &broke.pages);
            let mut items = self.each_call(&broke.made.style, &broke.made.beside);
            items.insert(0, Item::Call(Call::Check {}));
            self.items_on(Bench::with(broke.tables, broke.pages), script, items)
        }

        /// Entries in any records, and what the first part of the check does
        /// not look at: every linked call on them.
        fn scattered(&mut self) -> Outcome {
            let made = self.rng.pick(&self.states);
            let mut tables = made.tables.clone();
            gen::scatter(&mut self.rng, &mut tables);
            self.count_damage(&tables, made.pages.len());
            let script = script_to(&made, &tables, &made.pages);
            let items = self.each_call(&made.style, &made.beside);
            self.items_on(Bench::with(tables, made.pages), script, items)
        }

        /// Well-formed stores that no history need reach: some linked calls on
        /// each.
        fn twisted(&mut self) -> Outcome {
            let made = self.rng.pick(&self.states);
            let (mut tables, mut pages) = (made.tables.clone(), made.pages.clone());
            gen::twist(&mut self.rng, &mut tables, &mut pages);
            self.twists += 1;
            let script = script_to(&made, &tables, &pages);
            let beside = read_off(&State::unpack(&tables), &pages);
            let mut turns = Vec::new();
            for _ in 0..3 {
                turns.extend(self.turns(&made.style, &beside));
            }
            if linked(CONVERT) {
                turns.push(terms::any_conversion(&mut self.rng));
            }
            self.rng.shuffle(&mut turns);
            self.items_on(Bench::with(tables, pages), script, turns.concat())
        }

        /// Older tables of a well-formed store: conversions of them, and of what wrong
        /// lengths and broken rules make of them.
        fn converted(&mut self) -> Outcome {
            let made = self.rng.pick(&self.states);
            let (mut tables, mut pages) = (made.tables.clone(), made.pages.clone());
            if self.rng.percent(50) {
                gen::twist(&mut self.rng, &mut tables, &mut pages);
            }
            self.conversions += 1;
            let script = script_to(&made, &tables, &pages);
            let items = terms::conversions(&mut self.rng, &tables, pages.len());
            self.items_on(Bench::with(tables, pages), script, items)
        }

        /// A well-formed store whose blocks stand in any order: compactions of it, and
        /// some linked calls before and between them.
        fn compacted(&mut self) -> Outcome {
            let made = self.rng.pick(&self.states);
            let (mut tables, mut pages) = (made.tables.clone(), made.pages.clone());
            if self.rng.percent(50) {
                gen::twist(&mut self.rng, &mut tables, &mut pages);
            }
            let order = self.rng.pick(&Order::ALL);
            compact::reorder(&mut self.rng, &mut tables, order);
            self.compactions += 1;
            let script = script_to(&made, &tables, &pages);
            let beside = read_off(&State::unpack(&tables), &pages);
            let mut items = Vec::new();
            for _ in 0..2 {
                items.extend(compact::compaction(&mut self.rng));
                items.extend(self.turns(&made.style, &beside).concat());
            }
            items.extend(compact::compaction(&mut self.rng));
            self.items_on(Bench::with(tables, pages), script, items)
        }

        /// Compactions of an empty store, and of full ones in each order, those that
        /// cost most among them.
        fn ordered(&mut self, block_count: usize) -> Outcome {
            let [compaction, check] = [Call::Compact {}, Call::Check {}].map(Item::Call);
            let format = Item::Call(Call::Format { pages_length: block_count * PAGE_BYTES });
            let made = compact::full_store(&mut self.rng, block_count);
            self.items_on(Bench::new(), Vec::new(), vec![format, compaction.clone()])?;
            for order in Order::ALL {
                let mut tables = made.tables.clone();
                compact::reorder(&mut self.rng, &mut tables, order);
                self.compactions += 1;
                let script = script_to(&made, &tables, &made.pages);
                let mut items = compact::compaction(&mut self.rng);
                items.extend([check.clone(), compaction.clone()]);
                self.items_on(Bench::with(tables, made.pages.clone()), script, items)?;
            }
            Ok(())
        }

        /// Every date of the hundred years with every count of months: the library's
        /// tables are compared with the dates counted day by day. For one count of each
        /// date, and for all counts of the first and the last days of some years' months,
        /// the days at the edges of the term are asked for.
        fn every_date(&mut self) -> Outcome {
            let Some(mut dated) = Dated::new(&mut self.trace) else { return Ok(()) };
            for day in 0..DAYS {
                let date = date_of(day);
                for months in 1..=120 {
                    dated.term(date, months)?;
                    let asked = months == 1 + (day as u32 * 7) % 120;
                    if asked {
                        dated.days_at_first()?;
                    }
                    if asked || is_edge(&date) {
                        dated.days_at_end()?;
                    }
                }
            }
            let Dated { terms, days, .. } = dated;
            (self.terms_by_date, self.days_by_date) = (terms, days);
            Ok(())
        }

        /// A turn of each linked kind but format and the converter, in any order, with
        /// numbers in range and out of it. Panel accesses sometimes find any bytes in the
        /// registers.
        fn turns(&mut self, style: &Style, beside: &Beside) -> Vec<Vec<Item>> {
            let mut style = style.clone();
            style.wild = self.rng.pick(&[0, 0, 10, 50, 100]);
            let indices = (1..CALLS).filter(|index| linked(*index) && *index != CONVERT);
            let turn_of = |index| panel::turn_of(&mut self.rng, &style, beside, index);
            let mut turns: Vec<Vec<Item>> = indices.map(turn_of).collect();
            if self.rng.percent(30) {
                turns.push(panel::any_registers(&mut self.rng));
            }
            self.rng.shuffle(&mut turns);
            turns
        }

        /// Such turns one after the other, a conversion, which may mend the tables, and a
        /// format last.
        fn each_call(&mut self, style: &Style, beside: &Beside) -> Vec<Item> {
            let mut items = self.turns(style, beside).concat();
            if linked(CONVERT) {
                items.extend(terms::any_conversion(&mut self.rng));
            }
            if linked(0) {
                items.extend(panel::turn_of(&mut self.rng, style, beside, 0));
            }
            items
        }

        /// (c) Wrong lengths of tables and pages, and the largest numbers.
        fn wrong_lengths(&mut self) -> Outcome {
            let made = self.rng.pick(&self.states);
            let right = made.pages.len();
            let tables = [
                TABLES_BYTES,
                0,
                1,
                OLDER_TABLES_BYTES,
                TABLES_BYTES - 1,
                TABLES_BYTES + 1,
                100_000,
            ];
            let pages = [right, 0, 1, right - 1, right + 1, right - 512, right + 512, 3_000_000];
            let mut pairs: Vec<(usize, usize)> = tables.iter().map(|t| (*t, right)).collect();
            pairs.extend(pages.iter().map(|p| (TABLES_BYTES, *p)));
            pairs.push((self.rng.pick(&tables), self.rng.pick(&pages)));
            for (tables_length, pages_length) in pairs {
                let mut script: Vec<Item> = made.calls.iter().cloned().map(Item::Call).collect();
                let mut bench = Bench::with(made.tables.clone(), made.pages.clone());
                bench.beside = Some(made.beside.clone());
                let lengths = [(Buffer::Tables, tables_length), (Buffer::Pages, pages_length)];
                for (buffer, length) in lengths {
                    if (tables_length, pages_length) != (TABLES_BYTES, right) {
                        self.do_item(&mut bench, &mut script, length_of(buffer, length))?;
                    }
                }
                let mut items = self.each_call(&made.style, &made.beside);
                items.extend(self.each_call(&made.style, &made.beside));
                if linked(0) {
                    items.push(Item::Call(Call::Format { pages_length }));
                }
                self.items_on(bench, script, items)?;
            }
            self.older_tables()
        }

        /// The tables that a store had before Ask 8: every linked call on them, and the
        /// check, linked or not.
        fn older_tables(&mut self) -> Outcome {
            let made = self.rng.pick(&self.states);
            let older = narrowed(&made.tables);
            let script = script_to(&made, &older, &made.pages);
            let mut items = self.each_call(&made.style, &made.beside);
            items.insert(0, Item::Call(Call::Check {}));
            self.items_on(Bench::with(older, made.pages), script, items)
        }

        /// Wrong lengths of registers and offsets that no register has, on tables
        /// of right and of wrong length: every linked call of the panel.
        fn wrong_registers(&mut self) -> Outcome {
            let made = self.rng.pick(&self.states);
            for registers_length in panel::WRONG_LENGTHS.into_iter().chain([16]) {
                let script: Vec<Item> = made.calls.iter().cloned().map(Item::Call).collect();
                let mut bench = Bench::with(made.tables.clone(), made.pages.clone());
                bench.beside = Some(made.beside.clone());
                let mut items = vec![length_of(Buffer::Registers, registers_length)];
                for tables_length in [TABLES_BYTES, TABLES_BYTES - 1] {
                    items.push(length_of(Buffer::Tables, tables_length));
                    for offset in panel::WRONG_OFFSETS.into_iter().chain([0, 15]) {
                        items.extend(self.panel_calls(offset));
                    }
                }
                self.items_on(bench, script, items)?;
            }
            Ok(())
        }

        /// Wrong lengths of the spare page, on tables and pages of right and of wrong
        /// lengths, and on damaged tables.
        fn wrong_spares(&mut self) -> Outcome {
            let made = self.rng.pick(&self.states);
            for spare in compact::WRONG_SPARES.into_iter().chain([PAGE_BYTES]) {
                let script: Vec<Item> = made.calls.iter().cloned().map(Item::Call).collect();
                let bench = Bench::with(made.tables.clone(), made.pages.clone());
                let items = compact::compactions_with(&mut self.rng, spare, made.pages.len());
                self.items_on(bench, script, items)?;
            }
            Ok(())
        }

        /// A call of each linked kind of the panel's, those with an offset at this
        /// one.
        fn panel_calls(&mut self, offset: u32) -> Vec<Item> {
            let value = self.rng.pick(&[1, 4, 5, 6, 7, 0x11, 0xFF]);
            let mut calls = vec![
                Call::PanelWrite { offset, value },
                Call::PanelRead { offset },
                Call::PanelLine {},
                Call::PanelReset {},
            ];
            self.rng.shuffle(&mut calls);
            calls.retain(|call| linked(call.index()));
            calls.into_iter().map(Item::Call).collect()
        }

        fn items_on(
            &mut self,
            mut bench: Bench,
            mut script: Vec<Item>,
            items: Vec<Item>,
        ) -> Outcome {
            self.trace.restart();
            for item in &script {
                self.trace.line(item);
            }
            for item in items {
                self.do_item(&mut bench, &mut script, item)?;
            }
            Ok(())
        }

        fn do_item(&mut self, bench: &mut Bench, script: &mut Vec<Item>, item: Item) -> Outcome {
            self.trace.line(&item);
            script.push(item.clone());
            std::mem::swap(&mut bench.counts, &mut self.counts);
            let outcome = bench.step(&item, &mut Sweep);
            std::mem::swap(&mut bench.counts, &mut self.counts);
            match outcome {
                Ok(_) => Ok(()),
                Err(text) => Err(Failure { text, script: script.clone() }),
            }
        }

        fn show(&self) {
            let counts = &self.counts;
            let [groups, panel, room, terms, compact, marking] = self.short_histories;
            println!(
                "histories {}, short ones with writes by groups {groups}, through the panel {panel}, \
                with many copies {}, for the room of a write {room}, with terms {terms}, \
                with compactions {compact}, with marking in stores nearly full {marking}",
                self.histories, self.many_copies
            );
            println!("stores converted {}", self.conversions);
            println!("stores with blocks in any order {}", self.compactions);
            println!("terms set by date {}, days asked {}", self.terms_by_date, self.days_by_date);
            println!("well-formed stores changed by hand {}", self.twists);
            for (index, name) in CALL_NAMES.iter().enumerate() {
                println!(
                    "calls {name} {}, of the library {}",
                    counts.calls[index], counts.linked[index]
                );
            }
            for (number, calls) in counts.numbers.iter().enumerate() {
                println!("number {number} {calls}");
            }
            println!("copies {}, files marked {}", counts.copies, counts.files_marked);
            println!("blocks handed over {} in {} calls", counts.handed_over, counts.handing_calls);
            for rule in Rule::ALL {
                println!("damage {} {}", rule.name(), self.damages_of(*rule));
            }
            println!("damages by random bit flips {}", counts.flips);
            let [accepted, refused] = self.by_first_part;
            println!("damaged tables that the first part accepts {accepted}, refuses {refused}");
            println!("accepted reads compared with the library {}", counts.reads_linked);
            println!("accepted reads compared with plain store and tally {}", counts.reads_beside);
            println!("writes judged by the room they take {}", counts.room);
            println!("calls of terms {}", counts.terms);
            println!("compactions {}", counts.compactions);
            println!("blocks freed by marking {} in calls {}", counts.freed, counts.markings);
            writes::show("the library", &counts.writes_linked);
            writes::show("plain store and tally", &counts.writes_beside);
            accesses::show("the library", &counts.panel_linked);
        }

        /// Says how the run ended: well, if there was no difference and some write met
        /// each case of the room that a write can take, and some call each case of terms,
        /// of compactions and of marking.
        fn ends_well(&self, outcome: Outcome) -> bool {
            let counts = &self.counts;
            let of_calls = [counts.terms.unmet(), counts.compactions.unmet()].concat();
            let unmet = [counts.room.unmet(), of_calls, counts.markings.unmet()].concat();
            match outcome {
                Err(failure) => {
                    println!("compare: DIFFERENCE: {}", failure.text);
                    println!("shortened: {}", report(&failure.script, &mut Sweep));
                    false
                }
                Ok(()) if !unmet.is_empty() => {
                    println!("compare: NOT MET by any call: {}", unmet.join("; "));
                    false
                }
                Ok(()) => {
                    println!("compare: ok");
                    true
                }
            }
        }
    }

    /// The first and the last day of a month in 1998 to 2001, four years that come again
    /// and again, and in 2096 and 2097.
    fn is_edge(date: &Date) -> bool {
        let year = matches!(date.year, 1998..=2001 | 2096 | 2097);
        year && (date.day == 1 || date.day >= 28)
    }

    /// A store of one block, lent to the library for one term after the other. The
    /// bench would be too slow for so many.
    struct Dated<'a> {
        trace: &'a mut Trace,
        lent: Guarded,
        /// The tables that the library must leave.
        wanted: Buffers,
        /// The call that set the term, and this term.
        set: Call,
        term: (u32, u32),
        terms: u64,
        days: u64,
    }

    impl Dated<'_> {
        /// None where the library cannot set terms.
        fn new(trace: &mut Trace) -> Option<Dated<'_>> {
            if !linked(SET_TERM) {
                return None;
            }
            let mut wanted = Buffers::default();
            wanted[Buffer::Tables] = State::formatted(1).packed();
            wanted[Buffer::Pages] = vec![0; PAGE_BYTES];
            let (lent, set) = (Guarded::new(&wanted), Call::Free {});
            Some(Dated { trace, lent, wanted, set, term: (0, 36_525), terms: 0, days: 0 })
        }

        /// Sets the term of set 0.
        fn term(&mut self, date: Date, months: u32) -> Outcome {
            let Date { year, month, day } = date;
            let first = day_number(date).expect("the date exists");
            let end = end_day(date, months);
            let bytes = [first >> 8, first & 255, end >> 8, end & 255].map(|byte| byte as u8);
            self.wanted[Buffer::Tables][519..523].copy_from_slice(&bytes);
            self.terms += 1;
            self.term = (first as u32, end as u32);
            self.set = Call::SetTerm { set: 0, year, month, day, months };
            self.run(&self.set.clone(), Answer::default())
        }

        fn days_at_first(&mut self) -> Outcome {
            let (first, _) = self.term;
            if first > 0 {
                self.day(first - 1, 0)?;
            }
            self.day(first, 1)
        }

        fn days_at_end(&mut self) -> Outcome {
            let (_, end) = self.term;
            self.day(end - 1, 1)?;
            self.day(end, 0)
        }

        /// Asks for a day, if the library can tell it.
        fn day(&mut self, day: u32, is_current: u32) -> Outcome {
            if !linked(CURRENT) {
                return Ok(());
            }
            self.days += 1;
            self.run(&Call::Current { set: 0, day }, Answer::accepted([is_current, 0, 0]))
        }

        /// Does a call, and compares its answer and every byte. Its script is the term and
        /// the call.
        fn run(&mut self, call: &Call, wanted: Answer) -> Outcome {
            let format = Call::Format { pages_length: PAGE_BYTES };
            let script = [&format, &self.set, call].map(|call| Item::Call(call.clone()));
            self.trace.restart();
            script.iter().for_each(|item| self.trace.line(item));
            let found = Sweep.run(call.index(), &call.numbers(), self.lent.lend());
            let bytes = self.lent.compare(call.row(), true, &mut self.wanted);
            let same = match found == wanted {
                true => bytes,
                false => Err(format!("the answer is {found}; by the date it is {wanted}")),
            };
            let failure =
                |text| Failure { text: format!("{call}: {text}"), script: script.to_vec() };
            same.map_err(failure)
        }
    }

    /// The calls that made a store, and the lines that then make another of it.
    fn script_to(made: &Made, tables: &[u8], pages: &[u8]) -> Vec<Item> {
        let mut script: Vec<Item> = made.calls.iter().cloned().map(Item::Call).collect();
        script.extend(pokes(Buffer::Tables, &made.tables, tables));
        script.extend(pokes(Buffer::Pages, &made.pages, pages));
        script
    }
}
