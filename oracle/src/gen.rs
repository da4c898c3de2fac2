//! Random calls, histories, well-formed states and damages. Those of the panel are
//! in `gen::panel`, those of terms and conversions in `gen::terms`, those of compactions
//! in `gen::compact`.

pub mod compact;
pub mod panel;
pub mod terms;

use crate::bits::put_field;
use crate::call::*;
use crate::check::{check_state, rules_broken, Rule};
use crate::conversion::narrowed;
use crate::judge::Beside;
use crate::maps::Resolved;
use crate::rng::Rng;
use crate::room::{self, Taken};
use crate::state::*;
use crate::store;
use crate::tally::{Condition, TallyKind};
use std::collections::BTreeSet;

/// Places in `CALL_NAMES`: the calls that panel commands run, and the panel's own.
const CREATE: usize = 1;
const DELETE: usize = 5;
const MAKE: usize = 6;
const REMOVE: usize = 7;
const PANEL_RESET: usize = 13;
const PANEL_READ: usize = 14;
const PANEL_WRITE: usize = 15;
const PANEL_LINE: usize = 16;
/// The places of the calls of terms.
pub const SET_TERM: usize = 17;
pub const CURRENT: usize = 18;
pub const CONVERT: usize = 19;
/// The place of compaction.
pub const COMPACT: usize = 20;
/// The places of the three kinds of write.
const WRITE: usize = 2;
const WRITE_NARROW: usize = 12;
const WRITE_GROUPS: usize = 21;
const WRITES: [usize; 3] = [WRITE, WRITE_NARROW, WRITE_GROUPS];

/// Group sizes that are used most: some divide 64, with others the last group is
/// short.
pub const GROUP_SIZES: [usize; 11] = [1, 2, 3, 5, 7, 8, 13, 31, 33, 63, 64];

/// What a history is fond of.
#[derive(Clone, Debug)]
pub struct Style {
    pub block_count: usize,
    /// File numbers used most.
    pub files: Vec<u32>,
    /// Pages where writes mostly begin.
    pub pages: Vec<usize>,
    /// Percent of sets made from the deepest set.
    pub deep: usize,
    /// Percent of the others made from a set with stored pages, so that there
    /// are children that need them.
    pub wide: usize,
    /// Percent of arguments out of range.
    pub wild: usize,
    /// How often each call of `CALL_NAMES` comes. Those of the panel come by
    /// `panel` alone, conversions by `convert` alone.
    pub weights: [usize; CALLS],
    /// Percent of turns that are conversions.
    pub convert: usize,
    /// Percent of turns that are accesses of the panel.
    pub panel: usize,
    /// Percent of writes of several pages.
    pub long: usize,
    /// Percent of writes that leave no block free, or only one or two.
    pub filling: usize,
}

/// Calls that begin a history, and the style of those that follow.
pub struct Start {
    pub style: Style,
    pub calls: Vec<Call>,
    /// Then calls that drop pages of a family or write them, or reads through a
    /// line, if one was made.
    pub then: Vec<Call>,
}

/// A store's size: mostly 1 to 12 blocks, sometimes 64, seldom 4,096.
pub fn block_count(rng: &mut Rng) -> usize {
    match rng.below(100) {
        0..=71 => rng.between(1, 12),
        72..=97 => 64,
        _ => MOST_BLOCKS,
    }
}

fn style(rng: &mut Rng, block_count: usize) -> Style {
    let fond_files = rng.between(1, 3);
    let fond_pages = rng.between(1, 4);
    // format create write read trunc delete make remove size free check-blocks
    // check write-narrow, the panel's four, set-term current convert compact,
    // write-groups
    let weights = rng.pick(&[
        [1, 30, 80, 60, 80, 30, 110, 40, 15, 10, 5, 5, 70, 0, 0, 0, 0, 20, 15, 0, 10, 70],
        [1, 40, 60, 40, 120, 50, 90, 40, 10, 10, 5, 5, 60, 0, 0, 0, 0, 20, 10, 0, 20, 40],
        [2, 30, 50, 60, 60, 30, 200, 60, 20, 10, 5, 5, 50, 0, 0, 0, 0, 40, 30, 0, 10, 50],
        [0, 60, 90, 20, 60, 70, 80, 20, 5, 5, 3, 3, 80, 0, 0, 0, 0, 5, 5, 0, 5, 80],
        [0, 70, 50, 10, 100, 100, 120, 20, 5, 5, 3, 3, 50, 0, 0, 0, 0, 5, 5, 0, 10, 40],
    ]);
    Style {
        block_count,
        files: (0..fond_files).map(|_| rng.below(FILES) as u32).collect(),
        pages: (0..fond_pages).map(|_| rng.pick(&[0, 0, 0, 1, 1, 2, 3, 31, 62, 63])).collect(),
        deep: rng.pick(&[0, 10, 30, 60, 90]),
        wide: rng.pick(&[0, 50, 80]),
        wild: rng.pick(&[0, 2, 5, 12]),
        weights,
        convert: rng.pick(&[0, 0, 1, 3]),
        panel: rng.pick(&[0, 5, 10, 20]),
        long: rng.pick(&[5, 20, 60]),
        filling: rng.pick(&[0, 0, 5, 20]),
    }
}

/// A format, and often calls that make a family (see `family_calls`,
/// `short_calls`, `group_calls` and `marking_calls`) or a line (see `line_calls`) or, in larger
/// stores, calls that fill them nearly.
pub fn start(rng: &mut Rng, block_count: usize) -> Start {
    let style = style(rng, block_count);
    let (more, then) = match rng.below(100) {
        0..=21 if block_count <= 64 => family_calls(rng, &style),
        22..=36 if block_count <= 64 => marking_calls(rng, &style),
        37..=56 if block_count <= 64 => short_calls(rng, &style),
        57..=67 if block_count <= 64 => line_calls(rng, &style),
        68..=88 if block_count <= 64 => group_calls(rng, &style),
        _ if block_count > 12 && rng.percent(75) => (fill_calls(rng, block_count), Vec::new()),
        _ => (Vec::new(), Vec::new()),
    };
    begin(style, more, then)
}

/// A format, and calls that make a family for writes by groups (see
/// `group_calls`).
pub fn group_start(rng: &mut Rng, block_count: usize) -> Start {
    let style = style(rng, block_count);
    let (more, then) = group_calls(rng, &style);
    begin(style, more, then)
}

/// A format, and calls that make a family for the room that a write can take (see
/// `room_calls`).
pub fn room_start(rng: &mut Rng, block_count: usize) -> Start {
    let style = style(rng, block_count);
    let (more, then) = room_calls(rng, &style);
    begin(style, more, then)
}

/// A format, and calls that make a family for marking (see `marking_calls`).
pub fn marking_start(rng: &mut Rng, block_count: usize) -> Start {
    let style = style(rng, block_count);
    let (more, then) = marking_calls(rng, &style);
    begin(style, more, then)
}

fn begin(style: Style, more: Vec<Call>, then: Vec<Call>) -> Start {
    let mut calls = vec![Call::Format { pages_length: style.block_count * PAGE_BYTES }];
    calls.extend(more);
    Start { style, calls, then }
}

/// Calls in the making, all of them accepted.
struct Scene {
    beside: Beside,
    calls: Vec<Call>,
    file: u32,
    /// The pages written, ascending.
    pages: Vec<usize>,
    /// Numbers of sets not made yet.
    unused: Vec<u32>,
}

impl Scene {
    fn new(rng: &mut Rng, style: &Style) -> Scene {
        let first = rng.pick(&style.pages).min(PAGES - 4);
        let mut pages: Vec<usize> = (first..first + 4).filter(|_| rng.percent(60)).collect();
        pages.push(first + rng.below(4));
        pages.sort();
        let mut unused: Vec<u32> = (1..SETS as u32).collect();
        rng.shuffle(&mut unused);
        Scene {
            beside: Beside::format(style.block_count),
            calls: Vec::new(),
            file: rng.pick(&style.files),
            pages,
            unused,
        }
    }

    /// Adds a call if it is accepted.
    fn add(&mut self, call: Call) {
        if self.beside.step(&call).0.number == 0 {
            self.calls.push(call);
        }
    }

    /// The start of one of the pages, often of the first.
    fn start_of_a_page(&self, rng: &mut Rng) -> u32 {
        let page = if rng.percent(40) { self.pages[0] } else { rng.pick(&self.pages) };
        (page * PAGE_BYTES) as u32
    }

    fn write_a_page(&mut self, rng: &mut Rng, set: u32) {
        let start = self.start_of_a_page(rng);
        self.write(rng, set, start);
    }

    /// Writes the page that starts here, mostly whole. The write is narrow, so
    /// that the children's other pages stay as they are.
    fn write(&mut self, rng: &mut Rng, set: u32, start: u32) {
        let (within, length) = rng.pick(&[(0, 512), (0, 512), (0, 100), (100, 412), (511, 1)]);
        let target = (set, self.file);
        self.add(write_call(rng, WRITE_NARROW, target, start + within, length));
    }

    fn make(&mut self, parent: u32, writeable: u32) -> Option<u32> {
        let set = self.unused.pop()?;
        self.add(Call::Make { parent, set, writeable });
        Some(set)
    }
}

/// Calls that make a family: a file with stored pages in set 0 or in the middle
/// of the tree, up to seven children of its set that need them, changed in
/// different ways, and few blocks free. Then calls that cut or delete this file,
/// so that its blocks are handed over, and perhaps some other files of its
/// number.
fn family_calls(rng: &mut Rng, style: &Style) -> (Vec<Call>, Vec<Call>) {
    let mut scene = Scene::new(rng, style);
    let set = make_ancestors(rng, &mut scene);
    let children = rng.pick(&[2, 2, 3, 3, 4, 5, 6, 7, 7, 7]);
    make_children(rng, &mut scene, set, children);
    let leave = rng.pick(&[0, 0, 0, 1, 2, 3, 6, 12, 24]);
    fill_up(rng, &mut scene, leave);
    let calls = std::mem::take(&mut scene.calls);
    drop_pages(rng, &mut scene, set);
    for _ in 0..rng.below(3) {
        let set = rng.pick(&used_sets(&scene.beside));
        drop_pages(rng, &mut scene, set);
    }
    (calls, scene.calls)
}

/// Deletes the file of a set or cuts it, often inside one of its pages.
fn drop_pages(rng: &mut Rng, scene: &mut Scene, set: u32) {
    let file = scene.file;
    if rng.percent(50) {
        scene.add(Call::Delete { set, file });
    } else {
        let size = scene.start_of_a_page(rng) + rng.pick(&[0, 0, 1, 100, 511]);
        scene.add(Call::Truncate { set, file, size });
    }
}

/// Sets from set 0 down, each page of the file written in one of them or in
/// two; gives the last one.
fn make_ancestors(rng: &mut Rng, scene: &mut Scene) -> u32 {
    let depth = rng.pick(&[0, 0, 0, 1, 1, 2, 3]);
    make_ancestors_down_to(rng, scene, depth)
}

fn make_ancestors_down_to(rng: &mut Rng, scene: &mut Scene, depth: usize) -> u32 {
    let levels: Vec<usize> = scene.pages.iter().map(|_| rng.between(0, depth)).collect();
    let mut set = 0;
    scene.add(Call::Create { set, file: scene.file });
    for level in 0..=depth {
        if level > 0 {
            set = scene.make(set, 1).expect("an unused number");
        }
        for (page, its_level) in scene.pages.clone().into_iter().zip(&levels) {
            if *its_level == level || rng.percent(15) {
                scene.write(rng, set, (page * PAGE_BYTES) as u32);
            }
        }
    }
    scene.write_a_page(rng, set);
    set
}

/// So many children of the set, as far as numbers are left: some read-only, some
/// with pages of their own, with a file deleted or with children; and pages
/// written in the set meanwhile.
fn make_children(rng: &mut Rng, scene: &mut Scene, set: u32, count: usize) {
    let mut made = Vec::new();
    for _ in 0..count {
        made.extend(scene.make(set, rng.pick(&[0, 1, 1])));
        if rng.percent(15) {
            scene.write_a_page(rng, set);
        }
    }
    for child in made {
        match rng.below(10) {
            0..=3 => scene.write_a_page(rng, child),
            4 => scene.add(Call::Delete { set: child, file: scene.file }),
            5 | 6 => drop(scene.make(child, rng.pick(&[0, 1]))),
            _ => {}
        }
    }
}

/// Another file of set 0 takes all free blocks but so many, from its first page on that is
/// not stored.
fn fill_up(rng: &mut Rng, scene: &mut Scene, leave: usize) {
    let file = (scene.file + 1) % FILES as u32;
    scene.add(Call::Create { set: 0, file });
    let kinds = &scene.beside.tally.file(0, file as usize).kinds;
    let first = kinds.iter().position(|kind| *kind != TallyKind::Stored).unwrap_or(PAGES);
    let pages = scene.beside.tally.free.saturating_sub(leave).min(PAGES - first);
    let (offset, length) = ((first * PAGE_BYTES) as u32, pages * PAGE_BYTES);
    let seed = data_seed(rng);
    scene.add(Call::Write { set: 0, file, offset, length, seed });
}

/// Calls that make a family short of blocks: children that lack one page, then
/// one that has it, and all lack a later page. Then a call that cuts the file
/// inside the first page, or, if it reads that page through its parent, deletes
/// it: the first children are marked, and the block of the later page passes
/// them over.
fn short_calls(rng: &mut Rng, style: &Style) -> (Vec<Call>, Vec<Call>) {
    let mut scene = Scene::new(rng, style);
    let file = scene.file;
    let start = (scene.pages[0] * PAGE_BYTES) as u32;
    let reads_through = rng.percent(50);
    let set = make_short_parent(rng, &mut scene, start, reads_through);
    for _ in 0..rng.between(1, 3) {
        scene.make(set, rng.pick(&[0, 1]));
    }
    let able = scene.make(set, 1).expect("an unused number");
    scene.write(rng, able, start);
    for _ in 0..rng.below(3) {
        scene.make(set, rng.pick(&[0, 1]));
    }
    let leave = rng.pick(&[0, 0, 0, 1]);
    fill_up(rng, &mut scene, leave);
    let size = start + rng.pick(&[1, 100, 511]);
    let drop = match reads_through {
        true => Call::Delete { set, file },
        false => Call::Truncate { set, file, size },
    };
    (scene.calls, vec![drop])
}

/// A set whose file has a later page stored, and the page that starts here
/// stored too or read through the parent.
fn make_short_parent(rng: &mut Rng, scene: &mut Scene, start: u32, reads_through: bool) -> u32 {
    let mut set = 0;
    scene.add(Call::Create { set, file: scene.file });
    scene.write(rng, set, start);
    if reads_through || rng.percent(20) {
        set = scene.make(set, 1).expect("an unused number");
    }
    if !reads_through {
        scene.write(rng, set, start);
    }
    let later = start + rng.pick(&[512, 512, 1_024]);
    scene.write(rng, set, later);
    set
}

/// Calls that make a line: a set made from set 0, one from that, and so on,
/// often down to level 5. In some of them a page of one file is written, or the
/// file is cut and lengthened again, which leaves holes. So its pages are found
/// after different numbers of maps. Then reads of this file.
fn line_calls(rng: &mut Rng, style: &Style) -> (Vec<Call>, Vec<Call>) {
    let mut scene = Scene::new(rng, style);
    let file = scene.file;
    let mut line = vec![0];
    scene.add(Call::Create { set: 0, file });
    for page in scene.pages.clone() {
        scene.write(rng, 0, (page * PAGE_BYTES) as u32);
    }
    for level in 0..rng.pick(&[2, 3, 4, HIGHEST_LEVEL, HIGHEST_LEVEL, HIGHEST_LEVEL]) {
        let set = scene.make(line[level], rng.pick(&[0, 1, 1, 1])).expect("an unused number");
        line.push(set);
        match rng.below(6) {
            0..=2 => scene.write_a_page(rng, set),
            3 => cut_and_lengthen(rng, &mut scene, set),
            _ => {}
        }
    }
    let calls = std::mem::take(&mut scene.calls);
    for _ in 0..rng.between(4, 10) {
        let set = if rng.percent(40) { line[line.len() - 1] } else { rng.pick(&line) };
        scene.add(read_call(rng, style, &scene.beside, (set, file)));
    }
    (calls, scene.calls)
}

/// Cuts the file of a set and gives it the size that it had, or another.
fn cut_and_lengthen(rng: &mut Rng, scene: &mut Scene, set: u32) {
    let file = scene.file;
    let old_size = size_of(&scene.beside, set, file) as u32;
    let size = scene.start_of_a_page(rng) + rng.pick(&[0, 0, 100]);
    scene.add(Call::Truncate { set, file, size });
    scene.add(Call::Truncate { set, file, size: rng.pick(&[old_size, size + 600, size + 2_000]) });
}

/// Calls that make a family for writes by groups: a file with stored pages and
/// holes on both sides of a group's edge or among the last of its 64 pages,
/// children of its set that need them, changed in different ways, and few blocks
/// free. Then writes of all kinds, of these pages and of pages beside them.
fn group_calls(rng: &mut Rng, style: &Style) -> (Vec<Call>, Vec<Call>) {
    let mut scene = Scene::new(rng, style);
    scene.pages = group_pages(rng, style.block_count);
    let mut set = make_ancestors(rng, &mut scene);
    match rng.below(4) {
        0 => cut_and_lengthen(rng, &mut scene, set),
        // A virgin file, which reads all pages through its parent.
        1 => set = scene.make(set, 1).expect("an unused number"),
        _ => {}
    }
    let children = rng.pick(&[1, 1, 1, 2, 2, 3]);
    make_children(rng, &mut scene, set, children);
    let leave = rng.pick(&[0, 1, 2, 3, 4, 5, 6, 8, 12, 20]);
    fill_up(rng, &mut scene, leave);
    let calls = std::mem::take(&mut scene.calls);
    for _ in 0..rng.between(2, 6) {
        let any = rng.pick(&used_sets(&scene.beside));
        let written = if rng.percent(80) { set } else { any };
        write_near(rng, &mut scene, written);
        // A new child needs all pages.
        if rng.percent(50) {
            scene.make(set, rng.pick(&[0, 1]));
        }
    }
    (calls, scene.calls)
}

/// Two to six of six pages that follow each other, ascending; in a small store
/// not many.
fn group_pages(rng: &mut Rng, block_count: usize) -> Vec<usize> {
    let first = rng.pick(&[0, 0, 1, 4, 5, 6, 12, 29, 30, 54, 57, 58, 58]);
    let mut pages: Vec<usize> = (first..first + 6).collect();
    rng.shuffle(&mut pages);
    pages.truncate(rng.between(2, (block_count / 2).clamp(2, 6)));
    pages.sort();
    pages
}

/// A write of any kind at one of the scene's pages or at a page near it.
fn write_near(rng: &mut Rng, scene: &mut Scene, set: u32) {
    let mut page = rng.pick(&scene.pages);
    if rng.percent(40) {
        page = near(rng, page);
    }
    let offset = (page * PAGE_BYTES + rng.pick(&[0, 0, 100, 511])) as u32;
    let length = rng.pick(&[1, 1, 100, 512, 513, 1_024, 2_500]);
    let length = length.min(LARGEST_SIZE - offset as usize);
    let index = rng.pick(&[WRITE, WRITE, WRITE_NARROW, WRITE_GROUPS, WRITE_GROUPS]);
    let target = (set, scene.file);
    scene.add(write_call(rng, index, target, offset, length));
}

/// Calls that make a family for the room that a write can take: stored pages that
/// follow each other, mostly read by a set through its parent, and up to seven
/// children of this set, most of which need them. So a write of k of these pages, c
/// being the children, can take k own blocks and k x c copies. The blocks free are as
/// many, or some more or fewer. Then this write, accepted or not, and some others.
fn room_calls(rng: &mut Rng, style: &Style) -> (Vec<Call>, Vec<Call>) {
    let mut scene = Scene::new(rng, style);
    scene.pages = run_of_pages(rng, style.block_count);
    let set = make_reader(rng, &mut scene);
    let children = rng.pick(&[0, 1, 1, 1, 2, 2, 3, 4, 6, 7]);
    if rng.percent(70) {
        for _ in 0..children {
            scene.make(set, rng.pick(&[0, 1]));
        }
    } else {
        make_children(rng, &mut scene, set, children);
    }
    let write = write_of_run(rng, &scene, set);
    let leave = room_to_leave(rng, &scene, &write);
    fill_up(rng, &mut scene, leave);
    let calls = std::mem::take(&mut scene.calls);
    scene.beside.step(&write);
    scene.calls.push(write);
    for _ in 0..rng.below(3) {
        write_near(rng, &mut scene, set);
    }
    (calls, scene.calls)
}

/// Calls that make a family for marking: a file with stored pages, in set 0 or below it,
/// children of its set that have some of these pages themselves and need the others, sets
/// below them that have pages of their own and depend on them, and no block free, or few.
/// Then writes of all kinds, truncates and deletes of this file, each of which may mark a
/// child and give its blocks to the next; between them new children, writes in children,
/// and the store filled again.
fn marking_calls(rng: &mut Rng, style: &Style) -> (Vec<Call>, Vec<Call>) {
    let mut scene = Scene::new(rng, style);
    scene.pages = group_pages(rng, style.block_count);
    let depth = rng.pick(&[0, 0, 0, 1, 1, 2]);
    let set = make_ancestors_down_to(rng, &mut scene, depth);
    for _ in 0..rng.between(2, 5) {
        make_holder(rng, &mut scene, set);
    }
    let leave = rng.pick(&[0, 0, 0, 0, 1, 1, 2, 3]);
    fill_up(rng, &mut scene, leave);
    let calls = std::mem::take(&mut scene.calls);
    for _ in 0..rng.between(1, 4) {
        change_over_holders(rng, &mut scene, set);
        match rng.below(4) {
            0 => make_holder(rng, &mut scene, set),
            1 => {
                let child = rng.pick(&used_sets(&scene.beside));
                scene.write_a_page(rng, child);
            }
            2 => fill_up(rng, &mut scene, leave),
            _ => {}
        }
    }
    (calls, scene.calls)
}

/// A child of the set that has up to three of the pages itself, and often a child of its
/// own that has one too; sometimes it is read-only and has what was written before.
fn make_holder(rng: &mut Rng, scene: &mut Scene, set: u32) {
    let Some(child) = scene.make(set, rng.pick(&[0, 1, 1, 1, 1])) else { return };
    for _ in 0..rng.pick(&[0, 1, 1, 2, 2, 3]) {
        scene.write_a_page(rng, child);
    }
    if rng.percent(35) {
        if let Some(below) = scene.make(child, rng.pick(&[0, 1, 1])) {
            for _ in 0..rng.below(3) {
                scene.write_a_page(rng, below);
            }
        }
    }
}

/// A write of one page or several, by groups or narrowly, or pages dropped.
fn change_over_holders(rng: &mut Rng, scene: &mut Scene, set: u32) {
    match rng.below(10) {
        0..=3 => write_near(rng, scene, set),
        4..=6 => {
            let write = write_of_pages(rng, scene, set);
            scene.add(write);
        }
        _ => drop_pages(rng, scene, set),
    }
}

/// A write of whole pages from one of the scene's pages to another.
fn write_of_pages(rng: &mut Rng, scene: &Scene, set: u32) -> Call {
    let (one, other) = (rng.pick(&scene.pages), rng.pick(&scene.pages));
    let (first, last) = (one.min(other), one.max(other));
    let index = rng.pick(&[WRITE, WRITE_NARROW, WRITE_NARROW, WRITE_GROUPS]);
    let length = (last + 1 - first) * PAGE_BYTES;
    write_call(rng, index, (set, scene.file), (first * PAGE_BYTES) as u32, length)
}

/// One to eight pages that follow each other, mostly a whole group of as many; in a
/// small store not many.
fn run_of_pages(rng: &mut Rng, block_count: usize) -> Vec<usize> {
    let count = rng.pick(&[1, 2, 2, 3, 4, 5, 8, 8, 8]).min(block_count.div_ceil(4));
    let groups = PAGES / count;
    let first = match rng.below(10) {
        0..=7 => count * rng.pick(&[0, 0, 0, 1, groups - 1]),
        _ => rng.pick(&[1, 6, 30, 59]),
    };
    (first..PAGES.min(first + count)).collect()
}

/// The pages are written in set 0, and sets are made one from the other; gives the
/// last of them, mostly not set 0. Sometimes it has a page of its own.
fn make_reader(rng: &mut Rng, scene: &mut Scene) -> u32 {
    let mut set = 0;
    scene.add(Call::Create { set, file: scene.file });
    for page in scene.pages.clone() {
        scene.write(rng, set, (page * PAGE_BYTES) as u32);
    }
    for _ in 0..rng.pick(&[0, 0, 1, 1, 1, 1, 1, 2, 3, 4]) {
        set = scene.make(set, 1).expect("an unused number");
    }
    if rng.percent(20) {
        scene.write_a_page(rng, set);
    }
    set
}

/// A write of any kind of some of the scene's pages, mostly few of them; often they are
/// its whole groups.
fn write_of_run(rng: &mut Rng, scene: &Scene, set: u32) -> Call {
    let run = scene.pages.len();
    let first = rng.below(run);
    let count = rng.pick(&[1, 1, 2, 3, run]).min(run - first);
    let within = rng.pick(&[0, 0, 100, 511]);
    let in_last = if count == 1 { PAGE_BYTES - within } else { PAGE_BYTES };
    // The bytes end in the last of the pages, somewhere.
    let end = (scene.pages[first + count - 1] + 1) * PAGE_BYTES - rng.below(in_last);
    let start = scene.pages[first] * PAGE_BYTES + within;
    let (target, offset, length) = ((set, scene.file), start as u32, end - start);
    let index = rng.pick(&[WRITE, WRITE, WRITE_NARROW, WRITE_NARROW, WRITE_GROUPS, WRITE_GROUPS]);
    let mut call = write_call(rng, index, target, offset, length);
    if let Call::WriteGroups { group, .. } = &mut call {
        *group = Group::new(run).filter(|_| rng.percent(80)).unwrap_or(*group);
    }
    call
}

/// How many blocks are left free for a write: often just as many as it can take for
/// its touched pages or for all pages of its groups, or as it needs itself, and often
/// one less.
fn room_to_leave(rng: &mut Rng, scene: &Scene, write: &Call) -> usize {
    let write = write.as_write().expect("a write");
    let first = write.offset as usize / PAGE_BYTES;
    let last = (write.offset as usize + write.length - 1) / PAGE_BYTES;
    let touched = last + 1 - first;
    let groups = first / write.group..last / write.group + 1;
    let in_groups = PAGES.min(groups.end * write.group) - groups.start * write.group;
    let children = scene.beside.tally.set(write.set as usize).children.len();
    let enough = touched + touched * children;
    let with_others = touched + in_groups * children;
    let wanted = rng.pick(&[enough, enough, with_others, with_others, with_others, touched]);
    let more = rng.pick(&[0, 0, 0, 0, 1, 2]);
    (wanted + more).saturating_sub(rng.pick(&[0, 0, 0, 0, 1, 1, 1, 2]))
}

/// A page up to seven pages before or after this one.
fn near(rng: &mut Rng, page: usize) -> usize {
    (page + rng.between(0, 14)).saturating_sub(7).min(PAGES - 1)
}

/// A write of the kind at this place in `CALL_NAMES`.
fn write_call(
    rng: &mut Rng,
    index: usize,
    (set, file): (u32, u32),
    offset: u32,
    length: usize,
) -> Call {
    let seed = data_seed(rng);
    match index {
        WRITE => Call::Write { set, file, offset, length, seed },
        WRITE_NARROW => Call::WriteNarrow { set, file, offset, length, seed },
        _ => Call::WriteGroups { group: group_size(rng), set, file, offset, length, seed },
    }
}

/// Mostly one of `GROUP_SIZES`.
fn group_size(rng: &mut Rng) -> Group {
    let any = rng.between(1, PAGES);
    let pages = if rng.percent(85) { rng.pick(&GROUP_SIZES) } else { any };
    Group::new(pages).expect("1 to 64 pages")
}

/// Calls that leave few blocks free: full files, in set 0 and in sets made
/// from it while it was empty.
fn fill_calls(rng: &mut Rng, block_count: usize) -> Vec<Call> {
    let sets = block_count.div_ceil(FILES * PAGES);
    let others: Vec<u32> = (1..sets as u32).collect();
    let pages = block_count - rng.below(6);
    fill_sets(rng, &others, pages)
}

/// Calls that make these sets from set 0 and store so many pages in it and in them, in
/// full files.
fn fill_sets(rng: &mut Rng, others: &[u32], pages: usize) -> Vec<Call> {
    let mut calls = Vec::new();
    for set in others {
        calls.push(Call::Make { parent: 0, set: *set, writeable: 1 });
    }
    let mut left = pages;
    let sets = [&[0], others].concat();
    let places = sets.into_iter().flat_map(|set| (0..FILES as u32).map(move |file| (set, file)));
    for (set, file) in places {
        if left == 0 {
            break;
        }
        let pages = left.min(PAGES);
        left -= pages;
        calls.push(Call::Create { set, file });
        let seed = rng.word() as u32;
        calls.push(Call::Write { set, file, offset: 0, length: pages * PAGE_BYTES, seed });
    }
    calls
}

const WILD_SETS: [u32; 8] = [8, 9, 15, 16, 255, 256, 65_536, u32::MAX];
const WILD_FILES: [u32; 7] = [16, 17, 31, 255, 256, 1 << 20, u32::MAX];
const WILD_PLACES: [u32; 9] =
    [32_767, 32_768, 32_769, 33_000, 65_535, 65_536, 1 << 31, u32::MAX - 511, u32::MAX];

fn used_sets(beside: &Beside) -> Vec<u32> {
    (0..SETS as u32).filter(|set| beside.plain.sets[*set as usize].is_some()).collect()
}

fn present_files(beside: &Beside) -> Vec<(u32, u32)> {
    let mut list = Vec::new();
    for set in used_sets(beside) {
        for file in 0..FILES as u32 {
            if beside.plain.set(set as usize).files[file as usize].is_some() {
                list.push((set, file));
            }
        }
    }
    list
}

/// Files that a call can change: not marked, in a writeable set.
fn changeable_files(beside: &Beside) -> Vec<(u32, u32)> {
    present_files(beside)
        .into_iter()
        .filter(|(set, file)| {
            beside.plain.set(*set as usize).writeable
                && beside.tally.file(*set as usize, *file as usize).condition != Condition::Marked
        })
        .collect()
}

fn any_set(rng: &mut Rng, style: &Style, beside: &Beside) -> u32 {
    if rng.percent(style.wild) {
        if rng.percent(50) {
            rng.pick(&WILD_SETS)
        } else {
            rng.below(SETS) as u32
        }
    } else {
        rng.pick(&used_sets(beside))
    }
}

fn any_file(rng: &mut Rng, style: &Style) -> u32 {
    if rng.percent(style.wild) {
        rng.pick(&WILD_FILES)
    } else if rng.percent(5) {
        rng.below(FILES) as u32
    } else {
        rng.pick(&style.files)
    }
}

/// The pages stored in a file's own map.
fn stored_pages(beside: &Beside, set: u32, file: u32) -> Vec<usize> {
    let kinds = &beside.tally.file(set as usize, file as usize).kinds;
    (0..PAGES).filter(|page| kinds[*page] == TallyKind::Stored).collect()
}

/// Whether the file of a child set needs a page.
fn is_needed(beside: &Beside, set: u32, file: u32, page: usize) -> bool {
    let needs = |child: &usize| {
        let record = beside.tally.file(*child, file as usize);
        matches!(record.condition, Condition::Own | Condition::Virgin)
            && record.kinds[page] == TallyKind::Unmapped
    };
    beside.tally.set(set as usize).children.iter().any(needs)
}

/// Those of the stored pages that a child needs: dropping them hands them over.
fn needed_pages(beside: &Beside, set: u32, file: u32) -> Vec<usize> {
    let stored = stored_pages(beside, set, file);
    stored.into_iter().filter(|page| is_needed(beside, set, file, *page)).collect()
}

/// The pages that a child needs and that are stored in the file's own map or in
/// that of a set above: writing them takes copies, or marks.
fn pages_to_copy(beside: &Beside, set: u32, file: u32) -> Vec<usize> {
    let is_stored = |page: &usize| {
        let kind = |at: usize| beside.tally.file(at, file as usize).kinds[*page];
        let mut at = Some(set as usize);
        while let Some(set) = at.filter(|at| kind(*at) == TallyKind::Unmapped) {
            at = beside.tally.set(set).parent;
        }
        at.map(kind) == Some(TallyKind::Stored)
    };
    let needed = (0..PAGES).filter(|page| is_needed(beside, set, file, *page));
    needed.filter(is_stored).collect()
}

/// A set and a file of it: mostly one that the call can work on, often one
/// whose children need its pages, and for a truncate or delete sometimes one
/// with stored pages whose parent's file is absent.
fn target(rng: &mut Rng, style: &Style, beside: &Beside, drops: bool) -> (u32, u32) {
    let mut list = if rng.percent(85) { changeable_files(beside) } else { present_files(beside) };
    if drops && rng.percent(15) {
        prefer(&mut list, |(set, file)| is_stored_but_absent_in_parent(beside, set, file));
    } else if drops && rng.percent(65) {
        prefer(&mut list, |(set, file)| !needed_pages(beside, set, file).is_empty());
    } else if !drops && rng.percent(60) {
        prefer(&mut list, |(set, file)| !pages_to_copy(beside, set, file).is_empty());
    }
    if rng.percent(85) {
        prefer(&mut list, |(_, file)| style.files.contains(&file));
    }
    match rng.pick_any(&list) {
        Some(target) if !rng.percent(style.wild) => target,
        _ => (any_set(rng, style, beside), any_file(rng, style)),
    }
}

/// A file with stored pages whose parent's file is absent: it may have got them
/// when that one was deleted.
fn is_stored_but_absent_in_parent(beside: &Beside, set: u32, file: u32) -> bool {
    let tally = &beside.tally;
    let parent = tally.set(set as usize).parent;
    !stored_pages(beside, set, file).is_empty()
        && parent.is_some_and(|p| tally.file(p, file as usize).condition == Condition::Absent)
}

/// Keeps those for which the condition holds, if there are any.
fn prefer(list: &mut Vec<(u32, u32)>, holds: impl Fn((u32, u32)) -> bool) {
    if list.iter().any(|target| holds(*target)) {
        list.retain(|target| holds(*target));
    }
}

/// The size by reading of a file, if there is one.
fn size_of(beside: &Beside, set: u32, file: u32) -> usize {
    let list = beside.plain.sets.get(set as usize).and_then(Option::as_ref);
    let list = list.and_then(|set| set.files.get(file as usize)).and_then(Option::as_ref);
    list.map_or(0, Vec::len)
}

/// An offset or a size.
fn place(rng: &mut Rng, style: &Style, size: usize) -> u32 {
    if rng.percent(style.wild) {
        return rng.pick(&WILD_PLACES);
    }
    let near_size =
        [size, size.saturating_sub(1), size + 1, size / 512 * 512, size / 2, size + 700];
    let chosen = match rng.below(10) {
        0..=6 => {
            let within = rng.below(512);
            rng.pick(&style.pages) * 512 + rng.pick(&[0, 0, 0, 1, 100, 511, within])
        }
        7 | 8 => rng.pick(&near_size),
        _ => rng.below(LARGEST_SIZE + 1),
    };
    chosen.min(LARGEST_SIZE) as u32
}

fn length(rng: &mut Rng, style: &Style, offset: u32) -> usize {
    let room = LARGEST_SIZE.saturating_sub(offset as usize);
    if rng.percent(style.wild) {
        return rng.pick(&[0, room, room + 1, 32_768, 32_769, 70_000]);
    }
    let chosen = if rng.percent(style.long) {
        rng.pick(&[1_023, 1_024, 1_025, 1_536, 2_048, 3_000, 5_000])
    } else {
        rng.pick(&[0, 1, 1, 1, 2, 100, 511, 512, 513])
    };
    let random = rng.between(1, 600);
    rng.pick(&[chosen, chosen, chosen, random]).min(room)
}

fn data_seed(rng: &mut Rng) -> u32 {
    if rng.percent(8) {
        0
    } else {
        rng.between(1, 1_000_000) as u32
    }
}

/// The line that gives a buffer a length.
pub fn length_of(buffer: Buffer, length: usize) -> Item {
    Item::Length { buffer, length }
}

/// The lines that make other bytes of a buffer's.
pub fn pokes(buffer: Buffer, before: &[u8], after: &[u8]) -> Vec<Item> {
    let mut items = Vec::new();
    if before.len() != after.len() {
        items.push(length_of(buffer, after.len()));
    }
    for (at, value) in after.iter().enumerate() {
        if before.get(at).copied().unwrap_or(0) != *value {
            items.push(Item::Poke { buffer, at, value: *value });
        }
    }
    items
}

/// A random call for the store as plain store and tally know it.
pub fn call(rng: &mut Rng, style: &Style, beside: &Beside) -> Call {
    let total: usize = style.weights.iter().sum();
    let mut left = rng.below(total);
    let mut index = 0;
    while left >= style.weights[index] {
        left -= style.weights[index];
        index += 1;
    }
    let index = possible(rng, beside, index);
    call_of(rng, style, beside, index)
}

/// Mostly another kind of call, where this one says little.
fn possible(rng: &mut Rng, beside: &Beside, index: usize) -> usize {
    // Without files most calls say little, so create one.
    let of_a_file = (2..=5).contains(&index) || WRITES.contains(&index);
    if of_a_file && changeable_files(beside).is_empty() && rng.percent(80) {
        return CREATE;
    }
    // With every set used, make room for making more.
    if index == MAKE && used_sets(beside).len() == SETS && rng.percent(80) {
        return REMOVE;
    }
    index
}

/// A random call of the kind at this place in `CALL_NAMES`.
pub fn call_of(rng: &mut Rng, style: &Style, beside: &Beside, index: usize) -> Call {
    match index {
        0 => Call::Format { pages_length: format_length(rng, style) },
        CREATE => {
            let (set, file) = (any_set(rng, style, beside), any_file(rng, style));
            Call::Create { set, file }
        }
        3 => {
            let target = read_target(rng, style, beside);
            read_call(rng, style, beside, target)
        }
        MAKE => make_call(rng, style, beside),
        REMOVE => remove_call(rng, style, beside),
        9 => Call::Free {},
        10 => Call::CheckBlocks {},
        11 => Call::Check {},
        PANEL_RESET => Call::PanelReset {},
        PANEL_READ => Call::PanelRead { offset: panel::any_offset(rng, style) },
        PANEL_WRITE => panel::any_write(rng, style),
        PANEL_LINE => Call::PanelLine {},
        SET_TERM => terms::set_term(rng, style, beside),
        CURRENT => terms::current(rng, style, beside),
        CONVERT => Call::Convert {},
        COMPACT => Call::Compact {},
        _ if WRITES.contains(&index) && rng.percent(style.filling) => {
            let filling = filling_write(rng, beside, index);
            filling.unwrap_or_else(|| call_of_file(rng, style, beside, index))
        }
        _ => call_of_file(rng, style, beside, index),
    }
}

/// A random call of this kind on a file that there is, mostly.
fn call_of_file(rng: &mut Rng, style: &Style, beside: &Beside, index: usize) -> Call {
    let drops = index == 4 || index == DELETE;
    let (set, file) = target(rng, style, beside, drops);
    let size = size_of(beside, set, file);
    let mut offset = place(rng, style, size);
    let page = match drops {
        true => dropped_page(rng, beside, set, file),
        false => written_page(rng, beside, set, file),
    };
    if let Some(page) = page {
        offset = (page * PAGE_BYTES + rng.pick(&[0, 0, 1, 300, 511])) as u32;
    }
    file_call(rng, style, index, (set, file), offset, size)
}

/// A set and a file of it to read: mostly one that can be read and is not
/// empty, often one whose set is as deep as any of them.
fn read_target(rng: &mut Rng, style: &Style, beside: &Beside) -> (u32, u32) {
    let mut list = present_files(beside);
    if rng.percent(90) {
        prefer(&mut list, |(set, file)| !beside.tally.is_marked(set as usize, file as usize));
    }
    if rng.percent(70) {
        prefer(&mut list, |(set, file)| size_of(beside, set, file) > 0);
    }
    if rng.percent(85) {
        prefer(&mut list, |(_, file)| style.files.contains(&file));
    }
    if rng.percent(50) {
        let level = |(set, _): (u32, u32)| beside.plain.set(set as usize).level;
        let deepest = list.iter().map(|target| level(*target)).max();
        prefer(&mut list, |target| Some(level(target)) == deepest);
    }
    match rng.pick_any(&list) {
        Some(target) if !rng.percent(style.wild) => target,
        _ => (any_set(rng, style, beside), any_file(rng, style)),
    }
}

/// A random read of this file: often from a page on that is stored in some set,
/// or from a page shortly before it, and with a buffer that ends before the
/// size, at it or past it.
fn read_call(rng: &mut Rng, style: &Style, beside: &Beside, (set, file): (u32, u32)) -> Call {
    let size = size_of(beside, set, file);
    let mut offset = place(rng, style, size);
    if rng.percent(60) {
        if let Some(page) = page_stored_in_a_set(rng, beside, file) {
            let first = page.saturating_sub(rng.pick(&[0, 0, 0, 1, 2]));
            offset = (first * PAGE_BYTES + rng.pick(&[0, 0, 1, 300, 511])) as u32;
        }
    }
    let past_the_size = (size..=LARGEST_SIZE).contains(&(offset as usize));
    if past_the_size && size > 0 && rng.percent(60) {
        offset = rng.below(size) as u32;
    }
    let left = size.saturating_sub(offset as usize);
    let length = rng.pick(&[0, 1, 2, 511, 512, 513, 1_024, 2_000, left, left + 1, 40_000]);
    Call::Read { set, file, offset, length }
}

/// A page that the file of this number has stored in the map of some set.
fn page_stored_in_a_set(rng: &mut Rng, beside: &Beside, file: u32) -> Option<usize> {
    if file as usize >= FILES {
        return None;
    }
    let pages = |set: u32| stored_pages(beside, set, file);
    rng.pick_any(&used_sets(beside).into_iter().flat_map(pages).collect::<Vec<usize>>())
}

/// A write of whole pages not stored in the file's map that takes all free
/// blocks, or all but one or two.
fn filling_write(rng: &mut Rng, beside: &Beside, index: usize) -> Option<Call> {
    let free = beside.tally.free;
    let pages = free.saturating_sub(rng.pick(&[0, 0, 0, 1, 2]));
    if pages == 0 || pages > PAGES {
        return None;
    }
    let target = rng.pick_any(&changeable_files(beside))?;
    let (set, file) = target;
    let kinds = &beside.tally.file(set as usize, file as usize).kinds;
    let places: Vec<usize> = (0..=PAGES - pages)
        .filter(|first| !kinds[*first..first + pages].contains(&TallyKind::Stored))
        .collect();
    // Mostly near the front, so that later writes meet these pages.
    let place = if rng.percent(70) { *places.first()? } else { rng.pick_any(&places)? };
    let (offset, length) = ((place * PAGE_BYTES) as u32, pages * PAGE_BYTES);
    Some(write_call(rng, index, target, offset, length))
}

/// Often a page that a child needs or that is stored in the file's own map, if
/// there is one, or a page near it, which makes that one an extra page.
fn written_page(rng: &mut Rng, beside: &Beside, set: u32, file: u32) -> Option<usize> {
    if size_of(beside, set, file) == 0 || !rng.percent(65) {
        return None;
    }
    let to_copy = rng.pick_any(&pages_to_copy(beside, set, file));
    let page = to_copy.or_else(|| rng.pick_any(&stored_pages(beside, set, file)))?;
    Some(if rng.percent(35) { near(rng, page) } else { page })
}

/// Often a page stored in the file's own map, if it has one, and often the first
/// of them, so that a truncate drops the others.
fn dropped_page(rng: &mut Rng, beside: &Beside, set: u32, file: u32) -> Option<usize> {
    if size_of(beside, set, file) == 0 || !rng.percent(70) {
        return None;
    }
    let stored = stored_pages(beside, set, file);
    if rng.percent(50) {
        return stored.first().copied();
    }
    let needed = rng.pick_any(&needed_pages(beside, set, file));
    needed.or_else(|| rng.pick_any(&stored))
}

fn file_call(
    rng: &mut Rng,
    style: &Style,
    index: usize,
    (set, file): (u32, u32),
    offset: u32,
    size: usize,
) -> Call {
    match index {
        WRITE | WRITE_NARROW | WRITE_GROUPS => {
            let length = length(rng, style, offset);
            write_call(rng, index, (set, file), offset, length)
        }
        4 => {
            let size = if rng.percent(30) { shorter(rng, size) } else { offset };
            Call::Truncate { set, file, size }
        }
        DELETE => Call::Delete { set, file },
        8 => Call::Size { set, file },
        _ => unreachable!("{} is no call of a file", CALL_NAMES[index]),
    }
}

/// A size below this one, if it is not 0.
fn shorter(rng: &mut Rng, size: usize) -> u32 {
    let random = rng.below(size + 1);
    let page = random / 512 * 512;
    rng.pick(&[0, random, random, page, size.saturating_sub(1), size.saturating_sub(512)]) as u32
}

fn format_length(rng: &mut Rng, style: &Style) -> usize {
    if rng.percent(50) {
        rng.pick(&[0, 1, 511, 513, 1_000, 2_097_151, 2_097_153, 2_097_152 + 512])
    } else if rng.percent(80) {
        style.block_count * PAGE_BYTES
    } else {
        rng.between(1, 12) * PAGE_BYTES
    }
}

fn make_call(rng: &mut Rng, style: &Style, beside: &Beside) -> Call {
    let deepest = used_sets(beside)
        .into_iter()
        .max_by_key(|set| beside.plain.set(*set as usize).level)
        .unwrap_or(0);
    let with_stored: Vec<u32> = changeable_files(beside)
        .into_iter()
        .filter(|(set, file)| !stored_pages(beside, *set, *file).is_empty())
        .map(|(set, _)| set)
        .collect();
    let parent = if rng.percent(style.deep) {
        deepest
    } else {
        match rng.pick_any(&with_stored) {
            Some(set) if rng.percent(style.wide) => set,
            _ => any_set(rng, style, beside),
        }
    };
    let unused: Vec<u32> =
        (0..SETS as u32).filter(|set| beside.plain.sets[*set as usize].is_none()).collect();
    let set = match rng.pick_any(&unused) {
        Some(set) if !rng.percent(style.wild + 2) => set,
        _ if rng.percent(50) => rng.pick(&WILD_SETS),
        _ => rng.below(SETS) as u32,
    };
    Call::Make { parent, set, writeable: rng.pick(&[0, 0, 1, 1, 1, 1, 2, 256, u32::MAX]) }
}

fn remove_call(rng: &mut Rng, style: &Style, beside: &Beside) -> Call {
    let leaves: Vec<u32> = used_sets(beside)
        .into_iter()
        .filter(|set| *set != 0 && beside.plain.set(*set as usize).children.is_empty())
        .collect();
    let set = match rng.pick_any(&leaves) {
        Some(set) if !rng.percent(style.wild + 10) => set,
        _ => any_set(rng, style, beside),
    };
    Call::Remove { set }
}

/// A well-formed state with the calls that made it.
#[derive(Clone)]
pub struct Made {
    pub tables: Vec<u8>,
    pub pages: Vec<u8>,
    pub calls: Vec<Call>,
    pub beside: Beside,
    pub style: Style,
}

/// A random well-formed state, made by a random history from format on.
pub fn made(rng: &mut Rng) -> Made {
    let blocks = block_count(rng);
    let length = made_length(rng);
    made_of(rng, blocks, length)
}

/// So many of them.
pub fn pool(rng: &mut Rng, count: usize) -> Vec<Made> {
    (0..count).map(|_| made(rng)).collect()
}

const FEW_CALLS: usize = 4;

/// How many calls follow those that begin a history: sometimes few.
pub fn made_length(rng: &mut Rng) -> usize {
    if rng.percent(50) {
        rng.below(FEW_CALLS + 1)
    } else {
        rng.between(10, 90)
    }
}

/// A random well-formed state of this many blocks, after this many calls.
pub fn made_of(rng: &mut Rng, block_count: usize, length: usize) -> Made {
    let start = start(rng, block_count);
    made_from(rng, start, length)
}

/// A random well-formed state with this beginning, after this many calls more.
pub fn made_from(rng: &mut Rng, start: Start, length: usize) -> Made {
    let block_count = start.style.block_count;
    let mut made = Made {
        tables: vec![0; TABLES_BYTES],
        pages: vec![0; block_count * PAGE_BYTES],
        calls: Vec::new(),
        beside: Beside::format(block_count),
        style: start.style,
    };
    // Calls that only look, and later formats, add nothing to a state. A compaction
    // leaves bytes free, and the calls are to lead to the same bytes under any library.
    for index in [0, 3, 8, 9, 10, 11, CURRENT, COMPACT] {
        made.style.weights[index] = 0;
    }
    for call in start.calls {
        made.run(call);
    }
    // A few calls leave a family as it was made.
    for call in start.then.into_iter().filter(|call| call.changes() && length > FEW_CALLS) {
        made.run(call);
    }
    for _ in 0..length {
        let call = call(rng, &made.style, &made.beside);
        made.run(call);
    }
    made
}

impl Made {
    fn run(&mut self, call: Call) {
        let (answer, _) = self.beside.step(&call);
        if answer.number != 0 {
            return;
        }
        let write = call.as_write();
        let mut bytes = write.map_or(Vec::new(), |write| data_bytes(write.length, write.seed));
        let before = self.tables.clone();
        let mut spare = [0; PAGE_BYTES];
        let store = Lent::store(&mut self.tables, &mut self.pages, &mut bytes);
        let lent = Lent { spare: &mut spare, ..store };
        let answer = store::run(call.index(), &call.numbers(), lent);
        if let Some(write) = write {
            self.judge_room(write, answer, &before);
        }
        self.calls.push(call);
    }

    /// A write is judged by the room it takes here too.
    fn judge_room(&self, write: AnyWrite, answer: Answer, before: &[u8]) {
        let (after, pages_length) = (self.tables.as_slice(), self.pages.len());
        let judgement = room::judge(&Taken { write, answer, before, after, pages_length });
        judgement.outcome().unwrap_or_else(|text| panic!("{write:?}: {text}"));
    }
}

// Well-formed states that no history need reach.

/// Changes a well-formed store in ways that keep it well formed, whether or
/// not calls could bring it there: other page bytes and next starts, files marked, other
/// states, kinds, sizes, writeabilities and terms, further sets, blocks moved and taken.
pub fn twist(rng: &mut Rng, tables: &mut [u8], pages: &mut [u8]) {
    let mut state = State::unpack(tables);
    for _ in 0..rng.pick(&[1, 2, 3, 5, 8, 12]) {
        let mut changed = state.clone();
        if twist_once(rng, &mut changed).is_some() && check_state(&changed, pages.len()).is_empty()
        {
            state = changed;
        }
    }
    state.pack(tables);
    for _ in 0..rng.below(12) {
        let place = rng.below(pages.len());
        pages[place] = rng.word() as u8;
    }
}

fn twist_once(rng: &mut Rng, state: &mut State) -> Option<()> {
    match rng.below(15) {
        0 => state.next_start = rng.below(state.block_count),
        1 => twist_writeable(rng, state)?,
        2 => twist_mark(rng, state)?,
        3 => twist_size(rng, state)?,
        4 => twist_unmark(rng, state)?,
        5 => twist_to_virgin(rng, state)?,
        6 => twist_new_set(rng, state)?,
        7 => twist_fill(rng, state)?,
        8 => twist_swap(rng, state)?,
        9 => twist_term(rng, state)?,
        _ => twist_entry(rng, state)?,
    }
    Some(())
}

/// A set other than set 0 becomes writeable or read-only.
fn twist_writeable(rng: &mut Rng, state: &mut State) -> Option<()> {
    let set = rng.pick_any(&sets(state, |set, record| set != 0 && record.used))?;
    state.sets[set].writeable = !state.sets[set].writeable;
    Some(())
}

/// A used set gets any term, one that no call gives too.
fn twist_term(rng: &mut Rng, state: &mut State) -> Option<()> {
    let set = rng.pick_any(&sets(state, |_, record| record.used))?;
    let random = rng.between(1, LATEST_END);
    let end_day = rng.pick(&[1, 2, LATEST_END - 1, LATEST_END, LATEST_END, random]);
    let first_day = rng.below(end_day);
    state.sets[set].first_day = rng.pick(&[0, end_day - 1, first_day]);
    state.sets[set].end_day = end_day;
    Some(())
}

/// A file becomes marked, and holds nothing.
fn twist_mark(rng: &mut Rng, state: &mut State) -> Option<()> {
    let (set, file) = any_present(rng, state)?;
    state.clear_marked(set, file);
    Some(())
}

fn twist_size(rng: &mut Rng, state: &mut State) -> Option<()> {
    let (set, file) = any_present(rng, state)?;
    let random = rng.below(LARGEST_SIZE + 1);
    state.files[set][file].size = rng.pick(&[0, 512, LARGEST_SIZE, random, random]);
    Some(())
}

/// A marked file becomes own again.
fn twist_unmark(rng: &mut Rng, state: &mut State) -> Option<()> {
    let marked = files(state, |_, record| record.state == FileState::Marked);
    let (set, file) = rng.pick_any(&marked)?;
    state.files[set][file].state = FileState::Own;
    Some(())
}

/// A file becomes virgin.
fn twist_to_virgin(rng: &mut Rng, state: &mut State) -> Option<()> {
    let (set, file) = any_present(rng, state)?;
    state.drop_file(set, file);
    state.files[set][file].state = FileState::Virgin;
    Some(())
}

/// An entry becomes unmapped, a hole or stored in a free block.
fn twist_entry(rng: &mut Rng, state: &mut State) -> Option<()> {
    let place = twisted_place(rng, state)?;
    let old = *entry_at(state, place);
    state.free_entry(old);
    let block = free_block(rng, state);
    let new = rng.pick(&[UNMAPPED, HOLE, block.map_or(UNMAPPED, stored)]);
    if new.kind == Kind::Stored {
        state.bits[new.block] = true;
    }
    *entry_at(state, place) = new;
    Some(())
}

fn any_present(rng: &mut Rng, state: &State) -> Option<(usize, usize)> {
    rng.pick_any(&files(state, |_, record| record.is_present()))
}

/// An entry of a present file, mostly at a page that some file has stored.
fn twisted_place(rng: &mut Rng, state: &State) -> Option<Place> {
    let (set, file) = any_present(rng, state)?;
    let page = match rng.pick_any(&stored_entries(state)) {
        Some((_, _, page)) if rng.percent(70) => page,
        _ => rng.below(PAGES),
    };
    Some((set, file, page))
}

/// A set is made from another; some of its files may be absent.
fn twist_new_set(rng: &mut Rng, state: &mut State) -> Option<()> {
    let set = rng.pick_any(&sets(state, |_, record| !record.used))?;
    // Mostly from a set with stored pages: the new set then needs them.
    let mut list: Vec<usize> = stored_entries(state).iter().map(|place| place.0).collect();
    if list.is_empty() || rng.percent(40) {
        list = sets(state, |_, record| record.used);
    }
    let parent = rng.pick(&list);
    add_child(state, parent, set);
    state.sets[set].writeable = rng.percent(50);
    for file in 0..FILES {
        let made = match state.files[parent][file].state {
            FileState::Own | FileState::Virgin => FileState::Virgin,
            other => other,
        };
        if rng.percent(90) {
            state.files[set][file].state = made;
        }
    }
    Some(())
}

/// Entries of own files take up to twelve free blocks, as far as the state stays well
/// formed.
fn twist_fill(rng: &mut Rng, state: &mut State) -> Option<()> {
    let pages_length = state.block_count * PAGE_BYTES;
    for _ in 0..12 {
        let block = free_block(rng, state)?;
        let list = entries(state, |record, page| {
            let own = record.state == FileState::Own && page * PAGE_BYTES < record.size;
            own && record.entries[page].kind != Kind::Stored
        });
        let mut filled = state.clone();
        *entry_at(&mut filled, rng.pick_any(&list)?) = stored(block);
        filled.bits[block] = true;
        if check_state(&filled, pages_length).is_empty() {
            *state = filled;
        }
    }
    Some(())
}

/// A page's entries in a set and in its parent change places.
fn twist_swap(rng: &mut Rng, state: &mut State) -> Option<()> {
    let list: Vec<Place> = stored_entries(state).into_iter().filter(|place| place.0 != 0).collect();
    let (set, file, page) = rng.pick_any(&list)?;
    let above = (state.sets[set].parent, file, page);
    let (entry, other) = (*entry_at(state, (set, file, page)), *entry_at(state, above));
    *entry_at(state, (set, file, page)) = other;
    *entry_at(state, above) = entry;
    Some(())
}

// Damages.

/// Breaks one rule of well-formed tables, or flips some bits. Gives the rule
/// aimed at, if one was. Most damages to a rule break that rule alone.
pub fn damage(rng: &mut Rng, tables: &mut Vec<u8>) -> Option<Rule> {
    if rng.percent(80) {
        let rule = rng.pick(Rule::ALL);
        if damage_rule(rng, tables, rule) {
            return Some(rule);
        }
    }
    flip_bits(rng, tables);
    None
}

/// Flips 1 to 8 bits, half of the time in the header, bitmap and set records.
pub fn flip_bits(rng: &mut Rng, tables: &mut [u8]) {
    let end = if rng.percent(50) { tables.len().min(572) } else { tables.len() };
    for _ in 0..rng.between(1, 8) {
        if end != 0 {
            tables[rng.below(end)] ^= 1 << rng.below(8);
        }
    }
}

/// Damages well-formed tables so that this rule is broken; false if these
/// tables offer no place for it.
pub fn damage_rule(rng: &mut Rng, tables: &mut Vec<u8>, rule: Rule) -> bool {
    if rule == Rule::TablesLength {
        let shorter = rng.below(TABLES_BYTES);
        let lengths = [0, 1, TABLES_BYTES - 1, TABLES_BYTES + 1, 2 * TABLES_BYTES, shorter];
        if rng.percent(15) {
            // The length before Ask 8, and what was well formed then.
            *tables = narrowed(tables);
        } else {
            tables.resize(rng.pick(&lengths), 0);
        }
        return true;
    }
    let mut state = State::unpack(tables);
    let done = break_rule(rng, &mut state, rule).is_some();
    if done {
        state.pack(tables);
    }
    done
}

// Rules broken alone, and tables for the first part of the check.

/// A store in which a rule is broken.
pub struct Broke {
    pub tables: Vec<u8>,
    pub pages: Vec<u8>,
    /// Whether no other rule is broken.
    pub alone: bool,
    /// The well-formed store that was changed to this one.
    pub made: Made,
}

/// The rules that must break with a rule, as few as possible. There are some for
/// two rules only. "Unused sets ... are all zero", but set 0 is to be writeable
/// and to have 8 as parent and sibling: if it is not used, its record either is
/// all zero and breaks three rules of set 0 more, or it breaks
/// `unused-set-not-zero`. A virgin or marked file has only unmapped entries, but set 0
/// is to have none: such a file in set 0 breaks `set-0-unmapped`, or else, having no
/// unmapped entry, `virgin-mapped` or `marked-mapped`.
///
/// All others can be broken alone, some of them in one way only. A block count
/// of 0 breaks `next-start` too, one over 4,096 need not. A size over 32,768 breaks
/// `marked-size` or `virgin-size` too, but not in an own file.
pub fn broken_with(rule: Rule) -> &'static [Rule] {
    match rule {
        Rule::Set0NotUsed => &[Rule::UnusedSetNotZero],
        Rule::Set0State => &[Rule::Set0Unmapped],
        _ => &[],
    }
}

/// How often one store is tried before another is made, and how many of them are
/// made: each rule finds a place in many a store.
const TRIES_OF_A_STORE: usize = 6;
const STORES_TRIED: usize = 1_000;

/// A random store in which this rule is broken, perhaps at several places, and
/// no other but those of `broken_with`. They are of the same part of the check
/// as the rule.
pub fn break_alone(rng: &mut Rng, rule: Rule) -> Broke {
    let mut wanted: BTreeSet<Rule> = broken_with(rule).iter().copied().collect();
    wanted.insert(rule);
    for _ in 0..STORES_TRIED {
        let made = made(rng);
        for _ in 0..TRIES_OF_A_STORE {
            let (mut tables, mut pages) = (made.tables.clone(), made.pages.clone());
            if rng.percent(50) {
                twist(rng, &mut tables, &mut pages);
            }
            let done = break_store(rng, &mut tables, &mut pages, rule);
            if done && rules_broken(&tables, pages.len()) == wanted {
                return Broke { tables, pages, alone: wanted.len() == 1, made };
            }
        }
    }
    panic!("no store was found in which {} is broken alone", rule.name());
}

/// Breaks a rule in a well-formed store, pages and all; false if it offers no
/// place for it.
fn break_store(rng: &mut Rng, tables: &mut Vec<u8>, pages: &mut Vec<u8>, rule: Rule) -> bool {
    match rule {
        // Over 4,096, with as many pages.
        Rule::BlockCount => {
            let random = rng.between(MOST_BLOCKS + 1, 8_191);
            let count = rng.pick(&[MOST_BLOCKS + 1, MOST_BLOCKS + 2, 8_191, random]);
            put_field(tables, 0, 13, count as u32);
            pages.resize(count * PAGE_BYTES, 0);
        }
        Rule::PagesLength if rng.percent(70) => {
            let right = pages.len();
            let random = rng.below(2 * right);
            let lengths = [0, 1, 511, right - 1, right + 1, right - 512, right + 512, random];
            pages.resize(rng.pick(&lengths), 0);
        }
        Rule::Set0NotUsed => {
            let mut state = State::formatted(State::unpack(tables).block_count);
            state.next_start = rng.below(state.block_count);
            state.sets[0].used = false;
            state.sets[0].first_child = rng.below(1 << 4);
            state.pack(tables);
        }
        _ => return damage_rule(rng, tables, rule),
    }
    true
}

/// Fills well-formed tables with what the first part of the check must look at,
/// "whatever else they hold": entries in any file record, whatever its state and
/// its set's use, with the bits that go with them, and any other fields. About
/// half of the time that part then finds a fault.
pub fn scatter(rng: &mut Rng, tables: &mut [u8]) {
    let mut state = State::unpack(tables);
    for _ in 0..rng.between(1, 12) {
        scatter_entry(rng, &mut state);
    }
    for _ in 0..rng.below(4) {
        scatter_other(rng, &mut state);
    }
    if rng.percent(50) {
        spoil_blocks(rng, &mut state);
    }
    state.pack(tables);
}

/// Any entry of all 128 x 64.
fn any_place(rng: &mut Rng) -> Place {
    (rng.below(SETS), rng.below(FILES), rng.below(PAGES))
}

/// An entry stored in whatever record.
fn any_stored(rng: &mut Rng, state: &State) -> Option<Place> {
    let mut list = Vec::new();
    for (set, file) in files(state, |_, _| true) {
        let is_stored = |page: &usize| state.files[set][file].entries[*page].kind == Kind::Stored;
        list.extend((0..PAGES).filter(is_stored).map(|page| (set, file, page)));
    }
    rng.pick_any(&list)
}

/// Another entry in whatever record, mostly stored in a free block or in the
/// block of an entry that becomes a hole. The bits go with it.
fn scatter_entry(rng: &mut Rng, state: &mut State) {
    if rng.percent(30) {
        if let Some(place) = any_stored(rng, state) {
            let entry = *entry_at(state, place);
            state.free_entry(entry);
            *entry_at(state, place) = HOLE;
        }
    }
    let place = any_place(rng);
    let old = *entry_at(state, place);
    state.free_entry(old);
    let new = match free_block(rng, state) {
        Some(block) if rng.percent(80) => stored(block),
        _ => rng.pick(&[UNMAPPED, HOLE]),
    };
    if new.kind == Kind::Stored {
        state.bits[new.block] = true;
    }
    *entry_at(state, place) = new;
}

/// A field that the first part of the check does not look at gets any value.
fn scatter_other(rng: &mut Rng, state: &mut State) {
    let (set, file, _) = any_place(rng);
    match rng.below(5) {
        0 => state.header_zero = rng.below(1 << 7),
        1 => {
            state.sets[set] = SetRecord {
                used: rng.percent(50),
                writeable: rng.percent(50),
                level: rng.below(1 << 3),
                parent: rng.below(1 << 4),
                first_child: rng.below(1 << 4),
                next_sibling: rng.below(1 << 4),
                zero: rng.below(1 << 7),
                first_day: rng.below(1 << 16),
                end_day: rng.below(1 << 16),
            }
        }
        2 => state.files[set][file].state = rng.pick(&FILE_STATES),
        3 => state.files[set][file].size = rng.below(1 << 16),
        _ => state.files[set][file].zero = rng.below(1 << 14),
    }
}

/// Something that the first part of the check looks at gets another value.
fn spoil_blocks(rng: &mut Rng, state: &mut State) {
    let place = any_place(rng);
    let random = rng.below(1 << 14);
    let block = rng.pick(&[0, state.block_count, state.block_count.saturating_sub(1), random]);
    match rng.below(8) {
        0 => state.block_count = rng.below(1 << 13),
        1 => state.next_start = rng.pick(&[state.block_count, random]) % MOST_BLOCKS,
        2 => entry_at(state, place).kind = rng.pick(&KINDS),
        3 => entry_at(state, place).block = block,
        4 => *entry_at(state, place) = stored(block),
        5 => {
            // A block that an entry names already.
            if let Some(other) = any_stored(rng, state) {
                *entry_at(state, place) = *entry_at(state, other);
            }
        }
        6 => {
            if let Some(other) = any_stored(rng, state) {
                *entry_at(state, other) = rng.pick(&[UNMAPPED, HOLE, stored(block)]);
            }
        }
        _ => state.bits[block % MOST_BLOCKS] ^= true,
    }
}

type Place = (usize, usize, usize);

/// The entries of present files for which the condition holds.
fn entries(state: &State, holds: impl Fn(&FileRecord, usize) -> bool) -> Vec<Place> {
    let mut list = Vec::new();
    for (set, file) in files(state, |_, record| record.is_present()) {
        for page in 0..PAGES {
            if holds(&state.files[set][file], page) {
                list.push((set, file, page));
            }
        }
    }
    list
}

fn stored_entries(state: &State) -> Vec<Place> {
    entries(state, |record, page| record.entries[page].kind == Kind::Stored)
}

fn entry_at(state: &mut State, place: Place) -> &mut Entry {
    &mut state.files[place.0][place.1].entries[place.2]
}

/// The files for which the condition on set number and record holds.
fn files(state: &State, holds: impl Fn(usize, &FileRecord) -> bool) -> Vec<(usize, usize)> {
    let mut list = Vec::new();
    for set in 0..SETS {
        for file in 0..FILES {
            if holds(set, &state.files[set][file]) {
                list.push((set, file));
            }
        }
    }
    list
}

fn sets(state: &State, holds: impl Fn(usize, &SetRecord) -> bool) -> Vec<usize> {
    (0..SETS).filter(|set| holds(*set, &state.sets[*set])).collect()
}

fn free_block(rng: &mut Rng, state: &State) -> Option<usize> {
    let free: Vec<usize> = (0..state.block_count).filter(|block| !state.bits[*block]).collect();
    rng.pick_any(&free)
}

/// Breaks a rule in a well-formed state; None if there is no place for it.
fn break_rule(rng: &mut Rng, state: &mut State, rule: Rule) -> Option<()> {
    match rule {
        Rule::TablesLength => return None,
        Rule::BlockCount => state.block_count = rng.pick(&[0, 0, 4_097, 4_098, 8_191]),
        Rule::NextStart => break_next_start(rng, state)?,
        Rule::PagesLength => break_pages_length(rng, state)?,
        Rule::HeaderZero => state.header_zero = rng.between(1, 127),
        Rule::SetZero => {
            let set = rng.pick_any(&sets(state, |_, record| record.used))?;
            state.sets[set].zero = rng.between(1, 127);
        }
        Rule::FileZero => {
            let (set, file) = rng.pick_any(&files(state, |_, record| record.is_present()))?;
            state.files[set][file].zero = rng.between(1, (1 << 14) - 1);
        }
        Rule::KindThree => break_kind(rng, state)?,
        Rule::BlockNotStored => break_block_not_stored(rng, state)?,
        Rule::UnusedSetNotZero => break_unused_set(rng, state)?,
        Rule::AbsentFileNotZero => break_absent_file(rng, state)?,
        Rule::UnusedSetHasFile => break_unused_set_has_file(rng, state)?,
        Rule::BlockTooHigh => break_block_too_high(rng, state)?,
        Rule::BlockNamedTwice => break_named_twice(rng, state)?,
        Rule::BitWithoutEntry => {
            let free: Vec<usize> = (0..MOST_BLOCKS).filter(|block| !state.bits[*block]).collect();
            let near: Vec<usize> =
                free.iter().copied().filter(|b| *b <= state.block_count).collect();
            let list = if rng.percent(70) && !near.is_empty() { near } else { free };
            state.bits[rng.pick_any(&list)?] = true;
        }
        Rule::EntryWithoutBit => {
            let place = rng.pick_any(&stored_entries(state))?;
            let block = entry_at(state, place).block;
            state.bits[block] = false;
        }
        Rule::Set0NotUsed => {
            state.sets[0].used = false;
            if rng.percent(30) {
                state.sets[0] = UNUSED_SET;
            }
        }
        Rule::Set0NotWriteable => state.sets[0].writeable = false,
        Rule::Set0Level => break_set_0_level(rng, state),
        Rule::Set0Parent => state.sets[0].parent = other_link(rng, state),
        Rule::Set0Sibling => state.sets[0].next_sibling = other_link(rng, state),
        Rule::NoParent => {
            let set = rng.pick_any(&sets(state, |set, record| set != 0 && record.used))?;
            if rng.percent(70) {
                skip_in_chain(state, set);
            }
            state.sets[set].parent = NONE;
        }
        Rule::NotOnceInChain => {
            let set = rng.pick_any(&sets(state, |set, record| set != 0 && record.used))?;
            skip_in_chain(state, set);
        }
        Rule::LevelWrong => {
            let set = rng.pick_any(&sets(state, |set, record| set != 0 && record.used))?;
            state.sets[set].level = (state.sets[set].level + rng.between(1, 5)) % 6;
        }
        Rule::LevelOver5 => break_level_over_5(rng, state)?,
        Rule::ChainEndless => {
            let parent = rng.pick_any(&sets(state, |_, r| r.used && r.first_child != NONE))?;
            let chain = state.children(parent);
            state.sets[*chain.last()?].next_sibling = rng.pick(&chain);
        }
        Rule::ChainForeign => break_chain_foreign(rng, state)?,
        Rule::LinkBad => break_link(rng, state)?,
        Rule::FirstNotBelowEnd => break_first_day(rng, state)?,
        Rule::EndDayOver => break_end_day(rng, state)?,
        Rule::SizeOver => {
            let own = files(state, |_, record| record.state == FileState::Own);
            let present = files(state, |_, record| record.is_present());
            let list = if rng.percent(80) { own } else { present };
            let (set, file) = rng.pick_any(&list)?;
            let random = rng.between(32_769, 65_535);
            state.files[set][file].size = rng.pick(&[32_769, 65_535, random]);
        }
        Rule::VirginSize => {
            let list = files(state, |_, record| record.state == FileState::Virgin);
            let (set, file) = rng.pick_any(&list)?;
            state.files[set][file].size = rng.between(1, LARGEST_SIZE);
        }
        Rule::VirginMapped => break_mapped(rng, state, FileState::Virgin)?,
        Rule::MarkedSize => {
            let list = files(state, |_, record| record.state == FileState::Marked);
            let (set, file) = rng.pick_any(&list)?;
            let random = rng.between(1, LARGEST_SIZE);
            state.files[set][file].size = rng.pick(&[1, 512, LARGEST_SIZE, random]);
        }
        Rule::MarkedMapped => break_mapped(rng, state, FileState::Marked)?,
        Rule::Set0State => break_set_0_state(rng, state)?,
        Rule::Set0Unmapped => {
            let list = entries(state, |record, page| record.entries[page].kind == Kind::Hole);
            let list: Vec<Place> = list.into_iter().filter(|place| place.0 == 0).collect();
            let place = rng.pick_any(&list)?;
            *entry_at(state, place) = UNMAPPED;
        }
        Rule::UnmappedNoParentFile => break_unmapped(rng, state)?,
        Rule::PastSizeStored => break_past_size(rng, state)?,
    }
    Some(())
}

fn break_next_start(rng: &mut Rng, state: &mut State) -> Option<()> {
    if state.block_count >= MOST_BLOCKS {
        return None;
    }
    let random = rng.between(state.block_count, MOST_BLOCKS - 1);
    state.next_start = rng.pick(&[state.block_count, MOST_BLOCKS - 1, random]);
    Some(())
}

/// Another block count in range that no block and no next start denies.
fn break_pages_length(rng: &mut Rng, state: &mut State) -> Option<()> {
    let lowest = (0..MOST_BLOCKS).rev().find(|block| state.bits[*block]).map_or(0, |b| b + 1);
    let lowest = lowest.max(state.next_start + 1);
    let list: Vec<usize> = (lowest..=MOST_BLOCKS).filter(|c| *c != state.block_count).collect();
    let near: Vec<usize> =
        list.iter().copied().filter(|count| count.abs_diff(state.block_count) == 1).collect();
    let list = if rng.percent(50) && !near.is_empty() { near } else { list };
    state.block_count = rng.pick_any(&list)?;
    Some(())
}

fn break_kind(rng: &mut Rng, state: &mut State) -> Option<()> {
    let mapped = entries(state, |record, page| record.entries[page].kind == Kind::Hole);
    let all = entries(state, |record, page| record.entries[page].kind != Kind::Stored);
    let list = if rng.percent(80) && !mapped.is_empty() { mapped } else { all };
    let place = rng.pick_any(&list)?;
    entry_at(state, place).kind = Kind::Bad;
    Some(())
}

fn break_block_not_stored(rng: &mut Rng, state: &mut State) -> Option<()> {
    let list = entries(state, |record, page| record.entries[page].kind != Kind::Stored);
    let place = rng.pick_any(&list)?;
    let random = rng.between(1, (1 << 14) - 1);
    entry_at(state, place).block = rng.pick(&[1, 4_095, (1 << 14) - 1, random]);
    Some(())
}

fn break_unused_set(rng: &mut Rng, state: &mut State) -> Option<()> {
    let set = rng.pick_any(&sets(state, |_, record| !record.used))?;
    let record = &mut state.sets[set];
    match rng.below(8) {
        0 => record.writeable = true,
        1 => record.level = rng.between(1, 7),
        2 => record.parent = NONE,
        3 => record.first_child = NONE,
        4 => record.next_sibling = NONE,
        5 => record.first_day = rng.pick(&[1, LATEST_END, (1 << 16) - 1]),
        // The default term among others.
        6 => record.end_day = rng.pick(&[1, LATEST_END, LATEST_END, (1 << 16) - 1]),
        _ => (record.first_day, record.end_day) = (rng.between(1, 100), rng.between(101, 9_999)),
    }
    Some(())
}

/// A first day at the end day or over it, the end day being at most 36,525.
fn break_first_day(rng: &mut Rng, state: &mut State) -> Option<()> {
    let set = rng.pick_any(&sets(state, |_, record| record.used))?;
    let any_end = rng.below(LATEST_END + 1);
    let record = &mut state.sets[set];
    record.end_day = rng.pick(&[record.end_day, record.end_day, any_end, 0]);
    let random = rng.between(record.end_day, (1 << 16) - 1);
    record.first_day = rng.pick(&[record.end_day, record.end_day, random, (1 << 16) - 1]);
    Some(())
}

/// An end day over 36,525, the first day being below it.
fn break_end_day(rng: &mut Rng, state: &mut State) -> Option<()> {
    let set = rng.pick_any(&sets(state, |_, record| record.used))?;
    let random = rng.between(LATEST_END + 1, (1 << 16) - 1);
    let record = &mut state.sets[set];
    record.end_day = rng.pick(&[LATEST_END + 1, (1 << 16) - 1, random]);
    let any_first = rng.below(record.end_day);
    record.first_day = rng.pick(&[record.first_day, record.end_day - 1, any_first]);
    Some(())
}

fn break_absent_file(rng: &mut Rng, state: &mut State) -> Option<()> {
    let (set, file) = rng.pick_any(&files(state, |_, record| !record.is_present()))?;
    let page = rng.below(PAGES);
    let block = free_block(rng, state);
    let record = &mut state.files[set][file];
    match (rng.below(3), block) {
        (0, _) => record.size = rng.between(1, LARGEST_SIZE),
        (1, Some(block)) => {
            record.entries[page] = stored(block);
            state.bits[block] = true;
        }
        _ => record.entries[page] = HOLE,
    }
    Some(())
}

/// A file without entries, or an own one with all holes and perhaps a stored page.
fn break_unused_set_has_file(rng: &mut Rng, state: &mut State) -> Option<()> {
    let set = rng.pick_any(&sets(state, |_, record| !record.used))?;
    let (file, page) = (rng.below(FILES), rng.below(PAGES));
    let block = free_block(rng, state).filter(|_| rng.percent(50));
    let record = &mut state.files[set][file];
    record.state = rng.pick(&[FileState::Own, FileState::Virgin, FileState::Marked]);
    if record.state == FileState::Own {
        record.entries = [HOLE; PAGES];
        if let Some(block) = block {
            record.entries[page] = stored(block);
            record.size = page * PAGE_BYTES + rng.between(1, PAGE_BYTES);
            state.bits[block] = true;
        }
    }
    Some(())
}

fn break_block_too_high(rng: &mut Rng, state: &mut State) -> Option<()> {
    let place = rng.pick_any(&stored_entries(state))?;
    let random = rng.between(state.block_count, (1 << 14) - 1);
    let high = rng.pick(&[state.block_count, MOST_BLOCKS, (1 << 14) - 1, random]);
    let low = entry_at(state, place).block;
    entry_at(state, place).block = high;
    state.bits[low] = false;
    if high < MOST_BLOCKS {
        state.bits[high] = true;
    }
    Some(())
}

fn break_named_twice(rng: &mut Rng, state: &mut State) -> Option<()> {
    let first = rng.pick_any(&stored_entries(state))?;
    let block = entry_at(state, first).block;
    let holes = entries(state, |record, page| {
        record.entries[page].kind == Kind::Hole && page * PAGE_BYTES < record.size
    });
    let stored_list = stored_entries(state);
    let list = if rng.percent(50) && !holes.is_empty() { holes } else { stored_list };
    let list: Vec<Place> = list.into_iter().filter(|place| *place != first).collect();
    let second = rng.pick_any(&list)?;
    let before = *entry_at(state, second);
    state.free_entry(before);
    *entry_at(state, second) = stored(block);
    Some(())
}

/// A link other than 8.
fn other_link(rng: &mut Rng, state: &State) -> usize {
    if rng.percent(80) {
        rng.pick(&sets(state, |_, record| record.used))
    } else {
        rng.pick(&[1, 7, 9, 15])
    }
}

/// Mostly all levels are raised alike, where the highest allows it.
fn break_set_0_level(rng: &mut Rng, state: &mut State) {
    let highest = state.sets.iter().map(|record| record.level).max().unwrap_or(0);
    if highest < HIGHEST_LEVEL && rng.percent(70) {
        let more = rng.between(1, HIGHEST_LEVEL - highest);
        for record in state.sets.iter_mut().filter(|record| record.used) {
            record.level += more;
        }
    } else {
        state.sets[0].level = rng.between(1, 7);
    }
}

/// The link that names a set becomes the link that it has.
fn skip_in_chain(state: &mut State, set: usize) {
    let after = state.sets[set].next_sibling;
    let parent = state.sets[set].parent;
    if state.sets[parent].first_child == set {
        state.sets[parent].first_child = after;
    }
    for sibling in state.children(parent) {
        if state.sets[sibling].next_sibling == set {
            state.sets[sibling].next_sibling = after;
        }
    }
}

/// Sets below the deepest one down to level 6, where there are enough unused
/// numbers, else a level that is wrong too.
fn break_level_over_5(rng: &mut Rng, state: &mut State) -> Option<()> {
    let mut parent =
        *sets(state, |_, record| record.used).iter().max_by_key(|set| state.sets[**set].level)?;
    let mut unused = sets(state, |_, record| !record.used);
    if state.sets[parent].level + unused.len() > HIGHEST_LEVEL {
        while state.sets[parent].level <= HIGHEST_LEVEL {
            let set = unused.swap_remove(rng.below(unused.len()));
            add_child(state, parent, set);
            parent = set;
        }
        return Some(());
    }
    let set = rng.pick_any(&sets(state, |set, record| set != 0 && record.used))?;
    state.sets[set].level = rng.between(6, 7);
    Some(())
}

/// Adds a set without files as the last child, at any level.
fn add_child(state: &mut State, parent: usize, set: usize) {
    match state.children(parent).last() {
        Some(last) => state.sets[*last].next_sibling = set,
        None => state.sets[parent].first_child = set,
    }
    state.sets[set] = SetRecord {
        used: true,
        writeable: true,
        level: state.sets[parent].level + 1,
        parent,
        first_child: NONE,
        next_sibling: NONE,
        zero: 0,
        first_day: 0,
        end_day: LATEST_END,
    };
}

fn break_chain_foreign(rng: &mut Rng, state: &mut State) -> Option<()> {
    let used = sets(state, |_, record| record.used);
    let parent = rng.pick(&used);
    let foreign: Vec<usize> =
        used.into_iter().filter(|set| state.sets[*set].parent != parent).collect();
    let set = rng.pick_any(&foreign)?;
    match state.children(parent).last() {
        Some(last) => state.sets[*last].next_sibling = set,
        None => state.sets[parent].first_child = set,
    }
    Some(())
}

/// Mostly a link that was 8, so that no other rule breaks.
fn break_link(rng: &mut Rng, state: &mut State) -> Option<()> {
    let mut bad = sets(state, |_, record| !record.used);
    bad.extend([9, 10, 15]);
    let link = rng.pick(&bad);
    let set = rng.pick_any(&sets(state, |_, record| record.used))?;
    let keeps_others = rng.percent(70);
    let record = &mut state.sets[set];
    if record.first_child == NONE && rng.percent(50) {
        record.first_child = link;
    } else if record.next_sibling == NONE && set != 0 && keeps_others {
        record.next_sibling = link;
    } else if rng.percent(50) && set != 0 {
        record.parent = link;
    } else {
        record.first_child = link;
    }
    Some(())
}

/// An entry of a file that is to have only unmapped ones becomes a hole or stored.
fn break_mapped(rng: &mut Rng, state: &mut State, of: FileState) -> Option<()> {
    let list = files(state, |_, record| record.state == of);
    let (set, file) = rng.pick_any(&list)?;
    let page = rng.below(PAGES);
    let block = free_block(rng, state);
    match block {
        Some(block) if rng.percent(40) => {
            state.bits[block] = true;
            state.files[set][file].entries[page] = stored(block);
        }
        _ => state.files[set][file].entries[page] = HOLE,
    }
    Some(())
}

/// A file of set 0, mostly one that no child depends on, becomes marked or virgin, mostly
/// with all entries unmapped; sometimes it keeps what it has.
fn break_set_0_state(rng: &mut Rng, state: &mut State) -> Option<()> {
    let present = files(state, |set, record| set == 0 && record.is_present());
    let alone: Vec<(usize, usize)> = present
        .iter()
        .copied()
        .filter(|(_, file)| {
            state.children(0).iter().all(|child| {
                let record = &state.files[*child][*file];
                !record.is_own_or_virgin() || !record.has_unmapped()
            })
        })
        .collect();
    let list = if alone.is_empty() { present } else { alone };
    let (set, file) = rng.pick_any(&list)?;
    if rng.percent(80) {
        state.drop_file(set, file);
    }
    state.files[set][file].state = rng.pick(&[FileState::Marked, FileState::Virgin]);
    Some(())
}

/// An unmapped entry in a file whose parent's file is not own or virgin, or a
/// parent's file taken away or marked under one that has such entries.
fn break_unmapped(rng: &mut Rng, state: &mut State) -> Option<()> {
    let lonely: Vec<(usize, usize)> = files(state, |set, record| {
        set != 0 && record.state == FileState::Own && record.entries.contains(&HOLE)
    })
    .into_iter()
    .filter(|(set, file)| !state.files[state.sets[*set].parent][*file].is_own_or_virgin())
    .collect();
    if let (Some((set, file)), true) = (rng.pick_any(&lonely), rng.percent(50)) {
        let page = state.files[set][file].entries.iter().position(|entry| *entry == HOLE)?;
        state.files[set][file].entries[page] = UNMAPPED;
        return Some(());
    }
    let dependent = files(state, |set, r| set != 0 && r.is_own_or_virgin() && r.has_unmapped());
    let (set, file) = rng.pick_any(&dependent)?;
    let parent = state.sets[set].parent;
    if parent != 0 && rng.percent(50) {
        state.clear_marked(parent, file);
    } else {
        state.drop_file(parent, file);
    }
    Some(())
}

/// A size at or before a page that resolves to stored.
fn break_past_size(rng: &mut Rng, state: &mut State) -> Option<()> {
    let mut list = Vec::new();
    for (set, file) in files(state, |_, record| record.state == FileState::Own) {
        for page in 0..PAGES {
            if state.resolve(set, file, page) != Resolved::Hole {
                list.push((set, file, page));
            }
        }
    }
    let (set, file, page) = rng.pick_any(&list)?;
    let at_most = page * PAGE_BYTES;
    let random = rng.between(0, at_most);
    state.files[set][file].size = rng.pick(&[at_most, at_most, random]);
    Some(())
}
