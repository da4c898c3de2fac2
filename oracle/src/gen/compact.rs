//! Random compactions, stores whose blocks stand in any order, and histories in which
//! blocks are scattered and pulled together.

use super::*;

/// Lengths of a spare page that are refused.
pub const WRONG_SPARES: [usize; 9] = [0, 1, 2, 256, 511, 513, 1_023, 1_024, TABLES_BYTES];

fn compact() -> Item {
    Item::Call(Call::Compact {})
}

/// Any bytes in the spare page, or zeros.
fn any_spare(rng: &mut Rng) -> Item {
    Item::Fill { buffer: Buffer::Spare, seed: data_seed(rng) }
}

/// A compaction on any store: with the spare page as it was left or with any bytes in it,
/// sometimes after one that is refused for the spare page's length, sometimes twice.
pub fn compaction(rng: &mut Rng) -> Vec<Item> {
    let mut items = Vec::new();
    if rng.percent(25) {
        items.push(length_of(Buffer::Spare, rng.pick(&WRONG_SPARES)));
        if rng.percent(70) {
            items.push(any_spare(rng));
        }
        items.extend([compact(), length_of(Buffer::Spare, PAGE_BYTES)]);
    }
    if rng.percent(30) {
        items.push(any_spare(rng));
    }
    items.push(compact());
    if rng.percent(15) {
        items.push(compact());
    }
    items
}

/// Compactions with a spare page of this length, on tables in which a rule is broken, on
/// tables and pages of wrong lengths, and on well-formed ones. In these byte 518 is 0: the
/// zero field of set 0, and the last bit of its next sibling, which is 8.
pub fn compactions_with(rng: &mut Rng, spare: usize, pages_length: usize) -> Vec<Item> {
    let set_zero = |value: u8| Item::Poke { buffer: Buffer::Tables, at: 518, value };
    let mut items = vec![length_of(Buffer::Spare, spare), any_spare(rng)];
    items.extend([set_zero(rng.between(1, 127) as u8), compact(), set_zero(0)]);
    for (buffer, right) in [(Buffer::Tables, TABLES_BYTES), (Buffer::Pages, pages_length)] {
        items.extend([length_of(buffer, right + 1), compact(), length_of(buffer, right)]);
    }
    items.extend([compact(), compact()]);
    // Shorter ones lose bytes, so they come last.
    for (buffer, right) in [(Buffer::Pages, pages_length), (Buffer::Tables, TABLES_BYTES)] {
        let shorter = [0, 1, right - 1];
        items.extend([length_of(buffer, rng.pick(&shorter)), compact()]);
    }
    items
}

/// How the stored entries of a store, by set, file and page, name its used blocks.
#[derive(Clone, Copy, PartialEq, Eq, Debug)]
pub enum Order {
    /// 0, 1, 2 and so on: nothing is to move.
    Right,
    /// 1, 2, 3 and so on, and 0 last: one cycle of all.
    Turned,
    /// The highest first: exchanges.
    Reversed,
    /// As many blocks from 0 up, in any order.
    Shuffled,
    /// The highest blocks of all, in order: chains that end in free blocks.
    High,
    /// Any blocks.
    Spread,
}

impl Order {
    pub const ALL: [Order; 6] =
        [Order::Right, Order::Turned, Order::Reversed, Order::Shuffled, Order::High, Order::Spread];

    /// So many of these blocks, in this order.
    fn blocks(self, rng: &mut Rng, used: usize, block_count: usize) -> Vec<usize> {
        let mut blocks: Vec<usize> = match self {
            Order::High => (block_count - used..block_count).collect(),
            Order::Spread => (0..block_count).collect(),
            _ => (0..used).collect(),
        };
        match self {
            Order::Turned if used > 0 => blocks.rotate_left(1),
            Order::Reversed => blocks.reverse(),
            Order::Shuffled | Order::Spread => rng.shuffle(&mut blocks),
            _ => {}
        }
        blocks.truncate(used);
        blocks
    }
}

/// Gives the stored entries of well-formed tables other blocks, in this order, whatever
/// these hold, and another next start; before, some sets become read-only or writeable.
pub fn reorder(rng: &mut Rng, tables: &mut [u8], order: Order) {
    let mut state = State::unpack(tables);
    let block_count = state.block_count;
    for _ in 0..rng.below(4) {
        // Without a set beside set 0 nothing changes.
        let _ = twist_writeable(rng, &mut state);
    }
    let places = stored_entries(&state);
    let used = places.len();
    state.bits.fill(false);
    for (place, block) in places.into_iter().zip(order.blocks(rng, used, block_count)) {
        entry_at(&mut state, place).block = block;
        state.bits[block] = true;
    }
    let random = rng.below(block_count);
    let after = used % block_count;
    state.next_start = rng.pick(&[after, after, random, block_count - 1]);
    state.pack(tables);
}

/// A store of this many blocks that are all used, in sets whose numbers are not in the
/// order of making.
pub fn full_store(rng: &mut Rng, block_count: usize) -> Made {
    let sets = block_count.div_ceil(FILES * PAGES);
    let mut others: Vec<u32> = (1..SETS as u32).collect();
    rng.shuffle(&mut others);
    let calls = fill_sets(rng, &others[..sets - 1], block_count);
    let start = begin(style(rng, block_count), calls, Vec::new());
    made_from(rng, start, 0)
}

/// A format, and calls that scatter blocks (see `scatter_blocks`), often with a file
/// marked in a full store; then compactions with writes and drops between them. In the
/// turns that follow compactions come often.
pub fn compact_start(rng: &mut Rng, block_count: usize) -> Start {
    let mut style = style(rng, block_count);
    style.weights[COMPACT] = 90;
    let mut scene = Scene::new(rng, &style);
    let mut files: Vec<u32> = (0..FILES as u32).collect();
    rng.shuffle(&mut files);
    style.files = files[..rng.between(1, 4)].to_vec();
    scene.file = style.files[0];
    let marks = rng.percent(40);
    if marks && rng.percent(50) {
        mark_in_full_store(rng, &mut scene);
    }
    scatter_blocks(rng, &mut scene, &style.files);
    if marks {
        mark_in_full_store(rng, &mut scene);
    }
    let calls = std::mem::take(&mut scene.calls);
    for _ in 0..rng.between(1, 3) {
        scene.add(Call::Compact {});
        for _ in 0..rng.below(6) {
            scatter_once(rng, &mut scene, &style.files);
        }
    }
    scene.add(Call::Compact {});
    begin(style, calls, scene.calls)
}

/// Files in set 0 and in sets made from it and from each other, whose numbers are not in
/// the order of making, some of them read-only; pages of these files written in turn, so
/// that the blocks of one stand between those of others, and copies of them; files cut
/// and deleted, which leaves free blocks between.
fn scatter_blocks(rng: &mut Rng, scene: &mut Scene, files: &[u32]) {
    for file in files {
        scene.add(Call::Create { set: 0, file: *file });
    }
    for _ in 0..rng.between(3, 24) {
        scatter_once(rng, scene, files);
    }
}

fn scatter_once(rng: &mut Rng, scene: &mut Scene, files: &[u32]) {
    let used = used_sets(&scene.beside);
    match rng.below(20) {
        0..=9 => write_somewhere(rng, scene),
        10 | 11 => drop(scene.make(rng.pick(&used), rng.pick(&[0, 1, 1]))),
        12 | 13 => {
            let (set, file) = (rng.pick(&used), rng.pick(files));
            scene.add(Call::Create { set, file });
        }
        14..=17 => drop_somewhere(rng, scene),
        18 => {
            let set = rng.pick(&used);
            scene.add(set_term_call(rng, set));
        }
        _ => {
            let set = rng.pick(&used);
            scene.add(Call::Remove { set });
        }
    }
}

/// A term that is not the default.
fn set_term_call(rng: &mut Rng, set: u32) -> Call {
    let (year, months) = (rng.between(1998, 2097) as u32, rng.between(1, 120) as u32);
    Call::SetTerm { set, year, month: 6, day: 15, months }
}

/// One or two of the first pages of any file, narrowly or by groups.
fn write_somewhere(rng: &mut Rng, scene: &mut Scene) {
    let Some(target) = rng.pick_any(&changeable_files(&scene.beside)) else { return };
    let offset = (rng.below(6) * PAGE_BYTES) as u32 + rng.pick(&[0, 0, 100]);
    let length = rng.pick(&[1, 512, 512, 512, 1_024]);
    let index = rng.pick(&[WRITE, WRITE_NARROW, WRITE_NARROW]);
    scene.add(write_call(rng, index, target, offset, length));
}

/// A file is cut or deleted.
fn drop_somewhere(rng: &mut Rng, scene: &mut Scene) {
    let Some((set, file)) = rng.pick_any(&changeable_files(&scene.beside)) else { return };
    let size = rng.below(5 * PAGE_BYTES) as u32;
    scene.add(rng.pick(&[Call::Delete { set, file }, Call::Truncate { set, file, size }]));
}

/// The file of a set made from set 0 has a page of its own and needs another one; with no
/// block free, a write of that page in set 0 marks it, and its block comes free.
fn mark_in_full_store(rng: &mut Rng, scene: &mut Scene) {
    scene.add(Call::Create { set: 0, file: scene.file });
    for page in [0, 1] {
        scene.write(rng, 0, page * PAGE_BYTES as u32);
    }
    let Some(child) = scene.make(0, 1) else { return };
    scene.write(rng, child, 0);
    if rng.percent(40) {
        scene.make(child, 1);
    }
    fill_up(rng, scene, 0);
    scene.write(rng, 0, PAGE_BYTES as u32);
}
