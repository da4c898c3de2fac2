//! Rows M1 to M12 of document 01, each done on a store of its own. Document 02:
//! "M11 becomes 0; 0, 0, 0 and M12 becomes 0; 0, 0, 0 with no block free." "The
//! session program and the rows of document 01 relied on the old default and now
//! ask for narrow writes."

use crate::call::*;
use crate::store;

/// A row: its case, the result the paper gives and the result found.
pub struct Row {
    pub name: &'static str,
    pub case: &'static str,
    pub wanted: &'static str,
    pub found: String,
}

impl Row {
    pub fn holds(&self) -> bool {
        self.found == self.wanted
    }
}

/// A store of some blocks, formatted.
struct Store {
    tables: Vec<u8>,
    pages: Vec<u8>,
}

impl Store {
    fn new(block_count: usize) -> Store {
        let mut store =
            Store { tables: vec![0; TABLES_BYTES], pages: vec![0; block_count * PAGE_BYTES] };
        assert_eq!(store::format(&mut store.tables, &mut store.pages), Answer::default());
        store
    }

    fn with_file(block_count: usize) -> Store {
        let mut store = Store::new(block_count);
        assert_eq!(store.create(0, 0).number, 0);
        store
    }

    fn create(&mut self, set: u32, file: u32) -> Answer {
        store::create(&mut self.tables, &mut self.pages, set, file)
    }

    fn write(&mut self, set: u32, offset: u32, length: usize) -> Answer {
        let data = data_bytes(length, 1);
        store::write_narrow(&mut self.tables, &mut self.pages, set, 0, offset, &data)
    }

    fn make(&mut self, parent: u32, set: u32) -> Answer {
        store::make(&mut self.tables, &mut self.pages, parent, set, 1)
    }

    fn remove(&mut self, set: u32) -> Answer {
        store::remove(&mut self.tables, &mut self.pages, set)
    }

    fn truncate(&mut self, set: u32, size: u32) -> Answer {
        store::truncate(&mut self.tables, &mut self.pages, set, 0, size)
    }

    fn delete(&mut self, set: u32) -> Answer {
        store::delete(&mut self.tables, &mut self.pages, set, 0)
    }

    fn read(&mut self, set: u32) -> Answer {
        store::read(&self.tables, &self.pages, set, 0, 0, &mut [0; 8])
    }

    fn free(&self) -> u32 {
        store::free(&self.tables, &self.pages).first
    }

    /// Sets 1 to `levels`, each made from the one before.
    fn make_levels(&mut self, levels: u32) {
        for set in 1..=levels {
            assert_eq!(self.make(set - 1, set).number, 0);
        }
    }
}

fn row_6() -> (Store, Answer) {
    let mut store = Store::with_file(1);
    store.write(0, 0, 1);
    store.make(0, 1);
    let answer = store.write(0, 0, 1);
    (store, answer)
}

fn row_8() -> Answer {
    let mut store = Store::with_file(1);
    store.make(0, 1);
    store.write(0, 0, 1)
}

fn row_9() -> String {
    let mut store = Store::new(1);
    store.make_levels(4);
    let from_4 = store.make(4, 5);
    let from_5 = store.make(5, 6);
    format!("{} / {}", from_4.number, from_5.number)
}

fn row_10() -> String {
    let mut store = Store::new(1);
    let without = store.remove(0);
    store.make(0, 1);
    let with = store.remove(0);
    format!("{} / {}", with.number, without.number)
}

fn row_11() -> Answer {
    let mut store = Store::with_file(8);
    store.write(0, 0, 1_024);
    store.make(0, 1);
    store.truncate(0, 512)
}

fn row_12() -> String {
    let mut store = Store::with_file(2);
    store.write(0, 0, 1_024);
    store.make(0, 1);
    let answer = store.delete(0);
    format!("{answer}, then {} free", store.free())
}

fn write_number(offset: u32, length: usize) -> String {
    Store::with_file(64).write(0, offset, length).number.to_string()
}

/// All rows in order.
pub fn rows() -> Vec<Row> {
    let row = |name, case, wanted, found| Row { name, case, wanted, found };
    vec![
        row("M1", "write ends at 32,768, room enough", "0", write_number(0, 32_768)),
        row("M2", "ends at 32,769", "7", write_number(1, 32_768)),
        row(
            "M3",
            "length 0 at 32,768",
            "0; 0, 0, 0",
            Store::with_file(64).write(0, 32_768, 0).to_string(),
        ),
        row("M4", "length 0 at 32,769", "7", write_number(32_769, 0)),
        row(
            "M5",
            "B = 1, new file, write 1 byte at 0",
            "0; 1, 0, 0",
            Store::with_file(1).write(0, 0, 1).to_string(),
        ),
        row("M6", "then set 1 made, same write in set 0", "0; 0, 0, 1", row_6().1.to_string()),
        row("M7", "then read in set 1", "6", row_6().0.read(1).number.to_string()),
        row(
            "M8",
            "B = 1, new file, set 1 made, write 1 byte in set 0",
            "0; 1, 0, 0",
            row_8().to_string(),
        ),
        row("M9", "make from level 4 / from level 5", "0 / 10", row_9()),
        row("M10", "remove set 0 with / without a child", "11 / 12", row_10()),
        row(
            "M11",
            "1,024 bytes stored, virgin child, room, truncate to 512",
            "0; 0, 0, 0",
            row_11().to_string(),
        ),
        row(
            "M12",
            "B = 2 full with one file, set 1 made, delete in set 0",
            "0; 0, 0, 0, then 0 free",
            row_12(),
        ),
    ]
}
