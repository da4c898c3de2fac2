//! The plain store of "Demand 3": whole copies, lists of bytes, endless room.
//! It is fed the arguments of accepted calls alone and knows no block, map,
//! state or table.

use crate::call::{FILES, SETS};

/// "Its sets have parent, level, writeable, children in order of making and
/// 16 files, each absent or a list of bytes, the size its length."
#[derive(Clone, PartialEq, Eq, Debug)]
pub struct PlainSet {
    pub parent: Option<usize>,
    pub level: usize,
    pub writeable: bool,
    pub children: Vec<usize>,
    pub files: Vec<Option<Vec<u8>>>,
}

#[derive(Clone, PartialEq, Eq, Debug)]
pub struct Plain {
    pub sets: Vec<Option<PlainSet>>,
}

impl Plain {
    /// "Format leaves set 0 alone, without files".
    pub fn format() -> Plain {
        let root = PlainSet {
            parent: None,
            level: 0,
            writeable: true,
            children: Vec::new(),
            files: vec![None; FILES],
        };
        let mut sets = vec![None; SETS];
        sets[0] = Some(root);
        Plain { sets }
    }

    pub fn set(&self, set: usize) -> &PlainSet {
        self.sets[set].as_ref().expect("a used set")
    }

    fn set_mut(&mut self, set: usize) -> &mut PlainSet {
        self.sets[set].as_mut().expect("a used set")
    }

    fn list_mut(&mut self, set: usize, file: usize) -> &mut Vec<u8> {
        self.set_mut(set).files[file].as_mut().expect("a present file")
    }

    /// "create, an empty list"
    pub fn create(&mut self, set: usize, file: usize) {
        self.set_mut(set).files[file] = Some(Vec::new());
    }

    /// "A write fills a shorter list with zeros up to its offset, then puts
    /// its bytes there, past the end if need be." Empty writes change nothing. By
    /// which groups a write copies makes no difference here.
    pub fn write(&mut self, set: usize, file: usize, offset: usize, data: &[u8]) {
        if data.is_empty() {
            return;
        }
        let list = self.list_mut(set, file);
        while list.len() < offset {
            list.push(0);
        }
        let kept_after = list.split_off(offset);
        list.extend_from_slice(data);
        list.extend(kept_after.into_iter().skip(data.len()));
    }

    /// "Truncate cuts to t bytes or adds zeros up to t."
    pub fn truncate(&mut self, set: usize, file: usize, size: usize) {
        self.list_mut(set, file).resize(size, 0);
    }

    /// "Delete leaves the file absent."
    pub fn delete(&mut self, set: usize, file: usize) {
        self.set_mut(set).files[file] = None;
    }

    /// "Making adds a last child, one level on, writeable as asked, the
    /// parent's files copied whole."
    pub fn make(&mut self, parent: usize, set: usize, writeable: bool) {
        let above = self.set_mut(parent);
        above.children.push(set);
        let made = PlainSet {
            parent: Some(parent),
            level: above.level + 1,
            writeable,
            children: Vec::new(),
            files: above.files.clone(),
        };
        self.sets[set] = Some(made);
    }

    /// "Removing takes the set away."
    pub fn remove(&mut self, set: usize) {
        let gone = self.sets[set].take().expect("a used set");
        if let Some(parent) = gone.parent {
            self.set_mut(parent).children.retain(|child| *child != set);
        }
    }
}
