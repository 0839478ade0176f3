//! Walking the leaves in key order. Key order visits the entries of each level in their
//! order, so that one position a level is enough: the next entry of a level is the one
//! behind its last, and no step needs a rank or a select. A descent goes to the first leaf.

use super::bits::{bit, next_one};
use super::check::{accept, slot, Accepted};
use super::locate::Descent;
use super::trie::Trie;
use range_filter_tests::answer::Answer;
use range_filter_tests::reference::build::EXTRA_LABEL;
use range_filter_tests::reference::format::{DC, DL, DP, NODE_BITS, SB, SC, SL};
use range_filter_tests::reference::keys::MAX_KEY;
use range_filter_tests::reference::walk::RECORD_BYTES;

/// As many bytes FF as a key has at most, and as many zeros: from the right place on, the
/// mask that keeps the cut key of a record and clears what is behind it.
const KEPT: [u8; 2 * MAX_KEY] = {
    let mut kept = [0; 2 * MAX_KEY];
    let (ones, _) = kept.split_at_mut(MAX_KEY);
    ones.copy_from_slice(&[0xFF; MAX_KEY]);
    kept
};

/// What comes next on a level: a bit of D-Labels or a sparse entry, and a slot. Where a
/// dense level has no open node, the position is the first bit of its next node.
#[derive(Clone, Copy, Default)]
struct Cursor {
    position: usize,
    slot: usize,
}

/// A walk over an accepted image: the cursors, the levels whose node has branches left as
/// bits of a word, and the labels on the way to the last leaf.
struct Walk<'a> {
    image: &'a Accepted<'a>,
    dense_levels: usize,
    cursors: [Cursor; MAX_KEY],
    open: u64,
    labels: [u8; MAX_KEY],
}

/// A leaf whose cut key is the first labels of the walk.
struct Leaf {
    exact: bool,
    length: usize,
    slot: usize,
}

/// Writes the records of the leaves from a place on at the start of a buffer, of as many
/// leaves as it holds whole; a refusal leaves the buffer as it was.
pub fn walk(image: &[u8], place: u64, records: &mut [u8]) -> Answer {
    match accept(image) {
        Ok(image) => write_records(&Trie::new(&image), place, records),
        Err(number) => Answer::Refused(number),
    }
}

/// Writes the records of the leaves from a place of an accepted image on.
pub fn write_records(trie: &Trie, place: u64, records: &mut [u8]) -> Answer {
    let Some(left) = u64::from(trie.leaves()).checked_sub(place) else {
        return Answer::Refused(17);
    };
    let count = (records.len() / RECORD_BYTES).min(left as usize);
    let mut records = records.chunks_exact_mut(RECORD_BYTES).take(count);
    let Some(first) = records.next() else {
        return Answer::Written(0);
    };
    let mut walk = Walk::new(trie.image);
    let leaf = walk.open(trie, place as usize);
    walk.write(&leaf, first);
    for record in records {
        let leaf = walk.next_leaf();
        walk.write(&leaf, record);
    }
    Answer::Written(count * RECORD_BYTES)
}

impl<'a> Walk<'a> {
    /// Stands nowhere yet.
    fn new(image: &'a Accepted<'a>) -> Self {
        Walk {
            image,
            dense_levels: image.frame.header.settings.dense_levels as usize,
            cursors: [Cursor::default(); MAX_KEY],
            open: 0,
            labels: [0; MAX_KEY],
        }
    }

    /// Goes to the leaf at a place, which there has to be.
    fn open(&mut self, trie: &Trie, place: usize) -> Leaf {
        let descent = trie.locate(place);
        self.stand_below(trie, &descent);
        let mut leaf = None;
        for level in 0..=descent.level {
            self.cursors[level] = Cursor {
                position: descent.positions[level],
                slot: descent.before[level].slots,
            };
            let at_branch = level < descent.level || !descent.is_exact;
            self.open |= u64::from(at_branch) << level;
            leaf = self.step(level);
        }
        leaf.expect("a descent ends at a leaf")
    }

    /// Stands before what comes next on the levels below a descent.
    fn stand_below(&mut self, trie: &Trie, descent: &Descent) {
        for level in descent.level + 1..trie.levels {
            let before = descent.before[level];
            self.cursors[level] = Cursor {
                position: trie.position(descent.before[level - 1].node(), before),
                slot: before.slots,
            };
        }
    }

    /// Goes to the next leaf, which there has to be: on from the lowest node that has
    /// branches left, and down.
    #[inline]
    fn next_leaf(&mut self) -> Leaf {
        let mut level = self.open.checked_ilog2().unwrap_or(0) as usize;
        loop {
            if let Some(leaf) = self.step(level) {
                return leaf;
            }
            level += 1;
        }
    }

    /// Takes what comes next on a level, and gives the leaf where it is one.
    #[inline]
    fn step(&mut self, level: usize) -> Option<Leaf> {
        if level < self.dense_levels {
            self.dense_step(level)
        } else {
            self.sparse_step(level)
        }
    }

    /// Takes the next branch of a dense level, or the exact leaf before a node's branches,
    /// and gives the leaf where it is one.
    fn dense_step(&mut self, level: usize) -> Option<Leaf> {
        let [labels, children, prefix_keys] = [DL, DC, DP].map(|body| self.body(body));
        let mut position = self.cursors[level].position;
        let end = (position / NODE_BITS + 1) * NODE_BITS;
        if self.open >> level & 1 == 0 {
            position = next_one(labels, position, end);
            if bit(prefix_keys, end / NODE_BITS - 1) {
                self.go_on(level, position, true);
                return Some(self.leaf(level, true));
            }
        }
        let next = next_one(labels, position + 1, end);
        self.go_on(level, next, next < end);
        self.labels[level] = (position % NODE_BITS) as u8;
        (!bit(children, position)).then(|| self.leaf(level, false))
    }

    /// Takes the next entry of a sparse level, and gives the leaf where it is one. The
    /// label FF is the last one of its node unless it is the extra one.
    #[inline]
    fn sparse_step(&mut self, level: usize) -> Option<Leaf> {
        let [labels, children, louds] = [SL, SC, SB].map(|body| self.body(body));
        let entry = self.cursors[level].position;
        let label = labels[entry];
        let more = entry + 1 < labels.len() && !bit(louds, entry + 1);
        self.go_on(level, entry + 1, more);
        self.labels[level] = label;
        (!bit(children, entry)).then(|| self.leaf(level, more && label == EXTRA_LABEL))
    }

    /// Gives one of the bodies.
    #[inline]
    fn body(&self, body: usize) -> &'a [u8] {
        self.image.frame.bodies[body]
    }

    /// Notes where a level goes on, and whether this is in the same node.
    #[inline]
    fn go_on(&mut self, level: usize, position: usize, more: bool) {
        self.cursors[level].position = position;
        self.open = self.open & !(1 << level) | u64::from(more) << level;
    }

    /// Takes the next slot of a level for a leaf.
    #[inline]
    fn leaf(&mut self, level: usize, exact: bool) -> Leaf {
        let slot = self.cursors[level].slot;
        self.cursors[level].slot += 1;
        Leaf {
            exact,
            length: level + usize::from(!exact),
            slot,
        }
    }

    /// Writes the record of a leaf.
    #[inline]
    fn write(&self, leaf: &Leaf, record: &mut [u8]) {
        record[0] = if leaf.exact { 1 } else { 2 };
        record[1] = leaf.length as u8;
        let (key, suffix) = record[2..].split_at_mut(MAX_KEY);
        let kept = &KEPT[MAX_KEY - leaf.length..][..MAX_KEY];
        for ((byte, label), kept) in key.iter_mut().zip(self.labels).zip(kept) {
            *byte = label & kept;
        }
        let bits = slot(&self.image.frame, leaf.slot) as u32;
        suffix.copy_from_slice(&bits.to_le_bytes());
    }
}
