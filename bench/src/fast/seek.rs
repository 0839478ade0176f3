//! Seeks: the number of the first leaf that ends not below a start, and the key that is
//! found, which is made once.

use super::trie::{Before, Branch, Trie};
use range_filter_tests::reference::keys::MAX_KEY;
use std::cmp::Ordering;

/// A key that is made from its start on, without a heap.
pub struct Key {
    bytes: [u8; MAX_KEY],
    length: usize,
}

impl Key {
    /// Gives the empty key.
    pub fn new() -> Self {
        Key {
            bytes: [0; MAX_KEY],
            length: 0,
        }
    }

    /// Gives the bytes so far.
    pub fn bytes(&self) -> &[u8] {
        &self.bytes[..self.length]
    }

    /// Adds a byte.
    #[inline]
    fn push(&mut self, byte: u8) {
        self.bytes[self.length] = byte;
        self.length += 1;
    }

    /// Adds bytes.
    #[inline]
    fn extend_from_slice(&mut self, bytes: &[u8]) {
        self.bytes[self.length..][..bytes.len()].copy_from_slice(bytes);
        self.length += bytes.len();
    }
}

/// How far a start leads from the root.
struct Way {
    /// The level behind the last one that the start has a part in.
    level: usize,
    /// The first node of that level that is not before the start.
    node: usize,
    /// The slots before the start, summed over the levels above.
    slots: usize,
    /// Where the leaf is.
    target: Target,
}

/// Where the leaf is that a start leads to.
enum Target {
    /// At or below the node where the start ends.
    Node,
    /// On the way; the start is one of its possible keys.
    Holding,
    /// On the way; its possible keys are above the start.
    Above { slot: usize },
    /// At or below the next branch above the start, on some level, if there is one.
    Higher(Option<(usize, Branch)>),
}

impl Trie<'_> {
    /// Seeks the first leaf whose highest possible key is not below a start. Adds the
    /// greater of the start and its lowest key to an empty key, and gives its number.
    pub fn seek(&self, start: &[u8], key: &mut Key) -> Option<usize> {
        if self.is_empty() {
            return None;
        }
        let way = self.follow(start);
        let mut below = None;
        match way.target {
            Target::Node => {
                key.extend_from_slice(start);
                below = Some(way.node);
            }
            Target::Holding => key.extend_from_slice(start),
            Target::Above { slot } => {
                key.extend_from_slice(&start[..way.level]);
                self.write_real_bits(slot, key);
            }
            Target::Higher(higher) => {
                let (level, branch) = higher?;
                key.extend_from_slice(&start[..level]);
                below = self.descend(branch, way.level - level - 1, key);
            }
        }
        let slots = way.slots + self.finish(way.level, way.node, below, key);
        Some(slots - self.slots_before_levels)
    }

    /// Follows a start from the root, and keeps the last branch above it.
    fn follow(&self, start: &[u8]) -> Way {
        let [mut node, mut slots] = [0; 2];
        let mut higher = None;
        for (level, &label) in start.iter().enumerate() {
            let step = self.step(node, label);
            node = step.before.node();
            slots += step.before.slots;
            let target = match step.branch {
                None => Target::Higher(higher),
                Some(branch) if !step.on_label => Target::Higher(Some((level, branch))),
                Some(branch) => {
                    higher = self.next(branch).map(|next| (level, next)).or(higher);
                    if self.has_child(branch) {
                        continue;
                    }
                    let target = self.at_leaf(step.before.slots, &start[level + 1..]);
                    slots += usize::from(target.is_none());
                    target.unwrap_or(Target::Higher(higher))
                }
            };
            return Way {
                level: level + 1,
                node,
                slots,
                target,
            };
        }
        Way {
            level: start.len(),
            node,
            slots,
            target: Target::Node,
        }
    }

    /// Gives the target where the way ends at an open leaf with a slot, unless the leaf ends
    /// below the start.
    fn at_leaf(&self, slot: usize, behind_cut: &[u8]) -> Option<Target> {
        match self.compare_slot(slot, behind_cut) {
            Ordering::Less => None,
            Ordering::Equal => Some(Target::Holding),
            Ordering::Greater => Some(Target::Above { slot }),
        }
    }

    /// Goes down from a branch so many levels towards the first leaf, and adds the bytes of
    /// its lowest key; gives the node from which it goes on if the leaf is still below.
    fn descend(&self, branch: Branch, levels: usize, key: &mut Key) -> Option<usize> {
        let mut node = self.take(self.before(branch), branch, key)?;
        for _ in 0..levels {
            let start = self.start(node);
            node = self.take(start.before, start.branch?, key)?;
        }
        Some(node)
    }

    /// Adds the label of a branch, and the real bits where it is a leaf, with what is before
    /// it known; gives the node that it leads to.
    #[inline]
    fn take(&self, before: Before, branch: Branch, key: &mut Key) -> Option<usize> {
        key.push(self.label(branch));
        if self.has_child(branch) {
            return Some(before.node());
        }
        self.write_real_bits(before.slots, key);
        None
    }

    /// Sums the slots before a node on its level and before what is below it on the levels
    /// below; goes along to the first leaf below it where that one is still to be found.
    fn finish(
        &self,
        level: usize,
        mut node: usize,
        mut below: Option<usize>,
        key: &mut Key,
    ) -> usize {
        let mut slots = 0;
        for _ in level..self.levels {
            let before = if below.is_some() {
                let start = self.start(node);
                below = start
                    .branch
                    .and_then(|branch| self.take(start.before, branch, key));
                start.before
            } else {
                self.before_node(node)
            };
            node = before.node();
            slots += before.slots;
        }
        slots
    }

    /// Adds the real bits in a slot, less their zero bytes at the end.
    fn write_real_bits(&self, slot: usize, key: &mut Key) {
        match self.real_bits_in(slot).to_be_bytes() {
            [0, 0] => (),
            [first, 0] => key.push(first),
            both => key.extend_from_slice(&both),
        }
    }
}
