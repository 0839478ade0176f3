//! Checking an image in one pass over its words. Levels are followed by their
//! starts alone: a level's nodes all come before their children if its first one does.

use super::bits::{below, bit, entry, gather, is_clear_from, load, ones, select_in_word, word};
use range_filter_tests::reference::build::EXTRA_LABEL;
use range_filter_tests::reference::check::{header_is_valid, lengths_are_valid};
use range_filter_tests::reference::format::{
    frame, Frame, DC, DENSE_BLOCK, DL, DP, LV, NODE_BITS, RC, RL, RP, RS, SAMPLE, SB, SC, SL,
    SPARSE_BLOCK, SV, TS,
};
use range_filter_tests::reference::keys::MAX_KEY;
use std::ops::Range;

/// The words of a dense node.
const NODE_WORDS: usize = NODE_BITS / 64;

/// An accepted image with what the questions need of its pass.
pub struct Accepted<'a> {
    pub frame: Frame<'a>,
    pub levels: Levels,
    pub dense: Counts,
}

/// The levels met so far: how many, the node that starts the next one, and what is
/// passed where each one starts.
pub struct Levels {
    pub count: usize,
    next: usize,
    pub starts: [Counts; MAX_KEY],
}

/// The nodes, continuing branches and leaves passed so far.
#[derive(Clone, Copy, Default)]
pub struct Counts {
    pub nodes: usize,
    pub children: usize,
    pub leaves: usize,
}

/// A pass over the nodes in level order, with the dense labels and prefix keys passed
/// so far. Faults of the tables and slots are only noted, since faults of the trie
/// come first.
struct Pass<'a> {
    frame: &'a Frame<'a>,
    counts: Counts,
    labels: usize,
    prefix_keys: usize,
    levels: Levels,
    rank_is_wrong: bool,
    slot_is_wrong: bool,
}

/// Sixty-four sparse entries: S-LOUDS, the last entries of nodes, S-HasChild and the
/// bits that are in use.
#[derive(Clone, Copy)]
struct Entries {
    index: usize,
    louds: u64,
    ends: u64,
    children: u64,
    used: u64,
}

/// Gives 0 for an accepted image, else the smallest of 11 to 16 that applies.
pub fn check(image: &[u8]) -> u32 {
    match accept(image) {
        Ok(_) => 0,
        Err(number) => number,
    }
}

/// Accepts an image or gives the number of its fault.
pub fn accept(image: &[u8]) -> Result<Accepted<'_>, u32> {
    let frame = frame(image).ok_or(11_u32)?;
    if !header_is_valid(&frame.header) || !lengths_are_valid(&frame) {
        return Err(12);
    }
    if !spare_bits_are_clear(&frame) {
        return Err(13);
    }
    let mut pass = Pass::new(&frame);
    let dense = pass.trie().ok_or(14_u32)?;
    if pass.rank_is_wrong || !level_starts_are_valid(&frame, &pass.levels) {
        return Err(15);
    }
    if pass.slot_is_wrong || !late_slots_are_valid(&frame, &pass.levels) {
        return Err(16);
    }
    let levels = pass.levels;
    Ok(Accepted {
        frame,
        levels,
        dense,
    })
}

/// Judges that LV, if the image has it, is the first node of each level.
fn level_starts_are_valid(frame: &Frame, levels: &Levels) -> bool {
    let starts = &levels.starts[..levels.count];
    let mut numbered = starts.iter().enumerate();
    !frame.header.has_level_starts()
        || frame.bodies[LV].len() == 4 * starts.len()
            && numbered.all(|(level, start)| entry(frame.bodies[LV], level) == start.nodes)
}

/// Judges the bits behind the last one of each body before LV.
fn spare_bits_are_clear(frame: &Frame) -> bool {
    let mut bodies = frame.header.body_bits().into_iter().zip(frame.bodies);
    bodies.all(|(bits, body)| bits % 8 == 0 || body[body.len() - 1] >> (bits % 8) == 0)
}

/// Reads a slot, the first bit lowest.
#[inline]
pub fn slot(frame: &Frame, number: usize) -> u64 {
    let width = frame.header.settings.slot_bits() as usize;
    if width == 0 {
        return 0;
    }
    let position = number * width;
    load(frame.bodies[SV], position / 8) >> (position % 8) & below(width)
}

/// Judges the real bits of cut keys of 63 and 64 bytes, whose slots are the last ones: of the
/// former those behind the first eight, of the latter all. Where slots have no hash bits, all
/// bits of the latter are looked at together.
fn late_slots_are_valid(frame: &Frame, levels: &Levels) -> bool {
    let leaves = frame.header.leaves as usize;
    let starts = &levels.starts[..levels.count];
    let start = |level: usize| starts.get(level).map_or(leaves, |start| start.leaves);
    let [of_63_bytes, of_64_bytes] = [start(MAX_KEY - 2), start(MAX_KEY - 1)];
    let [h, n] = [frame.header.settings.h, frame.header.settings.n].map(|bits| bits as usize);
    let of_64_are_valid = match h {
        0 => is_clear_from(frame.bodies[SV], of_64_bytes * n),
        _ => n == 0 || slots_are_clear_behind(frame, of_64_bytes..leaves, h),
    };
    of_64_are_valid && (n <= 8 || slots_are_clear_behind(frame, of_63_bytes..of_64_bytes, h + 8))
}

/// Says whether slots have no bit set behind so many first ones; all are read, without a
/// branch.
fn slots_are_clear_behind(frame: &Frame, numbers: Range<usize>, bits: usize) -> bool {
    numbers.fold(0, |set, number| set | slot(frame, number)) >> bits == 0
}

impl Levels {
    /// Enters the level that starts behind what is passed; its children must come later,
    /// and level 64 is one too many.
    fn enter(&mut self, passed: Counts) -> bool {
        if self.count == MAX_KEY {
            return false;
        }
        self.starts[self.count] = passed;
        self.count += 1;
        self.next = passed.children + 1;
        self.next > passed.nodes
    }
}

impl<'a> Pass<'a> {
    /// Stands before the root.
    fn new(frame: &'a Frame<'a>) -> Self {
        Pass {
            frame,
            counts: Counts::default(),
            labels: 0,
            prefix_keys: 0,
            levels: Levels {
                count: 0,
                next: 0,
                starts: [Counts::default(); MAX_KEY],
            },
            rank_is_wrong: false,
            slot_is_wrong: false,
        }
    }

    /// Passes over the whole trie and gives the dense counts, or nothing where it is
    /// not a builder's trie.
    fn trie(&mut self) -> Option<Counts> {
        let header = &self.frame.header;
        let dense_nodes = header.dense_nodes as usize;
        for node in 0..dense_nodes {
            self.dense_node(node).then_some(())?;
        }
        let dense = self.counts;
        self.sparse_levels_follow().then_some(())?;
        for index in 0..(header.sparse_entries as usize).div_ceil(64) {
            let entries = Entries::load(self.frame, index);
            self.sparse_word(dense, entries).then_some(())?;
        }
        let nodes = dense_nodes + header.sparse_nodes as usize;
        let links_agree = match header.leaves {
            0 => nodes == 0,
            _ => nodes == self.counts.children + 1,
        };
        let counts_agree = nodes == self.counts.nodes
            && header.leaves as usize == self.counts.leaves
            && links_agree;
        counts_agree.then_some(dense)
    }

    /// Passes a dense node.
    fn dense_node(&mut self, node: usize) -> bool {
        let exact = bit(self.frame.bodies[DP], node);
        let before = self.counts;
        let level_is_valid = self.dense_level(node);
        self.dense_prefix_key(node, exact);
        let [mut labels, mut stray] = [0; 2];
        for index in node * NODE_WORDS..(node + 1) * NODE_WORDS {
            let label_bits = word(self.frame.bodies[DL], index);
            let child_bits = word(self.frame.bodies[DC], index);
            self.rank_is_wrong |= entry(self.frame.bodies[RL], index) != self.labels
                || entry(self.frame.bodies[RC], index) != self.counts.children;
            labels |= label_bits;
            stray |= child_bits & !label_bits;
            self.labels += ones(label_bits);
            self.counts.children += ones(child_bits);
            self.counts.leaves += ones(label_bits & !child_bits);
        }
        self.counts.nodes += 1;
        let sole_leaf = self.counts.leaves + self.counts.children
            == before.leaves + before.children + 1
            && self.counts.children == before.children;
        let entries_are_valid = if node == 0 { !exact } else { !sole_leaf };
        level_is_valid && labels != 0 && stray == 0 && entries_are_valid
    }

    /// Enters a level where a dense node starts one; it must be a dense level.
    fn dense_level(&mut self, node: usize) -> bool {
        node != self.levels.next
            || self.levels.enter(self.counts)
                && self.levels.count <= self.frame.header.settings.dense_levels as usize
    }

    /// Passes the bit of D-IsPrefixKey of a dense node.
    fn dense_prefix_key(&mut self, node: usize, exact: bool) {
        if node.is_multiple_of(DENSE_BLOCK) {
            let rank = entry(self.frame.bodies[RP], node / DENSE_BLOCK);
            self.rank_is_wrong |= rank != self.prefix_keys;
        }
        if exact {
            self.slot_is_wrong |= slot(self.frame, self.counts.leaves) != 0;
            self.prefix_keys += 1;
            self.counts.leaves += 1;
        }
    }

    /// Judges that the first sparse node, if there is one, starts the first sparse
    /// level.
    fn sparse_levels_follow(&self) -> bool {
        let header = &self.frame.header;
        header.sparse_entries == 0
            || bit(self.frame.bodies[SB], 0)
                && self.levels.next == self.counts.nodes
                && self.levels.count == header.settings.dense_levels as usize
    }

    /// Passes a word of sparse entries.
    fn sparse_word(&mut self, dense: Counts, entries: Entries) -> bool {
        self.judge_tables(dense, entries);
        let is_valid = self.sparse_levels(entries)
            && entries.sole_leaves() & !self.root_entry(entries) == 0
            && self.labels_are_valid(entries);
        self.counts.nodes += ones(entries.louds);
        self.counts.children += ones(entries.children);
        self.counts.leaves += ones(entries.used & !entries.children);
        is_valid
    }

    /// Notes wrong ranks and samples of a word.
    fn judge_tables(&mut self, dense: Counts, entries: Entries) {
        let sparse_nodes = self.counts.nodes - dense.nodes;
        let sampled = sparse_nodes.next_multiple_of(SAMPLE) - sparse_nodes;
        if entries.index.is_multiple_of(SPARSE_BLOCK / 64) {
            let rank = entry(self.frame.bodies[RS], entries.index / (SPARSE_BLOCK / 64));
            self.rank_is_wrong |= rank != self.counts.children - dense.children;
        }
        if sampled < ones(entries.louds) {
            let position = entries.index * 64 + select_in_word(entries.louds, sampled);
            let sample = entry(self.frame.bodies[TS], sparse_nodes.div_ceil(SAMPLE));
            self.rank_is_wrong |= sample != position;
        }
    }

    /// Enters the levels that start in a word.
    fn sparse_levels(&mut self, entries: Entries) -> bool {
        while self.levels.next - self.counts.nodes < ones(entries.louds) {
            let nodes = self.levels.next;
            let before = below(select_in_word(entries.louds, nodes - self.counts.nodes));
            let passed = Counts {
                nodes,
                children: self.counts.children + ones(entries.children & before),
                leaves: self.counts.leaves + ones(!entries.children & before),
            };
            if !self.levels.enter(passed) {
                return false;
            }
        }
        true
    }

    /// Marks the first entry of a sparse root.
    fn root_entry(&self, entries: Entries) -> u64 {
        u64::from(entries.index == 0 && self.frame.header.dense_nodes == 0)
    }

    /// Judges the order of labels: where one inside a node is not above the label
    /// before, that one must be the extra label of an exact leaf.
    fn labels_are_valid(&mut self, entries: Entries) -> bool {
        let inside = entries.used & !entries.louds;
        if inside == 0 {
            return true;
        }
        let mut falls = falls(self.frame.bodies[SL], entries.index) & inside;
        if falls & self.root_entry(entries) << 1 != 0 {
            return false;
        }
        while falls != 0 {
            let bit = falls.trailing_zeros() as usize;
            let leaves = self.counts.leaves + ones(!entries.children & below(bit));
            if !self.is_extra_label(entries.index * 64 + bit - 1) {
                return false;
            }
            self.slot_is_wrong |= slot(self.frame, leaves - 1) != 0;
            falls &= falls - 1;
        }
        true
    }

    /// Says whether an entry before another of its node is the extra label of an
    /// exact leaf.
    fn is_extra_label(&self, position: usize) -> bool {
        self.frame.bodies[SL][position] == EXTRA_LABEL
            && bit(self.frame.bodies[SB], position)
            && !bit(self.frame.bodies[SC], position)
    }
}

impl Entries {
    /// Loads a word of sparse entries.
    fn load(frame: &Frame, index: usize) -> Self {
        let left = frame.header.sparse_entries as usize - index * 64;
        let used = if left < 64 { below(left) } else { u64::MAX };
        let next_louds = if left > 64 {
            word(frame.bodies[SB], index + 1)
        } else {
            1
        };
        let louds = word(frame.bodies[SB], index);
        Entries {
            index,
            louds,
            ends: (louds | !used) >> 1 | next_louds << 63,
            children: word(frame.bodies[SC], index),
            used,
        }
    }

    /// Marks the entries that are alone in their node and do not continue.
    fn sole_leaves(self) -> u64 {
        self.louds & self.ends & !self.children
    }
}

/// Marks the labels of a word of entries that are not above the label before.
fn falls(labels: &[u8], index: usize) -> u64 {
    let start = index * 64;
    let before = start.checked_sub(1).and_then(|before| labels.get(before..));
    match before.and_then(<[u8]>::first_chunk) {
        Some(window) => falls_in(window),
        None => falls_in(&window_at_end(labels, start)),
    }
}

/// Marks the bytes behind the first that are not above the byte before; the loop becomes
/// vector code.
#[inline]
fn falls_in(window: &[u8; 65]) -> u64 {
    let mut marks = [0; 64];
    for (mark, pair) in marks.iter_mut().zip(window.windows(2)) {
        *mark = u8::from(pair[0] >= pair[1]);
    }
    gather(&marks)
}

/// Gives the label before a word of entries and those of the word, with zeros where there
/// are none; this is rare.
#[cold]
fn window_at_end(labels: &[u8], start: usize) -> [u8; 65] {
    let mut window = [0; 65];
    let (missing, first) = match start {
        0 => (1, 0),
        _ => (0, start - 1),
    };
    let found = &labels[first..labels.len().min(start + 64)];
    window[missing..][..found.len()].copy_from_slice(found);
    window
}
