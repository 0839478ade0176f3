//! The bits of a trie, and what is counted from them: leaves, nodes, ranks and samples; and
//! the first node of each level.

use super::format::{
    bits, count32, Header, DC, DENSE_BLOCK, DL, DP, LV, NODE_BITS, RECORDS, RL, SAMPLE, SB, SC,
    SPARSE_BLOCK,
};

/// The number of tables of ranks and samples, which are the bodies from RL to TS.
pub const TABLES: usize = LV - RL;

/// The bits of DL, DC, DP, SC and SB, as many as the header's counts say.
#[derive(Clone, Debug, PartialEq, Eq)]
pub struct TrieBits {
    pub d_labels: Vec<bool>,
    pub d_has_child: Vec<bool>,
    pub d_is_prefix_key: Vec<bool>,
    pub s_has_child: Vec<bool>,
    pub s_louds: Vec<bool>,
}

impl TrieBits {
    /// Reads the bits from the bodies of an image.
    pub fn read<B: AsRef<[u8]>>(header: &Header, bodies: &[B; RECORDS]) -> Self {
        let dense_nodes = header.dense_nodes as usize;
        let entries = header.sparse_entries as usize;
        let read = |body: usize, count: usize| bits(bodies[body].as_ref(), count);
        TrieBits {
            d_labels: read(DL, dense_nodes * NODE_BITS),
            d_has_child: read(DC, dense_nodes * NODE_BITS),
            d_is_prefix_key: read(DP, dense_nodes),
            s_has_child: read(SC, entries),
            s_louds: read(SB, entries),
        }
    }

    /// Counts the leaves: branches that do not continue, and exact leaves. An exact leaf
    /// of a sparse node is an entry that does not continue.
    pub fn leaves(&self) -> usize {
        let branches = self.d_labels.iter().zip(&self.d_has_child);
        let dense_branch_leaves = branches.filter(|(label, child)| **label && !**child);
        let sparse_leaves = self.s_has_child.len() - ones(&self.s_has_child);
        dense_branch_leaves.count() + ones(&self.d_is_prefix_key) + sparse_leaves
    }

    /// Counts the sparse nodes: S-LOUDS is set at a node's first entry.
    pub fn sparse_nodes(&self) -> usize {
        ones(&self.s_louds)
    }

    /// Gives the bodies RL, RC, RP, RS and TS.
    pub fn tables(&self) -> [Vec<u8>; TABLES] {
        [
            ranks(&self.d_labels, DENSE_BLOCK),
            ranks(&self.d_has_child, DENSE_BLOCK),
            ranks(&self.d_is_prefix_key, DENSE_BLOCK),
            ranks(&self.s_has_child, SPARSE_BLOCK),
            samples(&self.s_louds),
        ]
    }
}

/// Counts the ones among bits.
fn ones(bits: &[bool]) -> usize {
    bits.iter().filter(|&&bit| bit).count()
}

/// Gives the number of ones before each begun block of bits, as 32-bit counts.
fn ranks(bits: &[bool], block: usize) -> Vec<u8> {
    let mut before = 0;
    let mut body = Vec::new();
    for chunk in bits.chunks(block) {
        body.extend_from_slice(&count32(before).to_le_bytes());
        before += ones(chunk);
    }
    body
}

/// Gives the positions of the ones number 1, 65, 129 and so on, as 32-bit numbers.
fn samples(bits: &[bool]) -> Vec<u8> {
    (0..bits.len())
        .filter(|&position| bits[position])
        .step_by(SAMPLE)
        .flat_map(|position| count32(position).to_le_bytes())
        .collect()
}

/// Gives the body LV, from the levels of all nodes in level order: the number of the first
/// node of each level, as 32-bit numbers.
pub fn level_starts(levels: &[usize]) -> Vec<u8> {
    let mut body = Vec::new();
    let mut last = None;
    for (node, &level) in levels.iter().enumerate() {
        if last != Some(level) {
            body.extend_from_slice(&count32(node).to_le_bytes());
            last = Some(level);
        }
    }
    body
}
