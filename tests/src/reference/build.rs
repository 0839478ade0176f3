//! Building an image from a key list.

use super::format::{assemble, count32, pack, settings_are_valid, Header, NODE_BITS, RECORDS};
use super::keys;
use super::leaves::{leaves, Leaf};
use super::tables::{level_starts, TrieBits};
use super::trie::{nodes, Branch, Node};
use crate::answer::{put, Answer};
use crate::settings::Settings;

/// The label that starts a sparse node that is an exact leaf.
pub const EXTRA_LABEL: u8 = 0xFF;

/// An entry of a sparse node.
struct Entry {
    label: u8,
    has_child: bool,
    first: bool,
}

/// Gives what the first call of build gives: the exact length of what `image` gives, or its
/// number.
pub fn length(image: &Result<Vec<u8>, u32>) -> Result<usize, u32> {
    image.as_ref().map(Vec::len).map_err(|number| *number)
}

/// Does what the second call does: writes what `image` gives at the start of the output, or
/// refuses with its number; then with 8, the stated length is not the image's; then with 7,
/// the image is longer than the output. A refusal leaves the output as it was.
pub fn write(image: Result<Vec<u8>, u32>, stated: u64, out: &mut [u8]) -> Answer {
    match image {
        Ok(image) if image.len() as u64 != stated => Answer::Refused(8),
        image => put(image, 7, out),
    }
}

/// Gives the image of a key list, or the number of the first fault, as both calls judge it:
/// 5, then record by record 4, 1, 2, 1, 3.
pub fn image(list: &[u8], settings: Settings) -> Result<Vec<u8>, u32> {
    if !settings_are_valid(&settings) {
        return Err(5);
    }
    let keys = keys::parse(list)?;
    let leaves = leaves(&keys, settings);
    let nodes = nodes(&leaves);
    Ok(lay_out(settings, &leaves, &nodes))
}

/// Lays out the image of leaves in key order and of their nodes.
fn lay_out(settings: Settings, leaves: &[Leaf], nodes: &[Node]) -> Vec<u8> {
    let dense_levels = settings.dense_levels as usize;
    let levels: Vec<usize> = nodes.iter().map(|node| node.level).collect();
    let dense_nodes = levels.partition_point(|&level| level < dense_levels);
    let (dense, sparse) = nodes.split_at(dense_nodes);
    let entries = sparse_entries(sparse);
    let header = Header {
        leaves: count32(leaves.len()),
        dense_nodes: count32(dense.len()),
        sparse_entries: count32(entries.len()),
        sparse_nodes: count32(sparse.len()),
        ..Header::new(settings)
    };
    let slots = slots(leaves, nodes);
    assemble(&header, &bodies(dense, &entries, &slots, &levels))
}

/// Gives the bodies from dense nodes, sparse entries, slots and the levels of nodes.
fn bodies(
    dense: &[Node],
    entries: &[Entry],
    slots: &[bool],
    levels: &[usize],
) -> [Vec<u8>; RECORDS] {
    let bits = TrieBits {
        d_labels: dense_bits(dense, |_| true),
        d_has_child: dense_bits(dense, |branch| branch.leaf.is_none()),
        d_is_prefix_key: dense.iter().map(|node| node.exact.is_some()).collect(),
        s_has_child: entries.iter().map(|entry| entry.has_child).collect(),
        s_louds: entries.iter().map(|entry| entry.first).collect(),
    };
    let [rl, rc, rp, rs, ts] = bits.tables();
    [
        pack(&bits.d_labels),
        pack(&bits.d_has_child),
        pack(&bits.d_is_prefix_key),
        entries.iter().map(|entry| entry.label).collect(),
        pack(&bits.s_has_child),
        pack(&bits.s_louds),
        pack(slots),
        rl,
        rc,
        rp,
        rs,
        ts,
        level_starts(levels),
    ]
}

/// Gives 256 bits for each dense node, set at the labels of the branches picked.
fn dense_bits(dense: &[Node], picked: impl Fn(&Branch) -> bool) -> Vec<bool> {
    let mut bits = vec![false; dense.len() * NODE_BITS];
    for (number, node) in dense.iter().enumerate() {
        for branch in node.branches.iter().filter(|branch| picked(branch)) {
            bits[number * NODE_BITS + usize::from(branch.label)] = true;
        }
    }
    bits
}

/// Gives the entries of sparse nodes; a node that is an exact leaf starts with an extra
/// label.
fn sparse_entries(sparse: &[Node]) -> Vec<Entry> {
    let mut entries = Vec::new();
    for node in sparse {
        let start = entries.len();
        let extra = node.exact.map(|_| (EXTRA_LABEL, false));
        let branches = node.branches.iter();
        let branches = branches.map(|branch| (branch.label, branch.leaf.is_none()));
        for (label, has_child) in extra.into_iter().chain(branches) {
            entries.push(Entry {
                label,
                has_child,
                first: entries.len() == start,
            });
        }
    }
    entries
}

/// Gives the slots in level order, an exact leaf before its node's branches.
fn slots(leaves: &[Leaf], nodes: &[Node]) -> Vec<bool> {
    let mut bits = Vec::new();
    for node in nodes {
        let branch_leaves = node.branches.iter().filter_map(|branch| branch.leaf);
        for leaf in node.exact.into_iter().chain(branch_leaves) {
            bits.extend(leaves[leaf].suffix());
        }
    }
    bits
}
