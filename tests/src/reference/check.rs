//! Checking an image rule by rule; each number is judged over the whole image before the
//! next.

use super::build::EXTRA_LABEL;
use super::decode::{leaves, nodes, Node, Target};
use super::format::{bit, frame, settings_are_valid, Frame, Header, DC, DL, LV, RL, SB, SC, SL};
use super::keys::{MAX_KEY, MAX_KEYS};
use super::leaves::Leaf;
use super::tables::{level_starts, TrieBits};

/// Gives 0 for an accepted image, else the first of 11 to 16 that applies.
pub fn check(image: &[u8]) -> u32 {
    match accepted_leaves(image) {
        Ok(_) => 0,
        Err(number) => number,
    }
}

/// Gives the leaves of an accepted image in key order, or the check's number.
pub fn accepted_leaves(image: &[u8]) -> Result<Vec<Leaf>, u32> {
    let frame = frame(image).ok_or(11_u32)?;
    if !header_is_valid(&frame.header) || !lengths_are_valid(&frame) {
        return Err(12);
    }
    if !spare_bits_are_clear(&frame) {
        return Err(13);
    }
    let bits = TrieBits::read(&frame.header, &frame.bodies);
    let nodes = nodes(&frame);
    if !is_builders_trie(&frame, &bits, &nodes) {
        return Err(14);
    }
    if frame.bodies[RL..LV] != bits.tables() || !level_starts_are_valid(&frame, &nodes) {
        return Err(15);
    }
    let leaves = leaves(&frame, &nodes).expect("a builder's trie has all its leaves");
    if !leaves.iter().all(slot_is_valid) {
        return Err(16);
    }
    Ok(leaves)
}

/// Judges version, settings and leaf count.
pub fn header_is_valid(header: &Header) -> bool {
    settings_are_valid(&header.settings) && header.leaves as usize <= MAX_KEYS
}

/// Judges that each body before LV has just the bytes that its bits need.
pub fn lengths_are_valid(frame: &Frame) -> bool {
    let mut bodies = frame.header.body_bits().into_iter().zip(frame.bodies);
    bodies.all(|(bits, body)| bits.div_ceil(8) == body.len() as u64)
}

/// Judges that no bit is set behind a body's last bit; LV has no bits but those of its bytes.
fn spare_bits_are_clear(frame: &Frame) -> bool {
    let mut bodies = frame.header.body_bits().into_iter().zip(frame.bodies);
    bodies.all(|(bits, body)| (bits as usize..body.len() * 8).all(|position| !bit(body, position)))
}

/// Judges the section "A builder's trie" of document 01.
fn is_builders_trie(frame: &Frame, bits: &TrieBits, nodes: &[Node]) -> bool {
    if !counts_agree(&frame.header, bits) || bits.s_louds.first() == Some(&false) {
        return false;
    }
    if frame.header.leaves == 0 {
        return nodes.is_empty();
    }
    branches_lead_on(nodes)
        && children_have_labels(frame)
        && nodes.iter().all(|node| !node.branches.is_empty())
        && nodes[0].exact.is_none()
        && nodes.iter().all(labels_ascend)
        && extra_labels_end(frame)
        && nodes[1..].iter().all(sole_entry_continues)
        && levels_are_valid(&frame.header, nodes)
}

/// Judges that the counts of leaves and sparse nodes agree with the bits.
fn counts_agree(header: &Header, bits: &TrieBits) -> bool {
    header.leaves as usize == bits.leaves() && header.sparse_nodes as usize == bits.sparse_nodes()
}

/// Judges that nodes are continuing branches plus one and that each branch leads to a
/// later node.
fn branches_lead_on(nodes: &[Node]) -> bool {
    let links = links(nodes);
    nodes.len() == links.len() + 1 && links.iter().all(|(node, child)| node < child)
}

/// Gives each continuing branch as the number of its node and of its child.
fn links(nodes: &[Node]) -> Vec<(usize, usize)> {
    let mut links = Vec::new();
    for (number, node) in nodes.iter().enumerate() {
        for branch in &node.branches {
            if let Target::Child(child) = branch.target {
                links.push((number, child));
            }
        }
    }
    links
}

/// Judges that D-HasChild lies within D-Labels.
fn children_have_labels(frame: &Frame) -> bool {
    let mut pairs = frame.bodies[DC].iter().zip(frame.bodies[DL]);
    pairs.all(|(children, labels)| children & !labels == 0)
}

/// Judges that a node's labels, the extra one aside, ascend strictly.
fn labels_ascend(node: &Node) -> bool {
    node.branches
        .windows(2)
        .all(|pair| pair[0].label < pair[1].label)
}

/// Judges that no extra label continues: an FF that starts a node of several entries.
fn extra_labels_end(frame: &Frame) -> bool {
    let [labels, has_child, louds] = [SL, SC, SB].map(|body| frame.bodies[body]);
    (1..labels.len()).all(|next| {
        let starts_several = bit(louds, next - 1) && !bit(louds, next);
        !(starts_several && labels[next - 1] == EXTRA_LABEL && bit(has_child, next - 1))
    })
}

/// Judges that a node with one entry, branches and exact leaf counted, continues.
fn sole_entry_continues(node: &Node) -> bool {
    match node.branches.as_slice() {
        [sole] if node.exact.is_none() => matches!(sole.target, Target::Child(_)),
        _ => true,
    }
}

/// Judges that the dense nodes are exactly those on the dense levels and that no node is
/// on level 64, where each branch leads to a later node.
fn levels_are_valid(header: &Header, nodes: &[Node]) -> bool {
    let dense_levels = header.settings.dense_levels as usize;
    let dense_nodes = header.dense_nodes as usize;
    let mut numbered = levels(nodes).into_iter().enumerate();
    numbered.all(|(node, level)| (node < dense_nodes) == (level < dense_levels) && level < MAX_KEY)
}

/// Gives the level of each node, one more than that of the node with the branch to it; a
/// branch that leads to no node is passed over.
pub fn levels(nodes: &[Node]) -> Vec<usize> {
    let mut levels = vec![0; nodes.len()];
    for (node, child) in links(nodes) {
        if child < nodes.len() {
            levels[child] = levels[node] + 1;
        }
    }
    levels
}

/// Judges that LV, if the image has it, is the first node of each level of a builder's trie.
fn level_starts_are_valid(frame: &Frame, nodes: &[Node]) -> bool {
    !frame.header.has_level_starts() || frame.bodies[LV] == level_starts(&levels(nodes))
}

/// Judges that an exact leaf's slot is zero and that no real bit is set past the key's 64th
/// byte. The hash bits of an open leaf may have any values.
fn slot_is_valid(leaf: &Leaf) -> bool {
    if leaf.exact {
        return !leaf.suffix().contains(&true);
    }
    let may_be_set = |i: usize| leaf.cut_key.len() + i / 8 < MAX_KEY;
    let mut bits = leaf.real.iter().enumerate();
    bits.all(|(i, &bit)| !bit || may_be_set(i))
}
