//! The sparse nodes of an accepted image, numbered from the first of them, and their
//! entries.

use super::bits::{bit, bytes_below, load, next_one, rank_by_eight, select, select_two};
use super::check::Accepted;
use range_filter_tests::reference::build::EXTRA_LABEL;
use range_filter_tests::reference::format::{NODE_BITS, RS, SB, SC, SL, TS};

/// The labels that are compared at once.
const WINDOW: usize = 8;

/// The sparse nodes.
pub struct Sparse<'a> {
    labels: &'a [u8],
    has_child: &'a [u8],
    louds: &'a [u8],
    ranks: &'a [u8],
    samples: &'a [u8],
    nodes: usize,
    entries: usize,
    children: usize,
}

/// What a search for a label finds: the entry of the first label that is not below it, or
/// the end of the node, the end, and whether the entry has the label.
pub struct Found {
    pub entry: usize,
    end: usize,
    pub on_label: bool,
}

impl Found {
    /// Gives the branch that is found.
    #[inline]
    pub fn branch(&self) -> Option<usize> {
        (self.entry < self.end).then_some(self.entry)
    }
}

impl<'a> Sparse<'a> {
    /// Takes the sparse nodes of an accepted image.
    pub fn new(image: &Accepted<'a>) -> Self {
        let header = &image.frame.header;
        let nodes = (header.dense_nodes + header.sparse_nodes) as usize;
        let [labels, has_child, louds, ranks, samples] =
            [SL, SC, SB, RS, TS].map(|body| image.frame.bodies[body]);
        Sparse {
            labels,
            has_child,
            louds,
            ranks,
            samples,
            nodes: header.sparse_nodes as usize,
            entries: header.sparse_entries as usize,
            children: nodes.saturating_sub(image.dense.children + 1),
        }
    }

    /// Gives the first entry of a node, or the end of the entries behind the last node.
    #[inline(always)]
    pub fn start(&self, node: usize) -> usize {
        if node < self.nodes {
            select(self.louds, self.samples, node)
        } else {
            self.entries
        }
    }

    /// Gives the end of a node with a start.
    #[inline]
    pub fn end(&self, start: usize) -> usize {
        next_one(self.louds, start + 1, self.entries)
    }

    /// Gives the first branch of a node, or nothing where it is an exact leaf, which its
    /// extra label says.
    #[inline]
    pub fn first(&self, node: usize) -> Option<usize> {
        let start = self.start(node);
        (!self.is_exact(start)).then_some(start)
    }

    /// Says whether a node with a start is an exact leaf.
    #[inline]
    pub fn is_exact(&self, start: usize) -> bool {
        self.labels[start] == EXTRA_LABEL && start + 1 < self.entries && !bit(self.louds, start + 1)
    }

    /// Gives the last branch of a node.
    #[inline]
    pub fn last(&self, node: usize) -> usize {
        self.start(node + 1) - 1
    }

    /// Searches a node for a label. A sole label is compared by a branch, so that what
    /// follows need not wait for it.
    #[inline(always)]
    pub fn search(&self, node: usize, label: u8) -> Found {
        let [start, end] = select_two(self.louds, self.samples, node, self.entries);
        if end - start == 1 && self.labels[start] == label {
            return Found {
                entry: start,
                end,
                on_label: true,
            };
        }
        self.search_span(start, end, label)
    }

    /// Searches the entries of a node for a label, by one word where they are few.
    #[inline(always)]
    fn search_span(&self, start: usize, end: usize, label: u8) -> Found {
        let count = end - start;
        let labels = load(self.labels, start);
        let extra = usize::from(count > 1 && labels as u8 == EXTRA_LABEL);
        let below = if count <= WINDOW {
            bytes_below(labels >> (8 * extra), count - extra, label)
        } else {
            self.labels_below(start + extra, end, label)
        };
        let entry = start + extra + below;
        Found {
            entry,
            end,
            on_label: entry < end && self.labels[entry] == label,
        }
    }

    /// Counts the labels below another among ascending ones: the bytes below it and those
    /// not below it leave a part where it can be, which is halved down to a window.
    #[inline(never)]
    fn labels_below(&self, start: usize, end: usize, label: u8) -> usize {
        let count = end - start;
        let mut from = (usize::from(label) + count).saturating_sub(NODE_BITS);
        let mut left = count.min(label.into()) - from;
        while left > WINDOW {
            let half = left / 2;
            let passes = self.labels[start + from + half - 1] < label;
            from += if passes { half } else { 0 };
            left -= half;
        }
        from + bytes_below(load(self.labels, start + from), left, label)
    }

    /// Gives the branch of a node with a label.
    #[inline]
    pub fn branch(&self, node: usize, label: u8) -> Option<usize> {
        let found = self.search(node, label);
        found.on_label.then_some(found.entry)
    }

    /// Gives the first branch of a node whose label is not below another.
    #[inline]
    pub fn branch_from(&self, node: usize, label: u8) -> Option<usize> {
        self.search(node, label).branch()
    }

    /// Gives the next branch of the same node.
    #[inline]
    pub fn next(&self, entry: usize) -> Option<usize> {
        let next = entry + 1;
        (next < self.entries && !bit(self.louds, next)).then_some(next)
    }

    /// Gives the label of a branch.
    #[inline]
    pub fn label(&self, entry: usize) -> u8 {
        self.labels[entry]
    }

    /// Says whether a branch continues.
    #[inline]
    pub fn has_child(&self, entry: usize) -> bool {
        bit(self.has_child, entry)
    }

    /// Counts the continuing branches before an entry or before the end; there is no rank
    /// for the end where it starts a block.
    #[inline(always)]
    pub fn children_before(&self, entry: usize) -> usize {
        if entry < self.entries {
            rank_by_eight(self.has_child, self.ranks, entry)
        } else {
            self.children
        }
    }
}
