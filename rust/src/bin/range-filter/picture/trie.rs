//! The trie of an image as nodes and branches, made from its leaves.

use std::ops::Range;

use range_filter::{Filter, Leaf};

/// A trie whose root is its first node. An empty image has none.
pub struct Trie {
    /// The leaves in key order; the place of a leaf is its row.
    pub leaves: Vec<Leaf>,
    /// The nodes, each before those below it.
    pub nodes: Vec<Node>,
    /// The number of levels whose nodes are dense.
    pub dense_levels: usize,
}

/// A node.
pub struct Node {
    /// The node's level; the root's is 0.
    pub level: usize,
    /// The row of the first leaf at the node or below it.
    pub row: usize,
    /// Whether the node is an exact leaf.
    pub exact: bool,
    /// The branches, by ascending labels.
    pub branches: Vec<Branch>,
}

/// A branch.
pub struct Branch {
    /// The byte by which keys go this way.
    pub label: u8,
    /// The row of the first leaf behind the branch.
    pub row: usize,
}

impl Trie {
    /// Gives the trie of an image.
    pub fn of(filter: &Filter) -> Trie {
        let mut trie = Trie {
            leaves: filter.leaves().collect(),
            nodes: Vec::new(),
            dense_levels: 0,
        };
        if !trie.leaves.is_empty() {
            trie.add_node(0..trie.leaves.len(), 0);
        }
        let dense: usize = filter.settings().dense_levels().into();
        trie.dense_levels = dense.min(trie.levels());
        trie
    }

    /// Gives the number of levels that have nodes.
    pub fn levels(&self) -> usize {
        let levels = self.nodes.iter().map(|node| node.level + 1);
        levels.max().unwrap_or(0)
    }

    /// Adds the node on a level that has these leaves, at it and below it, and all nodes below.
    fn add_node(&mut self, rows: Range<usize>, level: usize) {
        let exact = self.leaves[rows.start].cut().len() == level;
        let number = self.nodes.len();
        self.nodes.push(Node {
            level,
            row: rows.start,
            exact,
            branches: Vec::new(),
        });
        let mut row = rows.start + usize::from(exact);
        while row < rows.end {
            let label = self.leaves[row].cut()[level];
            let behind = &self.leaves[row..rows.end];
            let end = row + behind.partition_point(|leaf| leaf.cut()[level] == label);
            self.nodes[number].branches.push(Branch { label, row });
            let first = &self.leaves[row];
            if first.is_exact() || first.cut().len() > level + 1 {
                self.add_node(row..end, level + 1);
            }
            row = end;
        }
    }
}
