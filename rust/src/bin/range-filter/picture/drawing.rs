//! The drawing of a trie.
//!
//! Levels are columns from left to right, and leaves are rows from top to bottom. A node stands in
//! the row of its first leaf, so that its first branch goes straight on and the others go down
//! first. A list of the leaves stands at the right, and the signs are explained at the bottom.

use range_filter::Leaf;

use super::svg::{circle, path, rectangle, start, text};
use super::trie::{Branch, Node, Trie};
use crate::text::show_key;

/// The width of a level's column.
const COLUMN: usize = 44;
/// The height of a leaf's row.
const ROW: usize = 26;
/// The middle of the first column.
const LEFT: usize = 76;
/// The middle of the first row.
const TOP: usize = 104;
/// The space at the edges.
const EDGE: usize = 18;
/// The lines of words above the first row: the kinds of levels, and the heads of columns.
const BANDS: usize = 60;
const HEADS: usize = 78;
/// The widths in the list of leaves: of a character, of the places and of the kinds.
const CHARACTER: usize = 8;
const PLACES: usize = 40;
const KINDS: usize = 56;
/// The bits of a suffix for which there is room in every picture.
const SUFFIX_ROOM: u8 = 16;
/// The width of a sign with its explanation.
const EXPLANATION: usize = 120;

/// Gives the picture of the trie of an image that has some name.
pub fn draw(name: &str, trie: &Trie) -> String {
    let layout = Layout::of(trie);
    let title = format!("The trie of {name}");
    let mut lines = vec![
        start(layout.size, &title, &describe(trie)),
        text("bold", (EDGE, 28), name),
    ];
    lines.extend(draw_levels(trie, &layout));
    lines.extend(trie.leaves.iter().map(|leaf| draw_leader(leaf, &layout)));
    lines.extend(trie.nodes.iter().flat_map(draw_branches));
    lines.extend(trie.nodes.iter().map(|node| draw_node(node, trie)));
    lines.extend(trie.leaves.iter().filter_map(draw_open_leaf));
    lines.extend(draw_list(trie, &layout));
    lines.extend(explain_signs(&layout));
    lines.push("</svg>\n".to_string());
    lines.join("\n")
}

/// Where the parts of a picture stand.
struct Layout {
    /// The width and the height of the picture.
    size: (usize, usize),
    /// The end of the rows.
    rows_end: usize,
    /// Where kinds, cut keys and suffixes in the list of leaves start.
    kinds: usize,
    keys: usize,
    suffixes: usize,
}

impl Layout {
    /// Gives the layout of a trie's picture.
    fn of(trie: &Trie) -> Layout {
        let shown = trie.leaves.iter().map(|leaf| show_key(leaf.cut()).len());
        let longest = shown.max().unwrap_or(0).max("cut key".len());
        let kinds = column(trie.levels() + 1) + PLACES;
        let keys = kinds + KINDS;
        let suffixes = keys + CHARACTER * (longest + 2);
        let widths = trie.leaves.iter().map(|leaf| leaf.suffix().width());
        let widest = widths.max().unwrap_or(0).max(SUFFIX_ROOM);
        let list_end = suffixes + CHARACTER * usize::from(widest);
        let signs_end = LEFT + 4 * EXPLANATION;
        let rows_end = row(trie.leaves.len().max(1));
        Layout {
            size: (list_end.max(signs_end) + EDGE, rows_end + 2 * ROW),
            rows_end,
            kinds,
            keys,
            suffixes,
        }
    }
}

/// Gives the middle of a level's column.
fn column(level: usize) -> usize {
    LEFT + COLUMN * level
}

/// Gives the middle of a leaf's row.
fn row(place: usize) -> usize {
    TOP + ROW * place
}

/// Says in words what the picture shows.
fn describe(trie: &Trie) -> String {
    let leaf = |leaf: &Leaf| {
        let suffix = match leaf.suffix().width() {
            0 => String::new(),
            _ => format!(" with suffix {}", leaf.suffix()),
        };
        let (place, cut) = (leaf.place(), show_key(leaf.cut()));
        format!("{place} {} {cut}{suffix}", kind(leaf))
    };
    let mut leaves: Vec<String> = trie.leaves.iter().map(leaf).collect();
    if leaves.is_empty() {
        leaves.push("none".to_string());
    }
    format!(
        "Levels: {}, of which dense: {}. Leaves by place: {}.",
        trie.levels(),
        trie.dense_levels,
        leaves.join("; ")
    )
}

/// Gives the word for a leaf's kind.
fn kind(leaf: &Leaf) -> &'static str {
    if leaf.is_exact() {
        "exact"
    } else {
        "open"
    }
}

/// Draws the numbers of the levels, and a band behind the dense ones.
fn draw_levels(trie: &Trie, layout: &Layout) -> Vec<String> {
    let (levels, dense) = (trie.levels(), trie.dense_levels);
    let start = |level| column(level) - COLUMN / 2;
    let mut lines = Vec::new();
    if dense > 0 {
        let (corner, height) = ((start(0), BANDS - 16), layout.rows_end - BANDS + 16);
        lines.push(rectangle("band", corner, (COLUMN * dense, height)));
        lines.push(text("head", (start(0) + 6, BANDS), "dense"));
    }
    if dense < levels {
        lines.push(text("head", (start(dense) + 6, BANDS), "sparse"));
    }
    if levels > 0 {
        lines.push(text("head end", (start(0) - 4, HEADS), "level"));
    }
    let number = |level: usize| text("head middle", (column(level), HEADS), &level.to_string());
    lines.extend((0..levels).map(number));
    lines
}

/// Draws the dotted line from a leaf to its line in the list.
fn draw_leader(leaf: &Leaf, layout: &Layout) -> String {
    let (from, to) = (column(leaf.cut().len()) + 10, layout.kinds - PLACES);
    path("leader", &format!("M{from} {}H{to}", row(leaf.place())))
}

/// Draws the branches of a node and their labels.
fn draw_branches(node: &Node) -> Vec<String> {
    let (x, y) = (column(node.level), row(node.row));
    let end = column(node.level + 1);
    let draw = |branch: &Branch| {
        let to = row(branch.row);
        let way = if to == y {
            format!("M{x} {y}H{end}")
        } else {
            format!("M{x} {y}V{}q0 8 8 8H{end}", to - 8)
        };
        let middle = (x + COLUMN / 2 + 1, to - 5);
        [
            path("branch", &way),
            text("label", middle, &show_label(branch.label)),
        ]
    };
    node.branches.iter().flat_map(draw).collect()
}

/// Gives the text of a label: a printable character, or two hexadecimal digits.
fn show_label(label: u8) -> String {
    match label {
        b'!'..=b'~' => char::from(label).to_string(),
        _ => format!("{label:02X}"),
    }
}

/// Draws the sign of a node.
fn draw_node(node: &Node, trie: &Trie) -> String {
    let dense = node.level < trie.dense_levels;
    node_sign((column(node.level), row(node.row)), dense, node.exact)
}

/// Draws the sign of an open leaf at the end of its branch; an exact leaf has none but its node's.
fn draw_open_leaf(leaf: &Leaf) -> Option<String> {
    let position = (column(leaf.cut().len()), row(leaf.place()));
    (!leaf.is_exact()).then(|| diamond(position))
}

/// Gives a square for a dense node and a circle for another, filled if it is an exact leaf.
fn node_sign((x, y): (usize, usize), dense: bool, exact: bool) -> String {
    let class = if exact { "exact" } else { "node" };
    if dense {
        rectangle(class, (x - 6, y - 6), (12, 12))
    } else {
        circle(class, (x, y), 6)
    }
}

/// Gives the diamond of an open leaf.
fn diamond((x, y): (usize, usize)) -> String {
    path("open", &format!("M{} {y}l7-7 7 7-7 7z", x - 7))
}

/// Draws the list of the leaves: place, kind, cut key and suffix.
fn draw_list(trie: &Trie, layout: &Layout) -> Vec<String> {
    if trie.leaves.is_empty() {
        return vec![text("cell", (EDGE, TOP), "An empty image has no nodes.")];
    }
    let head = ["place", "kind", "cut key", "suffix"];
    let mut lines = draw_line(layout, "head", HEADS, head);
    for leaf in &trie.leaves {
        let (place, cut) = (leaf.place().to_string(), show_key(leaf.cut()));
        let columns = [&place, kind(leaf), &cut, &leaf.suffix().to_string()];
        lines.extend(draw_line(layout, "cell", row(leaf.place()) + 4, columns));
    }
    lines
}

/// Draws a line of the list of the leaves.
fn draw_line(layout: &Layout, class: &str, y: usize, columns: [&str; 4]) -> Vec<String> {
    let [place, kind, key, suffix] = columns;
    vec![
        text(&format!("{class} end"), (layout.kinds - 10, y), place),
        text(class, (layout.kinds, y), kind),
        text(class, (layout.keys, y), key),
        text(class, (layout.suffixes, y), suffix),
    ]
}

/// Explains the signs.
fn explain_signs(layout: &Layout) -> Vec<String> {
    let y = layout.rows_end + ROW;
    let x = |place: usize| LEFT + EXPLANATION * place;
    let signs = [
        (node_sign((x(0), y), true, false), "dense node"),
        (node_sign((x(1), y), false, false), "sparse node"),
        (node_sign((x(2), y), false, true), "exact leaf"),
        (diamond((x(3), y)), "open leaf"),
    ];
    let explain = |(place, (sign, words))| [sign, text("head", (x(place) + 14, y + 4), words)];
    signs.into_iter().enumerate().flat_map(explain).collect()
}
