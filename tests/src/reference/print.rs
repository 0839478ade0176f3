//! The leaf printer's text.

use super::check::accepted_leaves;
use super::leaves::Leaf;

/// The most bytes of an image that the printer takes.
pub const MAX_INPUT: usize = 65_536;

/// Gives the text for an image; every line ends with a line feed.
pub fn print(image: &[u8]) -> String {
    if image.len() > MAX_INPUT {
        return "too long\n".to_owned();
    }
    match accepted_leaves(image) {
        Err(number) => format!("refused {number}\n"),
        Ok(leaves) => {
            let lines = leaves.iter().enumerate();
            let lines: String = lines.map(|(number, leaf)| line(number, leaf)).collect();
            format!("leaves {}\n{lines}", leaves.len())
        }
    }
}

/// Gives a leaf's line: its number, kind, cut key and suffix, the first bit first; "-" stands
/// for the suffix of an exact leaf and for one without bits.
fn line(number: usize, leaf: &Leaf) -> String {
    let kind = if leaf.exact { 'E' } else { 'O' };
    let bytes = leaf.cut_key.iter();
    let cut_key: String = bytes.map(|byte| format!("{byte:02X}")).collect();
    let bits = leaf.suffix();
    let suffix: String = match leaf.exact || bits.is_empty() {
        true => "-".to_owned(),
        false => bits
            .iter()
            .map(|&bit| if bit { '1' } else { '0' })
            .collect(),
    };
    format!("{number} {kind} {cut_key} {suffix}\n")
}
