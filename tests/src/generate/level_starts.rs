//! Level starts that are wrong, and images of version 2 whose last record, which has the level
//! starts, is broken.

use super::{damaged, flip};
use crate::random::Random;
use crate::reference::format::{frame, LV, RECORD_HEAD};

/// The bytes of a level start.
const ENTRY: usize = 4;

/// Writes level starts as a body.
pub fn write(starts: &[u32]) -> Vec<u8> {
    starts
        .iter()
        .flat_map(|start| start.to_le_bytes())
        .collect()
}

/// Gives the level starts in a body.
pub fn read(body: &[u8]) -> Vec<u32> {
    let entries = body.chunks_exact(ENTRY);
    entries
        .map(|entry| u32::from_le_bytes([entry[0], entry[1], entry[2], entry[3]]))
        .collect()
}

/// Gives the body LV of an image of version 2.
pub fn body(image: &[u8]) -> &[u8] {
    frame(image).expect("the image has its frame").bodies[LV]
}

/// Gives an image of version 2 with another body LV, whose length its record says.
pub fn with_body(image: &[u8], starts: &[u8]) -> Vec<u8> {
    let head = image.len() - body(image).len() - RECORD_HEAD;
    let length = (starts.len() as u32).to_le_bytes();
    [&image[..head], b"LV", &length, starts].concat()
}

/// Gives an image of version 1 as one of version 2 with these level starts.
pub fn with_starts(image: &[u8], starts: &[u32]) -> Vec<u8> {
    let mut image = [image, b"LV\0\0\0\0"].concat();
    image[2] = 2;
    with_body(&image, &write(starts))
}

/// Changes a body LV in a way that comes at random: its bytes, one of its entries, their
/// order or their number.
pub fn changed(random: &mut Random, body: &[u8]) -> Vec<u8> {
    let mut starts = read(body);
    let [one, other] = [(); 2].map(|()| random.below(starts.len().max(1)));
    match random.below(6) {
        0 if !starts.is_empty() => starts.swap(one, other),
        1 if !starts.is_empty() => starts[one] = starts[one].wrapping_add(1),
        2 if !starts.is_empty() => starts[one] = starts[one].wrapping_sub(1),
        3 if !starts.is_empty() => {
            starts.remove(one);
        }
        4 => starts.insert(one, random.below(4) as u32),
        _ => return damaged(random, body),
    }
    write(&starts)
}

/// Gives bodies that are not LV where a trie has so many nodes and these level starts: each
/// bit is wrong, the length is, a level is missing, there is one more, two are exchanged, or
/// all are off by one level or by one node.
pub fn wrong_bodies(starts: &[u32], nodes: u32) -> Vec<Vec<u8>> {
    let body = write(starts);
    let mut bodies = wrong_bits(&body);
    bodies.extend((0..body.len()).map(|length| body[..length].to_vec()));
    bodies.extend((1..=ENTRY).map(|more| [&body[..], &vec![0; more]].concat()));
    bodies.extend(
        wrong_starts(starts, nodes)
            .iter()
            .map(|starts| write(starts)),
    );
    bodies
}

/// Gives a body with each of its bits turned over.
fn wrong_bits(body: &[u8]) -> Vec<Vec<u8>> {
    let flipped = |position| {
        let mut body = body.to_vec();
        flip(&mut body, position);
        body
    };
    (0..body.len() * 8).map(flipped).collect()
}

/// Gives level starts that are wrong as numbers.
fn wrong_starts(starts: &[u32], nodes: u32) -> Vec<Vec<u32>> {
    let mut wrong: Vec<Vec<u32>> = Vec::new();
    for more in [0, 1, nodes.saturating_sub(1), nodes, nodes + 1, u32::MAX] {
        wrong.push([starts, &[more]].concat());
    }
    if starts.is_empty() {
        return wrong;
    }
    for level in 0..starts.len() {
        let (before, from) = starts.split_at(level);
        wrong.push([before, &from[1..]].concat());
        wrong.push([before, &from[..1], from].concat());
        for by in [1, u32::MAX] {
            let start = from[0].wrapping_add(by);
            wrong.push([before, &[start], &from[1..]].concat());
        }
        wrong.extend(exchanged(starts, level));
    }
    wrong.push([&starts[1..], &[nodes]].concat());
    wrong.push([&[0], &starts[..starts.len() - 1]].concat());
    for by in [1, u32::MAX] {
        wrong.push(starts.iter().map(|start| start.wrapping_add(by)).collect());
    }
    wrong.push([starts, starts].concat());
    wrong.retain(|wrong| wrong != starts);
    wrong
}

/// Gives level starts where a level is exchanged with the next one and with the last one.
fn exchanged(starts: &[u32], level: usize) -> Vec<Vec<u32>> {
    let last = starts.len() - 1;
    let mut exchanged = Vec::new();
    for other in [level + 1, last] {
        if level < other && other <= last {
            let mut starts = starts.to_vec();
            starts.swap(level, other);
            exchanged.push(starts);
        }
    }
    exchanged
}

/// Gives images whose record LV does not end where the image of version 2 ends, has another
/// mark, or is not there.
pub fn wrong_frames(image: &[u8]) -> Vec<Vec<u8>> {
    let length = body(image).len();
    let at = image.len() - length - RECORD_HEAD;
    let mut frames: Vec<Vec<u8>> = (at..image.len()).map(|end| image[..end].to_vec()).collect();
    for behind in [&[0][..], &[0; ENTRY], b"LV\0\0\0\0", &image[at..]] {
        frames.push([image, behind].concat());
    }
    for mark in [b"lv", b"LW", b"MV", b"VL", b"TS", b"\0\0"] {
        frames.push([&image[..at], mark, &image[at + 2..]].concat());
    }
    let further = [1, 4, 1 << 8, 1 << 16, 1 << 24, 1 << 31].map(|more| length as u32 + more);
    let shorter = [length.saturating_sub(1), length.saturating_sub(ENTRY), 0];
    let shorter = shorter.map(|length| length as u32);
    for wrong in further.into_iter().chain(shorter).chain([u32::MAX]) {
        if wrong as usize != length {
            let wrong = wrong.to_le_bytes();
            frames.push([&image[..at + 2], &wrong, &image[at + RECORD_HEAD..]].concat());
        }
    }
    frames
}
