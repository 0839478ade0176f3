//! A second check, by another way: an image without hash bits is accepted if building from the
//! lowest keys of its leaves gives it back; one with hash bits is accepted if the slots of its
//! exact leaves and the spare bits behind all slots are zero, and if it is accepted with h 0 and
//! the hash bits struck out.

use super::build;
use super::decode;
use super::format::{bit, frame, Frame, SV};
use super::keys;
use super::leaves::{lowest, Leaf};
use super::strike::struck;

/// Says whether an image is accepted.
pub fn accepts(image: &[u8]) -> bool {
    let zeros_are_zero = exact_slots_are_zero(image) && spare_bits_are_zero(image);
    zeros_are_zero && struck(image).is_some_and(|struck| is_built(&struck))
}

/// Says whether building from the lowest keys of an image's leaves gives the image back.
fn is_built(image: &[u8]) -> bool {
    let Some((frame, leaves)) = decoded(image) else {
        return false;
    };
    let keys: Vec<Vec<u8>> = leaves.iter().map(lowest).collect();
    let again = build::image(&keys::write(&keys), frame.header.settings);
    again.is_ok_and(|again| again == image)
}

/// Says whether the slots of an image's exact leaves are zero.
fn exact_slots_are_zero(image: &[u8]) -> bool {
    let is_zero = |leaf: &Leaf| !(leaf.exact && leaf.suffix().contains(&true));
    decoded(image).is_some_and(|(_, leaves)| leaves.iter().all(is_zero))
}

/// Says whether the bits behind an image's slots are zero.
fn spare_bits_are_zero(image: &[u8]) -> bool {
    let is_zero = |frame: Frame| {
        let slot_bits = frame.header.leaves as usize * frame.header.settings.slot_bits() as usize;
        let slots = frame.bodies[SV];
        (slot_bits..slots.len() * 8).all(|position| !bit(slots, position))
    };
    frame(image).is_some_and(is_zero)
}

/// Gives the frame of an image and the leaves of its trie, if it has both.
fn decoded(image: &[u8]) -> Option<(Frame<'_>, Vec<Leaf>)> {
    let frame = frame(image)?;
    let leaves = decode::leaves(&frame, &decode::nodes(&frame))?;
    Some((frame, leaves))
}
