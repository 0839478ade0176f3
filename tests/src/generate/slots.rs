//! The slots of accepted images, and images with other bits in them.

use crate::reference::decode::{nodes, Node, Target};
use crate::reference::format::{assemble, bits, frame, pack, SV};
use crate::settings::Settings;

/// Gives the settings of an image.
pub fn settings_of(image: &[u8]) -> Settings {
    let frame = frame(image).expect("the image has its frame");
    frame.header.settings
}

/// Gives the position in the slots, from 0, of the first bit of each leaf's slot. The leaves
/// are those of an accepted image in key order.
pub fn slot_starts(image: &[u8]) -> Vec<usize> {
    let frame = frame(image).expect("the image has its frame");
    let slot_bits = frame.header.settings.slot_bits() as usize;
    let nodes = nodes(&frame);
    let mut slots = Vec::new();
    if !nodes.is_empty() {
        add_slots(&nodes, 0, &mut slots);
    }
    slots.into_iter().map(|slot| slot * slot_bits).collect()
}

/// Adds the numbers of the slots at and below a node.
fn add_slots(nodes: &[Node], number: usize, slots: &mut Vec<usize>) {
    slots.extend(nodes[number].exact);
    for branch in &nodes[number].branches {
        match branch.target {
            Target::Child(child) => add_slots(nodes, child, slots),
            Target::Slot(slot) => slots.push(slot),
        }
    }
}

/// Gives an image with some bits of its slots turned over, and all else as it is.
pub fn with_flipped_bits(image: &[u8], positions: impl IntoIterator<Item = usize>) -> Vec<u8> {
    let frame = frame(image).expect("the image has its frame");
    let mut bodies = frame.bodies.map(<[u8]>::to_vec);
    let mut slots = bits(&bodies[SV], bodies[SV].len() * 8);
    for position in positions {
        slots[position] = !slots[position];
    }
    bodies[SV] = pack(&slots);
    assemble(&frame.header, &bodies)
}

/// Gives an image with another h, and with slots of zeros that are as long as h, n and the
/// number of leaves say.
pub fn with_zero_slots(image: &[u8], h: u8) -> Vec<u8> {
    let frame = frame(image).expect("the image has its frame");
    let mut header = frame.header.clone();
    header.settings.h = h.into();
    let mut bodies = frame.bodies.map(<[u8]>::to_vec);
    let slot_bits = u64::from(header.leaves) * header.settings.slot_bits();
    bodies[SV] = vec![0; slot_bits.div_ceil(8) as usize];
    assemble(&header, &bodies)
}
