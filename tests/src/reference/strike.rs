//! Striking the hash bits out of an image.

use super::format::{assemble, bits, frame, pack, MAX_HASH_BITS, SV};

/// Gives an image with h 0 and with the hash bits of all slots struck out. Gives nothing where
/// the frame, h or the length of the slots is wrong.
pub fn struck(image: &[u8]) -> Option<Vec<u8>> {
    let frame = frame(image)?;
    let settings = frame.header.settings;
    let slot_bits = u64::from(frame.header.leaves) * settings.slot_bits();
    if settings.h > MAX_HASH_BITS || slot_bits.div_ceil(8) != frame.bodies[SV].len() as u64 {
        return None;
    }
    let slots = bits(frame.bodies[SV], slot_bits as usize);
    let slots = slots.chunks((settings.slot_bits() as usize).max(1));
    let real: Vec<bool> = slots
        .flat_map(|slot| &slot[settings.h as usize..])
        .copied()
        .collect();
    let mut header = frame.header.clone();
    header.settings.h = 0;
    let mut bodies = frame.bodies.map(<[u8]>::to_vec);
    bodies[SV] = pack(&real);
    Some(assemble(&header, &bodies))
}
