//! Places of walks, and lengths of buffers for their records.

/// Buffer lengths around those of no, one and two records.
pub const ROOMS: [usize; 8] = [0, 1, 69, 70, 71, 139, 140, 141];

/// Gives places far behind any leaf.
pub fn far_places() -> impl Iterator<Item = u64> {
    let powers = [16, 31, 32, 48, 63].map(|power| 1_u64 << power);
    powers.into_iter().chain([u64::MAX - 1, u64::MAX])
}
