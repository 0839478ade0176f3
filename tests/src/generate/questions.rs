//! Questions whose keys lie around the ends of leaves' intervals, and keys behind their cut
//! keys.

use super::hashed::held_key;
use crate::random::Random;
use crate::reference::check::accepted_leaves;
use crate::reference::keys::MAX_KEY;
use crate::reference::leaves::{highest, lowest, Leaf};
use crate::reference::questions::Question;

/// Lengths over 64; of some the low byte or the two low bytes are at most 64.
pub const LONG_LENGTHS: [usize; 8] = [65, 66, 128, 255, 256, 320, 65_536, 65_600];

/// How often a key with a leaf's hash bits is tried for.
const TRIES: usize = 300;

/// Gives a byte string at or beside an end of a leaf's interval, or at or beside a key that a
/// point finds at the leaf, or a short one.
pub fn key_near(random: &mut Random, leaves: &[Leaf]) -> Vec<u8> {
    if leaves.is_empty() || random.once_in(8) {
        return random.string(b"\x00ab\x80\xFF", 0, 4);
    }
    let leaf = random.pick(leaves);
    let mut key = match random.below(4) {
        0 => lowest(leaf),
        1 => highest(leaf),
        2 => leaf.cut_key.clone(),
        _ => held_key(random, leaf, TRIES).unwrap_or_else(|| lowest(leaf)),
    };
    match random.below(8) {
        0 => key.truncate(random.below(key.len())),
        1 => key.push(0x00),
        2 => key.push(random.byte()),
        3 => add_to_last_byte(&mut key, 1),
        4 => add_to_last_byte(&mut key, 0xFF),
        _ => (),
    }
    key.truncate(MAX_KEY);
    key
}

/// Adds to the last byte of a key without carrying.
pub fn add_to_last_byte(key: &mut [u8], number: u8) {
    if let Some(last) = key.last_mut() {
        *last = last.wrapping_add(number);
    }
}

/// Gives a question whose keys lie around the ends of leaves' intervals.
pub fn question_near(random: &mut Random, leaves: &[Leaf]) -> Question {
    let one = key_near(random, leaves);
    let other = key_near(random, leaves);
    let bounds = [one.clone().min(other.clone()), one.clone().max(other)];
    question_of(random, one, bounds)
}

/// Gives a question of any kind, about a key or about bounds.
fn question_of(random: &mut Random, key: Vec<u8>, [lower, upper]: [Vec<u8>; 2]) -> Question {
    match random.below(5) {
        0 => Question::Point(key),
        1 => Question::Seek(key),
        2 => Question::BeginsWith(key),
        3 => Question::Range(lower, upper),
        _ => Question::Count(lower, upper),
    }
}

/// Gives a question that need not be taken: a key is near leaves, or any one, or too long,
/// and the lower bound may be above the upper.
pub fn any_question(random: &mut Random, leaves: &[Leaf]) -> Question {
    let [one, other] = [(); 2].map(|()| any_key(random, leaves));
    question_of(random, one.clone(), [one, other])
}

/// Gives a key near leaves, any key of up to 64 bytes, or one that is too long.
fn any_key(random: &mut Random, leaves: &[Leaf]) -> Vec<u8> {
    match random.below(10) {
        0 => long_key(random, leaves),
        1 | 2 => random.bytes(0, MAX_KEY),
        _ => key_near(random, leaves),
    }
}

/// Gives a key near leaves with bytes behind it that make it too long.
fn long_key(random: &mut Random, leaves: &[Leaf]) -> Vec<u8> {
    let mut key = key_near(random, leaves);
    key.resize(*random.pick(&LONG_LENGTHS), random.byte());
    key
}

/// Gives the begins-with questions for each prefix of a key, the empty one and the key
/// itself among them.
pub fn stems_of(key: &[u8]) -> impl Iterator<Item = Question> + '_ {
    (0..=key.len()).map(|length| Question::BeginsWith(key[..length].to_vec()))
}

/// Gives keys to ask for by points: the empty key and any others, more of them where there
/// are no leaves; and each leaf's lowest and highest key, its cut key and the cut key less
/// its last byte, these two as they are and followed by FF, by two FF, by 00 and by any byte.
pub fn keys_about(random: &mut Random, leaves: &[Leaf]) -> Vec<Vec<u8>> {
    let others = if leaves.is_empty() { 40 } else { 3 };
    let mut keys = vec![Vec::new(), random.bytes(1, MAX_KEY)];
    keys.extend((0..others).map(|_| random.string(b"\x00g\xFF", 1, 3)));
    for leaf in leaves {
        keys.extend([lowest(leaf), highest(leaf)]);
        let shorter = &leaf.cut_key[..leaf.cut_key.len() - 1];
        for start in [shorter, &leaf.cut_key] {
            let any = [random.byte()];
            let behind = [b"".as_slice(), b"\xFF", b"\xFF\xFF", b"\x00", &any];
            keys.extend(behind.map(|bytes| [start, bytes].concat()));
        }
    }
    keys.retain(|key| key.len() <= MAX_KEY);
    keys
}

/// Says whether a key is decided at a dense node; gives nothing where its length leaves it
/// open whether the node is dense or sparse.
pub fn decided_at_dense(key: &[u8], dense_levels: u64) -> Option<bool> {
    let only_dense = key.len() < dense_levels as usize;
    (dense_levels == 0 || only_dense).then_some(only_dense)
}

/// Gives so many questions around the ends of the intervals of a built image's leaves.
pub fn questions_near(random: &mut Random, image: &[u8], count: usize) -> Vec<Question> {
    let leaves = accepted_leaves(image).expect("a built image is accepted");
    (0..count).map(|_| question_near(random, &leaves)).collect()
}
