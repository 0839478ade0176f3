//! Words of bits: loads, counts and selection.

/// The lowest bit of each byte of a word.
const LOW_BITS: u64 = 0x0101_0101_0101_0101;

/// The highest bit of each byte of a word.
const HIGH_BITS: u64 = 0x8080_8080_8080_8080;

/// The words of a block.
const BLOCK: usize = 8;

/// As many words of ones as a block has, and as many of zeros: from the right place on, the
/// mask that keeps the first words of a block.
static KEPT: [u64; 2 * BLOCK] = {
    let mut kept = [0; 2 * BLOCK];
    let (ones, _) = kept.split_at_mut(BLOCK);
    ones.copy_from_slice(&[u64::MAX; BLOCK]);
    kept
};

/// The positions of the ones of each byte, by their numbers, and 8 where there is none.
static SELECT_IN_BYTE: [[u8; 8]; 256] = positions_in_bytes();

/// Gives the positions of the ones of each byte.
const fn positions_in_bytes() -> [[u8; 8]; 256] {
    let mut positions = [[8; 8]; 256];
    let mut byte = 0;
    while byte < 256 {
        let mut rest = byte;
        let mut number = 0;
        while rest != 0 {
            positions[byte][number] = rest.trailing_zeros() as u8;
            rest &= rest - 1;
            number += 1;
        }
        byte += 1;
    }
    positions
}

/// Loads eight bytes from an offset on, low byte first, zeros behind the end.
#[inline]
pub fn load(bytes: &[u8], at: usize) -> u64 {
    match bytes.get(at..).and_then(<[u8]>::first_chunk) {
        Some(eight) => u64::from_le_bytes(*eight),
        None => load_tail(bytes, at),
    }
}

/// Loads the fewer than eight bytes that are left from an offset on; this is rare.
#[cold]
fn load_tail(bytes: &[u8], at: usize) -> u64 {
    let rest = bytes.get(at..).unwrap_or_default();
    let mut eight = [0; 8];
    eight[..rest.len()].copy_from_slice(rest);
    u64::from_le_bytes(eight)
}

/// Loads the 64 bits with an index among the words of a body.
#[inline]
pub fn word(body: &[u8], index: usize) -> u64 {
    load(body, index * 8)
}

/// Reads one entry of a table of 32-bit numbers.
#[inline]
pub fn entry(table: &[u8], index: usize) -> usize {
    let four = table.get(index * 4..).and_then(<[u8]>::first_chunk);
    four.map_or(0, |&four| u32::from_le_bytes(four)) as usize
}

/// Reads one bit of a body.
#[inline]
pub fn bit(body: &[u8], position: usize) -> bool {
    body[position / 8] >> (position % 8) & 1 == 1
}

/// Gives a word with ones at so many low bits, fewer than 64.
#[inline]
pub fn below(count: usize) -> u64 {
    (1 << count) - 1
}

/// Counts the ones of a word.
#[inline]
pub fn ones(word: u64) -> usize {
    word.count_ones() as usize
}

/// Counts the ones of a body.
pub fn ones_of(body: &[u8]) -> usize {
    (0..body.len().div_ceil(8))
        .map(|index| ones(word(body, index)))
        .sum()
}

/// Says whether all bits of a body from a position on are zero; all bytes are read,
/// since that goes by whole vectors.
pub fn is_clear_from(body: &[u8], position: usize) -> bool {
    let Some((first, rest)) = body.get(position / 8..).and_then(<[u8]>::split_first) else {
        return true;
    };
    first >> (position % 8) == 0 && rest.iter().fold(0, |set, byte| set | byte) == 0
}

/// Counts the ones of each byte of a word.
#[inline]
fn byte_ones(word: u64) -> u64 {
    let pairs = word - (word >> 1 & 0x5555_5555_5555_5555);
    let fours = (pairs & 0x3333_3333_3333_3333) + (pairs >> 2 & 0x3333_3333_3333_3333);
    (fours + (fours >> 4)) & 0x0F0F_0F0F_0F0F_0F0F
}

/// Sums the ones of the bytes of a word: each byte has those up to its own.
#[inline]
fn byte_sums(word: u64) -> u64 {
    byte_ones(word).wrapping_mul(LOW_BITS)
}

/// Gives the position of a one of a word, by its number from 0.
#[inline]
pub fn select_in_word(word: u64, number: usize) -> usize {
    select_by_sums(word, byte_sums(word), number)
}

/// Gives the position of a one of a word whose byte sums are known: its byte is the first
/// one whose sum is above its number.
#[inline]
fn select_by_sums(word: u64, sums: u64, number: usize) -> usize {
    let above = (sums + (127 - number as u64) * LOW_BITS) & HIGH_BITS;
    let shift = above.trailing_zeros() as usize & 56;
    let before = (sums << 8 >> shift & 0xFF) as usize;
    let byte = (word >> shift & 0xFF) as usize;
    shift + usize::from(SELECT_IN_BYTE[byte][(number - before) & 7])
}

/// Gives the position of the first one of a body from a position on, or the limit
/// where there is none below it.
#[inline]
pub fn next_one(body: &[u8], from: usize, limit: usize) -> usize {
    let mut index = from / 64;
    let mut rest = word(body, index) & !below(from % 64);
    while rest == 0 && index * 64 < limit {
        index += 1;
        rest = word(body, index);
    }
    limit.min(index * 64 + rest.trailing_zeros() as usize)
}

/// Counts the ones of a body before a position, from a table with an entry a word.
#[inline]
pub fn rank(body: &[u8], table: &[u8], position: usize) -> usize {
    let index = position / 64;
    entry(table, index) + ones(word(body, index) & below(position % 64))
}

/// Counts the ones of a body before a position, from a table with an entry for each
/// eight words. All eight are counted under a mask, by vectors and without a branch.
#[inline(always)]
pub fn rank_by_eight(body: &[u8], table: &[u8], position: usize) -> usize {
    let index = position / 64;
    let last = word(body, index) & below(position % 64);
    entry(table, index / BLOCK)
        + ones_before(body, index & !(BLOCK - 1), index % BLOCK)
        + ones(last)
}

/// Counts the ones of so many words, at most a block, from an index on.
#[inline(always)]
fn ones_before(body: &[u8], index: usize, count: usize) -> usize {
    match body.get(index * 8..).and_then(<[u8]>::first_chunk) {
        Some(block) => ones_of_block(block, count),
        None => ones_at_end(body, index, count),
    }
}

/// Counts the ones of so many words of the last block, which is not whole.
#[cold]
#[inline(never)]
fn ones_at_end(body: &[u8], index: usize, count: usize) -> usize {
    (index..index + count).map(|i| ones(word(body, i))).sum()
}

/// Counts the ones of the first words of a block; the loop becomes vector code.
#[inline(always)]
fn ones_of_block(block: &[u8; 8 * BLOCK], count: usize) -> usize {
    let kept = &KEPT[BLOCK - count..][..BLOCK];
    let words = kept.iter().enumerate();
    let sums: u64 = words
        .map(|(index, kept)| byte_ones(word(block, index) & kept))
        .sum();
    let sums = (sums & 0x00FF_00FF_00FF_00FF) + (sums >> 8 & 0x00FF_00FF_00FF_00FF);
    (sums.wrapping_mul(0x0001_0001_0001_0001) >> 48) as usize
}

/// A one of a body: its position, and the ones of its word behind it, shifted down by it.
struct One {
    position: usize,
    behind: u64,
}

/// Finds a one of a body, by its number from 0, from a table with the position of each
/// 64th. The first two words are looked at without a branch, since it often is in one of
/// them, in either about as often.
#[inline(always)]
fn find_one(body: &[u8], table: &[u8], number: usize) -> One {
    let start = entry(table, number / 64);
    let left = number % 64;
    let index = start / 64;
    let [first, second] = [
        word(body, index) & !below(start % 64),
        word(body, index + 1),
    ];
    let [first_sums, second_sums] = [byte_sums(first), byte_sums(second)];
    let inside = (first_sums >> 56) as usize;
    let (index, rest, sums, left) = if left < inside {
        (index, first, first_sums, left)
    } else {
        (index + 1, second, second_sums, left - inside)
    };
    if left < (sums >> 56) as usize {
        return One::in_word(index, rest, sums, left);
    }
    find_one_behind(body, index + 1, left - (sums >> 56) as usize)
}

/// Finds a one of a body, by its number from a word on: as many blocks are passed as end
/// before it, and then single words.
#[inline(never)]
fn find_one_behind(body: &[u8], index: usize, left: usize) -> One {
    let (mut index, mut left) = pass_blocks(body, index, left);
    loop {
        let rest = word(body, index);
        let sums = byte_sums(rest);
        let inside = (sums >> 56) as usize;
        if left < inside {
            return One::in_word(index, rest, sums, left);
        }
        left -= inside;
        index += 1;
    }
}

impl One {
    /// Finds a one of a word, by its number in the word, whose byte sums are known.
    #[inline(always)]
    fn in_word(index: usize, word: u64, sums: u64, number: usize) -> Self {
        let bit = select_by_sums(word, sums, number);
        One {
            position: index * 64 + bit,
            behind: word >> bit,
        }
    }
}

/// Passes as many blocks from a word on as do not hold a one, by its number from there;
/// gives the word and the number behind them.
#[inline(always)]
fn pass_blocks(body: &[u8], mut index: usize, mut left: usize) -> (usize, usize) {
    loop {
        let inside = ones_before(body, index, BLOCK);
        if left < inside {
            return (index, left);
        }
        left -= inside;
        index += BLOCK;
    }
}

/// Gives the position of a one of a body, by its number from 0, from a table with the
/// position of each 64th.
#[inline(always)]
pub fn select(body: &[u8], table: &[u8], number: usize) -> usize {
    find_one(body, table, number).position
}

/// Gives the position of a one of a body and that of the next, or the limit where there
/// is none below it.
#[inline(always)]
pub fn select_two(body: &[u8], table: &[u8], number: usize, limit: usize) -> [usize; 2] {
    let One { position, behind } = find_one(body, table, number);
    let next = behind >> 1;
    let end = match next {
        0 => next_one(body, (position / 64 + 1) * 64, limit),
        _ => position + 1 + next.trailing_zeros() as usize,
    };
    [position, end]
}

/// Counts how many of so many ascending bytes, at most eight, are below another: the bytes
/// behind them are made FF, and the first that is not below is looked for.
#[inline]
pub fn bytes_below(bytes: u64, count: usize, limit: u8) -> usize {
    let bytes = bytes | u64::MAX.checked_shl(8 * count as u32).unwrap_or(0);
    let limits = u64::from(limit) * LOW_BITS;
    let low_bits_reach = (bytes | HIGH_BITS) - (limits & !HIGH_BITS);
    let reach = (bytes & !limits) | (!(bytes ^ limits) & low_bits_reach);
    (reach & HIGH_BITS).trailing_zeros() as usize / 8
}

/// Gathers the lowest bits of 64 bytes that are 0 or 1.
#[inline]
pub fn gather(marks: &[u8; 64]) -> u64 {
    (0..8).fold(0, |bits, index| {
        bits | (word(marks, index).wrapping_mul(0x0102_0408_1020_4080) >> 56) << (8 * index)
    })
}
