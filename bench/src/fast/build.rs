//! Building an image: one pass that judges the list and plans the levels, then each
//! body filled with a cursor a level. A key takes part in the levels from what it
//! shares with the key before up to its leaf, so the work is linear in the image.

use super::bits::{below, load, ones, ones_of, select_in_word, word};
use super::hash::hash_bits;
use range_filter_tests::answer::Answer;
use range_filter_tests::reference::build::EXTRA_LABEL;
use range_filter_tests::reference::format::{
    settings_are_valid, Header, DENSE_BLOCK, HEADER_LENGTH, LV, NODE_BITS, RECORDS, RECORD_HEAD,
    SAMPLE, SPARSE_BLOCK,
};
use range_filter_tests::reference::keys::{MAX_KEY, MAX_KEYS};
use range_filter_tests::settings::Settings;

/// The levels that nodes stand on.
const LEVELS: usize = MAX_KEY;

/// The keys whose labels are gathered by level before they are copied to the image,
/// so that the writes of many levels do not compete for the same cache lines.
const BATCH: usize = 128;

/// A key of the list: where it starts, what it shares with the key before, and the
/// level behind its last entry. An exact leaf's last entry stands on its own node.
#[derive(Clone, Copy)]
struct Record {
    start: u32,
    length: u8,
    shared: u8,
    end: u8,
}

/// The keys, and how many of them have their first and last entries on each level.
struct Plan {
    records: Vec<Record>,
    starts: [u32; LEVELS],
    ends: [u32; LEVELS + 1],
}

/// The next node, sparse entry and slot to be written on each level, and how many levels have
/// nodes.
struct Cursors {
    nodes: [u32; LEVELS],
    entries: [u32; LEVELS],
    slots: [u32; LEVELS],
    levels: usize,
}

/// The labels of a batch of keys, by level.
struct Batch {
    labels: [[u8; BATCH]; LEVELS],
    counts: [u8; LEVELS],
}

/// Builds the image of a key list, whose length is stated, at the start of the output; a
/// refusal leaves the output as it was.
pub fn build(list: &[u8], settings: Settings, stated: u64, out: &mut [u8]) -> Answer {
    match fill(list, settings, stated, out) {
        Ok(length) => Answer::Written(length),
        Err(number) => Answer::Refused(number),
    }
}

/// Judges everything and then fills the bodies.
fn fill(list: &[u8], settings: Settings, stated: u64, out: &mut [u8]) -> Result<usize, u32> {
    if !settings_are_valid(&settings) {
        return Err(5);
    }
    let plan = Plan::of_list(list)?;
    let (header, cursors) = plan.lay_out(settings);
    let lengths = body_lengths(&header, &cursors);
    let heads = header.marks().len() * RECORD_HEAD;
    let length = HEADER_LENGTH + heads + lengths.iter().sum::<usize>();
    if stated != length as u64 {
        return Err(8);
    }
    let image = out.get_mut(..length).ok_or(7_u32)?;
    let [dl, dc, dp, sl, sc, sb, sv, rl, rc, rp, rs, ts, lv] =
        write_frame(image, &header, &lengths);
    fill_dense(list, &plan.records, &header, &cursors, [dl, dc, dp]);
    fill_sparse(list, &plan.records, &header, &cursors, [sl, sc, sb]);
    fill_slots(list, &plan.records, settings, &cursors, sv);
    fill_level_starts(&cursors, lv);
    fill_ranks(dl, rl, DENSE_BLOCK);
    fill_ranks(dc, rc, DENSE_BLOCK);
    fill_ranks(dp, rp, DENSE_BLOCK);
    fill_ranks(sc, rs, SPARSE_BLOCK);
    fill_samples(sb, ts);
    Ok(length)
}

impl Record {
    /// Says whether the key begins another.
    fn is_exact(self) -> bool {
        self.end > self.length
    }

    /// Gives the bytes of the key.
    fn key(self, list: &[u8]) -> &[u8] {
        &list[self.start as usize..][..usize::from(self.length)]
    }
}

impl Plan {
    /// Reads a key list, or gives the number of the first record's fault.
    fn of_list(list: &[u8]) -> Result<Self, u32> {
        let mut plan = Plan {
            records: Vec::with_capacity(MAX_KEYS.min(list.len() / 4)),
            starts: [0; LEVELS],
            ends: [0; LEVELS + 1],
        };
        let mut at = 0;
        while at < list.len() {
            if plan.records.len() == MAX_KEYS {
                return Err(4);
            }
            let length = key_length(&list[at..])?;
            plan.add(list, at + 3, length)?;
            at += 3 + length;
        }
        plan.end_last(0);
        Ok(plan)
    }

    /// Adds a key that is above the last one.
    fn add(&mut self, list: &[u8], start: usize, length: usize) -> Result<(), u32> {
        let mut shared = 0;
        if let Some(last) = self.records.last() {
            let last_start = last.start as usize;
            let limit = length.min(usize::from(last.length));
            shared = shared_prefix(list, last_start, start, limit);
            let longer = shared == limit && limit < length;
            if !longer && (shared == limit || list[last_start + shared] > list[start + shared]) {
                return Err(3);
            }
        }
        self.end_last(shared);
        self.starts[shared] += 1;
        self.records.push(Record {
            start: start as u32,
            length: length as u8,
            shared: shared as u8,
            end: 0,
        });
        Ok(())
    }

    /// Ends the last key, now that it is known what it shares with the next.
    fn end_last(&mut self, shared: usize) {
        if let Some(last) = self.records.last_mut() {
            let shared = shared as u8;
            let longest = if shared == last.length {
                shared
            } else {
                shared.max(last.shared)
            };
            last.end = longest + 1;
            self.ends[usize::from(last.end)] += 1;
        }
    }

    /// Counts the nodes, entries and slots of each level, and from them the header's
    /// counts and the numbers with which the levels start.
    fn lay_out(&self, settings: Settings) -> (Header, Cursors) {
        let mut header = Header {
            leaves: self.records.len() as u32,
            ..Header::new(settings)
        };
        let mut cursors = Cursors {
            nodes: [0; LEVELS],
            entries: [0; LEVELS],
            slots: [0; LEVELS],
            levels: 0,
        };
        let mut entries = 0;
        let mut slots = 0;
        for level in 0..LEVELS {
            cursors.nodes[level] = header.dense_nodes + header.sparse_nodes;
            cursors.entries[level] = header.sparse_entries;
            cursors.slots[level] = slots;
            entries -= self.ends[level];
            let nodes = entries + u32::from(level == 0 && !self.records.is_empty());
            entries += self.starts[level];
            slots += self.ends[level + 1];
            cursors.levels += usize::from(nodes > 0);
            if level < settings.dense_levels as usize {
                header.dense_nodes += nodes;
            } else {
                header.sparse_nodes += nodes;
                header.sparse_entries += entries;
            }
        }
        (header, cursors)
    }
}

/// Gives the key length of the first record, or the number of its fault.
fn key_length(bytes: &[u8]) -> Result<usize, u32> {
    let [b'K', b'Y', length, behind @ ..] = bytes else {
        return Err(1);
    };
    let length = usize::from(*length);
    if length == 0 || length > MAX_KEY {
        return Err(2);
    }
    if behind.len() < length {
        return Err(1);
    }
    Ok(length)
}

/// Counts the bytes that two keys of a list share, up to a limit; words may reach
/// behind the keys.
fn shared_prefix(list: &[u8], one: usize, other: usize, limit: usize) -> usize {
    let mut count = 0;
    while count < limit {
        let difference = load(list, one + count) ^ load(list, other + count);
        if difference != 0 {
            return limit.min(count + difference.trailing_zeros() as usize / 8);
        }
        count += 8;
    }
    limit
}

/// Gives the length of each body, 0 for LV in a version without it.
fn body_lengths(header: &Header, cursors: &Cursors) -> [usize; RECORDS] {
    let mut lengths = [0; RECORDS];
    for (length, bits) in lengths.iter_mut().zip(header.body_bits()) {
        *length = bits.div_ceil(8) as usize;
    }
    if header.has_level_starts() {
        lengths[LV] = 4 * cursors.levels;
    }
    lengths
}

/// Writes the header and each record's mark and body length, and gives the bodies; a record
/// that the image does not have has an empty one.
fn write_frame<'a>(
    image: &'a mut [u8],
    header: &Header,
    lengths: &[usize; RECORDS],
) -> [&'a mut [u8]; RECORDS] {
    let (head, mut rest) = image.split_at_mut(HEADER_LENGTH);
    head.copy_from_slice(&header.bytes());
    let marks = header.marks();
    std::array::from_fn(|record| {
        let Some(mark) = marks.get(record) else {
            return Default::default();
        };
        let (head, behind) = std::mem::take(&mut rest).split_at_mut(RECORD_HEAD);
        head[..2].copy_from_slice(*mark);
        head[2..].copy_from_slice(&(lengths[record] as u32).to_le_bytes());
        let body;
        (body, rest) = behind.split_at_mut(lengths[record]);
        body
    })
}

/// Fills D-Labels, D-HasChild and D-IsPrefixKey.
fn fill_dense(
    list: &[u8],
    records: &[Record],
    header: &Header,
    cursors: &Cursors,
    [labels, has_child, is_prefix_key]: [&mut [u8]; 3],
) {
    let dense_levels = header.settings.dense_levels as usize;
    if dense_levels == 0 {
        return;
    }
    labels.fill(0);
    has_child.fill(0);
    is_prefix_key.fill(0);
    let mut nodes = cursors.nodes.map(|node| (node as usize).wrapping_sub(1));
    nodes[0] = 0;
    for record in records {
        let (shared, end) = (usize::from(record.shared), usize::from(record.end));
        let key = record.key(list);
        for level in shared..dense_levels.min(end) {
            nodes[level] = nodes[level].wrapping_add(usize::from(level > shared));
            if level == key.len() {
                set(is_prefix_key, nodes[level]);
                break;
            }
            let position = nodes[level] * NODE_BITS + usize::from(key[level]);
            set(labels, position);
            if level + 1 < end {
                set(has_child, position);
            }
        }
    }
}

/// Fills S-Labels, S-HasChild and S-LOUDS. Each key clears one bit of S-LOUDS, where
/// it leaves the key before, and one of S-HasChild, at its leaf.
fn fill_sparse(
    list: &[u8],
    records: &[Record],
    header: &Header,
    cursors: &Cursors,
    [labels, has_child, louds]: [&mut [u8]; 3],
) {
    let Some(last) = labels.len().checked_sub(1) else {
        return;
    };
    has_child.fill(0xFF);
    louds.fill(0xFF);
    let dense_levels = header.settings.dense_levels as usize;
    let mut entries = cursors.entries;
    let mut batch = Batch {
        labels: [[0; BATCH]; LEVELS],
        counts: [0; LEVELS],
    };
    for records in records.chunks(BATCH) {
        for record in records {
            let (shared, leaf) = (usize::from(record.shared), usize::from(record.end) - 1);
            if shared >= dense_levels {
                clear(louds, batch.position(&entries, shared));
            }
            if leaf >= dense_levels {
                clear(has_child, batch.position(&entries, leaf));
                let first = shared.max(dense_levels);
                batch.add(record.key(list), first, leaf, record.is_exact());
            }
        }
        batch.copy_to(labels, &mut entries);
    }
    set(louds, 0);
    let used = 0xFF >> (7 - last % 8);
    has_child[last / 8] &= used;
    louds[last / 8] &= used;
}

impl Batch {
    /// Gives the position of the next entry of a level.
    fn position(&self, entries: &[u32; LEVELS], level: usize) -> usize {
        entries[level] as usize + usize::from(self.counts[level])
    }

    /// Adds a key's labels on the levels from the first to its leaf.
    fn add(&mut self, key: &[u8], first: usize, leaf: usize, exact: bool) {
        let behind = leaf + usize::from(!exact);
        let rows = self.labels[first..behind].iter_mut();
        let counts = &mut self.counts[first..behind];
        for ((row, &count), &label) in rows.zip(counts.iter()).zip(&key[first..behind]) {
            row[usize::from(count) % BATCH] = label;
        }
        for count in counts {
            *count += 1;
        }
        if exact {
            self.labels[leaf][usize::from(self.counts[leaf]) % BATCH] = EXTRA_LABEL;
            self.counts[leaf] += 1;
        }
    }

    /// Copies the labels of each level behind those that are written, and starts again.
    fn copy_to(&mut self, labels: &mut [u8], entries: &mut [u32; LEVELS]) {
        let levels = self.labels.iter().zip(&mut self.counts).zip(entries);
        for ((row, count), entry) in levels.filter(|((_, count), _)| **count > 0) {
            let length = usize::from(*count);
            labels[*entry as usize..][..length].copy_from_slice(&row[..length]);
            *entry += length as u32;
            *count = 0;
        }
    }
}

/// Fills the slots, those of exact leaves with zeros.
fn fill_slots(
    list: &[u8],
    records: &[Record],
    settings: Settings,
    cursors: &Cursors,
    values: &mut [u8],
) {
    values.fill(0);
    let [h, n] = [settings.h, settings.n].map(|bits| bits as usize);
    let width = h + n;
    if width == 0 {
        return;
    }
    let touched = (7 + width).div_ceil(8);
    let mut slots = cursors.slots;
    for record in records {
        let slot = &mut slots[usize::from(record.end) - 1];
        let position = *slot as usize * width;
        *slot += 1;
        if !record.is_exact() {
            let suffix = hash_bits(record.key(list), h) | real_bits(list, record, n) << h;
            let bits = suffix << (position % 8);
            let bytes = values[position / 8..].iter_mut();
            for (byte, part) in bytes.zip(bits.to_le_bytes()).take(touched) {
                *byte |= part;
            }
        }
    }
}

/// Gives the real bits of an open leaf, the first one lowest.
fn real_bits(list: &[u8], record: &Record, count: usize) -> u64 {
    let left = (record.length - record.end).min(2);
    let two = load(list, record.start as usize + usize::from(record.end)) as u16;
    let kept = u64::from(two.swap_bytes().reverse_bits()) & below(8 * usize::from(left));
    kept & below(count)
}

/// Fills a table with the ones before each block of a body.
fn fill_ranks(body: &[u8], table: &mut [u8], block: usize) {
    let mut before = 0;
    for (entry, bytes) in table.chunks_exact_mut(4).zip(body.chunks(block / 8)) {
        entry.copy_from_slice(&(before as u32).to_le_bytes());
        before += ones_of(bytes);
    }
}

/// Fills a table with the position of each 64th one; a word holds one such at most.
fn fill_samples(body: &[u8], table: &mut [u8]) {
    let mut before: usize = 0;
    let mut entries = table.chunks_exact_mut(4);
    for index in 0..body.len().div_ceil(8) {
        let bits = word(body, index);
        let sampled = before.next_multiple_of(SAMPLE) - before;
        before += ones(bits);
        if sampled < ones(bits) {
            let position = index * 64 + select_in_word(bits, sampled);
            let entry = entries.next().expect("there is an entry for each sample");
            entry.copy_from_slice(&(position as u32).to_le_bytes());
        }
    }
}

/// Fills LV, where there is one, with the first node of each level.
fn fill_level_starts(cursors: &Cursors, table: &mut [u8]) {
    for (entry, node) in table.chunks_exact_mut(4).zip(cursors.nodes) {
        entry.copy_from_slice(&node.to_le_bytes());
    }
}

/// Sets a bit of a body.
fn set(body: &mut [u8], position: usize) {
    body[position / 8] |= 1 << (position % 8);
}

/// Clears a bit of a body.
fn clear(body: &mut [u8], position: usize) {
    body[position / 8] &= !(1 << (position % 8));
}
