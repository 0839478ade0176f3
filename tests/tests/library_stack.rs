//! The stack that each call of the proved library takes, on painted stacks, against the figures of
//! docs/costs.md. The C header and the README have to state the same figures.

use range_filter_tests::accepted::{AcceptedCalls, FOUND_BYTES};
use range_filter_tests::generate::any_settings;
use range_filter_tests::generate::images::built;
use range_filter_tests::generate::keys::{any_keys, ascending, many_keys, many_mixed_keys};
use range_filter_tests::generate::questions::add_to_last_byte;
use range_filter_tests::library::{self, accept, Accepted};
use range_filter_tests::random::Random;
use range_filter_tests::reference::keys::{self, MAX_KEY};
use range_filter_tests::reference::questions::{write, Question};
use range_filter_tests::reference::replies::REPLY_HEAD;
use range_filter_tests::reference::walk::RECORD_BYTES;
use range_filter_tests::settings::{version_1, version_2, Settings};
use range_filter_tests::stack::taken;
use std::collections::BTreeMap;
use std::fs;
use std::hint::black_box;
use std::path::Path;

const KIB: usize = 1024;
const LARGE_KEYS: usize = 300;
const ANY_LISTS: usize = 24;
const KEYS_A_LIST: usize = 4;
const RECORDS_A_WALK: usize = 3;

/// A figure lies less than this above the most that is seen.
const SLACK: usize = 2 * KIB;

/// The settings of each list whose keys are long.
const SETTINGS: [Settings; 6] = [
    version_1(0, 0),
    version_2(0, 0),
    version_1(2, 8).with_hash(8),
    version_2(2, 8),
    version_1(4, 16),
    version_2(4, 16).with_hash(16),
];

/// The calls of a row of the page, and the stack that it states for each of them.
struct Row {
    calls: Vec<String>,
    kib: usize,
}

/// Reads a file of the repository.
fn read(path: &str) -> String {
    let path = Path::new(env!("CARGO_MANIFEST_DIR")).join("..").join(path);
    fs::read_to_string(&path).unwrap_or_else(|error| panic!("{}: {error}", path.display()))
}

/// Gives the part of a text behind an opening and before a closing.
fn between<'a>(text: &'a str, opening: &str, closing: &str) -> &'a str {
    let (_, behind) = text.split_once(opening).expect("the text has the opening");
    let (part, _) = behind.split_once(closing).expect("the part is closed");
    part
}

/// Reads a row of the page: the calls in backquotes, and `under 5 KiB`.
fn read_row(row: &str) -> Option<Row> {
    let (calls, figure) = row
        .strip_prefix("| ")?
        .strip_suffix(" |")?
        .split_once(" | ")?;
    let calls = calls
        .split(", ")
        .map(|call| call.trim_matches('`').to_owned());
    let kib = figure.strip_prefix("under ")?.strip_suffix(" KiB")?;
    Some(Row {
        calls: calls.collect(),
        kib: kib.parse().ok()?,
    })
}

/// Gives the rows of the page.
fn page() -> Vec<Row> {
    let page = read("docs/costs.md");
    let rows = between(&page, "\n| calls | stack |\n| --- | --- |\n", "\n\n");
    let row = |row| read_row(row).unwrap_or_else(|| panic!("no row: {row}"));
    rows.lines().map(row).collect()
}

/// Gives the figure of each call on the page, by name.
fn figures() -> BTreeMap<String, usize> {
    let rows = page().into_iter();
    let figures = rows.flat_map(|row| row.calls.into_iter().map(move |call| (call, row.kib)));
    figures.collect()
}

/// The most stack that each call has taken, by name.
#[derive(Default)]
struct Seen(BTreeMap<&'static str, usize>);

impl Seen {
    /// Makes a call on a painted stack, and gives its answer.
    fn note<T: Send>(&mut self, call: &'static str, make: impl FnOnce() -> T + Send) -> T {
        let mut answer = None;
        let bytes = taken(|| answer = Some(make()));
        let most = self.0.entry(call).or_default();
        *most = bytes.max(*most);
        answer.expect("the call has been made")
    }

    /// Makes every call over a list and its image.
    fn note_all(&mut self, keys: &[Vec<u8>], settings: Settings) {
        let image = built(keys, settings);
        self.note_build(&keys::write(keys), settings, &image);
        let asked = keys_to_ask(keys);
        let accepted = accept(&image).expect("a built image is accepted");
        asked.iter().for_each(|key| self.note_key(accepted, key));
        pairs(&asked).for_each(|bounds| self.note_bounds(accepted, bounds));
        self.note_ask(&image, &asked);
        let places = spread(keys.len()).chain([keys.len()]);
        places.for_each(|place| self.note_walks(accepted, place as u64));
    }

    /// Makes the calls that build and check an image.
    fn note_build(&mut self, list: &[u8], settings: Settings, image: &[u8]) {
        let call = || library::image_length(list, settings);
        let length = self.note("range_filter_image_length", call);
        assert_eq!(length, Ok(image.len()));
        let mut out = vec![0; image.len()];
        let call = || library::build(list, settings, image.len() as u64, &mut out);
        self.note("range_filter_build", call);
        assert!(out == image);
        assert_eq!(self.note("range_filter_check", || library::check(image)), 0);
    }

    /// Makes the calls that take one key.
    fn note_key(&mut self, image: Accepted, key: &[u8]) {
        let mut found = [0; FOUND_BYTES];
        self.note("range_filter_hash", || black_box(library::hash(key)));
        let answers = [
            self.note("range_filter_accepted_point", || image.point(key)),
            self.note("range_filter_accepted_rule", || image.rule(key)),
            self.note("range_filter_accepted_begins_with", || {
                image.begins_with(key)
            }),
            self.note("range_filter_accepted_seek", || image.seek(key, &mut found)),
        ];
        assert!(answers.iter().all(Result::is_ok));
    }

    /// Makes the calls that take two bounds.
    fn note_bounds(&mut self, image: Accepted, [lower, upper]: [&[u8]; 2]) {
        let answers = [
            self.note("range_filter_accepted_range", || image.range(lower, upper)),
            self.note("range_filter_accepted_count", || image.count(lower, upper)),
        ];
        assert!(answers.iter().all(Result::is_ok));
    }

    /// Asks all questions about keys in one file, with room for the longest replies and with less,
    /// where the lengths are summed first.
    fn note_ask(&mut self, image: &[u8], asked: &[Vec<u8>]) {
        let questions = questions(asked);
        let file = write(&questions);
        let room = questions.len() * (REPLY_HEAD + MAX_KEY);
        for room in [room, room - 1] {
            let mut replies = vec![0; room];
            let call = || library::ask(image, &file, &mut replies);
            assert!(self.note("range_filter_ask", call).length() > 0);
        }
    }

    /// Walks an image from a place on by both calls.
    fn note_walks(&mut self, image: Accepted, place: u64) {
        let mut records = [0; RECORDS_A_WALK * RECORD_BYTES];
        let call = || library::walk(image.image(), place, &mut records);
        let checked = self.note("range_filter_walk", call);
        let call = || image.walk(place, &mut records);
        let accepted = self.note("range_filter_accepted_walk", call);
        assert_eq!(accepted.length(), checked.length());
    }
}

/// Gives some places of a list: the first ones and the last one among them.
fn spread(keys: usize) -> impl Iterator<Item = usize> {
    let step = keys.div_ceil(KEYS_A_LIST).max(1);
    (0..keys).step_by(step).chain(keys.checked_sub(1))
}

/// Gives keys to ask about: the empty one, the highest one, some of the list, and others that end
/// before these, part from them in the last byte, or go on behind them.
fn keys_to_ask(keys: &[Vec<u8>]) -> Vec<Vec<u8>> {
    let mut asked = vec![Vec::new(), vec![0xFF; MAX_KEY]];
    for place in spread(keys.len()) {
        let key = &keys[place];
        let mut behind = key.clone();
        add_to_last_byte(&mut behind, 1);
        asked.push(behind);
        asked.extend([key.len() / 2, key.len() - 1, key.len()].map(|end| key[..end].to_vec()));
    }
    ascending(asked)
}

/// Gives every two keys of an ascending list, and each with itself.
fn pairs(keys: &[Vec<u8>]) -> impl Iterator<Item = [&[u8]; 2]> {
    let pairs = keys
        .iter()
        .enumerate()
        .map(|(at, lower)| (lower, &keys[at..]));
    pairs.flat_map(|(lower, others)| others.iter().map(move |upper| [&lower[..], upper]))
}

/// Gives the questions of every kind about keys.
fn questions(asked: &[Vec<u8>]) -> Vec<Question> {
    let kinds = [Question::Point, Question::Seek, Question::BeginsWith];
    let about = |key: &Vec<u8>| kinds.map(|kind| kind(key.clone()));
    let mut questions: Vec<Question> = asked.iter().flat_map(about).collect();
    for [lower, upper] in pairs(asked) {
        let [lower, upper] = [lower.to_vec(), upper.to_vec()];
        questions.push(Question::Range(lower.clone(), upper.clone()));
        questions.push(Question::Count(lower, upper));
    }
    questions
}

/// Gives two keys that share 63 bytes, and a third one that shares none: a trie of 64 levels, most
/// of them with one branch.
fn keys_that_part_at_the_end() -> Vec<Vec<u8>> {
    let shared = [&b"a"[..], &[b'm'; MAX_KEY - 2]].concat();
    let [one, two] = [b"1", b"2"].map(|last| [&shared[..], last].concat());
    vec![one, two, b"b".to_vec()]
}

/// Gives keys whose trie has 64 levels, each with a leaf before and a leaf behind the branch that
/// goes on, so that a way down passes leaves on each of them.
fn keys_that_part_everywhere() -> Vec<Vec<u8>> {
    let shared = [b'm'; MAX_KEY];
    let at = |level: usize| [b'a', b'z'].map(|last| [&shared[..level], &[last]].concat());
    let keys = (0..MAX_KEY).flat_map(at).chain([shared.to_vec()]);
    ascending(keys.collect())
}

/// Gives keys of 1 to 64 bytes, each of which begins the next.
fn keys_inside_each_other() -> Vec<Vec<u8>> {
    (1..=MAX_KEY).map(|length| vec![b'm'; length]).collect()
}

/// Gives lists of long keys: few whose tries have 64 levels, and many that are random or come in
/// random pairs.
fn long_lists(random: &mut Random) -> Vec<Vec<Vec<u8>>> {
    let long = |_| random.bytes(MAX_KEY, MAX_KEY);
    vec![
        ascending((0..LARGE_KEYS).map(long).collect()),
        many_keys(random, LARGE_KEYS, MAX_KEY),
        many_mixed_keys(random, LARGE_KEYS, MAX_KEY),
        keys_that_part_at_the_end(),
        keys_that_part_everywhere(),
        keys_inside_each_other(),
    ]
}

/// Asserts that calls of a row have taken less than it states, and not much less.
fn assert_stated(row: &Row, seen: &Seen) {
    let most = row.calls.iter().map(|call| seen.0[call.as_str()]).max();
    let most = most.expect("a row has a call");
    let stated = row.kib * KIB;
    let calls = row.calls.join(", ");
    assert!(most < stated, "{calls}: {most} of {stated} bytes");
    assert!(
        stated - most < SLACK,
        "{calls}: only {most} of {stated} bytes"
    );
}

#[test]
fn each_call_stays_within_its_figure() {
    let mut random = Random::new(141);
    let mut seen = Seen::default();
    for keys in long_lists(&mut random) {
        SETTINGS
            .iter()
            .for_each(|&settings| seen.note_all(&keys, settings));
    }
    for _ in 0..ANY_LISTS {
        let keys = any_keys(&mut random);
        seen.note_all(&keys, any_settings(&mut random));
    }
    let called: Vec<&str> = seen.0.keys().copied().collect();
    let stated = figures();
    assert_eq!(called, stated.keys().collect::<Vec<_>>());
    page().iter().for_each(|row| assert_stated(row, &seen));
}

#[test]
fn the_page_has_every_call_of_the_header() {
    let header = read("include/range_filter.h");
    let returned = ["uint64_t ", "uint32_t "];
    let declared = header.lines().filter_map(|line| {
        let behind = returned.iter().find_map(|kind| line.strip_prefix(kind))?;
        behind.split_once('(').map(|(name, _)| name.to_owned())
    });
    let mut declared: Vec<String> = declared.collect();
    declared.sort();
    assert_eq!(declared, figures().into_keys().collect::<Vec<_>>());
}

/// Reads a line of the header's list: a call, and `5 KiB` behind it.
fn read_line(line: &str) -> Option<(String, usize)> {
    let words: Vec<&str> = line.split_whitespace().collect();
    let ["*", call, kib, "KiB"] = words[..] else {
        return None;
    };
    Some((call.to_owned(), kib.parse().ok()?))
}

#[test]
fn the_header_has_the_figures() {
    let header = read("include/range_filter.h");
    let section = between(&header, "\n * STACK\n", "\n */");
    let found: BTreeMap<String, usize> = section.lines().filter_map(read_line).collect();
    assert_eq!(found, figures());
}

#[test]
fn the_readme_has_the_figures() {
    let figures = figures();
    let of = |call: &str| figures[&format!("range_filter_{call}")];
    let [length, build, check] = ["image_length", "build", "check"].map(of);
    let [ask, walk, hash] = ["ask", "walk", "hash"].map(of);
    let one_way =
        ["point", "rule", "range", "begins_with"].map(|call| of(&format!("accepted_{call}")));
    let sums = ["count", "seek"].map(|call| of(&format!("accepted_{call}")));
    assert_eq!(
        (one_way, sums),
        ([one_way[0]; 4], [sums[0]; 2]),
        "the README has one figure"
    );
    let (one_way, sums, leaves) = (one_way[0], sums[0], of("accepted_walk"));
    let expected = format!(
        "- **Stack.** Under {length} KiB for the image's length, {build} for build, {check} for \
         check, {ask} for ask, {walk} for walk, {hash} for a hash; over an accepted image under \
         {one_way} KiB for a point, rule, range or stem, {sums} for a count or a seek, {leaves} \
         for leaves. "
    );
    assert!(read("README.md").contains(&expected), "{expected}");
}

/// Has so many bytes on the stack.
#[inline(never)]
fn use_stack<const BYTES: usize>() {
    black_box(&mut [0_u8; BYTES]);
}

#[test]
fn a_painted_stack_shows_what_a_call_uses() {
    let used = [
        (0, taken(|| ())),
        (3_000, taken(use_stack::<3_000>)),
        (30_000, taken(use_stack::<30_000>)),
    ];
    for (least, bytes) in used {
        assert!(
            (least..least + KIB / 2).contains(&bytes),
            "{bytes} for {least} bytes"
        );
    }
}
