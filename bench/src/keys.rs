//! The key lists that are measured.

use range_filter_tests::generate::keys::many_keys;
use range_filter_tests::random::Random;
use range_filter_tests::reference::keys::MAX_KEY;
use std::collections::BTreeSet;

/// The stations that station keys come from.
pub const STATIONS: usize = 300;

/// The first station's number, and the distance from one to the next.
const FIRST_STATION: usize = 10_000;
const STATION_DISTANCE: usize = 37;

/// The milliseconds of the time that station keys are from: where it starts, and how long
/// it is.
const START: u64 = 1_750_000_000_000;
const MONTH: usize = 30 * 24 * 60 * 60 * 1_000;

/// The most keys of a burst, the milliseconds that the next is less behind, and the kinds.
pub const BURST: usize = 24;
const GAP: usize = 40;
const KINDS: usize = 6;

/// The parts that text keys are made of, and how many numbers there are behind a host.
const DOMAINS: [&str; 12] = [
    "com.example",
    "com.examplecargo",
    "com.harbour",
    "com.harbour.eu",
    "de.beispiel",
    "de.spedition-nord",
    "fr.exemple",
    "net.example.uk",
    "net.railfreight",
    "nl.voorbeeld",
    "org.depots",
    "org.example.planning",
];
const HOSTS: [&str; 6] = ["depot", "dock", "gate", "mail", "planner", "station"];
const HOST_NUMBERS: usize = 60;
const USERS: [&str; 16] = [
    "anna", "anne", "ben", "carla", "carlos", "dora", "emil", "emily", "frank", "greta", "ida",
    "jan", "jana", "maria", "mario", "paul",
];

/// The parts that path keys are made of, and how many years and files there are.
const SITES: [&str; 8] = [
    "antwerp-north",
    "antwerp-south",
    "hamburg-altona",
    "hamburg-harburg",
    "rotterdam-east",
    "rotterdam-west",
    "wien-freudenau",
    "wien-nordwest",
];
const CLASSES: [&str; 5] = ["invoices", "manifests", "planning", "positions", "weights"];
const FIRST_YEAR: usize = 2023;
const YEARS: usize = 3;
const FILES: usize = 1_000_000;

/// The bytes that begin all keys of a kind, and how many random ones are behind them.
const COMMON: &[u8; 40] = b"urn:freight:wagon-position:v1:eu:region:";
const BEHIND_COMMON: usize = 8;

/// The bytes of the shortest key that begins others of its kind.
const SHORTEST_BEGINNING: usize = 3;

/// A named way to make so many keys, at most 65,535.
pub struct KeySet {
    pub name: &'static str,
    pub make: fn(&mut Random, usize) -> Vec<Vec<u8>>,
}

/// The ways to make keys.
pub const KEY_SETS: [KeySet; 5] = [
    RANDOM_8,
    RANDOM_13,
    STATION,
    TEXT,
    KeySet {
        name: "64 bytes in pairs that differ in the last",
        make: |random, count| many_keys(random, count, 64),
    },
];

/// Keys of eight random bytes.
pub const RANDOM_8: KeySet = KeySet {
    name: "random 8 bytes",
    make: |random, count| distinct(count, || random.bytes(8, 8)),
};

/// Keys of random bytes, as long as those of stations.
pub const RANDOM_13: KeySet = KeySet {
    name: "random 13 bytes",
    make: |random, count| distinct(count, || random.bytes(13, 13)),
};

/// Keys of random bytes, as long as a key can be: they are cut behind a few bytes, and the hash
/// takes in all of them.
pub const RANDOM_64: KeySet = KeySet {
    name: "random 64 bytes",
    make: |random, count| distinct(count, || random.bytes(MAX_KEY, MAX_KEY)),
};

/// Keys of stations: 4 bytes of the station's number, 8 of the time and 1 of the kind.
pub const STATION: KeySet = KeySet {
    name: "station, time and kind, 13 bytes",
    make: station_keys,
};

/// Keys of text.
pub const TEXT: KeySet = KeySet {
    name: "text, host and user",
    make: |random, count| distinct(count, || text_key(random)),
};

/// Further ways to make keys, whose tries have many levels.
pub const MANY_LEVELS: [KeySet; 3] = [
    KeySet {
        name: "paths",
        make: |random, count| distinct(count, || path_key(random)),
    },
    KeySet {
        name: "40 equal bytes, then 8 random ones",
        make: |random, count| {
            distinct(count, || {
                [&COMMON[..], &random.bytes(BEHIND_COMMON, BEHIND_COMMON)].concat()
            })
        },
    },
    KeySet {
        name: "random 64 bytes and all that begin them",
        make: nested_keys,
    },
];

/// Gives so many different keys in ascending order.
fn distinct(count: usize, mut key: impl FnMut() -> Vec<u8>) -> Vec<Vec<u8>> {
    let mut keys = BTreeSet::new();
    while keys.len() < count {
        keys.insert(key());
    }
    keys.into_iter().collect()
}

/// Gives the keys of stations, each of which has some bursts in a month.
fn station_keys(random: &mut Random, count: usize) -> Vec<Vec<u8>> {
    let mut station = 0;
    let mut time = 0;
    let mut left = 0;
    distinct(count, || {
        if left == 0 {
            station = FIRST_STATION + STATION_DISTANCE * random.below(STATIONS);
            time = START + random.below(MONTH) as u64;
            left = 1 + random.below(BURST);
        }
        left -= 1;
        time += random.below(GAP) as u64;
        let kind = random.below(KINDS) as u8;
        let station = (station as u32).to_be_bytes();
        [&station[..], &time.to_be_bytes(), &[kind]].concat()
    })
}

/// Gives a path of a file, by site, month and class.
fn path_key(random: &mut Random) -> Vec<u8> {
    let [site, class] = [*random.pick(&SITES), *random.pick(&CLASSES)];
    let year = FIRST_YEAR + random.below(YEARS);
    let month = 1 + random.below(12);
    let file = random.below(FILES);
    let key = format!("/srv/archive/{site}/{year}/{month:02}/{class}/{file:06}.csv");
    key.into_bytes()
}

/// Gives keys of 64 random bytes with all their beginnings of three bytes or more, so that
/// each level has many nodes with an exact leaf and one branch.
fn nested_keys(random: &mut Random, count: usize) -> Vec<Vec<u8>> {
    let mut longest = Vec::new();
    let mut length = MAX_KEY;
    distinct(count, || {
        if length == MAX_KEY {
            longest = random.bytes(MAX_KEY, MAX_KEY);
            length = SHORTEST_BEGINNING - 1;
        }
        length += 1;
        longest[..length].to_vec()
    })
}

/// Gives a host with its domain in front, and a user; one user in four has a number, so
/// that some keys begin others.
fn text_key(random: &mut Random) -> Vec<u8> {
    let [domain, host, user] = [
        *random.pick(&DOMAINS),
        *random.pick(&HOSTS),
        *random.pick(&USERS),
    ];
    let initial = random.string(b"abcdefghklmnprstw", 1, 1)[0] as char;
    let number = random.below(HOST_NUMBERS);
    let mut key = format!("{domain}.{host}{number}/{user}.{initial}");
    if random.once_in(4) {
        key += &random.below(10).to_string();
    }
    key.into_bytes()
}
