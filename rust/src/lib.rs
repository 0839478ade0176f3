//! Range filters: small images of sorted runs of keys, which tell from memory whether a run may
//! hold a key, whether it may hold one in a range, how many, and which comes next.
//!
//! ```
//! use range_filter::{build, Filter, Settings};
//!
//! let image = build(["D1", "D12", "D2", "V"], Settings::default())?;
//! let filter = Filter::open(&image)?; // checks the image, once
//! assert!(filter.may_contain("D1")?); // a stored key is never denied
//! assert!(!filter.may_contain("D10")?); // no need to read the run
//! assert!(!filter.may_contain_range("E", "U")?);
//! assert!(filter.starts_with("D")?);
//! assert_eq!(filter.count("D11", "D13")?, 1);
//! assert_eq!(filter.seek("D13")?.expect("D2 comes next").key, "D2");
//! # Ok::<(), range_filter::Refusal>(())
//! ```
//!
//! An image is the trie of the keys' shortest distinguishing prefixes, in the LOUDS-Dense and
//! LOUDS-Sparse form of the published Succinct Range Filter, with up to 16 bits of each key's hash
//! and up to 16 further bits of the key itself. Keys have 1 to 64 bytes, and an image has at most
//! 65,535 of them. The work is done by a library that is proved: each of its calls gives, for every
//! input, what the definition of the format says. This crate passes slices to it and gives its
//! answers types.
//!
//! # What a filter promises
//!
//! An image keeps the beginning of each key, so that several key lists have the same image. The
//! *possible keys* of an image are those that some list with this image holds, and every answer
//! is about them. Stored keys are among them, so none is ever denied: `false`, `None` and a count
//! of 0 are certain. `true`, a key that is found and a count say what may be stored: the run has
//! to be read to know. All this is about images without hash bits; a section below says what is
//! promised with them.
//!
//! ```
//! use range_filter::{build, Filter, Settings};
//!
//! // V and VAN are both cut behind V, so that these two lists have one image.
//! let image = build(["D1", "D12", "D2", "VAN"], Settings::default())?;
//! assert_eq!(image, build(["D1", "D12", "D2", "V"], Settings::default())?);
//!
//! // A list with this image may have two keys here; the one with VAN has none.
//! assert_eq!(Filter::open(&image)?.count("D2a", "V")?, 2);
//! # Ok::<(), range_filter::Refusal>(())
//! ```
//!
//! Real bits ([`Settings::with_real_bits`]) are the bits of a key behind its cut. They make fewer
//! keys possible that are not stored.
//!
//! # Hash bits
//!
//! Hash bits ([`Settings::with_hash_bits`]) are the lowest bits of the whole key's [`hash()`].
//! Points alone go by them, so that fewer keys that are not stored get `true`; ranges, stems,
//! counts and seeks say the same with and without them. So a point may say `false` where the range
//! from that one key to itself says `true`: the range has only the real bits to go by.
//!
//! With hash bits a stored key is still never denied. What a range, a stem, a count or a seek says
//! is then about the lists that have the image's cut keys and real bits, whatever their hash bits;
//! without hash bits these are just the lists with this image. That some list with this image holds
//! the key of every point that gets `true` is promised without hash bits alone.
//!
//! ```
//! use range_filter::{build, Filter, Settings};
//!
//! let image = build(["D1", "D12", "D2", "V"], Settings::default().with_hash_bits(8))?;
//! let filter = Filter::open(&image)?;
//! assert!(filter.may_contain("D2")?);
//! assert!(!filter.may_contain("D2x")?); // D2x has another hash than D2
//! assert!(filter.may_contain_range("D2x", "D2x")?);
//! # Ok::<(), range_filter::Refusal>(())
//! ```
//!
//! # Versions
//!
//! An image has version 1 or 2 ([`Settings::with_version`]); every call takes both. Two images of
//! one list that differ in the version alone get the same answers, counts and seeks faster over
//! version 2 where levels are many.
//!
//! # Checked once, asked often
//!
//! [`Filter::open`] takes any bytes and checks them. It borrows them, so that they stay as they
//! were checked while the filter is in use, and questions need no further check. Who makes the
//! slice from a mapped file promises that nobody writes to that file.
//!
//! [`ask`] replies to a whole file of questions and checks the image in each call.
//!
//! # Cost
//!
//! [`build`] is linear in the bytes of the keys, and [`Filter::open`] in the bytes of the image.
//! A question is not: it takes a few searches on each of at most 64 levels, however many keys are
//! stored, and no heap memory. [`Filter::leaf`] goes straight to its place, and a walk over all
//! [`Leaves`] is linear in the image.
//!
//! # Threads
//!
//! The library has no state. A [`Filter`] is a shared borrow of bytes, so that it is [`Send`] and
//! [`Sync`], and any number of threads may ask one at the same time.
//!
//! # Panics
//!
//! Nothing here panics, whatever bytes it is given.
//!
//! # Refusals
//!
//! A call that cannot be answered gives a [`Refusal`], which has a name, the number that the
//! other faces of the library give, and a sentence that says what is wrong and what to do.
//!
//! ```
//! use range_filter::{build, Refusal, Settings};
//!
//! let refusal = build(["D1", ""], Settings::default()).unwrap_err();
//! assert_eq!(refusal, Refusal::KeyLengthWrong);
//! assert_eq!(refusal.number(), 2);
//! assert_eq!(
//!     refusal.to_string(),
//!     "a key is empty or has over 64 bytes: leave it out or shorten it"
//! );
//! ```

#![deny(missing_docs)]
#![deny(unsafe_code)]

#[allow(unsafe_code)]
mod calls;
mod filter;
mod hash;
mod images;
mod key;
mod leaf;
mod leaves;
mod questions;
mod refusal;
mod rule;
mod settings;

pub use filter::{Filter, Found};
pub use hash::hash;
pub use images::{build, build_from_list, check, image_length, write_key_list, MAX_KEYS};
pub use key::{Key, MAX_KEY_BYTES};
pub use leaf::{Leaf, Suffix};
pub use leaves::Leaves;
pub use questions::{ask, write_questions, Question, Replies, Reply, MAX_QUESTIONS};
pub use refusal::Refusal;
pub use rule::Rule;
pub use settings::Settings;
