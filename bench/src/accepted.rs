//! The measurements of calls over an accepted image: the library has checked it before, and
//! the fast implementation has opened its trie.

use crate::measure::List;
use crate::timing::{compare, Effort, Figures};
use range_filter_bench::fast::accepted::Opened;
use range_filter_bench::fast::check;
use range_filter_bench::questions::{Kind, POINT};
use range_filter_tests::accepted::AcceptedCalls;
use range_filter_tests::library;
use range_filter_tests::reference::questions::{Question, MAX_QUESTIONS};
use range_filter_tests::reference::walk::RECORD_BYTES;
use range_filter_tests::settings::Settings;
use std::hint::black_box;

/// The calls of a round: as many as a question file has questions at most.
pub const CALLS: usize = MAX_QUESTIONS;

/// A call over an accepted image.
pub enum Call {
    Question(Question),
    Rule(Vec<u8>),
    Leaf(u64),
}

/// Gives calls with one question of a kind each.
pub fn questions(list: &List, kind: &Kind) -> Vec<Call> {
    let asked = list.questions(kind, CALLS).into_iter();
    asked.map(Call::Question).collect()
}

/// Gives calls for the rule behind a point each.
pub fn rules(list: &List) -> Vec<Call> {
    let asked = list.questions(&POINT, CALLS);
    let key = |point: &Question| point.keys()[0].to_vec();
    asked.iter().map(key).map(Call::Rule).collect()
}

/// Gives calls for the leaf at a place each.
pub fn leaves(list: &List) -> Vec<Call> {
    let places = list.places(CALLS).into_iter();
    places.map(Call::Leaf).collect()
}

/// Measures calls of the library against those of the fast implementation.
pub fn against_fast(list: &List, settings: Settings, calls: &[Call]) -> Figures {
    let image = list.image(settings);
    let library = accept(&image);
    let accepted = check::accept(&image).expect("and so it is by the fast check");
    measure(&library, &Opened::new(&accepted), calls)
}

/// Measures calls of the library over the images of a list with two settings; both have to say
/// and write the same.
pub fn by_settings(list: &List, settings: [Settings; 2], calls: &[Call]) -> Figures {
    let images = settings.map(|settings| list.image(settings));
    let [first, second] = images.each_ref().map(|image| accept(image));
    measure(&first, &second, calls)
}

/// Measures calls of the library over the images of a list with two settings, which may say
/// other numbers.
pub fn by_settings_that_differ(list: &List, settings: [Settings; 2], calls: &[Call]) -> Figures {
    let images = settings.map(|settings| list.image(settings));
    let [first, second] = images.each_ref().map(|image| accept(image));
    let make_all = |accepted: &library::Accepted| {
        black_box(sum(accepted, calls));
    };
    compare(effort(calls), || make_all(&first), || make_all(&second))
}

/// Gives a built image as accepted by the library.
fn accept(image: &[u8]) -> library::Accepted<'_> {
    library::accept(image).expect("a built image is accepted")
}

/// Measures calls by call, after both have said and written the same.
fn measure(first: &impl AcceptedCalls, second: &impl AcceptedCalls, calls: &[Call]) -> Figures {
    for call in calls {
        assert_eq!(outcome(first, call), outcome(second, call));
    }
    compare(effort(calls), || sum(first, calls), || sum(second, calls))
}

/// Gives the effort of a measurement by call whose rounds make all calls.
fn effort(calls: &[Call]) -> Effort {
    Effort {
        calls: 1,
        units: calls.len(),
    }
}

/// Gives what a call says and writes.
fn outcome(implementation: &impl AcceptedCalls, call: &Call) -> (u32, [u8; RECORD_BYTES]) {
    let mut buffer = [0; RECORD_BYTES];
    (call.make(implementation, &mut buffer), buffer)
}

/// Makes all calls, with one buffer, and gives the sum of the numbers that they say.
fn sum(implementation: &impl AcceptedCalls, calls: &[Call]) -> u64 {
    let mut buffer = [0; RECORD_BYTES];
    let numbers = calls
        .iter()
        .map(|call| call.make(implementation, &mut buffer));
    numbers.map(u64::from).sum()
}

impl Call {
    /// Makes the call by an implementation, and gives the number that it says; what it
    /// writes stands at the front of the buffer.
    #[inline(always)]
    fn make(&self, implementation: &impl AcceptedCalls, buffer: &mut [u8; RECORD_BYTES]) -> u32 {
        let number = match self {
            Call::Question(question) => {
                let found = buffer.first_chunk_mut().expect("a record is longer");
                implementation.ask(question, found)
            }
            Call::Rule(key) => implementation.rule(key),
            Call::Leaf(place) => Ok(implementation.walk(*place, buffer).length() as u32),
        };
        number.expect("the call is not refused")
    }
}
