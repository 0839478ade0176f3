//! What every call of the library that takes an image says of one that is refused.

use crate::answer::Answer;
use crate::reference::rebuild::accepts;
use crate::{compare, library};

/// Asserts the number that every call gives for an image that is refused, whatever else it
/// takes.
pub fn assert_refused(image: &[u8], number: u32) {
    assert_eq!(compare::check(library::check, image), number);
    assert!(!accepts(image));
    let asked = compare::ask(library::ask, image, b"??", 100);
    let walked = compare::walk(library::walk, image, u64::MAX, 100);
    assert_eq!([asked, walked], [Answer::Refused(number); 2]);
}
