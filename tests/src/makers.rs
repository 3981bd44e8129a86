//! Make as it is measured: the second program's, the tuned one's and the product's.

use crate::guarded::{Lent, Placement};
use crate::library;
use crate::race::{race, Runner};
use crate::second::calls::{self, WORK_WORDS};
use crate::second::file::{BLOCK_BYTES, MOST_BLOCKS};
use crate::second::sheet::Sheet;
use crate::tuned;

pub const MOST_BYTES: usize = BLOCK_BYTES * MOST_BLOCKS;

/// Each race has one product: in one product's run the processor would learn the branches of the
/// sheet, and guess them right in the next one's.
pub fn all(numbers: &[u16]) -> Vec<Runner<'_>> {
    vec![second(numbers), tuned(numbers), product(numbers)]
}

/// The times of the tuned maker and of the product, without the second program between them.
pub fn beside_tuned(numbers: &[u16]) -> (f64, f64) {
    let times = race(vec![tuned(numbers), product(numbers)]);
    (times[0].1, times[1].1)
}

fn second(numbers: &[u16]) -> Runner<'_> {
    let (mut work, mut out) = (vec![0; WORK_WORDS], vec![0; MOST_BYTES]);
    let call = move || calls::make(numbers, &mut work, &mut out).length as usize;
    ("second program", Box::new(call))
}

fn tuned(numbers: &[u16]) -> Runner<'static> {
    let sheet = Sheet::of_numbers(numbers).expect("good length");
    ("tuned", Box::new(move || tuned::make(&sheet).map_or(0, |file| file.len())))
}

fn product(numbers: &[u16]) -> Runner<'static> {
    let sheet = Lent::shared(numbers, Placement::EndsAtGuard);
    let work = Lent::copy_of(&vec![0; WORK_WORDS], Placement::EndsAtGuard);
    let out = Lent::copy_of(&vec![0; MOST_BYTES], Placement::EndsAtGuard);
    ("product", Box::new(move || library::make(&sheet, &work, &out).length as usize))
}
