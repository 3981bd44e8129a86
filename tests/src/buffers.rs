//! Work slice and output after each of make's replies, by the rules' own numbers.

use crate::second::calls::make;
use crate::tally::{same, test, Outcome};
use crate::worked::S1;

/// Written once more, so that a wrong constant of the second program is seen.
const CLEARED: usize = 15_748;

const NOISE_WORD: u32 = 7;
const NOISE_BYTE: u8 = 9;

pub fn run() {
    test("make 0: work cleared, the file written, the rest kept", done());
    test("make 1: all kept", kept(&[0, 1, 1], 1, CLEARED + 5));
    test("make 2: all kept", kept(&[0, 0, 1, 1], 2, CLEARED + 5));
    test("make 3: all kept", kept(&S1, 3, CLEARED - 1));
    test("make 4: work cleared, output kept", cleared(&[0, 255, 255, 255], 4, 4_096));
    test("make 5: work cleared, output kept", cleared(&[0, 1, 2, 2, 0, 1, 1, 2], 5, 4_096));
    test("make 6: work cleared, output kept", cleared(&S1, 6, 1_023));
}

/// The reply's number, and both buffers afterwards.
fn called(numbers: &[u16], words: usize, bytes: usize) -> (u32, Vec<u32>, Vec<u8>) {
    let mut work = vec![NOISE_WORD; words];
    let mut out = vec![NOISE_BYTE; bytes];
    (make(numbers, &mut work, &mut out).number, work, out)
}

fn all_are<T: PartialEq>(items: &[T], value: T) -> bool {
    items.iter().all(|item| *item == value)
}

fn work_cleared(work: &[u32]) -> Outcome {
    same("the first words are zero", all_are(&work[..CLEARED], 0), true)?;
    same("the other words are kept", all_are(&work[CLEARED..], NOISE_WORD), true)
}

fn done() -> Outcome {
    let (number, work, out) = called(&S1, CLEARED + 5, 1_500);
    same("the number", number, 0)?;
    same("the first bytes", &out[..8], &[84, 66, 1, 1, 0, 0, 2, 0])?;
    same("the bytes past the file are kept", all_are(&out[1_024..], NOISE_BYTE), true)?;
    work_cleared(&work)
}

fn kept(numbers: &[u16], wanted: u32, words: usize) -> Outcome {
    let (number, work, out) = called(numbers, words, 4_096);
    same("the number", number, wanted)?;
    same("the work slice is kept", all_are(&work, NOISE_WORD), true)?;
    same("the output is kept", all_are(&out, NOISE_BYTE), true)
}

fn cleared(numbers: &[u16], wanted: u32, bytes: usize) -> Outcome {
    let (number, work, out) = called(numbers, CLEARED + 5, bytes);
    same("the number", number, wanted)?;
    same("the output is kept", all_are(&out, NOISE_BYTE), true)?;
    work_cleared(&work)
}
