//! Every call of the product against the second program: replies, and the buffers afterwards.

mod judging;
mod lending;
mod making;
mod questions;
mod reading;
mod stored;
mod walks;

use crate::guarded::watch_for_faults;
use crate::tally::test;
use std::fmt::Debug;

/// Random cases are the same for the same seed; `cases` says how many a group has.
pub fn run(seed: u64, cases: usize) {
    watch_for_faults();
    stored::run();
    making::run(seed, cases);
    reading::run(seed, cases);
    walks::run(seed, cases);
    lending::run(seed, cases);
    judging::run(seed, cases);
}

/// One test of many cases. Its first mismatch is printed whole.
pub struct Group {
    name: String,
    cases: usize,
    mismatches: usize,
    first: String,
}

impl Group {
    pub fn new(name: &str) -> Group {
        Group { name: name.to_string(), cases: 0, mismatches: 0, first: String::new() }
    }

    /// The number of this case, from 0.
    pub fn next_case(&mut self) -> usize {
        self.cases += 1;
        self.cases - 1
    }

    pub fn same<T: PartialEq + Debug>(
        &mut self,
        describe: &dyn Fn() -> String,
        what: &str,
        found: T,
        wanted: T,
    ) {
        if found != wanted {
            self.mismatch(describe, format!("{} is {:?}, not {:?}", what, found, wanted));
        }
    }

    /// Long contents: their lengths, or the first place where they differ, is told.
    pub fn same_items<T: PartialEq + Debug>(
        &mut self,
        describe: &dyn Fn() -> String,
        what: &str,
        found: &[T],
        wanted: &[T],
    ) {
        if found.len() != wanted.len() {
            let why = format!("{}s are {}, not {}", what, found.len(), wanted.len());
            self.mismatch(describe, why);
        }
        let pairs = found.iter().zip(wanted);
        if let Some((at, (found, wanted))) = pairs.enumerate().find(|(_, pair)| pair.0 != pair.1) {
            let why = format!("{} {} is {:?}, not {:?}", what, at, found, wanted);
            self.mismatch(describe, why);
        }
    }

    fn mismatch(&mut self, describe: &dyn Fn() -> String, why: String) {
        if self.mismatches == 0 {
            self.first = format!("{}\n{}", why, describe());
        }
        self.mismatches += 1;
    }

    /// A group without a case has failed: nothing was tried.
    pub fn close(self) {
        let name = format!("{} ({} cases)", self.name, self.cases);
        let outcome = if self.cases == 0 {
            Err("no case".to_string())
        } else if self.mismatches == 0 {
            Ok(())
        } else {
            Err(format!("{} mismatches, the first: {}", self.mismatches, self.first))
        };
        test(&name, outcome);
    }
}
