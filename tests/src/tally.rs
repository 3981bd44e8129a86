//! Tests counted: each prints one line, and the last line has the counts. The counts are kept
//! for the whole program, so that a fault inside a call can still close with them.

use std::fmt::Debug;
use std::sync::atomic::{AtomicUsize, Ordering::SeqCst};

static PASSED: AtomicUsize = AtomicUsize::new(0);
static FAILED: AtomicUsize = AtomicUsize::new(0);

/// What a test says: nothing, or what is wrong.
pub type Outcome = Result<(), String>;

pub fn test(name: &str, outcome: Outcome) {
    match outcome {
        Ok(()) => {
            PASSED.fetch_add(1, SeqCst);
            println!("passed  {}", name);
        }
        Err(why) => {
            FAILED.fetch_add(1, SeqCst);
            println!("failed  {}: {}", name, why);
        }
    }
}

/// Prints the last line; true if something passed and nothing failed.
pub fn close() -> bool {
    println!("{} passed, {} failed", PASSED.load(SeqCst), FAILED.load(SeqCst));
    PASSED.load(SeqCst) > 0 && FAILED.load(SeqCst) == 0
}

/// Every case in its turn. No case at all is a failure: nothing was tried.
pub fn each<T>(cases: &[T], test: impl Fn(&T) -> Outcome) -> Outcome {
    if cases.is_empty() {
        return Err("no case".to_string());
    }
    cases.iter().try_for_each(test)
}

/// Two values that ought to be equal.
pub fn same<T: PartialEq + Debug>(what: &str, found: T, wanted: T) -> Outcome {
    if found == wanted {
        Ok(())
    } else {
        Err(format!("{} is {:?}, not {:?}", what, found, wanted))
    }
}
