//! Calls that are measured side by side.

use std::time::{Duration, Instant};

/// Each call has this much time; its fastest run counts.
const A_WHILE: Duration = Duration::from_millis(150);

extern "C" {
    fn mallopt(what: i32, value: i32) -> i32;
}

const M_TRIM_THRESHOLD: i32 = -1;
const M_MMAP_THRESHOLD: i32 = -3;
const MORE_THAN_IS_USED: i32 = 1 << 24;

/// A name and what to measure under it.
pub type Runner<'a> = (&'static str, Box<dyn FnMut() -> usize + 'a>);

/// The fastest run of each in microseconds. They take turns, so that a slow moment of the machine
/// falls on all of them. Their answers are added up and looked at, so that no call can be left out.
pub fn race(mut runners: Vec<Runner>) -> Vec<(&'static str, f64)> {
    keep_the_heap();
    let begin = Instant::now();
    let time = A_WHILE * runners.len() as u32;
    let mut least = vec![f64::MAX; runners.len()];
    let mut answers = 0;
    while begin.elapsed() < time {
        for ((_, call), least) in runners.iter_mut().zip(&mut least) {
            let before = Instant::now();
            answers += call();
            *least = least.min(before.elapsed().as_secs_f64() * 1e6);
        }
    }
    assert!(answers < usize::MAX, "an answer");
    runners.iter().map(|(name, _)| *name).zip(least).collect()
}

/// Memory that one program frees stays with the heap. If the system got it back, the next program
/// would pay for asking again: up to a fifth of the tuned maker's time.
fn keep_the_heap() {
    // SAFETY: it sets two numbers of the allocator.
    let set = [M_TRIM_THRESHOLD, M_MMAP_THRESHOLD]
        .map(|what| unsafe { mallopt(what, MORE_THAN_IS_USED) });
    assert_eq!(set, [1, 1], "mallopt");
}

/// Prints the times, and what share of each of the others the last is. Answers the last one's time.
pub fn print_race(what: &str, runners: Vec<Runner>) -> f64 {
    let times = race(runners);
    let (last, others) = times.split_last().expect("a runner");
    let of = |(name, time): &(&str, f64)| format!("{:.2} of {name}", last.1 / time);
    let shares: Vec<String> = others.iter().map(of).collect();
    let times: Vec<String> = times.iter().map(|(name, time)| format!("{name} {time:.1}")).collect();
    println!("{what}: {} ({})", times.join(", "), shares.join(", "));
    last.1
}
