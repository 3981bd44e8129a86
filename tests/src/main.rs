//! The tests of Smirrado.
//!
//! `self` holds the second program to the sheets worked by hand, to counts at the limits and to
//! files whose form was settled by hand. `compare` holds every call of the product to the second
//! program; `text` does the same for the printing program, named by the command that runs it. `believed`
//! holds the lists of docs/PROMISES.md to the definitions that the contracts rest on. `touch`
//! touches memory that was not lent. `bench` measures the calls and, where it is named, the printing
//! program. `print` is the second program's printing program, or the tuned one's.

mod believed;
mod bench;
mod bench_print;
mod buffers;
mod classes;
mod clauses;
mod compare;
mod damage;
mod foreign;
mod forms;
mod found;
mod guarded;
mod library;
mod limits;
mod makers;
mod played;
mod printer;
mod race;
mod random;
mod refusals;
mod replies;
mod second;
mod sheets;
mod tally;
mod texts;
mod tuned;
mod tuned_read;
mod tuned_text;
mod worked;

use std::env;
use std::process::ExitCode;

const USAGE: &str = "usage: tests self
       tests compare [--seed N] [--cases N]
       tests text [--seed N] [--cases N] COMMAND..
       tests believed [--names]
       tests touch
       tests bench [PROGRAM]
       tests print [tuned]";

fn main() -> ExitCode {
    let arguments: Vec<String> = env::args().skip(1).collect();
    let words: Vec<&str> = arguments.iter().map(String::as_str).collect();
    match words.split_first() {
        Some((&"self", [])) => own_tests(),
        Some((&"compare", rest)) => match seed_and_cases(rest) {
            Some((seed, cases, [])) => compare::run(seed, cases),
            _ => return usage(),
        },
        Some((&"text", rest)) => match seed_and_cases(rest) {
            Some((seed, cases, command @ [_, ..])) => texts::run(command, seed, cases),
            _ => return usage(),
        },
        Some((&"believed", rest @ ([] | ["--names"]))) => {
            let right = believed::run(!rest.is_empty());
            return if right { ExitCode::SUCCESS } else { ExitCode::FAILURE };
        }
        Some((&"touch", [])) => guarded::touch_past_the_end(),
        Some((&"bench", rest @ ([] | [_]))) => {
            bench::run();
            bench_print::steps();
            rest.iter().for_each(|program| bench_print::processes(program));
            return ExitCode::SUCCESS;
        }
        Some((&"print", rest @ ([] | ["tuned"]))) => match printer::print(!rest.is_empty()) {
            Ok(()) => return ExitCode::SUCCESS,
            Err(_) => return ExitCode::FAILURE,
        },
        _ => return usage(),
    }
    if tally::close() {
        ExitCode::SUCCESS
    } else {
        ExitCode::FAILURE
    }
}

fn usage() -> ExitCode {
    eprintln!("{}", USAGE);
    ExitCode::from(2)
}

fn own_tests() {
    worked::run();
    refusals::run();
    buffers::run();
    played::run();
    limits::run();
    forms::run();
}

/// The seed and the number of cases, and the words after them.
fn seed_and_cases<'a>(mut words: &'a [&'a str]) -> Option<(u64, usize, &'a [&'a str])> {
    let (mut seed, mut cases) = (1, 100);
    while let [option @ ("--seed" | "--cases"), number, rest @ ..] = words {
        match *option {
            "--seed" => seed = number.parse().ok()?,
            _ => cases = number.parse().ok()?,
        }
        words = rest;
    }
    Some((seed, cases, words))
}
