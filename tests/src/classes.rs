//! Make's speed on random sheets by their number of live states, beside what is asked of it.

use crate::makers;
use crate::race::race;
use crate::random::Random;
use crate::second::calls::table_of;
use crate::second::sheet::{Sheet, MOST_JOBS};
use crate::second::table::{Live, MOST_LIVE};
use crate::sheets;
use std::iter::repeat_with;
use std::ops::RangeInclusive;

/// Sheets of one size, and the share of the tuned program's time that make may take on them; none
/// where nothing is asked.
pub struct Class {
    what: &'static str,
    live: RangeInclusive<usize>,
    /// So many sheets for each number of jobs.
    sheets_each: usize,
    mean: Option<f64>,
    worst: Option<f64>,
}

pub static CLASSES: [Class; 5] = [
    Class {
        what: "more than 5,000",
        live: 5_001..=MOST_LIVE,
        sheets_each: 5,
        mean: Some(0.75),
        worst: Some(0.9),
    },
    Class {
        what: "1,000 to 5,000",
        live: 1_000..=5_000,
        sheets_each: 3,
        mean: None,
        worst: Some(1.0),
    },
    Class { what: "100 to 999", live: 100..=999, sheets_each: 3, mean: Some(1.0), worst: None },
    Class { what: "below 100", live: 1..=99, sheets_each: 3, mean: Some(2.0), worst: None },
    Class { what: "too many", live: TOO_MANY..=TOO_MANY, sheets_each: 3, mean: None, worst: None },
];

/// Stands for every number of live states that make refuses.
const TOO_MANY: usize = MOST_LIVE + 1;

/// No call of make may take longer, in microseconds.
const LONGEST: f64 = 3_000.0;

/// The product's share of the others' times on a sheet, and its own time.
struct Raced {
    to_second: f64,
    to_tuned: f64,
    time: f64,
    has_table: bool,
}

impl Class {
    /// Measures the class, prints what was found and answers the longest time of the product.
    pub fn measure(&self) -> f64 {
        let raced: Vec<Raced> = (1..=MOST_JOBS).flat_map(|jobs| self.raced(jobs)).collect();
        let mean = |of: fn(&Raced) -> f64| raced.iter().map(of).sum::<f64>() / raced.len() as f64;
        let most = |of: fn(&Raced) -> f64| raced.iter().map(of).fold(0.0, f64::max);
        let best = raced.iter().map(|one| one.to_tuned).fold(f64::MAX, f64::min);
        let (to_tuned, worst) = (mean(|one| one.to_tuned), most(|one| one.to_tuned));
        let (to_second, longest) = (mean(|one| one.to_second), most(|one| one.time));
        let tables = raced.iter().filter(|one| one.has_table).count();
        print!("make, {} live states: {} sheets, {tables} tables, ", self.what, raced.len());
        print!("{to_tuned:.2} of tuned in the mean, {best:.2} at best, {worst:.2} at worst, ");
        print!("{to_second:.2} of second program in the mean, longest {longest:.1}; ");
        println!("{}", self.verdict(to_tuned, worst));
        longest
    }

    /// The first random sheets of the class with so many jobs, the same in every run.
    fn raced(&self, jobs: usize) -> Vec<Raced> {
        let mut random = Random::new(jobs as u64);
        let drawn = repeat_with(|| sheets::of_jobs(jobs, &mut random));
        let found = drawn.filter(|numbers| self.has(numbers)).take(self.sheets_each);
        found.map(|numbers| raced(&numbers)).collect()
    }

    fn has(&self, numbers: &[u16]) -> bool {
        let sheet = Sheet::of_numbers(numbers).expect("good length");
        let limit = MOST_LIVE.min(*self.live.end());
        let live = Live::of_sheet(&sheet, limit).map_or(limit + 1, |live| live.count());
        self.live.contains(&live)
    }

    /// What is asked, and whether these figures meet it.
    fn verdict(&self, mean: f64, worst: f64) -> String {
        let mut asked = Vec::new();
        let mut is_met = true;
        for (most, found, what) in
            [(self.mean, mean, "in the mean"), (self.worst, worst, "at worst")]
        {
            if let Some(most) = most {
                asked.push(format!("at most {most:?} {what}"));
                is_met &= found <= most;
            }
        }
        if asked.is_empty() {
            return "asked nothing".to_string();
        }
        format!("asked {}: {}", asked.join(", "), met(is_met))
    }
}

fn raced(numbers: &[u16]) -> Raced {
    let times = race(makers::all(numbers));
    let (second, tuned, time) = (times[0].1, times[1].1, times[2].1);
    let has_table = table_of(numbers).is_ok();
    Raced { to_second: time / second, to_tuned: time / tuned, time, has_table }
}

/// Prints the longest time of the product on any sheet.
pub fn print_longest(time: f64) {
    println!(
        "make, any sheet: longest {time:.1}; asked at most {LONGEST}: {}",
        met(time <= LONGEST)
    );
}

fn met(is_met: bool) -> &'static str {
    if is_met {
        "met"
    } else {
        "not met"
    }
}
