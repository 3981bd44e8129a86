//! Random sheets of several kinds, and sheets of bad length or with jobs of bad form.

use crate::random::Random;

#[derive(Clone, Copy, Debug)]
pub enum Kind {
    FewJobs,
    ManyJobs,
    Crowded,
    Tight,
    Loose,
    SameArrival,
    SpreadArrivals,
    DueAt255,
    Anything,
}

pub const KINDS: [Kind; 9] = [
    Kind::FewJobs,
    Kind::ManyJobs,
    Kind::Crowded,
    Kind::Tight,
    Kind::Loose,
    Kind::SameArrival,
    Kind::SpreadArrivals,
    Kind::DueAt255,
    Kind::Anything,
];

/// How many jobs a kind has, and from what its numbers are drawn.
struct Draw {
    jobs: (usize, usize),
    last_arrival: usize,
    most: usize,
    spare: usize,
}

fn draw_of(kind: Kind) -> Draw {
    match kind {
        Kind::FewJobs => Draw { jobs: (1, 2), last_arrival: 30, most: 15, spare: 30 },
        Kind::ManyJobs => Draw { jobs: (5, 8), last_arrival: 30, most: 3, spare: 12 },
        Kind::Crowded => Draw { jobs: (5, 8), last_arrival: 9, most: 2, spare: 20 },
        Kind::Tight => Draw { jobs: (2, 5), last_arrival: 14, most: 4, spare: 4 },
        Kind::Loose => Draw { jobs: (1, 3), last_arrival: 20, most: 3, spare: 90 },
        Kind::SameArrival => Draw { jobs: (2, 6), last_arrival: 0, most: 2, spare: 10 },
        Kind::SpreadArrivals => Draw { jobs: (3, 8), last_arrival: 80, most: 5, spare: 8 },
        Kind::DueAt255 => Draw { jobs: (1, 4), last_arrival: 0, most: 4, spare: 14 },
        Kind::Anything => Draw { jobs: (1, 8), last_arrival: 250, most: 255, spare: 255 },
    }
}

/// A sheet of good form of so many jobs, crowded or spread, short or long.
pub fn of_jobs(jobs: usize, random: &mut Random) -> Vec<u16> {
    let last_arrival = *random.pick(&[0, 4, 16, 60, 150]);
    let most = *random.pick(&[1, 2, 4, 16, 60]);
    let spare = *random.pick(&[6, 12, 24, 60, 220]);
    drawn(Kind::Anything, Draw { jobs: (jobs, jobs), last_arrival, most, spare }, random)
}

/// A sheet of good form, as numbers, job after job.
pub fn of_kind(kind: Kind, random: &mut Random) -> Vec<u16> {
    drawn(kind, draw_of(kind), random)
}

fn drawn(kind: Kind, draw: Draw, random: &mut Random) -> Vec<u16> {
    let jobs = random.from_to(draw.jobs.0, draw.jobs.1);
    let together = random.below(200);
    let mut numbers = Vec::new();
    for _ in 0..jobs {
        let mut arrival = random.from_to(0, draw.last_arrival);
        if let Kind::SameArrival = kind {
            arrival = together;
        }
        let most = random.from_to(1, draw.most.min(255 - arrival));
        let fewest = random.from_to(1, most);
        let due = random.from_to(most, (most + draw.spare).min(255 - arrival));
        if let Kind::DueAt255 = kind {
            arrival = 255 - due;
        }
        numbers.extend([arrival, fewest, most, due].map(|number| number as u16));
    }
    numbers
}

/// Every sheet of so many jobs of good form with arrivals and due ticks up to these.
pub fn small(jobs: usize, last_arrival: u16, most_due: u16) -> Vec<Vec<u16>> {
    let mut one_job = Vec::new();
    for arrival in 0..=last_arrival {
        for due in 1..=most_due {
            for most in 1..=due {
                one_job.extend((1..=most).map(|fewest| [arrival, fewest, most, due]));
            }
        }
    }
    let mut sheets = vec![Vec::new()];
    for _ in 0..jobs {
        let longer =
            |sheet: &Vec<u16>| one_job.iter().map(|job| [sheet, &job[..]].concat()).collect();
        sheets = sheets.iter().flat_map::<Vec<Vec<u16>>, _>(longer).collect();
    }
    sheets
}

/// A sheet of bad length or with a job of bad form, and its refusal.
pub struct Bad {
    pub what: String,
    pub numbers: Vec<u16>,
    pub number: u32,
    pub detail: u32,
}

/// Every way in which one job's numbers break its form.
const BAD_JOBS: [(&str, [u16; 4]); 13] = [
    ("fewest 0", [0, 0, 1, 1]),
    ("fewest above most", [0, 3, 2, 5]),
    ("most above due", [0, 1, 6, 5]),
    ("all 0", [0, 0, 0, 0]),
    ("due 0", [5, 1, 1, 0]),
    ("arrival and due make 256", [1, 255, 255, 255]),
    ("arrival 255, due 1", [255, 1, 1, 1]),
    ("arrival 65,535, due 1: no 16-bit sum", [65_535, 1, 1, 1]),
    ("arrival 1, due 65,535: no 16-bit sum", [1, 1, 1, 65_535]),
    ("arrival and due make 65,536 + 10", [65_531, 1, 1, 15]),
    ("arrival and due 32,768", [32_768, 1, 1, 32_768]),
    ("all 65,535", [65_535, 65_535, 65_535, 65_535]),
    ("due 256", [0, 1, 1, 256]),
];

pub fn bad() -> Vec<Bad> {
    let mut sheets = bad_lengths();
    for (what, job) in BAD_JOBS {
        for place in 1..=8 {
            sheets.push(with_bad_job(what, job, place));
        }
        sheets.push(two_bad_jobs(what, job));
    }
    sheets
}

/// Of any length but 4, 8, .. 32 numbers; the numbers would make good jobs, or bad ones.
fn bad_lengths() -> Vec<Bad> {
    let lengths = (0..=48).filter(|&length| length % 4 != 0 || length == 0 || length > 32);
    lengths
        .flat_map(|length| [bad_length(length, [0, 1, 1, 9]), bad_length(length, [0; 4])])
        .collect()
}

fn bad_length(length: usize, job: [u16; 4]) -> Bad {
    Bad {
        what: format!("{} numbers", length),
        numbers: (0..length).map(|place| job[place % 4]).collect(),
        number: 1,
        detail: 0,
    }
}

/// Eight jobs with a bad one among them.
fn with_bad_job(what: &str, job: [u16; 4], place: usize) -> Bad {
    let good = [0, 1, 1, 200];
    let numbers = (1..=8).flat_map(|i| if i == place { job } else { good }).collect();
    Bad { what: format!("job {}: {}", place, what), numbers, number: 2, detail: place as u32 }
}

/// The lower one is named.
fn two_bad_jobs(what: &str, job: [u16; 4]) -> Bad {
    let jobs = [[3, 1, 1, 3], job, [0, 1, 1, 4], job, [0, 2, 1, 3]];
    Bad { what: format!("jobs 2, 4 and 5: {}", what), numbers: jobs.concat(), number: 2, detail: 2 }
}
