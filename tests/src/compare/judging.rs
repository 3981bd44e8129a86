//! The engine against the second program and against make, on sheets small enough for it to come back.

use super::Group;
use crate::guarded::{described, Lent, Placement, FARTHEST};
use crate::library;
use crate::random::Random;
use crate::second::calls::{self, BAD_LENGTH, MANY_LIVE, WORK_WORDS};
use crate::sheets::{self, Kind};
use crate::worked::{S2, WORKED};

pub fn run(seed: u64, cases: usize) {
    worked_sheets();
    small_sheets();
    four_jobs(seed, cases);
    random_sheets(seed, cases);
    refusals(seed, cases);
    lent_anywhere();
}

/// One sheet, lent read-only between guard pages: the second program's answer, and make's verdict.
fn judge(group: &mut Group, numbers: &[u16]) {
    let placement = Placement::in_turn(group.next_case());
    judge_at(group, numbers, placement);
}

fn judge_at(group: &mut Group, numbers: &[u16], placement: Placement) {
    let describe = || format!("engine of sheet {:?}, {:?}", numbers, placement);
    let sheet = Lent::shared(numbers, placement);
    let found = described(&describe, || library::engine(&sheet));
    group.same(&describe, "the reply", found, calls::engine(numbers));
    let made = make(&sheet);
    if found.number != BAD_LENGTH && made.0 != MANY_LIVE {
        group.same(&describe, "make's verdict", made, (found.number, found.detail));
    }
}

/// Make's number and detail, lent room.
fn make(sheet: &Lent<u16>) -> (u32, u32) {
    let work = Lent::copy_of(&[0; WORK_WORDS], Placement::EndsAtGuard);
    let out = Lent::copy_of(&[0; 65_536], Placement::EndsAtGuard);
    let reply = library::make(sheet, &work, &out);
    (reply.number, reply.detail)
}

/// The sheets worked by hand, and some with too many live states for make.
fn worked_sheets() {
    let many_live: [&[u16]; 2] =
        [&[0, 1, 1, 255, 0, 1, 1, 255, 0, 1, 1, 255, 0, 1, 1, 255], &[5, 25, 41, 202]];
    let mut group = Group::new("engine: sheets worked by hand");
    for numbers in WORKED.into_iter().chain(many_live) {
        judge(&mut group, numbers);
    }
    group.close();
}

/// Every sheet of one, two and three small jobs.
fn small_sheets() {
    let mut group = Group::new("engine: every sheet of up to three small jobs");
    for (jobs, last_arrival, most_due) in [(1, 6, 8), (2, 1, 3), (3, 0, 2)] {
        for numbers in sheets::small(jobs, last_arrival, most_due) {
            judge(&mut group, &numbers);
        }
    }
    group.close();
}

/// Small jobs that come close together: about two sheets in five are impossible.
fn four_jobs(seed: u64, cases: usize) {
    let mut group = Group::new("engine: random sheets of three and four small jobs");
    let mut random = Random::new(seed + 400);
    for _ in 0..cases {
        let jobs = random.from_to(3, 4);
        let numbers: Vec<u16> = (0..jobs).flat_map(|_| small_job(&mut random)).collect();
        judge(&mut group, &numbers);
    }
    group.close();
}

/// The kinds that make is tried on, as far as the engine comes back soon.
fn random_sheets(seed: u64, cases: usize) {
    for (kind, times) in [(Kind::Tight, cases), (Kind::FewJobs, (cases + 9) / 10)] {
        let mut group = Group::new(&format!("engine: random sheets, {:?}", kind));
        let mut random = Random::new(seed + 402 + kind as u64);
        for _ in 0..times {
            judge(&mut group, &sheets::of_kind(kind, &mut random));
        }
        group.close();
    }
}

fn small_job(random: &mut Random) -> [u16; 4] {
    let arrival = random.from_to(0, 6);
    let most = random.from_to(1, 4);
    let fewest = random.from_to(1, most);
    let due = random.from_to(most, most + 5);
    [arrival, fewest, most, due].map(|number| number as u16)
}

/// Bad lengths, more than four jobs, and jobs of bad form in every place.
fn refusals(seed: u64, cases: usize) {
    let mut group = Group::new("engine: sheets of bad length and of bad form");
    let mut random = Random::new(seed + 401);
    for sheet in sheets::bad() {
        judge(&mut group, &sheet.numbers);
        judge(&mut group, &sheet.numbers[sheet.numbers.len().min(16)..]);
        judge(&mut group, &sheet.numbers[..sheet.numbers.len().min(16)]);
    }
    for _ in 0..cases {
        let numbers: Vec<u16> = (0..random.below(41)).map(|_| random.below(3) as u16).collect();
        judge(&mut group, &numbers);
    }
    group.close();
}

/// Null with length 0, and every address that the header allows.
fn lent_anywhere() {
    let mut group = Group::new("engine: null with length 0, and a sheet at every address");
    group.next_case();
    let found = library::engine(&Lent::null());
    group.same(&|| "engine of no sheet".to_string(), "the reply", found, calls::engine(&[]));
    for times in 0..=FARTHEST {
        group.next_case();
        judge_at(&mut group, &S2, Placement::Farther(times));
    }
    group.close();
}
