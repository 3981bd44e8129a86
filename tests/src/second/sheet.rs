//! A sheet: 1 to 8 jobs of four numbers each, and the good form of a job.

pub const MOST_JOBS: usize = 8;
pub const NUMBERS_A_JOB: usize = 4;

/// The four numbers, wide enough for true sums of any two of them.
#[derive(Clone, Copy, Debug, PartialEq, Eq)]
pub struct Job {
    pub arrival: u32,
    pub fewest: u32,
    pub most: u32,
    pub due: u32,
}

impl Job {
    pub const fn new(arrival: u32, fewest: u32, most: u32, due: u32) -> Job {
        Job { arrival, fewest, most, due }
    }

    pub fn of_numbers(numbers: &[u16]) -> Job {
        let wide = |i: usize| u32::from(numbers[i]);
        Job::new(wide(0), wide(1), wide(2), wide(3))
    }

    pub fn numbers(&self) -> [u16; NUMBERS_A_JOB] {
        [self.arrival as u16, self.fewest as u16, self.most as u16, self.due as u16]
    }

    /// 1 ≤ B ≤ W ≤ D and A + D ≤ 255.
    pub fn good_form(&self) -> bool {
        1 <= self.fewest
            && self.fewest <= self.most
            && self.most <= self.due
            && self.arrival + self.due <= 255
    }
}

/// The jobs of a sheet or of a table file, numbered from 1.
#[derive(Clone, Debug, PartialEq, Eq)]
pub struct Sheet {
    jobs: Vec<Job>,
}

impl Sheet {
    pub fn new(jobs: &[Job]) -> Sheet {
        Sheet { jobs: jobs.to_vec() }
    }

    /// Where the length is 4, 8, .. 32 numbers; the jobs may be of bad form.
    pub fn of_numbers(numbers: &[u16]) -> Option<Sheet> {
        let whole = numbers.len() % NUMBERS_A_JOB == 0;
        let jobs = numbers.len() / NUMBERS_A_JOB;
        if !whole || jobs < 1 || jobs > MOST_JOBS {
            return None;
        }
        Some(Sheet { jobs: numbers.chunks(NUMBERS_A_JOB).map(Job::of_numbers).collect() })
    }

    /// The numbers as they are lent, job after job.
    pub fn numbers(&self) -> Vec<u16> {
        self.jobs.iter().flat_map(|job| job.numbers()).collect()
    }

    pub fn count(&self) -> usize {
        self.jobs.len()
    }

    /// The one place where a job number becomes an index.
    pub fn job(&self, number: usize) -> Job {
        self.jobs[number - 1]
    }

    pub fn job_numbers(&self) -> std::ops::RangeInclusive<usize> {
        1..=self.count()
    }

    pub fn lowest_bad_job(&self) -> Option<usize> {
        self.job_numbers().find(|&i| !self.job(i).good_form())
    }
}
