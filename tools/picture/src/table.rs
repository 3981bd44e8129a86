//! A printed table: its header, and a row for each state.

use std::collections::BTreeMap;

pub const NOT_ARRIVED: u8 = 0;
pub const READY: u8 = 1;
pub const RUNNING: u8 = 2;
pub const DONE: u8 = 3;

#[derive(Clone, Debug, PartialEq, Eq, PartialOrd, Ord)]
pub struct State {
    pub now: u32,
    pub elapsed: u32,
    pub statuses: Vec<u8>,
}

impl State {
    pub fn status(&self, job: usize) -> u8 {
        self.statuses[job - 1]
    }

    pub fn running(&self) -> Option<usize> {
        (1..=self.statuses.len()).find(|&job| self.status(job) == RUNNING)
    }

    pub fn finished(&self) -> bool {
        self.statuses.iter().all(|&status| status == DONE)
    }
}

#[derive(Clone, Copy, Debug, PartialEq)]
pub enum Tick {
    None,
    Open,
    Held,
}

pub struct Row {
    /// Ascending.
    pub starts: Vec<usize>,
    pub tick: Tick,
}

pub struct Table {
    pub jobs: usize,
    rows: BTreeMap<State, Row>,
}

impl Table {
    pub fn of_text(text: &str) -> Result<Table, String> {
        let mut lines = text.lines();
        let header = lines.next().unwrap_or("");
        let (jobs, count) = counts(header).ok_or(format!("no table: {:?}", header))?;
        let mut rows = BTreeMap::new();
        for line in lines {
            let (state, row) = row_in(line, jobs).ok_or(format!("no row: {:?}", line))?;
            rows.insert(state, row);
        }
        if rows.len() != count {
            return Err(format!("{} rows, not the {} of the header", rows.len(), count));
        }
        Ok(Table { jobs, rows })
    }

    pub fn states(&self) -> usize {
        self.rows.len()
    }

    pub fn row(&self, state: &State) -> Result<&Row, String> {
        self.rows.get(state).ok_or(format!("{:?} is no row of the table", state))
    }

    pub fn start(&self) -> State {
        State { now: 0, elapsed: 0, statuses: vec![NOT_ARRIVED; self.jobs] }
    }

    /// A job has not arrived up to its arrival tick, and in every run up to then.
    pub fn arrival(&self, job: usize) -> u32 {
        self.greatest(|state| (state.status(job) == NOT_ARRIVED).then(|| state.now))
    }

    /// An ending can't be forced, so some run has the job at its most ticks.
    pub fn most(&self, job: usize) -> u32 {
        self.greatest(|state| (state.status(job) == RUNNING).then(|| state.elapsed))
    }

    /// The last tick at which the table has the job unfinished.
    pub fn last(&self, job: usize) -> u32 {
        self.greatest(|state| (state.status(job) != DONE).then(|| state.now))
    }

    fn greatest(&self, number: impl Fn(&State) -> Option<u32>) -> u32 {
        self.rows.keys().filter_map(number).max().unwrap_or(0)
    }
}

fn counts(header: &str) -> Option<(usize, usize)> {
    match header.split(' ').collect::<Vec<_>>()[..] {
        ["jobs", jobs, "states", rows] => Some((jobs.parse().ok()?, rows.parse().ok()?)),
        _ => None,
    }
}

fn row_in(line: &str, jobs: usize) -> Option<(State, Row)> {
    let fields: Vec<&str> = line.split(' ').collect();
    let (now, elapsed, statuses, starts, tick) = match fields[..] {
        [now, elapsed, statuses, starts, tick] => (now, elapsed, statuses, starts, tick),
        _ => return None,
    };
    let statuses = digits(statuses).filter(|statuses| statuses.len() == jobs)?;
    let state = State { now: now.parse().ok()?, elapsed: elapsed.parse().ok()?, statuses };
    let starts = if starts == "-" { Vec::new() } else { digits(starts)? };
    let tick = match tick {
        "none" => Tick::None,
        "open" => Tick::Open,
        "held" => Tick::Held,
        _ => return None,
    };
    Some((state, Row { starts: starts.into_iter().map(usize::from).collect(), tick }))
}

fn digits(text: &str) -> Option<Vec<u8>> {
    text.chars().map(|letter| letter.to_digit(10).map(|digit| digit as u8)).collect()
}
