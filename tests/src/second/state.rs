//! States and events: what is possible, what it leads to, what is late, and the state word.

use super::sheet::{Sheet, MOST_JOBS};
use crate::replies::Desk;

pub const NOT_ARRIVED: u8 = 0;
pub const READY: u8 = 1;
pub const RUNNING: u8 = 2;
pub const DONE: u8 = 3;

/// `now` can be 256: the tick at 255 leads there, to a late state that has no word.
#[derive(Clone, Copy, Debug, PartialEq, Eq, Hash)]
pub struct State {
    pub now: u32,
    pub elapsed: u32,
    pub statuses: [u8; MOST_JOBS],
}

/// Jobs by their number, from 1.
#[derive(Clone, Copy, Debug, PartialEq, Eq)]
pub enum Event {
    Tick,
    Arrival(usize),
    Start(usize),
    Ending(usize),
}

impl Event {
    /// Every event that a sheet of this many jobs knows.
    pub fn all(jobs: usize) -> Vec<Event> {
        let mut events = vec![Event::Tick];
        for i in 1..=jobs {
            events.extend([Event::Arrival(i), Event::Start(i), Event::Ending(i)]);
        }
        events
    }

    /// The event of an event byte: 0, 1 to 8, 17 to 24, 33 to 40 and nothing else.
    pub fn of_byte(byte: u8) -> Option<Event> {
        let job = usize::from(byte % 16);
        if byte == 0 {
            return Some(Event::Tick);
        }
        if job < 1 || job > MOST_JOBS {
            return None;
        }
        match byte / 16 {
            0 => Some(Event::Arrival(job)),
            1 => Some(Event::Start(job)),
            2 => Some(Event::Ending(job)),
            _ => None,
        }
    }

    /// The job that the event is of; the tick is of none.
    pub fn job(&self) -> Option<usize> {
        match *self {
            Event::Tick => None,
            Event::Arrival(i) | Event::Start(i) | Event::Ending(i) => Some(i),
        }
    }

    pub fn can_be_stopped(&self) -> bool {
        matches!(self, Event::Tick | Event::Start(_))
    }
}

impl State {
    pub fn start() -> State {
        State { now: 0, elapsed: 0, statuses: [NOT_ARRIVED; MOST_JOBS] }
    }

    /// The one state in which all jobs are done.
    pub fn finished(sheet: &Sheet) -> State {
        let mut state = State::start();
        for i in sheet.job_numbers() {
            state.set_status(i, DONE);
        }
        state
    }

    pub fn status(&self, job: usize) -> u8 {
        self.statuses[job - 1]
    }

    pub fn set_status(&mut self, job: usize, status: u8) {
        self.statuses[job - 1] = status;
    }

    pub fn running(&self) -> Option<usize> {
        (1..=MOST_JOBS).find(|&i| self.status(i) == RUNNING)
    }

    pub fn all_done(&self, sheet: &Sheet) -> bool {
        sheet.job_numbers().all(|i| self.status(i) == DONE)
    }

    pub fn pending(&self, sheet: &Sheet, job: usize) -> bool {
        self.status(job) == NOT_ARRIVED && self.now == sheet.job(job).arrival
    }

    pub fn any_pending(&self, sheet: &Sheet) -> bool {
        sheet.job_numbers().any(|i| self.pending(sheet, i))
    }

    /// Neither a start nor the tick is possible while an arrival is pending.
    pub fn possible(&self, sheet: &Sheet, event: Event) -> bool {
        match event {
            Event::Arrival(i) => self.pending(sheet, i),
            Event::Start(i) => self.start_possible(sheet, i),
            Event::Ending(i) => self.status(i) == RUNNING && self.elapsed >= sheet.job(i).fewest,
            Event::Tick => self.tick_possible(sheet),
        }
    }

    fn start_possible(&self, sheet: &Sheet, job: usize) -> bool {
        self.status(job) == READY && self.running().is_none() && !self.any_pending(sheet)
    }

    fn tick_possible(&self, sheet: &Sheet) -> bool {
        let must_end = self.running().map_or(false, |i| self.elapsed == sheet.job(i).most);
        !self.any_pending(sheet) && !must_end
    }

    /// Where a possible event leads. The last ending leads to the finished state, and so does
    /// the finished state's tick.
    pub fn after(&self, sheet: &Sheet, event: Event) -> State {
        let mut next = *self;
        match event {
            Event::Arrival(i) => next.set_status(i, READY),
            Event::Start(i) => {
                next.set_status(i, RUNNING);
                next.elapsed = 0;
            }
            Event::Ending(i) => {
                next.set_status(i, DONE);
                next.elapsed = 0;
            }
            Event::Tick => {
                next.now += 1;
                if self.running().is_some() {
                    next.elapsed += 1;
                }
            }
        }
        if next.all_done(sheet) {
            State::finished(sheet)
        } else {
            next
        }
    }

    /// Some arrived, unfinished job has now − A > D.
    pub fn late(&self, sheet: &Sheet) -> bool {
        sheet.job_numbers().any(|i| {
            let open = self.status(i) == READY || self.status(i) == RUNNING;
            open && self.now > sheet.job(i).arrival + sheet.job(i).due
        })
    }

    /// now × 2^24 + elapsed × 2^16 + the sum of status × 4^(i−1).
    pub fn word(&self) -> u32 {
        let mut word = self.now * (1 << 24) + self.elapsed * (1 << 16);
        for i in 1..=MOST_JOBS {
            word += u32::from(self.status(i)) * 4u32.pow(i as u32 - 1);
        }
        word
    }

    /// Every number is the word of one state, in order or not.
    pub fn of_word(word: u32) -> State {
        let mut state = State::start();
        state.now = word >> 24;
        state.elapsed = (word >> 16) % 256;
        for i in 1..=MOST_JOBS {
            state.set_status(i, ((word / 4u32.pow(i as u32 - 1)) % 4) as u8);
        }
        state
    }

    /// A desk with a status above 3 shows no state.
    pub fn of_desk(desk: &Desk) -> Option<State> {
        if desk.statuses.iter().any(|&status| status > DONE) {
            return None;
        }
        Some(State {
            now: u32::from(desk.now),
            elapsed: u32::from(desk.elapsed),
            statuses: desk.statuses,
        })
    }

    pub fn desk(&self) -> Desk {
        Desk { now: self.now as u8, elapsed: self.elapsed as u8, statuses: self.statuses }
    }
}
