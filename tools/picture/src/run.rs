//! One run of a table, event by event, and when each job waited and ran in it.

use crate::table::{Row, State, Table, Tick, DONE, NOT_ARRIVED, READY, RUNNING};

#[derive(Clone, Copy, Debug, PartialEq)]
pub enum Event {
    Tick,
    Arrival(usize),
    Start(usize),
    Ending(usize),
}

impl Event {
    pub fn of_word(word: &str) -> Result<Event, String> {
        match word.parse() {
            Ok(0) => Ok(Event::Tick),
            Ok(job @ 1..=8) => Ok(Event::Arrival(job)),
            Ok(byte @ 17..=24) => Ok(Event::Start(byte - 16)),
            Ok(byte @ 33..=40) => Ok(Event::Ending(byte - 32)),
            _ => Err(format!("{:?} is no event", word)),
        }
    }
}

/// The ticks at which a job arrived, started and ended; none where the run stops sooner.
#[derive(Clone, Default)]
pub struct Times {
    pub arrived: Option<u32>,
    pub started: Option<u32>,
    pub ended: Option<u32>,
}

pub struct Run {
    /// Of jobs 1 to n.
    pub times: Vec<Times>,
    /// The ticks at which the tick was held, and a start was forced.
    pub held: Vec<u32>,
    /// The ticks that passed with a job ready, none running and no start allowed.
    pub kept_idle: Vec<u32>,
    /// The tick that the run came to.
    pub end: u32,
}

/// A run being followed.
struct Walk<'a> {
    table: &'a Table,
    state: State,
    run: Run,
}

impl Run {
    /// Arrivals first, then the lowest allowed start, then the ending at the most ticks, else the tick.
    pub fn earliest(table: &Table) -> Result<Run, String> {
        let mut walk = Walk::new(table);
        while !walk.state.finished() {
            let event = walk.next_event()?;
            walk.take(event)?;
        }
        Ok(walk.run)
    }

    pub fn given(table: &Table, events: &[Event]) -> Result<Run, String> {
        let mut walk = Walk::new(table);
        for &event in events {
            walk.take(event)?;
        }
        Ok(walk.run)
    }
}

impl<'a> Walk<'a> {
    fn new(table: &'a Table) -> Walk<'a> {
        let times = vec![Times::default(); table.jobs];
        let run = Run { times, held: Vec::new(), kept_idle: Vec::new(), end: 0 };
        Walk { table, state: table.start(), run }
    }

    fn next_event(&self) -> Result<Event, String> {
        let state = &self.state;
        let pending =
            |&job: &usize| state.status(job) == NOT_ARRIVED && state.now == self.table.arrival(job);
        if let Some(job) = (1..=self.table.jobs).find(pending) {
            return Ok(Event::Arrival(job));
        }
        if let Some(&job) = self.table.row(state)?.starts.first() {
            return Ok(Event::Start(job));
        }
        let full = |&job: &usize| state.elapsed == self.table.most(job);
        Ok(state.running().filter(full).map_or(Event::Tick, Event::Ending))
    }

    /// Takes an event that the table allows and that leads to a row, and notes what it shows.
    fn take(&mut self, event: Event) -> Result<(), String> {
        let row = self.table.row(&self.state)?;
        let next = after(&self.state, row, event)
            .filter(|next| self.table.row(next).is_ok())
            .ok_or(format!("{:?} is not allowed in {:?}", event, self.state))?;
        self.note(row, event);
        self.state = next;
        Ok(())
    }

    fn note(&mut self, row: &Row, event: Event) {
        let now = self.run.end;
        match event {
            Event::Tick if self.state.finished() => {}
            Event::Tick => {
                let ready = self.state.statuses.contains(&READY);
                if ready && self.state.running().is_none() && row.starts.is_empty() {
                    self.run.kept_idle.push(now);
                }
                self.run.end += 1;
            }
            Event::Arrival(job) => self.run.times[job - 1].arrived = Some(now),
            Event::Start(job) => {
                if row.tick == Tick::Held {
                    self.run.held.push(now);
                }
                self.run.times[job - 1].started = Some(now);
            }
            Event::Ending(job) => self.run.times[job - 1].ended = Some(now),
        }
    }
}

/// The state that an event leads to, if the state and the row allow it.
fn after(state: &State, row: &Row, event: Event) -> Option<State> {
    let mut next = state.clone();
    match event {
        Event::Tick if state.finished() => {}
        Event::Tick => {
            next.now += 1;
            next.elapsed += u32::from(state.running().is_some());
            return Some(next).filter(|_| row.tick == Tick::Open);
        }
        Event::Arrival(job) => change(&mut next, job, NOT_ARRIVED, READY)?,
        Event::Start(job) if row.starts.contains(&job) => change(&mut next, job, READY, RUNNING)?,
        Event::Start(_) => return None,
        Event::Ending(job) => {
            change(&mut next, job, RUNNING, DONE)?;
            next.elapsed = 0;
        }
    }
    if next.finished() {
        next.now = 0;
    }
    Some(next)
}

fn change(state: &mut State, job: usize, from: u8, to: u8) -> Option<()> {
    let status = state.statuses.get_mut(job - 1).filter(|status| **status == from)?;
    *status = to;
    Some(())
}
