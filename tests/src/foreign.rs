//! Files of good form that no maker made: random states in order with random marks that fit.

use crate::clauses::start_row;
use crate::random::Random;
use crate::second::form::{in_order, marks_fit, Table};
use crate::second::sheet::{Job, Sheet};
use crate::second::state::{State, DONE, NOT_ARRIVED, READY, RUNNING};
use crate::second::table::Row;
use std::collections::BTreeMap;

/// The start's row and up to `most` − 1 others.
pub fn table(sheet: &Sheet, most: usize, random: &mut Random) -> Table {
    let mut rows = BTreeMap::new();
    rows.insert(0, start_row(sheet));
    for _ in 0..8 * most {
        if rows.len() == most {
            break;
        }
        if let Some(row) = random_row(sheet, random) {
            rows.entry(row.word).or_insert(row);
        }
    }
    Table { sheet: sheet.clone(), rows: rows.into_values().collect() }
}

/// A loose sheet of which more states are in order than any file can hold.
pub fn wide_sheet() -> Sheet {
    Sheet::new(&[
        Job::new(0, 1, 9, 120),
        Job::new(3, 2, 7, 130),
        Job::new(5, 3, 20, 150),
        Job::new(40, 1, 30, 200),
    ])
}

fn random_row(sheet: &Sheet, random: &mut Random) -> Option<Row> {
    let state = random_state(sheet, random);
    if !in_order(sheet, &state) {
        return None;
    }
    let starts = random_starts(sheet, &state, random);
    let ticks: Vec<u8> = (0..=2).filter(|&tick| marks_fit(sheet, &state, starts, tick)).collect();
    if ticks.is_empty() {
        return None;
    }
    Some(Row { word: state.word(), starts, tick: *random.pick(&ticks) })
}

/// Mostly in order: each job has a status that its numbers allow at this tick.
fn random_state(sheet: &Sheet, random: &mut Random) -> State {
    let latest = sheet.job_numbers().map(|i| sheet.job(i).arrival + sheet.job(i).due).max();
    let mut state = State::start();
    state.now = random.from_to(0, latest.unwrap_or(0) as usize) as u32;
    for i in sheet.job_numbers() {
        let status = random_status(&sheet.job(i), &state, random);
        state.set_status(i, status);
        if status == RUNNING {
            let most = sheet.job(i).most.min(state.now - sheet.job(i).arrival);
            state.elapsed = random.from_to(0, most as usize) as u32;
        }
    }
    if state.all_done(sheet) {
        State::finished(sheet)
    } else {
        state
    }
}

fn random_status(job: &Job, state: &State, random: &mut Random) -> u8 {
    if state.now < job.arrival || (state.now == job.arrival && random.once_in(2)) {
        return NOT_ARRIVED;
    }
    let mut allowed = Vec::new();
    if state.now <= job.arrival + job.due {
        allowed.push(READY);
        if state.running().is_none() {
            allowed.push(RUNNING);
        }
    }
    if state.now >= job.arrival + job.fewest {
        allowed.push(DONE);
    }
    *random.pick(&allowed)
}

fn random_starts(sheet: &Sheet, state: &State, random: &mut Random) -> u8 {
    if state.running().is_some() || state.any_pending(sheet) {
        return 0;
    }
    let ready = (1..=8).filter(|&k| state.status(k) == READY);
    ready.map(|k| if random.once_in(2) { 1 << (k - 1) } else { 0 }).sum()
}
