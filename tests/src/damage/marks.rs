//! Marks that do not fit their state.

use super::{changed, slot_at, Damaged};
use crate::second::file::{write, SLOTS};
use crate::second::form::Table;
use crate::second::state::{State, READY};
use crate::second::table::Row;

/// A start offered while an arrival is pending, in the first and in the last row where a job is
/// ready then.
pub fn start_before_arrival(table: &Table) -> Vec<Damaged> {
    let file = write(&table.sheet, &table.rows);
    let offers: Vec<(usize, u8)> = (0..table.rows.len())
        .filter_map(|row| Some((row, ready_while_pending(table, &table.rows[row])?)))
        .collect();
    let ends = [offers.first(), offers.last()];
    let offer = |&(row, job): &(usize, u8)| {
        let starts_at = slot_at(row % SLOTS) + 4;
        changed("a start before an arrival", &file, 1 + row / SLOTS, &[(starts_at, job)])
    };
    ends.into_iter().flatten().flat_map(offer).collect()
}

/// The bit of the lowest ready job, where none runs and an arrival is pending.
fn ready_while_pending(table: &Table, row: &Row) -> Option<u8> {
    let state = State::of_word(row.word);
    if state.running().is_some() || !state.any_pending(&table.sheet) {
        return None;
    }
    let ready = table.sheet.job_numbers().find(|&k| state.status(k) == READY)?;
    Some(1 << (ready - 1))
}
