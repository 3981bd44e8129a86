//! The calls: make, row, quick row, listing, leeway, step and engine, with their refusals in order.

use super::file::{write, BLOCK_BYTES, SLOTS};
use super::form::{read, read_for, Table};
use super::sheet::{Sheet, NUMBERS_A_JOB};
use super::state::{Event, State, NOT_ARRIVED, READY};
use super::table::{Live, Row, MOST_LIVE, TICK_OPEN};
use crate::replies::{
    Desk, EngineReply, LeewayReply, ListingReply, MakeReply, RowReply, StepReply,
};

/// Work words that make asks for, and clears.
pub const WORK_WORDS: usize = 15_748;

/// The most jobs of a sheet that the engine judges.
pub const ENGINE_JOBS: usize = 4;

pub const BAD_LENGTH: u32 = 1;
pub const BAD_JOB: u32 = 2;
pub const SMALL_WORK: u32 = 3;
pub const MANY_LIVE: u32 = 4;
pub const NOT_SAFE: u32 = 5;
pub const SHORT_OUTPUT: u32 = 6;
pub const BAD_FILE: u32 = 7;
pub const NO_ROW: u32 = 8;
pub const NO_EVENT: u32 = 9;
pub const NOT_POSSIBLE: u32 = 10;
pub const NOT_ALLOWED: u32 = 11;
pub const NO_LEEWAY: u32 = 12;

/// A refusal: number and detail.
pub type Refusal = (u32, u32);

/// Make up to refusal 5: the sheet and its rows.
pub fn table_of(numbers: &[u16]) -> Result<Table, Refusal> {
    let sheet = sheet_of(numbers)?;
    let live = Live::of_sheet(&sheet, MOST_LIVE).ok_or((MANY_LIVE, 0u32))?;
    let rows = live.rows();
    if rows.is_empty() {
        return Err((NOT_SAFE, 0));
    }
    Ok(Table { sheet, rows })
}

fn sheet_of(numbers: &[u16]) -> Result<Sheet, Refusal> {
    let sheet = Sheet::of_numbers(numbers).ok_or((BAD_LENGTH, 0u32))?;
    match sheet.lowest_bad_job() {
        Some(job) => Err((BAD_JOB, job as u32)),
        None => Ok(sheet),
    }
}

pub fn make(numbers: &[u16], work: &mut [u32], out: &mut [u8]) -> MakeReply {
    match made(numbers, work, out) {
        Ok(length) => MakeReply { length, ..MakeReply::default() },
        Err((number, detail)) => MakeReply { number, detail, length: 0 },
    }
}

/// 1, 2 and 3 leave the work slice as it was; from then on its first words are zero.
fn made(numbers: &[u16], work: &mut [u32], out: &mut [u8]) -> Result<u32, Refusal> {
    sheet_of(numbers)?;
    if work.len() < WORK_WORDS {
        return Err((SMALL_WORK, 0));
    }
    work[..WORK_WORDS].fill(0);
    let table = table_of(numbers)?;
    let file = write(&table.sheet, &table.rows);
    if out.len() < file.len() {
        return Err((SHORT_OUTPUT, file.len() as u32));
    }
    out[..file.len()].copy_from_slice(&file);
    Ok(file.len() as u32)
}

/// The engine's verdict, by the live states, however many they are.
pub fn engine(numbers: &[u16]) -> EngineReply {
    match judged(numbers) {
        Ok(()) => EngineReply::default(),
        Err((number, detail)) => EngineReply { number, detail },
    }
}

fn judged(numbers: &[u16]) -> Result<(), Refusal> {
    if numbers.len() > ENGINE_JOBS * NUMBERS_A_JOB {
        return Err((BAD_LENGTH, 0));
    }
    let sheet = sheet_of(numbers)?;
    let live = Live::of_sheet(&sheet, usize::MAX).ok_or((MANY_LIVE, 0u32))?;
    if live.safe()[0] {
        Ok(())
    } else {
        Err((NOT_SAFE, 0))
    }
}

/// The file that a table of this many rows takes.
pub fn file_bytes(rows: usize) -> usize {
    BLOCK_BYTES * (1 + (rows + SLOTS - 1) / SLOTS)
}

fn table_in(file: &[u8]) -> Result<Table, Refusal> {
    read(file).map_err(|block| (BAD_FILE, block))
}

fn row_in(table: &Table, word: u32) -> Result<Row, Refusal> {
    table.rows.iter().find(|row| row.word == word).copied().ok_or((NO_ROW, 0))
}

pub fn row(file: &[u8], word: u32) -> RowReply {
    told(table_in(file).and_then(|table| row_in(&table, word)))
}

/// A block that is not read is not judged.
pub fn row_quick(file: &[u8], word: u32) -> RowReply {
    let read = read_for(file, word).map_err(|block| (BAD_FILE, block));
    told(read.and_then(|table| row_in(&table, word)))
}

fn told(found: Result<Row, Refusal>) -> RowReply {
    match found {
        Ok(row) => RowReply { starts: row.starts, tick: row.tick, ..RowReply::default() },
        Err((number, detail)) => RowReply { number, detail, ..RowReply::default() },
    }
}

pub fn listing(file: &[u8], row_number: u32) -> ListingReply {
    match listed(file, row_number) {
        Ok(reply) => reply,
        Err((number, detail)) => ListingReply { number, detail, ..ListingReply::default() },
    }
}

fn listed(file: &[u8], row_number: u32) -> Result<ListingReply, Refusal> {
    let table = table_in(file)?;
    let from_zero = (row_number as usize).checked_sub(1).ok_or((NO_ROW, 0u32))?;
    let row = table.rows.get(from_zero).ok_or((NO_ROW, 0u32))?;
    let mut numbers = [0; 32];
    let lent = table.sheet.numbers();
    numbers[..lent.len()].copy_from_slice(&lent);
    Ok(ListingReply {
        number: 0,
        detail: 0,
        jobs: table.sheet.count() as u32,
        rows: table.rows.len() as u32,
        numbers,
        word: row.word,
        starts: row.starts,
        tick: row.tick,
    })
}

pub fn leeway(file: &[u8], word: u32, job: u32) -> LeewayReply {
    match leeway_of(file, word, job) {
        Ok(leeway) => LeewayReply { leeway, ..LeewayReply::default() },
        Err((number, detail)) => LeewayReply { number, detail, leeway: 0 },
    }
}

fn leeway_of(file: &[u8], word: u32, job: u32) -> Result<i32, Refusal> {
    let table = table_in(file)?;
    if job < 1 || job as usize > table.sheet.count() {
        return Err((NO_EVENT, 0));
    }
    row_in(&table, word)?;
    let state = State::of_word(word);
    let status = state.status(job as usize);
    if status != NOT_ARRIVED && status != READY {
        return Err((NO_LEEWAY, 0));
    }
    let job = table.sheet.job(job as usize);
    let due_tick = i64::from(job.arrival) + i64::from(job.due);
    Ok((due_tick - i64::from(job.most) - i64::from(state.now)) as i32)
}

/// The desk afterwards stands beside the reply; on a refusal it is the desk as it stood.
pub fn step(file: &[u8], desk: Desk, event: u8) -> (StepReply, Desk) {
    match stepped(file, &desk, event) {
        Ok(state) => (StepReply::default(), state.desk()),
        Err((number, detail)) => (StepReply { number, detail }, desk),
    }
}

fn stepped(file: &[u8], desk: &Desk, event: u8) -> Result<State, Refusal> {
    let table = table_in(file)?;
    let event = Event::of_byte(event).ok_or((NO_EVENT, 0u32))?;
    if event.job().map_or(false, |job| job > table.sheet.count()) {
        return Err((NO_EVENT, 0));
    }
    let state = State::of_desk(desk).ok_or((NO_ROW, 0u32))?;
    let row = row_in(&table, state.word())?;
    if !state.possible(&table.sheet, event) {
        return Err((NOT_POSSIBLE, 0));
    }
    let allowed = match event {
        Event::Tick => row.tick == TICK_OPEN,
        Event::Start(k) => row.starts & (1 << (k - 1)) != 0,
        Event::Arrival(_) | Event::Ending(_) => true,
    };
    if !allowed {
        return Err((NOT_ALLOWED, 0));
    }
    Ok(state.after(&table.sheet, event))
}
