//! The table file read: each rule of form asked by itself, block after block, so that the first
//! block that breaks one is the lowest bad block.

use super::file::{
    check, BLOCK_BYTES, CHECK_AT, FIRST_SLOT, LEAST_BLOCKS, LETTERS, MOST_BLOCKS, SLOTS, SLOT_BYTES,
};
use super::sheet::{Job, Sheet, MOST_JOBS};
use super::state::{Event, State, DONE, NOT_ARRIVED, READY, RUNNING};
use super::table::{Row, TICK_HELD, TICK_NONE, TICK_OPEN};

/// The jobs and rows of a file of good form.
pub struct Table {
    pub sheet: Sheet,
    pub rows: Vec<Row>,
}

/// The table, or the lowest bad block; 0 also for a length that no file has.
pub fn read(file: &[u8]) -> Result<Table, u32> {
    read_until(file, |_| false)
}

/// The same of block 0 and the state blocks in order, up to the first whose last word is not below
/// this one; a block after that is not looked at.
pub fn read_for(file: &[u8], word: u32) -> Result<Table, u32> {
    read_until(file, |last| last >= word)
}

/// Stops after a block whose last word is one to stop at.
fn read_until(file: &[u8], stops: impl Fn(u32) -> bool) -> Result<Table, u32> {
    if file.len() % BLOCK_BYTES != 0 {
        return Err(0);
    }
    let blocks = file.len() / BLOCK_BYTES;
    if blocks < LEAST_BLOCKS || blocks > MOST_BLOCKS {
        return Err(0);
    }
    let sheet = read_jobs(&file[..BLOCK_BYTES], blocks).ok_or(0u32)?;
    let mut rows: Vec<Row> = Vec::new();
    for number in 1..blocks {
        let block = &file[number * BLOCK_BYTES..(number + 1) * BLOCK_BYTES];
        read_rows(block, number, blocks, &sheet, &mut rows).ok_or(number as u32)?;
        if rows.last().map_or(false, |row| stops(row.word)) {
            break;
        }
    }
    Ok(Table { sheet, rows })
}

/// Block 0: one slot a job of good form.
fn read_jobs(block: &[u8], blocks: usize) -> Option<Sheet> {
    let jobs = usize::from(block[2]);
    if jobs < 1 || jobs > MOST_JOBS || !frame(block, 0, blocks, jobs, jobs) {
        return None;
    }
    let jobs: Vec<Job> = (0..jobs).map(|place| read_job(slot(block, place))).collect();
    if jobs.iter().all(Job::good_form) {
        Some(Sheet::new(&jobs))
    } else {
        None
    }
}

/// Another block: its rows are put behind those of the blocks before.
fn read_rows(
    block: &[u8],
    number: usize,
    blocks: usize,
    sheet: &Sheet,
    rows: &mut Vec<Row>,
) -> Option<()> {
    let used = usize::from(block[3]);
    let last = number == blocks - 1;
    let used_fits = if last { 1 <= used && used <= SLOTS } else { used == SLOTS };
    if !used_fits || !frame(block, number, blocks, sheet.count(), used) {
        return None;
    }
    for place in 0..used {
        let row = read_row(slot(block, place))?;
        let follows = match rows.last() {
            None => row.word == 0,
            Some(before) => before.word < row.word,
        };
        if !follows || !row_good(sheet, &row) {
            return None;
        }
        rows.push(row);
    }
    Some(())
}

/// What every block has around its used slots.
fn frame(block: &[u8], number: usize, blocks: usize, jobs: usize, used: usize) -> bool {
    let letters = block[0] == LETTERS[0] && block[1] == LETTERS[1];
    let counts = usize::from(block[2]) == jobs && usize::from(block[3]) == used;
    let numbers = two_bytes(block, 4) == number && two_bytes(block, 6) == blocks;
    let unused = (used..SLOTS).all(|place| slot(block, place).iter().all(|&byte| byte == 0));
    let before_check = block[FIRST_SLOT + SLOTS * SLOT_BYTES..CHECK_AT].iter().all(|&b| b == 0);
    let checked = four_bytes(block, CHECK_AT) == check(block);
    letters && counts && numbers && unused && before_check && checked
}

fn slot(block: &[u8], place: usize) -> &[u8] {
    let at = FIRST_SLOT + place * SLOT_BYTES;
    &block[at..at + SLOT_BYTES]
}

fn two_bytes(bytes: &[u8], at: usize) -> usize {
    usize::from(bytes[at]) + 256 * usize::from(bytes[at + 1])
}

fn four_bytes(bytes: &[u8], at: usize) -> u32 {
    (two_bytes(bytes, at) + 65_536 * two_bytes(bytes, at + 2)) as u32
}

fn read_job(slot: &[u8]) -> Job {
    let number = |place: usize| two_bytes(slot, 2 * place) as u32;
    Job::new(number(0), number(1), number(2), number(3))
}

/// A row's last two bytes are zero.
fn read_row(slot: &[u8]) -> Option<Row> {
    if slot[6] != 0 || slot[7] != 0 {
        return None;
    }
    Some(Row { word: four_bytes(slot, 0), starts: slot[4], tick: slot[5] })
}

/// A row is of good form when its word is in order and its marks fit.
pub fn row_good(sheet: &Sheet, row: &Row) -> bool {
    let state = State::of_word(row.word);
    in_order(sheet, &state) && marks_fit(sheet, &state, row.starts, row.tick)
}

pub fn in_order(sheet: &Sheet, state: &State) -> bool {
    if *state == State::finished(sheet) {
        return true;
    }
    let running = (1..=MOST_JOBS).filter(|&i| state.status(i) == RUNNING).count();
    let past_last_zero = (sheet.count() + 1..=MOST_JOBS).all(|i| state.status(i) == NOT_ARRIVED);
    !state.all_done(sheet)
        && running <= 1
        && elapsed_in_order(sheet, state)
        && past_last_zero
        && sheet.job_numbers().all(|i| status_in_order(sheet.job(i), state, state.status(i)))
        && !state.late(sheet)
}

/// 0 if none runs, otherwise at most that job's W and at most now − A.
fn elapsed_in_order(sheet: &Sheet, state: &State) -> bool {
    match sheet.job_numbers().find(|&i| state.status(i) == RUNNING) {
        None => state.elapsed == 0,
        Some(i) => {
            let job = sheet.job(i);
            state.elapsed <= job.most && job.arrival + state.elapsed <= state.now
        }
    }
}

fn status_in_order(job: Job, state: &State, status: u8) -> bool {
    match status {
        NOT_ARRIVED => state.now <= job.arrival,
        DONE => state.now >= job.arrival && state.now >= job.arrival + job.fewest,
        _ => state.now >= job.arrival,
    }
}

pub fn marks_fit(sheet: &Sheet, state: &State, starts: u8, tick: u8) -> bool {
    let marked = |k: usize| starts & (1 << (k - 1)) != 0;
    let none_runs = state.running().is_none();
    let ready = |k: usize| state.status(k) == READY && none_runs;
    let starts_fit = (1..=MOST_JOBS).all(|k| !marked(k) || ready(k))
        && (starts == 0 || !state.any_pending(sheet));
    let possible = state.possible(sheet, Event::Tick);
    let tick_fits = match tick {
        TICK_NONE => !possible,
        TICK_OPEN => possible && !state.after(sheet, Event::Tick).late(sheet),
        TICK_HELD => possible && starts != 0,
        _ => false,
    };
    starts_fit && tick_fits
}
