//! A tuned reader to measure the product against, not to judge it by: every rule of form, jobs as
//! masks that are made anew only where the tick changes, and the row by halving.

use crate::replies::{Desk, RowReply, StepReply};
use crate::second::calls;
use crate::second::file::{
    BLOCK_BYTES, CHECK_AT, FIRST_SLOT, LEAST_BLOCKS, LETTERS, MOST_BLOCKS, SLOTS, SLOT_BYTES,
};
use crate::second::sheet::{Job, Sheet, MOST_JOBS};
use crate::second::state::{Event, State};
use crate::second::table::{Row, TICK_HELD, TICK_NONE, TICK_OPEN};

/// The low bit of each job's two status bits.
const LOW_BITS: u32 = 0x5555;

/// Jobs by their low status bit, as the rules of a row see them at one tick.
#[derive(Default)]
struct AtTick {
    not_arrived: u32,
    pending: u32,
    arrived: u32,
    can_be_done: u32,
    over: u32,
    last: u32,
}

impl AtTick {
    fn new(sheet: &Sheet, now: u32) -> AtTick {
        let mut at = AtTick::default();
        for i in sheet.job_numbers() {
            let (job, bit) = (sheet.job(i), 1 << (2 * (i - 1)));
            let mark = |set: bool| if set { bit } else { 0 };
            at.not_arrived |= mark(now <= job.arrival);
            at.pending |= mark(now == job.arrival);
            at.arrived |= mark(now >= job.arrival);
            at.can_be_done |= mark(now >= job.arrival + job.fewest);
            at.over |= mark(now > job.arrival + job.due);
            at.last |= mark(now == job.arrival + job.due);
        }
        at
    }
}

/// A file of good form.
pub struct Read<'a> {
    file: &'a [u8],
    sheet: Sheet,
    rows: usize,
}

/// The file, or the lowest bad block.
pub fn read(file: &[u8]) -> Result<Read<'_>, u32> {
    let blocks = file.len() / BLOCK_BYTES;
    if file.len() % BLOCK_BYTES != 0 || blocks < LEAST_BLOCKS || blocks > MOST_BLOCKS {
        return Err(0);
    }
    let sheet = jobs_in(&file[..BLOCK_BYTES], blocks).ok_or(0u32)?;
    let (mut rows, mut before, mut now) = (0, None, 0);
    let mut at = AtTick::new(&sheet, now);
    for number in 1..blocks {
        let block = &file[number * BLOCK_BYTES..(number + 1) * BLOCK_BYTES];
        let used = usize::from(block[3]);
        let full = used == SLOTS || (number == blocks - 1 && 1 <= used && used <= SLOTS);
        if !full || !framed(block, number, blocks, sheet.count(), used) {
            return Err(number as u32);
        }
        for slot in block[FIRST_SLOT..].chunks_exact(SLOT_BYTES).take(used) {
            let row = row_of(slot);
            if row.word >> 24 != now {
                now = row.word >> 24;
                at = AtTick::new(&sheet, now);
            }
            let follows = before.map_or(row.word == 0, |word| word < row.word);
            if !follows || slot[6] != 0 || slot[7] != 0 || !good(&sheet, &at, &row) {
                return Err(number as u32);
            }
            before = Some(row.word);
        }
        rows += used;
    }
    Ok(Read { file, sheet, rows })
}

impl Read<'_> {
    fn row(&self, place: usize) -> Row {
        let at = (place / SLOTS + 1) * BLOCK_BYTES + FIRST_SLOT + place % SLOTS * SLOT_BYTES;
        row_of(&self.file[at..at + SLOT_BYTES])
    }

    fn find(&self, word: u32) -> Option<Row> {
        let (mut low, mut high) = (0, self.rows);
        while low < high {
            let middle = (low + high) / 2;
            if self.row(middle).word < word {
                low = middle + 1;
            } else {
                high = middle;
            }
        }
        (low < self.rows).then(|| self.row(low)).filter(|row| row.word == word)
    }
}

/// The row of a word; a refusal is left to the second program.
pub fn row(file: &[u8], word: u32) -> RowReply {
    match read(file).ok().and_then(|read| read.find(word)) {
        Some(row) => RowReply { number: 0, detail: 0, starts: row.starts, tick: row.tick },
        None => calls::row(file, word),
    }
}

/// The step taken; a refusal is left to the second program.
pub fn step(file: &[u8], desk: Desk, event: u8) -> (StepReply, Desk) {
    match taken(file, &desk, event) {
        Some(state) => (StepReply::default(), state.desk()),
        None => calls::step(file, desk, event),
    }
}

fn taken(file: &[u8], desk: &Desk, event: u8) -> Option<State> {
    let read = read(file).ok()?;
    let event = Event::of_byte(event)?;
    if event.job().map_or(false, |job| job > read.sheet.count()) {
        return None;
    }
    let state = State::of_desk(desk)?;
    let row = read.find(state.word())?;
    let allowed = match event {
        Event::Tick => row.tick == TICK_OPEN,
        Event::Start(k) => row.starts & (1 << (k - 1)) != 0,
        Event::Arrival(_) | Event::Ending(_) => true,
    };
    let takes = allowed && state.possible(&read.sheet, event);
    takes.then(|| state.after(&read.sheet, event))
}

fn row_of(slot: &[u8]) -> Row {
    let word = u32::from_le_bytes([slot[0], slot[1], slot[2], slot[3]]);
    Row { word, starts: slot[4], tick: slot[5] }
}

fn jobs_in(block: &[u8], blocks: usize) -> Option<Sheet> {
    let jobs = usize::from(block[2]);
    if jobs < 1 || jobs > MOST_JOBS || !framed(block, 0, blocks, jobs, jobs) {
        return None;
    }
    let number = |pair: &[u8]| u16::from_le_bytes([pair[0], pair[1]]);
    let numbers: Vec<u16> = block[FIRST_SLOT..].chunks(2).take(4 * jobs).map(number).collect();
    let jobs: Vec<Job> = numbers.chunks(4).map(Job::of_numbers).collect();
    jobs.iter().all(Job::good_form).then(|| Sheet::new(&jobs))
}

/// Letters, counts, zeros and check.
fn framed(block: &[u8], number: usize, blocks: usize, jobs: usize, used: usize) -> bool {
    let [low, high] = (number as u16).to_le_bytes();
    let [low_blocks, high_blocks] = (blocks as u16).to_le_bytes();
    let front =
        [LETTERS[0], LETTERS[1], jobs as u8, used as u8, low, high, low_blocks, high_blocks];
    let behind = FIRST_SLOT + used * SLOT_BYTES;
    let sum: u32 = (1..).zip(&block[..CHECK_AT]).map(|(p, &byte)| p * u32::from(byte)).sum();
    block[..FIRST_SLOT] == front
        && block[behind..CHECK_AT].iter().all(|&byte| byte == 0)
        && block[CHECK_AT..] == (sum + 1).to_le_bytes()
}

/// A row of good form: its word in order, its marks fitting.
fn good(sheet: &Sheet, at: &AtTick, row: &Row) -> bool {
    let all_jobs = LOW_BITS & ((1 << (2 * sheet.count())) - 1);
    let statuses = row.word & 0xFFFF;
    let (low, high) = (statuses & LOW_BITS, statuses >> 1 & LOW_BITS);
    if (low | high) & !all_jobs != 0 {
        return false;
    }
    if low & high == all_jobs {
        return row.word == statuses && row.starts == 0 && row.tick == TICK_OPEN;
    }
    let (ready, running, done) = (low & !high, high & !low, low & high);
    let waiting = all_jobs & !(low | high);
    let in_order = waiting & !at.not_arrived == 0
        && (low | high) & !at.arrived == 0
        && done & !at.can_be_done == 0
        && (ready | running) & at.over == 0;
    let full = match full(sheet, row.word, running) {
        Some(full) => full,
        None => return false,
    };
    let pending = waiting & at.pending != 0;
    let startable = if running == 0 && !pending { ready } else { 0 };
    let tick_fits = match row.tick {
        TICK_NONE => pending || full,
        TICK_OPEN => !pending && !full && (ready | running) & at.last == 0,
        TICK_HELD => !pending && !full && row.starts != 0,
        _ => false,
    };
    in_order && spread(row.starts) & !startable == 0 && tick_fits
}

/// Whether the running job is at its most ticks; none where the elapsed ticks are out of order.
fn full(sheet: &Sheet, word: u32, running: u32) -> Option<bool> {
    let (now, elapsed) = (word >> 24, word >> 16 & 255);
    if running == 0 {
        return (elapsed == 0).then(|| false);
    }
    let job = sheet.job(running.trailing_zeros() as usize / 2 + 1);
    let fits = running & (running - 1) == 0 && elapsed <= job.most && job.arrival + elapsed <= now;
    fits.then(|| elapsed == job.most)
}

/// Each bit of a byte at the low bit of its job.
fn spread(byte: u8) -> u32 {
    let bits = u32::from(byte);
    let bits = (bits | bits << 4) & 0x0F0F;
    let bits = (bits | bits << 2) & 0x3333;
    (bits | bits << 1) & LOW_BITS
}
