//! The table file written: blocks of 512 bytes, numbers little-endian.

use super::sheet::{Job, Sheet};
use super::table::Row;

pub const BLOCK_BYTES: usize = 512;
pub const SLOTS: usize = 62;
pub const SLOT_BYTES: usize = 8;
pub const FIRST_SLOT: usize = 8;
pub const CHECK_AT: usize = 508;
pub const LETTERS: [u8; 2] = [84, 66];
pub const LEAST_BLOCKS: usize = 2;
pub const MOST_BLOCKS: usize = 128;

/// 1 plus the sum of (p + 1) × byte over positions p = 0 to 507.
pub fn check(block: &[u8]) -> u32 {
    let mut sum = 1;
    for p in 0..CHECK_AT {
        sum += (p as u32 + 1) * u32::from(block[p]);
    }
    sum
}

/// Puts the right check into a block.
pub fn seal(block: &mut [u8]) {
    let sum = check(block);
    block[CHECK_AT..].copy_from_slice(&sum.to_le_bytes());
}

fn job_slot(job: &Job) -> [u8; SLOT_BYTES] {
    let mut slot = [0; SLOT_BYTES];
    for (place, number) in job.numbers().iter().enumerate() {
        slot[2 * place..2 * place + 2].copy_from_slice(&number.to_le_bytes());
    }
    slot
}

pub fn row_slot(row: &Row) -> [u8; SLOT_BYTES] {
    let word = row.word.to_le_bytes();
    [word[0], word[1], word[2], word[3], row.starts, row.tick, 0, 0]
}

/// One block with its slots, all else zero.
fn block(jobs: usize, number: usize, blocks: usize, slots: &[[u8; SLOT_BYTES]]) -> Vec<u8> {
    let mut bytes = vec![0; BLOCK_BYTES];
    bytes[..2].copy_from_slice(&LETTERS);
    bytes[2] = jobs as u8;
    bytes[3] = slots.len() as u8;
    bytes[4..6].copy_from_slice(&(number as u16).to_le_bytes());
    bytes[6..8].copy_from_slice(&(blocks as u16).to_le_bytes());
    for (place, slot) in slots.iter().enumerate() {
        let at = FIRST_SLOT + place * SLOT_BYTES;
        bytes[at..at + SLOT_BYTES].copy_from_slice(slot);
    }
    seal(&mut bytes);
    bytes
}

/// Block 0 with the jobs, then the rows as they come, 62 in each block but the last.
pub fn write(sheet: &Sheet, rows: &[Row]) -> Vec<u8> {
    let blocks = 1 + (rows.len() + SLOTS - 1) / SLOTS;
    let jobs: Vec<_> = sheet.job_numbers().map(|i| job_slot(&sheet.job(i))).collect();
    let mut file = block(sheet.count(), 0, blocks, &jobs);
    for (place, part) in rows.chunks(SLOTS).enumerate() {
        let slots: Vec<_> = part.iter().map(row_slot).collect();
        file.extend(block(sheet.count(), place + 1, blocks, &slots));
    }
    file
}
