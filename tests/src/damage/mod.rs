//! Damaged files: each rule of form of the table file broken one at a time, with the check
//! repaired and not repaired, and what the reader must say of each.

mod chance;
mod frame;
mod length;
mod marks;
mod order;

pub use chance::{bit_flipped, mixed, random_bytes};

use crate::second::file::{seal, write, BLOCK_BYTES, FIRST_SLOT, SLOT_BYTES};
use crate::second::form::Table;

/// What is right for a damaged file; where files were mixed, only the second program can say.
#[derive(Clone, Copy, Debug, PartialEq, Eq)]
pub enum Wanted {
    Good,
    LowestBad(usize),
    AsRead,
}

pub struct Damaged {
    pub rule: String,
    pub file: Vec<u8>,
    pub wanted: Wanted,
}

fn damaged(rule: String, file: Vec<u8>, wanted: Wanted) -> Damaged {
    Damaged { rule, file, wanted }
}

pub fn blocks_of(file: &[u8]) -> usize {
    file.len() / BLOCK_BYTES
}

pub fn block_mut(file: &mut [u8], number: usize) -> &mut [u8] {
    &mut file[number * BLOCK_BYTES..(number + 1) * BLOCK_BYTES]
}

fn slot_at(place: usize) -> usize {
    FIRST_SLOT + place * SLOT_BYTES
}

/// All of them for one table.
pub fn all(table: &Table) -> Vec<Damaged> {
    let file = write(&table.sheet, &table.rows);
    let last = blocks_of(&file) - 1;
    let mut list = Vec::new();
    let mut blocks = vec![0, 1, last / 2, last];
    blocks.sort_unstable();
    blocks.dedup();
    for block in blocks {
        list.extend(frame::frame_broken(&file, block));
        list.extend(frame::check_broken(&file, block));
        list.extend(frame::unused_filled(&file, block));
        if block > 0 {
            list.extend(frame::zero_bytes_filled(&file, block));
            list.extend(order::order_broken_inside(table, block));
        }
        if block > 1 {
            list.extend(order::order_broken_across(table, block));
            list.extend(order::blocks_swapped(&file, block));
        }
    }
    list.extend(frame::jobs_broken(&file));
    list.extend(marks::start_before_arrival(table));
    list.extend(order::rows_left_out(table));
    list.extend(length::lengths_broken(table, &file));
    list
}

/// Bytes of one block changed: with the check as it was and with the check repaired.
fn changed(rule: &str, file: &[u8], block: usize, bytes: &[(usize, u8)]) -> Vec<Damaged> {
    let mut kept = file.to_vec();
    for &(at, value) in bytes {
        block_mut(&mut kept, block)[at] = value;
    }
    assert!(kept != file, "block {}: {} changes nothing", block, rule);
    let mut repaired = kept.clone();
    seal(block_mut(&mut repaired, block));
    let name = |how: &str| format!("block {}: {}, check {}", block, rule, how);
    vec![
        damaged(name("kept"), kept, Wanted::LowestBad(block)),
        damaged(name("repaired"), repaired, Wanted::LowestBad(block)),
    ]
}
