//! Rows and blocks in a wrong order, and rows left out.

use super::{block_mut, changed, damaged, slot_at, Damaged, Wanted};
use crate::second::file::{row_slot, seal, write, BLOCK_BYTES, FIRST_SLOT, SLOTS};
use crate::second::form::Table;
use crate::second::table::Row;

/// One slot's bytes as a change of a block.
fn row_at(place: usize, row: &Row) -> Vec<(usize, u8)> {
    row_slot(row).iter().enumerate().map(|(i, &byte)| (slot_at(place) + i, byte)).collect()
}

/// Two neighbours swapped, and a row twice, in the middle and at the end of a block.
pub fn order_broken_inside(table: &Table, block: usize) -> Vec<Damaged> {
    let file = write(&table.sheet, &table.rows);
    let rows = &table.rows[(block - 1) * SLOTS..];
    let used = rows.len().min(SLOTS);
    let mut list = Vec::new();
    for place in [used / 2, used - 1] {
        if place < 1 {
            continue;
        }
        let swapped = [row_at(place - 1, &rows[place]), row_at(place, &rows[place - 1])].concat();
        list.extend(changed("two rows swapped", &file, block, &swapped));
        let twice = row_at(place, &rows[place - 1]);
        list.extend(changed("a row twice", &file, block, &twice));
    }
    list
}

/// Breaks between two blocks belong to the later one.
pub fn order_broken_across(table: &Table, block: usize) -> Vec<Damaged> {
    let file = write(&table.sheet, &table.rows);
    let first = (block - 1) * SLOTS;
    let before = &table.rows[first - 1];
    let mut list = changed("last row before once more", &file, block, &row_at(0, before));
    let earlier = &table.rows[first - 2];
    list.extend(changed("a row from before", &file, block, &row_at(0, earlier)));
    let mut rows = table.rows.clone();
    rows.swap(first - 1, first);
    let swapped = write(&table.sheet, &rows);
    let name = format!("block {}: rows swapped with the block before", block);
    list.push(damaged(name, swapped, Wanted::LowestBad(block)));
    list
}

/// A block swapped with the one before, with their numbers as they were and put right.
pub fn blocks_swapped(file: &[u8], block: usize) -> Vec<Damaged> {
    let mut copy = file.to_vec();
    let part = |number: usize| number * BLOCK_BYTES..(number + 1) * BLOCK_BYTES;
    copy[part(block - 1)].copy_from_slice(&file[part(block)]);
    copy[part(block)].copy_from_slice(&file[part(block - 1)]);
    let mut numbered = copy.clone();
    for number in [block - 1, block] {
        block_mut(&mut numbered, number)[4..6].copy_from_slice(&(number as u16).to_le_bytes());
        seal(block_mut(&mut numbered, number));
    }
    let name =
        |how: &str| format!("block {}: swapped with the block before, numbers {}", block, how);
    // The last block may be short, and block 1 must begin with word 0: then the earlier is bad.
    let earlier_bad = block == 2 || usize::from(file[block * BLOCK_BYTES + 3]) < SLOTS;
    let lowest = if earlier_bad { block - 1 } else { block };
    vec![
        damaged(name("kept"), copy, Wanted::LowestBad(block - 1)),
        damaged(name("repaired"), numbered, Wanted::LowestBad(lowest)),
    ]
}

/// Without its first row a file is bad; without any other it is another good file.
pub fn rows_left_out(table: &Table) -> Vec<Damaged> {
    let without = |place: usize| {
        let mut rows = table.rows.clone();
        rows.remove(place);
        write(&table.sheet, &rows)
    };
    let last = table.rows.len() - 1;
    let mut list = vec![
        damaged("first row left out".to_string(), without(0), Wanted::LowestBad(1)),
        damaged("last row left out".to_string(), without(last), Wanted::Good),
        damaged("a row left out".to_string(), without(last / 2 + 1), Wanted::Good),
    ];
    let alone = write(&table.sheet, &table.rows[..1]);
    list.push(damaged("only the first row".to_string(), alone, Wanted::Good));
    let mut empty = write(&table.sheet, &table.rows[..1]);
    block_mut(&mut empty, 1)[3] = 0;
    block_mut(&mut empty, 1)[FIRST_SLOT..slot_at(1)].fill(0);
    seal(block_mut(&mut empty, 1));
    list.push(damaged("no row at all".to_string(), empty, Wanted::LowestBad(1)));
    list
}
