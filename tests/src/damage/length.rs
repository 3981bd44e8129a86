//! Lengths that no file has.

use super::{damaged, Damaged, Wanted};
use crate::second::file::{write, SLOTS};
use crate::second::form::Table;

/// Lengths of no file, files cut and files with more behind them.
pub fn lengths_broken(table: &Table, file: &[u8]) -> Vec<Damaged> {
    let mut list = Vec::new();
    let whole = file.len();
    for length in [0, 1, 511, 512, 513, 1_023, 1_025, whole - 1, whole - 511, whole - 512] {
        let mut cut = file.to_vec();
        cut.resize(length, 0);
        list.push(damaged(format!("{} bytes", length), cut, Wanted::LowestBad(0)));
    }
    for more in [1, 512] {
        let mut longer = file.to_vec();
        longer.resize(whole + more, 0);
        list.push(damaged(format!("{} zero bytes more", more), longer, Wanted::LowestBad(0)));
    }
    let twice = [file, file].concat();
    list.push(damaged("the file twice".to_string(), twice, Wanted::LowestBad(0)));
    let alone = write(&table.sheet, &[]);
    list.push(damaged("block 0 alone".to_string(), alone, Wanted::LowestBad(0)));
    if table.rows.len() > SLOTS {
        let full = write(&table.sheet, &table.rows[..SLOTS]);
        list.push(damaged("cut after block 1 and counted".to_string(), full, Wanted::Good));
    }
    list
}
