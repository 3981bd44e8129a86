//! What stands around the rows broken: letters, counts, numbers, zero bytes, the check, the jobs.

use super::{block_mut, changed, damaged, slot_at, Damaged, Wanted};
use crate::second::file::{check, BLOCK_BYTES, CHECK_AT, SLOTS};

/// Letters, counts, block numbers and the zero bytes before the check.
pub fn frame_broken(file: &[u8], block: usize) -> Vec<Damaged> {
    let byte = |at: usize| file[block * BLOCK_BYTES + at];
    let mut list = Vec::new();
    let mut change = |rule: &str, bytes: &[(usize, u8)]| {
        list.extend(changed(rule, file, block, bytes));
    };
    for letter in [0, b'B', b't', b'U'] {
        change("first letter", &[(0, letter)]);
    }
    for letter in [0, b'C', b'P', b'T', b'b'] {
        change("second letter", &[(1, letter)]);
    }
    change("letters swapped", &[(0, b'B'), (1, b'T')]);
    for jobs in [0, 9, 255, byte(2) - 1, byte(2) + 1] {
        change("number of jobs", &[(2, jobs)]);
    }
    for used in [0, 63, 255, byte(3) - 1, byte(3) + 1] {
        change("slots used", &[(3, used)]);
    }
    for low in [byte(4).wrapping_sub(1), byte(4) + 1] {
        change("block number", &[(4, low)]);
    }
    change("block number, high byte", &[(5, 1)]);
    for low in [0, byte(6) - 1, byte(6) + 1] {
        change("number of blocks", &[(6, low)]);
    }
    change("number of blocks, high byte", &[(7, 1)]);
    for at in CHECK_AT - 4..CHECK_AT {
        change("zero bytes before the check", &[(at, 1)]);
        change("zero bytes before the check", &[(at, 255)]);
    }
    list
}

/// The check itself, which is then of course not repaired.
pub fn check_broken(file: &[u8], block: usize) -> Vec<Damaged> {
    let right = check(&file[block * BLOCK_BYTES..(block + 1) * BLOCK_BYTES]);
    let sum: u32 = file[block * BLOCK_BYTES..][..CHECK_AT].iter().map(|&b| u32::from(b)).sum();
    let mut wrong: Vec<(String, u32)> = vec![
        ("check without its 1".to_string(), right - 1),
        ("check with weights from 0".to_string(), right - sum),
        ("check one too great".to_string(), right + 1),
        ("check 0".to_string(), 0),
        ("check with its bytes turned".to_string(), right.swap_bytes()),
    ];
    wrong
        .extend((0..32).map(|bit| (format!("check with bit {} changed", bit), right ^ (1 << bit))));
    wrong.retain(|wrong| wrong.1 != right);
    let put = |(rule, value): (String, u32)| {
        let mut copy = file.to_vec();
        block_mut(&mut copy, block)[CHECK_AT..].copy_from_slice(&value.to_le_bytes());
        damaged(format!("block {}: {}", block, rule), copy, Wanted::LowestBad(block))
    };
    wrong.into_iter().map(put).collect()
}

/// Each end of the unused slots.
pub fn unused_filled(file: &[u8], block: usize) -> Vec<Damaged> {
    let used = usize::from(file[block * BLOCK_BYTES + 3]);
    if used == SLOTS {
        return Vec::new();
    }
    let places = [slot_at(used), slot_at(used + 1) - 1, slot_at(SLOTS) - 1];
    let fill = |&at: &usize| changed("unused slot", file, block, &[(at, 1)]);
    places.iter().flat_map(fill).collect()
}

/// The two zero bytes of the first and of the last row.
pub fn zero_bytes_filled(file: &[u8], block: usize) -> Vec<Damaged> {
    let used = usize::from(file[block * BLOCK_BYTES + 3]);
    let mut list = Vec::new();
    for place in [0, used - 1] {
        for at in [slot_at(place) + 6, slot_at(place) + 7] {
            list.extend(changed("row's zero bytes", file, block, &[(at, 1)]));
            list.extend(changed("row's zero bytes", file, block, &[(at, 128)]));
        }
    }
    list
}

/// Each clause of a job's good form, in each job.
pub fn jobs_broken(file: &[u8]) -> Vec<Damaged> {
    let mut list = Vec::new();
    for place in 0..usize::from(file[2]) {
        let at = slot_at(place);
        let (arrival, most, due) = (file[at], file[at + 4], file[at + 6]);
        let mut change = |rule: &str, bytes: &[(usize, u8)]| {
            list.extend(changed(&format!("job {}: {}", place + 1, rule), file, 0, bytes));
        };
        change("fewest 0", &[(at + 2, 0)]);
        change("fewest above most", &[(at + 2, most.wrapping_add(1))]);
        change("most above due", &[(at + 4, due.wrapping_add(1))]);
        change("arrival and due make 256", &[(at, 255 - due + 1)]);
        change("due and arrival make 256", &[(at + 6, 255 - arrival), (at, arrival + 1)]);
        for high in [1, 3, 5, 7] {
            change("a number above 255", &[(at + high, 1)]);
        }
        change("arrival and due make 65,536", &[(at + 1, 255), (at, 0u8.wrapping_sub(due))]);
    }
    list
}
