//! The lines of a table printed from its file's bytes, with no text in between: a tuned printer to
//! measure the product against.

use crate::second::file::BLOCK_BYTES;

const WORDS: [&[u8]; 3] = [b" none\n", b" open\n", b" held\n"];

pub fn lines(file: &[u8]) -> Vec<u8> {
    let jobs = usize::from(file[2]);
    let rows: usize = file.chunks(BLOCK_BYTES).skip(1).map(|block| usize::from(block[3])).sum();
    let mut out = format!("jobs {} states {}\n", jobs, rows).into_bytes();
    out.reserve(31 * rows);
    for block in file.chunks(BLOCK_BYTES).skip(1) {
        let used = usize::from(block[3]);
        block[8..].chunks(8).take(used).for_each(|slot| line(slot, jobs, &mut out));
    }
    out
}

fn line(slot: &[u8], jobs: usize, out: &mut Vec<u8>) {
    number(slot[3], out);
    out.push(b' ');
    number(slot[2], out);
    out.push(b' ');
    let statuses = u16::from_le_bytes([slot[0], slot[1]]);
    out.extend((0..jobs).map(|job| b'0' + (statuses >> (2 * job) & 3) as u8));
    out.push(b' ');
    if slot[4] == 0 {
        out.push(b'-');
    }
    out.extend((0..jobs).filter(|job| slot[4] >> job & 1 == 1).map(|job| b'1' + job as u8));
    out.extend_from_slice(WORDS[usize::from(slot[5])]);
}

fn number(value: u8, out: &mut Vec<u8>) {
    if value >= 100 {
        out.push(b'0' + value / 100);
    }
    if value >= 10 {
        out.push(b'0' + value / 10 % 10);
    }
    out.push(b'0' + value % 10);
}
