//! Damage by chance: blocks of another file, bits changed, random bytes.

use super::{block_mut, blocks_of, damaged, Damaged, Wanted};
use crate::random::Random;
use crate::second::file::{seal, BLOCK_BYTES, CHECK_AT};

/// Two files: each block that both have, that of one in the other.
pub fn mixed(one: &[u8], other: &[u8]) -> Vec<Damaged> {
    let mix = |number: usize| {
        let mut copy = one.to_vec();
        let part = number * BLOCK_BYTES..(number + 1) * BLOCK_BYTES;
        copy[part.clone()].copy_from_slice(&other[part]);
        damaged(format!("block {} of another file", number), copy, Wanted::AsRead)
    };
    (0..blocks_of(one).min(blocks_of(other))).map(mix).collect()
}

/// One bit of one block changed: always found where the check is kept.
pub fn bit_flipped(file: &[u8], repaired: bool, random: &mut Random) -> Damaged {
    let mut copy = file.to_vec();
    let block = random.below(blocks_of(file));
    let at = random.below(if repaired { CHECK_AT } else { BLOCK_BYTES });
    let bit = random.below(8);
    block_mut(&mut copy, block)[at] ^= 1 << bit;
    if repaired {
        seal(block_mut(&mut copy, block));
    }
    let wanted = if repaired { Wanted::AsRead } else { Wanted::LowestBad(block) };
    damaged(format!("block {}, byte {}, bit {} changed", block, at, bit), copy, wanted)
}

/// Random bytes of a length that a file may have; sometimes with letters and checks put right.
pub fn random_bytes(random: &mut Random) -> Damaged {
    let blocks = random.from_to(2, 5);
    let mut file: Vec<u8> = (0..blocks * BLOCK_BYTES).map(|_| random.byte()).collect();
    if random.once_in(2) {
        for number in 0..blocks {
            let block = block_mut(&mut file, number);
            block[..2].copy_from_slice(b"TB");
            block[4..6].copy_from_slice(&(number as u16).to_le_bytes());
            block[6..8].copy_from_slice(&(blocks as u16).to_le_bytes());
            seal(block);
        }
    }
    damaged("random bytes".to_string(), file, Wanted::AsRead)
}
