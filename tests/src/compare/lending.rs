//! Ways of lending that a C host may choose: any address that the header allows, null with length
//! 0, and files of every kind stepped through. The answers are the second program's as always.

use super::questions::{any_desk, Asked, Question};
use super::Group;
use crate::damage;
use crate::guarded::{described, Lent, Placement, FARTHEST};
use crate::library;
use crate::random::Random;
use crate::replies::Desk;
use crate::second::calls::{self, table_of, WORK_WORDS};
use crate::second::file::{write, BLOCK_BYTES};
use crate::worked::{S1, S2};

pub fn run(seed: u64, cases: usize) {
    let mut random = Random::new(seed + 300);
    null_make();
    null_file(&mut random);
    every_address();
    every_address_of_a_file(&mut random);
    steps_through_damage(cases, &mut random);
}

fn file_of(numbers: &[u16]) -> Vec<u8> {
    let table = table_of(numbers).expect("a sheet that is scheduled");
    write(&table.sheet, &table.rows)
}

/// What is lent by null is an empty slice to the second program.
fn lend<T: Copy>(items: &[T], placement: Option<Placement>) -> Lent<T> {
    match placement {
        Some(placement) => Lent::copy_of(items, placement),
        None => Lent::null(),
    }
}

/// Make with each slice at its own placement; `None` is null, for an empty slice.
fn make(
    group: &mut Group,
    numbers: &[u16],
    words: usize,
    bytes: usize,
    at: [Option<Placement>; 3],
) {
    group.next_case();
    let describe = || format!("make of {:?}, {} words, {} bytes, {:?}", numbers, words, bytes, at);
    let (mut work, mut out) = (vec![7; words], vec![9; bytes]);
    let sheet = lend(numbers, at[0]);
    let (lent_work, lent_out) = (lend(&work, at[1]), lend(&out, at[2]));
    let found = described(&describe, || library::make(&sheet, &lent_work, &lent_out));
    let wanted = calls::make(numbers, &mut work, &mut out);
    group.same(&describe, "the reply", found, wanted);
    group.same_items(&describe, "work word", lent_work.items(), &work);
    group.same_items(&describe, "output byte", lent_out.items(), &out);
    let kept = (sheet.around_kept(), lent_work.around_kept(), lent_out.around_kept());
    group.same(&describe, "kept around all three", kept, (true, true, true));
}

/// Each slice null in its turn, on sheets of every answer that comes before and after.
fn null_make() {
    let mut group = Group::new("make: null with length 0");
    let some = Some(Placement::EndsAtGuard);
    let sheets: [&[u16]; 6] =
        [&[], &[0, 0, 1, 1], &[0, 255, 255, 255], &[0, 1, 2, 2, 0, 1, 1, 2], &S1, &S2];
    for numbers in sheets {
        let sheet = if numbers.is_empty() { None } else { some };
        make(&mut group, numbers, 0, 0, [sheet, None, None]);
        make(&mut group, numbers, 0, 2_048, [sheet, None, some]);
        make(&mut group, numbers, WORK_WORDS, 0, [sheet, some, None]);
        make(&mut group, numbers, WORK_WORDS, 2_048, [sheet, some, some]);
    }
    group.close();
}

/// Both rows, listing, leeway and step with no file at all.
fn null_file(random: &mut Random) {
    let mut group = Group::new("row, listing, leeway, step: null with length 0");
    let asked = Asked::null("no file");
    for number in [0, 1, 2, 256, u32::MAX] {
        asked.ask(&mut group, Question::Row { word: number });
        asked.ask(&mut group, Question::RowQuick { word: number });
        asked.ask(&mut group, Question::Listing { row_number: number });
        asked.ask(&mut group, Question::Leeway { word: number, job: number });
    }
    for event in 0..=255 {
        asked.ask(&mut group, Question::Step { desk: any_desk(random), event });
        asked.ask(&mut group, Question::Step { desk: Desk::default(), event });
    }
    group.close();
}

/// Sheet, work and output at addresses of every remainder that their alignment allows.
fn every_address() {
    let mut group = Group::new("make: sheet, work and output at every address");
    for times in 0..=FARTHEST {
        let at = |more: usize| Some(Placement::Farther((times * more) % (FARTHEST + 1)));
        make(&mut group, &S2, WORK_WORDS, file_of(&S2).len(), [at(1), at(3), at(1)]);
        make(&mut group, &S2, WORK_WORDS, 1_023, [at(7), at(1), at(1)]);
        make(&mut group, &S1, WORK_WORDS + 1, 1_025, [at(5), at(9), at(1)]);
    }
    group.close();
}

/// A file at every address, and the desk at others.
fn every_address_of_a_file(random: &mut Random) {
    let mut group = Group::new("row, listing, leeway, step: file and desk at every address");
    let file = file_of(&S2);
    for times in 0..=FARTHEST {
        let asked = Asked::new("S2", &file, Placement::Farther(times));
        for word in [0, 1, 16_777_221, 50_331_661, 117_702_670, random.next() as u32] {
            asked.ask(&mut group, Question::Row { word });
            asked.ask(&mut group, Question::RowQuick { word });
            asked.ask(&mut group, Question::Leeway { word, job: 1 });
        }
        for row_number in 0..=21 {
            asked.ask(&mut group, Question::Listing { row_number });
        }
        for event in [0, 1, 2, 17, 18, 33, 34, 255] {
            let desk = Desk::default();
            asked.step_at(&mut group, desk, event, Placement::Farther(FARTHEST - times));
        }
    }
    group.close();
}

/// Every event byte on any desk, in files damaged by chance and in random bytes.
fn steps_through_damage(cases: usize, random: &mut Random) {
    let mut group = Group::new("steps in damaged files and random bytes");
    let whole = file_of(&S2);
    for turn in 0..(cases + 3) / 4 {
        let damaged = match turn % 4 {
            0 => damage::random_bytes(random),
            1 => damage::bit_flipped(&whole, false, random),
            _ => damage::bit_flipped(&whole, true, random),
        };
        let asked = Asked::new(&damaged.rule, &damaged.file, Placement::in_turn(turn));
        for event in (0..=255).step_by(if damaged.file.len() > 2 * BLOCK_BYTES { 5 } else { 1 }) {
            let desk = if event % 2 == 0 { any_desk(random) } else { Desk::default() };
            asked.ask(&mut group, Question::Step { desk, event });
        }
    }
    group.close();
}
