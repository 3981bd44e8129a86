//! Make against the second program: the reply, the output and the work slice afterwards.

use super::Group;
use crate::found;
use crate::guarded::{described, Lent, Placement};
use crate::library;
use crate::random::Random;
use crate::second::calls::{self, WORK_WORDS};
use crate::sheets::{self, KINDS};
use crate::worked::{S2, WORKED};

pub fn run(seed: u64, cases: usize) {
    worked_sheets();
    found_sheets();
    bad_sheets();
    small_work();
    small_sheets();
    for kind in KINDS {
        let mut group = Group::new(&format!("make: random sheets, {:?}", kind));
        let mut random = Random::new(seed + kind as u64);
        for _ in 0..cases {
            let numbers = sheets::of_kind(kind, &mut random);
            with_room(&mut group, &numbers);
        }
        group.close();
    }
    any_numbers(seed, cases);
}

/// What make is lent: the sheet, the lengths of work slice and output, and what they hold before.
struct Case<'a> {
    numbers: &'a [u16],
    words: usize,
    bytes: usize,
    fill: u32,
    placement: Placement,
}

impl Case<'_> {
    fn describe(&self) -> String {
        format!(
            "make of sheet {:?}, work of {} words, output of {} bytes, filled by {}, {:?}",
            self.numbers, self.words, self.bytes, self.fill, self.placement
        )
    }

    /// Any contents will do, so long as they are not those that make leaves.
    fn work(&self) -> Vec<u32> {
        (0..self.words as u32).map(|at| (at + 1).wrapping_mul(self.fill)).collect()
    }

    fn out(&self) -> Vec<u8> {
        (0..self.bytes as u32).map(|at| ((at + 3).wrapping_mul(self.fill) >> 7) as u8).collect()
    }
}

/// One call, and everything it may have touched.
fn compare(group: &mut Group, case: &Case) {
    let describe = || case.describe();
    let (mut work, mut out) = (case.work(), case.out());
    let sheet = Lent::shared(case.numbers, case.placement);
    let lent_work = Lent::copy_of(&work, case.placement);
    let lent_out = Lent::copy_of(&out, case.placement);
    let found = described(&describe, || library::make(&sheet, &lent_work, &lent_out));
    let wanted = calls::make(case.numbers, &mut work, &mut out);
    group.same(&describe, "the reply", found, wanted);
    group.same_items(&describe, "work word", lent_work.items(), &work);
    group.same_items(&describe, "output byte", lent_out.items(), &out);
    let kept = (lent_work.around_kept(), lent_out.around_kept());
    group.same(&describe, "kept around work and output", kept, (true, true));
}

/// One sheet with this room; placement and contents change from case to case.
fn lent(group: &mut Group, numbers: &[u16], words: usize, bytes: usize) {
    let number = group.next_case();
    let fill = 0x9E37_79B1u32.wrapping_mul(number as u32 + 1) | 1;
    let placement = Placement::in_turn(number);
    compare(group, &Case { numbers, words, bytes, fill, placement });
}

/// Bytes of the file that the second program makes; 1,024 where it makes none.
fn needed(numbers: &[u16]) -> usize {
    calls::table_of(numbers).map_or(1_024, |table| calls::file_bytes(table.rows.len()))
}

/// Just enough room, one byte less, and more of all.
fn with_room(group: &mut Group, numbers: &[u16]) {
    let bytes = needed(numbers);
    lent(group, numbers, WORK_WORDS, bytes);
    lent(group, numbers, WORK_WORDS + 3, bytes - 1);
    lent(group, numbers, WORK_WORDS + 1, bytes + 1);
}

fn worked_sheets() {
    let wrapping: &[u16] = &[65_535, 1, 1, 1];
    let mut group = Group::new("make: sheets worked by hand");
    for numbers in WORKED.into_iter().chain([wrapping]) {
        let bytes = needed(numbers);
        for words in [WORK_WORDS, WORK_WORDS + 1, WORK_WORDS + 4_000] {
            for length in [0, 1, 511, bytes - 1, bytes, bytes + 1, bytes + 512, 65_536, 70_000] {
                lent(&mut group, numbers, words, length);
            }
        }
    }
    group.close();
}

fn found_sheets() {
    let mut group = Group::new("make: sheets at the limits, and one tick later");
    for sheet in found::all() {
        with_room(&mut group, &sheet.numbers());
        lent(&mut group, &sheet.numbers(), WORK_WORDS, 0);
        lent(&mut group, &sheet.numbers(), WORK_WORDS, 65_536);
    }
    for sheet in &found::MOST_LIVE {
        with_room(&mut group, &sheet.one_tick_later());
    }
    group.close();
}

fn bad_sheets() {
    let mut group = Group::new("make: sheets of bad length and of bad form");
    for sheet in sheets::bad() {
        lent(&mut group, &sheet.numbers, WORK_WORDS, 2_048);
        lent(&mut group, &sheet.numbers, 0, 0);
    }
    group.close();
}

/// 3 stands before 4, 5 and 6, and leaves all as it was.
fn small_work() {
    let sheets: [&[u16]; 4] =
        [&S2, &[0, 255, 255, 255], &[0, 1, 2, 2, 0, 1, 1, 2], &[0, 1, 1, 1, 0, 0, 1, 1]];
    let mut group = Group::new("make: a work slice too small");
    for numbers in sheets {
        for words in [0, 1, 7_874, WORK_WORDS - 1] {
            for bytes in [0, 1_023, 65_536] {
                lent(&mut group, numbers, words, bytes);
            }
        }
    }
    group.close();
}

/// Every sheet of one, two and three small jobs.
fn small_sheets() {
    let mut group = Group::new("make: every sheet of up to three small jobs");
    for (jobs, last_arrival, most_due) in [(1, 6, 8), (2, 2, 4), (3, 1, 2)] {
        for numbers in sheets::small(jobs, last_arrival, most_due) {
            lent(&mut group, &numbers, WORK_WORDS, needed(&numbers));
        }
    }
    group.close();
}

/// Any length, and numbers that are small, at the edges or anything.
fn any_numbers(seed: u64, cases: usize) {
    let mut group = Group::new("make: any numbers at all");
    let mut random = Random::new(seed + 100);
    for _ in 0..cases {
        let length = if random.once_in(4) { random.below(50) } else { 4 * random.from_to(1, 8) };
        let numbers: Vec<u16> = (0..length).map(|_| any_number(&mut random)).collect();
        with_room(&mut group, &numbers);
    }
    group.close();
}

fn any_number(random: &mut Random) -> u16 {
    match random.below(8) {
        0 => *random.pick(&[0, 254, 255, 256, 257, 32_767, 32_768, 65_534, 65_535]),
        1 => random.next() as u16,
        _ => random.from_to(1, 6) as u16,
    }
}
