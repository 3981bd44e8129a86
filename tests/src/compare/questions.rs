//! Questions to a file: row, quick row, listing, leeway and step, put to the product and the second program.

use super::Group;
use crate::guarded::{described, Lent, Placement};
use crate::library;
use crate::random::Random;
use crate::replies::Desk;
use crate::second::calls;
use crate::second::file::{BLOCK_BYTES, FIRST_SLOT, SLOTS, SLOT_BYTES};
use crate::second::form::Table;
use crate::second::state::{State, DONE};

#[derive(Clone, Copy, Debug)]
pub enum Question {
    Row { word: u32 },
    RowQuick { word: u32 },
    Listing { row_number: u32 },
    Leeway { word: u32, job: u32 },
    Step { desk: Desk, event: u8 },
}

/// A file lent for as long as it is asked.
pub struct Asked<'a> {
    what: &'a str,
    bytes: &'a [u8],
    lent: Lent<u8>,
    placement: Placement,
}

impl<'a> Asked<'a> {
    pub fn new(what: &'a str, bytes: &'a [u8], placement: Placement) -> Asked<'a> {
        Asked { what, bytes, lent: Lent::shared(bytes, placement), placement }
    }

    /// No file at all: a null pointer with length 0.
    pub fn null(what: &'a str) -> Asked<'a> {
        Asked { what, bytes: &[], lent: Lent::null(), placement: Placement::EndsAtGuard }
    }

    /// The case whole: the question, where the file lay and every byte of it, a block a line.
    fn describe(&self, question: &Question) -> String {
        let mut text = format!("{:?} of {}, {:?}, file:", question, self.what, self.placement);
        for block in self.bytes.chunks(BLOCK_BYTES) {
            text.push('\n');
            block.iter().for_each(|byte| text.push_str(&format!("{:02x}", byte)));
        }
        text
    }

    pub fn ask(&self, group: &mut Group, question: Question) {
        let number = group.next_case();
        let describe = || self.describe(&question);
        match question {
            Question::Row { word } => {
                let found = described(&describe, || library::row(&self.lent, word));
                group.same(&describe, "the reply", found, calls::row(self.bytes, word));
            }
            Question::RowQuick { word } => {
                let found = described(&describe, || library::row_quick(&self.lent, word));
                group.same(&describe, "the reply", found, calls::row_quick(self.bytes, word));
            }
            Question::Listing { row_number } => {
                let found = described(&describe, || library::listing(&self.lent, row_number));
                group.same(&describe, "the reply", found, calls::listing(self.bytes, row_number));
            }
            Question::Leeway { word, job } => {
                let found = described(&describe, || library::leeway(&self.lent, word, job));
                group.same(&describe, "the reply", found, calls::leeway(self.bytes, word, job));
            }
            Question::Step { desk, event } => {
                self.step(group, desk, event, Placement::in_turn(number));
            }
        }
    }

    /// A step with its desk lent in a placement of the caller's choice.
    pub fn step_at(&self, group: &mut Group, desk: Desk, event: u8, placement: Placement) {
        group.next_case();
        self.step(group, desk, event, placement);
    }

    fn step(&self, group: &mut Group, desk: Desk, event: u8, placement: Placement) {
        let question = Question::Step { desk, event };
        let describe = || self.describe(&question);
        let lent = Lent::copy_of(&[desk], placement);
        let found = described(&describe, || library::step(&self.lent, &lent, event));
        let (reply, after) = calls::step(self.bytes, desk, event);
        group.same(&describe, "the reply", found, reply);
        group.same(&describe, "the desk", lent.items()[0], after);
        group.same(&describe, "kept around the desk", lent.around_kept(), true);
    }
}

/// Questions that any file may be asked; a bad one must refuse each with its lowest bad block, but
/// for the quick row, which may not get that far.
pub fn few(file: &[u8], random: &mut Random) -> Vec<Question> {
    vec![
        Question::Row { word: 0 },
        Question::Row { word: random.next() as u32 },
        Question::RowQuick { word: 0 },
        Question::RowQuick { word: u32::MAX },
        Question::RowQuick { word: word_in(file, random) },
        Question::RowQuick { word: word_in(file, random) },
        Question::RowQuick { word: word_in(file, random).wrapping_add(1) },
        Question::Listing { row_number: 1 },
        Question::Listing { row_number: 0 },
        Question::Leeway { word: 0, job: 1 },
        Question::Leeway { word: 1, job: 0 },
        Question::Step { desk: Desk::default(), event: 1 },
        Question::Step { desk: any_desk(random), event: 255 },
    ]
}

/// The word in a slot of some state block, the last slot half the time; any word where there is no slot.
fn word_in(file: &[u8], random: &mut Random) -> u32 {
    if file.len() < 2 * BLOCK_BYTES {
        return random.next() as u32;
    }
    let block = &file[BLOCK_BYTES * random.from_to(1, file.len() / BLOCK_BYTES - 1)..];
    let place = if random.once_in(2) { SLOTS - 1 } else { random.below(SLOTS) };
    let at = FIRST_SLOT + SLOT_BYTES * place;
    u32::from_le_bytes([block[at], block[at + 1], block[at + 2], block[at + 3]])
}

/// Every row and its neighbours, every row number and job, every event byte at every row.
pub fn every(table: &Table) -> Vec<Question> {
    let mut list = Vec::new();
    let rows = table.rows.len() as u32;
    for row_number in (0..=rows + 2).chain([256, 257, 65_536, 65_537, (1 << 31) + 1, u32::MAX]) {
        list.push(Question::Listing { row_number });
    }
    for row in &table.rows {
        let word = row.word;
        for near in [word, word.wrapping_sub(1), word.wrapping_add(1), word ^ (1 << 24)] {
            list.push(Question::Row { word: near });
            list.push(Question::RowQuick { word: near });
        }
        for job in (0..=9).chain([255, 256, 257, 258, 65_537, (1 << 31) + 1, u32::MAX]) {
            list.push(Question::Leeway { word, job });
        }
        let desk = State::of_word(word).desk();
        list.extend((0..=255).map(|event| Question::Step { desk, event }));
        list.extend(aliases(desk).into_iter().map(|desk| Question::Step { desk, event: 0 }));
    }
    list
}

/// Some of each, mostly about rows that are there.
pub fn some(table: &Table, count: usize, random: &mut Random) -> Vec<Question> {
    let mut list = vec![Question::Listing { row_number: table.rows.len() as u32 }];
    list.push(Question::Listing { row_number: table.rows.len() as u32 + 1 });
    for _ in 0..count {
        let word = near_a_row(table, random);
        let state = State::of_word(word);
        list.push(match random.below(7) {
            0 => Question::Row { word },
            6 => Question::RowQuick { word },
            1 => Question::Listing { row_number: random.below(table.rows.len() + 2) as u32 },
            2 => Question::Leeway { word, job: random.below(table.sheet.count() + 2) as u32 },
            3 => Question::Step { desk: any_desk(random), event: random.byte() },
            _ => Question::Step { desk: state.desk(), event: likely_event(random) },
        });
    }
    list
}

fn near_a_row(table: &Table, random: &mut Random) -> u32 {
    let word = random.pick(&table.rows).word;
    match random.below(8) {
        0 => word ^ (1 << random.below(32)),
        1 => random.next() as u32,
        _ => word,
    }
}

/// The tick, an arrival, a start or an ending, of a job or just past the last.
fn likely_event(random: &mut Random) -> u8 {
    let job = random.from_to(0, 9) as u8;
    *random.pick(&[0, job, 16 + job, 32 + job])
}

pub fn any_desk(random: &mut Random) -> Desk {
    let mut desk = Desk { now: random.byte(), elapsed: random.byte(), statuses: [0; 8] };
    let most = if random.once_in(2) { 4 } else { 256 };
    desk.statuses.iter_mut().for_each(|status| *status = random.below(most) as u8);
    desk
}

/// Desks with a status above 3 whose plain sum would be this desk's word: each is no row.
fn aliases(desk: Desk) -> Vec<Desk> {
    let mut list = Vec::new();
    for place in 0..7 {
        let mut alias = desk;
        if desk.statuses[place + 1] > 0 {
            alias.statuses[place] += DONE + 1;
            alias.statuses[place + 1] -= 1;
            list.push(alias);
        }
        let mut wrapped = desk;
        wrapped.statuses[place] |= 0x80;
        list.push(wrapped);
    }
    if desk.elapsed > 0 {
        let mut carried = desk;
        carried.statuses[7] += DONE + 1;
        carried.elapsed -= 1;
        list.push(carried);
    }
    list
}
