//! Steps one after the other from the start, against the second program.

use super::Group;
use crate::guarded::{described, Lent, Placement};
use crate::library;
use crate::random::Random;
use crate::replies::Desk;
use crate::second::calls::{self, table_of};
use crate::second::file::write;
use crate::second::form::Table;
use crate::second::state::{Event, State};
use crate::sheets::{self, KINDS};

/// The desk is kept by the product alone from step to step, and must follow each event.
pub fn run(seed: u64, cases: usize) {
    let mut random = Random::new(seed + 250);
    let mut group = Group::new("walks from the start");
    for turn in 0..cases {
        let table = small_table(&mut random);
        walk(&mut group, &table, turn, &mut random);
    }
    group.close();
}

/// Sheets are drawn until one has a table that is soon walked.
fn small_table(random: &mut Random) -> Table {
    loop {
        let kind = *random.pick(&KINDS);
        match table_of(&sheets::of_kind(kind, random)) {
            Ok(table) if table.rows.len() < 2_000 => return table,
            _ => {}
        }
    }
}

fn walk(group: &mut Group, table: &Table, turn: usize, random: &mut Random) {
    let bytes = write(&table.sheet, &table.rows);
    let file = Lent::shared(&bytes, Placement::in_turn(turn));
    let lent = Lent::copy_of(&[State::start().desk()], Placement::in_turn(turn + 1));
    let mut desk = State::start().desk();
    for _ in 0..120 {
        group.next_case();
        let event = possible_byte(table, &desk, random);
        let before = desk;
        let describe = || {
            let numbers = table.sheet.numbers();
            format!("event {} at desk {:?} in the table of sheet {:?}", event, before, numbers)
        };
        let (reply, after) = calls::step(&bytes, desk, event);
        desk = after;
        let found = described(&describe, || library::step(&file, &lent, event));
        group.same(&describe, "the reply", found, reply);
        group.same(&describe, "the desk", lent.items()[0], after);
    }
}

/// The byte of an event that is possible on this desk, allowed by its row or not.
fn possible_byte(table: &Table, desk: &Desk, random: &mut Random) -> u8 {
    let byte_of = |event: &Event| match *event {
        Event::Tick => 0,
        Event::Arrival(job) => job as u8,
        Event::Start(job) => 16 + job as u8,
        Event::Ending(job) => 32 + job as u8,
    };
    let state = State::of_desk(desk).expect("a desk that follows a table");
    let events = Event::all(table.sheet.count());
    let possible: Vec<u8> =
        events.iter().filter(|&&e| state.possible(&table.sheet, e)).map(byte_of).collect();
    *random.pick(&possible)
}
