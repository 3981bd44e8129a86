//! Row, quick row, listing, leeway and step against the second program, on files made, foreign and damaged.

use super::questions::{every, few, some, Asked, Question};
use super::Group;
use crate::clauses;
use crate::damage::{self, Damaged};
use crate::foreign;
use crate::found::{self, BLOCK_EDGES};
use crate::guarded::Placement;
use crate::random::Random;
use crate::second::calls::table_of;
use crate::second::file::{write, BLOCK_BYTES, MOST_BLOCKS, SLOTS};
use crate::second::form::{read, Table};
use crate::second::sheet::Sheet;
use crate::second::table::Row;
use crate::sheets::{self, KINDS};
use crate::worked::{S1, S2};

pub fn run(seed: u64, cases: usize) {
    let mut random = Random::new(seed + 200);
    worked_tables();
    clause_rows(&mut random);
    damaged_files(&mut random);
    quick_ends(&mut random);
    mixed_files(&mut random);
    random_damage(cases, &mut random);
    random_rows(cases, &mut random);
    large_files(&mut random);
    foreign_files(cases, &mut random);
}

/// Tables of sheets that are known to be scheduled.
fn made(numbers: &[u16]) -> Table {
    table_of(numbers).unwrap_or_else(|refusal| panic!("{:?} refused {:?}", numbers, refusal))
}

fn file_of(table: &Table) -> Vec<u8> {
    write(&table.sheet, &table.rows)
}

/// Asks about a file, lent in a placement of its turn.
fn ask(group: &mut Group, what: &str, file: &[u8], questions: Vec<Question>, turn: usize) {
    let asked = Asked::new(what, file, Placement::in_turn(turn));
    for question in questions {
        asked.ask(group, question);
    }
}

/// Everything about the small tables, in each placement.
fn worked_tables() {
    for (name, numbers) in [("S1", &S1[..]), ("S2", &S2), ("sheet 9", &[0, 1, 1, 2, 0, 1, 1, 2])] {
        let mut group = Group::new(&format!("every question to the table of {}", name));
        let table = made(numbers);
        for turn in 0..4 {
            ask(&mut group, name, &file_of(&table), every(&table), turn);
        }
        group.close();
    }
}

/// Each row beside the start's row, with every question where the file is good, and among others.
fn clause_rows(random: &mut Random) {
    let mut group = Group::new("rows at each clause of form");
    for (turn, case) in clauses::all().iter().enumerate() {
        let file = case.alone();
        let questions = match read(&file) {
            Ok(table) => every(&table),
            Err(_) => few(&file, random),
        };
        ask(&mut group, case.clause, &file, questions, turn);
        let table = foreign::table(&case.sheet, 4 * SLOTS, random);
        let among = case.among(&table).0;
        ask(&mut group, case.clause, &among, few(&among, random), turn);
    }
    group.close();
}

fn ask_damaged(group: &mut Group, damaged: &Damaged, turn: usize, random: &mut Random) {
    ask(group, &damaged.rule, &damaged.file, few(&damaged.file, random), turn);
}

fn damaged_files(random: &mut Random) {
    let mut group = Group::new("each rule of form broken");
    let mut tables = vec![made(&S1), made(&S2)];
    tables.extend(BLOCK_EDGES[..4].iter().map(|sheet| made(&sheet.numbers())));
    for table in &tables {
        for (turn, damaged) in damage::all(table).iter().enumerate() {
            ask_damaged(&mut group, damaged, turn, random);
        }
    }
    group.close();
    let mut group = Group::new("each rule of form broken, largest table");
    for (turn, damaged) in damage::all(&made(&BLOCK_EDGES[6].numbers())).iter().enumerate() {
        let asked = Asked::new(&damaged.rule, &damaged.file, Placement::in_turn(turn));
        asked.ask(&mut group, Question::Row { word: 0 });
    }
    group.close();
}

/// The quick row at the end of each block and beside it, where each block in turn is bad, and where none is.
fn quick_ends(random: &mut Random) {
    let mut group = Group::new("quick row: around the end of each block, each block bad in turn");
    for rows in [1, SLOTS - 1, SLOTS, SLOTS + 1, 3 * SLOTS, 5 * SLOTS + 7] {
        let table = foreign::table(&foreign::wide_sheet(), rows, random);
        let file = file_of(&table);
        let ends: Vec<u32> =
            table.rows.chunks(SLOTS).filter_map(|part| part.last()).map(|row| row.word).collect();
        for bad in 0..=damage::blocks_of(&file) {
            let mut damaged = file.clone();
            if let Some(byte) = damaged.get_mut(BLOCK_BYTES * bad + 20) {
                *byte ^= 1;
            }
            let near =
                ends.iter().flat_map(|&word| [word.wrapping_sub(1), word, word.wrapping_add(1)]);
            let questions =
                near.chain([0, u32::MAX]).map(|word| Question::RowQuick { word }).collect();
            ask(&mut group, "a block bad", &damaged, questions, bad);
        }
    }
    group.close();
}

/// A sheet's table with its table one tick later, and two foreign files of one sheet.
fn mixed_files(random: &mut Random) {
    let mut group = Group::new("two files mixed");
    for sheet in &BLOCK_EDGES[..4] {
        let one = file_of(&made(&sheet.numbers()));
        let other = file_of(&made(&sheet.one_tick_later()));
        mix(&mut group, &one, &other, random);
    }
    for _ in 0..50 {
        let one = file_of(&foreign::table(&foreign::wide_sheet(), 250, random));
        let other = file_of(&foreign::table(&foreign::wide_sheet(), 250, random));
        mix(&mut group, &one, &other, random);
    }
    group.close();
}

fn mix(group: &mut Group, one: &[u8], other: &[u8], random: &mut Random) {
    for (turn, damaged) in damage::mixed(one, other).iter().enumerate() {
        ask_damaged(group, damaged, turn, random);
    }
}

fn random_damage(cases: usize, random: &mut Random) {
    let files: Vec<Vec<u8>> =
        BLOCK_EDGES[..4].iter().map(|sheet| file_of(&made(&sheet.numbers()))).collect();
    let mut group = Group::new("bits changed, and random bytes");
    for turn in 0..5 * cases {
        let file = random.pick(&files).clone();
        ask_damaged(&mut group, &damage::bit_flipped(&file, turn % 2 == 0, random), turn, random);
        if random.once_in(8) {
            ask_damaged(&mut group, &damage::random_bytes(random), turn, random);
        }
    }
    group.close();
}

/// The start's row and one more: a row of good form with a bit or two changed, or any row.
fn random_rows(cases: usize, random: &mut Random) {
    let mut group = Group::new("a random row beside the start's row");
    for turn in 0..40 * cases {
        let (sheet, mut rows) = two_rows(random);
        disturb(&mut rows[1], random);
        let file = write(&sheet, &rows);
        let question = Question::Row { word: rows[1].word };
        ask(&mut group, "a random row", &file, vec![question], turn);
    }
    group.close();
}

/// Sheets are drawn until one has a second row in order.
fn two_rows(random: &mut Random) -> (Sheet, Vec<Row>) {
    loop {
        let kind = *random.pick(&KINDS);
        let sheet = Sheet::of_numbers(&sheets::of_kind(kind, random)).expect("good length");
        let rows = foreign::table(&sheet, 2, random).rows;
        if rows.len() == 2 {
            return (sheet, rows);
        }
    }
}

fn disturb(row: &mut Row, random: &mut Random) {
    match random.below(6) {
        0 => row.word ^= 1 << random.below(32),
        1 => row.word = row.word.wrapping_add(1 << 24),
        2 => row.starts ^= 1 << random.below(8),
        3 => row.tick = random.below(4) as u8,
        4 => row.word = row.word.wrapping_add(1 << 16),
        _ => {}
    }
}

fn large_files(random: &mut Random) {
    let mut group = Group::new("tables at the limits");
    for (turn, sheet) in found::all().iter().filter(|sheet| sheet.rows > 0).enumerate() {
        let table = made(&sheet.numbers());
        ask(&mut group, sheet.what, &file_of(&table), some(&table, 60, random), turn);
    }
    let most = (MOST_BLOCKS - 1) * SLOTS;
    for rows in [most - 1, most, most + 1] {
        let table = foreign::table(&foreign::wide_sheet(), rows, random);
        ask(&mut group, "a foreign file", &file_of(&table), some(&table, 60, random), rows);
    }
    group.close();
}

fn foreign_files(cases: usize, random: &mut Random) {
    let mut group = Group::new("foreign files of good form");
    for turn in 0..cases {
        let kind = *random.pick(&KINDS);
        let sheet = Sheet::of_numbers(&sheets::of_kind(kind, random)).expect("good length");
        let most = *random.pick(&[2, 10, 62, 63, 130]);
        let table = foreign::table(&sheet, most, random);
        ask(&mut group, "a foreign file", &file_of(&table), some(&table, 40, random), turn);
    }
    group.close();
}
