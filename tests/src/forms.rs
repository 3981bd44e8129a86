//! The second program's reader against rows and files whose form was settled by hand.

use crate::clauses;
use crate::damage::{self, Damaged, Wanted};
use crate::foreign;
use crate::found::BLOCK_EDGES;
use crate::random::Random;
use crate::second::calls::table_of;
use crate::second::file::{write, MOST_BLOCKS, SLOTS};
use crate::second::form::{read, Table};
use crate::tally::{each, same, test, Outcome};
use crate::tuned_read;
use crate::worked::{S1, S2};

pub fn run() {
    test("rows at each clause, beside the start's row", rows_alone());
    test("rows at each clause, in a longer file", rows_among());
    test("damaged files: S1", damages(&S1));
    test("damaged files: S2", damages(&S2));
    for sheet in &BLOCK_EDGES[..5] {
        test(&format!("damaged files: {}", sheet.what), damages(&sheet.numbers()));
    }
    test("each kind of damage is done to some table", every_damage());
    test("made tables are read back", read_back());
    test("foreign tables are read back, 7,874 rows at most", foreign_files());
    test("every changed bit is found", bits());
    test("any bytes are answered with a block that is there", any_bytes());
    test("the tuned reader says the same", tuned_agrees());
}

/// What is measured against the product asks the same rules.
fn tuned_agrees() -> Outcome {
    let mut random = Random::new(5);
    for case in clauses::all() {
        let table = foreign::table(&case.sheet, 4 * SLOTS, &mut random);
        both_say(&case.alone())?;
        both_say(&case.among(&table).0)?;
    }
    let mut sheets = vec![S1.to_vec(), S2.to_vec()];
    sheets.extend(BLOCK_EDGES[..5].iter().map(|sheet| sheet.numbers()));
    for numbers in sheets {
        let table = made(&numbers)?;
        let file = write(&table.sheet, &table.rows);
        each(&damage::all(&table), |damaged| both_say(&damaged.file))?;
        for _ in 0..400 {
            both_say(&damage::bit_flipped(&file, true, &mut random).file)?;
        }
    }
    Ok(())
}

fn both_say(file: &[u8]) -> Outcome {
    same("the lowest bad block", tuned_read::read(file).err(), read(file).err())
}

fn form_of(file: &[u8]) -> Wanted {
    match read(file) {
        Ok(_) => Wanted::Good,
        Err(block) => Wanted::LowestBad(block as usize),
    }
}

fn made(numbers: &[u16]) -> Result<Table, String> {
    table_of(numbers).map_err(|refusal| format!("refused {:?}", refusal))
}

fn rows_alone() -> Outcome {
    for case in clauses::all() {
        let wanted = if case.good { Wanted::Good } else { Wanted::LowestBad(1) };
        same(case.clause, form_of(&case.alone()), wanted)?;
    }
    Ok(())
}

fn rows_among() -> Outcome {
    let mut random = Random::new(3);
    for case in clauses::all() {
        let table = foreign::table(&case.sheet, 4 * SLOTS, &mut random);
        let (file, block) = case.among(&table);
        let wanted = if case.good { Wanted::Good } else { Wanted::LowestBad(block as usize) };
        same(case.clause, form_of(&file), wanted)?;
    }
    Ok(())
}

fn damages(numbers: &[u16]) -> Outcome {
    each(&damage::all(&made(numbers)?), as_wanted)
}

/// Damage that a table may have no place for. Over all tables none is left out.
const HAS_A_PLACE: [&str; 10] = [
    "unused slot",
    "row's zero bytes",
    "two rows swapped",
    "a row twice",
    "last row before once more",
    "a row from before",
    "rows swapped with the block before",
    "swapped with the block before, numbers",
    "a start before an arrival",
    "cut after block 1 and counted",
];

fn every_damage() -> Outcome {
    let mut rules = Vec::new();
    let edges: Vec<Vec<u16>> = BLOCK_EDGES[..4].iter().map(|sheet| sheet.numbers()).collect();
    for numbers in [S1.to_vec(), S2.to_vec()].iter().chain(&edges) {
        rules.extend(damage::all(&made(numbers)?).into_iter().map(|damaged| damaged.rule));
    }
    each(&HAS_A_PLACE, |what| same(what, rules.iter().any(|rule| rule.contains(what)), true))
}

fn as_wanted(damaged: &Damaged) -> Outcome {
    same(&damaged.rule, form_of(&damaged.file), damaged.wanted)
}

fn read_back() -> Outcome {
    for sheet in &BLOCK_EDGES {
        let table = made(&sheet.numbers())?;
        let again = read(&write(&table.sheet, &table.rows)).map_err(|b| format!("block {}", b))?;
        same("the sheet", again.sheet, table.sheet)?;
        same("the list of rows", again.rows, table.rows)?;
    }
    Ok(())
}

fn foreign_files() -> Outcome {
    let most = (MOST_BLOCKS - 1) * SLOTS;
    let mut random = Random::new(5);
    for rows in [1, 2, SLOTS, SLOTS + 1, most] {
        let table = foreign::table(&foreign::wide_sheet(), rows, &mut random);
        same("the number of rows", table.rows.len(), rows)?;
        same("the form", form_of(&write(&table.sheet, &table.rows)), Wanted::Good)?;
    }
    let table = foreign::table(&foreign::wide_sheet(), most + 1, &mut random);
    same("129 blocks", form_of(&write(&table.sheet, &table.rows)), Wanted::LowestBad(0))
}

fn bits() -> Outcome {
    let table = made(&S2)?;
    let file = write(&table.sheet, &table.rows);
    let mut random = Random::new(7);
    (0..500).try_for_each(|_| as_wanted(&damage::bit_flipped(&file, false, &mut random)))
}

fn any_bytes() -> Outcome {
    let mut random = Random::new(8);
    let mut files: Vec<Damaged> = (0..200).map(|_| damage::random_bytes(&mut random)).collect();
    let one = foreign::table(&foreign::wide_sheet(), 3 * SLOTS, &mut random);
    let other = foreign::table(&foreign::wide_sheet(), 3 * SLOTS, &mut random);
    files.extend(damage::mixed(&write(&one.sheet, &one.rows), &write(&other.sheet, &other.rows)));
    let bad = |damaged: &Damaged| form_of(&damaged.file) != Wanted::Good;
    files.retain(bad);
    each(&files, |damaged| match form_of(&damaged.file) {
        Wanted::LowestBad(block) => {
            same(&damaged.rule, block < damage::blocks_of(&damaged.file), true)
        }
        _ => Ok(()),
    })
}
