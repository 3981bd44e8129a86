//! Times of steps and of the printing program, and their ratios, measured in one run.
//!
//! The printing program is measured as a whole process: text in, table out. So are the second
//! program and its tuned variant, which are this program, called with `print`.

use crate::found::{self, Found};
use crate::guarded::{Lent, Placement};
use crate::library;
use crate::race::{print_race, Runner};
use crate::replies::Desk;
use crate::second::calls::{self, table_of};
use crate::second::file::write;
use crate::second::state::State;
use crate::texts::{printed, text_of};
use crate::tuned_read;
use std::env;

pub fn steps() {
    for sheet in found::all().iter().filter(|sheet| sheet.rows > 7_000) {
        step(sheet);
    }
}

/// The tick of the finished state leads to itself, so that the desk is the same for every call.
fn step(sheet: &Found) {
    let numbers = sheet.numbers();
    let table = table_of(&numbers).expect("a table");
    let file = write(&table.sheet, &table.rows);
    let desk = State::finished(&table.sheet).desk();
    let mut runners: Vec<Runner> = vec![
        ("second program", Box::new(|| calls::step(&file, desk, 0).0.number as usize + 1)),
        ("tuned", Box::new(|| tuned_read::step(&file, desk, 0).0.number as usize + 1)),
    ];
    runners.push(product_step(&file, desk));
    print_race(&format!("step, {}", sheet.what), runners);
}

fn product_step(file: &[u8], desk: Desk) -> Runner<'static> {
    let file = Lent::shared(file, Placement::EndsAtGuard);
    let desk = Lent::copy_of(&[desk], Placement::EndsAtGuard);
    ("product", Box::new(move || library::step(&file, &desk, 0).number as usize + 1))
}

/// From the smallest to the largest tables, so that the growth can be seen.
pub fn processes(program: &str) {
    let mut sheets = found::all();
    sheets.retain(|sheet| sheet.rows > 0);
    sheets.sort_by_key(|sheet| sheet.live);
    for sheet in sheets {
        process(program, sheet);
    }
}

fn process(program: &str, sheet: &Found) {
    let input = text_of(&sheet.numbers());
    let own = env::current_exe().expect("this program's path");
    let own = own.to_str().expect("a path of letters");
    let what = format!("print, {} live states, {} rows", sheet.live, sheet.rows);
    let runners: Vec<Runner> = vec![
        ("second program", printing(vec![own, "print"], &input)),
        ("tuned", printing(vec![own, "print", "tuned"], &input)),
        ("product", printing(vec![program], &input)),
    ];
    print_race(&what, runners);
}

fn printing<'a>(command: Vec<&'a str>, input: &'a [u8]) -> Box<dyn FnMut() -> usize + 'a> {
    Box::new(move || printed(&command, input).expect("a table").len())
}
