//! Times of the makers and readers, and their ratios, measured in one run.

use crate::classes::{print_longest, CLASSES};
use crate::found::{self, Found};
use crate::guarded::{Lent, Placement};
use crate::library;
use crate::makers::{self, MOST_BYTES};
use crate::race::{print_race, race, Runner};
use crate::second::calls::{self, file_bytes, table_of};
use crate::second::file::write;
use crate::second::sheet::Sheet;
use crate::second::table::{Live, MOST_LIVE};
use crate::tuned_read;

pub fn run() {
    println!("fastest call in microseconds; calls side by side take turns");
    makes();
    growth();
    found::MOST_LIVE.iter().for_each(phases);
    for sheet in found::all().iter().filter(|sheet| sheet.rows > 7_000) {
        row(sheet);
    }
    for sheet in found::all().iter().filter(|sheet| file_bytes(sheet.rows) == MOST_BYTES) {
        row_quick(sheet);
    }
}

/// Of the sheets at the limits, and of random ones by their size.
fn makes() {
    let mut longest: f64 = 0.0;
    for sheet in found::all() {
        let what = format!("make, {}", sheet.what);
        longest = longest.max(print_race(&what, makers::all(&sheet.numbers())));
    }
    for class in &CLASSES {
        longest = longest.max(class.measure());
    }
    print_longest(longest);
}

/// Due ticks of the first of three jobs; their sheets have about 1,000, 2,000, 4,000 and 7,874 live states.
const GROWING_DUES: [u16; 4] = [29, 58, 114, 224];

/// How the time of make grows: a state is found in a few steps however many there are, so that each
/// costs much the same.
fn growth() {
    for due in GROWING_DUES {
        let numbers = [2, 1, 1, due, 0, 1, 2, due + 5, 3, 1, 1, due + 1];
        let sheet = Sheet::of_numbers(&numbers).expect("good length");
        let live = Live::of_sheet(&sheet, MOST_LIVE).expect("few enough").count();
        let (tuned, product) = makers::beside_tuned(&numbers);
        let each = 1_000.0 * product / live as f64;
        println!("growth, {live} live states: tuned {tuned:.1}, product {product:.1}, {each:.1} ns a state");
    }
}

/// Exploring, and what comes after it. The compiler makes one function of all phases, so they are told
/// apart by a call that stops early: one tick later the sheet has one live state too many, and a
/// maker stops when it has found the others.
fn phases(sheet: &Found) {
    let (tuned, product) = makers::beside_tuned(&sheet.one_tick_later());
    let (tuned_whole, product_whole) = makers::beside_tuned(&sheet.numbers());
    let (tuned_rest, product_rest) = (tuned_whole - tuned, product_whole - product);
    print!("phases, {}: explore tuned {tuned:.1}, product {product:.1}; ", sheet.what);
    println!("rest tuned {tuned_rest:.1}, product {product_rest:.1}");
}

fn row(sheet: &Found) {
    let table = table_of(&sheet.numbers()).expect("a table");
    let file = write(&table.sheet, &table.rows);
    let word = table.rows[table.rows.len() / 2].word;
    let mut runners: Vec<Runner> = vec![
        ("second program", Box::new(|| usize::from(calls::row(&file, word).tick))),
        ("tuned", Box::new(|| usize::from(tuned_read::row(&file, word).tick))),
    ];
    runners.push(product_row(&file, word));
    print_race(&format!("row, {}", sheet.what), runners);
}

/// The quick row beside the full one, for words early, in the middle and late in a file of 128 blocks.
fn row_quick(sheet: &Found) {
    let table = table_of(&sheet.numbers()).expect("a table");
    let file = write(&table.sheet, &table.rows);
    let last = table.rows.len() - 1;
    for (what, place) in [("first", 0), ("early", last / 10), ("middle", last / 2), ("late", last)]
    {
        let word = table.rows[place].word;
        let times = race(vec![product_row(&file, word), product_row_quick(&file, word)]);
        let (full, quick) = (times[0].1, times[1].1);
        let share = quick / full;
        println!(
            "quick row, {}, {what} word: product {quick:.1}, full row {full:.1} ({share:.3} of it)",
            sheet.what
        );
    }
}

fn product_row(file: &[u8], word: u32) -> Runner<'static> {
    let lent = Lent::shared(file, Placement::EndsAtGuard);
    ("product", Box::new(move || usize::from(library::row(&lent, word).tick)))
}

fn product_row_quick(file: &[u8], word: u32) -> Runner<'static> {
    let lent = Lent::shared(file, Placement::EndsAtGuard);
    ("product", Box::new(move || usize::from(library::row_quick(&lent, word).tick)))
}
