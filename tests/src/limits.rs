//! The second program against the sheets at the limits and the sheets of bad form.

use crate::found::{self, Found};
use crate::random::Random;
use crate::replies::MakeReply;
use crate::second::calls::{file_bytes, make, table_of, MANY_LIVE, NOT_SAFE, WORK_WORDS};
use crate::second::file::write;
use crate::second::sheet::Sheet;
use crate::second::table::Live;
use crate::sheets;
use crate::tally::{each, same, test, Outcome};
use crate::tuned;

/// Written once more, so that a wrong constant of the second program is seen.
const LIMIT: usize = 7_874;

pub fn run() {
    for sheet in found::all() {
        let name = format!("{}: {} live, {} rows", sheet.what, sheet.live, sheet.rows);
        test(&name, counts(&sheet.numbers(), sheet.live, sheet.rows));
    }
    for sheet in &found::MOST_LIVE {
        test(&format!("{}, one tick later", sheet.what), one_more(sheet));
    }
    test("sheets of bad length and of bad form", bad_sheets());
    test("the tuned maker writes the same files", tuned_files());
}

/// The counts, looked for past the limit too, and make's reply.
fn counts(numbers: &[u16], live: usize, rows: usize) -> Outcome {
    let sheet = Sheet::of_numbers(numbers).ok_or("of bad length")?;
    let found = Live::of_sheet(&sheet, 2 * LIMIT).ok_or("far too many live states")?;
    same("live and rows", (found.count(), found.rows().len()), (live, rows))?;
    let reply = make(numbers, &mut [1; WORK_WORDS], &mut [1; 65_536]);
    same("make's reply", reply, reply_for(live, rows))
}

fn reply_for(live: usize, rows: usize) -> MakeReply {
    if live > LIMIT {
        MakeReply { number: MANY_LIVE, detail: 0, length: 0 }
    } else if rows == 0 {
        MakeReply { number: NOT_SAFE, detail: 0, length: 0 }
    } else {
        MakeReply { number: 0, detail: 0, length: file_bytes(rows) as u32 }
    }
}

fn one_more(sheet: &Found) -> Outcome {
    let rows = if sheet.rows == 0 { 0 } else { sheet.rows + 1 };
    counts(&sheet.one_tick_later(), sheet.live + 1, rows)
}

fn bad_sheets() -> Outcome {
    each(&sheets::bad(), |sheet| {
        let mut work = [1; WORK_WORDS];
        let reply = make(&sheet.numbers, &mut work, &mut [1; 65_536]);
        let wanted = MakeReply { number: sheet.number, detail: sheet.detail, length: 0 };
        same(&sheet.what, reply, wanted)?;
        same("a work word", work.iter().find(|&&word| word != 1), None)
    })
}

/// So that what is measured against is a maker too.
fn tuned_files() -> Outcome {
    let mut random = Random::new(9);
    let mut sheets: Vec<Vec<u16>> = found::all().iter().map(|sheet| sheet.numbers()).collect();
    sheets.extend(found::MOST_LIVE.iter().map(Found::one_tick_later));
    for kind in sheets::KINDS {
        sheets.extend((0..10).map(|_| sheets::of_kind(kind, &mut random)));
    }
    for numbers in sheets {
        let sheet = Sheet::of_numbers(&numbers).ok_or("of bad length")?;
        let file = table_of(&numbers).ok().map(|table| write(&table.sheet, &table.rows));
        if tuned::make(&sheet) != file {
            return Err(format!("another file for {:?}", numbers));
        }
    }
    Ok(())
}
