//! Draws one run of a table as an SVG: ticks across, a lane for the RIP and one for each job.
//!
//! The table is read from standard input, as `print_table` prints it. The printed table does not
//! say when a job is due, so the sheet it was made from may be named; without it a job's window
//! ends at the last tick at which the table has the job unfinished. The run is the one that starts
//! each job as early as the table allows, the lowest number first, while every job takes its most
//! ticks; or the events named after the sheet, each a number as the step call takes it: 0 the tick,
//! 1 to 8 an arrival, 17 to 24 a start, 33 to 40 an ending.

mod drawing;
mod run;
mod table;

use run::{Event, Run};
use std::io::{self, Read};
use std::process::ExitCode;
use std::{env, fs};
use table::Table;

fn main() -> ExitCode {
    match picture(&env::args().skip(1).collect::<Vec<_>>()) {
        Ok(svg) => {
            print!("{}", svg);
            ExitCode::SUCCESS
        }
        Err(why) => {
            eprintln!("picture: {}", why);
            ExitCode::FAILURE
        }
    }
}

fn picture(arguments: &[String]) -> Result<String, String> {
    let mut text = String::new();
    io::stdin().read_to_string(&mut text).map_err(|why| why.to_string())?;
    let table = Table::of_text(&text)?;
    let due = match arguments.first() {
        Some(sheet) => Some(due_ticks(sheet, table.jobs)?),
        None => None,
    };
    let events =
        arguments.iter().skip(1).map(|word| Event::of_word(word)).collect::<Result<Vec<_>, _>>()?;
    let run = if events.is_empty() { Run::earliest(&table)? } else { Run::given(&table, &events)? };
    Ok(drawing::svg(&table, &run, due.as_deref(), events.is_empty()))
}

/// A + D of each job of a sheet's text.
fn due_ticks(path: &str, jobs: usize) -> Result<Vec<u32>, String> {
    let text = fs::read_to_string(path).map_err(|why| format!("{}: {}", path, why))?;
    let due: Option<Vec<u32>> = text.lines().map(due_tick).collect();
    due.filter(|due| due.len() == jobs).ok_or(format!("{} is not the table's sheet", path))
}

fn due_tick(line: &str) -> Option<u32> {
    let numbers: Vec<u32> = line.split(' ').map(|word| word.parse().ok()).collect::<Option<_>>()?;
    match numbers[..] {
        [arrival, _, _, due] => Some(arrival + due),
        _ => None,
    }
}
