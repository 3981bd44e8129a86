//! The printing program: a sheet's text in, the table's lines or one line of refusal out.

use super::calls::{table_of, Refusal, BAD_LENGTH};
use super::form::Table;
use super::sheet::{MOST_JOBS, NUMBERS_A_JOB};
use super::state::State;
use super::table::{Row, TICK_HELD, TICK_OPEN};

pub fn print(text: &[u8]) -> Vec<u8> {
    let made = numbers_in(text).ok_or((BAD_LENGTH, 0)).and_then(|sheet| table_of(&sheet));
    match made {
        Ok(table) => lines(&table),
        Err(refusal) => refused(refusal),
    }
}

fn refused(refusal: Refusal) -> Vec<u8> {
    format!("refused {} {}\n", refusal.0, refusal.1).into_bytes()
}

/// 1 to 8 lines of four numbers, each line ended by byte 10.
pub fn numbers_in(text: &[u8]) -> Option<Vec<u16>> {
    let without_end = text.strip_suffix(b"\n")?;
    let lines: Vec<&[u8]> = without_end.split(|&byte| byte == b'\n').collect();
    if lines.len() > MOST_JOBS {
        return None;
    }
    let mut numbers = Vec::new();
    for line in lines {
        let fields: Vec<&[u8]> = line.split(|&byte| byte == b' ').collect();
        if fields.len() != NUMBERS_A_JOB {
            return None;
        }
        for field in fields {
            numbers.push(number_in(field)?);
        }
    }
    Some(numbers)
}

/// One to three digits; zeros may lead.
fn number_in(field: &[u8]) -> Option<u16> {
    let digits = field.iter().all(u8::is_ascii_digit);
    if !digits || field.is_empty() || field.len() > 3 {
        return None;
    }
    Some(field.iter().fold(0, |number, &digit| 10 * number + u16::from(digit - b'0')))
}

fn lines(table: &Table) -> Vec<u8> {
    let jobs = table.sheet.count();
    let mut text = format!("jobs {} states {}\n", jobs, table.rows.len());
    for row in &table.rows {
        text.push_str(&line(row, jobs));
    }
    text.into_bytes()
}

fn line(row: &Row, jobs: usize) -> String {
    let state = State::of_word(row.word);
    let statuses: String = (1..=jobs).map(|i| state.status(i).to_string()).collect();
    let allowed: String =
        (1..=jobs).filter(|k| row.starts & (1 << (k - 1)) != 0).map(|k| k.to_string()).collect();
    let starts = if allowed.is_empty() { "-" } else { &allowed };
    let tick = match row.tick {
        TICK_OPEN => "open",
        TICK_HELD => "held",
        _ => "none",
    };
    format!("{} {} {} {} {}\n", state.now, state.elapsed, statuses, starts, tick)
}
