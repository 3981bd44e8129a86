//! Each call's answers and refusals in their order, worked by hand on S1 and S2.

use crate::replies::{Desk, ListingReply};
use crate::second::calls::{engine, leeway, listing, row, row_quick, step, table_of};
use crate::second::file::write;
use crate::second::sheet::{Job, Sheet};
use crate::second::table::{Row, TICK_HELD, TICK_NONE, TICK_OPEN};
use crate::tally::{same, test, Outcome};
use crate::worked::{S1, S2};

pub fn run() {
    test("row: S1's rows, others 8", rows_of_s1());
    test("quick row: a bad block is told where it is read", quick_rows());
    test("listing: S1's rows, numbers 0 and 6 are 8", listings_of_s1());
    test("leeway: S2, and 7, 9, 8, 12 in order", leeways_of_s2());
    test("leeway: 254 and −255", leeway_ends());
    test("step: S1 from the start to the finished state", run_of_s1());
    test("step: 7, 9, 8, 10, 11 in order", step_refusals());
    test("step: a desk with a status above 3 is no row", status_above_3());
    test("step: event bytes of no kind are 9", event_bytes());
    test("step: a foreign file may lack the state entered", state_lacking());
    test("engine: 1, 2, 5 in order, and 0 without a live limit", verdicts());
}

fn file_of(numbers: &[u16]) -> Result<Vec<u8>, String> {
    let table = table_of(numbers).map_err(|refusal| format!("refused {:?}", refusal))?;
    Ok(write(&table.sheet, &table.rows))
}

/// A file with a bad block 1.
fn bad_file() -> Result<Vec<u8>, String> {
    let mut file = file_of(&S1)?;
    file[600] ^= 1;
    Ok(file)
}

fn desk(now: u8, elapsed: u8, job_1: u8, job_2: u8) -> Desk {
    Desk { now, elapsed, statuses: [job_1, job_2, 0, 0, 0, 0, 0, 0] }
}

fn rows_of_s1() -> Outcome {
    let file = file_of(&S1)?;
    let wanted = [
        (0, 0, TICK_NONE),
        (1, 1, TICK_HELD),
        (2, 0, TICK_OPEN),
        (3, 0, TICK_OPEN),
        (16_842_754, 0, TICK_NONE),
    ];
    for (word, starts, tick) in wanted {
        let reply = row(&file, word);
        let found = (reply.number, reply.detail, reply.starts, reply.tick);
        same(&format!("row {}", word), found, (0, 0, starts, tick))?;
    }
    for word in [4, 16_777_217, 16_777_218, 16_842_753, 16_842_755, (1 << 31) + 1, u32::MAX] {
        let reply = row(&file, word);
        let found = (reply.number, reply.detail, reply.starts, reply.tick);
        same(&format!("row {}", word), found, (8, 0, 0, 0))?;
    }
    let bad = row(&bad_file()?, 0);
    same("row of a bad file", (bad.number, bad.detail), (7, 1))
}

/// A table of three state blocks, each bad in turn: asked for the last word of block 1, only blocks
/// 0 and 1 are read; asked for one more, block 2 too; asked for the greatest word there is, all.
fn quick_rows() -> Outcome {
    let file = file_of(&[0, 1, 5, 20, 0, 1, 5, 20])?;
    let word_at =
        |at: usize| u32::from_le_bytes([file[at], file[at + 1], file[at + 2], file[at + 3]]);
    let last_of_1 = word_at(512 + 8 + 8 * 61);
    let one_more = last_of_1 + 1;
    let told = |bad: usize, word: u32| {
        let mut copy = file.clone();
        copy[512 * bad + 20] ^= 1;
        let reply = row_quick(&copy, word);
        (reply.number, reply.detail)
    };
    same("block 0 bad", told(0, 0), (7, 0))?;
    for (bad, words) in [(1, [(7, 1), (7, 1), (7, 1)]), (2, [(0, 0), (7, 2), (7, 2)])] {
        for (word, wanted) in [last_of_1, one_more, u32::MAX].into_iter().zip(words) {
            same(&format!("word {} with block {} bad", word, bad), told(bad, word), wanted)?;
        }
    }
    let last = file.len() / 512 - 1;
    same("the last block bad, start", told(last, 0), (0, 0))?;
    same("the last block bad, no row", told(last, 16), (8, 0))?;
    same("the last block bad, all read", told(last, u32::MAX), (7, last as u32))?;
    same("a length of no file", row_quick(&file[1..], 0), row(&file[1..], 0))
}

fn listings_of_s1() -> Outcome {
    let file = file_of(&S1)?;
    let mut numbers = [0; 32];
    numbers[..4].copy_from_slice(&S1);
    let listed = ListingReply { jobs: 1, rows: 5, numbers, ..ListingReply::default() };
    same("row 1", listing(&file, 1), listed)?;
    let second = ListingReply { word: 1, starts: 1, tick: TICK_HELD, ..listed };
    same("row 2", listing(&file, 2), second)?;
    let last = ListingReply { word: 16_842_754, ..listed };
    same("row 5", listing(&file, 5), last)?;
    let none = ListingReply { number: 8, ..ListingReply::default() };
    for row_number in [0, 6, 257, 65_537, (1 << 31) + 1, u32::MAX] {
        same("a row that is not there", listing(&file, row_number), none)?;
    }
    let bad = ListingReply { number: 7, detail: 1, ..ListingReply::default() };
    same("row 0 of a bad file", listing(&bad_file()?, 0), bad)
}

fn leeways_of_s2() -> Outcome {
    let file = file_of(&S2)?;
    let after_job_2 = 33_554_445;
    let running_2 = 16_777_225;
    let no_row = 2;
    let wanted = [
        (0, 1, (0, 3)),
        (0, 2, (0, 3)),
        (after_job_2, 1, (0, 1)),
        (after_job_2, 2, (12, 0)),
        (running_2, 2, (12, 0)),
        (no_row, 0, (9, 0)),
        (no_row, 3, (9, 0)),
        (0, 257, (9, 0)),
        (0, 65_537, (9, 0)),
        (0, u32::MAX, (9, 0)),
        (no_row, 1, (8, 0)),
    ];
    for (word, job, (number, ticks)) in wanted {
        let reply = leeway(&file, word, job);
        let found = (reply.number, reply.detail, reply.leeway);
        same(&format!("leeway of job {} at {}", job, word), found, (number, 0, ticks))?;
    }
    let bad = leeway(&bad_file()?, no_row, 0);
    same("leeway of a bad file", (bad.number, bad.detail), (7, 1))
}

fn leeway_ends() -> Outcome {
    same("the greatest", leeway(&file_of(&[0, 1, 1, 255])?, 0, 1).leeway, 254)?;
    let sheet = Sheet::new(&[Job::new(0, 255, 255, 255)]);
    let at_255 = (255 << 24) + 1;
    let start = Row { word: 0, starts: 0, tick: TICK_NONE };
    let file = write(&sheet, &[start, Row { word: at_255, starts: 1, tick: TICK_HELD }]);
    same("the least", leeway(&file, at_255, 1).leeway, -255)
}

/// Event, reply and the desk afterwards.
fn run_of_s1() -> Outcome {
    let file = file_of(&S1)?;
    let events = [
        (0, 10, desk(0, 0, 0, 0)),
        (17, 10, desk(0, 0, 0, 0)),
        (33, 10, desk(0, 0, 0, 0)),
        (1, 0, desk(0, 0, 1, 0)),
        (1, 10, desk(0, 0, 1, 0)),
        (0, 11, desk(0, 0, 1, 0)),
        (17, 0, desk(0, 0, 2, 0)),
        (33, 10, desk(0, 0, 2, 0)),
        (0, 0, desk(1, 1, 2, 0)),
        (0, 10, desk(1, 1, 2, 0)),
        (33, 0, desk(0, 0, 3, 0)),
        (0, 0, desk(0, 0, 3, 0)),
        (17, 10, desk(0, 0, 3, 0)),
    ];
    let mut stands = Desk::default();
    for (event, number, wanted) in events {
        let (reply, after) = step(&file, stands, event);
        same(&format!("event {}", event), (reply.number, reply.detail), (number, 0))?;
        same(&format!("the desk after event {}", event), after, wanted)?;
        stands = after;
    }
    Ok(())
}

fn refused(file: &[u8], stands: Desk, event: u8, wanted: (u32, u32)) -> Outcome {
    let (reply, after) = step(file, stands, event);
    same(&format!("event {} at {:?}", event, stands), (reply.number, reply.detail), wanted)?;
    same("the desk", after, stands)
}

fn step_refusals() -> Outcome {
    let file = file_of(&S2)?;
    let no_row = desk(9, 0, 1, 1);
    refused(&bad_file()?, no_row, 200, (7, 1))?;
    refused(&file, no_row, 200, (9, 0))?;
    refused(&file, no_row, 3, (9, 0))?;
    refused(&file, no_row, 19, (9, 0))?;
    refused(&file, no_row, 35, (9, 0))?;
    refused(&file, no_row, 2, (8, 0))?;
    refused(&file, desk(0, 0, 1, 0), 2, (10, 0))?;
    refused(&file, desk(0, 0, 1, 0), 18, (10, 0))?;
    refused(&file, desk(1, 0, 1, 0), 17, (10, 0))?;
    refused(&file, desk(0, 0, 1, 0), 17, (11, 0))?;
    refused(&file, desk(1, 0, 1, 1), 17, (11, 0))?;
    refused(&file, desk(1, 0, 1, 1), 0, (11, 0))
}

/// 4 in job 1 sums to the word of 1 in job 2; 4 in job 8 to one elapsed tick more.
fn status_above_3() -> Outcome {
    let file = file_of(&S2)?;
    refused(&file, desk(1, 0, 5, 0), 18, (8, 0))?;
    let mut carried = desk(2, 0, 1, 2);
    carried.statuses[7] = 4;
    refused(&file, carried, 34, (8, 0))?;
    let mut past_last = desk(0, 0, 0, 0);
    past_last.statuses[2] = 1;
    refused(&file, past_last, 1, (8, 0))
}

fn event_bytes() -> Outcome {
    let file = file_of(&S2)?;
    let of_two_jobs = [0, 1, 2, 17, 18, 33, 34];
    for event in (0..=255).filter(|event| !of_two_jobs.contains(event)) {
        refused(&file, Desk::default(), event, (9, 0))?;
    }
    Ok(())
}

fn state_lacking() -> Outcome {
    let sheet = Sheet::new(&[Job::new(0, 1, 1, 1)]);
    let file = write(&sheet, &[Row { word: 0, starts: 0, tick: TICK_NONE }]);
    let (reply, after) = step(&file, Desk::default(), 1);
    same("the arrival", (reply.number, after), (0, desk(0, 0, 1, 0)))?;
    refused(&file, after, 17, (8, 0))
}

/// The sheets worked by hand; (0,255,255,255) has too many live states for make. Five jobs are 1, bad ones too.
fn verdicts() -> Outcome {
    let five = [0, 1, 1, 9].repeat(5);
    let sheets: [(&[u16], u32, u32); 9] = [
        (&S1, 0, 0),
        (&S2, 0, 0),
        (&[0, 1, 1, 2, 0, 1, 1, 2], 0, 0),
        (&[0, 255, 255, 255], 0, 0),
        (&[0, 1, 2, 2, 0, 1, 1, 2], 5, 0),
        (&[0, 1, 2, 2, 0, 1, 1, 2, 0, 0, 1, 1], 2, 3),
        (&[0, 1, 1], 1, 0),
        (&five, 1, 0),
        (&[0; 20], 1, 0),
    ];
    for (numbers, number, detail) in sheets {
        let reply = engine(numbers);
        same(&format!("{:?}", numbers), (reply.number, reply.detail), (number, detail))?;
    }
    Ok(())
}
