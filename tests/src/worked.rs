//! The second program against the sheets worked by hand.

use crate::replies::{LeewayReply, MakeReply, RowReply};
use crate::second::calls::{leeway, make, row, table_of, MANY_LIVE, WORK_WORDS};
use crate::second::file::{check, write, BLOCK_BYTES};
use crate::second::form::Table;
use crate::second::sheet::{Job, Sheet};
use crate::second::state::State;
use crate::second::table::{Live, Row, MOST_LIVE, TICK_HELD, TICK_NONE, TICK_OPEN};
use crate::second::text;
use crate::tally::{same, test, Outcome};

pub const S1: [u16; 4] = [0, 1, 1, 1];
pub const S2: [u16; 8] = [0, 2, 4, 7, 1, 1, 2, 4];

/// The sheets worked by hand, good and refused.
pub const WORKED: [&[u16]; 7] = [
    &S1,
    &S2,
    &[0, 1, 2, 2, 0, 1, 1, 2],
    &[0, 1, 1, 2, 0, 1, 1, 2],
    &[0, 255, 255, 255],
    &[1, 255, 255, 255],
    &[0, 0, 1, 1],
];

/// Now, elapsed and the statuses of jobs 1 and 2 of the 20 states that source document 000 lists
/// as safe for S2 (its example, the set after the last iteration).
const STATES_OF_000: [(u32, u32, u8, u8); 20] = [
    (0, 0, 0, 0),
    (0, 0, 1, 0),
    (1, 0, 1, 0),
    (1, 0, 1, 1),
    (1, 0, 1, 2),
    (2, 1, 1, 2),
    (3, 2, 1, 2),
    (2, 0, 1, 3),
    (3, 0, 1, 3),
    (2, 0, 2, 3),
    (3, 0, 2, 3),
    (3, 1, 2, 3),
    (4, 1, 2, 3),
    (4, 2, 2, 3),
    (5, 2, 2, 3),
    (5, 3, 2, 3),
    (6, 3, 2, 3),
    (6, 4, 2, 3),
    (7, 4, 2, 3),
    (0, 0, 3, 3),
];

pub fn run() {
    test("sheet 1: S1 has 5 rows with these words and 7 live states", sheet_1());
    test("sheet 2: S1's block 0 has check 277", sheet_2());
    test("sheet 3: S2 has 20 rows, the states of 000", sheet_3());
    test("sheet 4: S2, word 1: no start, tick open", marks_of_s2(1, 0, TICK_OPEN));
    test("sheet 5: S2, word 16777221: job 2, held", marks_of_s2(16_777_221, 2, TICK_HELD));
    test("sheet 6: S2, word 33554445: job 1 or the tick", marks_of_s2(33_554_445, 1, TICK_OPEN));
    test("sheet 7: S2, word 50331661: job 1, held, leeway 0", sheet_7());
    test("sheet 8: a lucky run is not enough: refusal 5", refused(&[0, 1, 2, 2, 0, 1, 1, 2], 5, 0));
    test("sheet 9: (0,1,1,2) twice has 15 rows", sheet_9());
    test("sheet 10: S2, word 117702670: tick none", marks_of_s2(117_702_670, 0, TICK_NONE));
    test("sheet 11: (0,255,255,255) is of good form", sheet_11());
    test("sheet 11: (1,255,255,255) is refusal 2, detail 1", refused(&[1, 255, 255, 255], 2, 1));
    test("sheet 11: (0,0,1,1) is refusal 2, detail 1", refused(&[0, 0, 1, 1], 2, 1));
    test("sheet 12: output of 1,023 and of 1,024 bytes for S1", sheet_12());
    test("sheet 13: leeway −1 in a foreign file for S1", sheet_13());
    test("the printing program's example", example());
    test("the printing program's refusals", text_refusals());
}

fn made(numbers: &[u16]) -> Result<Table, String> {
    table_of(numbers).map_err(|refusal| format!("refused {:?}", refusal))
}

fn file_of(numbers: &[u16]) -> Result<Vec<u8>, String> {
    made(numbers).map(|table| write(&table.sheet, &table.rows))
}

fn refused(numbers: &[u16], number: u32, detail: u32) -> Outcome {
    let reply = make(numbers, &mut [0; WORK_WORDS], &mut [0; 65_536]);
    same("the reply", reply, MakeReply { number, detail, length: 0 })
}

fn sheet_1() -> Outcome {
    let words: Vec<u32> = made(&S1)?.rows.iter().map(|row| row.word).collect();
    same("the list of words", words, vec![0, 1, 2, 3, 16_842_754])?;
    let live = Live::of_sheet(&Sheet::new(&[Job::new(0, 1, 1, 1)]), MOST_LIVE);
    same("the live count", live.map(|live| live.count()), Some(7))
}

fn sheet_2() -> Outcome {
    same("the check", check(&file_of(&S1)?[..BLOCK_BYTES]), 277)
}

fn sheet_3() -> Outcome {
    let mut words: Vec<u32> = STATES_OF_000.iter().map(word_of_000).collect();
    words.sort_unstable();
    let rows: Vec<u32> = made(&S2)?.rows.iter().map(|row| row.word).collect();
    same("the list of words", rows, words)
}

fn word_of_000(state: &(u32, u32, u8, u8)) -> u32 {
    let statuses = [state.2, state.3, 0, 0, 0, 0, 0, 0];
    State { now: state.0, elapsed: state.1, statuses }.word()
}

fn marks_of_s2(word: u32, starts: u8, tick: u8) -> Outcome {
    let wanted = RowReply { number: 0, detail: 0, starts, tick };
    same("the row", row(&file_of(&S2)?, word), wanted)
}

fn sheet_7() -> Outcome {
    marks_of_s2(50_331_661, 1, TICK_HELD)?;
    same("the leeway", leeway(&file_of(&S2)?, 50_331_661, 1), LeewayReply::default())
}

fn sheet_9() -> Outcome {
    same("the number of rows", made(&[0, 1, 1, 2, 0, 1, 1, 2])?.rows.len(), 15)
}

/// Good form, though it has too many live states.
fn sheet_11() -> Outcome {
    same("good form", Job::new(0, 255, 255, 255).good_form(), true)?;
    refused(&[0, 255, 255, 255], MANY_LIVE, 0)
}

fn sheet_12() -> Outcome {
    let mut work = [7; WORK_WORDS];
    let short = make(&S1, &mut work, &mut [9; 1_023]);
    same("the short reply", short, MakeReply { number: 6, detail: 1_024, length: 0 })?;
    let done = make(&S1, &mut work, &mut [9; 1_024]);
    same("the reply", done, MakeReply { number: 0, detail: 0, length: 1_024 })
}

fn sheet_13() -> Outcome {
    let mut table = made(&S1)?;
    table.rows.push(Row { word: 16_777_217, starts: 1, tick: TICK_HELD });
    table.rows.sort_by_key(|row| row.word);
    let file = write(&table.sheet, &table.rows);
    let wanted = LeewayReply { number: 0, detail: 0, leeway: -1 };
    same("the leeway", leeway(&file, 16_777_217, 1), wanted)
}

fn example() -> Outcome {
    let wanted = "jobs 1 states 5\n0 0 0 - none\n0 0 1 1 held\n0 0 2 - open\n0 0 3 - open\n\
                  1 1 2 - none\n";
    same("the text", as_text(b"0 1 1 1\n"), wanted.to_string())
}

fn text_refusals() -> Outcome {
    let cases: [(&[u8], &str); 8] = [
        (b"", "refused 1 0\n"),
        (b"0 1 1 1", "refused 1 0\n"),
        (b"0 1 1 1\n\n", "refused 1 0\n"),
        (b"0 1  1 1\n", "refused 1 0\n"),
        (b"0 1 1 0001\n", "refused 1 0\n"),
        (b"0 1 1 1\n0 1 1 256\n", "refused 2 2\n"),
        (b"0 1 2 2\n0 1 1 2\n", "refused 5 0\n"),
        (b"0 255 255 255\n", "refused 4 0\n"),
    ];
    for (text, wanted) in cases {
        same("the text", as_text(text), wanted.to_string())?;
    }
    same("the text with leading zeros", as_text(b"000 01 1 001\n"), as_text(b"0 1 1 1\n"))
}

fn as_text(text: &[u8]) -> String {
    String::from_utf8_lossy(&text::print(text)).into_owned()
}
