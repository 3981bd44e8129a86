//! Rows at and just past each clause of a row's good form, worked by hand, and files that hold
//! one such row.

use crate::second::file::{write, SLOTS};
use crate::second::form::{row_good, Table};
use crate::second::sheet::{Job, Sheet};
use crate::second::state::State;
use crate::second::table::{Row, TICK_HELD, TICK_NONE, TICK_OPEN};

/// Three jobs, due at 9, 9 and 12. Statuses past the third job must be 0.
const JOBS: [Job; 3] = [Job::new(0, 2, 4, 9), Job::new(3, 1, 2, 6), Job::new(5, 2, 3, 7)];

/// One job that comes at 254 and is due at 255, the last tick that a word can hold.
const LAST_TICK: [Job; 1] = [Job::new(254, 1, 1, 1)];

/// Two jobs that can not both be done at tick 2. A row's form does not ask how they came to be.
const TOGETHER: [Job; 3] = [Job::new(0, 2, 2, 9), Job::new(0, 2, 2, 9), Job::new(0, 1, 1, 9)];

pub struct RowCase {
    pub clause: &'static str,
    pub sheet: Sheet,
    pub row: Row,
    pub good: bool,
}

/// Now, elapsed, the statuses from job 1 on, starts, tick code, and whether this is good form.
type Written = (&'static str, u32, u32, &'static [u8], u8, u8, bool);

const NONE: u8 = TICK_NONE;
const OPEN: u8 = TICK_OPEN;
const HELD: u8 = TICK_HELD;

const WORDS: [Written; 45] = [
    ("finished", 0, 0, &[3, 3, 3], 0, OPEN, true),
    ("all done at tick 1", 1, 0, &[3, 3, 3], 0, OPEN, false),
    ("all done at tick 9", 9, 0, &[3, 3, 3], 0, OPEN, false),
    ("all done with elapsed 1", 0, 1, &[3, 3, 3], 0, OPEN, false),
    ("finished and a job past the last done", 0, 0, &[3, 3, 3, 3], 0, OPEN, false),
    ("two jobs run", 4, 1, &[2, 2, 0], 0, OPEN, false),
    ("two jobs run with elapsed 0", 3, 0, &[2, 2, 0], 0, OPEN, false),
    ("three jobs run", 6, 1, &[2, 2, 2], 0, OPEN, false),
    ("elapsed 0 where none runs", 4, 0, &[1, 1, 0], 0, OPEN, true),
    ("elapsed 1 where none runs", 4, 1, &[1, 1, 0], 0, OPEN, false),
    ("elapsed 255 where none runs", 4, 255, &[1, 1, 0], 0, OPEN, false),
    ("elapsed at most ticks", 4, 4, &[2, 1, 0], 0, NONE, true),
    ("elapsed above most ticks", 6, 5, &[2, 1, 1], 0, OPEN, false),
    ("elapsed at now less arrival", 3, 3, &[2, 0, 0], 0, NONE, true),
    ("elapsed above now less arrival", 2, 3, &[2, 0, 0], 0, OPEN, false),
    ("elapsed at now less the running job's arrival", 5, 2, &[1, 2, 0], 0, NONE, true),
    ("elapsed above now less the running job's arrival", 4, 2, &[1, 2, 0], 0, NONE, false),
    ("status 0 before arrival", 2, 0, &[1, 0, 0], 0, OPEN, true),
    ("status 0 at arrival", 3, 0, &[1, 0, 0], 0, NONE, true),
    ("status 0 after arrival", 4, 0, &[1, 0, 0], 0, OPEN, false),
    ("job 3 at status 0 after arrival", 6, 0, &[1, 1, 0], 0, OPEN, false),
    ("status 1 at arrival", 3, 0, &[1, 1, 0], 0, OPEN, true),
    ("status 1 before arrival", 2, 0, &[1, 1, 0], 0, OPEN, false),
    ("job 3 at status 1 before arrival", 4, 0, &[1, 1, 1], 0, OPEN, false),
    ("status 2 at arrival", 3, 0, &[1, 2, 0], 0, OPEN, true),
    ("status 2 before arrival", 2, 0, &[1, 2, 0], 0, OPEN, false),
    ("status 3 at arrival and fewest", 4, 0, &[1, 3, 0], 0, OPEN, true),
    ("status 3 one tick sooner", 3, 0, &[1, 3, 0], 0, OPEN, false),
    ("status 3 before arrival", 2, 0, &[1, 3, 0], 0, OPEN, false),
    ("job 1 at status 3, arrival and fewest", 2, 0, &[3, 0, 0], 0, OPEN, true),
    ("job 1 at status 3 one tick sooner", 1, 0, &[3, 0, 0], 0, OPEN, false),
    ("job 4 of 3 at status 1", 4, 0, &[1, 1, 0, 1], 0, OPEN, false),
    ("job 4 of 3 at status 2", 4, 0, &[1, 1, 0, 2], 0, OPEN, false),
    ("job 4 of 3 at status 3", 4, 0, &[1, 1, 0, 3], 0, OPEN, false),
    ("job 8 of 3 at status 1", 4, 0, &[1, 1, 0, 0, 0, 0, 0, 1], 0, OPEN, false),
    ("job 8 of 3 at status 3", 4, 0, &[1, 1, 0, 0, 0, 0, 0, 3], 0, OPEN, false),
    ("ready at its due tick", 9, 0, &[1, 3, 3], 1, HELD, true),
    ("ready one tick past its due tick", 10, 0, &[1, 3, 3], 1, HELD, false),
    ("running at its due tick", 9, 4, &[2, 3, 3], 0, NONE, true),
    ("running one tick past its due tick", 10, 4, &[2, 3, 3], 0, NONE, false),
    ("job 2 ready at its due tick", 9, 0, &[3, 1, 1], 2, HELD, true),
    ("job 2 ready one tick past its due tick", 10, 0, &[3, 1, 1], 2, HELD, false),
    ("job 3 ready at its due tick", 12, 0, &[3, 3, 1], 4, HELD, true),
    ("job 3 ready one tick past its due tick", 13, 0, &[3, 3, 1], 4, HELD, false),
    ("done long past its due tick", 12, 3, &[3, 3, 2], 0, NONE, true),
];

const MARKS: [Written; 55] = [
    ("no start, open", 3, 0, &[1, 1, 0], 0, OPEN, true),
    ("start of 1, open", 3, 0, &[1, 1, 0], 1, OPEN, true),
    ("start of 2, open", 3, 0, &[1, 1, 0], 2, OPEN, true),
    ("both starts, open", 3, 0, &[1, 1, 0], 3, OPEN, true),
    ("both starts, held though the tick is fine", 3, 0, &[1, 1, 0], 3, HELD, true),
    ("held with no start", 3, 0, &[1, 1, 0], 0, HELD, false),
    ("start of 3 ready jobs", 6, 0, &[1, 1, 1], 7, OPEN, true),
    ("start of a job not arrived", 0, 0, &[1, 0, 0], 2, OPEN, false),
    ("start of a pending job", 3, 0, &[1, 0, 0], 2, NONE, false),
    ("start of a running job", 3, 0, &[2, 1, 0], 1, OPEN, false),
    ("start of a ready job while another runs", 3, 0, &[2, 1, 0], 2, OPEN, false),
    ("start of a ready job while another must end", 4, 4, &[2, 1, 0], 2, NONE, false),
    ("held by a start while another runs", 3, 0, &[2, 1, 0], 2, HELD, false),
    ("start of a done job", 4, 0, &[1, 3, 0], 2, OPEN, false),
    ("start of job 4 of 3", 3, 0, &[1, 1, 0], 8, OPEN, false),
    ("start of job 8 of 3", 3, 0, &[1, 1, 0], 128, OPEN, false),
    ("every start", 6, 0, &[1, 1, 1], 255, OPEN, false),
    ("held by the start of a job not arrived", 0, 0, &[1, 0, 0], 2, HELD, false),
    ("start before a pending arrival", 3, 0, &[1, 0, 0], 1, NONE, false),
    ("starts of two before a pending arrival", 5, 0, &[1, 1, 0], 3, NONE, false),
    ("start after the last arrival of a tick", 5, 0, &[1, 1, 1], 1, OPEN, true),
    ("start one tick before an arrival", 4, 0, &[1, 1, 0], 1, OPEN, true),
    ("code 0 where the tick is possible", 0, 0, &[1, 0, 0], 0, NONE, false),
    ("code 0 with a start where the tick is possible", 0, 0, &[1, 0, 0], 1, NONE, false),
    ("code 0 while one runs", 4, 1, &[2, 1, 0], 0, NONE, false),
    ("code 1 while one runs", 4, 1, &[2, 1, 0], 0, OPEN, true),
    ("code 1 where an arrival is pending", 3, 0, &[1, 0, 0], 0, OPEN, false),
    ("code 2 where an arrival is pending", 3, 0, &[1, 0, 0], 1, HELD, false),
    ("code 1 where an arrival is pending while one runs", 3, 1, &[2, 0, 0], 0, OPEN, false),
    ("code 1 where the running job must end", 4, 4, &[2, 1, 0], 0, OPEN, false),
    ("code 2 where the running job must end", 4, 4, &[2, 1, 0], 0, HELD, false),
    ("code 1 one tick before the running job must end", 4, 3, &[2, 1, 0], 0, OPEN, true),
    ("code 3 where the tick is possible", 3, 0, &[1, 1, 0], 3, 3, false),
    ("code 4 where the tick is possible", 3, 0, &[1, 1, 0], 3, 4, false),
    ("code 129 where the tick is possible", 3, 0, &[1, 1, 0], 3, 129, false),
    ("code 255 where the tick is possible", 3, 0, &[1, 1, 0], 3, 255, false),
    ("code 3 where it is not possible", 3, 0, &[1, 0, 0], 0, 3, false),
    ("code 128 where it is not possible", 3, 0, &[1, 0, 0], 0, 128, false),
    ("code 255 where it is not possible", 3, 0, &[1, 0, 0], 0, 255, false),
    ("open one tick before the due tick", 8, 0, &[1, 3, 3], 0, OPEN, true),
    ("open at a ready job's due tick", 9, 0, &[1, 3, 3], 0, OPEN, false),
    ("open with a start at a ready job's due tick", 9, 0, &[1, 3, 3], 1, OPEN, false),
    ("open at a running job's due tick", 9, 1, &[2, 3, 3], 0, OPEN, false),
    ("held at a running job's due tick", 9, 1, &[2, 3, 3], 0, HELD, false),
    ("code 0 at a running job's due tick", 9, 1, &[2, 3, 3], 0, NONE, false),
    ("open at a waiting job's due tick while another runs", 9, 1, &[3, 1, 2], 0, OPEN, false),
    ("held by another job's start at the due tick", 9, 0, &[1, 3, 1], 4, HELD, true),
    ("finished with code 0", 0, 0, &[3, 3, 3], 0, NONE, false),
    ("finished with code 2", 0, 0, &[3, 3, 3], 0, HELD, false),
    ("finished with code 3", 0, 0, &[3, 3, 3], 0, 3, false),
    ("finished with a start", 0, 0, &[3, 3, 3], 1, OPEN, false),
    ("finished with a start and code 2", 0, 0, &[3, 3, 3], 1, HELD, false),
    ("the start state with code 1 and an arrival pending", 0, 0, &[], 0, OPEN, false),
    ("the start state with a start", 0, 0, &[], 1, NONE, false),
    ("the start state with code 2", 0, 0, &[], 1, HELD, false),
];

const AT_255: [Written; 6] = [
    ("ready at 255, held", 255, 0, &[1], 1, HELD, true),
    ("ready at 255, open: the tick leads to 256", 255, 0, &[1], 1, OPEN, false),
    ("ready at 255, open without a start", 255, 0, &[1], 0, OPEN, false),
    ("must end at 255", 255, 1, &[2], 0, NONE, true),
    ("started at 255, open", 255, 0, &[2], 0, OPEN, false),
    ("started at 255, code 0", 255, 0, &[2], 0, NONE, false),
];

const NEVER_MET: [Written; 2] = [
    ("two jobs done that never had the time", 2, 0, &[3, 3, 1], 0, OPEN, true),
    ("one of them a tick too soon", 1, 0, &[3, 1, 1], 0, OPEN, false),
];

pub fn all() -> Vec<RowCase> {
    let mut cases: Vec<RowCase> = WORDS.iter().map(|written| case(&JOBS, written)).collect();
    cases.extend(MARKS.iter().map(|written| case(&JOBS, written)));
    cases.extend(NEVER_MET.iter().map(|written| case(&TOGETHER, written)));
    cases.extend(AT_255.iter().map(|written| case(&LAST_TICK, written)));
    cases
}

fn case(jobs: &[Job], written: &Written) -> RowCase {
    let &(clause, now, elapsed, from_job_1, starts, tick, good) = written;
    let mut statuses = [0; 8];
    statuses[..from_job_1.len()].copy_from_slice(from_job_1);
    let word = State { now, elapsed, statuses }.word();
    RowCase { clause, sheet: Sheet::new(jobs), row: Row { word, starts, tick }, good }
}

impl RowCase {
    /// The start's row and this one and nothing else.
    pub fn alone(&self) -> Vec<u8> {
        write(&self.sheet, &placed(vec![start_row(&self.sheet)], self.row).0)
    }

    /// Among the rows of a table of the same sheet, and the block in which the row stands.
    pub fn among(&self, table: &Table) -> (Vec<u8>, u32) {
        let (rows, place) = placed(table.rows.clone(), self.row);
        (write(&self.sheet, &rows), (1 + place / SLOTS) as u32)
    }
}

/// The rows with this one at its place; it stands instead of one with the same word.
fn placed(mut rows: Vec<Row>, row: Row) -> (Vec<Row>, usize) {
    rows.retain(|other| other.word != row.word);
    let place = rows.iter().filter(|other| other.word < row.word).count();
    rows.insert(place, row);
    (rows, place)
}

/// The start's row as any file of good form has it: no job is ready, so no start.
pub fn start_row(sheet: &Sheet) -> Row {
    let open = Row { word: 0, starts: 0, tick: TICK_OPEN };
    if row_good(sheet, &open) {
        open
    } else {
        Row { tick: TICK_NONE, ..open }
    }
}
