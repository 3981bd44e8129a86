//! Sheets 10 to 13 worked by hand, asked of the product, against the answers as they were worked.

use super::Group;
use crate::guarded::{Lent, Placement};
use crate::library;
use crate::replies::{LeewayReply, MakeReply, RowReply};
use crate::second::calls::{table_of, MANY_LIVE, WORK_WORDS};
use crate::second::file::write;
use crate::second::table::{Row, TICK_HELD, TICK_NONE};
use crate::worked::{S1, S2};

const PLACEMENT: Placement = Placement::EndsAtGuard;

pub fn run() {
    let mut group = Group::new("sheets 10 to 13 as worked by hand");
    elapsed_most(&mut group);
    good_form(&mut group);
    short_output(&mut group);
    too_late(&mut group);
    group.close();
}

fn make(numbers: &[u16], bytes: usize) -> (MakeReply, Vec<u8>) {
    let sheet = Lent::shared(numbers, PLACEMENT);
    let work = Lent::copy_of(&[0; WORK_WORDS], PLACEMENT);
    let out = Lent::copy_of(&vec![0; bytes], PLACEMENT);
    let reply = library::make(&sheet, &work, &out);
    (reply, out.items()[..reply.length as usize].to_vec())
}

fn made(number: u32, detail: u32, length: u32) -> MakeReply {
    MakeReply { number, detail, length }
}

/// Sheet 10.
fn elapsed_most(group: &mut Group) {
    group.next_case();
    let (_, file) = make(&S2, 65_536);
    let row = library::row(&Lent::shared(&file, PLACEMENT), 117_702_670);
    let wanted = RowReply { number: 0, detail: 0, starts: 0, tick: TICK_NONE };
    group.same(&|| "S2, word 117702670".to_string(), "the row", row, wanted);
}

/// Sheet 11: the first has too many live states, and is of good form.
fn good_form(group: &mut Group) {
    let sheets =
        [([0, 255, 255, 255], MANY_LIVE, 0), ([1, 255, 255, 255], 2, 1), ([0, 0, 1, 1], 2, 1)];
    for (numbers, number, detail) in sheets {
        group.next_case();
        let reply = make(&numbers, 65_536).0;
        group.same(&|| format!("{:?}", numbers), "the reply", reply, made(number, detail, 0));
    }
}

/// Sheet 12.
fn short_output(group: &mut Group) {
    for (bytes, wanted) in [(1_023, made(6, 1_024, 0)), (1_024, made(0, 0, 1_024))] {
        group.next_case();
        let reply = make(&S1, bytes).0;
        group.same(&|| format!("S1, output of {} bytes", bytes), "the reply", reply, wanted);
    }
}

/// Sheet 13.
fn too_late(group: &mut Group) {
    group.next_case();
    let mut table = table_of(&S1).expect("S1 has a table");
    table.rows.push(Row { word: 16_777_217, starts: 1, tick: TICK_HELD });
    table.rows.sort_by_key(|row| row.word);
    let file = write(&table.sheet, &table.rows);
    let leeway = library::leeway(&Lent::shared(&file, PLACEMENT), 16_777_217, 1);
    let wanted = LeewayReply { number: 0, detail: 0, leeway: -1 };
    group.same(&|| "S1 with word 16777217".to_string(), "the leeway", leeway, wanted);
}
