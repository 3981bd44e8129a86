//! The product's calls through its C interface, on memory lent between guard pages.

use crate::guarded::Lent;
use crate::replies::{
    Desk, EngineReply, LeewayReply, ListingReply, MakeReply, RowReply, StepReply,
};

extern "C" {
    fn smirrado_make(
        sheet: *const u16,
        count: usize,
        work: *mut u32,
        words: usize,
        out: *mut u8,
        bytes: usize,
    ) -> MakeReply;
    fn smirrado_row(file: *const u8, bytes: usize, word: u32) -> RowReply;
    fn smirrado_row_quick(file: *const u8, bytes: usize, word: u32) -> RowReply;
    fn smirrado_listing(file: *const u8, bytes: usize, row_number: u32) -> ListingReply;
    fn smirrado_leeway(file: *const u8, bytes: usize, word: u32, job: u32) -> LeewayReply;
    fn smirrado_step(file: *const u8, bytes: usize, desk: *mut Desk, event: u8) -> StepReply;
    fn smirrado_engine(sheet: *const u16, count: usize) -> EngineReply;
}

// SAFETY of all calls: each slice is lent with its own pointer and count, and stays lent during
// the call.

pub fn make(sheet: &Lent<u16>, work: &Lent<u32>, out: &Lent<u8>) -> MakeReply {
    let (words, bytes) = (work.count(), out.count());
    unsafe {
        smirrado_make(sheet.pointer(), sheet.count(), work.pointer(), words, out.pointer(), bytes)
    }
}

pub fn row(file: &Lent<u8>, word: u32) -> RowReply {
    unsafe { smirrado_row(file.pointer(), file.count(), word) }
}

pub fn row_quick(file: &Lent<u8>, word: u32) -> RowReply {
    unsafe { smirrado_row_quick(file.pointer(), file.count(), word) }
}

pub fn listing(file: &Lent<u8>, row_number: u32) -> ListingReply {
    unsafe { smirrado_listing(file.pointer(), file.count(), row_number) }
}

pub fn leeway(file: &Lent<u8>, word: u32, job: u32) -> LeewayReply {
    unsafe { smirrado_leeway(file.pointer(), file.count(), word, job) }
}

/// The desk is brought up to date in place.
pub fn step(file: &Lent<u8>, desk: &Lent<Desk>, event: u8) -> StepReply {
    assert!(desk.count() == 1, "one desk");
    unsafe { smirrado_step(file.pointer(), file.count(), desk.pointer(), event) }
}

pub fn engine(sheet: &Lent<u16>) -> EngineReply {
    unsafe { smirrado_engine(sheet.pointer(), sheet.count()) }
}
