//! Replies and the desk, laid out as the C interface has them. The second program answers with
//! the same records, so that two replies are compared field by field.

/// On a refusal every result field is 0.
#[repr(C)]
#[derive(Clone, Copy, Debug, Default, PartialEq, Eq)]
pub struct MakeReply {
    pub number: u32,
    pub detail: u32,
    pub length: u32,
}

#[repr(C)]
#[derive(Clone, Copy, Debug, Default, PartialEq, Eq)]
pub struct RowReply {
    pub number: u32,
    pub detail: u32,
    pub starts: u8,
    pub tick: u8,
}

/// `numbers` holds A, B, W, D job after job, 0 past the last job.
#[repr(C)]
#[derive(Clone, Copy, Debug, Default, PartialEq, Eq)]
pub struct ListingReply {
    pub number: u32,
    pub detail: u32,
    pub jobs: u32,
    pub rows: u32,
    pub numbers: [u16; 32],
    pub word: u32,
    pub starts: u8,
    pub tick: u8,
}

#[repr(C)]
#[derive(Clone, Copy, Debug, Default, PartialEq, Eq)]
pub struct LeewayReply {
    pub number: u32,
    pub detail: u32,
    pub leeway: i32,
}

#[repr(C)]
#[derive(Clone, Copy, Debug, Default, PartialEq, Eq)]
pub struct StepReply {
    pub number: u32,
    pub detail: u32,
}

#[repr(C)]
#[derive(Clone, Copy, Debug, Default, PartialEq, Eq)]
pub struct EngineReply {
    pub number: u32,
    pub detail: u32,
}

/// The caller's record of the state: a byte each for now, elapsed and the eight statuses.
#[repr(C)]
#[derive(Clone, Copy, Debug, Default, PartialEq, Eq)]
pub struct Desk {
    pub now: u8,
    pub elapsed: u8,
    pub statuses: [u8; 8],
}
