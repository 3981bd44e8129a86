//! Sheets at the limits, found by search with the second program and stored with their counts.
//! `self` counts them again. Moving every arrival one tick later adds one live state and one row.

use crate::second::sheet::NUMBERS_A_JOB;

pub struct Found {
    pub what: &'static str,
    pub jobs: &'static [[u16; NUMBERS_A_JOB]],
    pub live: usize,
    /// 0 where the start is not safe.
    pub rows: usize,
}

impl Found {
    pub fn numbers(&self) -> Vec<u16> {
        self.jobs.concat()
    }

    pub fn one_tick_later(&self) -> Vec<u16> {
        let later = |job: &[u16; NUMBERS_A_JOB]| [job[0] + 1, job[1], job[2], job[3]];
        self.jobs.iter().flat_map(later).collect()
    }
}

/// One tick later each of them has 7,875 live states and is refused.
pub const MOST_LIVE: [Found; 10] = [
    Found { what: "1 job, most live", jobs: &[[4, 25, 41, 202]], live: 7_874, rows: 6_972 },
    Found {
        what: "2 jobs, most live",
        jobs: &[[67, 4, 4, 155], [30, 5, 20, 170]],
        live: 7_874,
        rows: 7_290,
    },
    Found {
        what: "3 jobs, most live, 128 blocks",
        jobs: &[[7, 1, 1, 224], [5, 1, 2, 229], [8, 1, 1, 225]],
        live: 7_874,
        rows: 7_830,
    },
    Found {
        what: "4 jobs, most live",
        jobs: &[[136, 6, 6, 59], [158, 2, 4, 67], [159, 2, 3, 93], [135, 1, 1, 103]],
        live: 7_874,
        rows: 7_185,
    },
    Found {
        what: "5 jobs, most live",
        jobs: &[[78, 3, 4, 56], [55, 4, 4, 47], [74, 1, 4, 64], [70, 1, 4, 67], [56, 1, 4, 25]],
        live: 7_874,
        rows: 6_405,
    },
    Found {
        what: "6 jobs, most live",
        jobs: &[
            [115, 1, 2, 31],
            [116, 3, 3, 41],
            [129, 1, 1, 52],
            [99, 2, 2, 32],
            [88, 1, 3, 47],
            [115, 1, 1, 47],
        ],
        live: 7_874,
        rows: 6_457,
    },
    Found {
        what: "7 jobs, most live",
        jobs: &[
            [83, 2, 2, 32],
            [95, 1, 2, 29],
            [90, 1, 2, 33],
            [113, 1, 2, 28],
            [97, 1, 1, 26],
            [86, 1, 1, 34],
            [119, 2, 2, 12],
        ],
        live: 7_874,
        rows: 6_400,
    },
    Found {
        what: "8 jobs, most live",
        jobs: &[
            [151, 2, 2, 19],
            [164, 1, 1, 5],
            [158, 1, 2, 27],
            [138, 1, 1, 29],
            [158, 1, 1, 15],
            [161, 1, 2, 20],
            [135, 1, 2, 9],
            [152, 1, 2, 16],
        ],
        live: 7_874,
        rows: 5_215,
    },
    Found {
        what: "3 jobs, most live, not safe",
        jobs: &[[66, 1, 58, 160], [214, 1, 2, 2], [214, 1, 2, 2]],
        live: 7_874,
        rows: 0,
    },
    Found {
        what: "5 jobs, most live, not safe",
        jobs: &[[85, 3, 3, 104], [65, 5, 8, 111], [40, 5, 8, 108], [175, 1, 2, 2], [175, 1, 2, 2]],
        live: 7_874,
        rows: 0,
    },
];

/// Row counts at the edges of blocks.
pub const BLOCK_EDGES: [Found; 7] = [
    Found { what: "62 rows, 2 blocks", jobs: &[[2, 1, 1, 11], [6, 1, 3, 4]], live: 89, rows: 62 },
    Found { what: "63 rows, 3 blocks", jobs: &[[7, 4, 4, 12]], live: 77, rows: 63 },
    Found {
        what: "124 rows, 3 blocks",
        jobs: &[[8, 2, 2, 5], [5, 3, 3, 8], [6, 1, 2, 11]],
        live: 256,
        rows: 124,
    },
    Found {
        what: "125 rows, 4 blocks",
        jobs: &[[10, 1, 4, 8], [8, 1, 2, 2], [10, 1, 3, 10], [9, 1, 1, 2]],
        live: 231,
        rows: 125,
    },
    Found {
        what: "7,812 rows, 127 blocks",
        jobs: &[[11, 1, 1, 226], [14, 1, 2, 224], [13, 1, 1, 226]],
        live: 7_863,
        rows: 7_812,
    },
    Found {
        what: "7,813 rows, 128 blocks",
        jobs: &[[12, 1, 1, 226], [15, 1, 2, 224], [14, 1, 1, 226]],
        live: 7_864,
        rows: 7_813,
    },
    Found {
        what: "7,832 rows, 128 blocks",
        jobs: &[[10, 2, 2, 226], [6, 1, 1, 227], [7, 1, 1, 227]],
        live: 7_873,
        rows: 7_832,
    },
];

/// A + D = 255: the tick at 255 leads to a late state that has no word.
pub const LATEST_DUE: [Found; 7] = [
    Found { what: "1 job at 254, due at 255", jobs: &[[254, 1, 1, 1]], live: 261, rows: 259 },
    Found { what: "1 job, due at 255", jobs: &[[0, 1, 1, 255]], live: 769, rows: 767 },
    Found {
        what: "2 jobs, both due at 255, no tick to spare",
        jobs: &[[250, 1, 3, 5], [251, 1, 2, 4]],
        live: 322,
        rows: 271,
    },
    Found {
        what: "8 jobs, all due at 255",
        jobs: &[
            [247, 1, 1, 8],
            [248, 1, 1, 7],
            [249, 1, 1, 6],
            [250, 1, 1, 5],
            [251, 1, 1, 4],
            [252, 1, 1, 3],
            [253, 1, 1, 2],
            [254, 1, 1, 1],
        ],
        live: 4_533,
        rows: 287,
    },
    Found {
        what: "2 jobs, most live, due at 255",
        jobs: &[[49, 7, 19, 206], [77, 8, 10, 92]],
        live: 7_874,
        rows: 7_145,
    },
    Found {
        what: "3 jobs, most live, due at 255",
        jobs: &[[106, 3, 8, 149], [91, 2, 5, 81], [54, 4, 4, 157]],
        live: 7_874,
        rows: 7_418,
    },
    Found {
        what: "4 jobs, most live, due at 255",
        jobs: &[[165, 2, 2, 90], [121, 2, 3, 94], [136, 2, 5, 66], [151, 2, 3, 79]],
        live: 7_874,
        rows: 7_303,
    },
];

/// All of them.
pub fn all() -> Vec<&'static Found> {
    MOST_LIVE.iter().chain(&BLOCK_EDGES).chain(&LATEST_DUE).collect()
}
