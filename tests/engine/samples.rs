//! The samples: what engines of job 1 send.

/// Rank 0 sends 1, 2, 3 as INT32 with tag 7 to rank 1, in frame 0.
pub(crate) const MESSAGE: [u8; 64] = [
    0x4d, 0x50, 0x55, 0x44, 2, 1, 0, 0, 0, 1, 0, 0, 0, 0, 0, 32, 0, 0, 0, 0, 0, 0, 0, 1, 0, 0, 0,
    0, 0, 0, 0, 0, 1, 0, 3, 0, 0, 0, 0, 7, 0, 0, 0, 0, 0, 0, 0, 0, 0, 0, 0, 3, 0, 0, 0, 1, 0, 0, 0,
    2, 0, 0, 0, 3,
];

/// Rank 1 acknowledges frame 0 of rank 0.
pub(crate) const ACKNOWLEDGEMENT: [u8; 40] = [
    0x4d, 0x50, 0x55, 0x44, 2, 2, 0, 1, 0, 0, 0, 0, 0, 0, 0, 8, 0, 0, 0, 0, 0, 0, 0, 1, 0, 0, 0, 0,
    0, 0, 0, 1, 0, 0, 0, 0, 0, 0, 0, 0,
];

/// Rank 1, started anew, tells the first incarnation of rank 0 who it now is.
pub(crate) const RESET: [u8; 32] = [
    0x4d, 0x50, 0x55, 0x44, 2, 3, 0, 1, 0, 0, 0, 1, 0, 0, 0, 0, 0, 0, 0, 0, 0, 0, 0, 1, 0, 0, 0, 0,
    0, 0, 0, 0,
];
