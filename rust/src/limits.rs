//! The limits that the library keeps. What passes one is refused.

/// The most items that a list has: 2,048. A longer list is refused with 1, and an insertion that would make one with 6.
pub const MOST_ITEMS: usize = 2_048;

/// The most bytes that a pool has: 65,536. A longer one is refused with 1.
pub const MOST_POOL_BYTES: usize = 65_536;

/// The most bytes that a key of an item or an invoice has: 255. A longer one is refused with 2. Keys that are only asked about are of any length.
pub const MOST_KEY_BYTES: usize = 255;

/// The most keys that an invoice has: 1,000. More are refused with 15.
pub const MOST_INVOICE_KEYS: usize = 1_000;

/// The bytes that a key has that names a position: 8. Another is refused with 7.
pub const POSITION_KEY_BYTES: usize = 8;

/// The most positions that a report tells one by one: 16. Its total counts all of them.
pub const MAX_REPORTED_POSITIONS: usize = 16;

/// The most bytes that the text of a report has: 394.
pub const MOST_REPORT_BYTES: usize = 394;

/// The most bytes that a row has in a sheet that is written: 1,045, for the longest name and two keys of 255 bytes.
pub const MOST_ROW_BYTES: usize = 1_045;
