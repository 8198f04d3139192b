//! Every number that document 01, or Change 1 or 5 of document 02, gives as a limit.

/// The margin of what cannot be missed.
pub const TOP: i64 = 4_000_000_000_000;

pub const MOST_CHANNELS: u64 = 8;
/// A channel's scale is 1 to this.
pub const MOST_SCALE: u64 = 1_000;
pub const MOST_SAMPLES: u64 = 4_096;
pub const LAST_TIME: u64 = 2_000_000_000;
/// Values and the ends of ranges lie between minus this and this.
pub const LARGEST_VALUE: i64 = 1_000_000_000;

pub const PREDICATES: usize = 16;
pub const MOST_NODES: usize = 64;
/// A window's ends, as they are written, go up to this.
pub const LARGEST_END: u64 = 1_000_000_000;
/// How a table writes a window's missing end.
pub const NO_END: u64 = 4_294_967_295;

pub const LARGEST_STEP: u64 = 1_000_000_000;
pub const LARGEST_DRIFT: u64 = 1_000_000_000;

/// The `req=` lines of a sheet.
pub const MOST_REQUIREMENTS: usize = 16;
pub const MOST_ENCLOSINGS: usize = 32;

pub const MOST_BYTES: usize = 65_536;
pub const MOST_DIGITS: usize = 10;
pub const LARGEST_UNSIGNED: u64 = 4_294_967_295;
pub const LARGEST_SIGNED: u64 = 2_147_483_647;

/// What the program has room for.
pub const PROGRAM_ROWS: usize = 2_048;
pub const PROGRAM_CELLS: usize = 8_192;
