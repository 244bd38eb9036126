//! The numbers document 01 fixes.

/// "Time is counted in ticks from 0 to 1,099,511,627,776 (2 to the 40th)."
pub const LAST_TICK: u64 = 1 << 40;

/// "A tick has 1,000 grains."
pub const GRAINS_PER_TICK: u64 = 1_000;

/// "Cores: 1 to 16."
pub const MOST_CORES: u64 = 16;

/// "Task slots: 64, numbered 0 to 63."
pub const SLOTS: usize = 64;

/// "64 rows by slice and 64 columns by slot."
pub const ROWS: usize = 64;

/// "The share table is lent: 4,096 words of 32 bits."
pub const SHARE_WORDS: usize = ROWS * SLOTS;

/// "A task has a period of 1 to 60,000 ticks."
pub const LONGEST_PERIOD: u64 = 60_000;

/// "Each segment is four words: core, slot, first grain, grain after the last."
pub const WORDS_PER_SEGMENT: usize = 4;

/// Refusal 12: "segment buffer under 320 words".
pub const SEGMENT_BUFFER_WORDS: usize = 320;
