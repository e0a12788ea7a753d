//! Names for places and numbers; client/include/caydubeesh.h has the same for C.

/// The slots of a block.
pub mod slot {
    /// K, mm/day; 0 is inactive.
    pub const K: usize = 0;
    /// Base, ticks.
    pub const BASE: usize = 1;
    /// Thickness, ticks.
    pub const THICKNESS: usize = 2;
    /// Porosity, per mille.
    pub const POROSITY: usize = 3;
    /// Leakance to the block above, 10⁻⁶ a day.
    pub const LEAKANCE: usize = 4;
    /// Recharge, µm/day.
    pub const RECHARGE: usize = 5;
    /// Pumpage, litres a day; positive is taken out.
    pub const PUMPAGE: usize = 6;
    /// Screen bottom, ticks.
    pub const SCREEN_BOTTOM: usize = 7;
    /// Screen top, ticks.
    pub const SCREEN_TOP: usize = 8;
    /// The boundary's kind.
    pub const KIND: usize = 9;
    /// River stage or sea floor, ticks.
    pub const LEVEL: usize = 10;
    /// Boundary leakance, 10⁻⁶ a day.
    pub const BOUNDARY_LEAKANCE: usize = 11;
    /// Old fresh head, ticks.
    pub const OLD_FRESH: usize = 12;
    /// Old salt head, ticks.
    pub const OLD_SALT: usize = 13;
    /// New fresh head, ticks.
    pub const NEW_FRESH: usize = 14;
    /// New salt head, ticks.
    pub const NEW_SALT: usize = 15;
}

/// The kinds of boundary.
pub mod kind {
    /// No boundary.
    pub const NONE: i64 = 0;
    /// A river with its stage, in the top layer only.
    pub const RIVER: i64 = 1;
    /// A sea with its floor, in the top layer only.
    pub const SEA: i64 = 2;
    /// The fresh head is fixed.
    pub const FIXED_FRESH: i64 = 3;
    /// The salt head is fixed.
    pub const FIXED_SALT: i64 = 4;
    /// Both heads are fixed.
    pub const BOTH_FIXED: i64 = 5;
}

/// The codes of a verdict.
pub mod code {
    /// The heads are accepted.
    pub const ACCEPTED: i64 = 0;
    /// The case was not judged: what stands for a verdict beside a refusal. [`crate::verdict`] never gives it.
    pub const NOT_JUDGED: i64 = 20;
    /// A fixed head moved from old to new.
    pub const HEAD_MOVED: i64 = 21;
    /// A well is dry.
    pub const DRY_WELL: i64 = 22;
    /// A balance of fresh water exceeds the tolerance.
    pub const FRESH_BALANCE: i64 = 23;
    /// A balance of salt water exceeds the tolerance.
    pub const SALT_BALANCE: i64 = 24;
}

/// The numbers of refusals; [`crate::words`] says in full when each is given.
pub mod refused {
    /// The file ends where a byte is still needed.
    pub const END: u64 = 1;
    /// A number is not in its shortest form.
    pub const FORM: u64 = 2;
    /// A count or the block total is out of range.
    pub const COUNT: u64 = 3;
    /// δ, a weight or the pair of weights, flag, step or tolerance is out of range.
    pub const TERM: u64 = 4;
    /// A width is out of range.
    pub const WIDTH: u64 = 5;
    /// A slot is out of range.
    pub const SLOT: u64 = 6;
    /// A lent slice is too short.
    pub const ROOM: u64 = 7;
    /// Bytes follow the last block.
    pub const BYTES_FOLLOW: u64 = 8;
    /// An active block reaches above the base of the one over it.
    pub const OVERLAP: u64 = 9;
    /// A conductance exceeds the limit.
    pub const CONDUCTANCE: u64 = 10;
    /// A mark is neither 0 nor 1.
    pub const MARK: u64 = 11;
    /// A double has no tick here, or a tick no exact double.
    pub const METRES: u64 = 12;
    /// A table is asked for with a dry well.
    pub const DRY_WELL: u64 = 13;
    /// A report names no active block.
    pub const NO_BLOCK: u64 = 14;
}
