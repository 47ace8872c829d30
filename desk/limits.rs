//! The limits of document 01, for the sentences that name them. Whether one is passed is for the library to say.

pub const TEXT_BYTES: usize = 32_768;
pub const LINE_BYTES: usize = 1_024;
pub const NAME_BYTES: usize = 16;
pub const PREDICATES: usize = 32;
pub const CLAIMS: usize = 16;
pub const RULES: usize = 64;
pub const SUBGOALS: usize = 8;
pub const VARIABLES: usize = 16;
pub const HIGHEST_ARITY: i64 = 8;
pub const HIGHEST_SYMBOL_ARITY: usize = 9;
pub const HIGHEST_NUMBER: i64 = 9_999;
pub const HIGHEST_SIZE: i64 = 65_535;
