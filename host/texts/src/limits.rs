//! The limits of document 01.

pub const TEXT_BYTES: usize = 65_536;
pub const NAME_BYTES: usize = 64;
pub const TABLES: usize = 32;
pub const COLUMNS: usize = 64;
pub const FROM_TABLES: usize = 16;
pub const EXPRESSIONS: usize = 512;
pub const DEPTH: usize = 32;
pub const ITEMS: usize = 64;
pub const GROUPS: usize = 64;
pub const ORDER_KEYS: usize = 64;
pub const INSERTED_NAMES: usize = 64;
pub const SETS: usize = 64;
pub const ROWS: usize = 256;
/// Columns in any scope, and items after star expansion.
pub const SCOPE_COLUMNS: usize = 256;
