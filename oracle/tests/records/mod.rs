//! Records of books, byte for byte.

/// A live record of the word 1000 with the stock number 1.
pub const KA: [u8; 8] = [0x4D, 0x57, 1, 1, 0, 0, 0, 0x00];

/// The same record, removed.
pub const REMOVED_KA: [u8; 8] = [0x4D, 0x2D, 1, 1, 0, 0, 0, 0x00];

/// A live record of the word 1001 with the stock number 2.
pub const KHA: [u8; 8] = [0x4D, 0x57, 1, 2, 0, 0, 0, 0x01];

/// The same record, removed.
pub const REMOVED_KHA: [u8; 8] = [0x4D, 0x2D, 1, 2, 0, 0, 0, 0x01];

/// A live record of the word 1000 102C with the stock number 4030201 (hexadecimal).
pub const KAA: [u8; 9] = [0x4D, 0x57, 2, 1, 2, 3, 4, 0x00, 0x2C];

/// The same record, removed.
pub const REMOVED_KAA: [u8; 9] = [0x4D, 0x2D, 2, 1, 2, 3, 4, 0x00, 0x2C];
