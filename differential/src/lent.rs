//! What is lent to a call, with a margin on both sides that must survive.

/// How many cells stand before what is lent, and as many behind it.
pub const MARGIN: usize = 16;

/// A value or a byte.
pub trait Cell: Copy + Eq {
    /// What stands beside an input: cells that would change the answer if they were taken for part
    /// of it.
    fn beside(place: usize) -> Self;

    /// What stands in an output before the call, and beside it: cells that no call writes.
    fn blank(place: usize) -> Self;

    /// Cells as they are kept in an outcome.
    fn memory(cells: Vec<Self>) -> Memory;
}

impl Cell for u16 {
    fn beside(place: usize) -> u16 {
        [0x103A, 0x1039, 0x1000, 0x1038, 0x103F, 0x1031, 0x102E][place % 7]
    }

    fn blank(place: usize) -> u16 {
        0xA500 + (place % 251) as u16
    }

    fn memory(cells: Vec<u16>) -> Memory {
        Memory::Values(cells)
    }
}

impl Cell for u8 {
    fn beside(place: usize) -> u8 {
        [0x4D, 0x57, 0x01, 0x80, 0xE1, 0x81, 0x00][place % 7]
    }

    fn blank(place: usize) -> u8 {
        0x80 + (place % 113) as u8
    }

    fn memory(cells: Vec<u8>) -> Memory {
        Memory::Bytes(cells)
    }
}

/// Cells that are lent, between their margins.
pub struct Lent<T> {
    cells: Vec<T>,
}

impl<T: Cell> Lent<T> {
    /// A copy of an input.
    pub fn input(contents: &[T]) -> Lent<T> {
        let mut cells = Vec::with_capacity(contents.len() + 2 * MARGIN);
        cells.extend((0..MARGIN).map(|place| T::beside(MARGIN - 1 - place)));
        cells.extend_from_slice(contents);
        cells.extend((0..MARGIN).map(T::beside));
        Lent { cells }
    }

    /// An output of so many cells.
    pub fn output(room: usize) -> Lent<T> {
        Lent { cells: (0..room + 2 * MARGIN).map(T::blank).collect() }
    }

    /// What is lent, to be read.
    pub fn inside(&self) -> &[T] {
        &self.cells[MARGIN..self.cells.len() - MARGIN]
    }

    /// What is lent, to be written.
    pub fn inside_mut(&mut self) -> &mut [T] {
        let end = self.cells.len() - MARGIN;
        &mut self.cells[MARGIN..end]
    }

    /// All cells, margins included, after the call.
    pub fn after(self) -> Memory {
        T::memory(self.cells)
    }
}

/// The cells that were lent, margins included, as a call left them.
#[derive(Clone, PartialEq, Eq)]
pub enum Memory {
    /// Code values.
    Values(Vec<u16>),
    /// Bytes.
    Bytes(Vec<u8>),
}

impl Memory {
    /// The cells in hexadecimal.
    pub fn digits(&self) -> Vec<String> {
        match self {
            Memory::Values(cells) => cells.iter().map(|cell| format!("{cell:04X}")).collect(),
            Memory::Bytes(cells) => cells.iter().map(|cell| format!("{cell:02X}")).collect(),
        }
    }
}
