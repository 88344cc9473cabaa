use crate::{answer, ffi, Refusal};

/// A grid of symbols that are taken row by row and sent column by column, against bursts of losses.
///
/// A link that loses up to `rows` neighbours in send order, wherever the loss begins, loses at most one symbol of each row.
///
/// ```
/// use rlc8681::Grid;
/// # fn main() -> Result<(), rlc8681::Refusal> {
/// let grid = Grid { symbol_size: 4, rows: 2, columns: 3 };
/// let taken = b"1...2...3...4...5...6..."; // the rows 1 2 3 and 4 5 6
/// let (mut sent, mut back) = ([0; 24], [0; 24]);
/// assert_eq!(grid.interleave(taken, &mut sent)?, 24);
/// assert_eq!(&sent, b"1...4...2...5...3...6...");
/// assert_eq!(grid.deinterleave(&sent, &mut back)?, 24);
/// assert_eq!(&back, taken);
/// # Ok(())
/// # }
/// ```
#[derive(Clone, Copy, Debug, PartialEq, Eq, Hash)]
pub struct Grid {
    /// Bytes in a symbol, 4 to 1,500.
    pub symbol_size: u32,
    /// Rows, 1 to 255: the longest burst of which each row loses at most one symbol.
    pub rows: u32,
    /// Columns, 1 to 255: the symbols in a row.
    pub columns: u32,
}

impl Grid {
    /// The bytes of all its symbols: rows × columns × symbol size, or `usize::MAX` where that is more.
    ///
    /// ```
    /// assert_eq!(rlc8681::Grid { symbol_size: 1400, rows: 4, columns: 16 }.bytes(), 89_600);
    /// ```
    #[must_use]
    pub const fn bytes(&self) -> usize {
        (self.rows as usize).saturating_mul(self.columns as usize).saturating_mul(self.symbol_size as usize)
    }

    /// Writes the symbols, taken row by row, at the front of `out` column by column: the symbol in row r and column c, number
    /// r × columns + c, becomes number c × rows + r. Gives the bytes written; `out` past them is as it was.
    ///
    /// # Errors
    ///
    /// [`Refusal::Values`] for a symbol size outside its values, [`Refusal::Grid`] for rows or columns outside theirs or where `taken` is
    /// not [`bytes`](Grid::bytes) long, [`Refusal::Short`] for a short `out`.
    pub fn interleave(&self, taken: &[u8], out: &mut [u8]) -> Result<usize, Refusal> {
        let Grid { symbol_size, rows, columns } = *self;
        // SAFETY: both slices are borrowed for the call alone, and only `out` to be written.
        answer(unsafe { ffi::rlc_interleave(taken.as_ptr(), taken.len(), symbol_size, rows, columns, out.as_mut_ptr(), out.len()) })
    }

    /// Undoes [`interleave`](Grid::interleave): writes symbols that came column by column at the front of `out` row by row. Gives the bytes
    /// written; `out` past them is as it was.
    ///
    /// # Errors
    ///
    /// Those of [`interleave`](Grid::interleave).
    pub fn deinterleave(&self, sent: &[u8], out: &mut [u8]) -> Result<usize, Refusal> {
        let Grid { symbol_size, rows, columns } = *self;
        // SAFETY: as above.
        answer(unsafe { ffi::rlc_deinterleave(sent.as_ptr(), sent.len(), symbol_size, rows, columns, out.as_mut_ptr(), out.len()) })
    }
}
