use crate::{answer, ffi, Refusal};

/// The largest decoding window that a latency budget allows, as [`dw_max_size`] gives it.
#[derive(Clone, Copy, Debug, PartialEq, Eq, Hash)]
pub struct WindowSize {
    /// How many times the bits of a symbol come in within the budget: the quotient, at most 3,125,000,000. A window has 1 to 255 symbols; 0
    /// and more than 255 are given too.
    pub symbols: u32,
    /// What is left over, in millionths of a bit: less than the divisor, 8 × symbol size × 1,000,000.
    pub remainder: u64,
}

/// The largest decoding window that a latency budget allows: `dw_max_size` of RFC 8681, appendix C.1, for a flow of constant bitrate, with
/// the times of encoding and decoding neglected. It is budget × bitrate, divided by 8 × symbol size × 1,000,000. The budget is 1 to
/// 10,000,000 microseconds; the bitrate is 1 to 10,000,000,000 bit/s, that of the ADUs as the sender takes them, without repair; symbols
/// have 4 to 1,500 bytes, and what they carry beside the ADUs' bytes is not counted.
///
/// # Errors
///
/// [`Refusal::Values`] where one of the three is outside its values.
///
/// ```
/// use rlc8681::{dw_max_size, Refusal, WindowSize};
/// # fn main() -> Result<(), Refusal> {
/// let window = dw_max_size(100_001, 33_600_000, 1400)?;
/// assert_eq!(window, WindowSize { symbols: 300, remainder: 33_600_000 });
/// assert_eq!(dw_max_size(0, 33_600_000, 1400), Err(Refusal::Values));
/// # Ok(())
/// # }
/// ```
pub fn dw_max_size(budget: u64, bitrate: u64, symbol_size: u32) -> Result<WindowSize, Refusal> {
    let mut remainder = 0;
    // SAFETY: the reference is to a number that is borrowed for the call alone.
    let quotient = answer(unsafe { ffi::rlc_dw_max_size(budget, bitrate, symbol_size, &mut remainder) })?;
    // The library promises that the quotient is at most 3,125,000,000: see `answer`.
    let symbols = u32::try_from(quotient).map_err(|_| Refusal::Unopened)?;
    Ok(WindowSize { symbols, remainder })
}
