//! Sender and receiver of RFC 8681 (sliding window random linear codes) over a library whose every function is proved to meet its
//! contract. This crate only owns the memory that the proved calls work on, and gives their answers Rust types.
//!
//! A [`Sender`] takes application packets (ADUs), writes a source packet for each and, when asked, repair packets over its window of the
//! last `width` symbols. A [`Receiver`] takes source and repair packets in any order, with losses and repeats, and shows every symbol of
//! its window that the packets determine, and which of them it heard and which it solved ([`Origin`]); it can join a running stream, at the
//! first packet that it accepts. All working is exact: what it shows is what the packets imply, and a packet that contradicts them is
//! refused. Each end announces the flows that it is for ([`Flows`]), and refuses ADUs and source packets of others. [`dw_max_size`] tells how
//! wide a window may be under a latency budget; a [`Grid`] puts symbols into another order for a link that loses neighbours together.
//!
//! A still, which is there as a whole before it is sent, can go as a [`Block`] instead (RFC 6865): a [`BlockEncoder`] takes its k ADUs, each
//! one symbol, and writes source and repair packets, and a [`BlockRecovery`] knows all of it once it has k different ones, whichever they are.
//!
//! ```
//! use rlc8681::{Flows, Receiver, Scheme, Sender};
//!
//! # fn main() -> Result<(), rlc8681::Refusal> {
//! let flows = Flows::only(&[1]);
//! let mut sender = Sender::open(Scheme::Gf256, 64, 8, &flows)?;
//! let mut receiver = Receiver::open(Scheme::Gf256, 64, 8, &flows)?;
//! let mut packet = [0; 200];
//!
//! let n = sender.add_adu(1, b"first", &mut packet)?;
//! receiver.receive_source(1, &packet[..n])?;
//! sender.add_adu(1, b"second", &mut packet)?; // its packet is lost
//! let n = sender.make_repair(0, 15, 1, &mut packet)?.bytes;
//! assert_eq!(receiver.receive_repair(&packet[..n])?.known, 1); // one symbol more is known
//!
//! let mut out = [0; 100];
//! let adu = receiver.adu(1, &mut out)?;
//! assert_eq!((adu.flow, adu.bytes), (1, &b"second"[..]));
//! # Ok(())
//! # }
//! ```
#![deny(missing_docs)]

mod block;
mod ffi;
mod flows;
mod grid;
mod latency;
mod receiver;
mod refusal;
mod sender;

pub use block::{Block, BlockEncoder, BlockRecovery};
pub use flows::Flows;
pub use grid::Grid;
pub use latency::{dw_max_size, WindowSize};
pub use receiver::{Adu, Origin, Received, Receiver};
pub use refusal::Refusal;
pub use sender::{Repair, Sender};

/// The field that a scheme of RFC 8681 computes in.
#[derive(Clone, Copy, Debug, PartialEq, Eq, Hash)]
pub enum Scheme {
    /// FEC Encoding ID 9: coefficients 0 and 1, sums by XOR.
    Gf2 = 9,
    /// FEC Encoding ID 10: coefficients of 8 bits.
    Gf256 = 10,
}

impl Scheme {
    /// The FEC Encoding ID, 9 or 10.
    ///
    /// ```
    /// assert_eq!(rlc8681::Scheme::Gf256.number(), 10);
    /// ```
    #[must_use]
    pub const fn number(self) -> u8 {
        self as u8
    }

    /// The scheme of a FEC Encoding ID; none for a number other than 9 and 10.
    ///
    /// ```
    /// use rlc8681::Scheme;
    /// assert_eq!(Scheme::from_number(9), Some(Scheme::Gf2));
    /// assert_eq!(Scheme::from_number(10), Some(Scheme::Gf256));
    /// assert_eq!(Scheme::from_number(11), None);
    /// ```
    #[must_use]
    pub const fn from_number(number: u8) -> Option<Scheme> {
        match number {
            9 => Some(Scheme::Gf2),
            10 => Some(Scheme::Gf256),
            _ => None,
        }
    }
}

/// A call's answer: its value, or a refusal.
///
/// The library promises that a negative answer is minus a refusal's number, that a place lies in the memory, that an ADU lies in the output
/// and that a window has at most 3,125,000,000 symbols. An answer that breaks this cannot come; here, in `symbol_at`, `Receiver::adu` and
/// `dw_max_size` it would be `Refusal::Unopened`, which no call gives on the memory that these types own.
fn answer(raw: i64) -> Result<usize, Refusal> {
    match usize::try_from(raw) {
        Ok(value) => Ok(value),
        Err(_) => Err(u8::try_from(raw.unsigned_abs()).ok().and_then(Refusal::from_number).unwrap_or(Refusal::Unopened)),
    }
}

/// The answer of a call that tells two numbers: its value, in the low 32 bits, and what stands beside it, in those above; or a refusal.
fn answer_in_two(raw: i64) -> Result<(usize, u32), Refusal> {
    let (value, beside) = if raw < 0 { (raw, 0) } else { (raw & 0xffff_ffff, (raw >> 32) as u32) };
    Ok((answer(value)?, beside))
}

/// Zeroed memory of the size that a call answered.
fn memory_of(raw: i64) -> Result<Box<[u8]>, Refusal> {
    answer(raw).map(|size| vec![0; size].into_boxed_slice())
}
