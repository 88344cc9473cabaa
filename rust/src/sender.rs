use crate::{answer, answer_in_two, ffi, memory_of, Flows, Refusal, Scheme};
use std::fmt;

/// The sending end. It owns 64 + width × symbol size bytes of memory; a clone goes on by itself from the same history.
///
/// ```
/// use rlc8681::{Flows, Scheme, Sender};
///
/// # fn main() -> Result<(), rlc8681::Refusal> {
/// let mut sender = Sender::open(Scheme::Gf2, 4, 2, &Flows::all())?;
/// let mut packet = [0; 16];
/// let n = sender.add_adu(1, b"A", &mut packet)?;
/// assert_eq!(packet[..n], [0x41, 0, 0, 0, 0]);
/// let n = sender.add_adu(1, b"B", &mut packet)?;
/// assert_eq!(packet[..n], [0x42, 0, 0, 0, 1]);
/// let n = sender.make_repair(0, 15, 1, &mut packet)?.bytes;
/// assert_eq!(packet[..n], [0, 0, 0xf0, 2, 0, 0, 0, 0, 0, 0, 0, 3]);
/// # Ok(())
/// # }
/// ```
#[derive(Clone)]
pub struct Sender {
    memory: Box<[u8]>,
    scheme: Scheme,
    symbol_size: u32,
    width: u32,
}

/// A repair packet as [`Sender::make_repair`] writes it.
#[derive(Clone, Copy, Debug, PartialEq, Eq, Hash)]
pub struct Repair {
    /// How many bytes it has, at the front of the output that was lent.
    pub bytes: usize,
    /// The draws that its coefficients took. A receiver that takes the packet tells the same number:
    /// [`Received::draws`](crate::Received::draws).
    pub draws: u32,
}

impl Sender {
    /// A sender with an empty window, whose first symbol will have ESI 0, for ADUs of these flows. Symbols have 4 to 1,500 bytes, the window
    /// 1 to 255 symbols.
    ///
    /// # Errors
    ///
    /// [`Refusal::Values`] for a symbol size or width outside its values.
    ///
    /// ```
    /// use rlc8681::{Flows, Refusal, Scheme, Sender};
    /// assert_eq!(Sender::open(Scheme::Gf2, 3, 2, &Flows::all()).err(), Some(Refusal::Values));
    /// ```
    pub fn open(scheme: Scheme, symbol_size: u32, width: u32, flows: &Flows) -> Result<Sender, Refusal> {
        // SAFETY: the call takes numbers only.
        let mut memory = memory_of(unsafe { ffi::rlc_sender_memory(symbol_size, width) })?;
        let number = u32::from(scheme.number());
        // SAFETY: pointer and length are those of a slice that is borrowed for the call alone, as are the 32 bytes of the flows, apart from it.
        answer(unsafe { ffi::rlc_sender_open(memory.as_mut_ptr(), memory.len(), number, symbol_size, width, flows.as_ptr()) })?;
        Ok(Sender { memory, scheme, symbol_size, width })
    }

    /// Takes an ADU of up to 65,535 bytes and writes its source packet, the ADU and 4 bytes more, to the front of `out`. Gives the bytes
    /// written; those after them stay. The flow is not in the packet: it reaches the receiver beside it.
    ///
    /// # Errors
    ///
    /// In this order: [`Refusal::Unannounced`] for a flow that this sender does not announce, [`Refusal::Long`] for an ADU that needs more
    /// symbols than the width, [`Refusal::Short`] for an output under ADU + 4 bytes.
    ///
    /// ```
    /// use rlc8681::{Flows, Refusal, Scheme, Sender};
    /// # fn main() -> Result<(), Refusal> {
    /// let mut sender = Sender::open(Scheme::Gf2, 4, 2, &Flows::only(&[1]))?;
    /// let mut packet = [0; 5];
    /// assert_eq!(sender.add_adu(2, b"too long", &mut packet), Err(Refusal::Unannounced));
    /// assert_eq!(sender.add_adu(1, b"too long", &mut packet), Err(Refusal::Long));
    /// // What was refused has no ESI.
    /// assert_eq!(sender.add_adu(1, b"A", &mut packet), Ok(5));
    /// assert_eq!(packet, [b'A', 0, 0, 0, 0]);
    /// # Ok(())
    /// # }
    /// ```
    pub fn add_adu(&mut self, flow: u8, adu: &[u8], out: &mut [u8]) -> Result<usize, Refusal> {
        // SAFETY: pointers and lengths are those of slices that are borrowed for the call alone; the two mutable ones are apart.
        answer(unsafe {
            ffi::rlc_sender_add_adu(self.memory.as_mut_ptr(), self.memory.len(), flow, adu.as_ptr(), adu.len(), out.as_mut_ptr(), out.len())
        })
    }

    /// Writes a repair packet over the whole window, 8 + count × symbol size bytes, to the front of `out`, whose other bytes stay. Gives the
    /// bytes written and the draws. The packet has `count` (1 to 16) repair symbols, whose keys count up from `key`; of the coefficients,
    /// on average (`dt` + 1) / 16 are not zero, all at `dt` 15.
    ///
    /// # Errors
    ///
    /// In this order: [`Refusal::Range`] for `dt` over 15 or a count that is not 1 to 16, [`Refusal::Empty`] before the first ADU,
    /// [`Refusal::Short`] for a shorter output, [`Refusal::Draws`].
    ///
    /// ```
    /// use rlc8681::{Flows, Refusal, Repair, Scheme, Sender};
    /// # fn main() -> Result<(), Refusal> {
    /// let mut sender = Sender::open(Scheme::Gf256, 4, 5, &Flows::all())?;
    /// assert_eq!(sender.make_repair(0, 16, 1, &mut []), Err(Refusal::Range));
    /// assert_eq!(sender.make_repair(0, 15, 1, &mut []), Err(Refusal::Empty));
    /// let mut packet = [0; 12];
    /// for adu in b"ABCDE" {
    ///     sender.add_adu(1, &[*adu], &mut packet)?;
    /// }
    /// // Of the five coefficients two are not zero: five rand16 draws and two rand256 draws.
    /// assert_eq!(sender.make_repair(1, 4, 1, &mut packet), Ok(Repair { bytes: 12, draws: 7 }));
    /// # Ok(())
    /// # }
    /// ```
    pub fn make_repair(&self, key: u16, dt: u32, count: u32, out: &mut [u8]) -> Result<Repair, Refusal> {
        // SAFETY: pointers and lengths are those of slices that are borrowed for the call alone; only `out` is written.
        answer_in_two(unsafe {
            ffi::rlc_sender_make_repair(self.memory.as_ptr(), self.memory.len(), key, dt, count, out.as_mut_ptr(), out.len())
        })
        .map(|(bytes, draws)| Repair { bytes, draws })
    }

    /// The scheme that this sender was opened with.
    #[must_use]
    pub fn scheme(&self) -> Scheme {
        self.scheme
    }

    /// The bytes in a symbol.
    #[must_use]
    pub fn symbol_size(&self) -> u32 {
        self.symbol_size
    }

    /// The most symbols in the window.
    #[must_use]
    pub fn width(&self) -> u32 {
        self.width
    }
}

impl fmt::Debug for Sender {
    fn fmt(&self, f: &mut fmt::Formatter<'_>) -> fmt::Result {
        let Sender { scheme, symbol_size, width, .. } = self;
        f.debug_struct("Sender").field("scheme", scheme).field("symbol_size", symbol_size).field("width", width).finish_non_exhaustive()
    }
}
