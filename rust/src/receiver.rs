use crate::{answer, answer_in_two, ffi, memory_of, Flows, Refusal, Scheme};
use std::fmt;

/// The receiving end. It owns 96 + width × (width + symbol size + 5) bytes of memory, and working memory of one row more;
/// a clone goes on by itself from the same history.
///
/// What it shows depends on which packets it has accepted, and not on their order: where receivers that were opened alike have accepted the
/// same packets, [`symbol`](Receiver::symbol) and [`origin`](Receiver::origin) give the same for every ESI. Only counts may differ, and
/// starts, so that [`adu`](Receiver::adu) may say [`Refusal::NoStart`] in one of them. Where packets change places on the way, a receiver
/// needs a window that is wider than the sender's by as many symbols as may overtake a packet, or late packets are [`Refusal::Behind`].
///
/// ```
/// use rlc8681::{Flows, Receiver, Refusal, Scheme};
///
/// # fn main() -> Result<(), Refusal> {
/// let mut receiver = Receiver::open(Scheme::Gf2, 4, 2, &Flows::all())?;
/// assert_eq!(receiver.receive_source(1, &[0x41, 0, 0, 0, 0])?.known, 1);
/// assert_eq!(receiver.symbol(1), Err(Refusal::Unknown));
/// assert_eq!(receiver.receive_repair(&[0, 0, 0xf0, 2, 0, 0, 0, 0, 0, 0, 0, 3])?.known, 1);
/// assert_eq!(receiver.symbol(1), Ok(&[1, 0, 1, 0x42][..]));
///
/// let mut other = Receiver::open(Scheme::Gf2, 4, 2, &Flows::all())?;
/// assert_eq!(other.receive_repair(&[0, 0, 0xf0, 2, 0, 0, 0, 0, 0, 0, 0, 3])?.known, 0);
/// assert_eq!(other.receive_source(1, &[0x41, 0, 0, 0, 0])?.known, 2);
/// assert_eq!((other.symbol(1), other.origin(1)), (receiver.symbol(1), receiver.origin(1)));
/// # Ok(())
/// # }
/// ```
#[derive(Clone)]
pub struct Receiver {
    memory: Box<[u8]>,
    work: Box<[u8]>,
    scheme: Scheme,
    symbol_size: u32,
    width: u32,
}

/// What an accepted packet brought, as the packet calls of [`Receiver`] and [`BlockRecovery`](crate::BlockRecovery) tell it.
#[derive(Clone, Copy, Debug, PartialEq, Eq, Hash)]
pub struct Received {
    /// How many symbols of the window, or source symbols of the block, became known, at most 255.
    pub known: usize,
    /// The draws that the packet's coefficients took, added up over its repair symbols: rand16 and rand256 draws count, the eight steps of
    /// the generator's start do not. A source packet takes none, nor does a repair packet of [`Scheme::Gf2`] at density threshold 15 or of a
    /// block; no packet takes more than 69,360. A sender of the same scheme and symbol size that made the packet told the same number.
    pub draws: u32,
}

/// What made a known symbol known, as [`Receiver::origin`] and [`BlockRecovery::origin`](crate::BlockRecovery::origin) tell it.
#[derive(Clone, Copy, Debug, PartialEq, Eq, Hash)]
pub enum Origin {
    /// A source packet that was accepted has carried it, be it known before that or not.
    Heard,
    /// It was worked out from repair packets, and no source packet that was accepted has carried it.
    Solved,
}

/// The answer of a packet call.
pub(crate) fn received(raw: i64) -> Result<Received, Refusal> {
    answer_in_two(raw).map(|(known, draws)| Received { known, draws })
}

/// The symbol that a place call told of.
pub(crate) fn symbol_at(memory: &[u8], raw: i64, symbol_size: u32) -> Result<&[u8], Refusal> {
    let place = answer(raw)?;
    // The library promises that the symbol lies in the memory: see `answer`.
    memory.get(place..).and_then(|rest| rest.get(..symbol_size as usize)).ok_or(Refusal::Unopened)
}

/// The answer of a symbol call.
pub(crate) fn origin(raw: i64) -> Result<Origin, Refusal> {
    let (_, heard) = answer_in_two(raw)?;
    Ok(if heard == 0 { Origin::Solved } else { Origin::Heard })
}

/// An ADU as [`Receiver::adu`] hands it out.
#[derive(Clone, Copy, Debug, PartialEq, Eq, Hash)]
pub struct Adu<'a> {
    /// The flow that it belongs to.
    pub flow: u8,
    /// Its bytes: the front of the output that was lent.
    pub bytes: &'a [u8],
}

impl Receiver {
    /// A receiver, for source packets of these flows, that can join a stream anywhere: the first packet that it accepts begins its window, at
    /// the first ESI that the packet names. Until then there is no window, and every symbol is [`Refusal::Unknown`]. Symbols have 4 to 1,500
    /// bytes, the window 1 to 255 symbols; the scheme and the symbol size are the sender's.
    ///
    /// # Errors
    ///
    /// [`Refusal::Values`] for a symbol size or width outside its values.
    ///
    /// ```
    /// use rlc8681::{Flows, Receiver, Refusal, Scheme};
    /// # fn main() -> Result<(), Refusal> {
    /// assert_eq!(Receiver::open(Scheme::Gf256, 1400, 256, &Flows::all()).err(), Some(Refusal::Values));
    ///
    /// let mut receiver = Receiver::open(Scheme::Gf256, 1400, 64, &Flows::only(&[1]))?;
    /// assert_eq!(receiver.symbol(4_100_000), Err(Refusal::Unknown));
    /// assert_eq!(receiver.receive_source(2, b"stray\0\0\0\0"), Err(Refusal::Unannounced));
    /// let esi = 4_100_000u32.to_be_bytes();
    /// assert_eq!(receiver.receive_source(1, &[b"ADU", &esi[..]].concat())?.known, 1);
    /// assert!(receiver.symbol(4_100_000).is_ok());
    /// assert_eq!(receiver.symbol(4_099_999), Err(Refusal::Behind));
    /// # Ok(())
    /// # }
    /// ```
    pub fn open(scheme: Scheme, symbol_size: u32, width: u32, flows: &Flows) -> Result<Receiver, Refusal> {
        // SAFETY: both calls take numbers only.
        let (state, work) = unsafe { (ffi::rlc_receiver_memory(symbol_size, width), ffi::rlc_working_memory(symbol_size, width)) };
        let mut memory = memory_of(state)?;
        let work = memory_of(work)?;
        let number = u32::from(scheme.number());
        // SAFETY: pointer and length are those of a slice that is borrowed for the call alone, as are the 32 bytes of the flows, apart from it.
        answer(unsafe { ffi::rlc_receiver_open(memory.as_mut_ptr(), memory.len(), number, symbol_size, width, flows.as_ptr()) })?;
        Ok(Receiver { memory, work, scheme, symbol_size, width })
    }

    /// Takes a source packet and the flow that came beside it. Gives how many symbols of the window became known; the draws are 0.
    ///
    /// # Errors
    ///
    /// In this order: [`Refusal::Form`], [`Refusal::Unannounced`], [`Refusal::Long`], [`Refusal::Behind`], [`Refusal::Ahead`],
    /// [`Refusal::Contradiction`]. While no packet was accepted, none is behind or ahead.
    pub fn receive_source(&mut self, flow: u8, packet: &[u8]) -> Result<Received, Refusal> {
        // SAFETY: pointers and lengths are those of slices that are borrowed for the call alone; the two mutable ones are apart.
        received(unsafe {
            ffi::rlc_receive_source(
                self.memory.as_mut_ptr(),
                self.memory.len(),
                self.work.as_mut_ptr(),
                self.work.len(),
                flow,
                packet.as_ptr(),
                packet.len(),
            )
        })
    }

    /// Takes a repair packet. Gives how many symbols of the window became known, and the draws.
    ///
    /// # Errors
    ///
    /// In this order: [`Refusal::Form`], [`Refusal::Range`], [`Refusal::Behind`], [`Refusal::Ahead`], [`Refusal::Draws`],
    /// [`Refusal::Contradiction`]. While no packet was accepted, none is behind or ahead.
    ///
    /// ```
    /// use rlc8681::{Flows, Received, Receiver, Refusal, Scheme};
    /// # fn main() -> Result<(), Refusal> {
    /// // One coefficient at density threshold 4: its rand16 draw makes it zero, so that no symbol becomes known.
    /// let mut receiver = Receiver::open(Scheme::Gf256, 4, 2, &Flows::all())?;
    /// assert_eq!(receiver.receive_repair(&[0, 1, 0x40, 1, 0, 0, 0, 0, 0, 0, 0, 0]), Ok(Received { known: 0, draws: 1 }));
    ///
    /// let mut receiver = Receiver::open(Scheme::Gf2, 4, 2, &Flows::all())?;
    /// // Both repair symbols are the sum of the same two symbols, and they differ.
    /// let unlike = [0, 0, 0xf0, 2, 0, 0, 0, 0, 0, 0, 0, 3, 0, 0, 0, 4];
    /// assert_eq!(receiver.receive_repair(&unlike), Err(Refusal::Contradiction));
    /// # Ok(())
    /// # }
    /// ```
    pub fn receive_repair(&mut self, packet: &[u8]) -> Result<Received, Refusal> {
        // SAFETY: pointers and lengths are those of slices that are borrowed for the call alone; the two mutable ones are apart.
        received(unsafe {
            ffi::rlc_receive_repair(
                self.memory.as_mut_ptr(),
                self.memory.len(),
                self.work.as_mut_ptr(),
                self.work.len(),
                packet.as_ptr(),
                packet.len(),
            )
        })
    }

    /// The bytes of a known symbol of the window, where they lie in the receiver.
    ///
    /// # Errors
    ///
    /// [`Refusal::Behind`], then [`Refusal::Unknown`]; while no packet was accepted, always the latter.
    pub fn symbol(&self, esi: u32) -> Result<&[u8], Refusal> {
        // SAFETY: pointer and length are those of a slice that is borrowed for the call alone.
        let place = unsafe { ffi::rlc_symbol_place(self.memory.as_ptr(), self.memory.len(), esi) };
        symbol_at(&self.memory, place, self.symbol_size)
    }

    /// Whether a known symbol of the window was heard or solved. A solved one becomes heard when its source packet is accepted later, though
    /// that makes nothing known; one heard never becomes solved. A refused packet counts for nothing.
    ///
    /// # Errors
    ///
    /// Those of [`Receiver::symbol`].
    ///
    /// ```
    /// use rlc8681::{Flows, Origin, Receiver, Refusal, Scheme};
    /// # fn main() -> Result<(), Refusal> {
    /// let mut receiver = Receiver::open(Scheme::Gf2, 4, 2, &Flows::all())?;
    /// receiver.receive_source(1, b"A\0\0\0\0")?;
    /// receiver.receive_repair(&[0, 0, 0xf0, 2, 0, 0, 0, 0, 0, 0, 0, 3])?;
    /// assert_eq!((receiver.origin(0), receiver.origin(1)), (Ok(Origin::Heard), Ok(Origin::Solved)));
    /// // The source packet of the second comes late, and brings nothing new.
    /// assert_eq!(receiver.receive_source(1, b"B\0\0\0\x01")?.known, 0);
    /// assert_eq!(receiver.origin(1), Ok(Origin::Heard));
    /// assert_eq!(receiver.origin(2), Err(Refusal::Unknown));
    /// # Ok(())
    /// # }
    /// ```
    pub fn origin(&self, esi: u32) -> Result<Origin, Refusal> {
        // SAFETY: pointer and length are those of a slice that is borrowed for the call alone.
        origin(unsafe { ffi::rlc_symbol(self.memory.as_ptr(), self.memory.len(), esi) })
    }

    /// Writes the ADU that starts at this ESI to the front of `out`, whose other bytes stay, and gives it with its flow. Starts are the first
    /// symbol of each source packet, the one after its last, and, after an ADU whose first symbol is known, the next one's.
    ///
    /// # Errors
    ///
    /// [`Refusal::Unknown`] while no packet was accepted. Then, in this order: [`Refusal::Behind`]; [`Refusal::Unknown`] past the window;
    /// [`Refusal::NoStart`]; [`Refusal::Unknown`] for its first symbol; [`Refusal::Padding`] for one that needs more symbols than the
    /// width; [`Refusal::Unknown`] for another symbol; [`Refusal::Padding`]; [`Refusal::Unannounced`]; [`Refusal::Short`] for an output
    /// shorter than the ADU.
    ///
    /// ```
    /// use rlc8681::{Adu, Flows, Receiver, Refusal, Scheme};
    /// # fn main() -> Result<(), Refusal> {
    /// let mut receiver = Receiver::open(Scheme::Gf2, 4, 2, &Flows::all())?;
    /// let mut out = [0; 4];
    /// assert_eq!(receiver.adu(0, &mut out), Err(Refusal::Unknown));
    /// receiver.receive_source(7, b"ABCD\0\0\0\0")?;
    /// assert_eq!(receiver.adu(0, &mut out), Ok(Adu { flow: 7, bytes: b"ABCD" }));
    /// assert_eq!(receiver.adu(1, &mut out), Err(Refusal::NoStart));
    /// # Ok(())
    /// # }
    /// ```
    pub fn adu<'a>(&self, esi: u32, out: &'a mut [u8]) -> Result<Adu<'a>, Refusal> {
        // SAFETY: pointers and lengths are those of slices that are borrowed for the call alone; only `out` is written.
        let told = answer(unsafe { ffi::rlc_adu(self.memory.as_ptr(), self.memory.len(), esi, out.as_mut_ptr(), out.len()) })?;
        // The library promises that the answer is flow × 65,536 + length, and that the output holds the ADU: see `answer`.
        let [_, flow, high, low] = u32::try_from(told).map_err(|_| Refusal::Unopened)?.to_be_bytes();
        let bytes = out.get(..usize::from(u16::from_be_bytes([high, low]))).ok_or(Refusal::Unopened)?;
        Ok(Adu { flow, bytes })
    }

    /// The scheme that this receiver was opened with.
    #[must_use]
    pub fn scheme(&self) -> Scheme {
        self.scheme
    }

    /// The bytes in a symbol.
    #[must_use]
    pub fn symbol_size(&self) -> u32 {
        self.symbol_size
    }

    /// The symbols in the window.
    #[must_use]
    pub fn width(&self) -> u32 {
        self.width
    }
}

impl fmt::Debug for Receiver {
    fn fmt(&self, f: &mut fmt::Formatter<'_>) -> fmt::Result {
        let Receiver { scheme, symbol_size, width, .. } = self;
        f.debug_struct("Receiver").field("scheme", scheme).field("symbol_size", symbol_size).field("width", width).finish_non_exhaustive()
    }
}
