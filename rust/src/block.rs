use crate::receiver::{origin, received, symbol_at};
use crate::{answer, ffi, memory_of, Origin, Received, Refusal};
use std::fmt;

/// What both ends of a block are opened with. A block is for a still, which is there as a whole before it is sent: k ADUs, each one source
/// symbol, and repair symbols beside them, by RFC 6865 with the Reed-Solomon code of RFC 5510 over GF(2^8).
///
/// ESIs 0 to k − 1 are the source symbols, k to total − 1 the repair symbols. Any k packets with different ESIs bring the whole block; fewer
/// bring the symbols alone that they carry. Flows are not announced, and none is checked.
///
/// ```
/// use rlc8681::{Block, BlockEncoder, BlockRecovery, Origin, Refusal};
/// # fn main() -> Result<(), Refusal> {
/// let block = Block { symbol_size: 16, k: 3, total: 5, number: 7 };
/// let (mut encoder, mut recovery) = (BlockEncoder::open(block)?, BlockRecovery::open(block)?);
/// let mut packet = [0; 22];
/// for (esi, adu) in ["A still", "sent in", "three ADUs"].iter().enumerate() {
///     let n = encoder.add_adu(1, adu.as_bytes(), &mut packet)?;
///     if esi == 1 {
///         assert_eq!(recovery.receive_source(1, &packet[..n])?.known, 1); // the other two are lost
///     }
/// }
/// let n = encoder.make_repair(3, &mut packet)?;
/// assert_eq!(recovery.receive_repair(&packet[..n])?.known, 0);
/// assert_eq!(recovery.symbol(0), Err(Refusal::Unknown));
/// let n = encoder.make_repair(4, &mut packet)?;
/// assert_eq!(recovery.receive_repair(&packet[..n])?.known, 2); // three ESIs: the whole block
/// assert_eq!(recovery.symbol(2), Ok(&b"\x01\0\x0athree ADUs\0\0\0"[..]));
/// assert_eq!((recovery.origin(1), recovery.origin(2)), (Ok(Origin::Heard), Ok(Origin::Solved)));
/// # Ok(())
/// # }
/// ```
#[derive(Clone, Copy, Debug, PartialEq, Eq, Hash)]
pub struct Block {
    /// Bytes in a symbol (E), 4 to 1,500.
    pub symbol_size: u32,
    /// Source symbols, and so ADUs, 1 to 255.
    pub k: u32,
    /// Source and repair symbols together, k to 255.
    pub total: u32,
    /// The block's number, below 2^24.
    pub number: u32,
}

/// How an end of a block is opened.
type Open = unsafe extern "C" fn(*mut u8, usize, u32, u32, u32, u32) -> i64;

impl Block {
    /// Memory in which an end of this block was opened.
    fn open(self, open: Open) -> Result<Box<[u8]>, Refusal> {
        let Block { symbol_size, k, total, number } = self;
        // Where there is no size, the symbol size or k is outside its values: the opening says which of them, before it looks at the memory.
        // SAFETY: the call takes numbers only.
        let mut memory = memory_of(unsafe { ffi::rlc_receiver_memory(symbol_size, k) }).unwrap_or_default();
        // SAFETY: pointer and length are those of a slice that is borrowed for the call alone.
        answer(unsafe { open(memory.as_mut_ptr(), memory.len(), symbol_size, k, total, number) })?;
        Ok(memory)
    }
}

/// The end of a [`Block`] that takes its ADUs and writes its packets. It owns 96 + k × (k + symbol size + 5) bytes of memory; a clone goes on
/// by itself.
///
/// ```
/// use rlc8681::{Block, BlockEncoder, Refusal};
/// # fn main() -> Result<(), Refusal> {
/// // In its last byte the polynomial is x: 1 and 2 at 2^0 and 2^1, so 4 and 8 at 2^2 and 2^3.
/// let mut encoder = BlockEncoder::open(Block { symbol_size: 4, k: 2, total: 4, number: 0x10203 })?;
/// let mut packet = [0; 10];
/// let n = encoder.add_adu(1, &[1], &mut packet)?;
/// assert_eq!(packet[..n], [1, 1, 2, 3, 0, 0, 2]);
/// let n = encoder.add_adu(1, &[2], &mut packet)?;
/// assert_eq!(packet[..n], [2, 1, 2, 3, 1, 0, 2]);
/// let n = encoder.make_repair(3, &mut packet)?;
/// assert_eq!(packet[..n], [1, 2, 3, 3, 0, 2, 1, 0, 1, 8]);
/// # Ok(())
/// # }
/// ```
#[derive(Clone)]
pub struct BlockEncoder {
    memory: Box<[u8]>,
    block: Block,
}

impl BlockEncoder {
    /// An encoder that has no ADU yet.
    ///
    /// # Errors
    ///
    /// [`Refusal::Values`] for a symbol size outside its values, then [`Refusal::Block`] for k, total or block number outside theirs.
    ///
    /// ```
    /// use rlc8681::{Block, BlockEncoder, Refusal};
    /// let block = Block { symbol_size: 1400, k: 10, total: 9, number: 0 };
    /// assert_eq!(BlockEncoder::open(block).err(), Some(Refusal::Block));
    /// assert_eq!(BlockEncoder::open(Block { symbol_size: 3, ..block }).err(), Some(Refusal::Values));
    /// ```
    pub fn open(block: Block) -> Result<BlockEncoder, Refusal> {
        Ok(BlockEncoder { memory: block.open(ffi::rlc_block_open_encoder)?, block })
    }

    /// Takes the block's next ADU, of up to symbol size − 3 bytes, and writes its source packet, the ADU and 6 bytes more, to the front of
    /// `out`. Gives the bytes written; those after them stay. The flow is not in the packet: it reaches the recovery beside it.
    ///
    /// # Errors
    ///
    /// In this order: [`Refusal::Short`] for an output under ADU + 6 bytes, [`Refusal::Block`] once k ADUs were taken, [`Refusal::Long`].
    ///
    /// ```
    /// use rlc8681::{Block, BlockEncoder, Refusal};
    /// # fn main() -> Result<(), Refusal> {
    /// let mut encoder = BlockEncoder::open(Block { symbol_size: 4, k: 1, total: 2, number: 0 })?;
    /// let mut packet = [0; 10];
    /// assert_eq!(encoder.add_adu(1, b"AB", &mut packet[..7]), Err(Refusal::Short));
    /// assert_eq!(encoder.add_adu(1, b"AB", &mut packet), Err(Refusal::Long));
    /// assert_eq!(encoder.add_adu(1, b"A", &mut packet), Ok(7));
    /// assert_eq!(encoder.add_adu(1, b"AB", &mut packet), Err(Refusal::Block));
    /// # Ok(())
    /// # }
    /// ```
    pub fn add_adu(&mut self, flow: u8, adu: &[u8], out: &mut [u8]) -> Result<usize, Refusal> {
        // SAFETY: pointers and lengths are those of slices that are borrowed for the call alone; the two mutable ones are apart.
        answer(unsafe {
            ffi::rlc_block_add_adu(self.memory.as_mut_ptr(), self.memory.len(), flow, adu.as_ptr(), adu.len(), out.as_mut_ptr(), out.len())
        })
    }

    /// Writes the repair packet with this ESI, from k to total − 1, to the front of `out`: 6 bytes and a repair symbol. Gives the bytes
    /// written; those after them stay.
    ///
    /// # Errors
    ///
    /// In this order: [`Refusal::Short`] for an output under 6 + symbol size bytes, [`Refusal::Block`] for another ESI, [`Refusal::Empty`]
    /// before the k-th ADU.
    ///
    /// ```
    /// use rlc8681::{Block, BlockEncoder, Refusal};
    /// # fn main() -> Result<(), Refusal> {
    /// let encoder = BlockEncoder::open(Block { symbol_size: 4, k: 2, total: 3, number: 0 })?;
    /// let mut packet = [0; 10];
    /// assert_eq!(encoder.make_repair(3, &mut packet[..9]), Err(Refusal::Short));
    /// assert_eq!(encoder.make_repair(3, &mut packet), Err(Refusal::Block));
    /// assert_eq!(encoder.make_repair(2, &mut packet), Err(Refusal::Empty));
    /// # Ok(())
    /// # }
    /// ```
    pub fn make_repair(&self, esi: u32, out: &mut [u8]) -> Result<usize, Refusal> {
        // SAFETY: pointers and lengths are those of slices that are borrowed for the call alone; only `out` is written.
        answer(unsafe { ffi::rlc_block_make_repair(self.memory.as_ptr(), self.memory.len(), esi, out.as_mut_ptr(), out.len()) })
    }

    /// The block that this encoder was opened with.
    #[must_use]
    pub fn block(&self) -> Block {
        self.block
    }
}

/// The end of a [`Block`] that takes its packets, in any order, with losses and repeats. It owns 96 + k × (k + symbol size + 5) bytes of
/// memory, and working memory of one row more; a clone goes on by itself.
///
/// ```
/// use rlc8681::{Block, BlockRecovery, Received, Refusal};
/// # fn main() -> Result<(), Refusal> {
/// let mut recovery = BlockRecovery::open(Block { symbol_size: 4, k: 2, total: 4, number: 0x10203 })?;
/// let last = [1, 2, 3, 3, 0, 2, 1, 0, 1, 8];
/// assert_eq!(recovery.receive_repair(&last), Ok(Received { known: 0, draws: 0 }));
/// assert_eq!(recovery.receive_source(1, &[2, 1, 2, 3, 1, 0, 2]), Ok(Received { known: 2, draws: 0 }));
/// assert_eq!(recovery.symbol(0), Ok(&[1, 0, 1, 1][..]));
/// assert_eq!(recovery.receive_repair(&last)?.known, 0); // it came before
/// assert_eq!(recovery.receive_source(2, &[2, 1, 2, 3, 1, 0, 2]), Err(Refusal::Contradiction)); // it had another flow
/// # Ok(())
/// # }
/// ```
#[derive(Clone)]
pub struct BlockRecovery {
    memory: Box<[u8]>,
    work: Box<[u8]>,
    block: Block,
}

impl BlockRecovery {
    /// A recovery that knows no symbol yet.
    ///
    /// # Errors
    ///
    /// Those of [`BlockEncoder::open`].
    pub fn open(block: Block) -> Result<BlockRecovery, Refusal> {
        let memory = block.open(ffi::rlc_block_open_recovery)?;
        // SAFETY: the call takes numbers only.
        let work = memory_of(unsafe { ffi::rlc_working_memory(block.symbol_size, block.k) })?;
        Ok(BlockRecovery { memory, work, block })
    }

    /// Takes a source packet and the flow that came beside it. Gives how many source symbols became known; the draws are 0.
    ///
    /// # Errors
    ///
    /// In this order: [`Refusal::Form`] under 6 bytes, [`Refusal::Block`] for another block number, another k or an ESI of k or more,
    /// [`Refusal::Long`], [`Refusal::Contradiction`].
    pub fn receive_source(&mut self, flow: u8, packet: &[u8]) -> Result<Received, Refusal> {
        let BlockRecovery { memory, work, .. } = self;
        // SAFETY: pointers and lengths are those of slices that are borrowed for the call alone; the two mutable ones are apart.
        received(unsafe {
            ffi::rlc_block_receive_source(
                memory.as_mut_ptr(),
                memory.len(),
                work.as_mut_ptr(),
                work.len(),
                flow,
                packet.as_ptr(),
                packet.len(),
            )
        })
    }

    /// Takes a repair packet. Gives how many source symbols became known; the draws are 0.
    ///
    /// # Errors
    ///
    /// In this order: [`Refusal::Form`] where it is not 6 + symbol size bytes, [`Refusal::Block`] for another block number, another k or an
    /// ESI that is not k to total − 1, [`Refusal::Contradiction`].
    pub fn receive_repair(&mut self, packet: &[u8]) -> Result<Received, Refusal> {
        let BlockRecovery { memory, work, .. } = self;
        // SAFETY: as above.
        received(unsafe {
            ffi::rlc_block_receive_repair(memory.as_mut_ptr(), memory.len(), work.as_mut_ptr(), work.len(), packet.as_ptr(), packet.len())
        })
    }

    /// The bytes of a known source symbol, where they lie in the recovery: flow, length of the ADU (2 bytes, big-endian), ADU, zeros. They
    /// are as the packets imply them: neither length nor zeros are judged.
    ///
    /// # Errors
    ///
    /// [`Refusal::Unknown`], also for an ESI of k or more.
    pub fn symbol(&self, esi: u32) -> Result<&[u8], Refusal> {
        // SAFETY: pointer and length are those of a slice that is borrowed for the call alone.
        let place = unsafe { ffi::rlc_block_symbol_place(self.memory.as_ptr(), self.memory.len(), esi) };
        symbol_at(&self.memory, place, self.block.symbol_size)
    }

    /// Whether a known source symbol was heard or solved: see [`Receiver::origin`](crate::Receiver::origin).
    ///
    /// # Errors
    ///
    /// Those of [`BlockRecovery::symbol`].
    pub fn origin(&self, esi: u32) -> Result<Origin, Refusal> {
        // SAFETY: pointer and length are those of a slice that is borrowed for the call alone.
        origin(unsafe { ffi::rlc_block_symbol(self.memory.as_ptr(), self.memory.len(), esi) })
    }

    /// The block that this recovery was opened with.
    #[must_use]
    pub fn block(&self) -> Block {
        self.block
    }
}

impl fmt::Debug for BlockEncoder {
    fn fmt(&self, f: &mut fmt::Formatter<'_>) -> fmt::Result {
        f.debug_struct("BlockEncoder").field("block", &self.block).finish_non_exhaustive()
    }
}

impl fmt::Debug for BlockRecovery {
    fn fmt(&self, f: &mut fmt::Formatter<'_>) -> fmt::Result {
        f.debug_struct("BlockRecovery").field("block", &self.block).finish_non_exhaustive()
    }
}
