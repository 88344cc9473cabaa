//! The two ends of a block, as `pair` has those of a stream: every call goes to the C interface on lent memory, to the Rust types and to the
//! second implementation, and all answers, bytes and memories must agree.

use super::pair::{compare_part, from_safe, longer, opened, output, Working, Written};
use super::Lent;
use crate::reference::block::{Block, Encoder, Recovery};
use crate::reference::random::Random;
use crate::reference::{as_c, Answer};
use rlc8681::{BlockEncoder, BlockRecovery, Origin};

/// A block as the Rust types take it.
pub fn safe(block: Block) -> rlc8681::Block {
    let Block { symbol_size, k, total, number } = block;
    rlc8681::Block { symbol_size: symbol_size as u32, k: k as u32, total: total as u32, number }
}

/// How the C interface opens an end of a block.
pub type Open = fn(&mut [u8], u32, u32, u32, u32) -> i64;

/// Memory in which one end of a block is opened.
fn opened_block(random: &mut Random, block: Block, open: Open) -> Lent {
    let rlc8681::Block { symbol_size, k, total, number } = safe(block);
    assert_eq!(super::receiver_memory(symbol_size, k), block.memory() as i64);
    assert_eq!(super::working_memory(symbol_size, k), block.working_memory() as i64);
    opened(random, block.memory(), |memory| open(memory, symbol_size, k, total, number))
}

#[derive(Clone)]
pub struct Encoders {
    pub reference: Encoder,
    pub memory: Lent,
    safe: BlockEncoder,
}

impl Encoders {
    pub fn open(block: Block, random: &mut Random) -> Encoders {
        let memory = opened_block(random, block, super::block_open_encoder);
        Encoders { reference: Encoder::open(block), memory, safe: BlockEncoder::open(safe(block)).unwrap() }
    }

    /// Gives an ADU to all three, with output of some length: the source packet, or what all say.
    pub fn add_adu(&mut self, random: &mut Random, flow: u8, adu: &[u8]) -> Result<Vec<u8>, u32> {
        let mut out = output(random, adu.len() + 6);
        let (out_before, memory_before) = (out.get().to_vec(), self.memory.get().to_vec());
        let expected = self.reference.add_adu(memory_before.len(), flow, adu, out_before.len());
        let answer = super::block_add_adu(self.memory.lend(), flow, adu, out.lend());
        self.compare(&expected, answer, &out, &out_before, &memory_before);
        let mut again = out_before;
        assert_eq!(from_safe(self.safe.add_adu(flow, adu, &mut again).map(|bytes| (bytes, 0))), answer);
        assert!(again == out.get(), "the Rust type's output");
        expected
    }

    /// Asks all three for the repair packet with an ESI.
    pub fn make_repair(&self, random: &mut Random, esi: u32) -> Result<Vec<u8>, u32> {
        let mut out = output(random, 6 + self.reference.block.symbol_size);
        let (out_before, memory_before) = (out.get().to_vec(), self.memory.get().to_vec());
        let expected = self.reference.make_repair(memory_before.len(), esi, out_before.len());
        let answer = super::block_make_repair(self.memory.get(), esi, out.lend());
        self.compare(&expected, answer, &out, &out_before, &memory_before);
        assert!(self.memory.get() == memory_before, "making repair changed the encoder's memory");
        let mut again = out_before;
        assert_eq!(from_safe(self.safe.make_repair(esi, &mut again).map(|bytes| (bytes, 0))), answer);
        assert!(again == out.get(), "the Rust type's output");
        expected
    }

    fn compare(&self, expected: &Result<Vec<u8>, u32>, answer: i64, out: &Lent, out_before: &[u8], memory_before: &[u8]) {
        let written = Written { memory: &self.memory, memory_before, out, out_before };
        written.compare(&expected.clone().map(|packet| (packet, 0)), answer, self.reference.block.memory());
    }

    /// All packets of the block, by ESI, for these flows and ADUs: calls whose output was too short are made again.
    pub fn packets(&mut self, random: &mut Random, adus: &[(u8, Vec<u8>)]) -> Vec<Packet> {
        let Block { k, total, .. } = self.reference.block;
        let mut packets = Vec::new();
        for (flow, adu) in adus {
            packets.push((Some(*flow), enough(|| self.add_adu(random, *flow, adu))));
        }
        for esi in k..total {
            packets.push((None, enough(|| self.make_repair(random, esi as u32))));
        }
        packets
    }
}

/// What a call answers once its output is long enough.
fn enough(mut call: impl FnMut() -> Result<Vec<u8>, u32>) -> Vec<u8> {
    loop {
        match call() {
            Ok(packet) => break packet,
            Err(number) => assert_eq!(number, 2),
        }
    }
}

/// A packet on its way, with the flow beside it where it is a source packet.
pub type Packet = (Option<u8>, Vec<u8>);

/// What a recovery did in a run, so that a test can see that it met what it is meant to meet.
#[derive(Clone, Default, Debug)]
pub struct Tally {
    /// Packets by answer: accepted with nothing new, with one and with more symbols new; refused, by number.
    pub accepted: [u64; 3],
    pub refused: [u64; 19],
    /// Packets accepted that left the block incomplete, made it complete, and came after that.
    pub filled: [u64; 3],
    /// Packets accepted whose ESI came before: while the block was incomplete, and after.
    pub repeated: [u64; 2],
    /// Contradictions by an ESI that came before, while the block was incomplete and after, and by another.
    pub unlike: [u64; 3],
    /// Symbol calls that showed one, solved and heard, and those that said 12 for an ESI below k and for others.
    pub shown: [u64; 2],
    pub unknown: [u64; 2],
    /// The source packets that made nothing known and yet were the first of their ESI.
    pub heard_later: u64,
}

impl Tally {
    pub fn add(&mut self, other: &Tally) {
        let sum = |a: &mut [u64], b: &[u64]| a.iter_mut().zip(b).for_each(|(a, b)| *a += b);
        sum(&mut self.accepted, &other.accepted);
        sum(&mut self.refused, &other.refused);
        sum(&mut self.filled, &other.filled);
        sum(&mut self.repeated, &other.repeated);
        sum(&mut self.unlike, &other.unlike);
        sum(&mut self.shown, &other.shown);
        sum(&mut self.unknown, &other.unknown);
        self.heard_later += other.heard_later;
    }

    /// Prints what happened, for `--nocapture`, and panics where one of these refusals or anything else was never met (in whole runs).
    pub fn met(&self, refused: &[usize]) {
        println!("{self:?}");
        if std::env::var_os("RLC8681_SEED").is_none() {
            let all = [&self.accepted[..], &self.filled, &self.repeated, &self.unlike, &self.shown, &self.unknown, &[self.heard_later]];
            assert!(all.concat().iter().all(|&count| count > 0), "{self:?}");
            assert!(refused.iter().all(|&number| self.refused[number] > 0), "{self:?}");
        }
    }
}

#[derive(Clone)]
pub struct Recoveries {
    pub reference: Recovery,
    pub memory: Lent,
    before: Vec<u8>,
    work: Lent,
    safe: BlockRecovery,
    pub tally: Tally,
}

impl Recoveries {
    pub fn open(block: Block, random: &mut Random) -> Recoveries {
        let memory = opened_block(random, block, super::block_open_recovery);
        let before = memory.get().to_vec();
        let work = Lent::new(&longer(random, block.working_memory()));
        let safe = BlockRecovery::open(safe(block)).unwrap();
        Recoveries { reference: Recovery::open(block), memory, before, work, safe, tally: Tally::default() }
    }

    pub fn block(&self) -> Block {
        self.reference.block
    }

    fn complete(&self) -> bool {
        self.reference.esis.len() >= self.block().k
    }

    /// Gives a packet to all three; a source packet where a flow stands beside it.
    pub fn receive(&mut self, random: &mut Random, (flow, packet): &Packet) -> Answer {
        let (size, work_size) = (self.block().memory(), self.block().working_memory());
        if random.chance(3) {
            self.work = Lent::new(&longer(random, work_size));
        }
        if random.chance(2) {
            self.lend_too_little(random, *flow, packet);
        }
        let (complete, esis, heard) = (self.complete(), self.reference.esis.len(), self.reference.heard.len());
        let lent = self.memory.get().len();
        let work_past = self.work.get()[work_size..].to_vec();
        let (expected, answer, safe) = match *flow {
            Some(flow) => (
                self.reference.receive_source(lent, self.work.get().len(), flow, packet),
                super::block_receive_source(self.memory.lend(), self.work.lend(), flow, packet),
                self.safe.receive_source(flow, packet),
            ),
            None => (
                self.reference.receive_repair(lent, self.work.get().len(), packet),
                super::block_receive_repair(self.memory.lend(), self.work.lend(), packet),
                self.safe.receive_repair(packet),
            ),
        };
        let about = || format!("flow {flow:?}, packet {packet:02x?}, block {:?}, ESIs {:?}", self.block(), self.reference.esis);
        assert_eq!(answer, as_c(expected), "a recovery's answer; {}", about());
        assert_eq!(from_safe(safe.map(|received| (received.known, received.draws))), answer, "the Rust type's answer; {}", about());
        self.memory.check();
        self.work.check();
        assert!(self.work.get()[work_size..] == work_past, "past the working memory's size");
        match expected {
            Ok((count, _)) => {
                assert!(self.memory.get()[size..] == self.before[size..], "past the recovery's size");
                self.before.copy_from_slice(self.memory.get());
                self.tally.accepted[count.min(2) as usize] += 1;
                self.tally.filled[usize::from(complete) + usize::from(self.complete())] += 1;
                self.tally.repeated[usize::from(complete)] += u64::from(self.reference.esis.len() == esis);
                self.tally.heard_later += u64::from(count == 0 && self.reference.heard.len() > heard);
                self.compare_block();
            }
            Err(number) => {
                assert!(self.memory.get() == self.before, "a refusal changed the recovery's memory");
                self.tally.refused[number as usize] += 1;
                if number == 11 {
                    self.count_unlike(flow.is_some(), packet);
                }
            }
        }
        expected
    }

    /// Counts a packet that contradicts.
    fn count_unlike(&mut self, source: bool, packet: &[u8]) {
        let esi = packet[if source { packet.len() - 3 } else { 3 }];
        let before = self.reference.esis.contains(&usize::from(esi));
        // A new ESI contradicts only where k others were accepted
        assert!(before || self.complete(), "ESI {esi} after {:?}", self.reference.esis);
        self.tally.unlike[if before { usize::from(self.complete()) } else { 2 }] += 1;
    }

    /// The same packet, and the showing calls, with too short memories.
    fn lend_too_little(&mut self, random: &mut Random, flow: Option<u8>, packet: &[u8]) {
        let (size, work_size) = (self.block().memory(), self.block().working_memory());
        let mut working = Working { memory: &mut self.memory, size, work: &mut self.work, work_size };
        let short = working.lend_too_little(random, |memory, work| match flow {
            Some(flow) => super::block_receive_source(memory, work, flow, packet),
            None => super::block_receive_repair(memory, work, packet),
        });
        assert_eq!([super::block_symbol(&short, 0), super::block_symbol_place(&short, 0)], [-3; 2]);
    }

    /// Asks all three for what the symbol call answers at each ESI of the block. Known are all once k different ESIs were accepted, and just
    /// those heard before.
    fn compare_block(&mut self) {
        for esi in 0..self.block().k {
            let expected = match self.reference.heard.contains(&esi) {
                true => Ok((0, 1)),
                false if self.complete() => Ok((0, 0)),
                false => Err(12),
            };
            assert_eq!(self.compare_symbol(esi as u32), expected, "symbol {esi}, ESIs {:?}", self.reference.esis);
        }
    }

    /// Asks all three for what the symbol call answers: known or not, heard or solved.
    fn compare_symbol(&mut self, esi: u32) -> Answer {
        let expected = self.reference.symbol(self.memory.get().len(), esi);
        assert_eq!(super::block_symbol(self.memory.get(), esi), as_c(expected), "symbol {esi}, ESIs {:?}", self.reference.esis);
        let origin = self.safe.origin(esi).map(|origin| (0, u32::from(origin == Origin::Heard)));
        assert_eq!(from_safe(origin), as_c(expected), "the Rust type's origin of symbol {esi}");
        match expected {
            Ok((_, heard)) => self.tally.shown[heard as usize] += 1,
            Err(_) => self.tally.unknown[usize::from(esi as usize >= self.block().k)] += 1,
        }
        expected
    }

    /// Asks all three for the symbol at an ESI.
    pub fn look(&mut self, esi: u32) {
        let _ = self.compare_symbol(esi);
        let memory = self.memory.get();
        let part = self.reference.part(memory.len(), esi);
        let place = super::block_symbol_place(memory, esi);
        compare_part(part, &memory[..self.block().memory()], place, self.safe.symbol(esi), esi);
        assert!(memory == self.before, "a showing call changed the recovery's memory");
    }

    /// Looks at the whole block, and at ESIs past it: numbers that would be in it if they were cut to 8 or 16 bits among them.
    pub fn look_around(&mut self) {
        let Block { k, total, .. } = self.block();
        for esi in 0..k {
            self.look(esi as u32);
        }
        for esi in [k, total - 1, total, 255, 256, 257, 65_536, 1 << 31, u32::MAX as usize] {
            if esi >= k {
                self.look(esi as u32);
            }
        }
    }
}
