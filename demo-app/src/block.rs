//! A still in blocks: the ADUs of a block, each one symbol, and then its repair packets go over the link, each in a datagram that is lost or
//! arrives before the next one is sent. After each block, what the recovery shows is compared with what was sent.

use crate::ends::{failed, refused, Failure};
use crate::link::{self, Kind, HEAD};
use crate::loss::Loss;
use crate::options::Options;
use crate::random::Random;
use crate::report::{self, grouped, line};
use crate::tally::{Differences, Times};
use rlc8681::{Block, BlockEncoder, BlockRecovery, Origin, Received, Refusal};
use std::fmt::Write;
use std::net::UdpSocket;
use std::time::{Duration, Instant};
use std::{fs, io};

/// The flow of a still's ADUs.
const FLOW: u8 = 1;
/// The numbers that blocks can have; then they begin again.
const NUMBERS: usize = 1 << 24;
/// Pixels in a row of the made picture.
const ROW: usize = 800;

/// The still: a file's bytes, or a picture of rings in grey with some noise.
fn still(options: &Options) -> Result<Vec<u8>, Failure> {
    if let Some(path) = &options.file {
        return fs::read(path).map_err(|why| format!("{}: {why}", path.display()));
    }
    let mut bytes = vec![0; options.symbols as usize * longest(options)];
    Random::new(options.seed).fill(&mut bytes);
    let middle = (ROW / 2, bytes.len() / ROW / 2);
    for (at, byte) in bytes.iter_mut().enumerate() {
        let (x, y) = ((at % ROW).abs_diff(middle.0), (at / ROW).abs_diff(middle.1));
        *byte = (*byte & 7) ^ ((x * x + y * y) >> 6) as u8;
    }
    Ok(bytes)
}

/// The most bytes in an ADU of one symbol.
fn longest(options: &Options) -> usize {
    options.symbol_size as usize - 3
}

/// The source symbol of an ADU: flow, length, ADU, zeros.
fn symbol_of(adu: &[u8], symbol_size: u32) -> Vec<u8> {
    let [high, low] = (adu.len() as u16).to_be_bytes();
    let mut symbol = [&[FLOW, high, low], adu].concat();
    symbol.resize(symbol_size as usize, 0);
    symbol
}

/// Packets of a kind: sent and arrived.
#[derive(Clone, Copy, Debug, Default, PartialEq, Eq)]
pub struct Packets {
    pub sent: u64,
    pub arrived: u64,
}

/// What became of some blocks, one or all.
#[derive(Clone, Copy, Debug, Default, PartialEq, Eq)]
pub struct Fate {
    pub source: Packets,
    pub repair: Packets,
    pub heard: u64,
    pub solved: u64,
    pub missing: u64,
    /// The symbols that the packet calls counted as newly known, and the bytes of the ADUs in symbols that are shown.
    pub counted: u64,
    pub bytes: u64,
}

impl Fate {
    fn add(&mut self, other: &Fate) {
        for (mine, theirs) in [(&mut self.source, other.source), (&mut self.repair, other.repair)] {
            mine.sent += theirs.sent;
            mine.arrived += theirs.arrived;
        }
        self.heard += other.heard;
        self.solved += other.solved;
        self.missing += other.missing;
        self.counted += other.counted;
        self.bytes += other.bytes;
    }

    /// What speaks against one block: it must be whole where as many packets arrived as it has ADUs, and else just what was heard. Packets
    /// that were refused are told elsewhere.
    fn fault(&self) -> Option<String> {
        let adus = self.source.sent;
        let known = if self.source.arrived + self.repair.arrived >= adus { adus } else { self.source.arrived };
        let (shown, counted) = (self.heard + self.solved, self.counted);
        if shown == known && counted == known && self.heard == self.source.arrived {
            return None;
        }
        Some(format!("{shown} symbols shown, {} heard and {counted} counted of {known} that the packets bring", self.heard))
    }
}

/// A whole run.
#[derive(Default)]
pub struct Run {
    pub blocks: Vec<Fate>,
    pub bytes: u64,
    pub link_bytes: u64,
    /// Symbols that are not what was sent, blocks that are not what they must be, and packets that were refused.
    pub differences: Differences,
    pub add: Times,
    pub make: Times,
    pub source: Times,
    pub repair: Times,
    pub time: Duration,
}

impl Run {
    pub fn all(&self) -> Fate {
        let mut all = Fate::default();
        self.blocks.iter().for_each(|fate| all.add(fate));
        all
    }

    pub fn whole(&self) -> usize {
        self.blocks.iter().filter(|fate| fate.missing == 0).count()
    }
}

/// The link, one datagram at a time.
struct Way<'a> {
    options: &'a Options,
    sockets: (UdpSocket, UdpSocket),
    loss: Loss,
    start: Instant,
    datagram: Vec<u8>,
    /// The datagrams that the link was given, those that arrived, and the bytes of all.
    given: u64,
    arrived: u64,
    bytes: u64,
}

impl<'a> Way<'a> {
    fn new(options: &'a Options) -> Result<Way<'a>, Failure> {
        let sockets = link::sockets().map_err(failed("sockets on 127.0.0.1"))?;
        let loss = Loss::new(!options.seed, options.loss, options.burst);
        let datagram = vec![0; HEAD + 6 + options.symbol_size as usize];
        Ok(Way { options, sockets, loss, start: Instant::now(), datagram, given: 0, arrived: 0, bytes: 0 })
    }

    /// Where a packet is to be written.
    fn packet(&mut self) -> &mut [u8] {
        &mut self.datagram[HEAD..]
    }

    /// Gives the packet at hand, of this length, to the link. Gives it as it arrives, with its flow; none where it is lost.
    fn carry(&mut self, kind: Kind, length: usize) -> Result<Option<(u8, &[u8])>, Failure> {
        let length = HEAD + length;
        link::write_head(&mut self.datagram, self.given as u32, kind, FLOW);
        let lost = self.loss.loses() | self.options.lose.contains(&self.given);
        self.given += 1;
        self.bytes += length as u64;
        link::keep_pace(self.options.mbit, self.start, self.bytes);
        if lost {
            return Ok(None);
        }
        let (sending, receiving) = &self.sockets;
        sending.send(&self.datagram[..length]).map_err(failed("sending a datagram"))?;
        self.datagram.fill(0);
        let length = loop {
            match receiving.recv(&mut self.datagram) {
                Err(why) if why.kind() == io::ErrorKind::Interrupted => continue,
                answer => break answer.map_err(failed("receiving a datagram"))?,
            }
        };
        let (_, _, flow, packet) = link::read(&mut self.datagram[..length]).ok_or("a datagram came that was not sent")?;
        if self.options.corrupt == Some(self.arrived) {
            link::damage(packet);
        }
        self.arrived += 1;
        Ok(Some((flow, packet)))
    }
}

/// The whole run; `watch` is told of each block by its place.
pub fn run(options: &Options, mut watch: impl FnMut(usize, &Fate)) -> Result<Run, Failure> {
    let still = still(options)?;
    let mut way = Way::new(options)?;
    let mut run = Run { bytes: still.len() as u64, ..Run::default() };
    let adus: Vec<&[u8]> = still.chunks(longest(options)).collect();
    for (place, adus) in adus.chunks(options.block as usize).enumerate() {
        let fate = send(&mut run, &mut way, place, adus)?;
        if let Some(fault) = fate.fault() {
            run.differences.add(|| format!("block {place}: {fault}"));
        }
        watch(place, &fate);
        run.blocks.push(fate);
    }
    (run.link_bytes, run.time) = (way.bytes, way.start.elapsed());
    Ok(run)
}

/// Sends one block, and looks at what is recovered.
fn send(run: &mut Run, way: &mut Way, place: usize, adus: &[&[u8]]) -> Result<Fate, Failure> {
    let (symbol_size, k) = (way.options.symbol_size, adus.len() as u32);
    let block = Block { symbol_size, k, total: way.options.block_total(k), number: (place % NUMBERS) as u32 };
    let mut encoder = BlockEncoder::open(block).map_err(refused("opening an encoder"))?;
    let mut recovery = BlockRecovery::open(block).map_err(refused("opening a recovery"))?;
    let mut fate = Fate::default();
    for adu in adus {
        let out = way.packet();
        let length = run.add.of(|| encoder.add_adu(FLOW, adu, out)).map_err(refused("adding an ADU"))?;
        fate.source.sent += 1;
        if let Some((flow, packet)) = way.carry(Kind::Source, length)? {
            fate.source.arrived += 1;
            let answer = run.source.of(|| recovery.receive_source(flow, packet));
            answered(run, &mut fate, answer);
        }
    }
    for esi in block.k..block.total {
        let out = way.packet();
        let length = run.make.of(|| encoder.make_repair(esi, out)).map_err(refused("making repair"))?;
        fate.repair.sent += 1;
        if let Some((_, packet)) = way.carry(Kind::Repair, length)? {
            fate.repair.arrived += 1;
            let answer = run.repair.of(|| recovery.receive_repair(packet));
            answered(run, &mut fate, answer);
        }
    }
    for (esi, adu) in (0..).zip(adus) {
        match recovery.origin(esi) {
            Ok(Origin::Heard) => fate.heard += 1,
            Ok(Origin::Solved) => fate.solved += 1,
            Err(_) => {
                fate.missing += 1;
                continue;
            }
        }
        fate.bytes += adu.len() as u64;
        if recovery.symbol(esi) != Ok(&symbol_of(adu, symbol_size)) {
            run.differences.add(|| format!("block {place}, the symbol of ESI {esi}"));
        }
    }
    Ok(fate)
}

/// Notes what a packet call answered.
fn answered(run: &mut Run, fate: &mut Fate, answer: Result<Received, Refusal>) {
    match answer {
        Ok(received) => fate.counted += received.known as u64,
        Err(why) => run.differences.add(|| format!("a packet of the encoder was refused ({}): {why}", why.number())),
    }
}

/// The settings, before the run, and the head of the table of blocks.
pub fn settings(options: &Options) -> String {
    let Options { symbol_size, block, seed, .. } = *options;
    let still = match &options.file {
        Some(path) => path.display().to_string(),
        None => format!("made picture, {} symbols", grouped(options.symbols)),
    };
    let (bytes, repair) = (grouped(u64::from(symbol_size)), report::counted(options.block_total(block) - block, "repair symbol"));
    let mut text = String::new();
    let _ = writeln!(text, "RFC 6865 over a lossy link: Reed-Solomon over GF(2^8); symbols of {bytes} bytes");
    let _ = writeln!(text, "  still   {still}; seed {seed}");
    let _ = writeln!(text, "  blocks  of {} and {repair}", report::counted(block, "ADU"));
    let _ = writeln!(text, "  link    UDP on 127.0.0.1, {}, {}", report::losses(options), report::pace(options));
    let _ = writeln!(text, "{:>8} {:>6} {:>6} {:>6} {:>7}   repair packets", "block", "ADUs", "heard", "solved", "missing");
    text
}

/// A block in the table.
pub fn row(place: usize, fate: &Fate) -> String {
    let Fate { source, repair, heard, solved, missing, .. } = fate;
    let arrived = format!("{} of {} arrived", repair.arrived, repair.sent);
    format!("{:>8} {:>6} {heard:>6} {solved:>6} {missing:>7}   {arrived}\n", grouped(place as u64), source.sent)
}

/// The result, after the run.
pub fn result(options: &Options, run: &Run) -> String {
    let mut text = String::new();
    let (all, blocks, whole) = (run.all(), run.blocks.len() as u64, run.whole() as u64);
    for (name, what, packets) in [("packets", "source", all.source), ("", "repair", all.repair)] {
        let lost = packets.sent - packets.arrived;
        line(&mut text, name, packets.sent, &format!("{what} sent: {} arrived, {} lost", grouped(packets.arrived), grouped(lost)));
    }
    let told = [all.heard, all.solved, all.missing].map(grouped);
    line(&mut text, "symbols", all.source.sent, &format!("sent: {} heard, {} solved, {} missing", told[0], told[1], told[2]));
    let told = format!("sent: {} recovered whole, {} in part or not at all", grouped(whole), grouped(blocks - whole));
    line(&mut text, "blocks", blocks, &told);
    line(&mut text, "bytes", run.bytes, &format!("sent: {} recovered, each compared with what was sent", grouped(all.bytes)));
    line(&mut text, "", run.link_bytes, &format!("with repair and heads, {}", report::rate(run.link_bytes, run.time)));
    let calls = [
        ("encoder: add an ADU", &run.add),
        ("encoder: make repair", &run.make),
        ("recovery: source packet", &run.source),
        ("recovery: repair packet", &run.repair),
    ];
    text.push_str(&report::times(options, &calls));
    text
}

/// The verdict, last.
pub fn verdict(run: &Run) -> String {
    let (all, Differences { count, first }) = (run.all(), &run.differences);
    match first {
        Some(first) => format!("WRONG: {count} times not what it must be; first {first}\n"),
        None if all.counted == 0 => String::from("Nothing was recovered.\n"),
        None => format!("Right: all {} symbols recovered equal those sent, every byte.\n", grouped(all.counted)),
    }
}

#[cfg(test)]
mod tests {
    use super::{run, symbol_of, Fate, Packets, Run};
    use crate::options::Options;

    #[test]
    fn a_symbol_has_flow_length_adu_and_zeros() {
        assert_eq!(symbol_of(&[7; 2], 6), [1, 0, 2, 7, 7, 0]);
        assert_eq!(symbol_of(&[], 4), [1, 0, 0, 0]);
        assert_eq!(symbol_of(&[7; 300], 303)[..4], [1, 1, 44, 7]);
    }

    #[test]
    fn what_a_block_must_be() {
        let packets = |sent, arrived| Packets { sent, arrived };
        let whole = Fate { source: packets(5, 3), repair: packets(3, 2), heard: 3, solved: 2, counted: 5, ..Fate::default() };
        let part = Fate { source: packets(5, 3), repair: packets(3, 1), heard: 3, missing: 2, counted: 3, ..Fate::default() };
        assert_eq!((whole.fault(), part.fault()), (None, None));
        for wrong in [
            Fate { solved: 1, missing: 1, ..whole },
            Fate { heard: 2, solved: 3, ..whole },
            Fate { counted: 4, ..whole },
            Fate { solved: 1, missing: 1, counted: 4, ..part },
            Fate { heard: 2, missing: 3, counted: 2, ..part },
        ] {
            assert!(wrong.fault().is_some(), "{wrong:?}");
        }
        let run = Run { blocks: vec![whole, part, whole], ..Run::default() };
        assert_eq!((run.whole(), run.all().heard, run.all().missing, run.all().repair), (2, 9, 2, packets(9, 5)));
    }

    /// The last block has what is left, and repair for it.
    #[test]
    fn a_rest_is_a_smaller_block() {
        let told = |symbols| {
            let mut told = Vec::new();
            let options = Options { block: 4, symbols, every: 3, loss: 0.0, symbol_size: 9, ..Options::default() };
            let run = run(&options, |place, fate| told.push((place, fate.source.sent, fate.repair.sent))).unwrap();
            assert_eq!((run.differences.count, run.all().bytes), (0, run.bytes));
            told
        };
        assert_eq!(told(8), [(0, 4, 2), (1, 4, 2)]);
        assert_eq!(told(9), [(0, 4, 2), (1, 4, 2), (2, 1, 1)]);
        assert_eq!(told(3), [(0, 3, 1)]);
    }
}
