//! The two ends of the link, each in its thread.

use crate::bond::{Answer, Bond};
use crate::grid::{self, Cells, Collecting, Filling, COLUMNS};
use crate::link::{self, Closing, Gate, Kind, HEAD, LARGEST};
use crate::loss::Loss;
use crate::options::Options;
use crate::stream::{symbols_of, Adu, Stream, STRAY};
use crate::tally::{Fate, Got, Packet, Run, Sent};
use rlc8681::{Flows, Origin, Receiver, Refusal, Sender};
use std::collections::VecDeque;
use std::io;
use std::net::UdpSocket;
use std::ops::Range;
use std::sync::atomic::{AtomicBool, AtomicU64, Ordering::Relaxed};
use std::sync::{Mutex, MutexGuard, PoisonError};
use std::thread;
use std::time::{Duration, Instant};

/// What both ends share: the gate, the ADUs sent and not yet passed, and what the progress is told by.
pub struct Shared {
    gate: Gate,
    ledger: Mutex<Ledger>,
    sender_done: AtomicBool,
    pub progress: Progress,
}

#[derive(Default)]
pub struct Progress {
    /// How much of the stream is sent, in thousandths.
    pub thousandths: AtomicU64,
    pub packets: AtomicU64,
    pub lost: AtomicU64,
    pub rebuilt: AtomicU64,
    pub adus: AtomicU64,
}

/// The ADUs sent, in order, each with the position of its first symbol.
#[derive(Default)]
struct Ledger(VecDeque<(u64, Adu)>);

impl Ledger {
    /// The ADU at or before a position.
    fn around(&self, position: u64) -> Option<&(u64, Adu)> {
        let after = self.0.partition_point(|(first, _)| *first <= position);
        self.0.get(after.checked_sub(1)?)
    }

    /// Whether these are the bytes of the symbol at a position: of flow, length, ADU and zeros, in this order.
    fn holds(&self, position: u64, symbol: &[u8]) -> bool {
        let Some((first, adu)) = self.around(position) else { return false };
        let Some(start) = usize::try_from(position - first).ok().and_then(|n| n.checked_mul(symbol.len())) else { return false };
        let length = adu.bytes.len();
        let [high, low] = (length as u16).to_be_bytes();
        let head = [adu.flow, high, low];
        let (head, bytes) = if start == 0 { (&head[..], &adu.bytes[..]) } else { (&[][..], adu.bytes.get(start - 3..).unwrap_or(&[])) };
        let (front, rest) = symbol.split_at(head.len().min(symbol.len()));
        let (body, zeros) = rest.split_at(bytes.len().min(rest.len()));
        start < length + 3 && front == head && body == &bytes[..body.len()] && zeros.iter().all(|&b| b == 0)
    }

    /// Drops the ADUs that end at or before a position.
    fn pass(&mut self, position: u64, symbol_size: usize) {
        while let Some((first, adu)) = self.0.front() {
            if first + symbols_of(adu.bytes.len(), symbol_size) as u64 > position {
                break;
            }
            self.0.pop_front();
        }
    }
}

impl Shared {
    fn ledger(&self) -> MutexGuard<'_, Ledger> {
        self.ledger.lock().unwrap_or_else(PoisonError::into_inner)
    }
}

/// A run's failure in words.
pub type Failure = String;

const OTHER_STOPPED: &str = "the receiving end stopped";

pub fn refused(call: &str) -> impl Fn(Refusal) -> Failure + '_ {
    move |why| format!("{call} was refused ({}): {why}", why.number())
}

pub fn failed(call: &'static str) -> impl Fn(io::Error) -> Failure {
    move |why| format!("{call}: {why}")
}

/// The whole run; `watch` is called now and then while the threads work.
pub fn run(options: &Options, mut watch: impl FnMut(&Progress)) -> Result<Run, Failure> {
    let (size, most) = (options.symbol_size as usize, options.most_symbols());
    let stream = match &options.file {
        Some(path) => Stream::file(options.seed, size, most, path).map_err(|why| format!("{}: {why}", path.display()))?,
        None => Stream::made(options.seed, size, most, options.symbols),
    };
    let Options { scheme, symbol_size, width, .. } = *options;
    let flows = stream.flows();
    let heard_flows = if options.open_to_strays { Flows::all() } else { flows };
    let sender = Sender::open(scheme, symbol_size, width, &flows).map_err(refused("opening the sender"))?;
    let open = || Receiver::open(scheme, symbol_size, options.receiver_width(), &heard_flows).map_err(refused("opening the receiver"));
    let (receiver, second) = (open()?, (options.bond > 0).then(open).transpose()?);
    let bond = second.map(|second| Bond::new(options, second));
    let (sending, receiving) = link::sockets().map_err(failed("sockets on 127.0.0.1"))?;
    let shared = Shared { gate: Gate::new(), ledger: Mutex::default(), sender_done: AtomicBool::new(false), progress: Progress::default() };
    let start = Instant::now();
    let (sent, got) = thread::scope(|scope| {
        let sends = scope.spawn(|| Sending::new(options, &shared, sending, sender).run(stream));
        let receives = scope.spawn(|| Receiving::new(options, &shared, receiving, receiver, bond).run());
        while !(sends.is_finished() && receives.is_finished()) {
            watch(&shared.progress);
            thread::sleep(Duration::from_millis(5));
        }
        (sends.join(), receives.join())
    });
    let time = start.elapsed();
    let stopped = |_| String::from("an end stopped in the middle");
    match (sent.map_err(stopped)?, got.map_err(stopped)?) {
        (Ok(sent), Ok(got)) => Ok(Run { sent, got, time }),
        // When one end fails the other one does, too: it tells less.
        (Err(why), got) if why == OTHER_STOPPED => Err(got.err().unwrap_or(why)),
        (Err(why), _) | (_, Err(why)) => Err(why),
    }
}

/// Says that the sender is done, whatever ended it.
struct Done<'a>(&'a AtomicBool);

impl Drop for Done<'_> {
    fn drop(&mut self) {
        self.0.store(true, Relaxed);
    }
}

struct Sending<'a> {
    options: &'a Options,
    shared: &'a Shared,
    socket: UdpSocket,
    sender: Sender,
    filling: Option<Filling>,
    loss: Loss,
    start: Instant,
    datagram: Vec<u8>,
    key: u16,
    /// The datagrams that the link was given, and the ADUs in them: fewer than were made while a grid is filled.
    datagrams: u32,
    adus: u64,
    log: Sent,
}

impl<'a> Sending<'a> {
    fn new(options: &'a Options, shared: &'a Shared, socket: UdpSocket, sender: Sender) -> Sending<'a> {
        // The losses are drawn from a seed of their own, so that a file and a made stream meet the same ones.
        let loss = Loss::new(!options.seed, options.loss, options.burst);
        let (filling, datagram, log) = (Filling::new(options), vec![0; LARGEST], Sent::default());
        let start = Instant::now();
        Sending { options, shared, socket, sender, filling, loss, start, datagram, key: 0, datagrams: 0, adus: 0, log }
    }

    fn run(mut self, mut stream: Stream) -> Result<Sent, Failure> {
        let _done = Done(&self.shared.sender_done);
        let mut since = 0;
        while let Some(adu) = stream.next().map_err(failed("reading the stream"))? {
            if self.log.adus.checked_rem(self.options.stray) == Some(0) {
                self.stray()?;
            }
            self.source(adu)?;
            since += 1;
            if since == self.options.every {
                since = 0;
                self.repair()?;
            }
            self.shared.progress.thousandths.store((stream.share() * 1000.0) as u64, Relaxed);
        }
        // The last symbols get the repair packets that a further window of symbols would have brought.
        let between = (self.log.symbols * u64::from(self.options.every)).checked_div(self.log.adus);
        for _ in 0..between.map_or(0, |symbols| u64::from(self.options.width) / symbols.max(1) + 1) {
            self.repair()?;
        }
        if self.filling.as_ref().is_some_and(|filling| !filling.is_empty()) {
            self.grid()?;
        }
        self.shared.progress.thousandths.store(1000, Relaxed);
        link::write_head(&mut self.datagram, 0, Kind::End, 0);
        self.datagram(HEAD)?;
        Ok(self.log)
    }

    /// Whether the receiver is not switched on yet.
    fn unheard(&self) -> bool {
        self.adus < self.options.join
    }

    fn source(&mut self, adu: Adu) -> Result<(), Failure> {
        let (sender, out) = (&mut self.sender, &mut self.datagram[HEAD..]);
        let written = self.log.add.of(|| sender.add_adu(adu.flow, &adu.bytes, out)).map_err(refused("adding an ADU"))?;
        let symbols = symbols_of(adu.bytes.len(), self.options.symbol_size as usize);
        let packet = Packet { kind: Kind::Source, lost: false, unheard: false, first: self.log.symbols, symbols: symbols as u32 };
        let flow = adu.flow;
        self.log.adus += 1;
        self.log.bytes += adu.bytes.len() as u64;
        self.log.symbols += symbols as u64;
        self.log.flows.insert(flow);
        let mut ledger = self.shared.ledger();
        ledger.0.push_back((packet.first, adu));
        if self.unheard() {
            // No packet to come, nor any in the grid, reaches further back.
            let Options { width, interleave, symbol_size, .. } = *self.options;
            ledger.pass(self.log.symbols.saturating_sub(u64::from(width + interleave * COLUMNS)), symbol_size as usize);
        }
        drop(ledger);
        self.send(packet, flow, written)
    }

    /// A stray comes: its ADU is given to the sender, which refuses it, and a packet of it, numbered a window ahead, to the link, which loses
    /// none of these.
    fn stray(&mut self) -> Result<(), Failure> {
        const ADU: u8 = 0x5a;
        match self.sender.add_adu(STRAY, &[ADU], &mut self.datagram[HEAD..]) {
            Err(Refusal::Unannounced) => self.log.strays += 1,
            answer => return Err(format!("adding a stray ADU was answered {answer:?}")),
        }
        if self.unheard() {
            return Ok(());
        }
        self.log.stray_packets += 1;
        let [a, b, c, d] = ((self.log.symbols + u64::from(self.options.width)) as u32).to_be_bytes();
        let packet = [ADU, a, b, c, d];
        link::write_head(&mut self.datagram, u32::MAX, Kind::Source, STRAY);
        self.datagram[HEAD..HEAD + packet.len()].copy_from_slice(&packet);
        self.datagram(HEAD + packet.len())
    }

    fn repair(&mut self) -> Result<(), Failure> {
        let Options { density, repairs, width, .. } = *self.options;
        let (sender, key, out) = (&self.sender, self.key, &mut self.datagram[HEAD..]);
        let repair = self.log.make.of(|| sender.make_repair(key, density, repairs, out)).map_err(refused("making repair"))?;
        self.key = key.wrapping_add(repairs as u16);
        let symbols = self.log.symbols.min(u64::from(width));
        let first = self.log.symbols - symbols;
        let packet = Packet { kind: Kind::Repair, lost: false, unheard: false, first, symbols: symbols as u32 };
        self.send(packet, 0, repair.bytes)
    }

    /// Gives the packet at hand to the link, or to the grid where there is one.
    fn send(&mut self, packet: Packet, flow: u8, length: usize) -> Result<(), Failure> {
        let number = self.log.packets.len() as u32;
        self.log.packets.push(packet);
        link::write_head(&mut self.datagram, number, packet.kind, flow);
        let Some(filling) = &mut self.filling else { return self.give(Some(number), HEAD + length) };
        filling.put(&self.datagram[..HEAD + length]);
        if filling.is_full() {
            self.grid()?;
        }
        Ok(())
    }

    /// Gives the cells of the grid to the link, each in a datagram, in send order.
    fn grid(&mut self) -> Result<(), Failure> {
        let Some(filling) = &mut self.filling else { return Ok(()) };
        let mut cells = filling.send().map_err(refused("interleaving"))?;
        for cell in cells.iter_mut() {
            link::write_head(&mut self.datagram, self.datagrams, Kind::Cell, 0);
            self.datagram[HEAD..HEAD + cell.len()].copy_from_slice(cell);
            let length = HEAD + cell.len();
            self.give(grid::read(cell).map(|(number, ..)| number), length)?;
        }
        Ok(())
    }

    /// Gives the datagram at hand to the link, which may lose it, with the packet of this number; none in an empty cell.
    fn give(&mut self, number: Option<u32>, length: usize) -> Result<(), Failure> {
        let unheard = self.unheard();
        let lost = (self.loss.loses() | self.options.lose.contains(&u64::from(self.datagrams))) && !unheard;
        self.datagrams += 1;
        self.log.link_bytes += length as u64;
        if let Some(number) = number {
            let packet = &mut self.log.packets[number as usize];
            (packet.lost, packet.unheard) = (lost, unheard);
            self.adus += u64::from(packet.kind == Kind::Source);
            self.log.order.push(number);
            self.shared.progress.packets.fetch_add(1, Relaxed);
            self.shared.progress.lost.fetch_add(u64::from(lost), Relaxed);
        }
        if !lost && !unheard {
            self.datagram(length)?;
        }
        link::keep_pace(self.options.mbit, self.start, self.log.link_bytes);
        Ok(())
    }

    fn datagram(&mut self, length: usize) -> Result<(), Failure> {
        if !self.shared.gate.enter(length) {
            return Err(String::from(OTHER_STOPPED));
        }
        self.socket.send(&self.datagram[..length]).map(|_| ()).map_err(failed("sending a datagram"))
    }
}

/// The positions ahead that a packet may name.
const REACH: u64 = 65_536;

/// After how many others a packet comes that is late.
const LATE: u64 = 12;

struct Receiving<'a> {
    options: &'a Options,
    shared: &'a Shared,
    socket: UdpSocket,
    receiver: Receiver,
    /// The second receiver, where there are two links.
    bond: Option<Bond>,
    collecting: Option<Collecting>,
    /// The packet that is late, until its turn comes.
    held: Option<(u32, Kind, u8, Vec<u8>)>,
    /// The position after the last that a packet told of.
    top: u64,
    /// The position of the next start.
    next: u64,
    adu: Vec<u8>,
    log: Got,
}

impl<'a> Receiving<'a> {
    fn new(options: &'a Options, shared: &'a Shared, socket: UdpSocket, receiver: Receiver, bond: Option<Bond>) -> Receiving<'a> {
        let (collecting, adu, log) = (Collecting::new(options), vec![0; 65_535], Got::default());
        Receiving { options, shared, socket, receiver, bond, collecting, held: None, top: 0, next: 0, adu, log }
    }

    fn run(mut self) -> Result<Got, Failure> {
        let _closing = Closing(&self.shared.gate);
        let mut datagram = vec![0; LARGEST];
        loop {
            let length = match self.socket.recv(&mut datagram) {
                Ok(length) => length,
                Err(why) if matches!(why.kind(), io::ErrorKind::WouldBlock | io::ErrorKind::TimedOut) => {
                    if self.shared.sender_done.load(Relaxed) {
                        return Err(String::from("the end of the stream did not arrive"));
                    }
                    continue;
                }
                Err(why) if why.kind() == io::ErrorKind::Interrupted => continue,
                Err(why) => return Err(failed("receiving a datagram")(why)),
            };
            self.shared.gate.leave(length);
            let Some((number, kind, flow, packet)) = link::read(&mut datagram[..length]) else { continue };
            match (kind, &mut self.collecting) {
                (Kind::Source, _) if flow == STRAY => self.stray(packet),
                (Kind::Source | Kind::Repair, _) => self.arrive(number, kind, flow, packet),
                (Kind::Cell, Some(collecting)) => {
                    let before = collecting.put(number, packet).map_err(refused("putting a grid back"))?;
                    self.grid(before);
                }
                (Kind::Cell, None) => {}
                (Kind::End, collecting) => {
                    let last = collecting.as_mut().map(Collecting::put_back).transpose().map_err(refused("putting a grid back"))?;
                    self.grid(last);
                    self.late();
                    self.meet();
                    self.leave(self.top);
                    self.log.paths = self.bond.map(|bond| bond.paths).unwrap_or_default();
                    return Ok(self.log);
                }
            }
        }
    }

    /// The packets of a grid that was put back arrive, in the order in which they were made.
    fn grid(&mut self, cells: Option<Cells>) {
        let Some(mut cells) = cells else { return };
        for (number, kind, flow, packet) in cells.iter_mut().filter_map(grid::read) {
            self.arrive(number, kind, flow, packet);
        }
    }

    /// A packet of the stream arrives, from the link or out of a grid.
    fn arrive(&mut self, number: u32, kind: Kind, flow: u8, packet: &mut [u8]) {
        if self.options.late.is_some_and(|late| self.log.arrived > late + LATE) {
            self.late();
        }
        if self.options.corrupt == Some(self.log.arrived) {
            link::damage(packet);
        }
        let late = self.options.late == Some(self.log.arrived);
        self.log.arrived += 1;
        if late {
            self.held = Some((number, kind, flow, packet.to_vec()));
        } else {
            self.take(number, kind, flow, packet);
        }
    }

    /// The turn of the packet that is late has come.
    fn late(&mut self) {
        if let Some((number, kind, flow, packet)) = self.held.take() {
            self.take(number, kind, flow, &packet);
        }
    }

    /// The positions that a packet names, by the ESI in it that is nearest; a joining one, by its ESI itself.
    fn named(&self, kind: Kind, packet: &[u8]) -> Option<Range<u64>> {
        let size = self.options.symbol_size as usize;
        let (esi, symbols) = match kind {
            Kind::Source => (packet.get(packet.len().checked_sub(4)?..)?, symbols_of(packet.len() - 4, size)),
            _ => (packet.get(4..8)?, usize::from(u16::from_be_bytes([packet[2], packet[3]]) & 0xfff)),
        };
        let esi = u32::from_be_bytes(esi.try_into().ok()?);
        let near = || self.top.checked_add_signed(i64::from(esi.wrapping_sub(self.top as u32) as i32));
        let first = self.log.joined.map_or(Some(u64::from(esi)), |_| near())?;
        Some(first..first + symbols as u64)
    }

    /// Where the window begins; there is none before a packet was accepted.
    fn base(&self) -> Option<u64> {
        Some(self.top.saturating_sub(u64::from(self.options.receiver_width())).max(self.log.joined?))
    }

    /// A stray came: the receiver refuses it because of its flow, and so does the second, where there is one.
    fn stray(&mut self, packet: &[u8]) {
        match self.receiver.receive_source(STRAY, packet) {
            Err(Refusal::Unannounced) => self.log.strays += 1,
            answer => self.log.differences.add(|| format!("a stray packet, answered {answer:?}")),
        }
        if self.bond.as_mut().is_some_and(|bond| !bond.refuses(STRAY, packet)) {
            self.log.differences.add(|| String::from("a stray packet, not refused for its flow by the second receiver"));
        }
    }

    /// Takes a packet, and hands out what can be then.
    fn take(&mut self, number: u32, kind: Kind, flow: u8, packet: &[u8]) {
        if self.bond.as_ref().is_some_and(|bond| bond.is_over(number)) {
            self.meet();
        }
        let answer = self.packet(number, kind, flow, packet);
        if let (Some(bond), Some(answer)) = (&mut self.bond, answer) {
            bond.take(number, kind, flow, packet, answer);
        }
        self.walk();
    }

    /// The second receiver, where there is one, gets all that the first has had, and is compared with it.
    fn meet(&mut self) {
        let base = self.base();
        if let Some(bond) = &mut self.bond {
            bond.meet(&self.receiver, base);
        }
    }

    /// The answer to a packet; none where it names no positions.
    fn packet(&mut self, number: u32, kind: Kind, flow: u8, packet: &[u8]) -> Option<Answer> {
        let named = self.named(kind, packet)?;
        if self.log.joined.is_some() && named.end <= self.top + REACH {
            self.leave(named.end.saturating_sub(u64::from(self.options.receiver_width())));
        }
        let (receiver, log) = (&mut self.receiver, &mut self.log);
        let answer = match kind {
            Kind::Source => log.source.of(|| receiver.receive_source(flow, packet)),
            _ => log.repair.of(|| receiver.receive_repair(packet)),
        };
        let count = match answer {
            Ok(received) => received.known as u64,
            Err(why) => {
                self.log.refused[usize::from(why.number()).min(16)] += 1;
                let early = why == Refusal::Behind && self.log.joined.is_some_and(|joined| named.start < joined);
                self.log.early += u64::from(early);
                return Some(answer);
            }
        };
        self.log.counted += count;
        if kind == Kind::Source {
            self.log.accepted.push(number);
        }
        if self.log.joined.is_none() {
            // Nothing before the joining packet's first position will ever be shown.
            self.log.joined = Some(named.start);
            (self.top, self.next) = (named.start, named.start);
        }
        if named.end > self.top {
            self.log.fates.resize(usize::try_from(named.end).unwrap_or(usize::MAX), Fate::Never);
            self.top = named.end;
        }
        // What lies before the window can't be shown any more.
        let base = self.base()?;
        self.shared.ledger().pass(base, self.options.symbol_size as usize);
        for position in base..self.top {
            self.ask(position, number);
        }
        Some(answer)
    }

    /// Asks the receiver for a position of its window, after the packet with this number was accepted: it tells what it heard and what it
    /// solved. What is newly known is compared with what was sent.
    fn ask(&mut self, position: u64, number: u32) {
        let esi = position as u32;
        let Ok(origin) = self.receiver.origin(esi) else { return };
        let before = self.log.fates[position as usize];
        if before == Fate::Never && !self.receiver.symbol(esi).is_ok_and(|symbol| self.shared.ledger().holds(position, symbol)) {
            self.log.differences.add(|| format!("the symbol of ESI {esi}"));
        }
        let rebuilt = &self.shared.progress.rebuilt;
        self.log.fates[position as usize] = match (origin, before) {
            (Origin::Heard, Fate::Rebuilt(_)) => {
                rebuilt.fetch_sub(1, Relaxed);
                self.log.later += 1;
                Fate::Heard
            }
            (Origin::Heard, _) => Fate::Heard,
            (Origin::Solved, Fate::Rebuilt(by)) => Fate::Rebuilt(by),
            (Origin::Solved, _) => {
                rebuilt.fetch_add(1, Relaxed);
                Fate::Rebuilt(number)
            }
        };
    }

    /// Hands out the ADU that starts at a position and compares it with the one sent. Gives its symbols.
    fn hand_out(&mut self, position: u64) -> Result<u64, Refusal> {
        let start = Instant::now();
        let answer = self.receiver.adu(position as u32, &mut self.adu);
        let time = start.elapsed();
        let adu = match answer {
            Ok(adu) => adu,
            Err(why) => {
                self.log.adu_refused.add(time);
                return Err(why);
            }
        };
        self.log.adu.add(time);
        self.log.adus += 1;
        self.log.bytes += adu.bytes.len() as u64;
        self.shared.progress.adus.fetch_add(1, Relaxed);
        let difference = match self.shared.ledger().around(position) {
            Some((first, sent)) if *first == position => difference(sent, adu.flow, adu.bytes),
            _ => Some(String::from("no ADU began there")),
        };
        if let Some(what) = difference {
            self.log.differences.add(|| format!("the ADU of ESI {}: {what}", position as u32));
        }
        Ok(symbols_of(adu.bytes.len(), self.options.symbol_size as usize) as u64)
    }

    /// Hands out what can be: each start in order, and past one that left the window, the next that is marked.
    fn walk(&mut self) {
        let mut tried = self.next;
        loop {
            match self.hand_out(tried) {
                Ok(symbols) => {
                    tried += symbols;
                    self.next = tried;
                }
                Err(Refusal::Behind) => {
                    tried += 1;
                    self.next = tried;
                }
                Err(Refusal::NoStart) => tried += 1,
                // The start is marked and its ADU not yet known, or the window ends here.
                Err(_) => break,
            }
        }
    }

    /// Hands out what is known before the window moves on to this base: what still misses there will not come.
    fn leave(&mut self, base: u64) {
        while self.next < base {
            self.next += self.hand_out(self.next).unwrap_or(1);
        }
    }
}

/// How an ADU handed out differs from the one sent, if it does.
fn difference(sent: &Adu, flow: u8, bytes: &[u8]) -> Option<String> {
    if sent.flow != flow {
        return Some(format!("flow {flow} instead of {}", sent.flow));
    }
    if sent.bytes.len() != bytes.len() {
        return Some(format!("{} bytes instead of {}", bytes.len(), sent.bytes.len()));
    }
    let at = sent.bytes.iter().zip(bytes).position(|(a, b)| a != b)?;
    Some(format!("byte {at} is {} instead of {}", bytes[at], sent.bytes[at]))
}
