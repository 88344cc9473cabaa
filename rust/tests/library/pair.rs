//! The library and the second implementation side by side. Every call goes to the C interface on lent memory, to the Rust types and to the
//! second implementation, and all answers, bytes and memories must agree.

use super::Lent;
use crate::reference::random::Random;
use crate::reference::receiver::length_in;
use crate::reference::{self, as_c, Answer, Flows, Setting};
use rlc8681::{Origin, Refusal, Scheme};

fn scheme(setting: Setting) -> Scheme {
    if setting.scheme == 9 {
        Scheme::Gf2
    } else {
        Scheme::Gf256
    }
}

/// An answer of the Rust types, its value and the number beside it, as the C interface gives it.
pub(super) fn from_safe(answer: Result<(usize, u32), Refusal>) -> i64 {
    as_c(answer.map(|(value, beside)| (value as u64, u64::from(beside))).map_err(|refusal| u32::from(refusal.number())))
}

/// The flows as the Rust types take them.
fn safe_flows(flows: Flows) -> rlc8681::Flows {
    if flows == Flows::all() {
        rlc8681::Flows::all()
    } else {
        rlc8681::Flows::only(&flows.list())
    }
}

/// Junk that is lent beyond the size that a call needs.
pub(super) fn longer(random: &mut Random, size: usize) -> Vec<u8> {
    let extra = if random.chance(50) { 0 } else { random.between(1, 40) };
    random.bytes(size + extra)
}

/// Memory in which this call opens an end of some size. The memory's other bytes stay.
pub(super) fn opened(random: &mut Random, size: usize, open: impl Fn(&mut [u8]) -> i64) -> Lent {
    let content = longer(random, size);
    let mut memory = Lent::new(&content);
    assert_eq!(open(memory.lend()), 0);
    memory.check();
    assert_eq!(memory.get()[size..], content[size..], "past the end's size");
    memory
}

/// Output of some length near the one needed, with random content.
pub(super) fn output(random: &mut Random, needed: usize) -> Lent {
    let len = match random.below(10) {
        0 => random.between(0, needed),
        1 => needed.saturating_sub(1),
        2..=5 => needed,
        _ => needed + random.between(1, 30),
    };
    Lent::new(&random.bytes(len))
}

/// An end's memory and what a call writes to, and both as they were before the call.
pub(super) struct Written<'a> {
    pub memory: &'a Lent,
    pub memory_before: &'a [u8],
    pub out: &'a Lent,
    pub out_before: &'a [u8],
}

impl Written<'_> {
    /// What a call of an end of this size answered and left: the packet at the front of the output and all else as it was, or no change.
    pub fn compare(&self, expected: &Result<(Vec<u8>, u64), u32>, answer: i64, size: usize) {
        let number = as_c(expected.as_ref().map(|(packet, draws)| (packet.len() as u64, *draws)).map_err(|&r| r));
        assert_eq!(answer, number, "the answer of an end that writes packets");
        let mut wanted = self.out_before.to_vec();
        if let Ok((packet, _)) = expected {
            wanted[..packet.len()].copy_from_slice(packet);
        } else {
            assert!(self.memory.get() == self.memory_before, "a refusal changed the memory");
        }
        assert!(self.out.get() == wanted, "the output of an end that writes packets");
        self.out.check();
        self.memory.check();
        assert!(self.memory.get()[size..] == self.memory_before[size..], "past the end's size");
    }
}

/// An end's memory and the working memory lent with it, of these sizes and perhaps more.
pub(super) struct Working<'a> {
    pub memory: &'a mut Lent,
    pub size: usize,
    pub work: &'a mut Lent,
    pub work_size: usize,
}

impl Working<'_> {
    /// A packet call with too short memories: refusals 3 and 2, before anything about the packet. Gives the memory that was too short.
    pub fn lend_too_little(&mut self, random: &mut Random, call: impl Fn(&mut [u8], &mut [u8]) -> i64) -> Vec<u8> {
        let short = random.between(0, self.size - 1);
        let short_work = random.between(0, self.work_size - 1);
        let (before, work_before) = (self.memory.get().to_vec(), self.work.get().to_vec());
        assert_eq!(call(&mut self.memory.lend()[..short], self.work.lend()), -3);
        assert_eq!(call(&mut self.memory.lend()[..short], &mut self.work.lend()[..short_work]), -3);
        assert!(self.work.get() == work_before, "working memory after refusal 3");
        assert_eq!(call(self.memory.lend(), &mut self.work.lend()[..short_work]), -2);
        assert!(self.work.get()[short_work..] == work_before[short_work..], "past the working memory lent");
        assert!(self.memory.get() == before, "a refusal changed the memory");
        before[..short].to_vec()
    }
}

/// Compares what a place call and the Rust type tell of a symbol with its bytes, or with the refusal; `memory` is of the end's size.
pub(super) fn compare_part(expected: Result<&[u8], u32>, memory: &[u8], place: i64, safe: Result<&[u8], Refusal>, esi: u32) {
    match expected {
        Ok(bytes) => {
            let place = usize::try_from(place).unwrap_or_else(|_| panic!("symbol {esi} is known, its place says {place}"));
            assert!(place + bytes.len() <= memory.len(), "the place lies in the memory");
            assert_eq!(&memory[place..place + bytes.len()], bytes, "bytes of symbol {esi}");
            assert_eq!(safe, Ok(bytes), "the Rust type's symbol {esi}");
        }
        Err(number) => {
            assert_eq!(place, -i64::from(number), "place of symbol {esi}");
            assert_eq!(safe.map_err(|r| u32::from(r.number())), Err(number));
        }
    }
}

#[derive(Clone)]
pub struct Senders {
    pub reference: reference::Sender,
    pub memory: Lent,
    safe: rlc8681::Sender,
    /// ADUs of flows that are not announced: all of them; those that are too long as well; the others whose output was too short.
    pub strays: [u64; 3],
}

impl Senders {
    /// Senders that announce all flows.
    pub fn open(setting: Setting, random: &mut Random) -> Senders {
        Senders::open_with(setting, Flows::all(), random)
    }

    pub fn open_with(setting: Setting, flows: Flows, random: &mut Random) -> Senders {
        let Setting { scheme: number, symbol_size, width } = setting;
        let size = setting.sender_memory();
        assert_eq!(super::sender_memory(symbol_size as u32, width as u32), size as i64);
        let open = |memory: &mut [u8]| super::sender_open(memory, number, symbol_size as u32, width as u32, &flows.bytes());
        let memory = opened(random, size, open);
        let safe = rlc8681::Sender::open(scheme(setting), symbol_size as u32, width as u32, &safe_flows(flows)).unwrap();
        Senders { reference: reference::Sender::open(setting, flows), memory, safe, strays: [0; 3] }
    }

    /// What one call left, given what was there before it.
    fn compare(&self, expected: &Result<(Vec<u8>, u64), u32>, answer: i64, out: &Lent, out_before: &[u8], memory_before: &[u8]) {
        let written = Written { memory: &self.memory, memory_before, out, out_before };
        written.compare(expected, answer, self.reference.setting.sender_memory());
    }

    pub fn add_adu(&mut self, random: &mut Random, flow: u8, adu: &[u8]) -> Result<Vec<u8>, u32> {
        let mut out = output(random, adu.len() + 4);
        let (before, memory_before) = (out.get().to_vec(), self.memory.get().to_vec());
        let expected = self.reference.add_adu(flow, adu, before.len());
        if expected == Err(16) {
            let setting = self.reference.setting;
            let long = adu.len() > 65_535 || setting.symbols_of(adu.len()) > setting.width;
            self.strays[0] += 1;
            self.strays[1] += u64::from(long);
            self.strays[2] += u64::from(!long && before.len() < adu.len() + 4);
        }
        let answer = super::add_adu(self.memory.lend(), flow, adu, out.lend());
        self.compare(&expected.clone().map(|packet| (packet, 0)), answer, &out, &before, &memory_before);
        let mut again = before;
        assert_eq!(from_safe(self.safe.add_adu(flow, adu, &mut again).map(|bytes| (bytes, 0))), answer);
        assert!(again == out.get(), "the Rust type's output");
        expected
    }

    /// The packet and the draws that it took.
    pub fn make_repair(&self, random: &mut Random, key: u16, dt: u32, count: u32) -> Result<(Vec<u8>, u64), u32> {
        let mut out = output(random, 8 + count.min(20) as usize * self.reference.setting.symbol_size);
        let before = out.get().to_vec();
        let memory_before = self.memory.get().to_vec();
        let expected = self.reference.make_repair(key, dt, count, before.len());
        let answer = super::make_repair(self.memory.get(), key, dt, count, out.lend());
        self.compare(&expected, answer, &out, &before, &memory_before);
        assert!(self.memory.get() == memory_before, "making repair changed the sender's memory");
        let mut again = before;
        assert_eq!(from_safe(self.safe.make_repair(key, dt, count, &mut again).map(|repair| (repair.bytes, repair.draws))), answer);
        assert!(again == out.get(), "the Rust type's output");
        expected
    }
}

/// What a receiver met of flows that it does not announce. The source packets of such flows, refused with 16, by the rule after 16 that they
/// break too; those that are refused with 5 before it; and what the ADU call said of ADUs that were solved.
#[derive(Clone, Copy, Debug, PartialEq, Eq)]
pub enum Stray {
    Truncated,
    Long,
    Behind,
    Ahead,
    Unlike,
    /// It breaks no other rule, as far as its first symbol tells.
    Fitting,
    /// The ADU call: 14 for its padding; 16 with room for the ADU, and with too little; and an ADU handed out that comes after one withheld.
    Padded,
    Withheld,
    WithheldShort,
    Passed,
}

pub const STRAYS: [Stray; 10] = {
    use Stray::*;
    [Truncated, Long, Behind, Ahead, Unlike, Fitting, Padded, Withheld, WithheldShort, Passed]
};

/// What a receiver did in a run, so that a test can see that it met what it is meant to meet.
#[derive(Clone, Default, Debug)]
pub struct Tally {
    /// Packets by answer: accepted with nothing new, with one and with more symbols new; refused, by number.
    pub accepted: [u64; 3],
    pub refused: [u64; 17],
    /// Of these: source and repair packets that set the base, packets refused while there was none, by number, and packets accepted with
    /// a base whose ESI had wrapped.
    pub joined: [u64; 2],
    pub refused_first: [u64; 17],
    pub wrapped: u64,
    /// The draws of the packets accepted, and the source packets that made nothing known and yet were the first to name a symbol.
    pub draws: u64,
    pub heard_later: u64,
    /// Symbol calls that showed one, solved and heard; ADU calls by refusal, place 0 for those handed out.
    pub shown: [u64; 2],
    pub adus: [u64; 17],
    /// By kind of stray.
    pub strays: [u64; STRAYS.len()],
}

impl Tally {
    pub fn packets(&self) -> u64 {
        self.accepted.iter().sum::<u64>() + self.refused.iter().sum::<u64>()
    }

    /// Prints what happened, for `--nocapture`.
    pub fn told(&self, name: &str) {
        let Tally { accepted, refused, joined, refused_first, wrapped, draws, heard_later, shown, adus, strays } = self;
        let packets = self.packets();
        println!("{name}: {packets} packets, accepted {accepted:?}, refused {refused:?}, {draws} draws, {heard_later} heard later");
        println!("{name}: solved and heard symbols shown {shown:?}, ADU calls {adus:?}");
        println!("{name}: joined {joined:?}, refused before {refused_first:?}, accepted past the wrap {wrapped}");
        let strays: Vec<String> = STRAYS.iter().zip(strays).map(|(stray, count)| format!("{stray:?} {count}")).collect();
        println!("{name}: strays: {}", strays.join(", "));
    }

    fn stray(&mut self, stray: Stray) {
        self.strays[stray as usize] += 1;
    }

    /// Panics where a kind of stray was never met (in whole runs).
    pub fn met_strays(&self, strays: &[Stray]) {
        if std::env::var_os("RLC8681_SEED").is_none() {
            assert!(strays.iter().all(|&stray| self.strays[stray as usize] > 0), "strays {:?}", self.strays);
        }
    }

    /// Panics where no source packet or no repair packet set a base, none was accepted past the wrap, or one of these refusals never came
    /// before any base (in whole runs).
    pub fn met_joining(&self, refused: &[usize]) {
        if std::env::var_os("RLC8681_SEED").is_none() {
            assert!(self.joined.iter().all(|&count| count > 0), "joined {:?}", self.joined);
            assert!(self.wrapped > 0, "no base passed the wrap");
            assert!(refused.iter().all(|&number| self.refused_first[number] > 0), "refused before {:?}", self.refused_first);
        }
    }

    /// Panics where one of these refusals of packets, or of these answers of the ADU call, was never met, nothing drawn, or no symbol heard,
    /// solved, or heard after it was solved (in whole runs).
    pub fn met(&self, refused: &[usize], adus: &[usize]) {
        if std::env::var_os("RLC8681_SEED").is_none() {
            assert!(self.draws > 0);
            assert!(self.shown.iter().all(|&count| count > 0) && self.heard_later > 0, "{:?}, {}", self.shown, self.heard_later);
            assert!(refused.iter().all(|&number| self.refused[number] > 0), "packets refused {:?}", self.refused);
            assert!(adus.iter().all(|&number| self.adus[number] > 0), "ADU calls {:?}", self.adus);
        }
    }

    pub fn add(&mut self, other: &Tally) {
        self.accepted.iter_mut().zip(other.accepted).for_each(|(a, b)| *a += b);
        self.refused.iter_mut().zip(other.refused).for_each(|(a, b)| *a += b);
        self.joined.iter_mut().zip(other.joined).for_each(|(a, b)| *a += b);
        self.refused_first.iter_mut().zip(other.refused_first).for_each(|(a, b)| *a += b);
        self.shown.iter_mut().zip(other.shown).for_each(|(a, b)| *a += b);
        self.adus.iter_mut().zip(other.adus).for_each(|(a, b)| *a += b);
        self.strays.iter_mut().zip(other.strays).for_each(|(a, b)| *a += b);
        self.wrapped += other.wrapped;
        self.draws += other.draws;
        self.heard_later += other.heard_later;
    }
}

#[derive(Clone)]
pub struct Receivers {
    pub reference: reference::Receiver,
    pub memory: Lent,
    before: Vec<u8>,
    work: Lent,
    pub safe: rlc8681::Receiver,
    pub tally: Tally,
    /// The ESI after the ADU that was withheld last.
    after_stray: Option<u32>,
}

impl Receivers {
    /// Receivers that announce all flows.
    pub fn open(setting: Setting, random: &mut Random) -> Receivers {
        Receivers::open_with(setting, Flows::all(), random)
    }

    pub fn open_with(setting: Setting, flows: Flows, random: &mut Random) -> Receivers {
        let Setting { scheme: number, symbol_size, width } = setting;
        let size = setting.receiver_memory();
        assert_eq!(super::receiver_memory(symbol_size as u32, width as u32), size as i64);
        assert_eq!(super::working_memory(symbol_size as u32, width as u32), setting.working_memory() as i64);
        let open = |memory: &mut [u8]| super::receiver_open(memory, number, symbol_size as u32, width as u32, &flows.bytes());
        let memory = opened(random, size, open);
        let safe = rlc8681::Receiver::open(scheme(setting), symbol_size as u32, width as u32, &safe_flows(flows)).unwrap();
        let before = memory.get().to_vec();
        let work = Lent::new(&longer(random, setting.working_memory()));
        let reference = reference::Receiver::open(setting, flows);
        Receivers { reference, memory, before, work, safe, tally: Tally::default(), after_stray: None }
    }

    pub fn setting(&self) -> Setting {
        self.reference.setting
    }

    /// The base; none before a packet was accepted.
    pub fn base(&self) -> Option<u64> {
        self.reference.base
    }

    /// Gives a packet to all three; a source packet where a flow stands beside it.
    pub fn receive(&mut self, random: &mut Random, flow: Option<u8>, packet: &[u8]) -> Answer {
        let (size, work_size) = (self.setting().receiver_memory(), self.setting().working_memory());
        if random.chance(3) {
            self.work = Lent::new(&longer(random, work_size));
        }
        if random.chance(2) {
            self.lend_too_little(random, flow, packet);
        }
        let fresh = self.base().is_none();
        let heard = self.reference.heard.len();
        let lent = self.memory.get().len();
        let work_past = self.work.get()[work_size..].to_vec();
        let (expected, answer, safe) = match flow {
            Some(flow) => (
                self.reference.receive_source(lent, self.work.get().len(), flow, packet),
                super::receive_source(self.memory.lend(), self.work.lend(), flow, packet),
                self.safe.receive_source(flow, packet),
            ),
            None => (
                self.reference.receive_repair(lent, self.work.get().len(), packet),
                super::receive_repair(self.memory.lend(), self.work.lend(), packet),
                self.safe.receive_repair(packet),
            ),
        };
        assert_eq!(answer, as_c(expected), "a receiver's answer; flow {flow:?}, packet {packet:02x?}, base {:?}", self.base());
        assert_eq!(from_safe(safe.map(|received| (received.known, received.draws))), answer, "the Rust type's answer");
        self.memory.check();
        self.work.check();
        assert!(self.work.get()[work_size..] == work_past, "past the working memory's size");
        match expected {
            Ok((count, draws)) => {
                assert!(self.memory.get()[size..] == self.before[size..], "past the receiver's size");
                self.before.copy_from_slice(self.memory.get());
                self.tally.accepted[count.min(2) as usize] += 1;
                self.tally.draws += draws;
                self.tally.heard_later += u64::from(count == 0 && self.reference.heard.len() > heard);
                self.tally.joined[usize::from(flow.is_none())] += u64::from(fresh);
                self.tally.wrapped += u64::from(self.base() >= Some(1 << 32));
                self.compare_window();
                if flow.is_some() {
                    self.check_heard(packet);
                }
            }
            Err(number) => {
                assert!(self.memory.get() == self.before, "a refusal changed the receiver's memory");
                self.tally.refused[number as usize] += 1;
                self.tally.refused_first[number as usize] += u64::from(fresh);
                if let Some(flow) = flow.filter(|&flow| !self.reference.flows.contains(flow)) {
                    self.count_stray(flow, packet);
                }
            }
        }
        expected
    }

    /// Counts a source packet of a flow that is not announced, which was refused.
    fn count_stray(&mut self, flow: u8, packet: &[u8]) {
        let setting = self.setting();
        if packet.len() < 4 {
            return self.tally.stray(Stray::Truncated);
        }
        let (adu, esi) = packet.split_at(packet.len() - 4);
        let n = setting.symbols_of(adu.len());
        if adu.len() > 65_535 || n > setting.width {
            return self.tally.stray(Stray::Long);
        }
        self.tally.stray(match self.reference.place(u32::from_be_bytes(esi.try_into().unwrap()), n) {
            Err(8) => Stray::Behind,
            Err(_) => Stray::Ahead,
            Ok(first) => match self.reference.system.known(first) {
                Some(symbol) if symbol != setting.cut(flow, adu)[0] => Stray::Unlike,
                _ => Stray::Fitting,
            },
        });
    }

    /// The same packet, and the showing calls, with too short memories.
    fn lend_too_little(&mut self, random: &mut Random, flow: Option<u8>, packet: &[u8]) {
        let (size, work_size) = (self.setting().receiver_memory(), self.setting().working_memory());
        let mut working = Working { memory: &mut self.memory, size, work: &mut self.work, work_size };
        let short = working.lend_too_little(random, |memory, work| match flow {
            Some(flow) => super::receive_source(memory, work, flow, packet),
            None => super::receive_repair(memory, work, packet),
        });
        let calls = [super::symbol(&short, 0), super::symbol_place(&short, 0), super::adu(&short, 0, &mut [])];
        assert_eq!(calls, [-3; 3]);
    }

    /// Asks all three for what the symbol call answers at each position of the window.
    fn compare_window(&self) {
        let base = self.base().expect("a packet was accepted");
        for position in base..base + self.setting().width as u64 {
            let _ = self.compare_symbol(position as u32);
        }
    }

    /// Panics where a symbol of a source packet that was just accepted is not known and heard.
    fn check_heard(&self, packet: &[u8]) {
        let (adu, esi) = packet.split_at(packet.len() - 4);
        let first = u32::from_be_bytes(esi.try_into().unwrap());
        for esi in (0..self.setting().symbols_of(adu.len()) as u32).map(|i| first.wrapping_add(i)) {
            assert_eq!(super::symbol(self.memory.get(), esi), 4_294_967_296, "symbol {esi}, just heard");
        }
    }

    /// Asks all three for what the symbol call answers: known or not, heard or solved.
    fn compare_symbol(&self, esi: u32) -> Answer {
        let expected = self.reference.symbol(self.memory.get().len(), esi);
        assert_eq!(super::symbol(self.memory.get(), esi), as_c(expected), "symbol {esi}, base {:?}", self.base());
        let origin = self.safe.origin(esi).map(|origin| (0, u32::from(origin == Origin::Heard)));
        assert_eq!(from_safe(origin), as_c(expected), "the Rust type's origin of symbol {esi}");
        expected
    }

    /// Asks all three for the symbol and the ADU at an ESI.
    pub fn look(&mut self, random: &mut Random, esi: u32) {
        if let Ok((_, heard)) = self.compare_symbol(esi) {
            self.tally.shown[heard as usize] += 1;
        }
        let memory = self.memory.get();
        let place = super::symbol_place(memory, esi);
        let part = self.reference.part(memory.len(), esi);
        compare_part(part, &memory[..self.reference.setting.receiver_memory()], place, self.safe.symbol(esi), esi);
        let room = match self.reference.adu(memory.len(), esi, usize::MAX) {
            Ok(adu) if random.chance(80) => adu.bytes.len() + random.one_of(&[0, 0, 5]),
            Ok(adu) if adu.bytes.is_empty() => 0,
            Ok(adu) => random.one_of(&[0, adu.bytes.len() - 1]),
            Err(_) => random.between(0, 12),
        };
        let mut out = Lent::new(&random.bytes(room));
        let mut wanted = out.get().to_vec();
        let mut safe_out = wanted.clone();
        let expected = self.reference.adu(memory.len(), esi, room);
        let answer = super::adu(memory, esi, out.lend());
        let safe = self.safe.adu(esi, &mut safe_out);
        match &expected {
            Ok(adu) => {
                assert_eq!(answer, i64::from(adu.flow) * 65_536 + adu.bytes.len() as i64, "ADU {esi}");
                let told = safe.unwrap_or_else(|refusal| panic!("the Rust type's ADU {esi} says {refusal}"));
                assert_eq!((told.flow, told.bytes), (adu.flow, adu.bytes.as_slice()), "the Rust type's ADU {esi}");
                wanted[..adu.bytes.len()].copy_from_slice(&adu.bytes);
                self.tally.adus[0] += 1;
                if self.after_stray == Some(esi) {
                    self.tally.stray(Stray::Passed);
                }
            }
            Err(number) => {
                assert_eq!(answer, -i64::from(*number), "ADU {esi}, base {:?}", self.reference.base);
                assert_eq!(safe.map_err(|r| u32::from(r.number())).err(), Some(*number));
                self.tally.adus[*number as usize] += 1;
                self.count_withheld(esi, *number, room);
            }
        }
        assert!(out.get() == wanted, "output of ADU {esi}");
        assert!(safe_out == wanted, "the Rust type's output of ADU {esi}");
        out.check();
        assert!(self.memory.get() == self.before, "a showing call changed the receiver's memory");
    }

    /// Counts an ADU of a flow that is not announced, which was not handed out.
    fn count_withheld(&mut self, esi: u32, refusal: u32, room: usize) {
        let (setting, flows) = (self.setting(), self.reference.flows);
        let Ok(first) = self.reference.part(usize::MAX, esi) else { return };
        let (flow, length) = (first[0], length_in(first));
        let n = setting.symbols_of(length);
        match refusal {
            14 if n <= setting.width && !flows.contains(flow) => self.tally.stray(Stray::Padded),
            16 => {
                assert!(!flows.contains(flow), "ADU {esi}, flow {flow}");
                self.tally.stray(if room < length { Stray::WithheldShort } else { Stray::Withheld });
                self.after_stray = Some(esi.wrapping_add(n as u32));
            }
            _ => {}
        }
    }

    /// Looks at the whole window, at its edges and at ESIs far away; before any base, as if it stood somewhere.
    pub fn look_around(&mut self, random: &mut Random) {
        let base = self.base().unwrap_or_else(|| random.below(1 << 32));
        let width = self.setting().width as u64;
        for position in base..base + width {
            self.look(random, position as u32);
        }
        let half = 1u64 << 31;
        for ahead in [width, width + 1, 65_535, 65_536, half - 1, half, half + 1] {
            self.look(random, (base + ahead) as u32);
        }
        let esi = base.wrapping_sub(1) as u32;
        self.look(random, esi);
        let esi = random.next() as u32;
        self.look(random, esi);
    }
}
