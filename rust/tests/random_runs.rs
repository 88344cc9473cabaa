//! Random runs of the library beside the second sender and receiver.

mod library;
mod reference;

use library::pair::{Receivers, Senders, Stray, Tally, STRAYS};
use library::runs;
use library::stream::{beginning, damaged, flow, flows, odd, setting, Packet, Stream};
use reference::coefficients::{combination, drawn_list};
use reference::random::Random;
use reference::{moved, source_packet, Flows, Setting};
use std::collections::HashMap;

/// One run: packets around the window, made to fit one stream or not, in any order. While there is no base they lie around any ESI.
fn mixed_run(random: &mut Random, receivers: &mut Receivers, packets: usize) {
    let setting = receivers.setting();
    let width = setting.width as u64;
    let mut stream = Stream::new(setting);
    let beginning = u64::from(beginning(random));
    let mut held: Vec<Packet> = Vec::new();
    let mut past: Vec<Packet> = Vec::new();
    let sources = random.one_of(&[10, 40, 70]);
    let oddity = random.one_of(&[0, 2, 15]);
    let damage = random.one_of(&[0, 2, 10]);
    let repeats = random.one_of(&[0, 5]);
    let jumps = random.one_of(&[0, 0, 1, 5]);
    let looks = match setting.width * setting.symbol_size {
        0..=2000 => 60,
        2001..=50_000 => 10,
        _ => 2,
    };
    if receivers.base().is_none() {
        receivers.look_around(random);
    }
    for _ in 0..packets {
        let base = receivers.base().unwrap_or(beginning);
        let packet = if random.chance(if receivers.base().is_none() { 40 } else { oddity }) {
            odd(random, setting, base)
        } else if random.chance(repeats) && !past.is_empty() {
            past[random.below(past.len() as u64) as usize].clone()
        } else if random.chance(15) && !held.is_empty() {
            held.swap_remove(random.below(held.len() as u64) as usize)
        } else {
            let ahead = match random.below(100) {
                p if p < jumps => random.below(65_600),
                0..=30 => random.below(width),
                31..=60 => random.below(width.min(4) + 1),
                61..=90 => width.saturating_sub(random.below(3)),
                91..=92 => (1 << 32) - 1 - random.below(3),
                _ => random.below(width + 3),
            };
            let position = base + ahead;
            let made = if random.chance(sources) { stream.source(random, position) } else { None };
            made.unwrap_or_else(|| {
                let n = if random.chance(50) { random.between(1, setting.width.min(4)) } else { random.between(1, setting.width) };
                stream.repair(random, position, n)
            })
        };
        let packet = if random.chance(damage) { damaged(random, packet) } else { packet };
        if random.chance(10) {
            held.push(packet);
            continue;
        }
        let _ = receivers.receive(random, packet.0, &packet.1);
        if past.len() < 50 {
            past.push(packet);
        } else {
            let at = random.below(50) as usize;
            past[at] = packet;
        }
        if random.chance(looks) {
            receivers.look_around(random);
        }
    }
    receivers.look_around(random);
}

/// Packets of any kind around one window, from a fresh receiver.
#[test]
fn receiver_on_mixed_packets() {
    let mut tally = Tally::default();
    runs(2000, |seed| {
        let random = &mut Random::new(seed);
        let setting = setting(random, 255, 1500);
        let flows = flows(random);
        let mut receivers = Receivers::open_with(setting, flows, random);
        let packets = if setting.width > 100 { 30 } else { 100 };
        mixed_run(random, &mut receivers, packets);
        tally.add(&receivers.tally);
    });
    tally.told("mixed packets");
    tally.met(&[4, 5, 6, 8, 9, 11, 16], &[0, 2, 8, 12, 13, 14, 16]);
    tally.met_joining(&[4, 5, 6, 11, 16]);
    tally.met_strays(&STRAYS);
}

/// The same with wide windows, long enough that they fill and move on.
#[test]
fn receiver_with_wide_windows() {
    let mut tally = Tally::default();
    runs(40, |seed| {
        let random = &mut Random::new(seed);
        let width = if random.chance(50) { random.between(60, 255) } else { random.one_of(&[64, 254, 255]) };
        let setting = Setting { width, ..setting(random, 255, 1500) };
        let flows = flows(random);
        let mut receivers = Receivers::open_with(setting, flows, random);
        mixed_run(random, &mut receivers, 400);
        tally.add(&receivers.tally);
    });
    tally.told("wide windows");
    tally.met(&[8, 11, 16], &[0, 12, 13]);
}

/// The same with one receiver for thousands of packets, all of whose equations the second receiver keeps.
#[test]
fn receiver_with_long_histories() {
    let mut tally = Tally::default();
    runs(6, |seed| {
        let random = &mut Random::new(seed);
        let setting = setting(random, 12, 9);
        let flows = flows(random);
        let mut receivers = Receivers::open_with(setting, flows, random);
        for _ in 0..20 {
            mixed_run(random, &mut receivers, 150);
        }
        tally.add(&receivers.tally);
    });
    tally.told("long histories");
    tally.met(&[8, 16], &[0, 12, 13, 16]);
}

/// A receiver that joined at ESI 0 and whose base stands just below this position, reached by packets as far ahead as they may be.
fn driven(setting: Setting, position: u64, random: &mut Random) -> Receivers {
    let flows = flows(random).list();
    let flow = flows.first().copied().unwrap_or(1);
    let mut receivers = Receivers::open_with(setting, Flows::only(&[flows, vec![flow]].concat()), random);
    let mut last = 0;
    loop {
        let packet = source_packet(&[random.byte()], last);
        assert_eq!(receivers.receive(random, Some(flow), &packet), Ok((1, 0)));
        if last == position {
            break receivers;
        }
        last = position.min(receivers.base().unwrap() + 65_535);
    }
}

/// ESIs wrap at 2^32; positions, marks and equations go on. Below the wrap's half nothing may be taken as behind.
#[test]
fn receiver_past_the_wrap() {
    let mut tally = Tally::default();
    let mut crossed = 0;
    runs(4, |seed| {
        let random = &mut Random::new(seed);
        let setting = setting(random, 12, 12);
        let below = random.below(30);
        let receivers = driven(setting, (1 << 32) - 20 - below, random);
        assert!(receivers.base() < Some(1 << 32));
        for _ in 0..40 {
            let mut receivers = receivers.clone();
            receivers.tally = Tally::default();
            mixed_run(random, &mut receivers, 100);
            tally.add(&receivers.tally);
            crossed += u64::from(receivers.base() > Some(1 << 32));
        }
    });
    assert!(crossed > 0);
    tally.told("the wrap");
    tally.met(&[4, 5, 6, 8, 9, 11, 16], &[0, 2, 8, 12, 13, 16]);
}

/// A link that loses, repeats and reorders packets, but changes none.
struct Link {
    bursts: bool,
    losing: bool,
    loss: u64,
    late: Vec<(u64, Packet)>,
    now: u64,
}

impl Link {
    /// What arrives when this packet is sent.
    fn send(&mut self, random: &mut Random, packet: Packet) -> Vec<Packet> {
        self.now += 1;
        if self.bursts && random.chance(if self.losing { 30 } else { 5 }) {
            self.losing = !self.losing;
        }
        let lost = if self.bursts { self.losing } else { random.chance(self.loss) };
        if !lost {
            let copies = if random.chance(5) { 2 } else { 1 };
            for _ in 0..copies {
                let delay = if random.chance(15) { random.below(12) } else { 0 };
                self.late.push((self.now + delay, packet.clone()));
            }
        }
        let (arrived, late) = std::mem::take(&mut self.late).into_iter().partition(|(at, _)| *at <= self.now);
        self.late = late;
        arrived.into_iter().map(|(_, packet)| packet).collect()
    }
}

/// How one run over a link sends.
struct Sending {
    /// The ESI of the first symbol, and how many ADUs pass before the receiver is switched on.
    beginning: u32,
    unheard: usize,
    adus: usize,
    /// A repair packet after every so many ADUs, mostly with this density threshold.
    spacing: usize,
    dt: u32,
    /// How often, in a hundred ADUs, the whole window is compared.
    looks: u64,
}

/// One run of a sender, a link and a receiver. What the receiver shows and hands out is what was sent, and a packet takes as many draws at
/// the receiver as it took at the sender. Gives how many symbols repair packets made known.
fn link_run(random: &mut Random, senders: &mut Senders, receivers: &mut Receivers, mut link: Link, sending: &Sending) -> u64 {
    let setting = senders.reference.setting;
    let mut found = 0;
    let mut draws_of = HashMap::new();
    for i in 0..sending.adus {
        let symbols = if random.chance(70) { 1 } else { random.between(1, setting.width.min(6)) };
        let length = random.between(0, symbols * setting.symbol_size - 3);
        let adu = random.bytes(length);
        let flow = flow(random);
        let Ok(packet) = senders.add_adu(random, flow, &adu) else { continue };
        let mut packets = vec![(Some(flow), packet)];
        if i % sending.spacing == 0 {
            let count = if random.chance(70) { 1 } else { random.between(1, 16) as u32 };
            let dt = if random.chance(80) { sending.dt } else { random.below(16) as u32 };
            let key = random.next() as u16;
            if let Ok((packet, draws)) = senders.make_repair(random, key, dt, count) {
                draws_of.insert(moved(false, &packet, sending.beginning), draws);
                packets.push((None, packet));
            }
        }
        for (flow, packet) in packets {
            let packet = moved(flow.is_some(), &packet, sending.beginning);
            let arrived = link.send(random, (flow, packet));
            for (flow, packet) in if i < sending.unheard { Vec::new() } else { arrived } {
                match (receivers.receive(random, flow, &packet), flow) {
                    (Ok((_, draws)), Some(_)) => assert_eq!(draws, 0),
                    (Ok((known, draws)), None) => {
                        assert_eq!(draws, draws_of[&packet]);
                        found += known;
                    }
                    (Err(16), Some(flow)) => assert!(!receivers.reference.flows.contains(flow), "refused: flow {flow}"),
                    (Err(number), _) => assert!([4, 6, 8].contains(&number), "refused: {number}"),
                }
            }
        }
        if random.chance(sending.looks) {
            receivers.look_around(random);
            compare_with_sent(senders, receivers, sending.beginning);
        }
    }
    receivers.look_around(random);
    compare_with_sent(senders, receivers, sending.beginning);
    found
}

/// Any setting, from any ESI on, with a receiver that is there from the beginning or joins later; another width and other flows at the other
/// end now and then.
#[test]
fn sender_over_a_link() {
    let mut tally = Tally::default();
    let mut strays = 0;
    runs(400, |seed| {
        let random = &mut Random::new(seed);
        let setting = setting(random, 255, 1500);
        let sent_flows = if random.chance(50) { Flows::all() } else { flows(random) };
        let mut senders = Senders::open_with(setting, sent_flows, random);
        // The other end may be wider or narrower, and may announce more or fewer flows
        let other = if random.chance(60) { setting.width } else { random.between(1, 255) };
        let other_flows = if random.chance(60) { sent_flows } else { flows(random) };
        let mut receivers = Receivers::open_with(Setting { width: other, ..setting }, other_flows, random);
        let loss = random.one_of(&[5, 20, 50]);
        let link = Link { bursts: random.chance(40), losing: false, loss, late: Vec::new(), now: 0 };
        let looks = match other * setting.symbol_size {
            50_001.. => 3,
            _ if other > 30 => 10,
            _ => 60,
        };
        let adus = if setting.width > 60 { 40 } else { 120 };
        let unheard = if random.chance(50) { 0 } else { random.between(0, adus / 2) };
        let beginning = beginning(random);
        let sending = Sending { beginning, unheard, adus, spacing: random.between(1, 5), dt: random.below(16) as u32, looks };
        link_run(random, &mut senders, &mut receivers, link, &sending);
        tally.add(&receivers.tally);
        strays += senders.strays[0];
    });
    tally.told("a link");
    tally.met(&[6, 8, 16], &[0, 8, 12, 13, 16]);
    tally.met_joining(&[16]);
    tally.met_strays(&[Stray::Withheld, Stray::WithheldShort, Stray::Passed]);
    assert!(strays > 0 || std::env::var_os("RLC8681_SEED").is_some(), "no ADU of a flow that its sender does not announce");
}

/// The sizes that streams are sent with, and the largest, until the window is full and has moved on.
#[test]
fn largest_sizes_over_a_link() {
    let mut tally = Tally::default();
    runs(24, |seed| {
        let random = &mut Random::new(seed);
        let (symbol_size, width) = [(1400, 64), (1400, 255), (1500, 255)][seed as usize / 2 % 3];
        let setting = Setting { scheme: 9 + seed as u32 % 2, symbol_size, width };
        let mut senders = Senders::open(setting, random);
        let mut receivers = Receivers::open(setting, random);
        let loss = random.one_of(&[5, 10, 15]);
        let link = Link { bursts: seed / 6 % 2 == 1, losing: false, loss, late: Vec::new(), now: 0 };
        let dt = if setting.scheme == 9 { 7 } else { 15 };
        let beginning = beginning(random);
        let unheard = random.between(0, 50);
        // A repair packet that reaches back to before the joining one is behind: a window of symbols passes before repair helps
        let adus = 400 + unheard + width;
        let sending = Sending { beginning, unheard, adus, spacing: random.between(2, 3), dt, looks: 2 };
        let found = link_run(random, &mut senders, &mut receivers, link, &sending);
        let heard = receivers.tally.accepted.iter().sum::<u64>();
        assert!(found > 0 && heard > setting.width as u64, "{found} symbols found, {heard} packets accepted");
        tally.add(&receivers.tally);
    });
    tally.told("largest sizes");
    tally.met(&[], &[0, 12, 13]);
}

/// Every symbol that the receiver shows is the sender's, whose first has the ESI `beginning`, and every ADU that it hands out is one that was
/// sent, with its flow, which it announces; every ADU that it withholds for its flow was sent too, and it does not announce that flow.
fn compare_with_sent(senders: &Senders, receivers: &Receivers, beginning: u32) {
    let setting = receivers.setting();
    let memory = receivers.memory.get();
    let Some(base) = receivers.base() else { return };
    for position in base..base + setting.width as u64 {
        let esi = position as u32;
        let sent = u64::from(esi.wrapping_sub(beginning));
        let place = library::symbol_place(memory, esi);
        if let Ok(place) = usize::try_from(place) {
            assert_eq!(memory[place..place + setting.symbol_size], senders.reference.symbols[sent as usize], "symbol {position}");
        }
        let mut out = vec![0; setting.width * setting.symbol_size];
        let answer = library::adu(memory, esi, &mut out);
        assert!(answer != -14, "no ADU sent breaks its form");
        if answer >= 0 || answer == -16 {
            let found = senders.reference.adus.binary_search_by_key(&sent, |adu| adu.0).expect("an ADU was sent here");
            let (_, flow, adu) = &senders.reference.adus[found];
            assert_eq!(answer >= 0, receivers.reference.flows.contains(*flow));
            if answer >= 0 {
                assert_eq!(answer, i64::from(*flow) * 65_536 + adu.len() as i64);
                assert_eq!(out[..adu.len()], adu[..]);
            }
        }
    }
}

/// A sender's calls with any arguments.
#[test]
fn sender_on_any_arguments() {
    let mut strays = [0; 3];
    runs(600, |seed| {
        let random = &mut Random::new(seed);
        let setting = setting(random, 255, 1500);
        let flows = flows(random);
        let mut senders = Senders::open_with(setting, flows, random);
        for _ in 0..60 {
            if random.chance(50) {
                let most = setting.width * setting.symbol_size - 3;
                let length = match random.below(8) {
                    0 => most,
                    1 => most + 1,
                    2 => 0,
                    3 => random.between(0, most + 2),
                    _ => random.between(0, 3 * setting.symbol_size),
                };
                let adu = random.bytes(length.min(66_000));
                let flow = flow(random);
                let _ = senders.add_adu(random, flow, &adu);
            } else {
                let key = if random.chance(20) { random.one_of(&[0, 1, 65_530, 65_535]) } else { random.next() as u16 };
                let dt = if random.chance(5) { random.one_of(&[16, 255, u32::MAX]) } else { random.below(16) as u32 };
                let count = match random.below(10) {
                    0 => random.one_of(&[0, 17, u32::MAX]),
                    1 => 16,
                    _ => random.between(1, 3) as u32,
                };
                let _ = senders.make_repair(random, key, dt, count);
            }
        }
        strays.iter_mut().zip(senders.strays).for_each(|(all, count)| *all += count);
    });
    println!("strays at the sender: {}, {} of them too long, {} others with too short an output", strays[0], strays[1], strays[2]);
    assert!(strays.iter().all(|&count| count > 0) || std::env::var_os("RLC8681_SEED").is_some(), "strays {strays:?}");
}

/// ADUs of 65,535 and 65,536 bytes at both ends.
#[test]
fn longest_adus() {
    let random = &mut Random::new(1);
    let setting = Setting { scheme: 10, symbol_size: 1500, width: 50 };
    let mut senders = Senders::open(setting, random);
    let mut receivers = Receivers::open(setting, random);
    for length in [65_535, 65_536, 65_540] {
        let adu = random.bytes(length);
        let _ = senders.add_adu(random, 9, &adu);
        let answer = receivers.receive(random, Some(9), &source_packet(&adu, 0));
        assert_eq!(answer, if length == 65_535 { Ok((44, 0)) } else { Err(4) });
        receivers.look_around(random);
    }
}

/// A sender whose ESIs wrap: some seventeen million ADUs of 255 symbols.
#[test]
#[ignore = "takes half a minute: tests/run has it where RLC8681_RUNS is set"]
fn sender_past_the_wrap() {
    let mut memory = vec![0; 64 + 255 * 4];
    assert_eq!(library::sender_open(&mut memory, 10, 4, 255, &library::ALL), 0);
    let adu = vec![7; 255 * 4 - 3];
    let mut out = vec![0; adu.len() + 4];
    let calls = (1u64 << 32) / 255 + 1;
    for _ in 0..calls {
        assert_eq!(library::add_adu(&mut memory, 1, &adu, &mut out), out.len() as i64);
    }
    assert_eq!(library::add_adu(&mut memory, 1, &[8], &mut out), 5);
    assert_eq!(out[1..5], ((calls * 255) as u32).to_be_bytes());
    let mut repair = [0; 12];
    let (_, draws) = drawn_list(reference::Field::Gf256, 5, 15, 255).unwrap();
    assert_eq!(library::parts(library::make_repair(&memory, 5, 15, 1, &mut repair)), (12, draws));
    assert_eq!(repair[4..8], ((calls * 255 - 254) as u32).to_be_bytes());
    let symbols: Vec<Vec<u8>> = {
        let setting = Setting { scheme: 10, symbol_size: 4, width: 255 };
        let all = [setting.cut(1, &adu), setting.cut(1, &[8])].concat();
        all[1..].to_vec()
    };
    assert_eq!(repair[8..], combination(reference::Field::Gf256, 5, 15, &symbols, 4).unwrap());
}
