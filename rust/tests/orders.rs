//! Two paths, one picture (document 02, No. 10): two receivers that are opened alike and accept the same packets, each read at the same
//! position, have the same base, know the same positions and show the same bytes, in whatever order the packets came and whatever else was
//! refused. Starts may differ, and counts on the way. Library, Rust types and second decoder go side by side, and the two receivers are
//! compared call by call.

mod library;
mod reference;

use library::pair::Receivers;
use library::stream::{beginning, damaged, flows, odd, setting, Packet, Stream};
use library::{runs, Lent};
use reference::coefficients::combination;
use reference::random::Random;
use reference::{moved, repair_packet, source_packet, Answer, Flows, Sender, Setting};
use std::collections::BTreeSet;
use std::ops::Range;

const ROOM: usize = usize::MAX;

/// What the ADU call says at an ESI that is no start.
const NO_START: i64 = -13;

/// A packet that a receiver accepted, and the position of its first symbol there.
type Accepted = (Packet, u64);

/// The first ESI that a packet names, and how many symbols; none where it is too short to say so.
fn named(setting: Setting, (flow, packet): &Packet) -> Option<(u32, usize)> {
    let at = if flow.is_some() { packet.len().checked_sub(4)? } else { 4 };
    let esi = u32::from_be_bytes(packet.get(at..at + 4)?.try_into().ok()?);
    let n = if flow.is_some() { setting.symbols_of(at) } else { usize::from(packet[2] % 16) * 256 + usize::from(packet[3]) };
    Some((esi, n))
}

/// The position of an ESI that is not behind; the ESI itself where there is no base.
fn position_of(base: Option<u64>, esi: u32) -> u64 {
    base.map_or(u64::from(esi), |base| base + u64::from(esi.wrapping_sub(base as u32)))
}

/// A receiver, and what it made of the packets that came.
struct Fed {
    receivers: Receivers,
    /// The packets that it accepted, each once, in the order in which they first came, and how many positions each made known then.
    accepted: Vec<(Accepted, u64)>,
    /// How many positions all packets made known, and how many were accepted again.
    sum: u64,
    repeats: u64,
    /// The positions that a source packet named when they were not known yet, and those that were solved before.
    heard_first: BTreeSet<u64>,
    heard_later: BTreeSet<u64>,
}

impl Fed {
    fn open(setting: Setting, flows: Flows, random: &mut Random) -> Fed {
        let receivers = Receivers::open_with(setting, flows, random);
        Fed { receivers, accepted: Vec::new(), sum: 0, repeats: 0, heard_first: BTreeSet::new(), heard_later: BTreeSet::new() }
    }

    /// Gives a packet to library, Rust type and second decoder.
    fn receive(&mut self, random: &mut Random, packet: &Packet) -> Answer {
        let read = named(self.receivers.setting(), packet).map(|(esi, n)| (position_of(self.receivers.base(), esi), n as u64));
        let (mut new, mut solved) = (Vec::new(), Vec::new());
        if let (Some(_), Some((first, n))) = (packet.0, read) {
            let reference = &self.receivers.reference;
            let unheard = (first..first + n).filter(|position| !reference.heard.contains(position));
            (solved, new) = unheard.partition(|&position| reference.system.known(position).is_some());
        }
        let answer = self.receivers.receive(random, packet.0, &packet.1);
        if let Ok((known, _)) = answer {
            let (first, _) = read.expect("a packet that names symbols");
            self.sum += known;
            self.heard_first.extend(new);
            self.heard_later.extend(solved);
            let accepted = (packet.clone(), first);
            if self.accepted.iter().any(|(before, _)| *before == accepted) {
                self.repeats += 1;
            } else {
                self.accepted.push((accepted, known));
            }
        }
        answer
    }

    fn accepted(&self) -> BTreeSet<&Accepted> {
        self.accepted.iter().map(|(accepted, _)| accepted).collect()
    }

    /// How many packets it refused with this number since it joined.
    fn refused(&self, number: usize) -> u64 {
        self.receivers.tally.refused[number] - self.receivers.tally.refused_first[number]
    }
}

/// Panics where the two, after the same packets, differ in anything but starts. Tells where one alone says that there is no start: how often
/// the other hands out an ADU there, and how often it gives another refusal.
fn compare(random: &mut Random, one: &Fed, two: &Fed) -> [u64; 2] {
    assert_eq!(one.accepted(), two.accepted(), "not the same packets");
    let (one, two) = (&one.receivers, &two.receivers);
    assert_eq!(one.base(), two.base(), "the windows");
    let setting = one.setting();
    let mut esis: Vec<u32> = (0..4).map(|_| random.next() as u32).collect();
    if let Some(base) = one.base() {
        let (base, width, half) = (base as u32, setting.width as u32, 1 << 31);
        esis.extend((0..width + 3).map(|ahead| base.wrapping_add(ahead)));
        esis.extend((1..4).map(|below| base.wrapping_sub(below)));
        esis.extend([65_535, 65_536, half - 1, half, half + 1].map(|ahead| base.wrapping_add(ahead)));
        esis.push(base.wrapping_sub(random.below(70_000) as u32));
    }
    let mut starts = [0; 2];
    for esi in esis {
        compare_symbol(one, two, esi);
        match compare_adu(random, one, two, esi) {
            Some(told) if told >= 0 => starts[0] += 1,
            Some(_) => starts[1] += 1,
            None => {}
        }
    }
    starts
}

/// Panics where the two differ in the symbol at an ESI: known or not, heard or solved, its place, its bytes.
fn compare_symbol(one: &Receivers, two: &Receivers, esi: u32) {
    let (memory, other) = (one.memory.get(), two.memory.get());
    assert_eq!(library::symbol(memory, esi), library::symbol(other, esi), "symbol {esi}");
    assert_eq!(one.safe.origin(esi), two.safe.origin(esi), "the Rust type's origin of symbol {esi}");
    let place = library::symbol_place(memory, esi);
    assert_eq!(place, library::symbol_place(other, esi), "place of symbol {esi}");
    if let Ok(place) = usize::try_from(place) {
        let part = place..place + one.setting().symbol_size;
        assert_eq!(memory[part.clone()], other[part], "bytes of symbol {esi}");
    }
    assert_eq!(one.safe.symbol(esi), two.safe.symbol(esi), "the Rust type's symbol {esi}");
}

/// Panics where the two differ in the ADU at an ESI, written to the same output, but where one says that there is no start. Where one alone
/// says so, gives what the other says.
fn compare_adu(random: &mut Random, one: &Receivers, two: &Receivers, esi: u32) -> Option<i64> {
    let length = [one, two].iter().find_map(|receivers| Some(receivers.reference.adu(ROOM, esi, ROOM).ok()?.bytes.len()));
    let room = match length {
        Some(length) if random.chance(80) => length + random.one_of(&[0, 0, 5]),
        Some(length) => random.between(0, length),
        None => random.between(0, 12),
    };
    let content = random.bytes(room);
    let told = [one, two].map(|receivers| {
        let (mut out, mut safe_out) = (Lent::new(&content), content.clone());
        let answer = library::adu(receivers.memory.get(), esi, out.lend());
        out.check();
        let safe = receivers.safe.adu(esi, &mut safe_out).map(|adu| (adu.flow, adu.bytes.to_vec()));
        (answer, out.get().to_vec(), safe, safe_out)
    });
    let [one, two] = &told;
    match (one.0, two.0) {
        (NO_START, other) | (other, NO_START) if other != NO_START => return Some(other),
        _ => assert_eq!(one, two, "ADU {esi}"),
    }
    None
}

/// Panics where the second decoders, which keep all equations, do not know the same positions of the whole stream, with the same bytes. Gives
/// how many known positions have left the window.
fn compare_stream(one: &Fed, two: &Fed) -> u64 {
    let setting = one.receivers.setting();
    let (first, second) = (&one.receivers.reference, &two.receivers.reference);
    assert_eq!(first.heard, second.heard, "positions heard");
    assert_eq!(first.system.known_count(), second.system.known_count(), "positions known");
    assert_eq!(first.system.row_count(), second.system.row_count(), "equations left");
    let range = |(packet, from): &Accepted| *from..*from + named(setting, packet).expect("symbols named").1 as u64;
    let positions: BTreeSet<u64> = one.accepted.iter().flat_map(|(accepted, _)| range(accepted)).collect();
    for &position in &positions {
        assert_eq!(first.system.known(position), second.system.known(position), "position {position}");
    }
    let known = positions.iter().filter(|&&position| first.system.known(position).is_some());
    let (left, inside): (Vec<&u64>, Vec<&u64>) = known.partition(|&&position| Some(position) < first.base);
    assert_eq!(left.len() + inside.len(), first.system.known_count(), "no other position is known");
    left.len() as u64
}

/// The packets that a receiver accepts out of these, in this order, by the second decoder alone.
fn accepted_of(setting: Setting, flows: Flows, packets: &[Packet]) -> BTreeSet<Accepted> {
    let mut reference = reference::Receiver::open(setting, flows);
    let mut accepted = BTreeSet::new();
    for packet in packets {
        let base = reference.base;
        let answer = match packet.0 {
            Some(flow) => reference.receive_source(ROOM, ROOM, flow, &packet.1),
            None => reference.receive_repair(ROOM, ROOM, &packet.1),
        };
        if answer.is_ok() {
            let (esi, _) = named(setting, packet).expect("a packet that names symbols");
            accepted.insert((packet.clone(), position_of(base, esi)));
        }
    }
    accepted
}

/// Takes packets out of both orders until a receiver accepts the same ones in either, at the same positions. Those that one alone accepts are
/// taken out; where each has such packets, those of the one that has fewer first. What both refuse stays, and what comes again.
fn agreed(setting: Setting, flows: Flows, mut orders: [Vec<Packet>; 2]) -> [Vec<Packet>; 2] {
    loop {
        let [one, two] = [0, 1].map(|i| accepted_of(setting, flows, &orders[i]));
        let only = |here: &BTreeSet<Accepted>, there: &BTreeSet<Accepted>| {
            here.difference(there).map(|(packet, _)| packet.clone()).collect::<BTreeSet<Packet>>()
        };
        let mut alone = [only(&one, &two), only(&two, &one)];
        alone.sort_by_key(BTreeSet::len);
        let Some(taken) = alone.into_iter().find(|packets| !packets.is_empty()) else { break orders };
        orders.iter_mut().for_each(|order| order.retain(|packet| !taken.contains(packet)));
    }
}

/// What is sent in a run: source packets of ADUs one after the other, some of them held back, and repair packets over the symbols before, or
/// over the next one alone.
struct Sending {
    stream: Stream,
    beginning: u64,
    /// The position after the last symbol sent, and how far back a repair packet reaches from there.
    front: u64,
    reach: u64,
    /// How often, in a hundred packets, one is a repair packet over the next symbol alone; of the others, a source packet; how often a source
    /// packet is held back, and how often the stream goes on elsewhere.
    singles: u64,
    sources: u64,
    holds: u64,
    jumps: u64,
    held: Vec<Packet>,
}

impl Sending {
    fn open(random: &mut Random, setting: Setting) -> Sending {
        let beginning = u64::from(beginning(random));
        // A receiver that is wider than its sender takes more packets that were overtaken
        let reach = if random.chance(30) { setting.width } else { random.between(1, 1 + setting.width / 2) } as u64;
        let (singles, sources) = (random.one_of(&[0, 0, 30, 90]), random.one_of(&[5, 20, 40, 70]));
        let (holds, jumps) = (random.one_of(&[0, 20, 50, 80]), random.one_of(&[0, 0, 0, 0, 3]));
        Sending { stream: Stream::new(setting), beginning, front: beginning, reach, singles, sources, holds, jumps, held: Vec::new() }
    }

    fn next(&mut self, random: &mut Random) -> Packet {
        if random.chance(15) && !self.held.is_empty() {
            let at = random.below(self.held.len() as u64) as usize;
            return self.held.swap_remove(at);
        }
        if random.chance(self.jumps) {
            let far = if random.chance(50) { 2 * self.stream.setting.width as u64 } else { 65_000 };
            self.front += random.below(far);
        }
        loop {
            let joining = self.front == self.beginning && random.chance(40);
            if !joining && random.chance(self.singles) {
                break self.single(random);
            }
            if !joining && !random.chance(self.sources) {
                break self.repair(random);
            }
            let Some(packet) = self.stream.source(random, self.front) else {
                // Repair packets have named other bytes here
                self.front += 1;
                continue;
            };
            self.front += named(self.stream.setting, &packet).expect("symbols named").1 as u64;
            if !random.chance(self.holds) {
                break packet;
            }
            self.held.push(packet);
        }
    }

    /// A repair packet that makes the next symbol known, mostly of an ADU.
    fn single(&mut self, random: &mut Random) -> Packet {
        let setting = self.stream.setting;
        let (position, key) = (self.front, random.next() as u16);
        if random.chance(90) {
            let _ = self.stream.source(random, position);
        }
        let symbol = self.stream.symbol(random, position);
        let sum = combination(setting.field(), key, 15, &[symbol], setting.symbol_size).unwrap();
        self.front += 1;
        (None, repair_packet(key, 15, 1, position, &[sum]))
    }

    /// A repair packet: over all symbols that it reaches, or over some of them and some that come next.
    fn repair(&mut self, random: &mut Random) -> Packet {
        let width = self.stream.setting.width as u64;
        let oldest = self.front.saturating_sub(self.reach).max(self.beginning);
        if self.front > oldest && random.chance(50) {
            return self.stream.repair(random, oldest, (self.front - oldest) as usize);
        }
        let first = oldest + random.below(self.front - oldest + 1);
        let most = (oldest + width - first).max(1).min(width) as usize;
        let n = if random.chance(60) { random.between(1, most.min(3)) } else { random.between(1, most) };
        self.stream.repair(random, first, n)
    }
}

/// The packet with another byte in its ADU or its repair symbols; with another flow where it has no such byte.
fn unlike(random: &mut Random, (flow, mut packet): Packet) -> Packet {
    let content = if flow.is_some() { 0..packet.len().saturating_sub(4) } else { 8..packet.len() };
    if content.is_empty() {
        return (flow.map(|flow| flow ^ 1), packet);
    }
    packet[random.between(content.start, content.end - 1)] ^= random.between(1, 255) as u8;
    (flow, packet)
}

/// The packets with others in between, so many in a hundred: repeats, early or late, and what a receiver mostly refuses.
fn disturbed(random: &mut Random, setting: Setting, packets: &[Packet], share: u64) -> Vec<Packet> {
    let mut all = Vec::new();
    for (i, packet) in packets.iter().enumerate() {
        while random.chance(share) {
            let near = packets[random.between(i.saturating_sub(8), (i + 3).min(packets.len() - 1))].clone();
            all.push(match random.below(7) {
                0 => odd(random, setting, named(setting, packet).map_or(0, |(esi, _)| u64::from(esi))),
                1 => damaged(random, near),
                2 | 3 => unlike(random, near),
                4 => (near.0.map(|_| random.byte()), near.1),
                5 => packets[random.between(0, i)].clone(),
                _ => near,
            });
        }
        all.push(packet.clone());
    }
    all
}

/// The packets in another order, mostly a near one: as over two links of which one is slower, where every second packet takes that one, or
/// any; with blocks reversed; each late by some places; or shuffled.
fn rearranged(random: &mut Random, packets: &[Packet]) -> Vec<Packet> {
    let (latest, longest) = (random.one_of(&[2, 5, 12]), random.one_of(&[3, 7]));
    let (late, block, chunk) = (random.between(1, latest), random.between(2, longest), random.one_of(&[4, 10, 1000]));
    let kind = random.below(10);
    let mut order: Vec<(usize, u64, usize)> = Vec::new();
    for i in 0..packets.len() {
        let (at, tie) = match kind {
            0..=2 => (i + i % 2 * late, i as u64 % 2),
            3..=4 => (i + random.between(0, 1) * late, random.below(2)),
            5..=6 => (i / block, (block - i % block) as u64),
            7..=8 => (i + random.between(0, late), random.below(2)),
            _ => (i / chunk, random.next()),
        };
        order.push((at, tie, i));
    }
    order.sort_unstable();
    order.into_iter().map(|(_, _, i)| packets[i].clone()).collect()
}

/// What the runs met, so that the test can see that it met what it is meant to meet.
#[derive(Default, Debug)]
struct Met {
    /// Runs, those of them with more than 20 packets that both accepted, and all packets that both accepted.
    runs: u64,
    long: u64,
    packets: u64,
    /// Runs of packets accepted in unlike orders; with a packet that was accepted again.
    reordered: u64,
    repeated: u64,
    /// Runs in which one packet was counted unlike, and in which the sums of the counts are unlike.
    counts: u64,
    sums: u64,
    /// Runs in which, once joined, one of the two refused packets with 8, 11 and 16, and in which both did.
    refused_by_one: [u64; 3],
    refused_by_both: [u64; 3],
    /// Runs that both joined by a source packet, both by a repair packet, and one by each.
    joined: [u64; 3],
    /// Starts that one alone has at the end: the other hands out an ADU there, or refuses otherwise.
    starts: [u64; 2],
    /// Symbols that one solved first and heard later, and the other heard first.
    heard_later: u64,
    /// Known positions that have left the window; bases past the wrap.
    left: u64,
    wrapped: u64,
}

impl Met {
    fn add(&mut self, one: &Fed, two: &Fed) {
        self.runs += 1;
        self.long += u64::from(one.accepted.len() > 20);
        self.packets += one.accepted.len() as u64;
        self.reordered += u64::from(!one.accepted.iter().map(|(packet, _)| packet).eq(two.accepted.iter().map(|(packet, _)| packet)));
        self.repeated += u64::from(one.repeats + two.repeats > 0);
        let counts = |fed: &Fed| fed.accepted.iter().cloned().collect::<BTreeSet<_>>();
        self.counts += u64::from(counts(one) != counts(two));
        self.sums += u64::from(one.sum != two.sum);
        for (i, number) in [8, 11, 16].into_iter().enumerate() {
            match (one.refused(number) > 0, two.refused(number) > 0) {
                (true, true) => self.refused_by_both[i] += 1,
                (false, false) => {}
                _ => self.refused_by_one[i] += 1,
            }
        }
        match [one, two].map(|fed| fed.receivers.tally.joined) {
            [[1, 0], [1, 0]] => self.joined[0] += 1,
            [[0, 1], [0, 1]] => self.joined[1] += 1,
            [[1, 0], [0, 1]] | [[0, 1], [1, 0]] => self.joined[2] += 1,
            joined => assert_eq!(joined, [[0, 0]; 2], "joined twice, or one alone"),
        }
        self.heard_later += one.heard_later.intersection(&two.heard_first).count() as u64;
        self.heard_later += two.heard_later.intersection(&one.heard_first).count() as u64;
        self.wrapped += u64::from(one.receivers.base() >= Some(1 << 32));
    }

    /// Prints what happened, for `--nocapture`.
    fn told(&self, name: &str) {
        let Met { runs, long, packets, reordered, repeated, counts, sums, starts, heard_later, left, wrapped, .. } = self;
        println!(
            "{name}: {runs} runs, {long} with more than 20 packets, {packets} packets accepted by both, {wrapped} bases past the wrap"
        );
        println!("{name}: runs in unlike orders {reordered}, with repeats {repeated}, unlike counts {counts}, unlike sums {sums}");
        let Met { refused_by_one, refused_by_both, joined, .. } = self;
        println!("{name}: runs with 8, 11, 16 from one {refused_by_one:?}, from both {refused_by_both:?}; joined {joined:?}");
        println!("{name}: starts of one alone {starts:?}, symbols heard later by one {heard_later}, known positions that left {left}");
    }

    /// Panics where something was met less often than this (in whole runs).
    fn met(&self, least: &Met) {
        if std::env::var_os("RLC8681_SEED").is_none() {
            let reached = self.numbers().into_iter().zip(least.numbers()).all(|(number, least)| number >= least);
            assert!(reached, "{self:?}, at least {least:?}");
        }
    }

    fn numbers(&self) -> Vec<u64> {
        let Met { runs, long, packets, reordered, repeated, counts, sums, heard_later, left, wrapped, .. } = *self;
        let single = [runs, long, packets, reordered, repeated, counts, sums, heard_later, left, wrapped];
        [&single[..], &self.refused_by_one, &self.refused_by_both, &self.joined, &self.starts].concat()
    }
}

/// One run: packets of one stream in two orders, with others in between, the same in both or not. After all of them, and after each of some
/// more that come to both alike, the two receivers show the same.
fn one_run(random: &mut Random, setting: Setting, flows: Flows, packets: usize, met: &mut Met) {
    let mut sending = Sending::open(random, setting);
    let packets: Vec<Packet> = (0..packets).map(|_| sending.next(random)).collect();
    let (shared, own) = (random.one_of(&[0, 5, 15]), random.one_of(&[0, 0, 5, 10]));
    let sent = disturbed(random, setting, &packets, shared);
    let other = rearranged(random, &sent);
    let orders = [disturbed(random, setting, &sent, own), disturbed(random, setting, &other, own)];
    let [mut one, mut two] = agreed(setting, flows, orders).map(|order| {
        let mut fed = Fed::open(setting, flows, random);
        for packet in &order {
            let _ = fed.receive(random, packet);
        }
        fed.receivers.look_around(random);
        fed
    });
    let starts = compare(random, &one, &two);
    met.starts.iter_mut().zip(starts).for_each(|(all, count)| *all += count);
    met.left += compare_stream(&one, &two);
    met.add(&one, &two);
    for _ in 0..4 {
        let packet = sending.next(random);
        let packet = if random.chance(20) { unlike(random, packet) } else { packet };
        assert_eq!(one.receive(random, &packet), two.receive(random, &packet), "the same packet after the same packets");
        compare(random, &one, &two);
    }
}

/// Any setting and flows.
#[test]
fn any_packets_in_two_orders() {
    let mut met = Met::default();
    runs(1200, |seed| {
        let random = &mut Random::new(seed);
        let setting = setting(random, 255, 1500);
        let flows = if random.chance(60) { Flows::all() } else { flows(random) };
        let packets = random.between(2, 50);
        one_run(random, setting, flows, packets, &mut met);
    });
    met.told("two orders");
    met.met(&Met {
        long: 300,
        reordered: 800,
        repeated: 400,
        counts: 400,
        sums: 4,
        refused_by_one: [50, 100, 8],
        refused_by_both: [300, 200, 100],
        joined: [150, 400, 25],
        heard_later: 150,
        left: 4000,
        wrapped: 20,
        ..Met::default()
    });
}

/// Narrow windows: they have moved on where a packet was overtaken, so that marks of starts and positions not yet known have left.
#[test]
fn narrow_windows_in_two_orders() {
    let mut met = Met::default();
    runs(4000, |seed| {
        let random = &mut Random::new(seed);
        let setting = Setting { width: random.between(2, 4), ..setting(random, 255, 6) };
        let packets = random.between(3, 25);
        one_run(random, setting, Flows::all(), packets, &mut met);
    });
    met.told("narrow windows");
    let least = Met { long: 150, reordered: 2000, repeated: 700, counts: 800, sums: 12, starts: [20, 8], ..Met::default() };
    met.met(&Met { refused_by_one: [150, 200, 0], refused_by_both: [700, 300, 0], joined: [500, 1200, 120], heard_later: 400, ..least });
}

/// Wide windows, with packets enough that they move on.
#[test]
fn wide_windows_in_two_orders() {
    let mut met = Met::default();
    runs(10, |seed| {
        let random = &mut Random::new(seed);
        let width = if random.chance(50) { random.between(60, 255) } else { random.one_of(&[64, 254, 255]) };
        let setting = Setting { width, ..setting(random, 255, 100) };
        let packets = random.between(100, 400);
        one_run(random, setting, Flows::all(), packets, &mut met);
    });
    met.told("wide windows");
    met.met(&Met { long: 8, reordered: 8, counts: 6, heard_later: 8, left: 500, ..Met::default() });
}

/// Positions that streams begin at: 0, in the millions, and so that the ESIs of the packets below wrap.
const BEGINNINGS: [u64; 5] = [0, 4_100_000, (1 << 31) - 1, (1 << 32) - 2, (1 << 32) - 1];

/// The source packet of an ADU of flow 1.
fn source(position: u64, adu: &[u8]) -> Packet {
    (Some(1), source_packet(adu, position))
}

/// A repair packet of DT 15 over n symbols: in scheme 9 it holds their sum.
fn repair(position: u64, n: u16, sum: [u8; 4]) -> Packet {
    (None, repair_packet(0, 15, n, position, &[sum.to_vec()]))
}

/// A receiver of scheme 9 with symbols of 4 bytes that was given these packets in this order, and how many positions each made known, or why
/// it was refused.
fn fed(random: &mut Random, width: usize, packets: &[&Packet]) -> (Fed, Vec<Result<u64, u32>>) {
    let mut fed = Fed::open(Setting { scheme: 9, symbol_size: 4, width }, Flows::all(), random);
    let answers = packets.iter().map(|packet| fed.receive(random, packet).map(|(known, _)| known)).collect();
    fed.receivers.look_around(random);
    (fed, answers)
}

/// What the library shows at positions: the bytes of each symbol, or the refusal.
fn shown(fed: &Fed, positions: Range<u64>) -> Vec<Result<Vec<u8>, i64>> {
    let memory = fed.receivers.memory.get();
    let symbol = |position: u64| {
        let place = library::symbol_place(memory, position as u32);
        usize::try_from(place).map(|place| memory[place..place + 4].to_vec()).map_err(|_| place)
    };
    positions.map(symbol).collect()
}

/// What the library's ADU call answers at positions.
fn adus(fed: &Fed, positions: Range<u64>) -> Vec<i64> {
    positions.map(|position| library::adu(fed.receivers.memory.get(), position as u32, &mut [0; 9])).collect()
}

/// An ADU of flow 1 and one byte, as the ADU call answers it.
const ONE_BYTE: i64 = 65_537;

/// A start may be lost with the window: the ADU at 1 has two symbols, so that the next one is at 3. Its mark is past the end of the window
/// of two until 2 comes; where 3 comes before 2, position 1 has left by then. Only starts differ, at the end too.
#[test]
fn starts_that_differ_at_the_end() {
    let random = &mut Random::new(1);
    for first in BEGINNINGS {
        let zero = source(first, &[0x41]);
        let one = repair(first + 1, 1, [1, 0, 5, 0x42]);
        let two = repair(first + 2, 1, [0x43, 0x44, 0x45, 0x46]);
        let three = repair(first + 3, 1, [1, 0, 1, 0x47]);
        let (sent, answers) = fed(random, 2, &[&zero, &one, &two, &three]);
        assert_eq!(answers, [Ok(1); 4]);
        let (late, answers) = fed(random, 2, &[&zero, &one, &three, &two]);
        assert_eq!(answers, [Ok(1); 4]);
        let symbols = [Ok(vec![0x43, 0x44, 0x45, 0x46]), Ok(vec![1, 0, 1, 0x47])];
        assert_eq!([shown(&sent, first + 2..first + 4), shown(&late, first + 2..first + 4)], [symbols.clone(), symbols]);
        assert_eq!(adus(&sent, first + 1..first + 5), [-8, NO_START, ONE_BYTE, -12]);
        assert_eq!(adus(&late, first + 1..first + 5), [-8, NO_START, NO_START, -12]);
        assert_eq!(compare(random, &sent, &late), [1, 0]);
        assert_eq!(compare(random, &late, &sent), [1, 0]);
    }
}

/// C7's source packet of 0 and its repair packet: 1 and 1 in one order, 0 and 2 in the other, which joins by the repair packet.
#[test]
fn counts_that_differ() {
    let random = &mut Random::new(2);
    for first in BEGINNINGS {
        let (zero, both) = (source(first, &[0x41]), repair(first, 2, [0, 0, 0, 3]));
        let (sent, answers) = fed(random, 2, &[&zero, &both]);
        assert_eq!(answers, [Ok(1), Ok(1)]);
        let (late, answers) = fed(random, 2, &[&both, &zero]);
        assert_eq!(answers, [Ok(0), Ok(2)]);
        for fed in [&sent, &late] {
            assert_eq!(shown(fed, first..first + 2), [Ok(vec![1, 0, 1, 0x41]), Ok(vec![1, 0, 1, 0x42])]);
            assert_eq!(adus(fed, first..first + 2), [ONE_BYTE; 2]);
        }
        assert_eq!(compare(random, &sent, &late), [0, 0]);
    }
}

/// Even their sum differs: where 2 comes before 1, position 0 becomes known when it has left the window, and is not counted.
#[test]
fn sums_of_counts_that_differ() {
    let random = &mut Random::new(3);
    for first in BEGINNINGS {
        let both = repair(first, 2, [0, 0, 0, 3]);
        let (one, two) = (source(first + 1, &[0x42]), source(first + 2, &[0x43]));
        let (sent, answers) = fed(random, 2, &[&both, &one, &two]);
        assert_eq!(answers, [Ok(0), Ok(2), Ok(1)]);
        let (late, answers) = fed(random, 2, &[&both, &two, &one]);
        assert_eq!(answers, [Ok(0), Ok(1), Ok(1)]);
        for fed in [&sent, &late] {
            assert_eq!(shown(fed, first..first + 3), [Err(-8), Ok(vec![1, 0, 1, 0x42]), Ok(vec![1, 0, 1, 0x43])]);
            assert_eq!(adus(fed, first..first + 3), [-8, ONE_BYTE, ONE_BYTE]);
        }
        assert_eq!(compare(random, &sent, &late), [0, 0]);
        assert_eq!(compare_stream(&sent, &late), 1);
    }
}

/// The packets of C12 in each order in which all are accepted, alone and with others in between that are refused, or come again.
#[test]
fn twelve_in_every_order() {
    let random = &mut Random::new(4);
    for first in BEGINNINGS {
        let mut packets = vec![repair(first, 2, [0, 0, 0, 3]), repair(first, 4, [0, 0, 0, 4])];
        packets.extend([3, 4, 5].map(|i| source(first + i, &[0x41 + i as u8])));
        let sent: Vec<&Packet> = [0, 1, 3, 4, 2].map(|i| &packets[i]).to_vec();
        let (sent, answers) = fed(random, 4, &sent);
        assert_eq!(answers, [0, 0, 1, 1, 2].map(Ok));
        let symbols: Vec<_> = (2..6).map(|i| Ok(vec![1, 0, 1, 0x41 + i])).collect();
        // What every receiver refuses that has joined
        let unlike = (None, repair_packet(0, 15, 1, first + 4, &[vec![0; 4], vec![1; 4]]));
        let (ahead, behind) = (source(first + 65_540, &[0x41]), source(first + (1 << 32) - 1, &[0x41]));
        assert_eq!(shown(&sent, first + 2..first + 6), symbols);
        let mut orders = [0; 2];
        for order in permutations(5) {
            let order: Vec<&Packet> = order.into_iter().map(|i| &packets[i]).collect();
            let (other, answers) = fed(random, 4, &order);
            let refused = answers.iter().any(Result::is_err);
            orders[usize::from(refused)] += 1;
            if refused {
                assert_ne!(other.accepted(), sent.accepted());
                continue;
            }
            compare(random, &sent, &other);
            assert_eq!(shown(&other, first + 2..first + 6), symbols);
            let between = order.iter().flat_map(|&packet| [packet, &unlike, &ahead, &behind, packet]);
            let (again, answers) = fed(random, 4, &between.chain(order.iter().copied()).collect::<Vec<_>>());
            assert_eq!([8, 9, 11].map(|number| answers.iter().filter(|&&answer| answer == Err(number)).count()), [7, 5, 5]);
            compare(random, &sent, &again);
        }
        assert_eq!(orders, [16, 104]);
    }
}

/// All orders of the numbers below n.
fn permutations(n: usize) -> Vec<Vec<usize>> {
    let mut all = vec![Vec::new()];
    for i in 0..n {
        let longer = |shorter: &Vec<usize>| (0..=i).map(|at| [&shorter[..at], &[i], &shorter[at..]].concat()).collect::<Vec<_>>();
        all = all.iter().flat_map(longer).collect();
    }
    all
}

/// Why it must be the same packets that are accepted: of two that contradict each other, a receiver keeps to the one that came first.
#[test]
fn packets_that_contradict_each_other() {
    let random = &mut Random::new(5);
    for first in BEGINNINGS {
        let packets = [source(first, &[0x41]), source(first, &[0x42])];
        let (one, answers) = fed(random, 2, &[&packets[0], &packets[1]]);
        assert_eq!(answers, [Ok(1), Err(11)]);
        let (two, answers) = fed(random, 2, &[&packets[1], &packets[0]]);
        assert_eq!(answers, [Ok(1), Err(11)]);
        assert_eq!(one.receivers.base(), two.receivers.base());
        assert_eq!(shown(&one, first..first + 1), [Ok(vec![1, 0, 1, 0x41])]);
        assert_eq!(shown(&two, first..first + 1), [Ok(vec![1, 0, 1, 0x42])]);
        assert!(one.accepted().is_disjoint(&two.accepted()));
    }
}

/// The same of a packet that is behind because a later one came before it: without source 1 the repair packet solves nothing.
#[test]
fn packets_that_come_too_late() {
    let random = &mut Random::new(6);
    for first in BEGINNINGS {
        let (zero, both) = (source(first, &[0x41]), repair(first + 1, 2, [0, 0, 0, 1]));
        let (one, three) = (source(first + 1, &[0x42]), source(first + 3, &[0x44]));
        let (sent, answers) = fed(random, 2, &[&zero, &both, &one, &three]);
        assert_eq!(answers, [Ok(1), Ok(0), Ok(2), Ok(1)]);
        let (late, answers) = fed(random, 2, &[&zero, &both, &three, &one]);
        assert_eq!(answers, [Ok(1), Ok(0), Ok(1), Err(8)]);
        assert_eq!(sent.receivers.base(), late.receivers.base());
        assert_eq!(shown(&sent, first + 2..first + 4), [Ok(vec![1, 0, 1, 0x43]), Ok(vec![1, 0, 1, 0x44])]);
        assert_eq!(shown(&late, first + 2..first + 4), [Err(-12), Ok(vec![1, 0, 1, 0x44])]);
        assert_eq!(sent.accepted().difference(&late.accepted()).collect::<Vec<_>>(), [&&(one.clone(), first + 1)]);
        // A receiver that is wider by one takes it in either order
        let (sent, _) = fed(random, 3, &[&zero, &both, &one, &three]);
        let (late, answers) = fed(random, 3, &[&zero, &both, &three, &one]);
        assert_eq!(answers, [Ok(1), Ok(0), Ok(1), Ok(2)]);
        assert_eq!(compare(random, &sent, &late), [0, 0]);
    }
}

/// A repair packet over a sender's whole window begins with its oldest symbol. Where the next source packet overtakes it, a receiver that is
/// as wide refuses it, and one that is wider by one takes it.
#[test]
fn repair_packets_that_are_overtaken() {
    let random = &mut Random::new(7);
    for first in BEGINNINGS {
        let mut sender = Sender::open(Setting { scheme: 9, symbol_size: 4, width: 3 }, Flows::all());
        let mut add = |byte: u8| (Some(1), moved(true, &sender.add_adu(1, &[byte], ROOM).unwrap(), first as u32));
        let sources = [add(0x41), add(0x42), add(0x43)];
        let whole = (None, moved(false, &sender.make_repair(0, 15, 1, ROOM).unwrap().0, first as u32));
        let next = (Some(1), moved(true, &sender.add_adu(1, &[0x44], ROOM).unwrap(), first as u32));
        // The second source packet is lost
        let sent = [&sources[0], &sources[2], &whole, &next];
        let late = [&sources[0], &sources[2], &next, &whole];
        let (narrow, answers) = fed(random, 3, &sent);
        assert_eq!(answers, [Ok(1); 4]);
        let (narrow_late, answers) = fed(random, 3, &late);
        assert_eq!(answers, [Ok(1), Ok(1), Ok(1), Err(8)]);
        assert_eq!(shown(&narrow, first + 1..first + 2), [Ok(vec![1, 0, 1, 0x42])]);
        assert_eq!(shown(&narrow_late, first + 1..first + 2), [Err(-12)]);
        let (wide, answers) = fed(random, 4, &sent);
        assert_eq!(answers, [Ok(1); 4]);
        let (wide_late, answers) = fed(random, 4, &late);
        assert_eq!(answers, [Ok(1); 4]);
        assert_eq!(shown(&wide_late, first + 1..first + 2), [Ok(vec![1, 0, 1, 0x42])]);
        assert_eq!(compare(random, &wide, &wide_late), [0, 0]);
    }
}

/// Why each packet must be read at the same position: once the window has gone round all ESIs, the packet of ESI 5 is one of position 5 or of
/// 2^32 + 5, by when it comes. Both receivers accept the same packets, and their windows end equal.
#[test]
fn packets_that_are_read_at_other_positions() {
    let random = &mut Random::new(8);
    let setting = Setting { scheme: 9, symbol_size: 4, width: 8 };
    let five = source(5, &[0x45]);
    let [early, late] = [true, false].map(|early| {
        let mut receivers = Receivers::open(setting, random);
        assert_eq!(receivers.receive(random, Some(1), &source(0, &[0x40]).1), Ok((1, 0)));
        if early {
            assert_eq!(receivers.receive(random, Some(1), &five.1), Ok((1, 0)));
        }
        let (mut last, end) = (0, (1 << 32) + 9);
        while last < end {
            last = end.min(last.max(7) - 7 + 65_535);
            assert_eq!(receivers.receive(random, Some(1), &source(last, &[0x41]).1), Ok((1, 0)));
        }
        if !early {
            assert_eq!(receivers.receive(random, Some(1), &five.1), Ok((1, 0)));
        }
        receivers
    });
    assert_eq!([early.base(), late.base()], [Some((1 << 32) + 2); 2]);
    assert_eq!(library::symbol(early.memory.get(), 5), -12);
    assert_eq!(library::symbol(late.memory.get(), 5), 1 << 32);
}
