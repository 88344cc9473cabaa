//! Settings, flows, streams and packets of random runs.

use crate::reference::coefficients::{combination, keys};
use crate::reference::random::Random;
use crate::reference::{repair_packet, source_packet, Flows, Setting};
use std::collections::HashMap;

/// A setting: mostly small, now and then at the ends of its ranges.
pub fn setting(random: &mut Random, widest: usize, longest: usize) -> Setting {
    let width = match random.below(20) {
        0..=11 => random.between(1, 8),
        12..=16 => random.between(1, 30),
        17..=18 => random.one_of(&[1, 2, 64, 254, 255]),
        _ => random.between(1, 255),
    };
    let symbol_size = match random.below(20) {
        0..=12 => random.between(4, 9),
        13..=16 => random.between(4, 64),
        17..=18 => random.one_of(&[4, 5, 1400, 1499, 1500]),
        _ => random.between(4, 1500),
    };
    Setting { scheme: 9 + random.below(2) as u32, symbol_size: symbol_size.min(longest), width: width.min(widest) }
}

/// The flows that most packets belong to: the lowest and the highest bit of the first byte, the lowest of the second, the highest of the last,
/// and others.
const USUAL: [u8; 6] = [0, 1, 2, 7, 8, 255];

/// A flow: one of the usual ones, or any.
pub fn flow(random: &mut Random) -> u8 {
    if random.chance(80) {
        random.one_of(&USUAL)
    } else {
        random.byte()
    }
}

/// The flows that an end announces: all, one, a few, all but a few, or none.
pub fn flows(random: &mut Random) -> Flows {
    let mut some = |count: usize| (0..count).map(|_| flow(random)).collect::<Vec<u8>>();
    let (one, few) = (some(1), some(4));
    match random.below(10) {
        0..=3 => Flows::all(),
        4..=5 => Flows::only(&one),
        6..=7 => Flows::only(&few),
        8 => Flows::only(&Flows::all().list().into_iter().filter(|flow| !few.contains(flow)).collect::<Vec<u8>>()),
        _ => Flows::none(),
    }
}

/// The ESI that a stream begins with: any, and often one where a number of 31 or 32 bits ends.
pub fn beginning(random: &mut Random) -> u32 {
    let near = random.below(300) as u32;
    match random.below(10) {
        0 => near,
        1 => (1 << 31) - 1 - near,
        2 => (1 << 31) + near,
        3..=5 => u32::MAX - near,
        6 => 1_000_000 + random.below(100_000_000) as u32,
        _ => random.next() as u32,
    }
}

/// A packet on its way, with the flow beside it where it is a source packet.
pub type Packet = (Option<u8>, Vec<u8>);

/// Content for any position, by ESI: ADUs where a start was asked for, other bytes elsewhere.
pub struct Stream {
    pub setting: Setting,
    symbols: HashMap<u32, Vec<u8>>,
    starts: HashMap<u32, (u8, Vec<u8>)>,
}

impl Stream {
    pub fn new(setting: Setting) -> Stream {
        Stream { setting, symbols: HashMap::new(), starts: HashMap::new() }
    }

    /// The source packet of the ADU at a position, made up where nothing is there yet; none where the position is no start.
    pub fn source(&mut self, random: &mut Random, position: u64) -> Option<Packet> {
        if !self.starts.contains_key(&(position as u32)) {
            let free = (position..).take(self.setting.width).take_while(|&p| !self.symbols.contains_key(&(p as u32))).count();
            if free == 0 {
                return None;
            }
            let n = if random.chance(70) { 1 } else { random.between(1, free.min(5)) };
            let most = n * self.setting.symbol_size - 3;
            let least = most.saturating_sub(self.setting.symbol_size - 1);
            let adu = if random.chance(15) {
                vec![0; least]
            } else {
                let length = random.between(least, most);
                random.bytes(length)
            };
            let flow = flow(random);
            for (p, symbol) in (position..).zip(self.setting.cut(flow, &adu)) {
                self.symbols.insert(p as u32, symbol);
            }
            self.starts.insert(position as u32, (flow, adu));
        }
        let (flow, adu) = &self.starts[&(position as u32)];
        Some((Some(*flow), source_packet(adu, position)))
    }

    /// The symbol at a position, made up where there is none: the start of an ADU, or bytes that only look like one.
    pub fn symbol(&mut self, random: &mut Random, position: u64) -> Vec<u8> {
        if !self.symbols.contains_key(&(position as u32)) {
            if random.chance(60) {
                self.source(random, position);
            } else {
                let mut bytes = random.bytes(self.setting.symbol_size);
                bytes[0] = flow(random);
                if random.chance(80) {
                    bytes[1] = 0;
                    bytes[2] %= 4 * self.setting.symbol_size.min(60) as u8;
                }
                if random.chance(30) {
                    bytes[3..].fill(0);
                }
                self.symbols.insert(position as u32, bytes);
            }
        }
        self.symbols[&(position as u32)].clone()
    }

    pub fn repair(&mut self, random: &mut Random, position: u64, n: usize) -> Packet {
        let symbols: Vec<Vec<u8>> = (position..).take(n).map(|p| self.symbol(random, p)).collect();
        let key = if random.chance(20) { random.one_of(&[0, 1, 65_535]) } else { random.next() as u16 };
        let dt = if random.chance(40) { 15 } else { random.below(16) as u8 };
        let count = if random.chance(70) { 1 } else { random.between(1, 16) };
        let size = self.setting.symbol_size;
        let repair = keys(key, count).map(|key| combination(self.setting.field(), key, dt, &symbols, size).unwrap());
        (None, repair_packet(key, dt, n as u16, position, &repair.collect::<Vec<_>>()))
    }
}

/// Damage on the way: bytes changed, cut off or added, another flow.
pub fn damaged(random: &mut Random, (mut flow, mut packet): Packet) -> Packet {
    for _ in 0..random.between(1, 2) {
        match random.below(8) {
            0 => packet.truncate(random.between(0, packet.len())),
            1 => {
                let more = random.between(1, 9);
                packet.extend(random.bytes(more));
            }
            2 if flow.is_some() => flow = Some(random.byte()),
            _ if !packet.is_empty() => {
                let at = random.below(packet.len() as u64) as usize;
                packet[at] ^= if random.chance(50) { 1 << random.below(8) } else { random.byte() };
            }
            _ => {}
        }
    }
    (flow, packet)
}

/// Packets that no sender would write: forms, sizes and places outside their ranges.
pub fn odd(random: &mut Random, setting: Setting, base: u64) -> Packet {
    let place = |random: &mut Random| {
        let near = random.below(5);
        let width = setting.width as u64;
        let ahead = match random.below(9) {
            0 => 65_535,
            1 => 65_536,
            2 => (1 << 31) - 1,
            3 => 1 << 31,
            4 => 65_536 - width + near,
            5 => width + near,
            6 => random.below(70_000),
            7 => (1 << 32) - 1 - near,
            _ => near,
        };
        base + ahead
    };
    let size = setting.symbol_size;
    match random.below(6) {
        0 => {
            let length = random.between(0, 3);
            (Some(flow(random)), random.bytes(length))
        }
        1 => {
            // An ADU at the longest, one past it, or anything
            let most = (setting.width * size - 3).min(65_535);
            let length = if random.chance(60) { random.one_of(&[most, most + 1]) } else { random.between(0, most + 3) };
            let position = place(random);
            (Some(flow(random)), source_packet(&random.bytes(length), position))
        }
        2 => {
            let ends = [0, 7, 8, 8 + size - 1, 8 + size + 1, 8 + 17 * size, 8 + 16 * size];
            let length = if random.chance(80) { random.one_of(&ends) } else { random.between(0, 40 + 17 * size) };
            (None, random.bytes(length))
        }
        _ => {
            let ends = [0, 1, setting.width, setting.width + 1, 4095];
            let nss = if random.chance(60) { random.one_of(&ends) } else { random.between(1, setting.width) };
            let symbols = random.between(1, 3);
            let zero = random.chance(30);
            let repair: Vec<Vec<u8>> = (0..symbols).map(|_| if zero { vec![0; size] } else { random.bytes(size) }).collect();
            let dt = random.below(16) as u8;
            let position = place(random);
            (None, repair_packet(random.next() as u16, dt, nss as u16, position, &repair))
        }
    }
}
