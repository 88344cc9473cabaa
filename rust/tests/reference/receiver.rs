//! The receiver of document 01's "plain history", with its marks of starts. It joins at its first packet (document 02, No. 2), tells what it
//! heard from what it solved (No. 6), and takes no source packet and hands out no ADU of a flow that it does not announce (No. 7).

use super::coefficients::{drawn_list, keys};
use super::equations::{Equation, System};
use super::{Answer, Flows, Setting};
use std::collections::BTreeSet;

#[derive(Clone)]
pub struct Receiver {
    pub setting: Setting,
    pub flows: Flows,
    /// None until a packet is accepted. Then the window is base .. base + width - 1; positions never wrap.
    pub base: Option<u64>,
    pub system: System,
    /// The positions marked as starts, from base to base + width.
    pub marks: BTreeSet<u64>,
    /// The positions that the accepted source packets named, wherever the window stands now.
    pub heard: BTreeSet<u64>,
}

/// An ADU as handed out.
#[derive(Clone, Debug, PartialEq, Eq)]
pub struct Adu {
    pub flow: u8,
    pub bytes: Vec<u8>,
}

impl Receiver {
    pub fn open(setting: Setting, flows: Flows) -> Receiver {
        Receiver { setting, flows, base: None, system: System::new(setting.field()), marks: BTreeSet::new(), heard: BTreeSet::new() }
    }

    /// The first position of a packet that names n symbols from this ESI on, or refusal 8 or 9. Before any base it is the ESI itself.
    pub fn place(&self, esi: u32, n: usize) -> Result<u64, u32> {
        let Some(base) = self.base else { return Ok(u64::from(esi)) };
        let d = distance(base, esi);
        if d >= 1 << 31 {
            return Err(8);
        }
        if d + n as u64 - 1 > 65_535 {
            return Err(9);
        }
        Ok(base + d)
    }

    /// Takes a packet that names n symbols from `first` on, or refuses it (11). The first one that is taken sets the base to its own first
    /// position. Gives how many positions of the window became known.
    fn accept(&mut self, first: u64, n: usize, equations: Vec<Equation>, source: bool) -> Result<u64, u32> {
        let solved = self.system.admit_all(equations).map_err(|_| 11u32)?;
        let width = self.setting.width as u64;
        let end = first + n as u64;
        let base = self.base.unwrap_or(first).max(end.saturating_sub(width));
        self.base = Some(base);
        let window = base..base + width;
        if source {
            self.marks.insert(first);
            self.marks.insert(end);
            self.heard.extend(first..end);
        }
        for position in window.clone() {
            if self.marks.contains(&position) {
                if let Some(symbol) = self.system.known(position) {
                    self.marks.insert(position + self.setting.symbols_of(length_in(symbol)) as u64);
                }
            }
        }
        self.marks.retain(|mark| (window.start..=window.end).contains(mark));
        Ok(solved.iter().filter(|position| window.contains(position)).count() as u64)
    }

    pub fn receive_source(&mut self, memory: usize, work: usize, flow: u8, packet: &[u8]) -> Answer {
        self.setting.room(memory, work)?;
        if packet.len() < 4 {
            return Err(5);
        }
        if !self.flows.contains(flow) {
            return Err(16);
        }
        let (adu, esi) = packet.split_at(packet.len() - 4);
        let n = self.setting.symbols_of(adu.len());
        if adu.len() > 65_535 || n > self.setting.width {
            return Err(4);
        }
        let first = self.place(u32::from_be_bytes(esi.try_into().unwrap()), n)?;
        let symbols = self.setting.cut(flow, adu);
        let equations = (first..).zip(&symbols).map(|(position, symbol)| Equation::new(position, &[1], symbol));
        Ok((self.accept(first, n, equations.collect(), true)?, 0))
    }

    pub fn receive_repair(&mut self, memory: usize, work: usize, packet: &[u8]) -> Answer {
        self.setting.room(memory, work)?;
        let size = self.setting.symbol_size;
        let count = packet.len().saturating_sub(8) / size;
        if packet.len() != 8 + count * size || !(1..=16).contains(&count) {
            return Err(5);
        }
        let key = u16::from_be_bytes([packet[0], packet[1]]);
        let dt = packet[2] / 16;
        let nss = usize::from(packet[2] % 16) * 256 + usize::from(packet[3]);
        let esi = u32::from_be_bytes([packet[4], packet[5], packet[6], packet[7]]);
        if nss == 0 || nss > self.setting.width {
            return Err(6);
        }
        let first = self.place(esi, nss)?;
        let (mut equations, mut draws) = (Vec::new(), 0);
        for (key, symbol) in keys(key, count).zip(packet[8..].chunks(size)) {
            let (list, taken) = drawn_list(self.setting.field(), key, dt, nss)?;
            equations.push(Equation::new(first, &list, symbol));
            draws += taken;
        }
        Ok((self.accept(first, nss, equations, false)?, draws))
    }

    /// The position of an ESI in the window, or refusal 3, 8 or 12. Before any base the window is empty.
    fn position(&self, memory: usize, esi: u32) -> Result<u64, u32> {
        if memory < self.setting.receiver_memory() {
            return Err(3);
        }
        let base = self.base.ok_or(12u32)?;
        match distance(base, esi) {
            d if d >= 1 << 31 => Err(8),
            d if d >= self.setting.width as u64 => Err(12),
            d => Ok(base + d),
        }
    }

    /// The symbol call: 0 for a known symbol, and beside it whether it was heard; or refusal 3, 8 or 12.
    pub fn symbol(&self, memory: usize, esi: u32) -> Answer {
        let position = self.position(memory, esi)?;
        self.system.known(position).ok_or(12u32)?;
        Ok((0, u64::from(self.heard.contains(&position))))
    }

    /// The bytes of a known symbol, or the symbol call's refusal.
    pub fn part(&self, memory: usize, esi: u32) -> Result<&[u8], u32> {
        self.system.known(self.position(memory, esi)?).ok_or(12)
    }

    /// The ADU that starts at an ESI, or a refusal in the order of document 01, with 16 between 14 for padding and 2; `room` is the output's
    /// length.
    pub fn adu(&self, memory: usize, esi: u32, room: usize) -> Result<Adu, u32> {
        let position = self.position(memory, esi)?;
        if !self.marks.contains(&position) {
            return Err(13);
        }
        let first = self.system.known(position).ok_or(12u32)?;
        let length = length_in(first);
        let n = self.setting.symbols_of(length);
        if n > self.setting.width {
            return Err(14);
        }
        let mut adui = Vec::new();
        for position in position..position + n as u64 {
            adui.extend_from_slice(self.system.known(position).ok_or(12u32)?);
        }
        if adui[3 + length..].iter().any(|&b| b != 0) {
            return Err(14);
        }
        if !self.flows.contains(adui[0]) {
            return Err(16);
        }
        if room < length {
            return Err(2);
        }
        Ok(Adu { flow: adui[0], bytes: adui[3..3 + length].to_vec() })
    }
}

/// How far an ESI lies past base.
fn distance(base: u64, esi: u32) -> u64 {
    u64::from(esi.wrapping_sub((base % (1 << 32)) as u32))
}

/// L, in the first symbol of an ADUI.
pub fn length_in(symbol: &[u8]) -> usize {
    usize::from(symbol[1]) * 256 + usize::from(symbol[2])
}
