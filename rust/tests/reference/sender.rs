//! A sender that keeps every symbol it ever took.

use super::coefficients::{combination, drawn_list, keys};
use super::{repair_packet, source_packet, Flows, Setting};

#[derive(Clone)]
pub struct Sender {
    pub setting: Setting,
    pub flows: Flows,
    /// All symbols taken, from position 0 on.
    pub symbols: Vec<Vec<u8>>,
    /// The ADUs taken: first position, flow and bytes.
    pub adus: Vec<(u64, u8, Vec<u8>)>,
}

impl Sender {
    pub fn open(setting: Setting, flows: Flows) -> Sender {
        Sender { setting, flows, symbols: Vec::new(), adus: Vec::new() }
    }

    /// The source packet, or refusal 16, 4 or 2 in this order; `room` is the output's length.
    pub fn add_adu(&mut self, flow: u8, adu: &[u8], room: usize) -> Result<Vec<u8>, u32> {
        if !self.flows.contains(flow) {
            return Err(16);
        }
        if adu.len() > 65_535 || self.setting.symbols_of(adu.len()) > self.setting.width {
            return Err(4);
        }
        if room < adu.len() + 4 {
            return Err(2);
        }
        let position = self.symbols.len() as u64;
        self.adus.push((position, flow, adu.to_vec()));
        self.symbols.extend(self.setting.cut(flow, adu));
        Ok(source_packet(adu, position))
    }

    /// The repair packet over the window and the draws that it took, or refusal 6, 7, 2 or 10 in this order.
    pub fn make_repair(&self, key: u16, dt: u32, count: u32, room: usize) -> Result<(Vec<u8>, u64), u32> {
        let Setting { scheme, symbol_size, width } = self.setting;
        if dt > 15 || !(1..=16).contains(&count) {
            return Err(6);
        }
        let nss = self.symbols.len().min(width);
        if nss == 0 {
            return Err(7);
        }
        if room < 8 + count as usize * symbol_size {
            return Err(2);
        }
        let first = self.symbols.len() - nss;
        let key = if scheme == 9 && dt == 15 { 0 } else { key };
        let (mut repair, mut draws) = (Vec::new(), 0);
        for key in keys(key, count as usize) {
            repair.push(combination(self.setting.field(), key, dt as u8, &self.symbols[first..], symbol_size)?);
            draws += drawn_list(self.setting.field(), key, dt as u8, nss)?.1;
        }
        Ok((repair_packet(key, dt as u8, nss as u16, first as u64, &repair), draws))
    }
}
