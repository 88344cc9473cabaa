//! A second sender and a second receiver, written from documents 01 and 02 and RFC 8681 alone, for the tests to hold the library against,
//! what the program that works through a capture prints over that receiver, a second send order for grids of symbols, and a second block
//! mode, from RFC 6865 and the matrices of RFC 5510.
//!
//! Nothing here is fast or small. Positions are whole numbers that never wrap, products are computed by shifting and adding, and the
//! receiver keeps every equation that it ever accepted.
#![allow(dead_code, unused_imports)]

pub mod block;
pub mod capture;
pub mod coefficients;
pub mod dense;
pub mod equations;
pub mod field;
pub mod figures;
pub mod flows;
pub mod generator;
pub mod grid;
pub mod random;
pub mod receiver;
pub mod sender;

pub use field::Field;
pub use flows::Flows;
pub use receiver::Receiver;
pub use sender::Sender;

/// What a call answers: its value and the number beside it, or a refusal's number (document 01, "Why a call says no"; document 02, No. 7).
/// Beside the value stand the draws that the call took (document 02, No. 1); of the symbol call, 1 for a symbol that was heard, 0 for one
/// that was solved (No. 6).
pub type Answer = Result<(u64, u64), u32>;

/// An answer as the C interface gives it.
pub fn as_c(answer: Answer) -> i64 {
    match answer {
        Ok((value, beside)) => (value + beside * 4_294_967_296) as i64,
        Err(number) => -i64::from(number),
    }
}

/// What both ends are opened with, beside their flows.
#[derive(Clone, Copy, Debug, PartialEq, Eq)]
pub struct Setting {
    pub scheme: u32,
    pub symbol_size: usize,
    pub width: usize,
}

impl Setting {
    /// Refusal 1, where a value is outside its range.
    pub fn checked(scheme: u32, symbol_size: u32, width: u32) -> Result<Setting, u32> {
        if !(9..=10).contains(&scheme) || !(4..=1500).contains(&symbol_size) || !(1..=255).contains(&width) {
            return Err(1);
        }
        Ok(Setting { scheme, symbol_size: symbol_size as usize, width: width as usize })
    }

    pub fn field(self) -> Field {
        if self.scheme == 9 {
            Field::Gf2
        } else {
            Field::Gf256
        }
    }

    pub fn sender_memory(self) -> usize {
        64 + self.width * self.symbol_size
    }

    pub fn receiver_memory(self) -> usize {
        96 + self.width * (self.width + self.symbol_size + 4) + self.width
    }

    pub fn working_memory(self) -> usize {
        96 + (self.width + 1) * (self.width + self.symbol_size + 4) + self.width + 1
    }

    /// Refusal 3 or 2 of a packet call, by the lengths of state memory and working memory.
    pub fn room(self, memory: usize, work: usize) -> Result<(), u32> {
        if memory < self.receiver_memory() {
            return Err(3);
        }
        if work < self.working_memory() {
            return Err(2);
        }
        Ok(())
    }

    /// How many symbols an ADU of this length needs: its ADUI is 3 bytes longer.
    pub fn symbols_of(self, adu: usize) -> usize {
        (3 + adu + self.symbol_size - 1) / self.symbol_size
    }

    /// The ADUI, cut into symbols.
    pub fn cut(self, flow: u8, adu: &[u8]) -> Vec<Vec<u8>> {
        let mut adui = vec![flow, (adu.len() / 256) as u8, (adu.len() % 256) as u8];
        adui.extend_from_slice(adu);
        adui.resize(self.symbols_of(adu.len()) * self.symbol_size, 0);
        adui.chunks(self.symbol_size).map(<[u8]>::to_vec).collect()
    }
}

/// A source packet: the ADU, then the ESI of its first symbol.
pub fn source_packet(adu: &[u8], position: u64) -> Vec<u8> {
    let mut packet = adu.to_vec();
    packet.extend_from_slice(&((position % (1 << 32)) as u32).to_be_bytes());
    packet
}

/// A packet as its sender would have written it if its first symbol had had this ESI: nothing but the ESI in it depends on that.
pub fn moved(source: bool, packet: &[u8], by: u32) -> Vec<u8> {
    let mut packet = packet.to_vec();
    let at = if source { packet.len() - 4 } else { 4 };
    let esi = u32::from_be_bytes(packet[at..at + 4].try_into().unwrap());
    packet[at..at + 4].copy_from_slice(&esi.wrapping_add(by).to_be_bytes());
    packet
}

/// A repair packet: key, DT and NSS, ESI of the first symbol, repair symbols.
pub fn repair_packet(key: u16, dt: u8, nss: u16, position: u64, repair: &[Vec<u8>]) -> Vec<u8> {
    let mut packet = key.to_be_bytes().to_vec();
    packet.extend_from_slice(&(u16::from(dt) * 4096 + nss).to_be_bytes());
    packet.extend_from_slice(&((position % (1 << 32)) as u32).to_be_bytes());
    for symbol in repair {
        packet.extend_from_slice(symbol);
    }
    packet
}
