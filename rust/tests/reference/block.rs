//! Block mode (document 02, No. 9) by the matrices of RFC 5510, section 8: the source symbols, as a row of k, times the generator matrix
//! G = V(k,k)^-1 · V(k,n) are the n symbols of the block, where V(k,n) has (alpha^j)^i in row i and column j, and alpha is the element 2. So
//! symbol j is the sum of G(i,j) times source symbol i, an equation over the k source symbols; the recovery keeps all that it accepts, in the
//! [`System`] of the receiver.

use super::equations::{Equation, System};
use super::{Answer, Field, Setting};
use std::collections::BTreeSet;
use std::iter;

type Matrix = Vec<Vec<u8>>;

const GF: Field = Field::Gf256;

/// The powers of an element, from the zeroth on.
pub fn powers(element: u8) -> impl Iterator<Item = u8> {
    iter::successors(Some(1), move |&power| Some(GF.times(power, element)))
}

/// (alpha^j)^i in row i and column j.
fn vandermonde(rows: usize, columns: usize) -> Matrix {
    let columns: Matrix = powers(2).take(columns).map(|element| powers(element).take(rows).collect()).collect();
    (0..rows).map(|i| columns.iter().map(|column| column[i]).collect()).collect()
}

fn product(a: &Matrix, b: &Matrix) -> Matrix {
    let sum = |row: &Vec<u8>| {
        let mut sum = vec![0; b[0].len()];
        row.iter().zip(b).for_each(|(&c, other)| GF.add(&mut sum, c, other));
        sum
    };
    a.iter().map(sum).collect()
}

/// The inverse of a square matrix, by elimination beside the unit matrix.
fn inverse(matrix: &Matrix) -> Matrix {
    let k = matrix.len();
    let unit = |i: usize| (0..k).map(move |j| u8::from(i == j));
    let mut rows: Matrix = matrix.iter().enumerate().map(|(i, row)| row.iter().copied().chain(unit(i)).collect()).collect();
    for column in 0..k {
        let found = (column..k).find(|&r| rows[r][column] != 0).expect("a matrix that has an inverse");
        rows.swap(column, found);
        let mut pivot = vec![0; 2 * k];
        GF.add(&mut pivot, GF.invert(rows[column][column]), &rows[column]);
        for row in &mut rows {
            let coefficient = row[column];
            GF.add(row, coefficient, &pivot);
        }
        rows[column] = pivot;
    }
    rows.into_iter().map(|row| row[k..].to_vec()).collect()
}

/// The generator matrix of k source symbols and n symbols in all.
pub fn generator(k: usize, n: usize) -> Matrix {
    product(&inverse(&vandermonde(k, k)), &vandermonde(k, n))
}

/// What both ends are opened with.
#[derive(Clone, Copy, Debug, PartialEq, Eq)]
pub struct Block {
    pub symbol_size: usize,
    pub k: usize,
    pub total: usize,
    pub number: u32,
}

impl Block {
    /// What opening in memory of this length answers: refusal 1, 18 or 2.
    pub fn checked(symbol_size: u32, k: u32, total: u32, number: u32, memory: usize) -> Result<Block, u32> {
        if !(4..=1500).contains(&symbol_size) {
            return Err(1);
        }
        if k == 0 || total < k || total > 255 || number >= 1 << 24 {
            return Err(18);
        }
        let block = Block { symbol_size: symbol_size as usize, k: k as usize, total: total as usize, number };
        if memory < block.memory() {
            return Err(2);
        }
        Ok(block)
    }

    /// A receiver whose width is k: its memories are those of both ends.
    fn receiver(self) -> Setting {
        Setting { scheme: 10, symbol_size: self.symbol_size, width: self.k }
    }

    pub fn memory(self) -> usize {
        self.receiver().receiver_memory()
    }

    pub fn working_memory(self) -> usize {
        self.receiver().working_memory()
    }

    /// The most bytes in an ADU.
    pub fn longest(self) -> usize {
        self.symbol_size - 3
    }

    /// The FEC payload identifier of RFC 6865 for m = 8: block number (24 bits), ESI (8), k (16).
    pub fn identifier(self, esi: usize) -> [u8; 6] {
        let [_, a, b, c] = self.number.to_be_bytes();
        [a, b, c, esi as u8, (self.k / 256) as u8, (self.k % 256) as u8]
    }

    /// The source packet of an ADU: the identifier after it.
    pub fn source_packet(self, esi: usize, adu: &[u8]) -> Vec<u8> {
        [adu, &self.identifier(esi)].concat()
    }

    /// The repair packet of a repair symbol: the identifier before it.
    pub fn repair_packet(self, esi: usize, symbol: &[u8]) -> Vec<u8> {
        [&self.identifier(esi), symbol].concat()
    }

    /// The source symbol of an ADU.
    pub fn symbol(self, flow: u8, adu: &[u8]) -> Vec<u8> {
        self.receiver().cut(flow, adu).remove(0)
    }

    /// The ESI in an identifier, where the rest of it is that of this block; else refusal 18.
    fn read(self, identifier: &[u8]) -> Result<usize, u32> {
        let esi = usize::from(identifier[3]);
        if identifier == self.identifier(esi) {
            Ok(esi)
        } else {
            Err(18)
        }
    }
}

#[derive(Clone)]
pub struct Encoder {
    pub block: Block,
    generator: Matrix,
    /// The source symbols so far.
    pub symbols: Vec<Vec<u8>>,
}

impl Encoder {
    pub fn open(block: Block) -> Encoder {
        Encoder { block, generator: generator(block.k, block.total), symbols: Vec::new() }
    }

    /// The source packet, or refusal 3, 2, 18 or 4; `memory` and `room` are the lengths of memory and output.
    pub fn add_adu(&mut self, memory: usize, flow: u8, adu: &[u8], room: usize) -> Result<Vec<u8>, u32> {
        if memory < self.block.memory() {
            return Err(3);
        }
        if room < adu.len() + 6 {
            return Err(2);
        }
        if self.symbols.len() == self.block.k {
            return Err(18);
        }
        if adu.len() > self.block.longest() {
            return Err(4);
        }
        let packet = self.block.source_packet(self.symbols.len(), adu);
        self.symbols.push(self.block.symbol(flow, adu));
        Ok(packet)
    }

    /// The repair packet, or refusal 3, 2, 18 or 7.
    pub fn make_repair(&self, memory: usize, esi: u32, room: usize) -> Result<Vec<u8>, u32> {
        let Block { symbol_size, k, total, .. } = self.block;
        if memory < self.block.memory() {
            return Err(3);
        }
        if room < 6 + symbol_size {
            return Err(2);
        }
        let esi = esi as usize;
        if esi < k || esi >= total {
            return Err(18);
        }
        if self.symbols.len() < k {
            return Err(7);
        }
        Ok(self.block.repair_packet(esi, &self.encoded(esi)))
    }

    /// A symbol of the block, source or repair: a column of the product with the generator matrix.
    pub fn encoded(&self, esi: usize) -> Vec<u8> {
        let mut sum = vec![0; self.block.symbol_size];
        self.symbols.iter().zip(&self.generator).for_each(|(symbol, row)| GF.add(&mut sum, row[esi], symbol));
        sum
    }
}

#[derive(Clone)]
pub struct Recovery {
    pub block: Block,
    generator: Matrix,
    system: System,
    /// The equations of all accepted packets, as they came, and their ESIs.
    pub equations: Vec<Equation>,
    pub esis: BTreeSet<usize>,
    /// The ESIs of the accepted source packets.
    pub heard: BTreeSet<usize>,
}

impl Recovery {
    pub fn open(block: Block) -> Recovery {
        Recovery {
            block,
            generator: generator(block.k, block.total),
            system: System::new(GF),
            equations: Vec::new(),
            esis: BTreeSet::new(),
            heard: BTreeSet::new(),
        }
    }

    /// Takes the symbol with this ESI, or refuses it (11). Gives how many source symbols became known.
    fn accept(&mut self, esi: usize, symbol: &[u8]) -> Answer {
        let column: Vec<u8> = self.generator.iter().map(|row| row[esi]).collect();
        let equation = Equation::new(0, &column, symbol);
        let solved = self.system.admit(equation.clone()).map_err(|_| 11u32)?;
        self.equations.push(equation);
        self.esis.insert(esi);
        Ok((solved.len() as u64, 0))
    }

    pub fn receive_source(&mut self, memory: usize, work: usize, flow: u8, packet: &[u8]) -> Answer {
        self.block.receiver().room(memory, work)?;
        if packet.len() < 6 {
            return Err(5);
        }
        let (adu, identifier) = packet.split_at(packet.len() - 6);
        let esi = self.block.read(identifier)?;
        if esi >= self.block.k {
            return Err(18);
        }
        if adu.len() > self.block.longest() {
            return Err(4);
        }
        let answer = self.accept(esi, &self.block.symbol(flow, adu))?;
        self.heard.insert(esi);
        Ok(answer)
    }

    pub fn receive_repair(&mut self, memory: usize, work: usize, packet: &[u8]) -> Answer {
        self.block.receiver().room(memory, work)?;
        if packet.len() != 6 + self.block.symbol_size {
            return Err(5);
        }
        let (identifier, symbol) = packet.split_at(6);
        let esi = self.block.read(identifier)?;
        if esi < self.block.k || esi >= self.block.total {
            return Err(18);
        }
        self.accept(esi, symbol)
    }

    /// The symbol call: 0 for a known source symbol, and beside it whether it was heard; or refusal 3 or 12.
    pub fn symbol(&self, memory: usize, esi: u32) -> Answer {
        self.part(memory, esi)?;
        Ok((0, u64::from(self.heard.contains(&(esi as usize)))))
    }

    /// The bytes of a known source symbol, or the symbol call's refusal.
    pub fn part(&self, memory: usize, esi: u32) -> Result<&[u8], u32> {
        if memory < self.block.memory() {
            return Err(3);
        }
        self.system.known(u64::from(esi)).ok_or(12)
    }
}
