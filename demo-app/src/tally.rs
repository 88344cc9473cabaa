//! What a run is told by: the packets on the link, the fate of each symbol, the times of the calls.

use crate::bond::Paths;
use crate::grid::COLUMNS;
use crate::link::Kind;
use std::collections::BTreeSet;
use std::time::{Duration, Instant};

/// A packet that the sender made; its place in the list is its number in the stream.
#[derive(Clone, Copy)]
pub struct Packet {
    pub kind: Kind,
    pub lost: bool,
    /// It was sent before the receiver was switched on.
    pub unheard: bool,
    /// The first of the symbols that it brings or protects, and how many.
    pub first: u64,
    pub symbols: u32,
}

impl Packet {
    pub fn end(&self) -> u64 {
        self.first + u64::from(self.symbols)
    }

    pub fn arrives(&self) -> bool {
        !self.lost && !self.unheard
    }
}

/// What became of a source symbol.
#[derive(Clone, Copy, Debug, PartialEq, Eq)]
pub enum Fate {
    /// It was not known before it left the window, or by the end; or it lies before the joining packet's first position.
    Never,
    /// The receiver says that it heard it.
    Heard,
    /// The receiver says that it solved it, and did so at the packet with this number.
    Rebuilt(u32),
}

/// The times of one kind of call, in nanoseconds.
#[derive(Default)]
pub struct Times(Vec<u32>);

impl Times {
    /// Makes the call and keeps its time.
    pub fn of<T>(&mut self, call: impl FnOnce() -> T) -> T {
        let start = Instant::now();
        let answer = call();
        self.add(start.elapsed());
        answer
    }

    pub fn add(&mut self, time: Duration) {
        self.0.push(u32::try_from(time.as_nanos()).unwrap_or(u32::MAX));
    }

    pub fn count(&self) -> usize {
        self.0.len()
    }

    /// Median, the time that 99 of 100 calls keep, and worst.
    pub fn summary(&self) -> Option<[f64; 3]> {
        let mut sorted = self.0.clone();
        sorted.sort_unstable();
        let last = sorted.len().checked_sub(1)?;
        Some([last / 2, last * 99 / 100, last].map(|place| f64::from(sorted[place])))
    }
}

/// What the sending end knows after the run.
#[derive(Default)]
pub struct Sent {
    pub packets: Vec<Packet>,
    /// The numbers of the packets in send order.
    pub order: Vec<u32>,
    pub adus: u64,
    pub bytes: u64,
    pub symbols: u64,
    pub link_bytes: u64,
    pub flows: BTreeSet<u8>,
    /// Strays: ADUs of a flow that is not announced, which the sender refused, and packets of it on the link, which are in no other figure.
    pub strays: u64,
    pub stray_packets: u64,
    pub add: Times,
    pub make: Times,
}

/// What the receiving end knows after the run.
#[derive(Default)]
pub struct Got {
    /// The first position of the packet that the receiver joined at; those before it are never known.
    pub joined: Option<u64>,
    /// The fate of each position that a packet told of.
    pub fates: Vec<Fate>,
    /// Packets that arrived, and the positions that their calls counted as newly known.
    pub arrived: u64,
    pub counted: u64,
    /// The source packets that were accepted, by their numbers, and the symbols that were rebuilt first and heard later.
    pub accepted: Vec<u32>,
    pub later: u64,
    /// How often a packet call gave each refusal; of refusal 8, how often to a packet that begins before the position joined at.
    pub refused: [u64; 17],
    pub early: u64,
    /// The strays that arrived and were refused because of their flow (16): these are in none of the counts above.
    pub strays: u64,
    pub adus: u64,
    pub bytes: u64,
    /// ADUs and rebuilt symbols that are not what was sent.
    pub differences: Differences,
    /// What came of the comparisons with a second receiver, where there is one.
    pub paths: Paths,
    pub source: Times,
    pub repair: Times,
    pub adu: Times,
    pub adu_refused: Times,
}

/// What is not the same: how often, and the first time in words.
#[derive(Default)]
pub struct Differences {
    pub count: u64,
    pub first: Option<String>,
}

impl Differences {
    pub fn add(&mut self, what: impl FnOnce() -> String) {
        self.count += 1;
        self.first.get_or_insert_with(what);
    }
}

/// The longest run of losses.
pub fn longest(lost: impl Iterator<Item = bool>) -> u64 {
    let mut run = 0;
    let runs = lost.map(|lost| {
        run = if lost { run + 1 } else { 0 };
        run
    });
    runs.max().unwrap_or(0)
}

/// A whole run.
pub struct Run {
    pub sent: Sent,
    pub got: Got,
    pub time: Duration,
}

impl Run {
    /// Packets of a kind: sent, arrived, and lost; the others came before the receiver was switched on.
    pub fn packets(&self, kind: Kind) -> (u64, u64, u64) {
        let count = |f: fn(&Packet) -> bool| self.sent.packets.iter().filter(|p| p.kind == kind && f(p)).count() as u64;
        (count(|_| true), count(Packet::arrives), count(|p| p.lost))
    }

    pub fn lost(&self, number: u32) -> bool {
        self.sent.packets.get(number as usize).is_some_and(|p| p.lost)
    }

    /// The most packets lost one after another, in send order and in the stream's order, and the most lost of a row of a grid.
    pub fn lost_at_most(&self) -> (u64, u64, u64) {
        let on_link = longest(self.sent.order.iter().map(|&number| self.lost(number)));
        let rows = self.sent.packets.chunks(COLUMNS as usize);
        let of_row = rows.map(|row| row.iter().filter(|p| p.lost).count() as u64).max();
        (on_link, longest(self.sent.packets.iter().map(|p| p.lost)), of_row.unwrap_or(0))
    }

    pub fn fate(&self, position: u64) -> Fate {
        usize::try_from(position).ok().and_then(|p| self.got.fates.get(p)).copied().unwrap_or(Fate::Never)
    }

    /// Symbols heard, rebuilt and never known.
    pub fn symbols(&self) -> (u64, u64, u64) {
        let count = |f: fn(&Fate) -> bool| self.got.fates.iter().filter(|fate| f(fate)).count() as u64;
        let (heard, rebuilt) = (count(|f| *f == Fate::Heard), count(|f| matches!(f, Fate::Rebuilt(_))));
        (heard, rebuilt, self.sent.symbols.saturating_sub(heard + rebuilt))
    }

    /// Symbols of which the receiver does not say rightly whether it heard them: heard are those that the accepted source packets brought, by
    /// the sending end's list of packets.
    pub fn misheard(&self) -> u64 {
        let mut brought = vec![false; usize::try_from(self.sent.symbols).unwrap_or(usize::MAX)];
        for packet in self.got.accepted.iter().filter_map(|&number| self.sent.packets.get(number as usize)) {
            brought[packet.first as usize..packet.end() as usize].fill(true);
        }
        (0..).zip(brought).filter(|&(position, brought)| (self.fate(position) == Fate::Heard) != brought).count() as u64
    }

    /// Of those never known, the ones before the position that the receiver joined at.
    pub fn before(&self) -> u64 {
        self.got.joined.unwrap_or(0)
    }

    /// Everything that speaks against the run, in words. A packet out of reach (refusals 8 and 9) is a loss like any other.
    pub fn faults(&self) -> Vec<String> {
        let mut faults = Vec::new();
        let got = &self.got;
        if let Some(first) = &got.differences.first {
            faults.push(format!("{} times not what was sent; first {first}", got.differences.count));
        }
        faults.extend(got.paths.faults());
        for (number, count) in got.refused.iter().enumerate().filter(|(number, count)| **count > 0 && ![8, 9].contains(number)) {
            faults.push(format!("{count} packets of the sender met refusal {number}"));
        }
        if self.sent.stray_packets != got.strays {
            faults.push(format!("{} strays were on the link and {} were refused", self.sent.stray_packets, got.strays));
        }
        let through = self.sent.packets.iter().filter(|p| p.arrives()).count() as u64;
        if through != got.arrived {
            faults.push(format!("{through} packets passed the link and {} arrived", got.arrived));
        }
        let (heard, rebuilt, _) = self.symbols();
        if got.counted != heard + rebuilt {
            faults.push(format!("the packet calls counted {} symbols as known, and {} were shown", got.counted, heard + rebuilt));
        }
        let misheard = self.misheard();
        if misheard > 0 {
            faults.push(format!("of {misheard} symbols the receiver does not say rightly whether it heard them"));
        }
        faults
    }
}
