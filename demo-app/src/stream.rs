//! The stream: ADUs cut from a file, or made like video.

use crate::random::Random;
use rlc8681::Flows;
use std::fs::File;
use std::io::{self, BufReader, Read};
use std::path::Path;

pub struct Adu {
    pub flow: u8,
    pub bytes: Vec<u8>,
}

const VIDEO: u8 = 1;
const AUDIO: u8 = 2;
const CAPTION: u8 = 3;
/// The flow of packets that are not of the stream: no stream has it, and no end announces it.
pub const STRAY: u8 = 200;
/// A key frame, then frames that build on it.
const GROUP: usize = 25;
/// The most symbols in an ADU, and the most bytes: a datagram takes 65,507.
const MOST_SYMBOLS: usize = 3;
const MOST_BYTES: usize = 60_000;

fn made(random: &mut Random, flow: u8, length: usize) -> Adu {
    let mut bytes = vec![0; length];
    random.fill(&mut bytes);
    Adu { flow, bytes }
}

/// A quotient, rounded up.
pub fn ceiling(number: usize, divisor: usize) -> usize {
    number / divisor + usize::from(number % divisor > 0)
}

/// How many symbols an ADU takes: its ADUI is 3 bytes longer.
pub fn symbols_of(adu: usize, symbol_size: usize) -> usize {
    ceiling(adu + 3, symbol_size)
}

/// Whether a file can be read; if not, why.
pub fn readable(path: &Path) -> Result<(), String> {
    match File::open(path).and_then(|file| file.metadata()) {
        Ok(about) if about.is_dir() => Err(format!("{}: it is a directory", path.display())),
        Ok(_) => Ok(()),
        Err(why) => Err(format!("{}: {why}", path.display())),
    }
}

pub struct Stream {
    random: Random,
    symbol_size: usize,
    most_symbols: usize,
    kind: Kind,
}

enum Kind {
    Made { wanted: u64, taken: u64, frame: usize, left: usize, ahead: Vec<Adu> },
    File { reader: BufReader<File>, length: u64, taken: u64 },
}

impl Stream {
    /// A stream whose ADUs have at most `most` symbols; the limits above hold too.
    fn new(seed: u64, symbol_size: usize, most: usize, kind: Kind) -> Stream {
        let most_symbols = MOST_SYMBOLS.min(most).min(MOST_BYTES / symbol_size).max(1);
        Stream { random: Random::new(seed), symbol_size, most_symbols, kind }
    }

    /// Video-like data of about so many symbols.
    pub fn made(seed: u64, symbol_size: usize, most: usize, wanted: u64) -> Stream {
        Stream::new(seed, symbol_size, most, Kind::Made { wanted, taken: 0, frame: 0, left: 0, ahead: Vec::new() })
    }

    /// The bytes of a file, cut into ADUs of one flow.
    pub fn file(seed: u64, symbol_size: usize, most: usize, path: &Path) -> io::Result<Stream> {
        let file = File::open(path)?;
        let length = file.metadata()?.len();
        let kind = Kind::File { reader: BufReader::with_capacity(1 << 16, file), length, taken: 0 };
        Ok(Stream::new(seed, symbol_size, most, kind))
    }

    /// The flows of its ADUs, which both ends announce.
    pub fn flows(&self) -> Flows {
        Flows::only(match self.kind {
            Kind::Made { .. } => &[VIDEO, AUDIO, CAPTION],
            Kind::File { .. } => &[VIDEO],
        })
    }

    /// How much of the stream is taken, from 0 to 1.
    pub fn share(&self) -> f64 {
        let (taken, all) = match &self.kind {
            Kind::Made { wanted, taken, .. } => (*taken, *wanted),
            Kind::File { length, taken, .. } => (*taken, *length),
        };
        (taken as f64 / all.max(1) as f64).min(1.0)
    }

    /// The bytes of an ADU of the most or fewer symbols; smaller ones are as likely as large ones.
    fn length(&mut self) -> usize {
        self.random.between(1, self.most_symbols) * self.symbol_size - 3
    }

    /// The next ADU; none at the end.
    pub fn next(&mut self) -> io::Result<Option<Adu>> {
        let length = self.length();
        let size = self.symbol_size;
        let one = size - 3;
        let random = &mut self.random;
        match &mut self.kind {
            Kind::File { reader, taken, .. } => {
                let mut bytes = Vec::with_capacity(length);
                reader.by_ref().take(length as u64).read_to_end(&mut bytes)?;
                *taken += bytes.len() as u64;
                Ok((!bytes.is_empty()).then_some(Adu { flow: VIDEO, bytes }))
            }
            Kind::Made { wanted, taken, frame, left, ahead } => {
                if taken >= wanted {
                    return Ok(None);
                }
                let adu = if let Some(adu) = ahead.pop() {
                    adu
                } else {
                    if *left == 0 {
                        // A frame begins: its sound goes with it, and a caption with every second key frame.
                        if *frame % (2 * GROUP) == 0 {
                            ahead.push(made(random, CAPTION, (*frame / GROUP % 40).min(one)));
                        }
                        ahead.push(made(random, AUDIO, one.min(1 + size / 3)));
                        let symbols = if *frame % GROUP == 0 { random.between(60, 110) } else { random.between(8, 30) };
                        *left = symbols * size - random.between(0, size - 1);
                        *frame += 1;
                    }
                    let length = length.min(*left);
                    *left -= length;
                    made(random, VIDEO, length)
                };
                *taken += symbols_of(adu.bytes.len(), size) as u64;
                Ok(Some(adu))
            }
        }
    }
}

#[cfg(test)]
mod tests {
    use super::{symbols_of, Stream, STRAY};

    #[test]
    fn made_adus_fit_the_width_and_end() {
        for (size, width) in [(4, 1), (4, 255), (5, 2), (1400, 64), (1500, 255)] {
            let mut stream = Stream::made(7, size, width, 2000);
            let (mut symbols, mut flows) = (0, [0; 4]);
            while let Some(adu) = stream.next().unwrap() {
                let n = symbols_of(adu.bytes.len(), size);
                assert!(n <= width && adu.bytes.len() <= 60_000);
                symbols += n;
                flows[usize::from(adu.flow)] += 1;
                assert!(stream.flows().contains(adu.flow));
            }
            assert!(!stream.flows().contains(STRAY));
            assert!((2000..2003).contains(&symbols) && flows[1..].iter().all(|&f| f > 0), "{symbols} {flows:?}");
            assert_eq!(stream.share(), 1.0);
        }
    }
}
