//! The settings of a run, as options.

use crate::grid::{self, LARGEST_CELL};
use crate::stream::ceiling;
use rlc8681::Scheme;
use std::ffi::OsString;
use std::fmt::Display;
use std::ops::Range;
use std::path::PathBuf;
use std::str::FromStr;

/// Where the picture goes by default.
pub const SVG: &str = "target/demo.svg";
/// The most symbols in a window or a block, and the most packets of which some come last.
const WIDEST: u32 = 255;
const MOST_BONDED: u32 = 64;
/// The length of what is made to be sent, in symbols: a stream, and a still.
const STREAM: u64 = 12_000;
const STILL: u64 = 640;
/// The most symbols of a made still, which is held as a whole.
const LARGEST_STILL: u64 = 100_000;

#[derive(Clone, Debug)]
pub struct Options {
    pub file: Option<PathBuf>,
    pub symbols: u64,
    pub seed: u64,
    pub loss: f64,
    pub burst: f64,
    pub mbit: Option<f64>,
    pub join: u64,
    pub stray: u64,
    /// The rows of a grid; 0 for no grid.
    pub interleave: u32,
    /// Of how many packets those of the slower link come last to a second receiver; 0 for one link.
    pub bond: u32,
    /// The ADUs in a block of a still; 0 for a stream.
    pub block: u32,
    pub scheme: Scheme,
    pub symbol_size: u32,
    pub width: u32,
    pub density: u32,
    pub every: u32,
    pub repairs: u32,
    pub svg: PathBuf,
    /// The number among the arriving packets of the one that loses a bit between link and receiver: for the self-test.
    pub corrupt: Option<u64>,
    /// The same of the one that comes late to the receiver: for the self-test.
    pub late: Option<u64>,
    /// The receiver announces all flows, so that it takes strays: for the self-test.
    pub open_to_strays: bool,
    /// Datagrams that the link loses besides, by their numbers in send order: for the self-test.
    pub lose: Range<u64>,
    /// ADUs have one symbol each without a grid too: for the self-test.
    pub one_symbol: bool,
    /// The number among the arriving packets of the one that the second receiver misses: for the self-test.
    pub missed: Option<u64>,
}

impl Options {
    /// The most symbols in an ADU: its packet must fit a cell, where there is a grid; where there are two links, packets must not bring more
    /// symbols than there are of them, for by as many the receivers' windows are wider.
    pub fn most_symbols(&self) -> usize {
        if self.interleave > 0 || self.bond > 0 || self.one_symbol {
            1
        } else {
            self.width as usize
        }
    }

    /// The symbols in the window of a receiver. A repair packet covers the sender's whole window: where others overtake it, the receiver's
    /// must be wider by what they bring, else it is behind.
    pub fn receiver_width(&self) -> u32 {
        self.width + self.bond
    }

    /// The symbols of a block of so many ADUs, with the repair for them: as in a stream, but that a rest has its repair too.
    pub fn block_total(&self, adus: u32) -> u32 {
        adus + ceiling((adus * self.repairs) as usize, self.every as usize) as u32
    }

    /// Whether values that are right each for itself are right together; if not, why.
    fn agree(&self) -> Result<(), String> {
        let Options { interleave, bond, block, join, width, symbol_size, every, repairs, .. } = self;
        let (cell, wide, total) = (grid::cell_size(self), self.receiver_width(), self.block_total(*block));
        if *block > 0 && (*interleave > 0 || *bond > 0 || *join > 0) {
            return Err(format!("--block {block} with --interleave, --bond or --join: these are for a stream"));
        }
        if *block > 0 && self.symbols > LARGEST_STILL {
            return Err(format!("--symbols {} with --block {block}: {LARGEST_STILL} is the most for a still", self.symbols));
        }
        if total > WIDEST {
            let told = format!("--block {block} with --repairs {repairs} and --every {every}");
            return Err(format!("{told}: blocks of {total} symbols, and {WIDEST} is the most"));
        }
        if *interleave > 0 && cell > LARGEST_CELL {
            let told = format!("--interleave {interleave} with --symbol-size {symbol_size} and --repairs {repairs}");
            return Err(format!("{told}: repair packets need cells of {cell} bytes, and {LARGEST_CELL} is the most"));
        }
        if *bond == 1 {
            return Err(format!("--bond 1: 0 or a number from 2 to {MOST_BONDED} is wanted"));
        }
        if *bond > 0 && *interleave > 0 {
            return Err(format!("--bond {bond} with --interleave {interleave}: packets change places in one of these ways, not in both"));
        }
        if wide > WIDEST {
            let told = format!("--bond {bond} with --width {width}");
            return Err(format!("{told}: the receivers need windows of {wide} symbols, and {WIDEST} is the most"));
        }
        Ok(())
    }
}

impl Default for Options {
    fn default() -> Options {
        Options {
            file: None,
            symbols: STREAM,
            seed: 8681,
            loss: 5.0,
            burst: 2.0,
            mbit: None,
            join: 0,
            stray: 50,
            interleave: 0,
            bond: 0,
            block: 0,
            scheme: Scheme::Gf256,
            symbol_size: 1400,
            width: 64,
            density: 15,
            every: 2,
            repairs: 1,
            svg: PathBuf::from(SVG),
            corrupt: None,
            late: None,
            open_to_strays: false,
            lose: 0..0,
            one_symbol: false,
            missed: None,
        }
    }
}

pub enum Wish {
    Run(Box<Options>),
    SelfTest,
    Help,
}

/// The number in an option's value, from `low` to `high`.
fn number<T: FromStr + PartialOrd + Display>(name: &str, value: &OsString, low: T, high: T) -> Result<T, String> {
    let number = value.to_str().and_then(|text| text.parse().ok()).filter(|number| low <= *number && *number <= high);
    number.ok_or_else(|| format!("{name} {}: a number from {low} to {high} is wanted", value.to_string_lossy()))
}

/// The wish that the words after the program's name tell, or what is wrong with them.
pub fn read(words: impl IntoIterator<Item = OsString>) -> Result<Wish, String> {
    let mut options = Options::default();
    let (mut density, mut symbols) = (None, None);
    let mut self_test = false;
    let mut only_files = false;
    let mut words = words.into_iter();
    while let Some(word) = words.next() {
        let text = word.to_str().unwrap_or("");
        if only_files || !text.starts_with('-') || text == "-" {
            if options.file.replace(PathBuf::from(&word)).is_some() {
                return Err(format!("{}: one file is enough", word.to_string_lossy()));
            }
            continue;
        }
        let (name, mut value) = match text.split_once('=') {
            Some((name, value)) => (name, Some(OsString::from(value))),
            None => (text, None),
        };
        match name {
            "--" => {
                only_files = true;
                continue;
            }
            "--help" | "-h" => return Ok(Wish::Help),
            "--self-test" => {
                self_test = true;
                continue;
            }
            _ => {}
        }
        let mut value = || value.take().or_else(|| words.next()).ok_or_else(|| format!("{name}: a value is wanted"));
        match name {
            "--symbols" => symbols = Some(number(name, &value()?, 1, 100_000_000)?),
            "--seed" => options.seed = number(name, &value()?, 0, u64::MAX)?,
            "--loss" => options.loss = number(name, &value()?, 0.0, 100.0)?,
            "--burst" => options.burst = number(name, &value()?, 1.0, 1_000_000.0)?,
            "--mbit" => options.mbit = Some(number(name, &value()?, 0.001, 1_000_000.0)?),
            "--join" => options.join = number(name, &value()?, 0, 100_000_000)?,
            "--stray" => options.stray = number(name, &value()?, 0, 100_000_000)?,
            "--interleave" => options.interleave = number(name, &value()?, 0, 255)?,
            "--bond" => options.bond = number(name, &value()?, 0, MOST_BONDED)?,
            "--block" => options.block = number(name, &value()?, 0, WIDEST)?,
            "--scheme" => {
                options.scheme = match number(name, &value()?, 9, 10)? {
                    9u32 => Scheme::Gf2,
                    _ => Scheme::Gf256,
                }
            }
            "--symbol-size" => options.symbol_size = number(name, &value()?, 4, 1500)?,
            "--width" => options.width = number(name, &value()?, 1, WIDEST)?,
            "--density" => density = Some(number(name, &value()?, 0, 15)?),
            "--every" => options.every = number(name, &value()?, 1, 1_000_000)?,
            "--repairs" => options.repairs = number(name, &value()?, 1, 16)?,
            "--svg" => options.svg = PathBuf::from(value()?),
            "--corrupt" => options.corrupt = Some(number(name, &value()?, 0, u64::MAX)?),
            _ => return Err(format!("{name}: no such option")),
        }
    }
    // In GF(2) a full density gives every repair symbol the same sum.
    options.density = density.unwrap_or(if options.scheme == Scheme::Gf2 { 7 } else { 15 });
    options.symbols = symbols.unwrap_or(if options.block > 0 { STILL } else { STREAM });
    options.agree()?;
    Ok(if self_test { Wish::SelfTest } else { Wish::Run(Box::new(options)) })
}

#[cfg(test)]
mod tests {
    use super::{read, Wish};
    use rlc8681::Scheme;

    fn words(line: &str) -> Result<Wish, String> {
        read(line.split(' ').filter(|w| !w.is_empty()).map(Into::into))
    }

    #[test]
    fn options_are_read() {
        let Ok(Wish::Run(o)) =
            words("--scheme 9 --loss=7.5 --width 255 --join 70 --stray 0 --interleave 255 a-file --svg x.svg --svg y.svg")
        else {
            panic!()
        };
        assert_eq!((o.scheme, o.loss, o.width, o.density), (Scheme::Gf2, 7.5, 255, 7));
        assert_eq!((o.join, o.stray, o.interleave), (70, 0, 255));
        assert_eq!((o.file.unwrap().to_str(), o.svg.to_str()), (Some("a-file"), Some("y.svg")));
        let Ok(Wish::Run(o)) = words("-- --loss") else { panic!() };
        assert_eq!((o.file.unwrap().to_str(), o.bond), (Some("--loss"), 0));
        let Ok(Wish::Run(o)) = words("--bond 16") else { panic!() };
        assert_eq!((o.bond, o.width, o.receiver_width(), o.most_symbols()), (16, 64, 80, 1));
        assert_eq!((o.block, o.symbols), (0, 12_000));
        let Ok(Wish::Run(o)) = words("--block 64 --every 5 --repairs 2") else { panic!() };
        assert_eq!((o.block, o.symbols, [1, 4, 5, 6, 64].map(|adus| o.block_total(adus))), (64, 640, [2, 6, 7, 9, 90]));
        let Ok(Wish::Run(o)) = words("--symbols 100000 --block 1") else { panic!() };
        assert_eq!((o.block, o.symbols), (1, 100_000));
        assert!(matches!(words("--loss 5 --help"), Ok(Wish::Help)));
        assert!(matches!(words("--self-test"), Ok(Wish::SelfTest)));
    }

    #[test]
    fn bad_usage_is_told() {
        for line in ["--loss", "--loss x", "--loss -1", "--loss 101", "--loss nan", "--width 0", "--width 256", "--symbol-size 3"] {
            assert!(words(line).is_err(), "{line}");
        }
        for line in
            ["--scheme 8", "--density 16", "--every 0", "--repairs 17", "--seed -1", "--join -1", "--stray -1", "a b", "--nothing 1", "-x"]
        {
            assert!(words(line).is_err(), "{line}");
        }
        // With a grid a repair packet must fit a cell.
        for line in ["--interleave 256", "--interleave -1", "--interleave 1 --symbol-size 1485", "--repairs 2 --interleave 255"] {
            assert!(words(line).is_err(), "{line}");
        }
        assert!(words("--interleave 1 --symbol-size 1484").is_ok() && words("--interleave 0 --symbol-size 1500").is_ok());
        // With two links the receivers' windows are wider.
        for line in ["--bond 1", "--bond 65", "--bond -1", "--width 254 --bond 2", "--bond 64 --width 192", "--bond 2 --interleave 1"] {
            assert!(words(line).is_err(), "{line}");
        }
        // A block has at most 255 symbols, and is no part of a stream.
        for line in ["--block 256", "--block -1", "--block 171", "--block 255", "--block 60 --repairs 16 --every 4"] {
            assert!(words(line).is_err(), "{line}");
        }
        for line in ["--block 8 --interleave 1", "--bond 2 --block 8", "--block 8 --join 1", "--block 8 --symbols 100001"] {
            assert!(words(line).is_err(), "{line}");
        }
        for line in ["--block 170", "--block 254 --every 254", "--block 15 --repairs 16 --every 1", "--block 0 --every 1 --repairs 16"] {
            assert!(words(line).is_ok(), "{line}");
        }
        for line in ["--bond 2 --width 253", "--width 191 --bond 64", "--bond 0 --interleave 1 --width 255", "--bond 3 --interleave 0"] {
            assert!(words(line).is_ok(), "{line}");
        }
    }
}
