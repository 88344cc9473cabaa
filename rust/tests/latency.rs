//! The window that a latency budget allows: document 02's figures, the limits of each value, and values of every size against the law of
//! division in wider numbers.

mod library;
mod reference;

use reference::random::Random;
use rlc8681::{dw_max_size, Flows, Receiver, Refusal, Scheme, WindowSize};

const BUDGET: u64 = 10_000_000;
const BITRATE: u64 = 10_000_000_000;

/// What both interfaces answer; a refusal leaves the remainder in C.
fn answered(budget: u64, bitrate: u64, symbol_size: u32) -> Result<WindowSize, Refusal> {
    let mut remainder = u64::MAX;
    let said = library::dw_max_size(budget, bitrate, symbol_size, &mut remainder);
    let window = dw_max_size(budget, bitrate, symbol_size);
    match window {
        Ok(window) => assert_eq!((said, remainder), (i64::from(window.symbols), window.remainder)),
        Err(refusal) => assert_eq!((said, remainder), (-i64::from(refusal.number()), u64::MAX)),
    }
    window
}

fn window(symbols: u32, remainder: u64) -> Result<WindowSize, Refusal> {
    Ok(WindowSize { symbols, remainder })
}

/// The answer is the quotient and the remainder where all values are allowed, and 1 elsewhere.
fn check(budget: u64, bitrate: u64, symbol_size: u32) {
    let allowed = (1..=BUDGET).contains(&budget) && (1..=BITRATE).contains(&bitrate) && (4..=1500).contains(&symbol_size);
    let values = format!("{budget} µs, {bitrate} bit/s, E {symbol_size}");
    match answered(budget, bitrate, symbol_size) {
        Ok(WindowSize { symbols, remainder }) => {
            assert!(allowed, "{values}");
            let symbol = 8_000_000 * u128::from(symbol_size);
            assert_eq!(u128::from(symbols) * symbol + u128::from(remainder), u128::from(budget) * u128::from(bitrate), "{values}");
            assert!(u128::from(remainder) < symbol, "{values}");
        }
        Err(refusal) => {
            assert!(!allowed, "{values}");
            assert_eq!(refusal, Refusal::Values, "{values}");
        }
    }
}

#[test]
fn figures() {
    assert_eq!(answered(100_001, 33_600_000, 1400), window(300, 33_600_000));
    // The widest window, and the first quotient that no window has: both are given, and opening tells them apart
    assert_eq!(answered(85_333, 33_600_000, 1400), window(255, 11_188_800_000));
    assert_eq!(answered(85_334, 33_600_000, 1400), window(256, 22_400_000));
    assert!(Receiver::open(Scheme::Gf256, 1400, 255, &Flows::all()).is_ok());
    assert_eq!(Receiver::open(Scheme::Gf256, 1400, 256, &Flows::all()).err(), Some(Refusal::Values));
    // The smallest and the largest quotient
    assert_eq!(answered(1, 1, 4), window(0, 1));
    assert_eq!(answered(BUDGET, BITRATE, 4), window(3_125_000_000, 0));
}

/// Every value just inside and just outside its limits, at 32 and 64 bits, and 0, each with each.
#[test]
fn limits() {
    for budget in [0, 1, 2, BUDGET - 1, BUDGET, BUDGET + 1, 1 << 32, (1 << 32) + 1, 1 << 63, u64::MAX] {
        for bitrate in [0, 1, 2, 1 << 32, BITRATE - 1, BITRATE, BITRATE + 1, 1 << 63, u64::MAX] {
            for symbol_size in [0, 3, 4, 5, 1499, 1500, 1501, 1 << 16, (1 << 16) + 4, u32::MAX] {
                check(budget, bitrate, symbol_size);
            }
        }
    }
}

/// Every symbol size, and budgets at which a whole number of symbols comes in, with one microsecond less and more.
#[test]
fn whole_symbols() {
    for symbol_size in 4..=1500 {
        for count in 1..=3 {
            let budget = 2000 * u64::from(symbol_size) * u64::from(count); // at 4,000 bit/s a byte takes 2,000 microseconds
            let size = 8_000_000 * u64::from(symbol_size);
            assert_eq!(answered(budget - 1, 4000, symbol_size), window(count - 1, size - 4000));
            assert_eq!(answered(budget, 4000, symbol_size), window(count, 0));
            assert_eq!(answered(budget + 1, 4000, symbol_size), window(count, 4000));
        }
    }
}

#[test]
fn random_values() {
    let mut random = Random::new(8681);
    for _ in 0..200_000 {
        // Of any number of bits, a little more than are allowed
        let bits = [25, 35, 12].map(|most| random.between(0, most));
        let [budget, bitrate, symbol_size] = bits.map(|bits| random.below(1 << bits));
        check(budget, bitrate, symbol_size as u32);
        check(1 + random.below(BUDGET), 1 + random.below(BITRATE), 4 + random.below(1497) as u32);
    }
}
