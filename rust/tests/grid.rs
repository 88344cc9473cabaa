//! Grids of symbols in send order: against a plain transposition, back and forth, at every limit; and that a burst of as many neighbours as
//! there are rows takes at most one symbol of each.

mod library;
mod reference;

use library::Lent;
use reference::random::Random;
use rlc8681::{Grid, Refusal};

type Call = fn(&[u8], u32, u32, u32, &mut [u8]) -> i64;
type Method = fn(&Grid, &[u8], &mut [u8]) -> Result<usize, Refusal>;
type Reference = fn(&[u8], u32, u32, u32, usize) -> Result<Vec<u8>, u32>;

/// Both directions: the call in C, the method in Rust, the second implementation.
const BOTH: [(Call, Method, Reference); 2] = [
    (library::interleave, Grid::interleave, reference::grid::interleave),
    (library::deinterleave, Grid::deinterleave, reference::grid::deinterleave),
];

fn grid(symbol_size: u32, rows: u32, columns: u32) -> Grid {
    Grid { symbol_size, rows, columns }
}

/// What both interfaces answer in one direction, with output of `room` bytes: compared with the second implementation, answer, output and all
/// that lies around it.
fn answered(direction: usize, grid: Grid, input: &[u8], room: usize) -> Result<Vec<u8>, u32> {
    let (call, method, reference) = BOTH[direction];
    let Grid { symbol_size, rows, columns } = grid;
    let expected = reference(input, symbol_size, rows, columns, room);
    let before: Vec<u8> = (0..room).map(|i| (i * 151 + 7) as u8).collect();
    let mut after = before.clone();
    if let Ok(bytes) = &expected {
        after[..bytes.len()].copy_from_slice(bytes);
    }
    let (lent, mut out) = (Lent::new(input), Lent::new(&before));
    let said = call(lent.get(), symbol_size, rows, columns, out.lend());
    assert_eq!(said, expected.as_ref().map_or_else(|&number| -i64::from(number), |bytes| bytes.len() as i64), "{grid:?}, room {room}");
    assert!(out.get() == after, "{grid:?}, room {room}");
    assert!(lent.get() == input, "{grid:?}, room {room}");
    out.check();
    lent.check();
    let mut out = before;
    let said = method(&grid, input, &mut out).map_err(|refusal| u32::from(refusal.number()));
    assert_eq!(said, expected.as_ref().map(Vec::len).map_err(|&number| number), "{grid:?}, room {room}");
    assert!(out == after, "{grid:?}, room {room}");
    expected
}

/// Both directions undo each other; output is just long enough, and then one byte longer.
fn there_and_back(grid: Grid, bytes: &[u8]) {
    for direction in [0, 1] {
        for more in [0, 1] {
            let moved = answered(direction, grid, bytes, bytes.len() + more).expect("a grid");
            let back = answered(1 - direction, grid, &moved, bytes.len() + more).expect("a grid");
            assert!(back == bytes, "{grid:?}");
        }
        assert_eq!(answered(direction, grid, bytes, bytes.len() - 1), Err(2), "{grid:?}");
    }
}

#[test]
fn two_by_three() {
    let taken = b"1aaa2bbb3ccc4ddd5eee6fff";
    let sent = b"1aaa4ddd2bbb5eee3ccc6fff";
    assert_eq!(answered(0, grid(4, 2, 3), taken, 24), Ok(sent.to_vec()));
    assert_eq!(answered(1, grid(4, 2, 3), sent, 24), Ok(taken.to_vec()));
    // The other way round it is another order
    assert_eq!(answered(0, grid(4, 3, 2), taken, 24), Ok(b"1aaa3ccc5eee2bbb4ddd6fff".to_vec()));
}

/// Every grid of up to 9 rows and 9 columns, with symbols of several sizes.
#[test]
fn small_grids() {
    let mut random = Random::new(8);
    for symbol_size in [4, 5, 8, 13, 64] {
        for rows in 1..=9 {
            for columns in 1..=9 {
                let grid = grid(symbol_size, rows, columns);
                there_and_back(grid, &random.bytes(grid.bytes()));
            }
        }
    }
}

/// One row and one column of any length leave the order; the longest of each, and the largest grid.
#[test]
fn at_the_limits() {
    let mut random = Random::new(17);
    for n in [1, 2, 3, 254, 255] {
        for grid in [grid(4, 1, n), grid(4, n, 1)] {
            let bytes = random.bytes(grid.bytes());
            there_and_back(grid, &bytes);
            assert!(answered(0, grid, &bytes, bytes.len()).as_ref() == Ok(&bytes), "{grid:?}");
        }
    }
    let large = grid(4, 255, 255);
    assert_eq!(large.bytes(), 260_100);
    there_and_back(large, &random.bytes(large.bytes()));
    let long = grid(1500, 255, 2);
    there_and_back(long, &random.bytes(long.bytes()));
    let largest = grid(1500, 255, 255);
    let (taken, mut sent, mut back) = (random.bytes(largest.bytes()), vec![0; 97_537_500], vec![0; 97_537_500]);
    assert_eq!(largest.interleave(&taken, &mut sent), Ok(97_537_500));
    // The first row's last symbol, and the last row's first
    assert!(sent[254 * 255 * 1500..][..1500] == taken[254 * 1500..][..1500]);
    assert!(sent[254 * 1500..][..1500] == taken[254 * 255 * 1500..][..1500]);
    assert_eq!(largest.deinterleave(&sent, &mut back), Ok(97_537_500));
    assert!(back == taken);
}

#[test]
fn random_grids() {
    // How often a value or a length that may be off was answered with bytes, and refused with 1, 17 and 2
    let mut answers = [0; 4];
    library::runs(300, |seed| {
        let mut random = Random::new(seed);
        let symbol_size = random.one_of(&[4, 5, 6, 7, 9, 16, 31, 33, 100]) as u32;
        let grid = grid(symbol_size, random.between(1, 40) as u32, random.between(1, 40) as u32);
        let bytes = random.bytes(grid.bytes());
        there_and_back(grid, &bytes);
        // Of a value or a length that is off somewhere the second implementation tells what is answered
        let off = |random: &mut Random, value: u32, values: &[u32]| if random.chance(25) { random.one_of(values) } else { value };
        let wrong = Grid {
            symbol_size: off(&mut random, grid.symbol_size, &[0, 3, 4, 1501, u32::MAX]),
            rows: off(&mut random, grid.rows, &[0, 1, 256, 257, u32::MAX]),
            columns: off(&mut random, grid.columns, &[0, 1, 256, 257, u32::MAX]),
        };
        let mut given = bytes;
        let length = given.len() + random.between(0, 2);
        given.resize(length - usize::from(random.chance(30)), 9);
        let room = given.len() + random.between(0, 3) - 1;
        for direction in [0, 1] {
            answers[match answered(direction, wrong, &given, room) {
                Ok(_) => 0,
                Err(1) => 1,
                Err(17) => 2,
                Err(_) => 3,
            }] += 1;
        }
    });
    assert!(answers.iter().all(|&count| count > 0) || std::env::var_os("RLC8681_SEED").is_some(), "{answers:?}");
}

/// Each value outside its limits, at 8, 16 and 32 bits, and the order of refusals: 1, 17, 2.
#[test]
fn refusals() {
    for direction in [0, 1] {
        let refused = |symbol_size, rows, columns, length: usize, room, number| {
            let input = vec![1; length];
            assert_eq!(answered(direction, grid(symbol_size, rows, columns), &input, room), Err(number));
        };
        for symbol_size in [0, 1, 3, 1501, 256, 65_540, u32::MAX] {
            // 256 is allowed, and the length is not that of its grid
            let number = if symbol_size == 256 { 17 } else { 1 };
            refused(symbol_size, 2, 3, 24, 24, number);
            refused(symbol_size, 0, 3, 0, 0, number);
        }
        for wrong in [0, 256, 257, 65_536, 65_538, 1 << 31, u32::MAX] {
            refused(4, wrong, 3, 24, 24, 17);
            refused(4, 2, wrong, 24, 24, 17);
            refused(4, wrong, wrong, 0, 0, 17);
        }
        refused(4, 256, 1, 1024, 1024, 17);
        refused(4, 1, 256, 1024, 1024, 17);
        for length in [0, 1, 20, 23, 25, 28, 48] {
            refused(4, 2, 3, length, 99, 17);
            refused(4, 2, 3, length, 0, 17);
        }
        // A product of 2^32 symbols, of 0 in 32 bits
        refused(4, 65_536, 65_536, 0, 0, 17);
        refused(3, 2, 3, 18, 0, 1);
        refused(4, 2, 3, 24, 23, 2);
        refused(4, 2, 3, 24, 0, 2);
    }
}

/// Which row each place in send order holds a symbol of, read off the library: each symbol tells its row.
fn rows_sent(grid: Grid) -> Vec<u8> {
    let mut taken = vec![0; grid.bytes()];
    for (at, symbol) in taken.chunks_mut(grid.symbol_size as usize).enumerate() {
        symbol.fill((at / grid.columns as usize) as u8);
    }
    let mut sent = vec![0; grid.bytes()];
    grid.interleave(&taken, &mut sent).expect("a grid");
    sent.chunks(grid.symbol_size as usize).map(|symbol| symbol[0]).collect()
}

fn all_different(rows: &[u8]) -> bool {
    rows.iter().enumerate().all(|(i, row)| !rows[..i].contains(row))
}

/// In any run of as many places as there are rows, every row once at most; one place more, where there are two columns, has some row twice.
#[test]
fn bursts_are_spread() {
    for (rows, columns) in (1..=16).flat_map(|rows| (1..=16).map(move |columns| (rows, columns))).chain([(255, 3), (3, 255)]) {
        let sent = rows_sent(grid(4, rows, columns));
        let burst = rows as usize;
        assert!(sent.windows(burst).all(all_different), "{rows} by {columns}");
        assert!(sent.windows(burst + 1).all(|places| !all_different(places)), "{rows} by {columns}");
    }
}
