//! Every refusal of document 01's table, and 16 to 18 of document 02, by a small example, and the order of refusals in each call but those of
//! block mode.

mod library;
mod reference;

use reference::{repair_packet, source_packet};
use rlc8681::{Adu, Block, BlockEncoder, BlockRecovery, Flows, Grid, Received, Receiver, Refusal, Repair, Scheme, Sender};

fn sender(symbol_size: u32, width: u32) -> Sender {
    Sender::open(Scheme::Gf2, symbol_size, width, &Flows::all()).unwrap()
}

fn receiver(symbol_size: u32, width: u32) -> Receiver {
    Receiver::open(Scheme::Gf2, symbol_size, width, &Flows::all()).unwrap()
}

/// A receiver of symbols of 4 bytes whose base is 0: it took an empty ADU of flow 9 at ESI 0.
fn joined(width: u32) -> Receiver {
    joined_with(width, &Flows::all())
}

/// The same that announces these flows, of which 9 is one.
fn joined_with(width: u32, flows: &Flows) -> Receiver {
    let mut receiver = Receiver::open(Scheme::Gf2, 4, width, flows).unwrap();
    assert_eq!(receiver.receive_source(9, &source_packet(&[], 0)), known(1));
    receiver
}

const BLOCK: Block = Block { symbol_size: 16, k: 3, total: 5, number: 7 };

/// The bytes that announce flow 1 alone.
const ONE: [u8; 32] = {
    let mut flows = [0; 32];
    flows[0] = 2;
    flows
};

/// A repair packet of scheme 9 with DT 15 over n symbols, for E 4.
fn all_ones(position: u64, n: u16, symbols: &[[u8; 4]]) -> Vec<u8> {
    let symbols: Vec<Vec<u8>> = symbols.iter().map(|symbol| symbol.to_vec()).collect();
    repair_packet(0, 15, n, position, &symbols)
}

/// The answer to a packet that took no draws.
fn known(known: usize) -> Result<Received, Refusal> {
    Ok(Received { known, draws: 0 })
}

#[test]
fn table_of_examples() {
    assert_eq!(Sender::open(Scheme::Gf2, 3, 1, &Flows::all()).err(), Some(Refusal::Values));
    assert_eq!(sender(4, 1).add_adu(1, &[7], &mut []), Err(Refusal::Short));
    assert_eq!(library::symbol(&[0; 100], 0), -3);
    assert_eq!(sender(4, 2).add_adu(1, &[0; 6], &mut [0; 99]), Err(Refusal::Long));
    assert_eq!(receiver(4, 2).receive_repair(&[0; 9]), Err(Refusal::Form));
    assert_eq!(receiver(4, 2).receive_repair(&all_ones(0, 0, &[[0; 4]])), Err(Refusal::Range));
    assert_eq!(sender(4, 2).make_repair(0, 15, 1, &mut [0; 99]), Err(Refusal::Empty));
    assert_eq!(joined(2).receive_source(1, &source_packet(&[], 4_294_967_295)), Err(Refusal::Behind));
    assert_eq!(joined(2).receive_source(1, &source_packet(&[], 65_536)), Err(Refusal::Ahead));
    assert_eq!(receiver(4, 2).receive_repair(&all_ones(0, 2, &[[1; 4], [2; 4]])), Err(Refusal::Contradiction));
    assert_eq!(receiver(4, 2).symbol(0), Err(Refusal::Unknown));
    let mut fresh = receiver(4, 2);
    assert_eq!(fresh.receive_repair(&all_ones(1, 1, &[[1, 0, 0, 0]])), known(1));
    assert_eq!(fresh.adu(1, &mut []), Err(Refusal::NoStart));
    let mut narrow = joined(1);
    assert_eq!(narrow.receive_repair(&all_ones(1, 1, &[[1, 0, 2, 0]])), known(1));
    assert_eq!(narrow.adu(1, &mut [0; 9]), Err(Refusal::Padding));
    assert_eq!(joined_with(2, &Flows::only(&[9])).receive_source(1, &source_packet(&[], 1)), Err(Refusal::Unannounced));
    assert_eq!(Grid { symbol_size: 4, rows: 2, columns: 3 }.interleave(&[0; 23], &mut [0; 24]), Err(Refusal::Grid));
    assert_eq!(BlockEncoder::open(Block { k: 0, ..BLOCK }).err(), Some(Refusal::Block));
}

#[test]
fn numbers_and_words() {
    let all: Vec<Refusal> = (0..=255).filter_map(Refusal::from_number).collect();
    let numbers: Vec<u8> = all.iter().map(|refusal| refusal.number()).collect();
    assert_eq!(numbers, (1..=14).chain(16..=18).collect::<Vec<u8>>());
    let words: Vec<String> = all.iter().map(Refusal::to_string).collect();
    // Document 01's words; to 1, document 02's No. 3 adds budget and bitrate, No. 7 and 8 add 16 and 17, and No. 9 adds 18 and what others
    // say of a block
    let expected = [
        "scheme, E, width, latency budget or bitrate outside its values",
        "memory for opening, working memory or output too short",
        "state memory all zero, of another kind of end, or shorter than opening asked",
        "ADU over 65,535 bytes or needing more symbols than the width; in a block, more than one",
        "source packet under 4 bytes; repair packet not 8 + 1..16 × E; of a block, under 6; not 6 + E",
        "DT over 15 or count not 1..16 (sender); NSS 0 or over width (receiver)",
        "sender's window empty; block with fewer than k ADUs",
        "behind the window",
        "too far ahead",
        "sixteen zero draws",
        "contradiction",
        "not known, or past the window or block",
        "no start",
        "ADUI needs more than the width, or padding not zero",
        "flow not announced",
        "rows or columns outside their values, or input that is not all of such a grid",
        "k, total or block number outside its values; ADU past the k-th; another block, another k, or an ESI not of its kind",
    ];
    assert_eq!(words, expected);
}

#[test]
fn types_of_the_crate() {
    fn shared<T: Send + Sync + Clone + std::fmt::Debug>(_: &T) {}
    let (sender, receiver) = (sender(4, 2), receiver(16, 3));
    shared(&sender);
    shared(&receiver);
    assert_eq!(format!("{sender:?}"), "Sender { scheme: Gf2, symbol_size: 4, width: 2, .. }");
    assert_eq!(format!("{receiver:?}"), "Receiver { scheme: Gf2, symbol_size: 16, width: 3, .. }");
    assert_eq!((sender.scheme(), sender.symbol_size(), sender.width()), (Scheme::Gf2, 4, 2));
    assert_eq!((receiver.scheme(), receiver.symbol_size(), receiver.width()), (Scheme::Gf2, 16, 3));
    let (encoder, recovery) = (BlockEncoder::open(BLOCK).unwrap(), BlockRecovery::open(BLOCK).unwrap());
    shared(&encoder);
    shared(&recovery);
    assert_eq!(format!("{encoder:?}"), "BlockEncoder { block: Block { symbol_size: 16, k: 3, total: 5, number: 7 }, .. }");
    assert_eq!(format!("{recovery:?}"), "BlockRecovery { block: Block { symbol_size: 16, k: 3, total: 5, number: 7 }, .. }");
    assert_eq!((encoder.block(), recovery.block()), (BLOCK, BLOCK));
    let boxed: Box<dyn std::error::Error> = Box::new(Refusal::Ahead);
    assert_eq!(boxed.to_string(), "too far ahead");
}

/// Every size in its range, and the values around it.
#[test]
fn sizes() {
    for symbol_size in (0..=1502).chain([65_536, u32::MAX - 3, u32::MAX]) {
        for width in (0..=257).chain([65_536, u32::MAX]) {
            let good = (4..=1500).contains(&symbol_size) && (1..=255).contains(&width);
            let (e, w) = (i64::from(symbol_size), i64::from(width));
            let row = w + e + 4;
            let expected = if good { (64 + w * e, 96 + w * row + w, 96 + (w + 1) * row + w + 1) } else { (-1, -1, -1) };
            let found = (
                library::sender_memory(symbol_size, width),
                library::receiver_memory(symbol_size, width),
                library::working_memory(symbol_size, width),
            );
            assert_eq!(found, expected, "E {symbol_size}, width {width}");
        }
    }
}

/// Opening: 1, 2, whatever the flows. A refused opening leaves the memory as it was; the exact size is enough.
#[test]
fn order_of_opening() {
    type Open = fn(&mut [u8], u32, u32, u32, &[u8; 32]) -> i64;
    type Size = fn(u32, u32) -> i64;
    let ends: [(Open, Size); 2] = [(library::sender_open, library::sender_memory), (library::receiver_open, library::receiver_memory)];
    for (open, size, flows) in ends.into_iter().flat_map(|(open, size)| [[0; 32], ONE, library::ALL].map(|flows| (open, size, flows))) {
        for (scheme, e, w) in [(8, 4, 1), (11, 4, 1), (0, 4, 1), (u32::MAX, 4, 1), (9, 3, 1), (9, 1501, 1), (10, 4, 0), (10, 4, 256)] {
            for length in [0, 40, 5000] {
                let mut memory = vec![77; length];
                assert_eq!(open(&mut memory, scheme, e, w, &flows), -1);
                assert!(memory.iter().all(|&b| b == 77));
            }
        }
        for (scheme, e, w) in [(9, 4, 1), (10, 4, 255), (9, 1500, 1), (10, 1500, 255), (10, 7, 9)] {
            let needed = size(e, w) as usize;
            for length in [0, 1, 8, 31, 32, 63, needed - 32, needed - 1] {
                let mut memory = vec![77; length];
                assert_eq!(open(&mut memory, scheme, e, w, &flows), -2);
                assert!(memory.iter().all(|&b| b == 77));
            }
            let mut memory = vec![77; needed + 9];
            assert_eq!(open(&mut memory[..needed], scheme, e, w, &flows), 0);
            assert!(memory[needed..].iter().all(|&b| b == 77));
            assert_eq!(open(&mut memory, scheme, e, w, &flows), 0);
            assert!(memory[needed..].iter().all(|&b| b == 77));
        }
    }
}

/// Adding an ADU: 3, 16, 4, 2. Making repair: 3, 6, 7, 2.
#[test]
fn order_of_the_sender() {
    let mut unopened = [0; 100];
    assert_eq!(library::add_adu(&mut unopened, 2, &[0; 99], &mut []), -3);
    assert_eq!(library::make_repair(&unopened, 0, 16, 0, &mut []), -3);
    let mut sender = Sender::open(Scheme::Gf2, 4, 2, &Flows::only(&[1])).unwrap();
    assert_eq!(sender.add_adu(2, &[0; 70_000], &mut []), Err(Refusal::Unannounced));
    assert_eq!(sender.add_adu(1, &[0; 70_000], &mut []), Err(Refusal::Long));
    assert_eq!(sender.add_adu(2, &[0; 6], &mut []), Err(Refusal::Unannounced));
    assert_eq!(sender.add_adu(1, &[0; 6], &mut []), Err(Refusal::Long));
    assert_eq!(sender.add_adu(2, &[0; 5], &mut [0; 8]), Err(Refusal::Unannounced));
    assert_eq!(sender.add_adu(1, &[0; 5], &mut [0; 8]), Err(Refusal::Short));
    assert_eq!(sender.add_adu(2, &[0; 5], &mut [0; 9]), Err(Refusal::Unannounced));
    assert_eq!(sender.make_repair(0, 16, 1, &mut []), Err(Refusal::Range));
    assert_eq!(sender.make_repair(0, 15, 0, &mut []), Err(Refusal::Range));
    assert_eq!(sender.make_repair(0, 15, 17, &mut []), Err(Refusal::Range));
    assert_eq!(sender.make_repair(0, 15, 1, &mut []), Err(Refusal::Empty));
    assert_eq!(sender.add_adu(1, &[], &mut [0; 4]), Ok(4));
    assert_eq!(sender.make_repair(0, 15, 2, &mut [0; 15]), Err(Refusal::Short));
    assert_eq!(sender.make_repair(0, 15, 2, &mut [0; 16]), Ok(Repair { bytes: 16, draws: 0 }));
}

/// Receiving: 3, 2, 5, of source packets 16 and 4, of repair packets 6, 8, 9, 11. Each packet breaks the rule named and all after it that it
/// can, with the base at 0, a receiver that announces flow 1, and source packets of flow 2 up to rule 16.
#[test]
fn order_of_receiving() {
    let needed = library::receiver_memory(4, 2) as usize;
    let work_needed = library::working_memory(4, 2) as usize;
    let mut memory = vec![0; needed];
    assert_eq!(library::receive_source(&mut memory, &mut [], 2, &[]), -3);
    assert_eq!(library::receive_repair(&mut memory, &mut [], &[]), -3);
    assert_eq!(library::receiver_open(&mut memory, 9, 4, 2, &ONE), 0);
    let mut work = vec![0; work_needed];
    assert_eq!(library::receive_source(&mut memory, &mut work, 1, &source_packet(&[], 0)), 1);
    assert_eq!(library::receive_source(&mut memory, &mut work[1..], 2, &[]), -2);
    assert_eq!(library::receive_repair(&mut memory, &mut work[1..], &[]), -2);
    assert_eq!(library::receive_source(&mut memory, &mut work, 2, &[0; 3]), -5);
    assert_eq!(library::receive_source(&mut memory, &mut work, 1, &[0; 3]), -5);
    // What a packet of flow 1 says, with that of flow 2 before it
    let refused =
        [([0; 70_000].as_slice(), 1 << 31, -4), (&[0; 6], 1 << 31, -4), (&[0; 5], 1 << 31, -8), (&[0; 5], 65_535, -9), (&[7], 0, -11)];
    for (adu, position, answer) in refused {
        let packet = source_packet(adu, position);
        assert_eq!(library::receive_source(&mut memory, &mut work, 2, &packet), -16);
        assert_eq!(library::receive_source(&mut memory, &mut work, 1, &packet), answer);
    }
    assert_eq!(library::receive_source(&mut memory, &mut work, 2, &source_packet(&[], 0)), -16);
    assert_eq!(library::receive_source(&mut memory, &mut work, 1, &source_packet(&[], 0)), 0);
    for length in [0, 7, 8, 11, 13, 8 + 17 * 4] {
        assert_eq!(library::receive_repair(&mut memory, &mut work, &vec![0; length]), -5);
    }
    assert_eq!(library::receive_repair(&mut memory, &mut work, &all_ones(1 << 31, 0, &[[1; 4], [2; 4]])), -6);
    assert_eq!(library::receive_repair(&mut memory, &mut work, &all_ones(1 << 31, 3, &[[1; 4], [2; 4]])), -6);
    assert_eq!(library::receive_repair(&mut memory, &mut work, &all_ones(1 << 31, 2, &[[1; 4], [2; 4]])), -8);
    assert_eq!(library::receive_repair(&mut memory, &mut work, &all_ones(65_535, 2, &[[1; 4], [2; 4]])), -9);
    assert_eq!(library::receive_repair(&mut memory, &mut work, &all_ones(65_534, 2, &[[1; 4], [2; 4]])), -11);
    assert_eq!(library::receive_repair(&mut memory, &mut work, &all_ones(65_534, 2, &[[1; 4], [1; 4]])), 0);
}

/// A repair symbol with no coefficient but zero: zero bytes are accepted and move the window, others contradict.
#[test]
fn repair_of_nothing() {
    let key = (0..=65_535).find(|&key| reference::coefficients::coefficients(reference::Field::Gf2, key, 0, 2) == Ok(vec![0, 0])).unwrap();
    let mut receiver = receiver(4, 2);
    assert_eq!(receiver.receive_repair(&repair_packet(key, 0, 2, 0, &[vec![0, 0, 0, 1]])), Err(Refusal::Contradiction));
    assert_eq!(receiver.receive_repair(&repair_packet(key, 0, 2, 5, &[vec![0; 4]])), Ok(Received { known: 0, draws: 2 }));
    assert_eq!((receiver.symbol(4), receiver.symbol(5)), (Err(Refusal::Behind), Err(Refusal::Unknown)));
}

/// Symbol: 3, 8, 12.
#[test]
fn order_of_symbol() {
    let mut receiver = joined(2);
    assert_eq!(receiver.receive_source(1, &source_packet(&[7], 5)), known(1));
    let esis = [(3, Err(Refusal::Behind)), (4, Err(Refusal::Unknown)), (5, Ok(&[1, 0, 1, 7][..])), (6, Err(Refusal::Unknown))];
    for (esi, answer) in esis {
        assert_eq!(receiver.symbol(esi), answer);
    }
    let half = 1 << 31;
    assert_eq!(receiver.symbol(4 + half - 1), Err(Refusal::Unknown));
    assert_eq!(receiver.symbol(4 + half), Err(Refusal::Behind));
}

/// ADU: 3, 8, past the window 12, 13, first symbol unknown 12, too many symbols 14, another unknown 12, padding 14, 16, 2. Of the flows of the
/// ADUs, 9 is announced at one receiver and 1 and 9 at the other, so that only what comes after 14 differs.
#[test]
fn order_of_adu() {
    for flows in [Flows::only(&[9]), Flows::only(&[1, 9])] {
        order_of_adu_with(&flows);
    }
}

fn order_of_adu_with(flows: &Flows) {
    assert_eq!(library::adu(&[0; 100], 0, &mut []), -3);
    let mut receiver = joined_with(3, flows);
    let none: &mut [u8] = &mut [];
    assert_eq!(receiver.adu(4_294_967_295, none), Err(Refusal::Behind));
    assert_eq!(receiver.adu(3, none), Err(Refusal::Unknown));
    assert_eq!(receiver.adu(2, none), Err(Refusal::NoStart));
    assert_eq!(receiver.adu(1, none), Err(Refusal::Unknown));
    // L 10 needs four symbols
    let mut long = receiver.clone();
    assert_eq!(long.receive_repair(&all_ones(1, 1, &[[1, 0, 10, 0]])), known(1));
    assert_eq!(long.adu(1, none), Err(Refusal::Padding));
    // L 2 needs two: the second unknown, then with padding that is not zero, then whole
    assert_eq!(receiver.receive_repair(&all_ones(1, 1, &[[1, 0, 2, 7]])), known(1));
    assert_eq!(receiver.adu(1, none), Err(Refusal::Unknown));
    let mut padded = receiver.clone();
    assert_eq!(padded.receive_repair(&all_ones(2, 1, &[[8, 0, 1, 0]])), known(1));
    assert_eq!(padded.adu(1, none), Err(Refusal::Padding));
    assert_eq!(receiver.receive_repair(&all_ones(2, 1, &[[8, 0, 0, 0]])), known(1));
    let mut out = [9; 3];
    if !flows.contains(1) {
        assert_eq!(receiver.adu(1, none), Err(Refusal::Unannounced));
        assert_eq!(receiver.adu(1, &mut out[..1]), Err(Refusal::Unannounced));
        assert_eq!(receiver.adu(1, &mut out), Err(Refusal::Unannounced));
        assert_eq!(out, [9; 3]);
        return;
    }
    assert_eq!(receiver.adu(1, none), Err(Refusal::Short));
    assert_eq!(receiver.adu(1, &mut out[..1]), Err(Refusal::Short));
    assert_eq!(out, [9; 3]);
    assert_eq!(receiver.adu(1, &mut out), Ok(Adu { flow: 1, bytes: &[7, 8] }));
    assert_eq!(out, [7, 8, 9]);
}

/// Marks of starts: those at base + width are kept, those dropped past it come back while their maker is known and in the window.
#[test]
fn marks_of_starts() {
    let mut receiver = receiver(4, 2);
    let mut out = [0; 9];
    // The one after a source packet's last symbol, at base + width
    assert_eq!(receiver.receive_source(1, &source_packet(&[7; 5], 0)), known(2));
    assert_eq!(receiver.adu(2, &mut out), Err(Refusal::Unknown));
    assert_eq!(receiver.receive_repair(&all_ones(2, 1, &[[3, 0, 1, 9]])), known(1));
    assert_eq!(receiver.adu(2, &mut out), Ok(Adu { flow: 3, bytes: &[9] }));
    // A chain through repaired symbols, from position 0: there is none until a source packet marks that
    let mut chain = Receiver::open(Scheme::Gf2, 4, 6, &Flows::all()).unwrap();
    for (position, symbol) in [(0, [4, 0, 0, 0]), (4, [5, 0, 0, 0]), (2, [0, 0, 0, 0]), (1, [6, 0, 3, 1]), (3, [4, 0, 1, 7])] {
        assert_eq!(chain.receive_repair(&all_ones(position, 1, &[symbol])), known(1));
    }
    for esi in 0..6 {
        assert_eq!(chain.adu(esi, &mut out), Err(Refusal::NoStart));
    }
    assert_eq!(chain.receive_source(4, &source_packet(&[], 0)), known(0));
    assert_eq!(chain.adu(0, &mut out), Ok(Adu { flow: 4, bytes: &[] }));
    assert_eq!(chain.adu(1, &mut out), Ok(Adu { flow: 6, bytes: &[1, 0, 0] }));
    assert_eq!(chain.adu(2, &mut out), Err(Refusal::NoStart));
    assert_eq!(chain.adu(3, &mut out), Ok(Adu { flow: 4, bytes: &[7] }));
    assert_eq!(chain.adu(4, &mut out), Ok(Adu { flow: 5, bytes: &[] }));
    assert_eq!(chain.adu(5, &mut out), Err(Refusal::Unknown));
    // Position 1 says that the next start is 3, past base + width: once base is 1 the mark is made and kept; if base goes on to 2 at once,
    // position 1 has left before
    let found = Ok(Adu { flow: 8, bytes: &[] });
    for (at_once, answer) in [(false, found), (true, Err(Refusal::NoStart))] {
        let mut receiver = Receiver::open(Scheme::Gf2, 4, 2, &Flows::all()).unwrap();
        assert_eq!(receiver.receive_source(1, &source_packet(&[], 0)), known(1));
        assert_eq!(receiver.receive_repair(&all_ones(1, 1, &[[1, 0, 5, 0]])), known(1));
        if !at_once {
            assert_eq!(receiver.receive_repair(&all_ones(2, 1, &[[1; 4]])), known(1));
        }
        assert_eq!(receiver.receive_repair(&all_ones(3, 1, &[[8, 0, 0, 0]])), known(1));
        assert_eq!(receiver.adu(3, &mut out), answer);
    }
}
