//! RFC 8681's Figures 9 and 10 and document 01's bench sheet (C1 to C12), read off the library through the Rust types.

mod reference;

use reference::coefficients::{coefficients, drawn_list};
use reference::figures::{FIGURE_10, FIGURE_9};
use reference::{repair_packet, source_packet, Field};
use rlc8681::{Adu, Flows, Origin, Received, Receiver, Refusal, Repair, Scheme, Sender};
use std::ops::RangeInclusive;

/// The coefficients that a sender draws: symbol i holds a single one at place i, so the repair symbol lists them after F and L. And the
/// draws that they take, which a receiver tells too.
fn drawn(scheme: Scheme, key: u16, dt: u32, count: usize) -> (Vec<u8>, u32) {
    let (symbol_size, width) = (count as u32 + 3, count as u32);
    let mut sender = Sender::open(scheme, symbol_size, width, &Flows::all()).unwrap();
    let mut packet = vec![0; 8 + count + 3];
    for i in 0..count {
        let mut adu = vec![0; count];
        adu[i] = 1;
        sender.add_adu(0, &adu, &mut packet).unwrap();
    }
    let repair = sender.make_repair(key, dt, 1, &mut packet).unwrap();
    assert_eq!(repair.bytes, packet.len());
    let received = Receiver::open(scheme, symbol_size, width, &Flows::all()).unwrap().receive_repair(&packet).unwrap();
    assert_eq!(received.draws, repair.draws);
    (packet[8 + 3..].to_vec(), repair.draws)
}

/// The answer to a packet that took no draws.
fn known(known: usize) -> Result<Received, Refusal> {
    Ok(Received { known, draws: 0 })
}

#[test]
fn figure_9() {
    assert_eq!(drawn(Scheme::Gf256, 1, 15, 50), (FIGURE_9.to_vec(), 50));
}

/// In scheme 9 a coefficient is 1 where rand16 is at most DT, so the least such DT is rand16.
#[test]
fn figure_10() {
    let lists: Vec<Vec<u8>> = (0..15).map(|dt| drawn(Scheme::Gf2, 1, dt, 50).0).collect();
    let rand16: Vec<u8> = (0..50).map(|i| lists.iter().take_while(|list| list[i] == 0).count() as u8).collect();
    assert_eq!(rand16, FIGURE_10);
}

/// Among the keys are the one with the longest row of zero bytes and one with the most draws.
#[test]
fn coefficients_and_draws_of_every_density() {
    for (scheme, field) in [(Scheme::Gf2, Field::Gf2), (Scheme::Gf256, Field::Gf256)] {
        for dt in 0..16 {
            for key in [0, 1, 2, 255, 256, 40_503, 48_229, 57_783, 65_535] {
                let (list, draws) = drawn(scheme, key, dt, 255);
                assert_eq!(Ok((list, u64::from(draws))), drawn_list(field, key, dt as u8, 255), "{scheme:?} {key} {dt}");
            }
        }
    }
}

/// A key whose first coefficient in scheme 10 at DT 15 is this one.
fn key_of(coefficient: u8) -> u16 {
    (0..=65_535).find(|&key| coefficients(Field::Gf256, key, 15, 1) == Ok(vec![coefficient])).unwrap()
}

/// Products at the sender: coefficient times a byte of the only symbol.
#[test]
fn c1_and_c2_products() {
    for (coefficient, byte, product) in [(2, 128, 29), (3, 7, 9)] {
        let mut sender = Sender::open(Scheme::Gf256, 4, 1, &Flows::all()).unwrap();
        let mut packet = [0; 12];
        sender.add_adu(0, &[byte], &mut packet).unwrap();
        sender.make_repair(key_of(coefficient), 15, 1, &mut packet).unwrap();
        assert_eq!(packet[11], product);
    }
}

/// Inverses at the receiver: 2 times a symbol of 142s is a symbol of ones.
#[test]
fn c3_inverse() {
    let mut receiver = Receiver::open(Scheme::Gf256, 4, 1, &Flows::all()).unwrap();
    let packet = repair_packet(key_of(2), 15, 1, 0, &[vec![1; 4]]);
    assert_eq!(receiver.receive_repair(&packet), Ok(Received { known: 1, draws: 1 }));
    assert_eq!(receiver.symbol(0), Ok(&[142; 4][..]));
}

#[test]
fn c4_to_c6_coefficients() {
    assert_eq!(drawn(Scheme::Gf256, 1, 15, 5), (vec![37, 225, 177, 176, 21], 5));
    assert_eq!(drawn(Scheme::Gf2, 1, 4, 6), (vec![0, 1, 1, 1, 0, 0], 6));
    assert_eq!(drawn(Scheme::Gf256, 1, 4, 5), (vec![0, 177, 21, 0, 0], 7));
}

/// The source packets of ADUs of one byte each, F 1.
fn sent(sender: &mut Sender, adus: RangeInclusive<u8>) -> Vec<[u8; 5]> {
    let one = |byte| {
        let mut packet = [0; 5];
        assert_eq!(sender.add_adu(1, &[byte], &mut packet), Ok(5));
        packet
    };
    adus.map(one).collect()
}

/// A repair packet of one symbol, DT 15.
fn repair(sender: &Sender, key: u16) -> [u8; 12] {
    let mut packet = [0; 12];
    assert_eq!(sender.make_repair(key, 15, 1, &mut packet), Ok(Repair { bytes: 12, draws: 0 }));
    packet
}

fn opened(width: u32) -> (Sender, Receiver) {
    (Sender::open(Scheme::Gf2, 4, width, &Flows::all()).unwrap(), Receiver::open(Scheme::Gf2, 4, width, &Flows::all()).unwrap())
}

#[test]
fn c7_and_c8_one_lost_symbol() {
    let (mut sender, mut receiver) = opened(2);
    let sources = sent(&mut sender, 0x41..=0x42);
    assert_eq!(sources, [[0x41, 0, 0, 0, 0], [0x42, 0, 0, 0, 1]]);
    let packet = repair(&sender, 4711);
    assert_eq!(packet, [0, 0, 0xf0, 2, 0, 0, 0, 0, 0, 0, 0, 3]);
    assert_eq!(receiver.receive_source(1, &sources[0]), known(1));
    assert_eq!(receiver.receive_repair(&packet), known(1));
    assert_eq!(receiver.symbol(1), Ok(&[1, 0, 1, 0x42][..]));
    assert_eq!((receiver.origin(0), receiver.origin(1)), (Ok(Origin::Heard), Ok(Origin::Solved)));
    let mut out = [9; 2];
    assert_eq!(receiver.adu(1, &mut out), Ok(Adu { flow: 1, bytes: &[0x42] }));
    assert_eq!(out, [0x42, 9]);
}

#[test]
fn c9_longest_adu() {
    let (mut sender, _) = opened(2);
    assert_eq!(sender.add_adu(1, &[0; 6], &mut [0; 20]), Err(Refusal::Long));
    assert_eq!(sender.add_adu(1, &[0; 5], &mut [0; 20]), Ok(9));
}

#[test]
fn c10_places() {
    let far =
        [(65_535, known(1)), (65_536, Err(Refusal::Ahead)), (2_147_483_647, Err(Refusal::Ahead)), (2_147_483_648, Err(Refusal::Behind))];
    for scheme in [Scheme::Gf2, Scheme::Gf256] {
        for (esi, answer) in far {
            let mut receiver = Receiver::open(scheme, 4, 3, &Flows::all()).unwrap();
            assert_eq!(receiver.receive_source(1, &source_packet(&[4], 0)), known(1));
            assert_eq!(receiver.receive_source(1, &source_packet(&[5], esi)), answer);
        }
    }
}

#[test]
fn c11_contradiction_of_two_unknowns() {
    let (mut sender, mut receiver) = opened(2);
    sent(&mut sender, 0x41..=0x42);
    assert_eq!(receiver.receive_repair(&repair(&sender, 0)), known(0));
    assert_eq!((receiver.symbol(0), receiver.symbol(1)), (Err(Refusal::Unknown), Err(Refusal::Unknown)));
    assert_eq!(receiver.receive_source(1, &source_packet(&[0; 5], 0)), Err(Refusal::Contradiction));
}

#[test]
fn c12_equations_outlive_departed_symbols() {
    let (mut sender, mut receiver) = opened(4);
    sent(&mut sender, 0x41..=0x42);
    let over_2 = repair(&sender, 0);
    let sources = sent(&mut sender, 0x43..=0x44);
    let over_4 = repair(&sender, 0);
    let last = sent(&mut sender, 0x45..=0x46);
    assert_eq!(receiver.receive_repair(&over_2), known(0));
    assert_eq!(receiver.receive_repair(&over_4), known(0));
    assert_eq!(receiver.receive_source(1, &last[0]), known(1));
    assert_eq!(receiver.receive_source(1, &last[1]), known(1));
    assert_eq!(receiver.receive_source(1, &sources[1]), known(2));
    assert_eq!(receiver.symbol(2), Ok(&[1, 0, 1, 0x43][..]));
    assert_eq!((receiver.origin(2), receiver.origin(3)), (Ok(Origin::Solved), Ok(Origin::Heard)));
}
