//! The draws that the repair call and the packet calls pass on: document 02's figure, the sum over a packet's repair symbols, and the same
//! number at both ends.

mod library;
mod reference;

use reference::coefficients::{drawn_list, keys};
use reference::random::Random;
use reference::Field;
use rlc8681::{Flows, Received, Receiver, Repair, Scheme, Sender};

/// A sender with so many symbols of four bytes in its window.
fn filled(scheme: Scheme, symbols: u32) -> Sender {
    let mut sender = Sender::open(scheme, 4, symbols, &Flows::all()).unwrap();
    for i in 0..symbols {
        sender.add_adu(1, &[i as u8], &mut [0; 5]).unwrap();
    }
    sender
}

/// The draws of the repair packet that the sender makes, which a fresh receiver tells too.
fn draws(sender: &Sender, key: u16, dt: u32, count: u32) -> u32 {
    let mut packet = vec![0; 8 + 4 * count as usize];
    let repair = sender.make_repair(key, dt, count, &mut packet).unwrap();
    let mut receiver = Receiver::open(sender.scheme(), 4, sender.width(), &Flows::all()).unwrap();
    assert_eq!(receiver.receive_repair(&packet).unwrap().draws, repair.draws, "key {key}, DT {dt}, {count} symbols");
    repair.draws
}

#[test]
fn figures() {
    let sender = filled(Scheme::Gf256, 5);
    let mut packet = [0; 12];
    assert_eq!(sender.make_repair(1, 4, 1, &mut packet), Ok(Repair { bytes: 12, draws: 7 }));
    let mut receiver = Receiver::open(Scheme::Gf256, 4, 5, &Flows::all()).unwrap();
    assert_eq!(receiver.receive_repair(&packet), Ok(Received { known: 0, draws: 7 }));
    // Coefficients 1 and 2 are not zero: with symbol 2 at hand the packet gives symbol 1, and given again it gives nothing new
    assert_eq!(receiver.receive_source(1, &[2, 0, 0, 0, 2]), Ok(Received { known: 2, draws: 0 }));
    assert_eq!(receiver.receive_repair(&packet), Ok(Received { known: 0, draws: 7 }));
    assert_eq!(receiver.symbol(1), Ok(&[1, 0, 1, 1][..]));
    assert_eq!(draws(&sender, 1, 15, 1), 5);
    for key in [0, 1, 65_535] {
        assert_eq!(draws(&filled(Scheme::Gf2, 255), key, 14, 1), 255);
        assert_eq!(draws(&filled(Scheme::Gf2, 255), key, 15, 16), 0);
    }
}

/// The C interface: value + 2^32 times the draws, and a refusal's number alone, though the coefficients were drawn before 11.
#[test]
fn answers_in_c() {
    let (mut sender, mut receiver, mut work) = ([0; 64 + 5 * 4], [0; 96 + 5 * 13 + 5], [0; 96 + 6 * 13 + 6]);
    let mut packet = [0; 12];
    assert_eq!(library::sender_open(&mut sender, 10, 4, 5, &library::ALL), 0);
    assert_eq!(library::receiver_open(&mut receiver, 10, 4, 5, &library::ALL), 0);
    for i in 0..5 {
        assert_eq!(library::add_adu(&mut sender, 1, &[i], &mut packet), 5);
        assert_eq!(library::receive_source(&mut receiver, &mut work, 1, &packet[..5]), 1);
    }
    assert_eq!(library::make_repair(&sender, 1, 4, 1, &mut packet), 30_064_771_084);
    assert_eq!(library::parts(30_064_771_084), (12, 7));
    assert_eq!(library::receive_repair(&mut receiver, &mut work, &packet), 30_064_771_072);
    packet[11] ^= 1;
    assert_eq!(library::receive_repair(&mut receiver, &mut work, &packet), -11);
}

/// The draws of a packet are those of its repair symbols, each made alone with its own key.
#[test]
fn sum_over_repair_symbols() {
    let random = &mut Random::new(1);
    for (scheme, field) in [(Scheme::Gf2, Field::Gf2), (Scheme::Gf256, Field::Gf256)] {
        for symbols in [1, 2, 5, 64, 255] {
            let sender = filled(scheme, symbols);
            for dt in 0..16 {
                for first in [0, 1, 65_530, 57_780, random.next() as u16] {
                    let each: Vec<u32> = keys(first, 16).map(|key| draws(&sender, key, dt, 1)).collect();
                    let list = |key| drawn_list(field, key, dt as u8, symbols as usize).unwrap().1 as u32;
                    assert_eq!(each, keys(first, 16).map(list).collect::<Vec<u32>>());
                    for count in [1, 2, 3, 15, 16] {
                        assert_eq!(draws(&sender, first, dt, count), each[..count as usize].iter().sum::<u32>());
                    }
                }
            }
        }
    }
}
