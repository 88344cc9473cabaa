//! The second sender and receiver against RFC 8681's figures, document 01's bench sheet, heard and solved symbols, joining and announced flows
//! as document 02 words them and plain elimination, and its generator against what program `survey` prints. The library has no part in this
//! file.

mod reference;

use reference::coefficients::{coefficients, combination, drawn_list, keys};
use reference::equations::Equation;
use reference::figures::{FIGURE_10, FIGURE_9};
use reference::generator::Generator;
use reference::random::Random;
use reference::{dense, field, repair_packet, Field, Flows, Receiver, Sender, Setting};
use std::collections::BTreeSet;
use std::ops::RangeInclusive;
use std::path::Path;
use std::{fs, thread};

#[test]
fn figures_9_and_10() {
    let mut generator = Generator::new(1);
    assert_eq!(FIGURE_9, std::array::from_fn(|_| generator.rand256()));
    let mut generator = Generator::new(1);
    assert_eq!(FIGURE_10, std::array::from_fn(|_| generator.rand16()));
}

#[test]
fn draws_of_seed_1() {
    let mut generator = Generator::new(1);
    assert_eq!([2_545_341_989, 981_918_433, 3_715_302_833, 2_387_538_352, 3_591_001_365], std::array::from_fn(|_| generator.draw()));
}

#[test]
fn c1_to_c3_field() {
    assert_eq!(field::product(2, 128), 29);
    assert_eq!(field::product(3, 7), 9);
    assert_eq!(field::inverse(2), 142);
    for a in 0..=255u8 {
        for b in 0..=255u8 {
            assert_eq!(Field::Gf256.times(a, b), field::product(b, a));
        }
        assert!(a == 0 || field::product(a, field::inverse(a)) == 1);
    }
}

#[test]
fn c4_to_c6_coefficients() {
    assert_eq!(coefficients(Field::Gf256, 1, 15, 5), Ok(vec![37, 225, 177, 176, 21]));
    assert_eq!(coefficients(Field::Gf2, 1, 4, 6), Ok(vec![0, 1, 1, 1, 0, 0]));
    assert_eq!(coefficients(Field::Gf256, 1, 4, 5), Ok(vec![0, 177, 21, 0, 0]));
}

/// rand16 and rand256 draws count, the start does not; scheme 9 at DT 15 draws nothing.
#[test]
fn draws_of_lists() {
    let draws = |field, dt, count| drawn_list(field, 1, dt, count).map(|(_, draws)| draws);
    assert_eq!(draws(Field::Gf256, 4, 5), Ok(7));
    assert_eq!(draws(Field::Gf256, 15, 5), Ok(5));
    assert_eq!(draws(Field::Gf2, 4, 6), Ok(6));
    assert_eq!(draws(Field::Gf2, 15, 255), Ok(0));
    assert_eq!(draws(Field::Gf256, 4, 0), Ok(0));
}

/// What the lists of 255 coefficients of scheme 10 draw for these keys at every DT: the rows of two and more zero bytes drawn for one
/// coefficient (how many, DT, key, place in the list), the most draws for one list (with its DT and key), and all draws.
type Surveyed = (Vec<(usize, u8, u16, usize)>, (u64, u8, u16), u64);

fn surveyed(keys: RangeInclusive<u16>) -> Surveyed {
    let (mut rows, mut most, mut all) = (Vec::new(), (0, 0, 0), 0);
    for key in keys {
        for dt in 0..16 {
            let mut generator = Generator::new(u32::from(key));
            for place in 0..255 {
                if dt < 15 && generator.rand16() > dt {
                    continue;
                }
                let zeros = (0..16).take_while(|_| generator.rand256() == 0).count();
                if zeros > 1 {
                    rows.push((zeros, dt, key, place));
                }
            }
            most = most.max((generator.draws, dt, key));
            all += generator.draws;
        }
    }
    (rows, most, all)
}

/// The longest row of zero bytes is what program `survey` prints, far from refusal 10's sixteen.
#[test]
fn survey_of_every_key_and_density() {
    let halves = [0..=32_767, 32_768..=65_535].map(|keys| thread::spawn(|| surveyed(keys)));
    let [(low, low_most, low_draws), (high, high_most, high_draws)] = halves.map(|half| half.join().expect("a half of the keys"));
    let rows = [low, high].concat();
    let longest = rows.iter().map(|row| row.0).max().unwrap();
    let printed = Path::new(env!("CARGO_MANIFEST_DIR")).join("../crates/survey/stdout");
    assert_eq!(fs::read_to_string(&printed).unwrap_or_else(|why| panic!("{}: {why}", printed.display())), format!("{longest}\n"));
    let found: Vec<_> = rows.iter().filter(|row| row.0 == longest).collect();
    assert_eq!(found, [&(3, 12, 57_783, 253), &(3, 13, 57_783, 244)]);
    assert_eq!(low_most.max(high_most), (512, 14, 48_229));
    assert_eq!(low_draws + high_draws, 393_261_306);
}

fn open(scheme: u32, symbol_size: u32, width: u32) -> (Sender, Receiver) {
    let setting = Setting::checked(scheme, symbol_size, width).unwrap();
    (Sender::open(setting, Flows::all()), Receiver::open(setting, Flows::all()))
}

const ROOM: usize = usize::MAX;

fn sends(sender: &mut Sender, adus: RangeInclusive<u8>) -> Vec<Vec<u8>> {
    adus.map(|byte| sender.add_adu(1, &[byte], ROOM).unwrap()).collect()
}

#[test]
fn c7_and_c8_one_lost_symbol() {
    let (mut sender, mut receiver) = open(9, 4, 2);
    let sources = sends(&mut sender, 0x41..=0x42);
    assert_eq!(sources, [[0x41, 0, 0, 0, 0], [0x42, 0, 0, 0, 1]]);
    let repair = sender.make_repair(77, 15, 1, ROOM).unwrap().0;
    assert_eq!(repair, [0, 0, 0xf0, 2, 0, 0, 0, 0, 0, 0, 0, 3]);
    assert_eq!(receiver.receive_source(ROOM, ROOM, 1, &sources[0]), Ok((1, 0)));
    assert_eq!(receiver.receive_repair(ROOM, ROOM, &repair), Ok((1, 0)));
    assert_eq!(receiver.part(ROOM, 1), Ok(&[1, 0, 1, 0x42][..]));
}

#[test]
fn c9_longest_adu() {
    let (mut sender, _) = open(9, 4, 2);
    assert_eq!(sender.add_adu(1, &[0; 6], ROOM), Err(4));
    assert!(sender.add_adu(1, &[0; 5], ROOM).is_ok());
}

#[test]
fn c10_places() {
    for (esi, answer) in [(65_535, Ok((1, 0))), (65_536, Err(9)), (2_147_483_647, Err(9)), (2_147_483_648, Err(8))] {
        let (_, mut receiver) = open(10, 4, 3);
        assert_eq!(receiver.receive_source(ROOM, ROOM, 1, &reference::source_packet(&[0], 0)), Ok((1, 0)));
        assert_eq!(receiver.receive_source(ROOM, ROOM, 1, &reference::source_packet(&[1], esi)), answer);
    }
}

#[test]
fn c11_contradiction_of_two_unknowns() {
    let (mut sender, mut receiver) = open(9, 4, 2);
    sends(&mut sender, 0x41..=0x42);
    assert_eq!(receiver.receive_repair(ROOM, ROOM, &sender.make_repair(0, 15, 1, ROOM).unwrap().0), Ok((0, 0)));
    assert_eq!((receiver.symbol(ROOM, 0), receiver.symbol(ROOM, 1)), (Err(12), Err(12)));
    assert_eq!(receiver.receive_source(ROOM, ROOM, 1, &reference::source_packet(&[0; 5], 0)), Err(11));
}

#[test]
fn c12_equations_outlive_departed_symbols() {
    let (mut sender, mut receiver) = open(9, 4, 4);
    let first = sends(&mut sender, 0x41..=0x42);
    let over_2 = sender.make_repair(0, 15, 1, ROOM).unwrap().0;
    sends(&mut sender, 0x43..=0x44);
    let over_4 = sender.make_repair(0, 15, 1, ROOM).unwrap().0;
    let last = sends(&mut sender, 0x45..=0x46);
    assert_eq!(first.len(), 2);
    assert_eq!(receiver.receive_repair(ROOM, ROOM, &over_2), Ok((0, 0)));
    assert_eq!(receiver.receive_repair(ROOM, ROOM, &over_4), Ok((0, 0)));
    assert_eq!(receiver.receive_source(ROOM, ROOM, 1, &last[0]), Ok((1, 0)));
    assert_eq!(receiver.receive_source(ROOM, ROOM, 1, &last[1]), Ok((1, 0)));
    assert_eq!(receiver.receive_source(ROOM, ROOM, 1, &reference::source_packet(&[0x44], 3)), Ok((2, 0)));
    assert_eq!(receiver.part(ROOM, 2), Ok(&[1, 0, 1, 0x43][..]));
}

/// The system that is kept reduced and the matrix that is solved anew agree on every prefix of random histories: on what contradicts, what
/// is known, and with which bytes.
#[test]
fn reduced_system_equals_plain_elimination() {
    for seed in 0..400 {
        let mut random = Random::new(seed);
        let field = random.one_of(&[Field::Gf2, Field::Gf256]);
        let size = random.between(1, 3);
        let positions = random.between(2, 14) as u64;
        let truth: Vec<Vec<u8>> = (0..positions).map(|_| random.bytes(size)).collect();
        let mut system = reference::equations::System::new(field);
        let mut history: Vec<Equation> = Vec::new();
        for _ in 0..random.between(3, 25) {
            let first = random.below(positions);
            let n = random.between(1, (positions - first) as usize);
            let (key, dt) = (random.next() as u16, random.below(16) as u8);
            let symbols = &truth[first as usize..first as usize + n];
            let mut packet = Vec::new();
            for key in keys(key, random.between(1, 3)) {
                let mut sum = combination(field, key, dt, symbols, size).unwrap();
                if random.chance(8) {
                    sum[0] ^= random.byte();
                }
                packet.push(Equation::new(first, &coefficients(field, key, dt, n).unwrap(), &sum));
            }
            let together: Vec<Equation> = history.iter().chain(&packet).cloned().collect();
            let before = dense::known(field, &history).expect("the history was accepted");
            let answer = system.admit_all(packet);
            match dense::known(field, &together) {
                None => assert!(answer.is_err(), "seed {seed}"),
                Some(known) => {
                    let mut solved = answer.expect("plain elimination finds a filling");
                    solved.sort_unstable();
                    let new: Vec<u64> = known.keys().filter(|p| !before.contains_key(p)).copied().collect();
                    assert_eq!(solved, new, "seed {seed}");
                    history = together;
                }
            }
            let known = dense::known(field, &history).unwrap();
            for position in 0..positions {
                assert_eq!(system.known(position), known.get(&position).map(Vec::as_slice), "seed {seed}");
            }
        }
    }
}

/// Marks and the ADU call: the readings that a quick look gets wrong.
#[test]
fn marks_of_starts() {
    // The mark at base + width is kept: it counts once base rises.
    let (_, mut receiver) = open(9, 4, 2);
    receiver.receive_source(ROOM, ROOM, 1, &reference::source_packet(&[7; 5], 0)).unwrap();
    assert_eq!(receiver.adu(ROOM, 2, ROOM), Err(12));
    receiver.receive_repair(ROOM, ROOM, &repair_packet(0, 15, 1, 2, &[vec![3, 0, 1, 9]])).unwrap();
    let adu = receiver.adu(ROOM, 2, ROOM).unwrap();
    assert_eq!((adu.flow, adu.bytes), (3, vec![9]));
    assert_eq!(receiver.adu(ROOM, 1, ROOM), Err(13));
    assert_eq!(receiver.adu(ROOM, 0, ROOM), Err(8));
    // No start though known by repair, and a start that is not known.
    let (_, mut receiver) = open(9, 4, 2);
    receiver.receive_repair(ROOM, ROOM, &repair_packet(0, 15, 1, 1, &[vec![1, 0, 0, 0]])).unwrap();
    assert_eq!((receiver.adu(ROOM, 1, ROOM), receiver.adu(ROOM, 2, ROOM)), (Err(13), Err(13)));
    let (_, mut receiver) = open(9, 4, 2);
    receiver.receive_source(ROOM, ROOM, 1, &reference::source_packet(&[], 0)).unwrap();
    assert_eq!(receiver.adu(ROOM, 1, ROOM), Err(12));
    // Both kinds of 14, and the output's length last, at a start that a source packet marks and a repair packet makes known.
    for (width, symbol, room, refusal) in
        [(1, [1, 0, 2, 0], 9, 14), (1, [1, 0, 0, 5], 9, 14), (2, [1, 0, 2, 0], 9, 12), (1, [1, 0, 1, 5], 0, 2)]
    {
        let (_, mut receiver) = open(9, 4, width);
        receiver.receive_source(ROOM, ROOM, 1, &reference::source_packet(&[], 0)).unwrap();
        receiver.receive_repair(ROOM, ROOM, &repair_packet(0, 15, 1, 1, &[symbol.to_vec()])).unwrap();
        assert_eq!(receiver.adu(ROOM, 1, room), Err(refusal));
    }
}

/// Document 02, No. 6, by hand: heard is what an accepted source packet named, known before or not; a refused one counts for nothing.
#[test]
fn heard_or_solved() {
    let (solved, heard) = (Ok((0, 0)), Ok((0, 1)));
    let (_, mut receiver) = open(9, 4, 2);
    assert_eq!(receiver.receive_repair(ROOM, ROOM, &repair_packet(0, 15, 2, 7, &[vec![2, 3, 2, 4]])), Ok((0, 0)));
    assert_eq!(receiver.receive_repair(ROOM, ROOM, &repair_packet(0, 15, 1, 8, &[vec![3, 3, 3, 3]])), Ok((2, 0)));
    assert_eq!((receiver.symbol(ROOM, 7), receiver.symbol(ROOM, 8)), (solved, solved));
    // ADU 07 has the symbol 01000107, and is position 7's; the other has not
    assert_eq!(receiver.receive_source(ROOM, ROOM, 1, &reference::source_packet(&[6], 7)), Err(11));
    assert_eq!((receiver.symbol(ROOM, 7), receiver.symbol(ROOM, 8)), (solved, solved));
    assert_eq!(receiver.receive_source(ROOM, ROOM, 1, &reference::source_packet(&[7], 7)), Ok((0, 0)));
    assert_eq!((receiver.symbol(ROOM, 7), receiver.symbol(ROOM, 8)), (heard, solved));
    // Position 9 comes into the window, solved, and 7 leaves it
    assert_eq!(receiver.receive_repair(ROOM, ROOM, &repair_packet(0, 15, 1, 9, &[vec![1, 0, 0, 0]])), Ok((1, 0)));
    assert_eq!([7, 8, 9, 10].map(|esi| receiver.symbol(ROOM, esi)), [Err(8), solved, solved, Err(12)]);
    assert_eq!(receiver.heard, BTreeSet::from([7]));
    assert_eq!(receiver.symbol(117, 8), Err(3));
    // All symbols of a source packet are heard
    assert_eq!(receiver.receive_source(ROOM, ROOM, 1, &reference::source_packet(&[5; 5], 10)), Ok((2, 0)));
    assert_eq!(receiver.heard, BTreeSet::from([7, 10, 11]));
    assert_eq!((receiver.symbol(ROOM, 10), receiver.symbol(ROOM, 11)), (heard, heard));
}

/// Document 02, No. 2, by hand: no base, then one that the first packet taken sets, whatever its ESI.
#[test]
fn joining() {
    let (_, mut receiver) = open(9, 4, 2);
    let empty = |receiver: &Receiver| {
        for esi in [0, 1, 7, 65_536, (1 << 31) - 1, 1 << 31, u32::MAX] {
            assert_eq!((receiver.symbol(ROOM, esi), receiver.adu(ROOM, esi, ROOM)), (Err(12), Err(12)));
            assert_eq!((receiver.symbol(117, esi), receiver.adu(117, esi, ROOM)), (Err(3), Err(3)));
        }
        assert!(receiver.base.is_none() && receiver.marks.is_empty() && receiver.system.row_count() + receiver.system.known_count() == 0);
    };
    empty(&receiver);
    // What is refused sets no base: neither by form nor by contradiction
    assert_eq!(receiver.receive_source(ROOM, 128, 1, &reference::source_packet(&[7], 3)), Err(2));
    assert_eq!(receiver.receive_source(ROOM, ROOM, 1, &[0; 3]), Err(5));
    assert_eq!(receiver.receive_source(ROOM, ROOM, 1, &reference::source_packet(&[0; 6], 3)), Err(4));
    assert_eq!(receiver.receive_repair(ROOM, ROOM, &repair_packet(0, 15, 3, 3, &[vec![1; 4]])), Err(6));
    assert_eq!(receiver.receive_repair(ROOM, ROOM, &repair_packet(0, 15, 2, 3, &[vec![1; 4], vec![2; 4]])), Err(11));
    empty(&receiver);
    // Two symbols at the last ESI: positions 4294967295 and 4294967296, and nothing before
    assert_eq!(receiver.receive_repair(ROOM, ROOM, &repair_packet(0, 15, 2, 4_294_967_295, &[vec![1, 0, 1, 0x43]])), Ok((0, 0)));
    assert_eq!(receiver.base, Some(4_294_967_295));
    assert_eq!(receiver.symbol(ROOM, 4_294_967_294), Err(8));
    assert_eq!(receiver.receive_source(ROOM, ROOM, 1, &reference::source_packet(&[7], 4_294_967_294)), Err(8));
    // ESI 0 is the position after it; only a source packet marks, its own first and the one after its last
    assert_eq!(receiver.receive_source(ROOM, ROOM, 0, &reference::source_packet(&[], 0)), Ok((2, 0)));
    assert_eq!(receiver.marks, BTreeSet::from([4_294_967_296, 4_294_967_297]));
    assert_eq!((receiver.part(ROOM, u32::MAX), receiver.part(ROOM, 0)), (Ok(&[1, 0, 1, 0x43][..]), Ok(&[0; 4][..])));
    assert_eq!((receiver.adu(ROOM, u32::MAX, ROOM), receiver.adu(ROOM, 0, 0).map(|adu| adu.flow)), (Err(13), Ok(0)));
    // Far ahead is counted from the base: 65,535 more is taken, one more is not
    let ahead = 4_294_967_295 + 65_536;
    assert_eq!(receiver.receive_source(ROOM, ROOM, 1, &reference::source_packet(&[1], ahead)), Err(9));
    assert_eq!(receiver.receive_source(ROOM, ROOM, 1, &reference::source_packet(&[1], ahead - 1)), Ok((1, 0)));
    assert_eq!(receiver.base, Some(ahead - 2));
}

/// Document 02, No. 7, by hand: F is bit F mod 8, lowest first, of byte F div 8.
#[test]
fn bytes_of_flows() {
    let place = |flow, at: usize, bit| {
        let mut bytes = [0; 32];
        bytes[at] = bit;
        assert_eq!(Flows::only(&[flow]).bytes(), bytes, "flow {flow}");
    };
    for (flow, at, bit) in [(0, 0, 1), (1, 0, 2), (7, 0, 128), (8, 1, 1), (100, 12, 16), (248, 31, 1), (255, 31, 128)] {
        place(flow, at, bit);
    }
    assert_eq!(Flows::only(&[9, 255, 8, 9]).bytes(), [vec![0, 3], vec![0; 29], vec![128]].concat()[..]);
    assert_eq!((Flows::none().bytes(), Flows::all().bytes()), ([0; 32], [255; 32]));
}

/// Document 02, No. 7, by hand: 16 stands directly after 3 when adding, after 5 when receiving, and between 14 for padding and 2 in the ADU
/// call. A stray that is refused sets no base; one that is solved is shown and counted, and marks go on through it.
#[test]
fn announced_flows() {
    let setting = Setting::checked(9, 4, 3).unwrap();
    let mut sender = Sender::open(setting, Flows::only(&[1, 2]));
    assert_eq!(sender.add_adu(3, &[0; 10], 0), Err(16));
    assert_eq!(sender.add_adu(1, &[0; 10], 0), Err(4));
    assert_eq!(sender.add_adu(3, &[7], 0), Err(16));
    assert_eq!(sender.add_adu(1, &[7], 0), Err(2));
    assert_eq!(sender.make_repair(0, 15, 1, ROOM), Err(7));
    let mut receiver = Receiver::open(setting, Flows::only(&[1]));
    assert_eq!(receiver.receive_source(0, 0, 2, &[0; 3]), Err(3));
    assert_eq!(receiver.receive_source(ROOM, 0, 2, &[0; 3]), Err(2));
    assert_eq!(receiver.receive_source(ROOM, ROOM, 2, &[0; 3]), Err(5));
    assert_eq!(receiver.receive_source(ROOM, ROOM, 2, &[0; 14]), Err(16));
    assert_eq!(receiver.receive_source(ROOM, ROOM, 1, &[0; 14]), Err(4));
    assert_eq!(receiver.receive_source(ROOM, ROOM, 2, &reference::source_packet(&[9], 70_000)), Err(16));
    assert!(receiver.base.is_none() && receiver.marks.is_empty() && receiver.heard.is_empty());
    // ADU 41 of flow 1, ADU 1 2 of flow 2, two symbols, and ADU 43 of flow 1
    let mut repair = Vec::new();
    let sources = [(1, &[0x41][..]), (2, &[1, 2]), (1, &[0x43])].map(|(flow, adu)| {
        let source = sender.add_adu(flow, adu, ROOM).unwrap();
        repair.push(sender.make_repair(0, 15, 1, ROOM).unwrap().0);
        source
    });
    assert_eq!(receiver.receive_source(ROOM, ROOM, 1, &sources[0]), Ok((1, 0)));
    assert_eq!(receiver.receive_source(ROOM, ROOM, 2, &reference::source_packet(&[9], 4_294_967_295)), Err(16));
    assert_eq!(receiver.receive_source(ROOM, ROOM, 2, &reference::source_packet(&[9], 65_536)), Err(16));
    assert_eq!(receiver.receive_source(ROOM, ROOM, 2, &sources[1]), Err(16));
    assert_eq!(receiver.receive_repair(ROOM, ROOM, &repair[1]), Ok((0, 0)));
    assert_eq!(receiver.receive_repair(ROOM, ROOM, &repair_packet(0, 15, 1, 2, &[vec![2, 0, 0, 1]])), Ok((2, 0)));
    assert_eq!(receiver.marks, BTreeSet::from([0, 1, 3]));
    // Position 2 is wrong on purpose: its padding is not zero, which is told before the flow
    assert_eq!(receiver.adu(ROOM, 1, 0), Err(14));
    let mut receiver = Receiver::open(setting, Flows::only(&[1]));
    assert_eq!(receiver.receive_source(ROOM, ROOM, 1, &sources[0]), Ok((1, 0)));
    assert_eq!(receiver.receive_repair(ROOM, ROOM, &repair[1]), Ok((0, 0)));
    assert_eq!(receiver.adu(ROOM, 1, 0), Err(12));
    assert_eq!(receiver.receive_repair(ROOM, ROOM, &repair_packet(0, 15, 1, 2, &[vec![2, 0, 0, 0]])), Ok((2, 0)));
    assert_eq!(receiver.adu(ROOM, 1, 0), Err(16));
    assert_eq!((receiver.part(ROOM, 1), receiver.part(ROOM, 2)), (Ok(&[2, 0, 2, 1][..]), Ok(&[2, 0, 0, 0][..])));
    assert_eq!((receiver.symbol(ROOM, 1), receiver.symbol(ROOM, 2)), (Ok((0, 0)), Ok((0, 0))));
    assert_eq!(receiver.receive_repair(ROOM, ROOM, &repair[2]), Ok((1, 0)));
    assert_eq!(receiver.adu(ROOM, 3, 0), Err(2));
    assert_eq!(receiver.adu(ROOM, 3, 1).map(|adu| (adu.flow, adu.bytes)), Ok((1, vec![0x43])));
    assert_eq!(receiver.receive_source(ROOM, ROOM, 2, &sources[1]), Err(16));
    assert_eq!(receiver.heard, BTreeSet::from([0]));
}
