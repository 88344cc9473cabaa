//! Announced flows only (document 02, No. 7): 16 for an ADU or a source packet of a flow that the end does not announce, and for an ADU of one
//! that a receiver solved. Library, Rust types and second implementation go side by side, and each answer is written out too.

mod library;
mod reference;

use library::pair::{Receivers, Senders, Stray};
use reference::random::Random;
use reference::{repair_packet, source_packet, Answer, Flows, Setting};

const ROOM: usize = usize::MAX;

/// What the symbol call answers.
const HEARD: Answer = Ok((0, 1));
const SOLVED: Answer = Ok((0, 0));

/// Flows at the ends of bytes and of all 32.
const EDGES: [u8; 12] = [0, 1, 6, 7, 8, 9, 15, 16, 247, 248, 254, 255];

/// Symbols of 4 bytes.
fn small(scheme: u32, width: usize) -> Setting {
    Setting { scheme, symbol_size: 4, width }
}

/// The source packet of an ADU at an ESI.
fn source(adu: &[u8], esi: u32) -> Vec<u8> {
    source_packet(adu, u64::from(esi))
}

/// The repair packets that each make one symbol known of an ADU from an ESI on.
fn solving(setting: Setting, flow: u8, adu: &[u8], esi: u32) -> Vec<Vec<u8>> {
    let repair = |(position, symbol): (u64, Vec<u8>)| {
        let sum = reference::coefficients::combination(setting.field(), 1, 15, &[symbol], 4).unwrap();
        repair_packet(1, 15, 1, position, &[sum])
    };
    (u64::from(esi)..).zip(setting.cut(flow, adu)).map(repair).collect()
}

/// Takes the ADU by repair alone. Each packet makes one symbol known.
fn solve(receivers: &mut Receivers, random: &mut Random, flow: u8, adu: &[u8], esi: u32) {
    for packet in solving(receivers.setting(), flow, adu, esi) {
        assert_eq!(receivers.receive(random, None, &packet).map(|(known, _)| known), Ok(1));
    }
}

/// The ADU at an ESI with its flow, or why not: what all three say, with room for it and without.
fn adu(receivers: &mut Receivers, random: &mut Random, esi: u32) -> Result<(u8, Vec<u8>), u32> {
    receivers.look(random, esi);
    receivers.reference.adu(ROOM, esi, ROOM).map(|adu| (adu.flow, adu.bytes))
}

/// What the symbol call answers at an ESI: what all three say.
fn origin(receivers: &mut Receivers, random: &mut Random, esi: u32) -> Answer {
    receivers.look(random, esi);
    receivers.reference.symbol(ROOM, esi)
}

/// F is bit F mod 8, lowest first, of byte F div 8, for every F: in C, in the Rust type and in the second implementation.
#[test]
fn bytes_of_flows() {
    let mut growing = [0; 32];
    for flow in 0..=255 {
        let mut bytes = [0; 32];
        bytes[usize::from(flow) / 8] = 1 << (flow % 8);
        let mut one = [0; 32];
        library::announce(&mut one, flow);
        assert_eq!((one, Flows::only(&[flow]).bytes()), (bytes, bytes), "flow {flow}");
        let safe = rlc8681::Flows::only(&[flow]);
        assert!((0..=255).all(|other| safe.contains(other) == (other == flow)), "flow {flow}");
        assert_eq!(format!("{safe:?}"), format!("Flows{{{flow}}}"));
        // One more leaves the others, and one that is there already leaves all
        let before = growing;
        library::announce(&mut growing, flow);
        let changed: Vec<u8> = growing.iter().zip(before).map(|(new, old)| new ^ old).collect();
        assert_eq!(changed, bytes);
        let again = growing;
        library::announce(&mut growing, flow);
        assert_eq!(growing, again);
    }
    assert_eq!(growing, library::ALL);
    for content in [0, 0x66, 255] {
        let mut bytes = [content; 32];
        library::announce_all(&mut bytes);
        assert_eq!(bytes, library::ALL);
    }
    assert_eq!(rlc8681::Flows::all(), rlc8681::Flows::only(&(0..=255).collect::<Vec<u8>>()));
    assert_eq!(rlc8681::Flows::none(), rlc8681::Flows::only(&[]));
}

/// Every flow announced alone: at both ends the calls take it and no other.
#[test]
fn each_flow_alone() {
    let setting = small(9, 2);
    let (mut sender, mut receiver) = (vec![0; setting.sender_memory()], vec![0; setting.receiver_memory()]);
    let mut work = vec![0; setting.working_memory()];
    for flow in 0..=255 {
        let flows = Flows::only(&[flow]).bytes();
        assert_eq!(library::sender_open(&mut sender, 9, 4, 2, &flows), 0);
        assert_eq!(library::receiver_open(&mut receiver, 9, 4, 2, &flows), 0);
        assert_eq!(library::flows_of_sender(&mut sender), [flow]);
        assert_eq!(library::flows_of_receiver(&mut receiver, &mut work), [flow]);
    }
    let random = &mut Random::new(1);
    for flow in EDGES {
        let mut senders = Senders::open_with(setting, Flows::only(&[flow]), random);
        let mut receivers = Receivers::open_with(setting, Flows::only(&[flow]), random);
        for other in EDGES.into_iter().filter(|&other| other != flow) {
            assert_eq!(senders.add_adu(random, other, &[other]), Err(16), "flow {other}");
            assert_eq!(receivers.receive(random, Some(other), &source(&[other], 0)), Err(16), "flow {other}");
        }
        let packet = (0..).find_map(|_| senders.add_adu(random, flow, &[flow]).ok()).unwrap();
        assert_eq!(packet, [flow, 0, 0, 0, 0]);
        assert_eq!(receivers.receive(random, Some(flow), &packet), Ok((1, 0)));
        assert_eq!(adu(&mut receivers, random, 0), Ok((flow, vec![flow])));
    }
}

/// An ADU that the sender refuses takes no ESI, joins no window and leaves every byte: the sender goes on as if it had never come.
#[test]
fn strays_at_the_sender() {
    let random = &mut Random::new(2);
    for (scheme, width) in [(9, 1), (10, 3), (9, 255)] {
        let flows = Flows::only(&[4, 200]);
        let mut senders = Senders::open_with(small(scheme, width), flows, random);
        let mut without = senders.clone();
        let mut refused = 0;
        for i in 0..2 * width as u32 + 3 {
            for stray in [0, 3, 5, 12, 199, 201, 255] {
                let length = random.between(0, 4 * width + 3);
                let before = senders.memory.get().to_vec();
                let adu = random.bytes(length);
                assert_eq!(senders.add_adu(random, stray, &adu), Err(16));
                assert!(senders.memory.get() == before, "a stray changed the memory");
                refused += 1;
            }
            let (flow, adu) = (random.one_of(&[4, 200]), random.bytes(1));
            let packets = [&mut senders, &mut without].map(|senders| (0..).find_map(|_| senders.add_adu(random, flow, &adu).ok()).unwrap());
            assert_eq!(packets, [source(&adu, i), source(&adu, i)]);
            let repairs = [&senders, &without].map(|senders| (0..).find_map(|_| senders.make_repair(random, 5, 15, 2).ok()).unwrap());
            assert_eq!(repairs[0], repairs[1]);
        }
        assert!(senders.memory.get() == without.memory.get(), "a stray left something behind");
        assert_eq!(senders.strays[0], refused);
        assert!(senders.strays[1] > 0);
    }
}

/// A stray as the first packet sets no base, whatever else is wrong with it, and leaves every byte: the next packet joins where it lies, be
/// that behind a base at the stray's ESI or too far ahead of one, and all is as if the stray had never come.
#[test]
fn a_stray_joins_nothing() {
    let random = &mut Random::new(3);
    for (scheme, esi) in [(9, 0), (10, 4_100_000), (9, (1 << 31) - 1), (10, 1 << 31), (9, u32::MAX)] {
        let setting = small(scheme, 3);
        let opened = Receivers::open_with(setting, Flows::only(&[1]), random);
        let fresh = opened.memory.get().to_vec();
        for stray in [source(&[], esi), source(&[7], esi), source(&[7; 9], esi), source(&[7; 10], esi), source(&[7; 66_000], esi)] {
            let mut receivers = opened.clone();
            for flow in [0, 2, 9, 255] {
                assert_eq!(receivers.receive(random, Some(flow), &stray), Err(16));
            }
            assert_eq!(receivers.receive(random, Some(0), &stray[..3]), Err(5));
            assert!(receivers.base().is_none() && receivers.memory.get() == fresh, "a stray changed the memory");
            for at in [esi, 0, esi.wrapping_add(70_000)] {
                assert_eq!((origin(&mut receivers, random, at), adu(&mut receivers, random, at)), (Err(12), Err(12)));
            }
            for ahead in [3_000_000_000, 70_000, 0] {
                let other = esi.wrapping_add(ahead);
                for (flow, packet) in [(Some(1), source(&[8], other)), (None, solving(setting, 1, &[8], other).remove(0))] {
                    let (mut after, mut alone) = (receivers.clone(), opened.clone());
                    for receivers in [&mut after, &mut alone] {
                        assert_eq!(receivers.receive(random, flow, &packet).map(|(known, _)| known), Ok(1));
                        assert_eq!(receivers.base(), Some(u64::from(other)));
                    }
                    assert!(after.memory.get() == alone.memory.get(), "a stray left something behind");
                    after.look_around(random);
                }
            }
        }
    }
}

/// Strays among the packets of a stream: each is refused, moves no window, marks no start, is not heard and leaves every byte, whether it is
/// new, known, behind, too far ahead or contradicts.
#[test]
fn strays_in_a_stream() {
    let random = &mut Random::new(4);
    for (scheme, beginning) in [(9, 0), (10, u32::MAX - 5)] {
        let mut receivers = Receivers::open_with(small(scheme, 3), Flows::only(&[1, 8]), random);
        let mut without = receivers.clone();
        for i in 0..20 {
            let esi = beginning.wrapping_add(i);
            for receivers in [&mut receivers, &mut without] {
                assert_eq!(receivers.receive(random, Some(1 + 7 * (i % 2) as u8), &source(&[i as u8], esi)), Ok((1, 0)));
            }
            for ahead in [0, 1, 2, 3, 100, 65_536, 1 << 31, u32::MAX] {
                let position = esi.wrapping_add(ahead);
                for stray in [source(&[i as u8], position), source(&[3; 5], position), source(&[3; 40], position)] {
                    let flow = random.one_of(&[0, 7, 9, 16, 255]);
                    assert_eq!(receivers.receive(random, Some(flow), &stray), Err(16));
                }
            }
            assert!(receivers.memory.get() == without.memory.get(), "a stray changed the memory");
        }
        receivers.look_around(random);
        let strays = [Stray::Long, Stray::Behind, Stray::Ahead, Stray::Unlike, Stray::Fitting];
        assert!(strays.iter().all(|&stray| receivers.tally.strays[stray as usize] > 0), "{:?}", receivers.tally.strays);
    }
}

/// ADUs of flows that the receiver does not announce, in a row after one that it heard, of one symbol and of several, all solved by repair:
/// their symbols are counted and shown as solved, the ADUs are withheld, marks go on through them, and the ADU after them is handed out, when
/// it was solved too. Their source packets are refused as before, so that nothing of them becomes heard.
#[test]
fn marks_go_on_through_solved_strays() {
    let random = &mut Random::new(5);
    for (scheme, esi) in [(9, 0), (10, 4_100_000), (9, u32::MAX - 3), (10, u32::MAX)] {
        for lengths in [&[1][..], &[0], &[5], &[13], &[1, 1], &[5, 0, 9], &[2, 13, 1]] {
            let setting = small(scheme, 14);
            let mut receivers = Receivers::open_with(setting, Flows::only(&[1]), random);
            assert_eq!(receivers.receive(random, Some(1), &source(&[0x41], esi)), Ok((1, 0)));
            let mut next = esi.wrapping_add(1);
            let mut strays = Vec::new();
            for &length in lengths {
                let stray = (random.one_of(&[0, 2, 255]), random.bytes(length), next);
                assert_eq!(receivers.receive(random, Some(stray.0), &source(&stray.1, next)), Err(16));
                assert_eq!(adu(&mut receivers, random, next), Err(if strays.is_empty() { 12 } else { 13 }));
                next = next.wrapping_add(setting.symbols_of(length) as u32);
                strays.push(stray);
            }
            // The last ADU is solved first: no start leads to it yet
            solve(&mut receivers, random, 1, &[0x43; 4], next);
            assert_eq!(adu(&mut receivers, random, next), Err(13));
            for (flow, bytes, esi) in &strays {
                solve(&mut receivers, random, *flow, bytes, *esi);
                assert_eq!(adu(&mut receivers, random, *esi), Err(16));
            }
            assert_eq!(adu(&mut receivers, random, next), Ok((1, vec![0x43; 4])));
            assert_eq!(adu(&mut receivers, random, esi), Ok((1, vec![0x41])));
            for (flow, bytes, esi) in &strays {
                assert_eq!(receivers.receive(random, Some(*flow), &source(bytes, *esi)), Err(16));
                assert_eq!(adu(&mut receivers, random, *esi), Err(16));
                for (at, symbol) in (*esi..=u32::MAX).chain(0..).zip(setting.cut(*flow, bytes)) {
                    assert_eq!(origin(&mut receivers, random, at), SOLVED);
                    assert_eq!(receivers.reference.part(ROOM, at), Ok(&symbol[..]));
                }
            }
            // A receiver that announces these flows too hands them all out
            let mut knowing = Receivers::open_with(setting, Flows::only(&[0, 1, 2, 255]), random);
            assert_eq!(knowing.receive(random, Some(1), &source(&[0x41], esi)), Ok((1, 0)));
            for (flow, bytes, esi) in strays {
                solve(&mut knowing, random, flow, &bytes, esi);
                assert_eq!(adu(&mut knowing, random, esi), Ok((flow, bytes)));
            }
        }
    }
}

/// A sender that announces more than its receiver, with every third source packet lost: all symbols become known, and just the ADUs of the
/// flows that the receiver announces are handed out.
#[test]
fn receivers_that_announce_less() {
    let random = &mut Random::new(6);
    for (scheme, dt, count) in [(9, 7, 16), (10, 15, 4)] {
        let (setting, ours) = (small(scheme, 12), Flows::only(&[0, 255]));
        let mut senders = Senders::open_with(setting, Flows::only(&[0, 7, 8, 255]), random);
        let mut receivers = Receivers::open_with(setting, ours, random);
        let (mut refused, mut handed, mut withheld) = (0, 0, 0);
        for i in 0..60u32 {
            let flow = [0, 7, 255, 8, 8][i as usize % 5];
            let packet = (0..).find_map(|_| senders.add_adu(random, flow, &[i as u8]).ok()).unwrap();
            let (repair, draws) = (0..).find_map(|_| senders.make_repair(random, i as u16, dt, count).ok()).unwrap();
            if i % 3 != 1 {
                let answer = receivers.receive(random, Some(flow), &packet);
                assert_eq!(answer, if ours.contains(flow) { Ok((1, 0)) } else { Err(16) });
                refused += u64::from(answer.is_err());
            }
            assert_eq!(receivers.receive(random, None, &repair).map(|(_, told)| told), Ok(draws));
            let heard = i % 3 != 1 && ours.contains(flow);
            assert_eq!(origin(&mut receivers, random, i), if heard { HEARD } else { SOLVED });
            let found = adu(&mut receivers, random, i);
            assert_eq!(found, if ours.contains(flow) { Ok((flow, vec![i as u8])) } else { Err(16) });
            handed += u64::from(found.is_ok());
            withheld += u64::from(found == Err(16));
        }
        assert_eq!((refused, handed, withheld), (24, 24, 36));
        assert!(receivers.tally.accepted.iter().sum::<u64>() + receivers.tally.refused[16] == receivers.tally.packets());
    }
}

/// Repair packets are not checked: a receiver that announces no flow takes them, shows every symbol, and has no start to hand an ADU out from.
#[test]
fn receivers_that_announce_none() {
    let random = &mut Random::new(7);
    for scheme in [9, 10] {
        let setting = small(scheme, 4);
        let mut receivers = Receivers::open_with(setting, Flows::none(), random);
        for esi in 0..10 {
            assert_eq!(receivers.receive(random, Some(esi as u8), &source(&[7], esi)), Err(16));
            solve(&mut receivers, random, esi as u8, &[7], esi);
            assert_eq!((origin(&mut receivers, random, esi), adu(&mut receivers, random, esi)), (SOLVED, Err(13)));
        }
        receivers.look_around(random);
    }
    // A sender that announces none has nothing to protect
    let mut senders = Senders::open_with(small(9, 2), Flows::none(), random);
    assert!((0..=255).all(|flow| senders.add_adu(random, flow, &[]) == Err(16)));
    assert_eq!(senders.make_repair(random, 0, 15, 1), Err(7));
}

/// A solved ADU of a flow that is not announced, and a source packet there of one that is: the two contradict, and the ADU stays withheld. One
/// whose ADU is another in padding only is told 14 first.
#[test]
fn contradictions_with_solved_strays() {
    let random = &mut Random::new(8);
    for scheme in [9, 10] {
        let setting = small(scheme, 3);
        let mut receivers = Receivers::open_with(setting, Flows::only(&[1]), random);
        assert_eq!(receivers.receive(random, Some(1), &source(&[], 5)), Ok((1, 0)));
        let mut padded = receivers.clone();
        solve(&mut receivers, random, 2, &[7], 6);
        assert_eq!(receivers.receive(random, Some(1), &source(&[7], 6)), Err(11));
        assert_eq!(receivers.receive(random, Some(2), &source(&[7], 6)), Err(16));
        assert_eq!((origin(&mut receivers, random, 6), adu(&mut receivers, random, 6)), (SOLVED, Err(16)));
        let symbol = vec![2, 0, 0, 7];
        let sum = reference::coefficients::combination(setting.field(), 1, 15, &[symbol], 4).unwrap();
        assert_eq!(padded.receive(random, None, &repair_packet(1, 15, 1, 6, &[sum])).map(|(known, _)| known), Ok(1));
        assert_eq!(adu(&mut padded, random, 6), Err(14));
        assert_eq!(padded.tally.strays[Stray::Padded as usize], 1);
    }
}
