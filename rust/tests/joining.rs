//! Joining a running stream (document 02, No. 2): there is no base before the first packet that is accepted, and that one sets it, wherever
//! it lies. Library, Rust types and second decoder go side by side, and each answer is written out too.

mod library;
mod reference;

use library::pair::{Receivers, Senders};
use reference::coefficients::coefficients;
use reference::random::Random;
use reference::{moved, repair_packet, source_packet, Flows, Sender, Setting};

/// ESIs to join at: 0, in the millions, and around where numbers of 31 and 32 bits end.
const ESIS: [u32; 12] = [
    0,
    1,
    4_100_000,
    123_456_789,
    (1 << 31) - 2,
    (1 << 31) - 1,
    1 << 31,
    (1 << 31) + 1,
    u32::MAX - 65_535,
    u32::MAX - 2,
    u32::MAX - 1,
    u32::MAX,
];

const ROOM: usize = usize::MAX;

/// Symbols of 4 bytes.
fn small(scheme: u32, width: usize) -> Setting {
    Setting { scheme, symbol_size: 4, width }
}

/// The source packet of an ADU at an ESI.
fn source(adu: &[u8], esi: u32) -> Vec<u8> {
    source_packet(adu, u64::from(esi))
}

/// A repair packet with DT 15 over n symbols from an ESI on. In scheme 9 each of its symbols is the sum of them all.
fn repair(esi: u32, n: u16, symbols: &[[u8; 4]]) -> Vec<u8> {
    let symbols: Vec<Vec<u8>> = symbols.iter().map(|symbol| symbol.to_vec()).collect();
    repair_packet(0, 15, n, u64::from(esi), &symbols)
}

/// The symbol at an ESI and the ADU there with its flow, or why not: what all three say.
type Asked = (Result<Vec<u8>, u32>, Result<(u8, Vec<u8>), u32>);

fn asked(receivers: &mut Receivers, random: &mut Random, esi: u32) -> Asked {
    receivers.look(random, esi);
    let reference = &receivers.reference;
    let adu = reference.adu(ROOM, esi, ROOM).map(|adu| (adu.flow, adu.bytes));
    (reference.part(ROOM, esi).map(<[u8]>::to_vec), adu)
}

/// No base, an empty window: 12 for every ESI, those that would be behind too, and 3 before that.
fn joined_nowhere(receivers: &mut Receivers, random: &mut Random) {
    assert_eq!(receivers.base(), None);
    for esi in ESIS.into_iter().chain([random.next() as u32]) {
        assert_eq!(asked(receivers, random, esi), (Err(12), Err(12)), "ESI {esi}");
        let short = &receivers.memory.get()[..receivers.setting().receiver_memory() - 1];
        let calls = [library::symbol(short, esi), library::symbol_place(short, esi), library::adu(short, esi, &mut [0; 9])];
        assert_eq!(calls, [-3; 3], "ESI {esi}");
    }
}

#[test]
fn nothing_is_shown_before_a_packet() {
    let random = &mut Random::new(1);
    for setting in [small(9, 1), small(10, 2), small(9, 255), Setting { scheme: 10, symbol_size: 1500, width: 7 }] {
        let mut receivers = Receivers::open(setting, random);
        joined_nowhere(&mut receivers, random);
        receivers.look_around(random);
    }
}

/// C10 from any ESI, whether a source packet joins there or a repair packet.
#[test]
fn places_count_from_the_joining_packet() {
    let random = &mut Random::new(2);
    for (esi, joins_by) in ESIS.into_iter().flat_map(|esi| [(esi, Some(1)), (esi, None)]) {
        let mut receivers = Receivers::open(small(9 + esi % 2, 3), random);
        let packet = if joins_by.is_some() { source(&[7; 5], esi) } else { repair(esi, 2, &[[1, 0, 2, 7]]) };
        assert_eq!(receivers.receive(random, joins_by, &packet).map(|(known, _)| known), Ok(if joins_by.is_some() { 2 } else { 0 }));
        assert_eq!(receivers.base(), Some(u64::from(esi)));
        let half = 1 << 31;
        for (ahead, refusal) in [(u32::MAX, 8), (half, 8), (half - 1, 12), (3, 12)] {
            assert_eq!(asked(&mut receivers, random, esi.wrapping_add(ahead)), (Err(refusal), Err(refusal)));
        }
        assert_eq!(asked(&mut receivers, random, esi).0.is_ok(), joins_by.is_some());
        let places = [
            (65_535, 1, Ok(1)),
            (65_534, 2, Ok(2)),
            (65_535, 2, Err(9)),
            (65_536, 1, Err(9)),
            (half - 1, 1, Err(9)),
            (half, 1, Err(8)),
            (u32::MAX, 1, Err(8)),
            (u32::MAX, 2, Err(8)),
        ];
        for (ahead, symbols, answer) in places {
            let mut receivers = receivers.clone();
            let packet = source(&vec![5; 4 * symbols - 3], esi.wrapping_add(ahead));
            assert_eq!(receivers.receive(random, Some(1), &packet).map(|(known, _)| known), answer, "{ahead} past ESI {esi}");
            let risen = if answer.is_ok() { 65_536 - 3 } else { 0 };
            assert_eq!(receivers.base(), Some(u64::from(esi) + risen));
            receivers.look_around(random);
        }
    }
}

/// A stream that begins in the millions or just below 2^31 or 2^32, with every third source packet lost: repair finds each one, and every
/// ADU is handed out, before the wrap and past it. The receiver joins at the first source packet; or the first repair packet overtakes the
/// source packets of its symbols: then it joins there, and that packet finds the lost symbol once the two others have come.
#[test]
fn streams_over_the_wrap() {
    let random = &mut Random::new(3);
    let (adus, width) = (24, 6);
    let beginnings = (0..30).map(|below| u32::MAX - below).chain(ESIS);
    for (beginning, by_repair) in beginnings.flat_map(|esi| [(esi, false), (esi, true)]) {
        let setting = small(9 + beginning % 2, width);
        let at = |p: u8| beginning.wrapping_add(u32::from(p));
        let known = |p: u8| (Ok(vec![p, 0, 1, p]), Ok((p, vec![p])));
        let mut sender = Sender::open(setting, Flows::all());
        let mut receivers = Receivers::open(setting, random);
        let mut overtaken = Vec::new();
        for i in 0..adus {
            let packet = moved(true, &sender.add_adu(i, &[i], ROOM).unwrap(), beginning);
            if by_repair && i < 3 {
                overtaken.push(packet);
            } else if i % 3 != 1 {
                assert_eq!(receivers.receive(random, Some(i), &packet), Ok((1, 0)));
            }
            if i % 3 != 2 {
                continue;
            }
            let (packet, draws) = sender.make_repair(u16::from(i), 15, 1, ROOM).unwrap();
            let packet = moved(false, &packet, beginning);
            if by_repair && i == 2 {
                joined_nowhere(&mut receivers, random);
                assert_eq!(receivers.receive(random, None, &packet), Ok((0, draws)));
                assert_eq!(receivers.base(), Some(u64::from(beginning)));
                let answers: Vec<_> = (0..=width as u8).map(|p| asked(&mut receivers, random, at(p))).collect();
                let (unknown, past) = ((Err(12), Err(13)), (Err(12), Err(12)));
                assert_eq!(answers, [vec![unknown.clone(); width], vec![past]].concat(), "joined at {beginning}");
                assert_eq!(receivers.receive(random, Some(2), &overtaken[2]), Ok((1, 0)));
                let answers: Vec<_> = (0..3).map(|p| asked(&mut receivers, random, at(p))).collect();
                assert_eq!(answers, [unknown.clone(), unknown, known(2)], "joined at {beginning}");
                assert_eq!(receivers.receive(random, Some(0), &overtaken[0]), Ok((2, 0)));
            } else {
                assert_eq!(receivers.receive(random, None, &packet), Ok((1, draws)));
            }
            for p in i.saturating_sub(width as u8 - 1)..=i {
                assert_eq!(asked(&mut receivers, random, at(p)), known(p), "symbol {p} from {beginning}");
            }
        }
        assert_eq!(receivers.tally.joined, [u64::from(!by_repair), u64::from(by_repair)]);
        assert_eq!(receivers.base(), Some(u64::from(beginning) + u64::from(adus) - width as u64));
        receivers.look_around(random);
    }
}

/// The packets that a fresh receiver refuses, at an ESI: flow, packet and refusal, in the order of the checks. Each breaks all rules after
/// its own that it can.
fn refused(setting: Setting, esi: u32) -> Vec<(Option<u8>, Vec<u8>, u32)> {
    let key = (0..=65_535).find(|&key| coefficients(setting.field(), key, 0, 2) == Ok(vec![0, 0])).unwrap();
    let position = u64::from(esi);
    let unlike = [[0; 4], [1; 4]];
    vec![
        (Some(1), esi.to_be_bytes()[..3].to_vec(), 5),
        (None, repair(esi, 0, &unlike)[..15].to_vec(), 5),
        (Some(1), source(&vec![9; 4 * setting.width - 2], esi), 4),
        (None, repair(esi, 0, &unlike), 6),
        (None, repair(esi, setting.width as u16 + 1, &unlike), 6),
        (None, repair(esi, 1, &unlike), 11),
        // All coefficients are zero and the symbol is not
        (None, repair_packet(key, 0, 2, position, &[vec![0, 0, 0, 1]]), 11),
        (None, repair_packet(key, 0, 2, position, &[vec![0; 4], vec![0, 0, 0, 1]]), 11),
    ]
}

/// A refused packet sets no base, for whatever reason: not a byte changes, and the next one joins where it lies as if it had never come, be
/// that behind a base at the refused packet's ESI or too far ahead of one.
#[test]
fn refused_packets_join_nothing() {
    let random = &mut Random::new(4);
    for (esi, scheme) in ESIS.into_iter().flat_map(|esi| [(esi, 9), (esi, 10)]) {
        let setting = small(scheme, 3);
        let opened = Receivers::open(setting, random);
        let (fresh, mut work) = (opened.memory.get().to_vec(), vec![0; setting.working_memory()]);
        // Flow and packet that join, their ESI, and how many become known
        let mut joining = Vec::new();
        for (ahead, refusal) in [(3_000_000_000, 8), (70_000, 9)] {
            let other = esi.wrapping_add(ahead);
            let packets = [(Some(1), source(&[7, 7], other), other, 2), (None, repair(other, 1, &[[1, 0, 0, 0]]), other, 1)];
            // After a packet that was accepted at this ESI they would be refused
            let mut accepted = opened.clone();
            assert_eq!(accepted.receive(random, Some(1), &source(&[7], esi)), Ok((1, 0)));
            for (flow, packet, ..) in &packets {
                assert_eq!(accepted.receive(random, *flow, packet), Err(refusal), "{ahead} past ESI {esi}");
            }
            joining.extend(packets);
        }
        let mut all = opened.clone();
        for (flow, packet, refusal) in refused(setting, esi) {
            let mut receivers = opened.clone();
            for receivers in [&mut receivers, &mut all] {
                assert_eq!(receivers.receive(random, flow, &packet), Err(refusal), "ESI {esi}");
                assert!(receivers.memory.get() == fresh, "refusal {refusal} changed the memory");
                joined_nowhere(receivers, random);
            }
            for (flow, packet, other, known) in &joining {
                let (mut after, mut alone) = (receivers.clone(), opened.clone());
                for receivers in [&mut after, &mut alone] {
                    assert_eq!(receivers.receive(random, *flow, packet).map(|(known, _)| known), Ok(*known));
                    assert_eq!(receivers.base(), Some(u64::from(*other)));
                }
                assert!(after.memory.get() == alone.memory.get(), "refusal {refusal} left something behind");
                after.look_around(random);
            }
        }
        // Refusals 3 and 2 stand before all of these
        let (size, work_size) = (fresh.len(), work.len());
        for (memory_len, work_len, refusal) in [(setting.receiver_memory() - 1, work_size - 1, -3), (size, work_size - 1, -2)] {
            for (flow, packet) in
                refused(setting, esi).into_iter().map(|(flow, packet, _)| (flow, packet)).chain([(Some(1), source(&[7], esi))])
            {
                let (memory, work) = (&mut all.memory.lend()[..memory_len], &mut work[..work_len]);
                let answer = match flow {
                    Some(flow) => library::receive_source(memory, work, flow, &packet),
                    None => library::receive_repair(memory, work, &packet),
                };
                assert_eq!(answer, refusal);
                assert!(all.memory.get() == fresh, "refusal {refusal} changed the memory");
            }
        }
        joined_nowhere(&mut all, random);
    }
}

/// Two unlike repair symbols over two symbols in scheme 9 at DT 15, then a packet elsewhere; then the first again, mended.
#[test]
fn unlike_repair_symbols_join_nothing() {
    let random = &mut Random::new(5);
    let mut receivers = Receivers::open(small(9, 2), random);
    let fresh = receivers.memory.get().to_vec();
    assert_eq!(receivers.receive(random, None, &repair(70_000, 2, &[[1; 4], [2; 4]])), Err(11));
    assert!(receivers.memory.get() == fresh);
    joined_nowhere(&mut receivers, random);
    assert_eq!(receivers.receive(random, None, &repair(5, 2, &[[1; 4], [1; 4]])), Ok((0, 0)));
    assert_eq!(receivers.base(), Some(5));
    assert_eq!(receivers.receive(random, None, &repair(70_000, 2, &[[1; 4], [1; 4]])), Err(9));
    assert_eq!(receivers.receive(random, None, &repair(5, 2, &[[2; 4]])), Err(11));
}

/// Starts begin at source packets: after a joining repair packet the base is no start, whatever it holds; source packets mark as always.
#[test]
fn starts_come_from_source_packets() {
    let random = &mut Random::new(6);
    for esi in ESIS {
        let at = |ahead: u32| esi.wrapping_add(ahead);
        let mut receivers = Receivers::open(small(9, 4), random);
        let adu_of = |receivers: &mut Receivers, random: &mut Random, ahead: u32| asked(receivers, random, at(ahead)).1;
        assert_eq!(receivers.receive(random, None, &repair(esi, 1, &[[7, 0, 1, 9]])), Ok((1, 0)));
        assert_eq!(asked(&mut receivers, random, esi), (Ok(vec![7, 0, 1, 9]), Err(13)));
        // Known by repair or not at all, nothing is a start yet: the base doesn't mark the position after its ADU either
        assert_eq!(receivers.receive(random, None, &repair(at(1), 1, &[[5, 0, 0, 0]])), Ok((1, 0)));
        for ahead in 0..4 {
            assert_eq!(adu_of(&mut receivers, random, ahead), Err(13));
        }
        // A later source packet marks its own first position and the one after its last, as always
        let mut later = receivers.clone();
        assert_eq!(later.receive(random, Some(3), &source(&[4], at(2))), Ok((1, 0)));
        let answers: Vec<_> = (0..5).map(|ahead| adu_of(&mut later, random, ahead)).collect();
        assert_eq!(answers, [Err(13), Err(13), Ok((3, vec![4])), Err(12), Err(12)]);
        // One at the base marks it, and a chain goes on through what repair made known
        assert_eq!(later.receive(random, Some(7), &source(&[9], esi)), Ok((0, 0)));
        let answers: Vec<_> = (0..5).map(|ahead| adu_of(&mut later, random, ahead)).collect();
        assert_eq!(answers, [Ok((7, vec![9])), Ok((5, vec![])), Ok((3, vec![4])), Err(12), Err(12)]);
        // A joining source packet marks at once
        let mut heard = Receivers::open(small(9, 4), random);
        assert_eq!(heard.receive(random, Some(7), &source(&[9; 5], esi)), Ok((2, 0)));
        assert_eq!(heard.receive(random, None, &repair(at(2), 1, &[[5, 0, 0, 0]])), Ok((1, 0)));
        let answers: Vec<_> = (0..5).map(|ahead| adu_of(&mut heard, random, ahead)).collect();
        assert_eq!(answers, [Ok((7, vec![9; 5])), Err(13), Ok((5, vec![])), Err(12), Err(12)]);
    }
}

/// A receiver that is switched on in the middle of what a sender sends. Symbols before the first ESI of its joining packet are behind; from
/// the first source packet that arrives on, every ADU is recovered and handed out in order. What a joining repair packet names before that
/// can become known, but is no start.
#[test]
fn joining_a_running_sender() {
    let random = &mut Random::new(7);
    for (scheme, dt, count) in [(9, 7, 16), (10, 15, 4)] {
        for (width, by_repair) in [(4, false), (4, true), (9, false), (9, true), (30, false), (30, true)] {
            let setting = small(scheme, width);
            let mut senders = Senders::open(setting, random);
            let mut receivers = Receivers::open(setting, random);
            let on = 3 * width as u32 + 5;
            // The ESI of the joining packet and of the first source packet that arrives; the next ADU to hand out
            let (mut base, mut first_source, mut next) = (None, None, None);
            let (mut found, mut refused) = (0, 0);
            let sent = on + 5 * width as u32;
            for esi in 0..sent {
                let (flow, adu) = (esi as u8 ^ 85, [esi as u8]);
                // Some outputs are too short: the sender refuses, and nothing is sent
                let source = (0..).find_map(|_| senders.add_adu(random, flow, &adu).ok()).unwrap();
                let (repair, draws) = (0..).find_map(|_| senders.make_repair(random, esi as u16, dt, count).ok()).unwrap();
                let lost = esi < on || esi % 5 == 3 || (by_repair && esi == on);
                if !lost {
                    assert_eq!(receivers.receive(random, Some(flow), &source), Ok((1, 0)), "source {esi}");
                    base = base.or(Some(esi));
                    first_source = first_source.or(Some(esi));
                }
                if esi >= on && (by_repair || base.is_some()) {
                    let first = esi + 1 - width as u32;
                    let answer = receivers.receive(random, None, &repair);
                    if base.is_some_and(|base| first < base) {
                        assert_eq!(answer, Err(8), "repair from {first}");
                        refused += 1;
                    } else {
                        assert_eq!(answer.map(|(_, told)| told), Ok(draws), "repair from {first}");
                        base = base.or(Some(first));
                        found += answer.unwrap().0;
                    }
                }
                assert!(receivers.base() >= base.map(u64::from));
                next = next.or(first_source);
                while let Some((flow, bytes)) = next.and_then(|next| asked(&mut receivers, random, next).1.ok()) {
                    assert_eq!((flow, bytes), (next.unwrap() as u8 ^ 85, vec![next.unwrap() as u8]));
                    next = next.map(|next| next + 1);
                }
                // Nothing before the base is ever shown; known symbols before the first source packet are no starts
                for esi in 0..base.unwrap_or(0) {
                    assert_eq!(asked(&mut receivers, random, esi), (Err(8), Err(8)));
                }
                for esi in receivers.base().map_or(0, |base| base as u32)..first_source.unwrap_or(0) {
                    let (symbol, adu) = asked(&mut receivers, random, esi);
                    assert!(symbol.is_err() || symbol == Ok(vec![esi as u8 ^ 85, 0, 1, esi as u8]));
                    assert_eq!(adu, Err(13));
                }
            }
            assert_eq!(base, Some(if by_repair { on + 1 - width as u32 } else { on }), "width {width}");
            assert_eq!(next, Some(sent), "scheme {scheme}, width {width}, by repair {by_repair}");
            assert!(found > 0 && (refused > 0) != by_repair, "{found} found, {refused} refused");
        }
    }
}

/// What begins before the first ESI of the joining packet and comes after it is too late, however often it comes again.
#[test]
fn packets_before_the_joining_one_stay_behind() {
    let random = &mut Random::new(8);
    for (beginning, by_repair) in ESIS.into_iter().flat_map(|esi| [(esi, false), (esi, true)]) {
        let setting = small(9, 4);
        let mut sender = Sender::open(setting, Flows::all());
        let (mut sources, mut repairs) = (Vec::new(), Vec::new());
        for i in 0..12u8 {
            sources.push(moved(true, &sender.add_adu(1, &[i], ROOM).unwrap(), beginning));
            repairs.push(moved(false, &sender.make_repair(0, 15, 1, ROOM).unwrap().0, beginning));
        }
        let mut receivers = Receivers::open(setting, random);
        // A repair packet over 1 alone joins where source 1 does
        let joining = if by_repair { (None, repair(beginning.wrapping_add(1), 1, &[[1, 0, 1, 1]])) } else { (Some(1), sources[1].clone()) };
        assert_eq!(receivers.receive(random, joining.0, &joining.1), Ok((1, 0)));
        for i in 1..12u32 {
            assert_eq!(receivers.receive(random, Some(1), &sources[i as usize]), Ok((u64::from(i > 1), 0)), "source {i}");
            // Source 0, and every repair packet that begins with its symbol though its other symbols stand in the window
            assert_eq!(receivers.receive(random, Some(1), &sources[0]), Err(8));
            assert_eq!(receivers.receive(random, None, &repairs[i.min(3) as usize]), Err(8));
            assert_eq!(asked(&mut receivers, random, beginning), (Err(8), Err(8)));
            // From the one over 1 to 4 on, they are taken
            if i >= 4 {
                assert_eq!(receivers.receive(random, None, &repairs[i as usize]), Ok((0, 0)));
            }
        }
        // In their own order both are known
        let mut receivers = Receivers::open(setting, random);
        for packet in &sources[..2] {
            assert_eq!(receivers.receive(random, Some(1), packet), Ok((1, 0)));
        }
        assert_eq!(asked(&mut receivers, random, beginning), (Ok(vec![1, 0, 1, 0]), Ok((1, vec![0]))));
    }
}
