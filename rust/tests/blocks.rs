//! Blocks (document 02, No. 9): packets byte for byte, every small loss and order, damage, repeats, packets of others, every refusal and their
//! order, memories of all four kinds of ends, and random runs; against the second implementation, which works with matrices.

mod library;
mod reference;

use library::blocks::{safe, Encoders, Open, Packet, Recoveries, Tally};
use library::{runs, Lent};
use reference::block::{generator, powers, Block, Recovery};
use reference::dense;
use reference::equations::Equation;
use reference::random::Random;
use reference::{Answer, Field};
use rlc8681::{BlockEncoder, BlockRecovery, Refusal};

fn block(symbol_size: usize, k: usize, total: usize) -> Block {
    Block { symbol_size, k, total, number: 0x0a_0b_0c }
}

/// ADUs for all of a block: empty ones, some of the most bytes, others of any length.
fn adus(random: &mut Random, block: Block) -> Vec<(u8, Vec<u8>)> {
    let adu = |_| {
        let length = match random.below(4) {
            0 => 0,
            1 => block.longest(),
            _ => random.between(0, block.longest()),
        };
        (random.byte(), random.bytes(length))
    };
    (0..block.k).map(adu).collect()
}

/// All packets of a block, by ESI, and its source symbols.
fn encoded(random: &mut Random, block: Block) -> (Vec<Packet>, Vec<Vec<u8>>) {
    let mut encoders = Encoders::open(block, random);
    let adus = adus(random, block);
    (encoders.packets(random, &adus), encoders.reference.symbols)
}

/// A recovery that has received these packets, all of which are accepted.
fn received(random: &mut Random, block: Block, packets: &[Packet], esis: &[usize]) -> Recoveries {
    let mut recoveries = Recoveries::open(block, random);
    for &esi in esis {
        assert!(recoveries.receive(random, &packets[esi]).is_ok(), "ESI {esi} after {esis:?}");
    }
    recoveries
}

/// Panics where a recovery does not show just these symbols: all where the block is complete, else those heard.
fn shows(recoveries: &mut Recoveries, symbols: &[Vec<u8>]) {
    recoveries.look_around();
    let complete = recoveries.reference.esis.len() >= symbols.len();
    for (esi, symbol) in symbols.iter().enumerate() {
        let shown = recoveries.reference.part(usize::MAX, esi as u32).ok();
        let known = complete || recoveries.reference.heard.contains(&esi);
        assert_eq!(shown, known.then_some(&symbol[..]), "ESI {esi} of {:?}", recoveries.block());
    }
}

fn shuffled(random: &mut Random, count: usize) -> Vec<usize> {
    let mut order: Vec<usize> = (0..count).collect();
    for i in (1..count).rev() {
        order.swap(i, random.below(i as u64 + 1) as usize);
    }
    order
}

/// The powers of 2 in the field.
const POWERS: [u8; 16] = [1, 2, 4, 8, 16, 32, 64, 128, 29, 58, 116, 232, 205, 135, 19, 38];

/// Where the symbols are 1, x and x squared at the points 2^0, 2^1, 2^2, so are the repair symbols at theirs.
#[test]
fn polynomials_by_hand() {
    let random = &mut Random::new(1);
    let block = block(6, 3, 8);
    let adu = |i: usize| (POWERS[i], vec![7, POWERS[i], POWERS[2 * i]]);
    let packets = Encoders::open(block, random).packets(random, &[adu(0), adu(1), adu(2)]);
    for (esi, (flow, packet)) in packets.iter().enumerate() {
        let (flows, [seven, x, square]) = (POWERS[esi], [7, POWERS[esi], POWERS[2 * esi]]);
        let head = [0x0a, 0x0b, 0x0c, esi as u8, 0, 3];
        match flow {
            Some(flow) => assert_eq!((*flow, packet), (flows, &[&[seven, x, square], &head[..]].concat())),
            None => assert_eq!(packet, &[&head[..], &[flows, 0, 3, seven, x, square]].concat()),
        }
    }
    // With one source symbol every repair symbol is that symbol
    let one = Block { symbol_size: 5, k: 1, total: 255, number: 0xff_ff_ff };
    let packets = Encoders::open(one, random).packets(random, &[(9, vec![8])]);
    assert_eq!(packets[0], (Some(9), vec![8, 255, 255, 255, 0, 0, 1]));
    for (esi, packet) in packets.iter().enumerate().skip(1) {
        assert_eq!(packet, &(None, vec![255, 255, 255, esi as u8, 0, 1, 9, 0, 1, 8, 0]));
    }
    // The largest numbers
    let most = Block { symbol_size: 4, k: 255, total: 255, number: 0xff_ff_ff };
    let packets = Encoders::open(most, random).packets(random, &vec![(0, Vec::new()); 255]);
    assert_eq!(packets[254], (Some(0), vec![255, 255, 255, 254, 0, 255]));
}

/// The second implementation itself: its matrix takes the values of a polynomial at 2^0 .. 2^(k-1) to those at all 2^j.
#[test]
fn matrices_and_polynomials() {
    let field = Field::Gf256;
    let random = &mut Random::new(2);
    assert!(powers(2).take(16).eq(POWERS));
    for (k, n) in [(1, 255), (2, 9), (3, 3), (7, 40), (128, 255), (254, 255), (255, 255)] {
        let matrix = generator(k, n);
        let polynomial = random.bytes(k);
        let value = |point: u8| polynomial.iter().rev().fold(0, |sum, &c| field.times(sum, point) ^ c);
        let values: Vec<u8> = powers(2).take(n).map(value).collect();
        for j in 0..n {
            let sum = (0..k).fold(0, |sum, i| sum ^ field.times(matrix[i][j], values[i]));
            assert_eq!(sum, values[j], "symbol {j} of {n}, k {k}");
            assert!(j >= k || (0..k).all(|i| matrix[i][j] == u8::from(i == j)), "source symbol {j} is sent as it is");
        }
    }
}

/// And its recovery: each answer is that of an elimination from nothing over all accepted packets, for symbols of the block and others.
#[test]
fn recovery_and_plain_elimination() {
    let mut contradictions = 0;
    runs(300, |seed| {
        let random = &mut Random::new(seed);
        let k = random.between(1, 6);
        let block = block(4, k, random.between(k, 9));
        let (packets, _) = encoded(random, block);
        let mut recovery = Recovery::open(block);
        let matrix = generator(block.k, block.total);
        for _ in 0..12 {
            let esi = random.between(0, block.total - 1);
            let (flow, mut packet) = packets[esi].clone();
            let beside = if flow.is_some() { 0..packet.len() - 6 } else { 6..packet.len() };
            if random.chance(20) && !beside.is_empty() {
                packet[random.between(beside.start, beside.end - 1)] ^= random.byte();
            }
            let before = dense::known(Field::Gf256, &recovery.equations).expect("what was accepted agrees");
            let answer = match flow {
                Some(flow) => recovery.receive_source(usize::MAX, usize::MAX, flow, &packet),
                None => recovery.receive_repair(usize::MAX, usize::MAX, &packet),
            };
            let symbol = flow.map_or_else(|| packet[6..].to_vec(), |flow| block.symbol(flow, &packet[beside]));
            let column: Vec<u8> = matrix.iter().map(|row| row[esi]).collect();
            let mut equations = recovery.equations.clone();
            if answer.is_err() {
                equations.push(Equation::new(0, &column, &symbol));
            }
            match dense::known(Field::Gf256, &equations) {
                None => {
                    assert_eq!(answer, Err(11));
                    contradictions += 1;
                }
                Some(known) => {
                    assert_eq!(answer, Ok(((known.len() - before.len()) as u64, 0)));
                    let shown = |esi: u64| recovery.part(usize::MAX, esi as u32).ok();
                    assert!((0..block.k as u64).all(|esi| shown(esi) == known.get(&esi).map(Vec::as_slice)));
                }
            }
        }
    });
    assert!(contradictions > 100 || std::env::var_os("RLC8681_SEED").is_some(), "{contradictions}");
}

/// Any k packets, in any order, bring the block; without the last of them only those heard are known. All sizes at their limits.
#[test]
fn any_k_packets() {
    let small = [(4, 1, 1), (4, 1, 2), (4, 1, 255), (5, 2, 2), (5, 2, 3), (64, 3, 255), (64, 10, 14), (5, 15, 16), (64, 17, 40)];
    let large = [(1400, 20, 30), (1500, 4, 7), (1500, 2, 255), (4, 254, 255), (4, 255, 255), (5, 254, 254), (64, 128, 255)];
    let largest = [(1400, 64, 96), (1400, 255, 255), (1500, 254, 255), (1500, 170, 255)];
    let samples = [(20, &small[..]), (3, &large[..]), (1, &largest[..])];
    for (times, (e, k, total)) in samples.iter().flat_map(|(times, sizes)| sizes.iter().map(|size| (*times, *size))) {
        let random = &mut Random::new((e + k + total) as u64);
        let (packets, symbols) = encoded(random, block(e, k, total));
        for _ in 0..times {
            let order = shuffled(random, total);
            let mut recoveries = received(random, block(e, k, total), &packets, &order[..k - 1]);
            shows(&mut recoveries, &symbols);
            let heard = recoveries.reference.heard.len() as u64;
            assert_eq!(recoveries.receive(random, &packets[order[k - 1]]), Ok((k as u64 - heard, 0)));
            shows(&mut recoveries, &symbols);
            for &esi in order[k..].iter().take(5) {
                assert_eq!(recoveries.receive(random, &packets[esi]), Ok((0, 0)));
            }
            shows(&mut recoveries, &symbols);
        }
    }
}

/// Every loss of a small block: all up to total - k symbols lost are recovered, of more just those heard are known.
#[test]
fn every_loss() {
    let random = &mut Random::new(3);
    for (total, k) in (1..=8).flat_map(|total| (1..=total).map(move |k| (total, k))) {
        let block = block(4 + total % 3, k, total);
        let (packets, symbols) = encoded(random, block);
        for arrived in 0..1u32 << total {
            let esis: Vec<usize> = (0..total).filter(|esi| arrived >> esi & 1 == 1).collect();
            let mut recoveries = received(random, block, &packets, &esis);
            assert_eq!(recoveries.reference.esis.len(), esis.len());
            shows(&mut recoveries, &symbols);
        }
    }
}

/// Every order of all packets of a small block: whatever it is, k packets bring k symbols, and the others none.
#[test]
fn every_order() {
    fn orders(total: usize) -> Vec<Vec<usize>> {
        match total {
            0 => vec![Vec::new()],
            _ => orders(total - 1)
                .into_iter()
                .flat_map(|order| (0..total).map(move |at| [&order[..at], &[total - 1], &order[at..]].concat()))
                .collect(),
        }
    }
    let random = &mut Random::new(4);
    for (total, k) in (1..=5).flat_map(|total| (1..=total).map(move |k| (total, k))).chain([(6, 3)]) {
        let block = block(4, k, total);
        let (packets, symbols) = encoded(random, block);
        for order in orders(total) {
            let mut recoveries = Recoveries::open(block, random);
            let counts: Vec<Answer> = order.iter().map(|&esi| recoveries.receive(random, &packets[esi])).collect();
            let heard = order[..k].iter().filter(|&&esi| esi < k).count() as u64;
            let expected = order.iter().enumerate().map(|(at, &esi)| match at + 1 {
                n if n < k => u64::from(esi < k),
                n if n == k => k as u64 - heard + u64::from(esi < k),
                _ => 0,
            });
            assert_eq!(counts, expected.map(|known| Ok((known, 0))).collect::<Vec<_>>(), "order {order:?}, k {k}");
            shows(&mut recoveries, &symbols);
            assert_eq!(recoveries.reference.heard.len(), k);
        }
    }
}

/// One byte of one packet changed, after any number of others: what is beside the identifier contradicts exactly where k others were accepted,
/// and changes nothing then; before that it is taken, and what follows tells.
#[test]
fn damaged_bytes() {
    let random = &mut Random::new(5);
    // Taken, refused with 11 and refused with 18
    let mut answers = [0; 3];
    for (k, total) in [(1, 3), (2, 2), (3, 6), (4, 5)] {
        let block = block(5, k, total);
        let (packets, symbols) = encoded(random, block);
        for (before, turn) in (0..total).flat_map(|before| (0..total).map(move |turn| (before, turn))) {
            let order: Vec<usize> = (0..total).map(|i| (i + turn) % total).collect();
            let (whole, next) = (received(random, block, &packets, &order[..before]), order[before]);
            let (flow, packet) = &packets[next];
            let identifier = if flow.is_some() { packet.len() - 6..packet.len() } else { 0..6 };
            for (at, change) in (0..packet.len()).flat_map(|at| [1, 0x80, 0xff].map(|change| (at, change))) {
                let mut recoveries = whole.clone();
                let mut damaged = (*flow, packet.clone());
                damaged.1[at] ^= change;
                let answer = recoveries.receive(random, &damaged);
                answers[match answer {
                    Ok(_) => 0,
                    Err(11) => 1,
                    Err(number) => {
                        assert_eq!(number, 18);
                        2
                    }
                }] += 1;
                if !identifier.contains(&at) {
                    assert_eq!(answer.is_err(), before >= k, "byte {at} of ESI {next} after {before} of k {k}");
                } else if at != identifier.start + 3 {
                    assert_eq!(answer, Err(18), "byte {at} of the identifier");
                }
                for &esi in &order[before..] {
                    let answer = recoveries.receive(random, &packets[esi]);
                    assert!(before < k || answer.is_ok(), "a refused packet changed something");
                }
                if before >= k {
                    shows(&mut recoveries, &symbols);
                }
            }
        }
    }
    assert!(answers.iter().all(|&count| count > 250), "{answers:?}");
}

/// A packet that comes again answers 0 and changes nothing shown; with another byte, or another flow, it contradicts, however few came before.
#[test]
fn repeats() {
    for (e, k, total) in [(4, 1, 1), (5, 1, 4), (5, 3, 5), (64, 6, 9), (4, 40, 44)] {
        let random = &mut Random::new(k as u64);
        let block = block(e, k, total);
        let (packets, symbols) = encoded(random, block);
        let order = shuffled(random, total);
        let mut recoveries = Recoveries::open(block, random);
        for (n, &last) in order.iter().enumerate() {
            assert!(recoveries.receive(random, &packets[last]).is_ok());
            for &esi in &order[..=n] {
                let (flow, packet) = &packets[esi];
                assert_eq!(recoveries.receive(random, &packets[esi]), Ok((0, 0)));
                let mut unlike = packet.clone();
                unlike[if flow.is_some() { 0 } else { 6 }] ^= 1;
                if flow.is_none() || packet.len() > 6 {
                    assert_eq!(recoveries.receive(random, &(*flow, unlike)), Err(11));
                }
                if let Some(flow) = flow {
                    assert_eq!(recoveries.receive(random, &(Some(flow ^ 0x10), packet.clone())), Err(11));
                    // One byte shorter, one longer
                    let longer = [&[0], &packet[..]].concat();
                    let refusal = if longer.len() - 6 > block.longest() { 4 } else { 11 };
                    assert_eq!(recoveries.receive(random, &(Some(*flow), longer)), Err(refusal));
                    if packet.len() > 6 {
                        assert_eq!(recoveries.receive(random, &(Some(*flow), packet[1..].to_vec())), Err(11));
                    }
                }
            }
            shows(&mut recoveries, &symbols);
        }
    }
}

/// A symbol that was solved becomes heard when its source packet is accepted, and not by one that is refused, nor by repair.
#[test]
fn solved_and_heard_later() {
    let random = &mut Random::new(6);
    for (k, total) in [(1, 2), (2, 4), (3, 6), (20, 40)] {
        let block = block(5, k, total);
        let (packets, _) = encoded(random, block);
        let repair: Vec<usize> = (k..k + k).collect();
        let mut recoveries = received(random, block, &packets, &repair);
        assert!(recoveries.reference.heard.is_empty());
        for esi in 0..k {
            let origin = |recoveries: &mut Recoveries| {
                recoveries.look(esi as u32);
                recoveries.reference.symbol(usize::MAX, esi as u32)
            };
            let (flow, packet) = packets[esi].clone();
            assert_eq!(origin(&mut recoveries), Ok((0, 0)));
            let other = (flow.map(|flow| !flow), packet.clone());
            assert_eq!(recoveries.receive(random, &other), Err(11));
            assert_eq!(recoveries.receive(random, &packets[k]), Ok((0, 0)));
            assert_eq!(origin(&mut recoveries), Ok((0, 0)));
            assert_eq!(recoveries.receive(random, &(flow, packet)), Ok((0, 0)));
            assert_eq!(origin(&mut recoveries), Ok((0, 1)));
            assert_eq!(recoveries.receive(random, &packets[k]), Ok((0, 0)));
            assert_eq!(recoveries.receive(random, &other), Err(11));
            assert_eq!(origin(&mut recoveries), Ok((0, 1)));
        }
    }
}

/// Packets that name another block number, another k, or an ESI not of their kind are 18: before 4 and 11, and after 5.
#[test]
fn packets_of_others() {
    let random = &mut Random::new(7);
    for (number, k, total) in [(0, 3, 5), (0xff_ff_ff, 2, 2), (0x12_34_56, 1, 255), (1, 254, 255), (0x80_00_00, 255, 255)] {
        let block = Block { symbol_size: 6, k, total, number };
        let fresh = Recoveries::open(block, random);
        let mut used = fresh.clone();
        assert_eq!(used.receive(random, &(Some(1), block.source_packet(0, &[8]))), Ok((1, 0)));
        let own = block.identifier(0);
        // The two numbers read in the other order, and then one bit or all of a byte changed
        let mut others = vec![[own[2], own[1], own[0], own[3], own[5], own[4]]];
        for (at, change) in [0, 1, 2, 4, 5].into_iter().flat_map(|at| [1, 0x80, 0xff].map(|change| (at, change))) {
            let mut identifier = own;
            identifier[at] ^= change;
            others.push(identifier);
        }
        let wrong = |esi: usize| block.identifier(esi);
        let source = others.iter().copied().chain((k..256).map(wrong));
        for identifier in source {
            for adu in [0, 3, 4, 70_000] {
                let packet = [&vec![7; adu], &identifier[..]].concat();
                assert_eq!(used.receive(random, &(Some(1), packet)), Err(18), "{identifier:?}");
            }
        }
        let at_k = |identifier: [u8; 6]| [identifier[0], identifier[1], identifier[2], k as u8, identifier[4], identifier[5]];
        let repair = others.into_iter().map(at_k).chain((0..k).chain(total..256).map(wrong));
        for identifier in repair {
            for (length, refusal) in [(5, 5), (6, 18), (7, 5)] {
                let packet = [&identifier[..], &vec![7; length]].concat();
                assert_eq!(used.receive(random, &(None, packet)), Err(refusal), "{identifier:?}");
            }
        }
        // Those of its own are taken: the first and the last of each kind
        for esi in [0, k - 1] {
            assert_eq!(fresh.clone().receive(random, &(Some(1), block.source_packet(esi, &[7; 3]))), Ok((1, 0)));
        }
        for esi in [k, total - 1].into_iter().filter(|&esi| esi >= k && esi < total) {
            assert_eq!(fresh.clone().receive(random, &(None, block.repair_packet(esi, &[7; 6]))), Ok((u64::from(k == 1), 0)));
        }
    }
}

/// What both interfaces answer to an opening with memory of so many bytes; a refusal leaves them.
fn opening(symbol_size: u32, k: u32, total: u32, number: u32, length: usize) -> Result<Block, u32> {
    let expected = Block::checked(symbol_size, k, total, number, length);
    let answer = expected.map_or_else(|number| -i64::from(number), |_| 0);
    let opens: [Open; 2] = [library::block_open_encoder, library::block_open_recovery];
    for open in opens {
        let mut memory = Lent::new(&vec![77; length]);
        assert_eq!(open(memory.lend(), symbol_size, k, total, number), answer, "E {symbol_size}, k {k}, total {total}, number {number}");
        memory.check();
        let size = expected.map_or(0, Block::memory);
        assert!(memory.get()[size..].iter().all(|&b| b == 77), "a refused opening, or past the size");
    }
    let block = rlc8681::Block { symbol_size, k, total, number };
    // The Rust types' own memory is long enough
    let expected = Block::checked(symbol_size, k, total, number, usize::MAX).err();
    let refused = |refusal: Option<Refusal>| refusal.map(|refusal| u32::from(refusal.number()));
    assert_eq!(refused(BlockEncoder::open(block).err()), expected);
    assert_eq!(refused(BlockRecovery::open(block).err()), expected);
    Block::checked(symbol_size, k, total, number, length)
}

/// Opening: 1, 18, 2. Each value outside its limits, at 8, 16, 24 and 32 bits.
#[test]
fn order_of_opening() {
    for symbol_size in [0, 3, 1501, 65_540, u32::MAX] {
        for (k, total, number) in [(2, 3, 0), (0, 3, 0), (2, 1, 0), (2, 256, 0), (2, 3, 1 << 24), (0, 0, u32::MAX)] {
            for length in [0, 5000] {
                assert_eq!(opening(symbol_size, k, total, number, length), Err(1));
            }
        }
    }
    let totals = [(0, 0), (0, 3), (0, 255), (3, 2), (3, 0), (255, 254), (3, 256), (255, 256), (256, 256), (256, 255), (256, 300)];
    let wide = [(2, 256 + 3), (256 + 2, 3), (65_536 + 2, 65_536 + 3), (2, 65_536 + 3), (2, u32::MAX), (u32::MAX, u32::MAX)];
    for (k, total) in totals.into_iter().chain(wide) {
        for (symbol_size, length) in [(4, 0), (4, 100_000), (1500, 100_000)] {
            assert_eq!(opening(symbol_size, k, total, 7, length), Err(18), "k {k}, total {total}");
        }
    }
    for number in [1 << 24, (1 << 24) + 7, 1 << 25, 1 << 31, u32::MAX] {
        for length in [0, 5000] {
            assert_eq!(opening(4, 2, 3, number, length), Err(18));
        }
    }
    for (symbol_size, k, total, number) in
        [(4, 1, 1, 0), (4, 2, 3, 7), (1500, 1, 255, 0xff_ff_ff), (4, 255, 255, 1), (1500, 255, 255, 0x80_00_00)]
    {
        let size = library::receiver_memory(symbol_size, k) as usize;
        for length in [0, 1, 8, 95, 96, size - 1] {
            assert_eq!(opening(symbol_size, k, total, number, length), Err(2));
        }
        for length in [size, size + 1, size + 100] {
            assert!(opening(symbol_size, k, total, number, length).is_ok());
        }
    }
}

/// A block of two ADUs of at most two bytes, and one repair symbol.
const SMALL: Block = Block { symbol_size: 5, k: 2, total: 3, number: 9 };

/// Adding an ADU: 3, 2, 18, 4. Making repair: 3, 2, 18, 7. A refused ADU has no ESI, one past the k-th changes nothing.
#[test]
fn order_of_encoding() {
    let mut memory = vec![0; SMALL.memory()];
    assert_eq!(library::block_add_adu(&mut memory, 1, &[7; 9], &mut []), -3);
    assert_eq!(library::block_make_repair(&memory, 99, &mut []), -3);
    assert_eq!(library::block_open_encoder(&mut memory, 5, 2, 3, 9), 0);
    let mut encoder = BlockEncoder::open(safe(SMALL)).unwrap();
    let mut out = [0; 100];
    // Each breaks the rule named and those after it
    for adus in 0..=2 {
        assert_eq!(encoder.add_adu(1, &[7; 3], &mut out[..8]), Err(Refusal::Short), "an ADU that is too long, {adus} taken");
        assert_eq!(encoder.add_adu(1, &[7; 2], &mut out[..7]), Err(Refusal::Short), "{adus} taken");
        assert_eq!(encoder.add_adu(1, &[], &mut out[..5]), Err(Refusal::Short), "{adus} taken");
        assert_eq!(encoder.make_repair(0, &mut out[..10]), Err(Refusal::Short), "{adus} taken");
        for esi in [0, 1, 3, 4, 255, 256 + 2, 65_536 + 2, u32::MAX] {
            assert_eq!(encoder.make_repair(esi, &mut out), Err(Refusal::Block), "ESI {esi}, {adus} taken");
        }
        assert_eq!(library::block_make_repair(&memory[..memory.len() - 1], 2, &mut out), -3);
        if adus == 2 {
            for adu in [0, 2, 3, 80] {
                assert_eq!(encoder.add_adu(1, &vec![7; adu], &mut out), Err(Refusal::Block), "an ADU past the k-th");
            }
            continue;
        }
        assert_eq!(encoder.make_repair(2, &mut out), Err(Refusal::Empty));
        for adu in [3, 80] {
            assert_eq!(encoder.add_adu(1, &vec![7; adu], &mut out), Err(Refusal::Long));
        }
        assert!(out.iter().all(|&b| b == 0));
        assert_eq!(encoder.add_adu(1, &[7; 2], &mut out[..8]), Ok(8));
        assert_eq!(out[..8], [7, 7, 0, 0, 9, adus, 0, 2]);
        out = [0; 100];
    }
    assert_eq!(encoder.make_repair(2, &mut out[..11]), Ok(11));
    assert_eq!(out[..11], [0, 0, 9, 2, 0, 2, 1, 0, 2, 7, 7]);
    // Lengths near the largest: ADU + 6 is no number of 16 bits, nor of 32
    let long = vec![0; 65_536];
    assert_eq!(library::block_add_adu(&mut memory, 1, &long[..65_530], &mut out), -2);
    assert_eq!(library::block_add_adu(&mut memory, 1, &long, &mut out), -2);
    assert_eq!(library::block_add_adu(&mut memory, 1, &long, &mut vec![0; 65_542]), -4);
}

/// ADUs of E - 3 and E - 2 bytes at both ends, for all sizes at their limits.
#[test]
fn longest_adus() {
    let random = &mut Random::new(8);
    for symbol_size in [4, 5, 64, 259, 1400, 1500] {
        let block = block(symbol_size, 2, 3);
        let mut encoders = Encoders::open(block, random);
        let (longest, longer) = (random.bytes(symbol_size - 3), random.bytes(symbol_size - 2));
        for _ in 0..20 {
            assert!([2, 4].contains(&encoders.add_adu(random, 1, &longer).unwrap_err()));
        }
        let packets = encoders.packets(random, &[(1, longest.clone()), (255, longest)]);
        let mut recoveries = Recoveries::open(block, random);
        assert_eq!(recoveries.receive(random, &(Some(1), block.source_packet(0, &longer))), Err(4));
        assert_eq!(recoveries.receive(random, &packets[0]), Ok((1, 0)));
        assert_eq!(recoveries.receive(random, &(Some(1), block.source_packet(0, &longer))), Err(4));
        assert_eq!(recoveries.receive(random, &packets[2]), Ok((1, 0)));
        shows(&mut recoveries, &encoders.reference.symbols);
    }
}

/// Receiving: 3, 2, 5, 18, 4, 11. Each packet breaks the rule named and all after it that it can. The symbol call: 3, 12.
#[test]
fn order_of_receiving() {
    let (size, work_size) = (SMALL.memory(), SMALL.working_memory());
    let (mut memory, mut work) = (vec![0; size], vec![0; work_size]);
    assert_eq!(library::block_receive_source(&mut memory, &mut [], 1, &[]), -3);
    assert_eq!(library::block_receive_repair(&mut memory, &mut [], &[]), -3);
    assert_eq!([library::block_symbol(&memory, 99), library::block_symbol_place(&memory, 99)], [-3; 2]);
    assert_eq!(library::block_open_recovery(&mut memory, 5, 2, 3, 9), 0);
    let source = |esi: usize, adu: &[u8]| SMALL.source_packet(esi, adu);
    let repair = |esi: usize, symbol: &[u8]| SMALL.repair_packet(esi, symbol);
    assert_eq!(library::block_receive_source(&mut memory, &mut work, 1, &source(0, &[7])), 1);
    let before = memory.clone();
    assert_eq!(library::block_receive_source(&mut memory[..size - 1], &mut [], 1, &[]), -3);
    assert_eq!(library::block_receive_source(&mut memory, &mut work[1..], 1, &[]), -2);
    assert_eq!(library::block_receive_repair(&mut memory, &mut work[1..], &[]), -2);
    for length in 0..6 {
        assert_eq!(library::block_receive_source(&mut memory, &mut work, 1, &vec![0; length]), -5);
    }
    for length in [0, 5, 6, 10, 12, 16, 6 + 5 * 16] {
        assert_eq!(library::block_receive_repair(&mut memory, &mut work, &vec![0; length]), -5);
    }
    assert_eq!(library::block_receive_source(&mut memory, &mut work, 1, &source(2, &[8; 3])), -18);
    assert_eq!(library::block_receive_source(&mut memory, &mut work, 1, &source(2, &[8; 2])), -18);
    assert_eq!(library::block_receive_source(&mut memory, &mut work, 1, &[0; 6]), -18);
    assert_eq!(library::block_receive_repair(&mut memory, &mut work, &repair(0, &[8; 5])), -18);
    assert_eq!(library::block_receive_repair(&mut memory, &mut work, &repair(3, &[8; 5])), -18);
    assert_eq!(library::block_receive_source(&mut memory, &mut work, 1, &source(0, &[8; 3])), -4);
    assert_eq!(library::block_receive_source(&mut memory, &mut work, 1, &source(0, &[8; 70_000])), -4);
    assert_eq!(library::block_receive_source(&mut memory, &mut work, 1, &source(0, &[8; 2])), -11);
    assert!(memory == before, "a refused packet changes nothing");
    let symbols: Vec<i64> = [0, 1, 2, 3, 256, 65_536, u32::MAX].iter().map(|&esi| library::block_symbol(&memory, esi)).collect();
    assert_eq!(symbols, [1 << 32, -12, -12, -12, -12, -12, -12]);
    assert!([1, 2, 256].iter().all(|&esi| library::block_symbol_place(&memory, esi) == -12));
    assert_eq!(library::block_receive_repair(&mut memory, &mut work, &repair(2, &[8; 5])), 1);
    assert_eq!(library::block_receive_source(&mut memory, &mut work, 1, &source(1, &[])), -11);
    assert_eq!(library::block_symbol(&memory, 1), 0);
}

/// The kinds of ends.
#[derive(Clone, Copy, Debug, PartialEq, Eq)]
enum Kind {
    Sender,
    Receiver,
    Encoder,
    Recovery,
}

const KINDS: [Kind; 4] = [Kind::Sender, Kind::Receiver, Kind::Encoder, Kind::Recovery];

impl Kind {
    /// Opens an end of this kind in the memory: width or k 3, and E 5.
    fn open(self, memory: &mut [u8]) {
        let answer = match self {
            Kind::Sender => library::sender_open(memory, 10, 5, 3, &library::ALL),
            Kind::Receiver => library::receiver_open(memory, 10, 5, 3, &library::ALL),
            Kind::Encoder => library::block_open_encoder(memory, 5, 3, 5, 0),
            Kind::Recovery => library::block_open_recovery(memory, 5, 3, 5, 0),
        };
        assert_eq!(answer, 0);
    }

    /// What all calls of this kind of end answer on some memory. The packets are good ones for such an end.
    fn calls(self, memory: &mut [u8], work: &mut [u8], out: &mut [u8]) -> Vec<i64> {
        let source = [7, 7, 0, 0, 0, 0];
        let repair = [0, 1, 0xf0, 3, 0, 0, 0, 0, 1, 2, 3, 4, 5];
        let (block_source, block_repair) = ([7, 7, 0, 0, 0, 1, 0, 3], [0, 0, 0, 4, 0, 3, 1, 2, 3, 4, 5]);
        match self {
            Kind::Sender => vec![library::add_adu(memory, 1, &[7, 7], out), library::make_repair(memory, 1, 15, 1, out)],
            Kind::Receiver => vec![
                library::receive_source(memory, work, 1, &source),
                library::receive_repair(memory, work, &repair),
                library::symbol(memory, 0),
                library::symbol_place(memory, 0),
                library::adu(memory, 0, out),
            ],
            Kind::Encoder => vec![
                library::block_add_adu(memory, 1, &[7, 7], out),
                library::block_add_adu(memory, 1, &[7, 7], out),
                library::block_add_adu(memory, 1, &[7, 7], out),
                library::block_make_repair(memory, 3, out),
            ],
            Kind::Recovery => vec![
                library::block_receive_source(memory, work, 1, &block_source),
                library::block_receive_repair(memory, work, &block_repair),
                library::block_symbol(memory, 1),
                library::block_symbol_place(memory, 1),
            ],
        }
    }

    /// The bytes that such an end needs.
    fn size(self) -> usize {
        (if self == Kind::Sender { library::sender_memory(5, 3) } else { library::receiver_memory(5, 3) }) as usize
    }
}

/// All calls of these kinds say 3 on this memory, and change nothing.
fn unopened(kinds: impl IntoIterator<Item = Kind>, content: &[u8]) {
    for kind in kinds {
        let (mut memory, mut work, mut out) = (Lent::new(content), Lent::new(&[5; 300]), Lent::new(&[6; 100]));
        let answers = kind.calls(memory.lend(), work.lend(), out.lend());
        assert!(answers.iter().all(|&answer| answer == -3), "calls of {kind:?}: {answers:?}");
        assert!(memory.get() == content && work.get() == [5; 300] && out.get() == [6; 100], "calls of {kind:?} changed something");
        memory.check();
        work.check();
        out.check();
    }
}

/// Each kind of end's memory is 3 to the calls of the other three, fresh and used, also where it is longer than needed; cut short, and all
/// zero, to all calls. Opened as another kind it is that kind alone.
#[test]
fn memories_of_all_kinds() {
    for length in [0, 1, 8, 95, 96, 200, 2000] {
        unopened(KINDS, &vec![0; length]);
    }
    for kind in KINDS {
        for more in [0, 50] {
            let mut memory = vec![9; 300];
            memory.truncate(kind.size() + more);
            kind.open(&mut memory);
            for _ in 0..2 {
                unopened(KINDS.into_iter().filter(|&other| other != kind), &memory);
                for length in [0, 1, 7, 8, 31, 32, 63, 64, kind.size() - 1] {
                    unopened(KINDS, &memory[..length]);
                }
                let past = memory[kind.size()..].to_vec();
                let answers = kind.calls(&mut memory, &mut [0; 300], &mut [0; 100]);
                assert!(answers.iter().all(|&answer| answer >= 0), "{kind:?}: {answers:?}");
                assert!(memory[kind.size()..] == past);
                if kind == Kind::Encoder {
                    break;
                }
            }
            unopened(KINDS.into_iter().filter(|&other| other != kind), &memory);
            for next in KINDS {
                let mut memory = [&memory[..], &[3; 300]].concat();
                next.open(&mut memory);
                unopened(KINDS.into_iter().filter(|&other| other != next), &memory);
                let answers = next.calls(&mut memory, &mut [0; 300], &mut [0; 100]);
                assert!(answers.iter().all(|&answer| answer >= 0), "{kind:?} as {next:?}: {answers:?}");
            }
        }
    }
}

/// Opened again, with other values, an end is fresh: no ADU of before is in its repair symbols, and no symbol of before is known.
#[test]
fn opening_again() {
    runs(60, |seed| {
        let random = &mut Random::new(seed);
        let mut memory = Vec::new();
        for _ in 0..4 {
            let block = any_block(random, 12, 20);
            let rlc8681::Block { symbol_size, k, total, number } = safe(block);
            memory.resize(memory.len().max(block.memory()), 0);
            let (packets, symbols) = encoded(random, block);
            assert_eq!(library::block_open_recovery(&mut memory, symbol_size, k, total, number), 0);
            assert!((0..300).all(|esi| library::block_symbol(&memory, esi) == -12));
            let mut work = vec![0; block.working_memory()];
            let mut esis = shuffled(random, block.total);
            esis.truncate(random.between(0, block.total));
            for &esi in &esis {
                let answer = match &packets[esi] {
                    (Some(flow), packet) => library::block_receive_source(&mut memory, &mut work, *flow, packet),
                    (None, packet) => library::block_receive_repair(&mut memory, &mut work, packet),
                };
                assert!(answer >= 0);
            }
            for esi in 0..block.k {
                let expected = match esis.contains(&esi) {
                    true => 1 << 32,
                    false if esis.len() >= block.k => 0,
                    false => -12,
                };
                assert_eq!(library::block_symbol(&memory, esi as u32), expected, "nothing that was heard before is heard now");
            }
            assert_eq!(library::block_open_encoder(&mut memory, symbol_size, k, total, number), 0);
            let mut out = vec![0; 6 + block.symbol_size];
            if total > k {
                assert_eq!(library::block_make_repair(&memory, k, &mut out), -7);
            }
            for (symbol, (flow, packet)) in symbols.iter().zip(&packets) {
                let adu = &packet[..packet.len() - 6];
                assert_eq!(library::block_add_adu(&mut memory, flow.unwrap(), adu, &mut out), packet.len() as i64, "{symbol:?}");
            }
            for (esi, (_, packet)) in packets.iter().enumerate().skip(block.k) {
                assert_eq!(library::block_make_repair(&memory, esi as u32, &mut out), packet.len() as i64);
                assert!(out == *packet);
            }
        }
    });
}

/// Any block: mostly small, now and then at the ends of its ranges.
fn any_block(random: &mut Random, most: usize, longest: usize) -> Block {
    let k = match random.below(40) {
        0..=27 => random.between(1, 6),
        28..=37 => random.between(1, 40),
        _ => random.one_of(&[1, 2, 64, 128, 254, 255]),
    };
    let k = k.min(most);
    let total = match random.below(10) {
        0 => k,
        1 => 255,
        _ => random.between(k, (k + 6).min(255)),
    };
    let symbol_size = match random.below(20) {
        0..=14 => random.between(4, 12),
        15..=17 => random.between(4, 64),
        _ => random.one_of(&[4, 5, 1400, 1499, 1500]),
    };
    let number = if random.chance(30) { random.one_of(&[0, 1, 0xff, 0x100, 0xff_ff, 0xff_ff_ff]) } else { random.below(1 << 24) as u32 };
    Block { symbol_size: symbol_size.min(longest), k, total, number }
}

/// Damage on the way: bytes changed, cut off or added, another flow, or the other kind of packet.
fn damaged(random: &mut Random, (mut flow, mut packet): Packet) -> Packet {
    match random.below(8) {
        0 => packet.truncate(random.between(0, packet.len())),
        1 => packet.splice(0..0, vec![random.byte(); random.between(1, 3)]).for_each(drop),
        2 => flow = flow.map(|flow| flow ^ random.byte()),
        3 => flow = if flow.is_some() { None } else { Some(random.byte()) },
        _ => {
            let at = random.below(packet.len() as u64) as usize;
            packet[at] ^= if random.chance(50) { 1 << random.below(8) } else { random.byte() };
        }
    }
    (flow, packet)
}

/// Packets of one block in any order, with repeats, damage, packets of a block that is like it but for its ADUs, and packets of others.
#[test]
fn random_runs() {
    let mut tally = Tally::default();
    runs(1500, |seed| {
        let random = &mut Random::new(seed);
        let block = any_block(random, 255, 1500);
        let (own, _) = encoded(random, block);
        let (twin, _) = encoded(random, block);
        let other = Block { number: random.below(1 << 24) as u32, ..block };
        let (strange, _) = encoded(random, other);
        let [twins, strangers, damage, repeats] = [[0, 0, 5], [0, 5, 20], [0, 5, 15], [0, 10, 30]].map(|list| random.one_of(&list));
        let mut recoveries = Recoveries::open(block, random);
        let mut past: Vec<Packet> = Vec::new();
        let packets = if block.k * block.symbol_size > 20_000 { block.k / 4 + 4 } else { block.k + random.between(1, 20) };
        recoveries.look_around();
        for _ in 0..packets {
            let esi = random.between(0, block.total.min(block.k + 8) - 1);
            let packet = match random.below(100) {
                p if p < twins => twin[esi].clone(),
                p if p < twins + strangers => strange[esi].clone(),
                p if p < twins + strangers + repeats && !past.is_empty() => past[random.below(past.len() as u64) as usize].clone(),
                _ => own[esi].clone(),
            };
            let packet = if random.chance(damage) { damaged(random, packet) } else { packet };
            if recoveries.receive(random, &packet).is_ok() && past.len() < 20 {
                past.push(packet);
            }
            if random.chance(if block.k * block.symbol_size > 2000 { 3 } else { 50 }) {
                recoveries.look_around();
            }
        }
        recoveries.look_around();
        tally.add(&recoveries.tally);
    });
    tally.met(&[4, 5, 11, 18]);
}

/// Encoders in random calls: ADUs of any length and repair for any ESI, before the k-th ADU and after it.
#[test]
fn random_encoders() {
    // By refusal, place 0 for packets written: of ADUs, and of repair calls
    let mut answers = [[0; 19]; 2];
    runs(400, |seed| {
        let random = &mut Random::new(seed);
        let block = any_block(random, 64, 100);
        let mut encoders = Encoders::open(block, random);
        for _ in 0..2 * block.k + 12 {
            let place = |answer: Result<Vec<u8>, u32>| answer.map_or_else(|number| number as usize, |_| 0);
            if random.chance(60) {
                let length = if random.chance(20) { block.longest() + random.between(1, 9) } else { random.between(0, block.longest()) };
                let (flow, adu) = (random.byte(), random.bytes(length));
                answers[0][place(encoders.add_adu(random, flow, &adu))] += 1;
            } else {
                let near = random.between(block.k.saturating_sub(2), block.total + 2) as u32;
                let esi = if random.chance(80) { near } else { random.one_of(&[0, 255, 256, near + 256, near + 65_536, u32::MAX]) };
                answers[1][place(encoders.make_repair(random, esi))] += 1;
            }
        }
    });
    if std::env::var_os("RLC8681_SEED").is_none() {
        assert!([0, 2, 4, 18].iter().all(|&number| answers[0][number] > 100), "ADUs {:?}", answers[0]);
        assert!([0, 2, 7, 18].iter().all(|&number| answers[1][number] > 100), "repair {:?}", answers[1]);
    }
}
