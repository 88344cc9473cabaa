//! Memory that the calls did not leave so: all zero, of another kind of end, too short, junk, and states with bytes changed. A call ends,
//! stays within what it is lent, and a refusal changes nothing.

mod library;
mod reference;

use library::pair::{Receivers, Senders};
use library::{flows_of_receiver, flows_of_sender, runs, Lent};
use reference::block::Block;
use reference::random::Random;
use reference::{repair_packet, source_packet, Flows, Setting};

/// Any packet, mostly of a form that fits the setting.
fn packet(random: &mut Random, setting: Setting, source: bool) -> Vec<u8> {
    let near = random.below(2 * setting.width as u64 + 4);
    let position = if random.chance(80) { near } else { random.next() };
    if random.chance(10) {
        let length = random.between(0, 60);
        random.bytes(length)
    } else if source {
        let length = random.between(0, setting.width * setting.symbol_size - 3);
        source_packet(&random.bytes(length), position)
    } else {
        let symbols = (0..random.between(1, 4)).map(|_| random.bytes(setting.symbol_size)).collect::<Vec<_>>();
        let nss = random.between(1, setting.width) as u16;
        repair_packet(random.next() as u16, random.below(16) as u8, nss, position, &symbols)
    }
}

/// The same of a block, whose number is 0 and whose k is the width.
fn block_packet(random: &mut Random, setting: Setting, source: bool) -> Vec<u8> {
    let block = Block { symbol_size: setting.symbol_size, k: setting.width, total: 255, number: 0 };
    let most = random.one_of(&[setting.width - 1, setting.width + 2, 255]);
    let (length, esi) = (random.between(0, block.longest() + 1), random.between(0, most));
    if random.chance(10) {
        random.bytes(length)
    } else if source {
        block.source_packet(esi, &random.bytes(length))
    } else {
        block.repair_packet(esi, &random.bytes(setting.symbol_size))
    }
}

/// The setting that a header names, and the size of the end that it opens; of any other memory, whatever stands there.
fn header_of(memory: &[u8]) -> (Setting, usize) {
    let [kind, scheme, symbol_size, width] = [0, 2, 4, 6].map(|at| usize::from(u16::from_be_bytes([memory[at], memory[at + 1]])));
    let setting = Setting { scheme: scheme as u32, symbol_size, width };
    (setting, if kind == 1 { setting.sender_memory() } else { setting.receiver_memory() })
}

/// Makes every call on this memory. With `refusal`, each must give it; else any answer in range will do.
fn call_all(random: &mut Random, setting: Setting, content: &[u8], refusal: Option<i64>) {
    for call in 0..13 {
        let mut memory = Lent::new(content);
        let work_len = setting.working_memory() + random.between(0, 9);
        let mut work = Lent::new(&random.bytes(work_len));
        let out_len = random.between(0, 16 * setting.symbol_size + 40);
        let out_before = random.bytes(out_len);
        let mut out = Lent::new(&out_before);
        let work_before = work.get().to_vec();
        let flow = random.byte();
        let esi = if random.chance(90) { random.below(2 * setting.width as u64 + 2) as u32 } else { random.next() as u32 };
        let (key, dt, count) = (random.next() as u16, random.below(17) as u32, random.between(0, 17) as u32);
        let bytes = if call < 7 { packet(random, setting, call != 1) } else { block_packet(random, setting, call != 8) };
        let answer = match call {
            0 => library::receive_source(memory.lend(), work.lend(), flow, &bytes),
            1 => library::receive_repair(memory.lend(), work.lend(), &bytes),
            2 => library::symbol(memory.get(), esi),
            3 => library::symbol_place(memory.get(), esi),
            4 => library::adu(memory.get(), esi, out.lend()),
            5 => library::add_adu(memory.lend(), flow, &bytes, out.lend()),
            6 => library::make_repair(memory.get(), key, dt, count, out.lend()),
            7 => library::block_receive_source(memory.lend(), work.lend(), flow, &bytes),
            8 => library::block_receive_repair(memory.lend(), work.lend(), &bytes),
            9 => library::block_symbol(memory.get(), esi),
            10 => library::block_symbol_place(memory.get(), esi),
            11 => library::block_add_adu(memory.lend(), flow, &bytes, out.lend()),
            _ => library::block_make_repair(memory.get(), esi, out.lend()),
        };
        // Each end's memory is another kind of end's for the calls of the others
        if let Some(refusal) = refusal {
            assert_eq!(answer, refusal, "call {call}");
            assert!(work.get() == work_before, "working memory after refusal 3, call {call}");
        }
        assert!(answer >= -18 && ![-15, -17].contains(&answer), "call {call} answered {answer}");
        memory.check();
        work.check();
        out.check();
        if answer < 0 || [2, 3, 4, 6, 9, 10, 12].contains(&call) {
            assert!(memory.get() == content, "call {call} changed the memory");
        }
        if answer < 0 {
            assert!(out.get() == out_before, "call {call} refused and wrote output");
            continue;
        }
        let (value, beside) = library::parts(answer);
        let (most, most_beside) = match call {
            0 | 7 | 8 => (65_535, 0),
            1 => (65_535, 69_360),
            2 | 9 => (0, 1),
            6 => (8 + 16 * 1500, 69_360),
            _ => (255 * 65_536 + 65_535, 0),
        };
        assert!(value <= most && beside <= most_beside, "call {call} answered {value} and {beside} beside it");
        let (header, size) = header_of(content);
        assert!(size <= content.len(), "call {call} worked on memory that is too short");
        assert!(memory.get()[size..] == content[size..], "call {call} wrote past the size");
        if [0, 1, 7, 8].contains(&call) {
            let size = header.working_memory();
            assert!(size <= work_before.len() && work.get()[size..] == work_before[size..], "call {call} wrote past the working memory");
        }
        let written = match call {
            3 | 10 => {
                assert!(value + header.symbol_size <= size, "a symbol outside the memory");
                0
            }
            4 => value % 65_536,
            5 | 6 | 11 | 12 => value,
            _ => 0,
        };
        assert!(out.get()[written..] == out_before[written..], "call {call} wrote past its output");
    }
}

fn setting(random: &mut Random) -> Setting {
    let width = if random.chance(90) { random.between(1, 12) } else { random.between(1, 255) };
    let symbol_size = match random.below(100) {
        0..=89 => random.between(4, 20),
        90..=95 => random.between(4, 300),
        96..=97 => random.between(4, 1500),
        _ => random.one_of(&[1400, 1499, 1500]),
    };
    Setting { scheme: 9 + random.below(2) as u32, symbol_size, width }
}

/// Flows that an end may announce, 1 among them.
fn flows(random: &mut Random) -> Flows {
    let count = random.between(0, 300);
    let list = [random.bytes(count), vec![1]].concat();
    if random.chance(30) {
        Flows::all()
    } else {
        Flows::only(&list)
    }
}

/// A sender's and a receiver's memory after some packets of flow 1, which both announce among others.
fn used(random: &mut Random, setting: Setting) -> (Vec<u8>, Vec<u8>) {
    let flows = [flows(random), flows(random)];
    used_with(random, setting, flows)
}

/// The same where the two ends announce these.
fn used_with(random: &mut Random, setting: Setting, flows: [Flows; 2]) -> (Vec<u8>, Vec<u8>) {
    let mut sender = vec![0; setting.sender_memory()];
    let mut receiver = vec![0; setting.receiver_memory()];
    let mut work = vec![0; setting.working_memory()];
    let (e, w) = (setting.symbol_size as u32, setting.width as u32);
    assert_eq!(library::sender_open(&mut sender, setting.scheme, e, w, &flows[0].bytes()), 0);
    assert_eq!(library::receiver_open(&mut receiver, setting.scheme, e, w, &flows[1].bytes()), 0);
    let mut out = vec![0; setting.width * setting.symbol_size + 17 * setting.symbol_size];
    for _ in 0..random.between(0, 12) {
        let length = random.between(0, 2 * setting.symbol_size);
        let adu = random.bytes(length);
        let written = library::add_adu(&mut sender, 1, &adu, &mut out);
        if written >= 0 && random.chance(60) {
            library::receive_source(&mut receiver, &mut work, 1, &out[..written as usize]);
        }
        let made = library::make_repair(&sender, random.next() as u16, random.below(16) as u32, 1, &mut out);
        if made >= 0 && random.chance(60) {
            let (written, draws) = library::parts(made);
            let received = library::receive_repair(&mut receiver, &mut work, &out[..written]);
            assert!(received < 0 || library::parts(received).1 == draws, "the draws at both ends");
        }
    }
    (sender, receiver)
}

/// An encoder's and a recovery's memory after some packets.
fn used_block(random: &mut Random, setting: Setting) -> (Vec<u8>, Vec<u8>) {
    let size = setting.receiver_memory();
    let (mut encoder, mut recovery, mut work) = (vec![0; size], vec![0; size], vec![0; setting.working_memory()]);
    let (e, k) = (setting.symbol_size as u32, setting.width as u32);
    assert_eq!(library::block_open_encoder(&mut encoder, e, k, 255, 0), 0);
    assert_eq!(library::block_open_recovery(&mut recovery, e, k, 255, 0), 0);
    let mut out = vec![0; setting.symbol_size + 6];
    let adus = if random.chance(60) { setting.width } else { random.between(0, setting.width) };
    for _ in 0..adus {
        let length = random.between(0, setting.symbol_size - 3);
        let written = library::block_add_adu(&mut encoder, 1, &random.bytes(length), &mut out);
        assert_eq!(written, length as i64 + 6);
        if random.chance(60) {
            library::block_receive_source(&mut recovery, &mut work, 1, &out[..length + 6]);
        }
    }
    for esi in (k..255).take(random.between(0, 12)) {
        let made = library::block_make_repair(&encoder, esi, &mut out);
        assert_eq!(made, if adus < setting.width { -7 } else { out.len() as i64 });
        if made >= 0 {
            assert!(library::block_receive_repair(&mut recovery, &mut work, &out) >= 0);
        }
    }
    (encoder, recovery)
}

/// All zero, and every memory that is too short for any setting, is refused (3) by every call.
#[test]
fn zero_and_short_memory() {
    let random = &mut Random::new(1);
    for length in (0..200).chain([1000, 5000]) {
        let setting = setting(random);
        call_all(random, setting, &vec![0; length], Some(-3));
    }
    for length in 0..68 {
        // A sender needs 68 bytes at least
        let setting = setting(random);
        let junk = random.bytes(length);
        call_all(random, setting, &junk, Some(-3));
    }
}

/// An end's memory is refused by the other end's calls, and by its own where it is lent too short.
#[test]
fn memory_of_the_other_end() {
    runs(300, |seed| {
        let random = &mut Random::new(seed);
        let setting = setting(random);
        let (sender, receiver) = used(random, setting);
        let (mut s, mut r) = (sender.clone(), receiver.clone());
        let (mut work, mut out) = (vec![0; setting.working_memory()], vec![0; 5000]);
        let bytes = packet(random, setting, true);
        assert_eq!(library::receive_source(&mut s, &mut work, 1, &bytes), -3);
        assert_eq!(library::receive_repair(&mut s, &mut work, &bytes), -3);
        let calls = [library::symbol(&s, 0), library::symbol_place(&s, 0), library::adu(&s, 0, &mut out)];
        assert_eq!(calls, [-3; 3]);
        assert_eq!(library::add_adu(&mut r, 1, &bytes, &mut out), -3);
        assert_eq!(library::make_repair(&r, 0, 15, 1, &mut out), -3);
        assert!(s == sender && r == receiver);
        let short = random.between(0, sender.len() - 1);
        call_all(random, setting, &sender[..short], Some(-3));
        let short = random.between(0, receiver.len() - 1);
        call_all(random, setting, &receiver[..short], Some(-3));
    });
}

/// Junk, and states with some bytes changed, mostly of the header, where the first bytes lie, and some bytes more lent than the size.
#[test]
fn junk_memory() {
    runs(3000, |seed| {
        let random = &mut Random::new(seed);
        let setting = setting(random);
        let mut content = match random.below(12) {
            0 => {
                let length = random.between(0, 3000);
                random.bytes(length)
            }
            1..=2 => used(random, setting).0,
            3..=7 => used(random, setting).1,
            8 => used_block(random, setting).0,
            _ => used_block(random, setting).1,
        };
        if random.chance(60) {
            let more = random.between(1, 100);
            content.extend(random.bytes(more));
        }
        for _ in 0..random.between(0, 12) {
            if !content.is_empty() {
                let front = if random.chance(50) { content.len().min(96) } else { content.len() };
                let at = random.below(front as u64) as usize;
                content[at] = match random.below(4) {
                    0 => 0,
                    1 => random.below(4) as u8,
                    2 => 255,
                    _ => random.byte(),
                };
            }
        }
        call_all(random, setting, &content, None);
    });
}

/// Opening takes memory with any content, an opened one too, and gives a fresh end, which announces what this opening says.
#[test]
fn opening_again() {
    runs(100, |seed| {
        let random = &mut Random::new(seed);
        let old = setting(random);
        let new = setting(random);
        let flows = [flows(random), flows(random)];
        let (sender, receiver) = used(random, old);
        let (e, w) = (new.symbol_size as u32, new.width as u32);
        for mut memory in [sender, receiver] {
            memory.resize(memory.len().max(new.receiver_memory()) + 5, 3);
            let past = memory[new.receiver_memory()..].to_vec();
            assert_eq!(library::receiver_open(&mut memory, new.scheme, e, w, &flows[0].bytes()), 0);
            assert!(memory[new.receiver_memory()..] == past);
            let mut work = vec![0; new.working_memory()];
            assert_eq!(flows_of_receiver(&mut memory, &mut work), flows[0].list());
            for esi in (0..=new.width as u32).chain([1 << 31, u32::MAX, random.next() as u32]) {
                let calls = [library::symbol(&memory, esi), library::symbol_place(&memory, esi), library::adu(&memory, esi, &mut [])];
                assert_eq!(calls, [-12; 3], "ESI {esi}");
            }
            // Nothing that was heard before is heard now: a repair packet over each position alone solves it
            for esi in 0..new.width as u32 {
                let repair = repair_packet(1, 15, 1, u64::from(esi), &[random.bytes(new.symbol_size)]);
                assert_eq!(library::parts(library::receive_repair(&mut memory, &mut work, &repair)).0, 1);
                assert_eq!(library::symbol(&memory, esi), 0, "ESI {esi}");
            }
            let past = memory[new.sender_memory()..].to_vec();
            assert_eq!(library::sender_open(&mut memory, new.scheme, e, w, &flows[1].bytes()), 0);
            assert!(memory[new.sender_memory()..] == past);
            assert_eq!(flows_of_sender(&mut memory), flows[1].list());
            assert_eq!(library::make_repair(&memory, 0, 15, 1, &mut [0; 2000]), -7);
        }
    });
}

/// The flows stand in an end's memory, bytes 32 to 63, from its opening on and through every call, whatever becomes of the bytes that the
/// opening read; and they are read there alone: with other flows in these bytes an end announces those, whatever the rest of the memory holds.
#[test]
fn flows_in_memory() {
    runs(100, |seed| {
        let random = &mut Random::new(seed);
        let setting = setting(random);
        let [ours, theirs, others] = [flows(random), flows(random), flows(random)];
        let (mut sender, mut receiver) = used_with(random, setting, [ours, theirs]);
        assert_eq!((&sender[32..64], &receiver[32..64]), (&ours.bytes()[..], &theirs.bytes()[..]));
        let mut work = vec![0; setting.working_memory()];
        assert_eq!((flows_of_sender(&mut sender), flows_of_receiver(&mut receiver, &mut work)), (ours.list(), theirs.list()));
        for memory in [&mut sender, &mut receiver] {
            memory[32..64].copy_from_slice(&others.bytes());
            let rest = random.bytes(memory.len() - 64);
            memory[64..].copy_from_slice(&rest);
            memory[16..32].copy_from_slice(&random.bytes(16));
        }
        assert_eq!((flows_of_sender(&mut sender), flows_of_receiver(&mut receiver, &mut work)), (others.list(), others.list()));
    });
}

/// Opening reads 32 bytes and writes none of them, and a change to them after it changes nothing.
#[test]
fn flows_that_are_lent() {
    let random = &mut Random::new(9);
    for setting in [1, 2, 9].map(|width| Setting { scheme: 9, symbol_size: 4, width }) {
        let (e, w) = (setting.symbol_size as u32, setting.width as u32);
        for announced in [Flows::all(), Flows::none(), Flows::only(&[0, 7, 8, 255]), flows(random)] {
            let mut lent = Lent::new(&announced.bytes());
            let (mut sender, mut receiver) = (vec![0; setting.sender_memory()], vec![0; setting.receiver_memory()]);
            let mut work = vec![0; setting.working_memory()];
            assert_eq!(library::sender_open(&mut sender, 9, e, w, lent.get().try_into().unwrap()), 0);
            assert_eq!(library::receiver_open(&mut receiver, 9, e, w, lent.get().try_into().unwrap()), 0);
            assert_eq!(lent.get(), announced.bytes());
            lent.check();
            lent.lend().iter_mut().for_each(|byte| *byte = !*byte);
            assert_eq!((flows_of_sender(&mut sender), flows_of_receiver(&mut receiver, &mut work)), (announced.list(), announced.list()));
        }
    }
}

/// A refused call on a good state changes nothing at all, and bytes past the sizes stay through a whole run.
#[test]
fn good_memory_stays_good() {
    runs(60, |seed| {
        let random = &mut Random::new(seed);
        let setting = setting(random);
        let announced = [flows(random), flows(random)];
        let mut senders = Senders::open_with(setting, announced[0], random);
        let mut receivers = Receivers::open_with(setting, announced[1], random);
        for _ in 0..40 {
            let adu = packet(random, setting, false);
            let flow = random.one_of(&[1, 3, 255]);
            let _ = senders.add_adu(random, flow, &adu);
            let bytes = packet(random, setting, true);
            let _ = receivers.receive(random, Some(flow), &bytes);
            let bytes = packet(random, setting, false);
            let _ = receivers.receive(random, None, &bytes);
        }
        receivers.look_around(random);
        let kept = [&senders.memory, &receivers.memory].map(|memory| memory.get()[32..64].to_vec());
        assert_eq!(kept, announced.map(|flows| flows.bytes().to_vec()));
    });
}
