//! The library's C interface as the tests use it, on lent memory with guards around it.
#![allow(dead_code)]

pub mod blocks;
pub mod pair;
pub mod program;
pub mod stream;

// The crate's own link to the library serves these declarations too.
use rlc8681 as _;
use std::fs::{self, File};
use std::io::{Seek, Write};
use std::path::Path;

mod raw {
    extern "C" {
        pub fn rlc_sender_memory(symbol_size: u32, width: u32) -> i64;
        pub fn rlc_receiver_memory(symbol_size: u32, width: u32) -> i64;
        pub fn rlc_working_memory(symbol_size: u32, width: u32) -> i64;
        pub fn rlc_dw_max_size(budget: u64, bitrate: u64, symbol_size: u32, remainder: *mut u64) -> i64;
        pub fn rlc_interleave(taken: *const u8, len: usize, symbol_size: u32, rows: u32, columns: u32, out: *mut u8, out_len: usize)
            -> i64;
        pub fn rlc_deinterleave(
            sent: *const u8,
            len: usize,
            symbol_size: u32,
            rows: u32,
            columns: u32,
            out: *mut u8,
            out_len: usize,
        ) -> i64;
        pub fn rlc_announce(flows: *mut u8, flow: u8);
        pub fn rlc_announce_all(flows: *mut u8);
        pub fn rlc_sender_open(memory: *mut u8, len: usize, scheme: u32, symbol_size: u32, width: u32, flows: *const u8) -> i64;
        pub fn rlc_sender_add_adu(
            memory: *mut u8,
            len: usize,
            flow: u8,
            adu: *const u8,
            adu_len: usize,
            out: *mut u8,
            out_len: usize,
        ) -> i64;
        pub fn rlc_sender_make_repair(memory: *const u8, len: usize, key: u16, dt: u32, count: u32, out: *mut u8, out_len: usize) -> i64;
        pub fn rlc_receiver_open(memory: *mut u8, len: usize, scheme: u32, symbol_size: u32, width: u32, flows: *const u8) -> i64;
        pub fn rlc_receive_source(
            memory: *mut u8,
            len: usize,
            work: *mut u8,
            work_len: usize,
            flow: u8,
            packet: *const u8,
            packet_len: usize,
        ) -> i64;
        pub fn rlc_receive_repair(memory: *mut u8, len: usize, work: *mut u8, work_len: usize, packet: *const u8, packet_len: usize)
            -> i64;
        pub fn rlc_symbol(memory: *const u8, len: usize, esi: u32) -> i64;
        pub fn rlc_symbol_place(memory: *const u8, len: usize, esi: u32) -> i64;
        pub fn rlc_adu(memory: *const u8, len: usize, esi: u32, out: *mut u8, out_len: usize) -> i64;
        pub fn rlc_block_open_encoder(memory: *mut u8, len: usize, symbol_size: u32, k: u32, total: u32, block: u32) -> i64;
        pub fn rlc_block_open_recovery(memory: *mut u8, len: usize, symbol_size: u32, k: u32, total: u32, block: u32) -> i64;
        pub fn rlc_block_add_adu(
            memory: *mut u8,
            len: usize,
            flow: u8,
            adu: *const u8,
            adu_len: usize,
            out: *mut u8,
            out_len: usize,
        ) -> i64;
        pub fn rlc_block_make_repair(memory: *const u8, len: usize, esi: u32, out: *mut u8, out_len: usize) -> i64;
        pub fn rlc_block_receive_source(
            memory: *mut u8,
            len: usize,
            work: *mut u8,
            work_len: usize,
            flow: u8,
            packet: *const u8,
            packet_len: usize,
        ) -> i64;
        pub fn rlc_block_receive_repair(
            memory: *mut u8,
            len: usize,
            work: *mut u8,
            work_len: usize,
            packet: *const u8,
            packet_len: usize,
        ) -> i64;
        pub fn rlc_block_symbol(memory: *const u8, len: usize, esi: u32) -> i64;
        pub fn rlc_block_symbol_place(memory: *const u8, len: usize, esi: u32) -> i64;
    }
}

// Each function below lends slices that nobody else holds during the call, which is all that the interface asks.

pub fn sender_memory(symbol_size: u32, width: u32) -> i64 {
    unsafe { raw::rlc_sender_memory(symbol_size, width) }
}

pub fn receiver_memory(symbol_size: u32, width: u32) -> i64 {
    unsafe { raw::rlc_receiver_memory(symbol_size, width) }
}

pub fn working_memory(symbol_size: u32, width: u32) -> i64 {
    unsafe { raw::rlc_working_memory(symbol_size, width) }
}

pub fn dw_max_size(budget: u64, bitrate: u64, symbol_size: u32, remainder: &mut u64) -> i64 {
    unsafe { raw::rlc_dw_max_size(budget, bitrate, symbol_size, remainder) }
}

pub fn interleave(taken: &[u8], symbol_size: u32, rows: u32, columns: u32, out: &mut [u8]) -> i64 {
    unsafe { raw::rlc_interleave(taken.as_ptr(), taken.len(), symbol_size, rows, columns, out.as_mut_ptr(), out.len()) }
}

pub fn deinterleave(sent: &[u8], symbol_size: u32, rows: u32, columns: u32, out: &mut [u8]) -> i64 {
    unsafe { raw::rlc_deinterleave(sent.as_ptr(), sent.len(), symbol_size, rows, columns, out.as_mut_ptr(), out.len()) }
}

/// The bytes that announce every flow.
pub const ALL: [u8; 32] = [255; 32];

pub fn announce(flows: &mut [u8; 32], flow: u8) {
    unsafe { raw::rlc_announce(flows.as_mut_ptr(), flow) }
}

pub fn announce_all(flows: &mut [u8; 32]) {
    unsafe { raw::rlc_announce_all(flows.as_mut_ptr()) }
}

pub fn sender_open(memory: &mut [u8], scheme: u32, symbol_size: u32, width: u32, flows: &[u8; 32]) -> i64 {
    unsafe { raw::rlc_sender_open(memory.as_mut_ptr(), memory.len(), scheme, symbol_size, width, flows.as_ptr()) }
}

pub fn add_adu(memory: &mut [u8], flow: u8, adu: &[u8], out: &mut [u8]) -> i64 {
    unsafe { raw::rlc_sender_add_adu(memory.as_mut_ptr(), memory.len(), flow, adu.as_ptr(), adu.len(), out.as_mut_ptr(), out.len()) }
}

pub fn make_repair(memory: &[u8], key: u16, dt: u32, count: u32, out: &mut [u8]) -> i64 {
    unsafe { raw::rlc_sender_make_repair(memory.as_ptr(), memory.len(), key, dt, count, out.as_mut_ptr(), out.len()) }
}

pub fn receiver_open(memory: &mut [u8], scheme: u32, symbol_size: u32, width: u32, flows: &[u8; 32]) -> i64 {
    unsafe { raw::rlc_receiver_open(memory.as_mut_ptr(), memory.len(), scheme, symbol_size, width, flows.as_ptr()) }
}

pub fn receive_source(memory: &mut [u8], work: &mut [u8], flow: u8, packet: &[u8]) -> i64 {
    unsafe {
        raw::rlc_receive_source(memory.as_mut_ptr(), memory.len(), work.as_mut_ptr(), work.len(), flow, packet.as_ptr(), packet.len())
    }
}

pub fn receive_repair(memory: &mut [u8], work: &mut [u8], packet: &[u8]) -> i64 {
    unsafe { raw::rlc_receive_repair(memory.as_mut_ptr(), memory.len(), work.as_mut_ptr(), work.len(), packet.as_ptr(), packet.len()) }
}

pub fn symbol(memory: &[u8], esi: u32) -> i64 {
    unsafe { raw::rlc_symbol(memory.as_ptr(), memory.len(), esi) }
}

pub fn symbol_place(memory: &[u8], esi: u32) -> i64 {
    unsafe { raw::rlc_symbol_place(memory.as_ptr(), memory.len(), esi) }
}

pub fn adu(memory: &[u8], esi: u32, out: &mut [u8]) -> i64 {
    unsafe { raw::rlc_adu(memory.as_ptr(), memory.len(), esi, out.as_mut_ptr(), out.len()) }
}

pub fn block_open_encoder(memory: &mut [u8], symbol_size: u32, k: u32, total: u32, block: u32) -> i64 {
    unsafe { raw::rlc_block_open_encoder(memory.as_mut_ptr(), memory.len(), symbol_size, k, total, block) }
}

pub fn block_open_recovery(memory: &mut [u8], symbol_size: u32, k: u32, total: u32, block: u32) -> i64 {
    unsafe { raw::rlc_block_open_recovery(memory.as_mut_ptr(), memory.len(), symbol_size, k, total, block) }
}

pub fn block_add_adu(memory: &mut [u8], flow: u8, adu: &[u8], out: &mut [u8]) -> i64 {
    unsafe { raw::rlc_block_add_adu(memory.as_mut_ptr(), memory.len(), flow, adu.as_ptr(), adu.len(), out.as_mut_ptr(), out.len()) }
}

pub fn block_make_repair(memory: &[u8], esi: u32, out: &mut [u8]) -> i64 {
    unsafe { raw::rlc_block_make_repair(memory.as_ptr(), memory.len(), esi, out.as_mut_ptr(), out.len()) }
}

pub fn block_receive_source(memory: &mut [u8], work: &mut [u8], flow: u8, packet: &[u8]) -> i64 {
    unsafe {
        raw::rlc_block_receive_source(memory.as_mut_ptr(), memory.len(), work.as_mut_ptr(), work.len(), flow, packet.as_ptr(), packet.len())
    }
}

pub fn block_receive_repair(memory: &mut [u8], work: &mut [u8], packet: &[u8]) -> i64 {
    unsafe {
        raw::rlc_block_receive_repair(memory.as_mut_ptr(), memory.len(), work.as_mut_ptr(), work.len(), packet.as_ptr(), packet.len())
    }
}

pub fn block_symbol(memory: &[u8], esi: u32) -> i64 {
    unsafe { raw::rlc_block_symbol(memory.as_ptr(), memory.len(), esi) }
}

pub fn block_symbol_place(memory: &[u8], esi: u32) -> i64 {
    unsafe { raw::rlc_block_symbol_place(memory.as_ptr(), memory.len(), esi) }
}

/// The flows that a sender announces, in its memory: an ADU that is too long for any is refused with 4 where its flow is announced, and with
/// 16 where it is not.
pub fn flows_of_sender(memory: &mut [u8]) -> Vec<u8> {
    let long = vec![0; 65_536];
    flows_where(|flow| add_adu(memory, flow, &long, &mut []))
}

/// The same of a receiver, by a source packet.
pub fn flows_of_receiver(memory: &mut [u8], work: &mut [u8]) -> Vec<u8> {
    let long = vec![0; 65_540];
    flows_where(|flow| receive_source(memory, work, flow, &long))
}

fn flows_where(mut answer: impl FnMut(u8) -> i64) -> Vec<u8> {
    let announced = |&flow: &u8| match answer(flow) {
        -4 => true,
        -16 => false,
        other => panic!("flow {flow}: {other}"),
    };
    (0..=255).filter(announced).collect()
}

/// The value and the number beside it in an answer of 0 or more.
pub fn parts(answer: i64) -> (usize, u64) {
    let answer = u64::try_from(answer).expect("no refusal");
    ((answer % 4_294_967_296) as usize, answer / 4_294_967_296)
}

/// Bytes to lend, with guard bytes before and after them.
#[derive(Clone)]
pub struct Lent {
    bytes: Vec<u8>,
    len: usize,
}

const GUARD: usize = 48;

/// The guard byte at a place: no two neighbours alike, so that a shifted write shows.
fn guard(at: usize) -> u8 {
    (at * 89 + 55) as u8
}

impl Lent {
    /// `content` between guards.
    pub fn new(content: &[u8]) -> Lent {
        let mut bytes: Vec<u8> = (0..content.len() + 2 * GUARD).map(guard).collect();
        bytes[GUARD..GUARD + content.len()].copy_from_slice(content);
        Lent { bytes, len: content.len() }
    }

    pub fn get(&self) -> &[u8] {
        &self.bytes[GUARD..GUARD + self.len]
    }

    pub fn lend(&mut self) -> &mut [u8] {
        &mut self.bytes[GUARD..GUARD + self.len]
    }

    /// Panics where a guard byte changed.
    pub fn check(&self) {
        let (front, rest) = self.bytes.split_at(GUARD);
        assert!(front.iter().enumerate().all(|(at, &b)| b == guard(at)), "bytes before the lent memory changed");
        let back = rest[self.len..].iter().enumerate();
        assert!(back.clone().count() == GUARD);
        for (i, &b) in back {
            assert_eq!(b, guard(GUARD + self.len + i), "bytes after the lent memory changed");
        }
    }
}

/// How many random runs a test makes: `usual`, times RLC8681_RUNS where it is set. With RLC8681_SEED only that seed is run.
pub fn runs<R: FnMut(u64)>(usual: u64, mut run: R) {
    let number = |name: &str| std::env::var(name).ok().map(|text| text.parse::<u64>().expect("a number"));
    let seeds = match number("RLC8681_SEED") {
        Some(seed) => seed..seed + 1,
        None => 0..usual * number("RLC8681_RUNS").unwrap_or(1),
    };
    let test = test_of::<R>();
    let note = Path::new(env!("CARGO_TARGET_TMPDIR")).join("seeds").join(test.replace("::", "."));
    fs::create_dir_all(note.parent().expect("a folder")).expect("a folder for the seeds");
    let mut file = File::create(&note).expect("a file for the seed");
    for seed in seeds {
        // A crash prints nothing: then this line is there. Each is as long as the last, so the file need not be cut
        file.rewind().and_then(|()| writeln!(file, "{test}: RLC8681_SEED={seed:<20}")).expect("the seed written");
        let told = Told { test, seed };
        run(seed);
        drop(told);
    }
    fs::remove_file(&note).expect("the seed removed");
}

/// The name of the test that a closure stands in: threads have it as their name only where there are several.
fn test_of<R>() -> &'static str {
    std::any::type_name::<R>().trim_end_matches("::{{closure}}")
}

/// Prints its test and seed when a run panics.
struct Told {
    test: &'static str,
    seed: u64,
}

impl Drop for Told {
    fn drop(&mut self) {
        if std::thread::panicking() {
            let Told { test, seed } = self;
            let name = test.rsplit("::").next().unwrap_or(test);
            eprintln!("failing seed of {test}: {seed} (RLC8681_SEED={seed} tests/run {name} runs it alone)");
        }
    }
}
