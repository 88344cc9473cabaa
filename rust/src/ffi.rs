//! The C interface of the proved library. Each call answers its value, 0 or more, or minus a refusal's number; beside the value of
//! `rlc_sender_make_repair`, `rlc_receive_source` and `rlc_receive_repair` stand the draws, times 2^32, and beside that of `rlc_symbol` and
//! `rlc_block_symbol` 2^32 for a symbol that was heard. `flows` are 32 bytes; the two calls that set them answer nothing.

extern "C" {
    pub fn rlc_sender_memory(symbol_size: u32, width: u32) -> i64;
    pub fn rlc_receiver_memory(symbol_size: u32, width: u32) -> i64;
    pub fn rlc_working_memory(symbol_size: u32, width: u32) -> i64;

    pub fn rlc_dw_max_size(budget: u64, bitrate: u64, symbol_size: u32, remainder: *mut u64) -> i64;

    pub fn rlc_interleave(
        taken: *const u8,
        taken_len: usize,
        symbol_size: u32,
        rows: u32,
        columns: u32,
        out: *mut u8,
        out_len: usize,
    ) -> i64;
    pub fn rlc_deinterleave(
        sent: *const u8,
        sent_len: usize,
        symbol_size: u32,
        rows: u32,
        columns: u32,
        out: *mut u8,
        out_len: usize,
    ) -> i64;

    pub fn rlc_announce(flows: *mut u8, flow: u8);
    pub fn rlc_announce_all(flows: *mut u8);

    pub fn rlc_sender_open(memory: *mut u8, memory_len: usize, scheme: u32, symbol_size: u32, width: u32, flows: *const u8) -> i64;
    pub fn rlc_sender_add_adu(
        memory: *mut u8,
        memory_len: usize,
        flow: u8,
        adu: *const u8,
        adu_len: usize,
        out: *mut u8,
        out_len: usize,
    ) -> i64;
    pub fn rlc_sender_make_repair(memory: *const u8, memory_len: usize, key: u16, dt: u32, count: u32, out: *mut u8, out_len: usize)
        -> i64;

    pub fn rlc_receiver_open(memory: *mut u8, memory_len: usize, scheme: u32, symbol_size: u32, width: u32, flows: *const u8) -> i64;
    pub fn rlc_receive_source(
        memory: *mut u8,
        memory_len: usize,
        work: *mut u8,
        work_len: usize,
        flow: u8,
        packet: *const u8,
        packet_len: usize,
    ) -> i64;
    pub fn rlc_receive_repair(
        memory: *mut u8,
        memory_len: usize,
        work: *mut u8,
        work_len: usize,
        packet: *const u8,
        packet_len: usize,
    ) -> i64;
    pub fn rlc_symbol(memory: *const u8, memory_len: usize, esi: u32) -> i64;
    pub fn rlc_symbol_place(memory: *const u8, memory_len: usize, esi: u32) -> i64;
    pub fn rlc_adu(memory: *const u8, memory_len: usize, esi: u32, out: *mut u8, out_len: usize) -> i64;

    pub fn rlc_block_open_encoder(memory: *mut u8, memory_len: usize, symbol_size: u32, k: u32, total: u32, block: u32) -> i64;
    pub fn rlc_block_open_recovery(memory: *mut u8, memory_len: usize, symbol_size: u32, k: u32, total: u32, block: u32) -> i64;
    pub fn rlc_block_add_adu(
        memory: *mut u8,
        memory_len: usize,
        flow: u8,
        adu: *const u8,
        adu_len: usize,
        out: *mut u8,
        out_len: usize,
    ) -> i64;
    pub fn rlc_block_make_repair(memory: *const u8, memory_len: usize, esi: u32, out: *mut u8, out_len: usize) -> i64;
    pub fn rlc_block_receive_source(
        memory: *mut u8,
        memory_len: usize,
        work: *mut u8,
        work_len: usize,
        flow: u8,
        packet: *const u8,
        packet_len: usize,
    ) -> i64;
    pub fn rlc_block_receive_repair(
        memory: *mut u8,
        memory_len: usize,
        work: *mut u8,
        work_len: usize,
        packet: *const u8,
        packet_len: usize,
    ) -> i64;
    pub fn rlc_block_symbol(memory: *const u8, memory_len: usize, esi: u32) -> i64;
    pub fn rlc_block_symbol_place(memory: *const u8, memory_len: usize, esi: u32) -> i64;
}
