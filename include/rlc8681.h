/*
 * Sliding window RLC for erasure correction (RFC 8681): sender and receiver, schemes 9 (GF(2)) and 10 (GF(2^8)); and block mode for stills (RFC 6865).
 * Link with libcapi.a. Document 01 is the specification; its words are used here: E is the number of bytes in a symbol, the width is the number of
 * symbols in the window at that end, an ESI numbers source symbols and a key repair symbols; in a block an ESI numbers both.
 *
 * Answers. Each function, but for the two that announce flows, answers a value, 0 or more, or minus the number of a refusal (enum rlc_refusal). Where
 * several refusals apply, the answer is the first in the order in which the function's comment lists them. A refusal changes nothing but working memory.
 * rlc_sender_make_repair, rlc_receive_source and rlc_receive_repair answer two numbers in one, value + 4,294,967,296 x draws, which rlc_value and
 * rlc_draws take apart; the value is at most 65,535, whatever the memory holds. The draws are the rand16 and rand256 draws that the packet's coefficients
 * took, added up over its repair symbols, without the eight steps of the generator's start: 0 for a source packet, 0 in scheme 9 at DT 15, at most
 * 69,360 (16 lists of 255 coefficients, each at most 17 draws). Ends of the same scheme and E answer the same
 * draws for the same packet. A refusal tells no draws.
 * rlc_symbol and rlc_block_symbol answer 0, plus 4,294,967,296 for a symbol that was heard, which rlc_heard tells.
 *
 * Flows. Each ADU has a flow, 0 to 255. An end announces the flows that it is opened with: 256 yes or no values in RLC_FLOWS bytes, flow F being bit
 * F mod 8, lowest first, of byte F div 8. All zero they announce none; rlc_announce and rlc_announce_all set them. They are read during the opening
 * alone: the end's memory keeps a copy, which only another opening changes. Checked are the ADUs that are given to a sender and the source packets that
 * come to a receiver: one whose flow that end does not announce is refused (RLC_UNANNOUNCED), so that it takes no ESI and, be it the first, begins no
 * window. Repair packets are not checked: their symbols are sums, over ADUs of any flows. So a receiver may solve an ADU whose flow it does not
 * announce and its sender does. Then the ADU's symbols are shown and counted like all others, and the start of the ADU after it is found; but rlc_adu
 * withholds the ADU itself (RLC_UNANNOUNCED).
 *
 * Order. What a receiver shows depends on which packets it has accepted, and not on their order: where receivers that were opened alike have accepted the
 * same packets, rlc_symbol and rlc_symbol_place answer alike, with the same bytes at the place, whatever the ESI. Only the counts of the packet calls may
 * differ, and starts, so that rlc_adu may say RLC_NO_START in one of them; otherwise it answers and writes the same. A packet that others have overtaken
 * may be RLC_BEHIND: a repair packet reaches back over its sender's whole window. So where packets change places, open the receiver with a width that
 * is greater than the sender's by as many symbols as may overtake a packet.
 *
 * Block mode. For a still, which is there as a whole before it is sent: k ADUs of up to E - 3 bytes, each one source symbol, make a
 * block, and repair symbols are added up to a total of at most 255 symbols, by RFC 6865 with the Reed-Solomon code of RFC 5510 over GF(2^8). ESIs 0 to k - 1
 * are the source symbols, k to total - 1 the repair symbols; in each byte, symbol j is the value at 2^j of the polynomial of degree under k that has source
 * symbol i at 2^i. So any k of them with different ESIs bring all k source symbols, whichever they are; fewer bring those alone that were heard. For a
 * stream, whose next ADU is yet to come, take sender and receiver. A block has two ends: rlc_block_open_encoder opens the one that writes its packets,
 * rlc_block_open_recovery the one that takes them. Both need rlc_receiver_memory(E, k) bytes, and the two packet calls rlc_working_memory(E, k) of working
 * memory. E, k, total and block number are the same at both ends; the next block is another opening, in the same memory or in other. Every packet
 * has an identifier of 6 bytes, big-endian: block number (24 bits), ESI (8) and k (16). Flows are not announced, and none is checked.
 *
 * Memory. An end, of a stream or of a block, lives in one piece of memory that the caller owns: bytes with no alignment, which can be copied or moved
 * between calls and are freed by the caller, with nothing to close. Ask for its size, open it once, then lend the same bytes to each call, as the last
 * call left them and as long as when they were opened. Bytes past the size that was asked are never changed. There are four kinds of ends, sender, receiver,
 * encoder and recovery: memory that was opened as one of them is RLC_UNOPENED to the calls of the other three. The packet calls of receivers and recoveries
 * borrow working memory too, whose contents are free before and after a call: many ends can share it.
 *
 * Calls. No function allocates, keeps a pointer or has state of its own: a call reads and writes what it is lent and nothing else but its stack.
 * So calls that are lent different memory can run in different threads at once, as can calls that take the same memory as const.
 *
 * What is asked of the caller. A pointer and the length after it are a slice: that many bytes, all of which the process can read and, where the
 * pointer is not to const, write. The pointer is not NULL, even where the length is 0; then it is not followed. Where a slice is written, it overlaps no
 * other slice of the call, and nobody else reads or writes it during the call; nobody writes the others. Two pointers have no length after them: flows is
 * a slice of RLC_FLOWS bytes, always; remainder of rlc_dw_max_size is not NULL and points to a uint64_t, aligned as such, that nobody else reads or writes
 * during the call. All else is checked: every value of every number is allowed, and so are any bytes in any slice, memory that was never opened or was
 * changed by others among them: a call then still ends, stays within its slices (and *remainder) and answers.
 */
#ifndef RLC8681_H
#define RLC8681_H

#include <stddef.h>
#include <stdint.h>

#ifdef __cplusplus
extern "C" {
#endif

/* Why a call says no. A refusal is minus its number: compare -answer with these (minus a variable of this type is no int64_t).
 * No call answers -15. */
enum rlc_refusal {
    RLC_VALUES = 1,         /* scheme, E, width, latency budget or bitrate outside its values */
    RLC_SHORT = 2,          /* memory for opening, working memory or output too short */
    RLC_UNOPENED = 3,       /* state memory all zero, of another kind of end, or shorter than opening asked */
    RLC_LONG = 4,           /* ADU over 65,535 bytes or needing more symbols than the width; in a block, more than one */
    RLC_FORM = 5,           /* source packet under 4 bytes; repair packet not 8 + 1..16 x E; of a block, under 6; not 6 + E */
    RLC_RANGE = 6,          /* DT over 15 or count not 1..16 (sender); NSS 0 or over width (receiver) */
    RLC_EMPTY = 7,          /* sender's window empty; block with fewer than k ADUs */
    RLC_BEHIND = 8,         /* behind the window */
    RLC_AHEAD = 9,          /* too far ahead */
    RLC_DRAWS = 10,         /* sixteen zero draws */
    RLC_CONTRADICTION = 11, /* contradiction with the packets accepted before */
    RLC_UNKNOWN = 12,       /* not known, past the window or block, or no window yet */
    RLC_NO_START = 13,      /* no start */
    RLC_PADDING = 14,       /* ADUI needs more than the width, or padding not zero */
    RLC_UNANNOUNCED = 16,   /* flow not announced */
    RLC_GRID = 17,          /* rows or columns outside their values, or input that is not all of such a grid */
    RLC_BLOCK = 18          /* k, total or block number outside its values; ADU past the k-th; another block, another k, or an ESI not of its kind */
};

/* The value in an answer of the three calls that tell draws, and the draws beside it: 0 where the answer is a refusal. */
static inline uint32_t rlc_value(int64_t answer) { return answer < 0 ? 0 : (uint32_t)(answer & 0xFFFFFFFF); }
static inline uint32_t rlc_draws(int64_t answer) { return answer < 0 ? 0 : (uint32_t)(answer >> 32); }

/* Whether an answer of rlc_symbol or rlc_block_symbol tells of a symbol that was heard: 1; 0 where it was solved, or where the answer is a refusal. */
static inline int rlc_heard(int64_t answer) { return answer >= INT64_C(4294967296); }

/* How many bytes say which flows are announced. */
#define RLC_FLOWS 32

/*
 * Set the bytes that say which flows are announced: the first announces one flow more and leaves the others as they were, the second announces all 256.
 * For some flows only, begin with bytes that are all zero:
 *     uint8_t flows[RLC_FLOWS] = {0};
 *     rlc_announce(flows, 1);
 */
void rlc_announce(uint8_t flows[RLC_FLOWS], uint8_t flow);
void rlc_announce_all(uint8_t flows[RLC_FLOWS]);

/*
 * The bytes of memory that a sender, a receiver, and a receiver's packet calls need, in either scheme: 64 + width x E,
 * 96 + width x (width + E + 4) + width, and 96 + (width + 1) x (width + E + 4) + (width + 1). Both ends of a block of k symbols need those of a receiver of
 * width k, and the recovery's packet calls those of its packet calls.
 * Refusal: RLC_VALUES where symbol_size (E) is not 4 to 1500 or width not 1 to 255.
 */
int64_t rlc_sender_memory(uint32_t symbol_size, uint32_t width);
int64_t rlc_receiver_memory(uint32_t symbol_size, uint32_t width);
int64_t rlc_working_memory(uint32_t symbol_size, uint32_t width);

/*
 * The largest decoding window that a latency budget allows: dw_max_size of RFC 8681, appendix C.1, for a flow of constant bitrate, with the times of
 * encoding and decoding neglected. The budget (max_lat) is 1 to 10,000,000 microseconds; the bitrate (br_in) is 1 to 10,000,000,000 bits per second, that
 * of the ADUs as the sender takes them, without repair; symbol_size (E) is 4 to 1500.
 * Answers the quotient of budget x bitrate by 8 x E x 1,000,000, rounded down: how many times the 8 x E bits of a symbol go into the bits that come in
 * within the budget; what a symbol carries beside an ADU's bytes is not counted. Writes the exact remainder of that division to *remainder.
 * The quotient is at most 3,125,000,000 and the remainder below 12,000,000,000. A window has 1 to 255 symbols; a quotient of 0 or over 255 is given too.
 * Refusal: RLC_VALUES where budget, bitrate or symbol_size is outside its values; *remainder is then as it was.
 */
int64_t rlc_dw_max_size(uint64_t budget, uint64_t bitrate, uint32_t symbol_size, uint64_t *remainder);

/*
 * Send order against bursts: a grid of rows x columns symbols, 1 to 255 each, of symbol_size (E) bytes. rlc_interleave takes them row by row from in and
 * writes them column by column at the front of out: the symbol in row r and column c, both from 0, is number r x columns + c in in and number
 * c x rows + r in out. rlc_deinterleave, with the same rows and columns, takes what the other wrote and writes what it was given. A link that loses up to
 * rows neighbours in send order, wherever the loss begins, loses at most one symbol of each row. Nothing need be opened: these two have no memory.
 * in and out are two buffers (see above: they may not overlap). Answers the bytes written, rows x columns x E, which is at most 97,537,500; out past them is
 * as it was.
 * Refusals: RLC_VALUES (E), RLC_GRID (rows or columns not 1 to 255, or in_length not rows x columns x E), RLC_SHORT (out).
 */
int64_t rlc_interleave(const uint8_t *in, size_t in_length, uint32_t symbol_size, uint32_t rows, uint32_t columns,
                       uint8_t *out, size_t out_length);
int64_t rlc_deinterleave(const uint8_t *in, size_t in_length, uint32_t symbol_size, uint32_t rows, uint32_t columns,
                         uint8_t *out, size_t out_length);

/*
 * Opens a sender in memory, whatever it held. Scheme is 9 or 10; flows are those that it announces. Answers 0.
 * Refusals: RLC_VALUES, RLC_SHORT (memory).
 */
int64_t rlc_sender_open(uint8_t *memory, size_t memory_length, uint32_t scheme, uint32_t symbol_size, uint32_t width,
                        const uint8_t flows[RLC_FLOWS]);

/*
 * Takes an ADU of a flow: its symbols join the window, the oldest leaving past the width, and its source packet, the ADU and then 4 bytes of ESI, is
 * written at the front of out. The flow travels beside the packet. Answers the number of bytes written, adu_length + 4.
 * Refusals: RLC_UNOPENED, RLC_UNANNOUNCED, RLC_LONG, RLC_SHORT (out).
 */
int64_t rlc_sender_add_adu(uint8_t *memory, size_t memory_length, uint8_t flow, const uint8_t *adu, size_t adu_length,
                           uint8_t *out, size_t out_length);

/*
 * Writes a repair packet over the whole window at the front of out: count repair symbols (1 to 16) whose keys count up from key, modulo 65,536, with the
 * density threshold dt (0 to 15). Answers the number of bytes written, 8 + count x E, plus 4,294,967,296 times the draws: send
 * rlc_value(answer) bytes.
 * Refusals: RLC_UNOPENED, RLC_RANGE, RLC_EMPTY, RLC_SHORT (out), RLC_DRAWS.
 */
int64_t rlc_sender_make_repair(const uint8_t *memory, size_t memory_length, uint16_t key, uint32_t dt, uint32_t count,
                               uint8_t *out, size_t out_length);

/*
 * Opens a receiver in memory, whatever it held. Scheme and E are the sender's; the width and the flows, those that it announces, are the receiver's own.
 * Answers 0.
 * The receiver has no window yet, and can join a stream anywhere: the first packet that it accepts begins its window, at the first ESI that the packet
 * names. Until then no packet is RLC_BEHIND or RLC_AHEAD, and every symbol and ADU is RLC_UNKNOWN; then symbols before that ESI are RLC_BEHIND.
 * Refusals: RLC_VALUES, RLC_SHORT (memory).
 */
int64_t rlc_receiver_open(uint8_t *memory, size_t memory_length, uint32_t scheme, uint32_t symbol_size, uint32_t width,
                          const uint8_t flows[RLC_FLOWS]);

/*
 * Receives a source packet that came with a flow. Answers how many positions of the window became known, at most the width; its draws
 * are 0.
 * Refusals: RLC_UNOPENED, RLC_SHORT (work), RLC_FORM, RLC_UNANNOUNCED, RLC_LONG, RLC_BEHIND, RLC_AHEAD, RLC_CONTRADICTION.
 */
int64_t rlc_receive_source(uint8_t *memory, size_t memory_length, uint8_t *work, size_t work_length, uint8_t flow,
                           const uint8_t *packet, size_t packet_length);

/*
 * Receives a repair packet. Answers how many positions of the window became known, at most the width, plus 4,294,967,296 times the draws.
 * Refusals: RLC_UNOPENED, RLC_SHORT (work), RLC_FORM, RLC_RANGE, RLC_BEHIND, RLC_AHEAD, RLC_DRAWS, RLC_CONTRADICTION.
 */
int64_t rlc_receive_repair(uint8_t *memory, size_t memory_length, uint8_t *work, size_t work_length,
                           const uint8_t *packet, size_t packet_length);

/*
 * Whether the symbol with an ESI is known to the receiver, and whether it was heard. Answers 0 where it is known, plus 4,294,967,296 where it was heard:
 * rlc_heard tells, and rlc_value of either answer is 0.
 * A known symbol is heard where an accepted source packet has carried it, be it known before that or not. Else it is solved: worked out from repair
 * packets. A solved symbol becomes heard when its source packet is accepted later, though that makes nothing known; one heard never becomes solved. A
 * refused packet counts for nothing.
 * Refusals: RLC_UNOPENED, RLC_UNKNOWN (no window yet), RLC_BEHIND, RLC_UNKNOWN.
 */
int64_t rlc_symbol(const uint8_t *memory, size_t memory_length, uint32_t esi);

/*
 * Where in memory the symbol with an ESI stands, as an offset: the symbol is the E bytes from memory + offset on. They are there to be read, and stand
 * there until memory is next lent to a call that writes it.
 * Refusals: those of rlc_symbol.
 */
int64_t rlc_symbol_place(const uint8_t *memory, size_t memory_length, uint32_t esi);

/*
 * Hands out the ADU whose first symbol has an ESI, where all its symbols are known: writes it at the front of out. Answers flow x 65,536 + length of the
 * ADU, which has 0 to 65,535 bytes.
 * Which ESI to ask for: a source packet's last 4 bytes are the ESI of its ADU (a sender's first is at ESI 0); the ADU after one of L bytes at an ESI is
 * at ESI + (3 + L + E - 1) / E, modulo 2^32. Where ADUs start is told by source packets, and from there on by the length in each ADU's first
 * symbol, once known: before the first source packet accepted, nothing is handed out.
 * RLC_BEHIND says that the ESI is before the window, which only moves on; RLC_UNKNOWN and RLC_NO_START may be answered otherwise after a later packet.
 * Refusals: RLC_UNOPENED, RLC_UNKNOWN (no window yet), RLC_BEHIND, RLC_UNKNOWN (past the window), RLC_NO_START, RLC_UNKNOWN (first symbol),
 * RLC_PADDING (more symbols than the width), RLC_UNKNOWN (another symbol), RLC_PADDING (padding not zero), RLC_UNANNOUNCED, RLC_SHORT (out).
 */
int64_t rlc_adu(const uint8_t *memory, size_t memory_length, uint32_t esi, uint8_t *out, size_t out_length);

/*
 * Open the two ends of a block in memory, whatever it held: the encoder, which has no ADU yet, and the recovery, which knows no symbol yet. k is 1 to 255,
 * total k to 255, and the block number below 2^24. Answer 0.
 * Refusals: RLC_VALUES (E), RLC_BLOCK (k, total or block number), RLC_SHORT (memory).
 */
int64_t rlc_block_open_encoder(uint8_t *memory, size_t memory_length, uint32_t symbol_size, uint32_t k, uint32_t total, uint32_t block);
int64_t rlc_block_open_recovery(uint8_t *memory, size_t memory_length, uint32_t symbol_size, uint32_t k, uint32_t total, uint32_t block);

/*
 * Takes the block's next ADU, of up to E - 3 bytes, whose ESI is the number of ADUs taken before. Its source packet, the ADU and then the identifier, is
 * written at the front of out. The flow, any of 0 to 255, is the first byte of the symbol and travels beside the packet: the symbol is flow (1 byte), length
 * of the ADU (2 bytes, big-endian), ADU, and zeros up to E bytes. Answers the number of bytes written, adu_length + 6.
 * Refusals: RLC_UNOPENED, RLC_SHORT (out), RLC_BLOCK (k ADUs were taken), RLC_LONG.
 */
int64_t rlc_block_add_adu(uint8_t *memory, size_t memory_length, uint8_t flow, const uint8_t *adu, size_t adu_length,
                          uint8_t *out, size_t out_length);

/*
 * Writes the repair packet with an ESI from k to total - 1, the identifier and then one repair symbol, at the front of out, once all k ADUs were taken.
 * Answers the number of bytes written, 6 + E.
 * Refusals: RLC_UNOPENED, RLC_SHORT (out), RLC_BLOCK (ESI), RLC_EMPTY (fewer than k ADUs).
 */
int64_t rlc_block_make_repair(const uint8_t *memory, size_t memory_length, uint32_t esi, uint8_t *out, size_t out_length);

/*
 * Receive a source packet that came with a flow, and a repair packet, in any order, with losses and repeats. Answer how many source symbols became known, at
 * most k: a source packet's own where it was not known, and all that were missing once packets of k different ESIs were accepted. A packet that comes again
 * answers 0. RLC_CONTRADICTION says that no block of k x E bytes satisfies the packet together with all that were accepted before.
 * Refusals: RLC_UNOPENED, RLC_SHORT (work), RLC_FORM (source packet under 6 bytes; repair packet not 6 + E), RLC_BLOCK (another block number, another k; ESI
 * of k or more in a source packet, below k or of total or more in a repair packet), RLC_LONG (source packet: ADU over E - 3 bytes), RLC_CONTRADICTION.
 */
int64_t rlc_block_receive_source(uint8_t *memory, size_t memory_length, uint8_t *work, size_t work_length, uint8_t flow,
                                 const uint8_t *packet, size_t packet_length);
int64_t rlc_block_receive_repair(uint8_t *memory, size_t memory_length, uint8_t *work, size_t work_length,
                                 const uint8_t *packet, size_t packet_length);

/*
 * Whether the source symbol with an ESI is known to the recovery, and whether it was heard, as rlc_symbol tells it; and where in memory it stands, as
 * rlc_symbol_place does. The ADU stands in it after flow and length; neither length nor padding is judged.
 * Refusals: RLC_UNOPENED, RLC_UNKNOWN (an ESI of k or more, or not known).
 */
int64_t rlc_block_symbol(const uint8_t *memory, size_t memory_length, uint32_t esi);
int64_t rlc_block_symbol_place(const uint8_t *memory, size_t memory_length, uint32_t esi);

#ifdef __cplusplus
}
#endif

#endif
