//! Document 02's No. 4 in plain Rust, over plain.rs: reads a capture from standard input and prints what the receiver knew. Nothing here is proved:
//! capture-run holds the proved program's time against it. Given the name of one of its captures, it writes that one to standard output instead.

#[path = "plain.rs"]
mod plain;

use plain::{Receiver, Sender};
use std::io::{self, BufRead, BufWriter, Read, Write};

/// The most characters of a line, the most packet lines that are read, and the most bytes of either receiver memory.
const CHARACTERS: usize = 8192;
const PACKET_LINES: u64 = 1_000_000;
const MEMORY: usize = 65_536;

/// All flows are announced.
const ALL: plain::Flows = [255; 32];

// ---- Lines

/// Reads the next line without its 0A, and tells whether there is one. Of a line with too many characters only one too many is kept.
fn next_line(input: &mut impl BufRead, line: &mut Vec<u8>) -> io::Result<bool> {
    line.clear();
    let count = input.take(CHARACTERS as u64 + 1).read_until(b'\n', line)?;
    if line.last() == Some(&b'\n') {
        line.pop();
    } else if count > CHARACTERS {
        skip_line(input)?;
    }
    Ok(count > 0)
}

/// Reads on to the end of a line.
fn skip_line(input: &mut impl BufRead) -> io::Result<()> {
    loop {
        let bytes = input.fill_buf()?;
        let (count, end) = match bytes.iter().position(|&byte| byte == b'\n') {
            Some(at) => (at + 1, true),
            None => (bytes.len(), bytes.is_empty()),
        };
        input.consume(count);
        if end {
            return Ok(());
        }
    }
}

/// A number in decimal digits without leading zeros, of at most four digits: longer ones are out of every range.
fn number(digits: &[u8]) -> Option<usize> {
    let good = matches!(digits, [b'0'] | [b'1'..=b'9', ..]) && digits.len() <= 4 && digits.iter().all(u8::is_ascii_digit);
    good.then(|| digits.iter().fold(0, |n, digit| n * 10 + usize::from(digit - b'0')))
}

/// What stands before the first blank, and what after it.
fn cut(line: &[u8]) -> Option<(&[u8], &[u8])> {
    let at = line.iter().position(|&byte| byte == b' ')?;
    Some((&line[..at], &line[at + 1..]))
}

/// Scheme, E and width of a first line.
fn opening(line: &[u8]) -> Option<(usize, usize, usize)> {
    let (scheme, rest) = cut(line.strip_prefix(b"scheme=")?)?;
    let (size, width) = cut(rest.strip_prefix(b"e=")?)?;
    Some((number(scheme)?, number(size)?, number(width.strip_prefix(b"width=")?)?))
}

enum Kind {
    Source(u8),
    Repair,
}

/// The value of a hexadecimal digit; 255 for all other bytes.
static DIGITS: [u8; 256] = {
    let mut table = [255; 256];
    let mut i = 0;
    while i < 16 {
        table[b"0123456789ABCDEF"[i] as usize] = i as u8;
        i += 1;
    }
    table
};

/// Takes a packet line apart; its packet goes to `packet`.
fn packet_line(line: &[u8], packet: &mut Vec<u8>) -> Option<Kind> {
    if line.len() > CHARACTERS {
        return None;
    }
    let (kind, rest) = match line.strip_prefix(b"kind=source flow=") {
        Some(rest) => {
            let (flow, rest) = cut(rest)?;
            (Kind::Source(u8::try_from(number(flow)?).ok()?), rest)
        }
        None => (Kind::Repair, line.strip_prefix(b"kind=repair ")?),
    };
    let digits = rest.strip_prefix(b"packet=")?;
    if digits.len() % 2 != 0 {
        return None;
    }
    packet.clear();
    for pair in digits.chunks_exact(2) {
        let (high, low) = (DIGITS[pair[0] as usize], DIGITS[pair[1] as usize]);
        if high > 15 || low > 15 {
            return None;
        }
        packet.push(high * 16 + low);
    }
    Some(kind)
}

// ---- The program

/// A receiver's memory, and its working memory.
struct Memory {
    state: Vec<u8>,
    work: Vec<u8>,
}

fn opened(line: &[u8]) -> Option<Memory> {
    let (scheme, size, width) = opening(line)?;
    let (state, work) = (plain::memory_size(size, width), plain::working_size(size, width));
    if work > MEMORY {
        return None;
    }
    let mut memory = Memory { state: vec![0; state], work: vec![0; work] };
    Receiver::open(&mut memory.state, scheme, size, width, &ALL).ok()?;
    Some(memory)
}

fn received(memory: &mut Memory, kind: Kind, packet: &[u8]) -> Result<usize, u8> {
    let Memory { state, work } = memory;
    let receiver = Receiver::read(state)?;
    let answer = match kind {
        Kind::Source(flow) => receiver.receive_source(state, work, flow, packet),
        Kind::Repair => receiver.receive_repair(state, work, packet),
    };
    answer.map(|(known, _)| known)
}

fn run(mut input: impl BufRead, mut output: impl Write) -> io::Result<()> {
    let (mut line, mut packet) = (Vec::new(), Vec::new());
    let (mut lines, mut accepted, mut known) = (0, 0, 0);
    let first = next_line(&mut input, &mut line)?;
    if let Some(mut memory) = if first { opened(&line) } else { None } {
        while lines < PACKET_LINES && next_line(&mut input, &mut line)? {
            lines += 1;
            let answer = match packet_line(&line, &mut packet) {
                Some(kind) => received(&mut memory, kind, &packet),
                None => Err(15),
            };
            let (number, new) = match answer {
                Ok(new) => (0, new),
                Err(refusal) => (refusal, 0),
            };
            accepted += u64::from(number == 0);
            known += new;
            writeln!(output, "n={lines} answer={number} known={new}")?;
        }
    }
    writeln!(output, "lines={lines} accepted={accepted} refused={} known={known}", lines - accepted)?;
    output.flush()
}

// ---- Captures

fn hexadecimal(bytes: &[u8]) -> String {
    bytes.iter().flat_map(|byte| [byte / 16, byte % 16]).map(|digit| b"0123456789ABCDEF"[usize::from(digit)] as char).collect()
}

/// Packet lines of a sender in scheme 10 whose ADUs fill one symbol each: of its source packets, or of its repair packets, one after each ADU.
fn write_stream(output: &mut impl Write, count: usize, size: usize, width: usize, source: bool) -> io::Result<()> {
    let refused = |refusal| io::Error::new(io::ErrorKind::Other, format!("the sender refused: {refusal}"));
    let (mut sender, mut packet) = (vec![0; plain::SENDER_HEADER + width * size], vec![0; 8 + size]);
    Sender::open(&mut sender, 10, size, width, &ALL).map_err(refused)?;
    writeln!(output, "scheme=10 e={size} width={width}")?;
    for k in 0..count {
        let adu: Vec<u8> = (0..size - 3).map(|i| (i * i + 13 * k) as u8).collect();
        let mut length = Sender::read(&sender).and_then(|s| s.add_adu(&mut sender, 1, &adu, &mut packet)).map_err(refused)?;
        if !source {
            length = Sender::read(&sender).and_then(|s| s.make_repair(&sender, k as u16, 15, 1, &mut packet)).map_err(refused)?.0;
        }
        let kind = if source { "source flow=1" } else { "repair" };
        writeln!(output, "kind={kind} packet={}", hexadecimal(&packet[..length]))?;
    }
    Ok(())
}

/// So many times the same line, after a first line.
fn write_lines(output: &mut impl Write, count: usize, line: &str) -> io::Result<()> {
    writeln!(output, "scheme=9 e=4 width=2")?;
    (0..count).try_for_each(|_| writeln!(output, "{line}"))
}

fn write_capture(name: &str, mut output: impl Write) -> io::Result<()> {
    match name {
        "short" => write_lines(&mut output, 1_000_000, "kind=repair packet=0000F0020000000000000003"),
        "malformed" => write_lines(&mut output, 1_000_000, "kind=repair packet=0000f0020000000000000003"),
        "too-long" => write_lines(&mut output, 1000, &format!("kind=repair packet={}", "0".repeat(100_000))),
        "source" => write_stream(&mut output, 20_000, 1400, 44, true),
        "repair" => write_stream(&mut output, 20_000, 1200, 32, false),
        _ => Err(io::Error::new(io::ErrorKind::Other, format!("no capture has the name {name}"))),
    }?;
    output.flush()
}

fn main() -> io::Result<()> {
    let output = BufWriter::new(io::stdout().lock());
    match std::env::args().nth(1) {
        Some(name) => write_capture(&name, output),
        None => run(io::stdin().lock(), output),
    }
}
