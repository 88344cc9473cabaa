//! What document 02's No. 4 prints of a capture, over the second receiver, which announces all flows (No. 7). The input is held whole and cut
//! into all its lines first.

use super::{Flows, Receiver, Setting};

/// The most characters of a line, the most packet lines that are read, and the most bytes of either receiver memory.
const CHARACTERS: usize = 8192;
pub const PACKET_LINES: usize = 1_000_000;
const MEMORY: usize = 65_536;

/// The answer for a line that does not have the form.
pub const FORM: u32 = 15;

/// What is printed of a packet line: 0 or the refusal, and the count of new positions.
#[derive(Clone, Copy, Debug, PartialEq, Eq)]
pub struct Record {
    pub answer: u32,
    pub known: u64,
}

/// The lines, each without the 0A at its end. After the last 0A there is one more only where bytes follow.
fn lines(input: &[u8]) -> Vec<&[u8]> {
    let mut lines: Vec<&[u8]> = input.split(|&byte| byte == 0x0A).collect();
    if lines.last().is_some_and(|last| last.is_empty()) {
        lines.pop();
    }
    lines
}

/// The words of a line, between which one blank stands; none of a line that is too long.
fn words(line: &[u8]) -> Vec<&[u8]> {
    if line.len() > CHARACTERS {
        return Vec::new();
    }
    line.split(|&byte| byte == b' ').collect()
}

/// A number in decimal digits without leading zeros, after its key. All that do not fit into 64 bits are given as the largest that does,
/// which is in no range either.
fn number(word: &[u8], key: &str) -> Option<u64> {
    let digits = word.strip_prefix(key.as_bytes())?;
    if !digits.iter().all(u8::is_ascii_digit) {
        return None;
    }
    match digits {
        [] | [b'0', _, ..] => None,
        _ => Some(digits.iter().fold(0u64, |number, digit| number.saturating_mul(10).saturating_add(u64::from(digit - b'0')))),
    }
}

/// A packet in capital hexadecimal, two digits a byte, perhaps no byte, after its key.
fn packet(word: &[u8]) -> Option<Vec<u8>> {
    let digits = word.strip_prefix(b"packet=")?;
    let value = |digit: u8| match digit {
        b'0'..=b'9' => Some(digit - b'0'),
        b'A'..=b'F' => Some(digit - b'A' + 10),
        _ => None,
    };
    if digits.len() % 2 == 1 {
        return None;
    }
    digits.chunks(2).map(|pair| Some(value(pair[0])? * 16 + value(pair[1])?)).collect()
}

/// The setting of a first line; none where the line is bad.
fn setting(line: &[u8]) -> Option<Setting> {
    let [scheme, symbol_size, width] = words(line)[..] else { return None };
    let value = |word, key| u32::try_from(number(word, key)?).ok();
    let setting = Setting::checked(value(scheme, "scheme=")?, value(symbol_size, "e=")?, value(width, "width=")?).ok()?;
    let small = setting.receiver_memory() <= MEMORY && setting.working_memory() <= MEMORY;
    small.then_some(setting)
}

/// The flow, where it is a source packet, and the packet of a packet line; none where the line does not have the form.
fn packet_line(line: &[u8]) -> Option<(Option<u8>, Vec<u8>)> {
    match words(line)[..] {
        [b"kind=source", flow, word] => Some((Some(u8::try_from(number(flow, "flow=")?).ok()?), packet(word)?)),
        [b"kind=repair", word] => Some((None, packet(word)?)),
        _ => None,
    }
}

/// What a receiver makes of a packet line.
fn record(receiver: &mut Receiver, line: &[u8]) -> Record {
    const LENT_WHOLE: usize = usize::MAX;
    let answer = match packet_line(line) {
        Some((Some(flow), packet)) => receiver.receive_source(LENT_WHOLE, LENT_WHOLE, flow, &packet),
        Some((None, packet)) => receiver.receive_repair(LENT_WHOLE, LENT_WHOLE, &packet),
        None => Err(FORM),
    };
    match answer {
        Ok((known, _)) => Record { answer: 0, known },
        Err(answer) => Record { answer, known: 0 },
    }
}

/// The records of a capture's packet lines; none where its first line is bad.
pub fn records(input: &[u8]) -> Vec<Record> {
    let lines = lines(input);
    let Some(setting) = lines.first().and_then(|line| setting(line)) else { return Vec::new() };
    let mut receiver = Receiver::open(setting, Flows::all());
    lines[1..].iter().take(PACKET_LINES).map(|line| record(&mut receiver, line)).collect()
}

/// The records as they are printed, and the last line.
pub fn text(records: &[Record]) -> Vec<u8> {
    let mut text = String::new();
    for (n, Record { answer, known }) in (1..).zip(records) {
        text += &format!("n={n} answer={answer} known={known}\n");
    }
    let accepted = records.iter().filter(|record| record.answer == 0).count();
    let known: u64 = records.iter().map(|record| record.known).sum();
    let lines = records.len();
    text += &format!("lines={lines} accepted={accepted} refused={} known={known}\n", lines - accepted);
    text.into_bytes()
}

/// What the program prints of a capture.
pub fn printed(input: &[u8]) -> Vec<u8> {
    text(&records(input))
}
