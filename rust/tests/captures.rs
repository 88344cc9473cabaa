//! Working through a captured link (document 02, No. 4): the program against the second implementation, on the samples in captures/, on lines
//! with every byte in every place, on random captures, and at every limit.

mod library;
mod reference;

use library::program::{printed, printed_of_file, printed_when_fed, printed_while_open, written, Pipe};
use library::runs;
use reference::capture::{self, Record, FORM, PACKET_LINES};
use reference::random::Random;
use reference::{moved, repair_packet, source_packet, Flows, Sender, Setting};
use std::ffi::OsStr;
use std::fs;
use std::io;
use std::path::{Path, PathBuf};
use std::process::Stdio;
use std::sync::OnceLock;

/// Document 02's three lines.
const FIRST: &str = "scheme=9 e=4 width=2";
const SOURCE: &str = "kind=source flow=1 packet=4100000000";
const REPAIR: &str = "kind=repair packet=0000F0020000000000000003";

/// What is printed where the first line is bad, or no packet line follows.
const NOTHING: &str = "lines=0 accepted=0 refused=0 known=0\n";

/// Panics where the program printed something else, with the first line that differs.
#[track_caller]
fn same(what: &str, printed: &[u8], expected: &[u8]) {
    if printed != expected {
        let alike = printed.iter().zip(expected).take_while(|(a, b)| a == b).count();
        let number = expected[..alike].iter().filter(|&&byte| byte == b'\n').count();
        let line = |text: &[u8]| text.split(|&byte| byte == b'\n').nth(number).map(|line| String::from_utf8_lossy(line).into_owned());
        panic!("{what}: line {} is {:?}, and should be {:?}", number + 1, line(printed), line(expected));
    }
}

/// Panics where the program and the second implementation differ on a capture, which then is left in a file.
#[track_caller]
fn agree(what: &str, input: &[u8]) {
    agree_when_fed(what, input, |pipe| pipe.write(input));
}

/// The same, fed in this way.
#[track_caller]
fn agree_when_fed(what: &str, input: &[u8], feed: impl FnOnce(&mut Pipe) -> io::Result<()> + Send) {
    let (printed, expected) = (printed_when_fed(feed), capture::printed(input));
    if printed != expected {
        let file = Path::new(env!("CARGO_TARGET_TMPDIR")).join(format!("{what}.capture"));
        fs::write(&file, input).expect("the capture written");
        same(&format!("{what} ({})", file.display()), &printed, &expected);
    }
}

/// Lines, each with the 0A at its end.
fn joined<L: AsRef<[u8]>>(lines: impl IntoIterator<Item = L>) -> Vec<u8> {
    lines.into_iter().flat_map(|line| [line.as_ref(), b"\n"].concat()).collect()
}

/// A packet, with the flow beside it where it is a source packet.
type Packet = (Option<u8>, Vec<u8>);

/// The packet line of a packet.
fn line_of((flow, packet): &Packet) -> Vec<u8> {
    let digits: String = packet.iter().map(|byte| format!("{byte:02X}")).collect();
    match flow {
        Some(flow) => format!("kind=source flow={flow} packet={digits}").into_bytes(),
        None => format!("kind=repair packet={digits}").into_bytes(),
    }
}

#[test]
fn the_papers_lines() {
    let input = joined([FIRST, SOURCE, REPAIR]);
    let expected = b"n=1 answer=0 known=1\nn=2 answer=0 known=1\nlines=2 accepted=2 refused=0 known=2\n";
    same("the second implementation", &capture::printed(&input), expected);
    same("the program", &printed(&input), expected);
}

// ---- The samples

/// A capture in captures/, and what is to be printed of it.
struct Sample {
    name: String,
    file: PathBuf,
    input: Vec<u8>,
    expected: Vec<u8>,
}

fn folder() -> PathBuf {
    Path::new(env!("CARGO_MANIFEST_DIR")).join("tests/captures")
}

/// The names of the files in captures/ with this ending.
fn names(ending: &str) -> Vec<String> {
    let files = fs::read_dir(folder()).expect("the samples").map(|file| file.expect("a sample").path());
    let mut names: Vec<String> = files
        .filter(|file| file.extension() == Some(OsStr::new(ending)))
        .map(|file| file.file_stem().and_then(OsStr::to_str).expect("a name").to_string())
        .collect();
    names.sort();
    names
}

/// All samples. With RLC8681_WRITE_CAPTURES, what is to be printed is first written anew from the second implementation.
fn samples() -> &'static [Sample] {
    static SAMPLES: OnceLock<Vec<Sample>> = OnceLock::new();
    SAMPLES.get_or_init(|| {
        let sample = |name: String| {
            let [file, printed] = ["capture", "printed"].map(|ending| folder().join(format!("{name}.{ending}")));
            let input = fs::read(&file).expect("a capture");
            if std::env::var_os("RLC8681_WRITE_CAPTURES").is_some() {
                fs::write(&printed, capture::printed(&input)).expect("what is printed, written");
            }
            let expected = fs::read(&printed).unwrap_or_else(|why| panic!("{}: {why}", printed.display()));
            Sample { name, file, input, expected }
        };
        names("capture").into_iter().map(sample).collect()
    })
}

/// What the samples' files say is what the second implementation prints, and captures/README.md tells what each one shows.
#[test]
fn samples_of_the_second_implementation() {
    let told = fs::read_to_string(folder().join("README.md")).expect("the samples' README.md");
    for Sample { name, input, expected, .. } in samples() {
        same(name, &capture::printed(input), expected);
        assert!(told.contains(&format!("| `{name}` |")), "README.md says nothing of {name}");
    }
    assert_eq!(names("capture"), names("printed"));
    assert_eq!(told.lines().filter(|line| line.starts_with("| `")).count(), samples().len());
}

/// The samples hold every answer that can be printed.
#[test]
fn answers_in_the_samples() {
    let mut met: Vec<u32> = samples().iter().flat_map(|sample| capture::records(&sample.input)).map(|record| record.answer).collect();
    met.sort_unstable();
    met.dedup();
    assert_eq!(met, [0, 4, 5, 6, 8, 9, 11, FORM]);
}

#[test]
fn samples_from_files() {
    for Sample { name, file, expected, .. } in samples() {
        same(name, &printed_of_file(file), expected);
    }
}

/// The same bytes through a pipe, one at a time, seven at a time and in pieces of any size; no read gets more than one of the first pieces.
#[test]
fn samples_in_pieces() {
    let mut random = Random::new(4);
    for Sample { name, input, expected, .. } in samples() {
        for size in [Some(1), Some(7), None] {
            let mut random = Random::new(random.next());
            let feed = move |pipe: &mut Pipe| write_pieces(pipe, input, 1000, || size.unwrap_or_else(|| piece(&mut random)));
            same(&format!("{name} in pieces of {size:?}"), &printed_when_fed(feed), expected);
        }
    }
}

/// The size of a piece: mostly small, now and then around the longest line's.
fn piece(random: &mut Random) -> usize {
    match random.below(10) {
        0..=6 => random.between(1, 60),
        7..=8 => random.between(60, 3000),
        _ => random.between(8185, 8200),
    }
}

/// Writes in pieces of these sizes, so many of the first ones alone.
fn write_pieces(pipe: &mut Pipe, mut input: &[u8], alone: usize, mut size: impl FnMut() -> usize) -> io::Result<()> {
    for count in 0.. {
        if input.is_empty() {
            break;
        }
        let (piece, rest) = input.split_at(size().min(input.len()));
        if count < alone {
            pipe.write_alone(piece)?;
        } else {
            pipe.write(piece)?;
        }
        input = rest;
    }
    Ok(())
}

// ---- The form of lines

/// Lines whose answers were written by hand, after document 02's first line.
#[test]
fn lines_worked_by_hand() {
    let lines = [
        ("", 15, 0),
        (" ", 15, 0),
        ("kind=source flow=1 packet=", 5, 0),
        ("kind=repair packet=", 5, 0),
        ("kind=source flow=1 packet=000000", 5, 0),
        ("kind=source flow=1 packet=00000000000000000000", 4, 0),
        ("kind=repair packet=0000F0030000000000000003", 6, 0),
        ("kind=repair packet=0000f0020000000000000003", 15, 0),
        ("kind=repair packet=0000F002000000000000000", 15, 0),
        ("kind=repair packet=0000F00200000000000000", 5, 0),
        ("kind=repair packet=0000F0020000000000000003", 0, 0),
        ("kind=source flow=1 packet=00000000000000000", 15, 0),
        ("kind=source flow=1 packet=000000000000000000", 11, 0),
        ("kind=source flow=01 packet=4100000000", 15, 0),
        ("kind=source flow=256 packet=4100000000", 15, 0),
        ("kind=source flow=257 packet=4100000000", 15, 0),
        ("kind=source flow=4294967297 packet=4100000000", 15, 0),
        ("kind=source flow=18446744073709551617 packet=4100000000", 15, 0),
        ("kind=source flow= packet=4100000000", 15, 0),
        ("kind=source  flow=1 packet=4100000000", 15, 0),
        ("kind=source flow=1 packet=4100000000 ", 15, 0),
        ("kind=source flow=1 packet=4100000000\r", 15, 0),
        ("kind=source flow=1 packet=4100000000\0", 15, 0),
        ("kind=source packet=4100000000", 15, 0),
        ("kind=source packet=4100000000 flow=1", 15, 0),
        ("kind=repair flow=1 packet=0000F0020000000000000003", 15, 0),
        ("scheme=9 e=4 width=2", 15, 0),
        ("kind=source flow=1 packet=4100000000", 0, 2),
        ("kind=source flow=0 packet=4100000000", 11, 0),
        ("kind=source flow=255 packet=4300000002", 0, 1),
        ("kind=source flow=1 packet=4100000000", 8, 0),
        ("kind=source flow=1 packet=4100010001", 9, 0),
        ("kind=source flow=1 packet=4100010000", 0, 1),
    ];
    let records: Vec<Record> = lines.iter().map(|&(_, answer, known)| Record { answer, known }).collect();
    let expected = capture::text(&records);
    assert!(expected.ends_with(b"n=33 answer=0 known=1\nlines=33 accepted=4 refused=29 known=4\n"));
    let input = joined([FIRST].into_iter().chain(lines.map(|(line, ..)| line)));
    same("the second implementation", &capture::printed(&input), &expected);
    same("the program", &printed(&input), &expected);
}

/// A line with one byte changed, inserted or left out, and what stands before each place: with every byte in every place, 0A too.
fn spoiled_lines(line: &[u8], bytes: &[u8]) -> Vec<Vec<u8>> {
    let mut lines = vec![line.to_vec()];
    for at in 0..=line.len() {
        let (before, after) = line.split_at(at);
        lines.push(before.to_vec());
        lines.extend(bytes.iter().map(|&byte| [before, &[byte], after].concat()));
        if let [_, rest @ ..] = after {
            lines.push([before, rest].concat());
            lines.extend(bytes.iter().map(|&byte| [before, &[byte], rest].concat()));
        }
    }
    lines
}

#[test]
fn every_byte_in_every_place_of_a_packet_line() {
    let bytes: Vec<u8> = (0..=255).collect();
    for line in [SOURCE, "kind=source flow=25 packet=0000000000000000", REPAIR] {
        let lines = spoiled_lines(line.as_bytes(), &bytes);
        agree("every byte of a packet line", &[joined([FIRST]), joined(lines)].concat());
    }
}

/// Tries a first line, with two packet lines after it, and tells whether it is good.
fn agree_on_first_line(line: &[u8]) -> bool {
    let input = joined([line, SOURCE.as_bytes(), REPAIR.as_bytes()]);
    agree("first line", &input);
    !capture::records(&input).is_empty()
}

#[test]
fn bytes_in_every_place_of_the_first_line() {
    let good = spoiled_lines(FIRST.as_bytes(), b"\0\t\n\r 019=eA\x80").iter().filter(|line| agree_on_first_line(line)).count();
    assert!(good > 5);
}

#[test]
fn numbers_in_the_first_line() {
    for (before, least, most, after) in
        [("scheme=", 9, 10, " e=4 width=2"), ("scheme=10 e=", 4, 1500, " width=2"), ("scheme=9 e=4 width=", 1, 250, "")]
    {
        for number in [least, most] {
            // The last ones have the binary digits of the number in their lowest 8, 16, 32, 64 and 128
            let numbers = [number - 1, number, number + 1, number + (1 << 8), number + (1 << 16), number + (1 << 32), number + (1 << 64)];
            let longest = format!("3402823669209384634633746074317{}", 68_211_456 + number);
            for text in numbers.map(|number: u128| number.to_string()).into_iter().chain([longest]) {
                let good = agree_on_first_line(format!("{before}{text}{after}").as_bytes());
                let expected = text.parse().is_ok_and(|value: u128| (least..=most).contains(&value));
                assert_eq!(good, expected, "{before}{text}{after}");
            }
            for (sign, end) in [("0", ""), ("+", ""), ("-", ""), ("", "."), ("", "e0"), ("", "x"), ("", "\r")] {
                assert!(
                    !agree_on_first_line(format!("{before}{sign}{number}{end}{after}").as_bytes()),
                    "{before}{sign}{number}{end}{after}"
                );
            }
        }
    }
    assert!(!agree_on_first_line(b"scheme=9 e= width=2"));
    let zeros = "0".repeat(8192);
    for line in [format!("scheme=9 e=4 width=2{zeros}"), format!("scheme={zeros}9 e=4 width=2"), format!("scheme=9 e=4{zeros} width=2")] {
        assert!(!agree_on_first_line(line.as_bytes()));
    }
}

/// At every width the largest E with which both memories have at most 65,536 bytes, and one more, which is bad.
#[test]
fn memory_at_every_width() {
    let mut largest = 0;
    for width in 1..=255 {
        let memory = |symbol_size: usize| 96 + (width + 1) * (width + symbol_size + 4) + width + 1;
        let most = (4..=1500).rev().find(|&size| memory(size) <= 65_536);
        for symbol_size in [most.unwrap_or(4), most.unwrap_or(4) + 1] {
            let good = most == Some(symbol_size);
            let first = format!("scheme={} e={symbol_size} width={width}", 9 + width % 2);
            let expected = if good { "n=1 answer=15 known=0\nlines=1 accepted=0 refused=1 known=0\n" } else { NOTHING };
            let input = joined([&first, "x"]);
            same(&first, &capture::printed(&input), expected.as_bytes());
            same(&first, &printed(&input), expected.as_bytes());
            largest += usize::from(good && memory(symbol_size) == 65_536);
        }
    }
    assert_eq!(largest, 2, "settings with exactly 65,536 bytes");
}

/// A source line of this length; its packet has at most 17 symbols of 255 bytes, where the line is not too long.
fn source_line(random: &mut Random, length: usize, position: u64) -> Vec<u8> {
    let flow = if length % 2 == 0 { 1 } else { 10 };
    let digits = length - format!("kind=source flow={flow} packet=").len();
    line_of(&(Some(flow), source_packet(&random.bytes(digits / 2 - 4), position)))
}

/// Lines of every length around the longest, in the form and not, with and without a 0A after the last; lines of other lengths before them
/// move them about.
#[test]
fn lengths_of_lines() {
    let mut random = Random::new(7);
    let mut input = joined(["scheme=10 e=255 width=20"]);
    for (i, length) in (0..).zip((8184..=8200).chain([16_383, 16_384, 16_385, 65_535, 65_536, 65_537])) {
        let line = source_line(&mut random, length, 17 * i);
        assert_eq!(line.len(), length);
        let filler = random.between(0, 9000);
        let bad = [line.to_ascii_lowercase(), vec![b'x'; length], [&line[..length - 1], b"\r"].concat(), vec![b'x'; filler]];
        input.extend(joined(bad));
        input.extend(&line);
        for end in [&b""[..], b"\r", b"\n\n", b"\n"] {
            let input = [&input[..], end].concat();
            let mut random = Random::new(random.next());
            agree_when_fed("lengths of lines", &input, |pipe| write_pieces(pipe, &input, 20, || piece(&mut random)));
        }
        input.push(b'\n');
    }
    // From 8,184 to 8,192
    assert_eq!(capture::records(&input).iter().filter(|record| record.answer == 0).count(), 9);
}

// ---- Random captures

/// A setting: mostly small, now and then one whose memory is just small enough or just too large, or any.
fn setting(random: &mut Random) -> Setting {
    let scheme = 9 + random.below(2) as u32;
    let width = if random.chance(80) { random.between(1, 9) } else { random.between(1, 250) };
    let most = (65_440 / (width + 1)).saturating_sub(width + 5).clamp(4, 1500);
    let symbol_size = match random.below(20) {
        0 => most,
        1 => most + 1,
        2 => random.between(4, 1500),
        3..=5 => random.between(4, most),
        _ => random.between(4, most.min(20)),
    };
    Setting { scheme, symbol_size, width }
}

/// What arrives of a sender's packets over a link that loses, repeats, reorders and damages them, with packets between them that no sender
/// would write.
fn arriving(random: &mut Random, setting: Setting, adus: usize) -> Vec<Packet> {
    // The other end may be wider or narrower
    let width = if random.chance(80) { setting.width } else { random.between(1, 20) };
    let mut sender = Sender::open(Setting { width, ..setting }, Flows::all());
    let beginning = if random.chance(50) { u32::MAX - random.below(100) as u32 } else { random.next() as u32 };
    let unheard = if random.chance(50) { 0 } else { random.between(0, adus / 3) };
    let [loss, repeats, late, damage, oddity] = [40, 10, 20, 10, 15].map(|most| random.below(most + 1));
    let mut packets: Vec<Packet> = Vec::new();
    for i in 0..adus {
        let symbols = if random.chance(70) { 1 } else { random.between(1, width.min(4)) };
        let length = random.between(0, symbols * setting.symbol_size - 3);
        let (flow, adu) = (random.one_of(&[0, 1, 9, 10, 99, 100, 255]), random.bytes(length));
        let mut sent = vec![(Some(flow), sender.add_adu(flow, &adu, usize::MAX).expect("no ADU is too long"))];
        if random.chance(40) {
            let (dt, count) = (random.one_of(&[15, 15, 7, 3, 0]), random.one_of(&[1, 1, 1, 2, 5, 16]));
            let repair = sender.make_repair(random.next() as u16, dt, count, usize::MAX).expect("the window is not empty");
            sent.push((None, repair.0));
        }
        for (flow, packet) in sent {
            if i < unheard || random.chance(loss) {
                continue;
            }
            let mut packet = (flow, moved(flow.is_some(), &packet, beginning));
            if random.chance(damage) {
                damage_packet(random, &mut packet);
            }
            for _ in 0..=u64::from(random.chance(repeats)) {
                let place =
                    if random.chance(late) { random.between(packets.len().saturating_sub(6), packets.len()) } else { packets.len() };
                packets.insert(place, packet.clone());
            }
            if random.chance(oddity) {
                packets.push(odd(random, setting, beginning.wrapping_add(sender.symbols.len() as u32)));
            }
        }
    }
    packets
}

fn damage_packet(random: &mut Random, (flow, packet): &mut Packet) {
    match random.below(6) {
        0 => packet.truncate(random.between(0, packet.len())),
        1 => {
            let more = random.between(1, 9);
            packet.extend(random.bytes(more));
        }
        2 => *flow = flow.map(|flow| flow ^ 1),
        _ => {
            let at = random.below(packet.len() as u64) as usize;
            packet[at] ^= 1 << random.below(8);
        }
    }
}

/// A packet of a form or at a place that is refused, mostly, near an ESI.
fn odd(random: &mut Random, setting: Setting, esi: u32) -> Packet {
    let ahead = random.one_of(&[0, 1, 65_535, 65_536, 1_000_000, (1 << 31) - 1, 1 << 31, u32::MAX]);
    let position = u64::from(esi.wrapping_add(ahead));
    let symbol = random.bytes(setting.symbol_size);
    match random.below(6) {
        0 => {
            let length = random.between(0, 3);
            (Some(1), random.bytes(length))
        }
        1 => {
            let length = (setting.width * setting.symbol_size - 3).min(4079) + random.between(0, 1);
            (Some(1), source_packet(&random.bytes(length), position))
        }
        2 => {
            let length = random.between(0, 8 + 2 * setting.symbol_size);
            (None, random.bytes(length))
        }
        3 => (None, repair_packet(1, 15, random.one_of(&[0, setting.width as u16 + 1, 4095]), position, &[symbol])),
        4 => (None, repair_packet(1, 15, 1, position, &[symbol.clone(), symbol])),
        _ => (Some(1), source_packet(&[7], position)),
    }
}

/// A line that mostly does not have the form any more.
fn spoiled_line(random: &mut Random, mut line: Vec<u8>) -> Vec<u8> {
    let at = random.below(line.len() as u64) as usize;
    let byte = if random.chance(70) { random.one_of(b"\0\t\n\r 0A9Faf=\x80\xFF") } else { random.byte() };
    match random.below(12) {
        0 => line[at] = byte,
        1 => line.insert(at, byte),
        2 => drop(line.remove(at)),
        3 => line.truncate(at),
        4 => line.push(byte),
        5 => line.make_ascii_lowercase(),
        6 => line = line.repeat(2),
        7 => line = [&line[at..], &line[..at]].concat(),
        8 => line = random.bytes(at),
        9 => line.clear(),
        10 => line = FIRST.into(),
        _ => {
            let number = random.one_of(&["256", "00", "", "01", "999", "4294967296", "18446744073709551616", "+1", "-0"]);
            line = format!("kind=source flow={number} packet=4100000000").into_bytes();
        }
    }
    line
}

/// A long line: its length is around that of the longest or of what a reader may hold at once.
fn long_line(random: &mut Random) -> Vec<u8> {
    let length = random.one_of(&[4096, 8192, 8192, 8192, 12_288, 16_384, 32_768, 65_536]) - 4 + random.between(0, 8);
    let position = random.below(1 << 32);
    let mut line = source_line(random, length, position);
    if random.chance(30) {
        let from = random.between(0, length);
        line[from..].fill(random.one_of(b"0Ax \0"));
    }
    if random.chance(20) {
        line.extend(REPAIR.bytes());
    }
    line
}

fn random_capture(random: &mut Random) -> Vec<u8> {
    let setting = setting(random);
    let Setting { scheme, symbol_size, width } = setting;
    let first = format!("scheme={scheme} e={symbol_size} width={width}").into_bytes();
    let mut lines = vec![if random.chance(5) { spoiled_line(random, first) } else { first }];
    let adus = random.between(0, if width * symbol_size > 5000 { 20 } else { 50 });
    let [spoiled, long] = [20, 4].map(|most| random.below(most + 1));
    for packet in arriving(random, setting, adus) {
        lines.push(line_of(&packet));
        if random.chance(long) {
            lines.push(long_line(random));
        }
        if random.chance(spoiled) {
            let line = lines.pop().expect("a line");
            lines.push(spoiled_line(random, line));
        }
    }
    let mut input = joined(&lines);
    match random.below(4) {
        0 => drop(input.pop()),
        1 => input.truncate(random.between(0, input.len())),
        2 => input.extend(vec![b'\n'; random.between(0, 2)]),
        _ => {}
    }
    input
}

/// Captures of any kind, whole and in pieces.
#[test]
fn random_captures() {
    let (mut answers, mut bad, mut unended) = ([0; 16], 0, 0);
    runs(800, |seed| {
        let random = &mut Random::new(seed);
        let input = random_capture(random);
        let pieces = random.chance(30);
        agree_when_fed("random capture", &input, |pipe| match pieces {
            true => write_pieces(pipe, &input, 20, || piece(random)),
            false => pipe.write(&input),
        });
        let records = capture::records(&input);
        records.iter().for_each(|record| answers[record.answer as usize] += 1);
        bad += u64::from(records.is_empty());
        unended += u64::from(input.last() != Some(&b'\n'));
    });
    println!("answers {answers:?}, {bad} captures without records, {unended} without 0A at the end");
    if std::env::var_os("RLC8681_SEED").is_none() {
        assert!([0, 4, 5, 6, 8, 9, 11, FORM].iter().all(|&answer| answers[answer as usize] > 0), "answers {answers:?}");
        assert!(bad > 0 && unended > 0);
    }
}

// ---- Many lines, and long ones

/// What is to be printed where some packet lines are source packets of one new symbol and all others do not have the form.
fn printed_of(packet_lines: impl Iterator<Item = bool>) -> Vec<u8> {
    let record = |good| if good { Record { answer: 0, known: 1 } } else { Record { answer: FORM, known: 0 } };
    capture::text(&packet_lines.map(record).collect::<Vec<_>>())
}

/// After a million packet lines nothing is read, be it good or not, or cut off by the input's end.
#[test]
fn a_million_packet_lines() {
    let most = PACKET_LINES;
    let good = |n: usize| [1, 2, most / 2, most - 1, most, most + 1, most + 2].contains(&n);
    for (count, end) in [(most - 1, "\n"), (most, "\n"), (most, ""), (most + 1, ""), (most + 1, "\n"), (most + 200_000, "\n")] {
        let (mut input, mut packets) = (joined([FIRST]), 0);
        for n in 1..=count {
            if good(n) {
                input.extend(line_of(&(Some(1), source_packet(&[7], packets))));
                packets += 1;
            } else {
                input.push(b'x');
            }
            input.push(b'\n');
        }
        input.pop();
        input.extend(end.bytes());
        let expected = printed_of((1..=count.min(most)).map(good));
        same(&format!("{count} lines, then {end:?}"), &printed(&input), &expected);
    }
}

/// A million packet lines that are all accepted: the same repair packet, whose equation is implied from the second time on.
#[test]
fn a_million_accepted_lines() {
    let line = joined([REPAIR]);
    let feed = |pipe: &mut Pipe| {
        pipe.write(&joined([FIRST]))?;
        (0..=PACKET_LINES / 1000).try_for_each(|_| pipe.write(&line.repeat(1000)))
    };
    same("repair lines", &printed_when_fed(feed), &capture::text(&vec![Record { answer: 0, known: 0 }; PACKET_LINES]));
}

/// Some 100 MB of lines that are too long, made as they are written: one of 40 MB, many of one character too many, one that the input's end
/// cuts off; packet lines between them.
#[test]
fn lines_without_end() {
    let long = |pipe: &mut Pipe, bytes: &[u8], count: usize| (0..count).try_for_each(|_| pipe.write(bytes));
    let chunk = REPAIR.repeat(2000).into_bytes();
    let source = |esi: u8| joined([line_of(&(Some(1), source_packet(&[esi], u64::from(esi))))]);
    let feed = |pipe: &mut Pipe| {
        pipe.write(&joined([FIRST]))?;
        pipe.write(&source(0))?;
        long(pipe, &chunk, 470)?;
        pipe.write(b"\n")?;
        pipe.write(&source(1))?;
        long(pipe, &joined([vec![b'A'; 8193]]), 4000)?;
        pipe.write(&source(2))?;
        long(pipe, &chunk, 330)
    };
    let expected = [vec![true, false, true], vec![false; 4000], vec![true, false]].concat();
    same("lines without end", &printed_when_fed(feed), &printed_of(expected.into_iter()));
}

/// After a bad first line, and after the last packet line that counts, the program ends though its input does not.
#[test]
fn input_that_stays_open() {
    same("a bad first line", &printed_while_open(b"no first line\n"), NOTHING.as_bytes());
    let mut input = joined([FIRST]);
    input.extend(b"x\n".repeat(PACKET_LINES));
    same("all packet lines", &printed_while_open(&input), &printed_of((0..PACKET_LINES).map(|_| false)));
}

/// Where output cannot be written the program says so once and stops.
#[test]
fn output_that_cannot_be_written() {
    let file = Path::new(env!("CARGO_TARGET_TMPDIR")).join("many-lines.capture");
    fs::write(&file, [joined([FIRST]), b"x\n".repeat(200_000)].concat()).expect("the capture written");
    let full = fs::OpenOptions::new().write(true).open("/dev/full").expect("/dev/full");
    let (_, errors) = written(fs::File::open(&file).expect("the capture"), full.into());
    assert_eq!(String::from_utf8_lossy(&errors), "capture: standard output cannot be written\n");
}

/// Where input cannot be read the program says so, and prints what it has.
#[test]
fn input_that_cannot_be_read() {
    let (output, errors) = written(fs::File::open("/").expect("a folder"), Stdio::piped());
    same("a folder", &output, NOTHING.as_bytes());
    assert_eq!(String::from_utf8_lossy(&errors), "capture: standard input cannot be read\n");
}
