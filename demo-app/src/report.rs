//! The run in words and numbers.

use crate::bond::Paths;
use crate::grid::COLUMNS;
use crate::link::Kind;
use crate::options::Options;
use crate::stream::STRAY;
use crate::tally::{Got, Run, Times};
use rlc8681::Scheme;
use std::fmt::Write;
use std::time::Duration;

/// The link that the product is for, in Mbit/s.
const LINK: f64 = 33.6;

/// A whole number with a comma after every three digits.
pub fn grouped(number: u64) -> String {
    let digits = number.to_string();
    let mut text = String::new();
    for (i, digit) in digits.chars().enumerate() {
        if i > 0 && (digits.len() - i) % 3 == 0 {
            text.push(',');
        }
        text.push(digit);
    }
    text
}

/// "symbol" for one, else "symbols".
fn plural(count: u64, what: &str) -> String {
    format!("{what}{}", if count == 1 { "" } else { "s" })
}

/// "1 symbol", "2 symbols".
pub fn counted(count: u32, what: &str) -> String {
    format!("{count} {}", plural(u64::from(count), what))
}

/// "ADU", "2 ADUs".
pub fn each(count: u32, what: &str) -> String {
    if count == 1 {
        String::from(what)
    } else {
        counted(count, what)
    }
}

/// What the link loses.
pub fn losses(options: &Options) -> String {
    let Options { loss, burst, .. } = options;
    if *burst > 1.0 {
        format!("{loss} % of packets lost in bursts of {burst} on average")
    } else {
        format!("{loss} % of packets lost, each for itself")
    }
}

/// When the receiver is switched on; nothing where it always is.
pub fn switched_on(options: &Options) -> String {
    match options.join {
        0 => String::new(),
        join => format!("; receiver on after {} ADUs", grouped(join)),
    }
}

/// The grids of a run: "grids of 16 rows by 8 columns".
pub fn grids(rows: u32) -> String {
    format!("grids of {} by {COLUMNS} columns", counted(rows, "row"))
}

/// The symbols in the sender's window, and in the receivers' where they are wider.
pub fn windows(options: &Options) -> String {
    match options.bond {
        0 => format!("window of {}", options.width),
        _ => format!("window of {} (receivers {})", options.width, options.receiver_width()),
    }
}

pub fn field(scheme: Scheme) -> &'static str {
    match scheme {
        Scheme::Gf2 => "GF(2)",
        Scheme::Gf256 => "GF(2^8)",
    }
}

/// Part of a whole in percent.
pub fn percent(part: u64, whole: u64) -> String {
    format!("{:.1} %", 100.0 * part as f64 / whole.max(1) as f64)
}

/// Microseconds with three or more figures.
fn micros(nanos: f64) -> String {
    let us = nanos / 1000.0;
    match us {
        us if us < 10.0 => format!("{us:.2} µs"),
        us if us < 100.0 => format!("{us:.1} µs"),
        us => format!("{us:.0} µs"),
    }
}

/// The nanoseconds that a symbol takes on the link.
fn symbol_time(options: &Options) -> f64 {
    f64::from(options.symbol_size) * 8.0 / LINK * 1000.0
}

/// The settings, before the run.
pub fn settings(options: &Options) -> String {
    let Options { symbol_size, density, every, repairs, bond, .. } = options;
    let stream = match &options.file {
        Some(path) => path.display().to_string(),
        None => format!("made video, {} symbols", grouped(options.symbols)),
    };
    let (of, bytes) = (counted(*repairs, "symbol"), grouped(u64::from(*symbol_size)));
    let (scheme, field, windows) = (options.scheme.number(), field(options.scheme), windows(options));
    let mut text = String::new();
    let _ = writeln!(text, "RFC 8681 over a lossy link: scheme {scheme}, {field}; symbols of {bytes} bytes, {windows}");
    let _ = writeln!(text, "  stream  {stream}; seed {}", options.seed);
    let _ = writeln!(text, "  repair  a packet of {of} after every {}, DT {density}", each(*every, "ADU"));
    if options.interleave > 0 {
        let _ = writeln!(text, "  order   {}, sent column by column", grids(options.interleave));
    }
    let _ = writeln!(text, "  link    UDP on 127.0.0.1, {}, {}{}", losses(options), pace(options), switched_on(options));
    if *bond > 0 {
        let _ = writeln!(text, "  links   two in turn: of every {bond} packets, those of the slower come last to a second receiver");
    }
    text
}

/// The times of calls, and their share of the time that a symbol takes on the link.
pub fn times(options: &Options, calls: &[(&str, &Times)]) -> String {
    let symbol = symbol_time(options);
    let mut text = format!(
        "time per call, and its share of the {} of a symbol at {LINK} Mbit/s (by the clock: other work here counts in)\n",
        micros(symbol)
    );
    let _ = writeln!(
        text,
        "  {:<25} {:>9} {:>9} {:>7} {:>9} {:>7} {:>9} {:>7}",
        "", "calls", "median", "share", "99 in 100", "share", "worst", "share"
    );
    for (name, times) in calls {
        let _ = write!(text, "  {name:<25} {:>9}", grouped(times.count() as u64));
        for nanos in times.summary().iter().flatten() {
            let _ = write!(text, " {:>9} {:>7}", micros(*nanos), format!("{:.1} %", 100.0 * nanos / symbol));
        }
        text.push('\n');
    }
    text
}

/// A line of the result: what is told of, a count, and more.
pub fn line(text: &mut String, name: &str, count: u64, rest: &str) {
    let _ = writeln!(text, "{name:<9}{:>11} {rest}", grouped(count));
}

/// The pace of the link.
pub fn pace(options: &Options) -> String {
    options.mbit.map_or(String::from("as fast as possible"), |mbit| format!("at {mbit} Mbit/s"))
}

/// How fast so many bytes went.
pub fn rate(bytes: u64, time: Duration) -> String {
    let seconds = time.as_secs_f64();
    format!("in {seconds:.2} s: {:.0} Mbit/s", bytes as f64 * 8.0 / 1e6 / seconds.max(1e-9))
}

/// The result, after the run.
pub fn result(options: &Options, run: &Run) -> String {
    let mut text = String::new();
    let (sent, got) = (&run.sent, &run.got);
    let mut line = |name: &str, count: u64, rest: String| line(&mut text, name, count, &rest);
    for (name, what, kind) in [("packets", "source", Kind::Source), ("", "repair", Kind::Repair)] {
        let (all, arrived, lost) = run.packets(kind);
        let unheard = match all - arrived - lost {
            0 => String::new(),
            unheard => format!(", {} before the receiver was on", grouped(unheard)),
        };
        line(name, all, format!("{what} sent: {} arrived, {} lost{unheard}", grouped(arrived), grouped(lost)));
    }
    if options.interleave > 0 {
        let (on_link, in_stream, of_row) = run.lost_at_most();
        let packets = plural(on_link, "packet");
        let told = format!("{} in the stream's order; of a grid's row of {COLUMNS} at most {of_row}", grouped(in_stream));
        line("order", on_link, format!("{packets} lost in a row on the link at most; {told}"));
    }
    if sent.strays > 0 {
        let (by_sender, by_receiver) = (grouped(sent.strays), grouped(got.strays));
        line("strays", sent.strays, format!("of flow {STRAY}, not announced: sender refused {by_sender}, receiver {by_receiver} (16)"));
    }
    if options.bond > 0 {
        let paths = &got.paths;
        line("paths", paths.compared, compared(options.bond, paths));
        let starts = format!("{} {} said 13 in one alone", grouped(paths.starts), plural(paths.starts, "ADU call"));
        line("", paths.recounted, format!("of {} packets got another count from the second; {starts}", grouped(paths.accepted)));
    }
    let (heard, rebuilt, never) = run.symbols();
    // What lies before the position joined at is not held against repair.
    let share = percent(rebuilt, rebuilt + never.saturating_sub(run.before()));
    let told = match run.before() {
        0 if rebuilt + never == 0 => String::new(),
        0 => format!("; {share} of the lost ones rebuilt"),
        before => format!(", {} of them before joining; from there on {share} of those not heard rebuilt", grouped(before)),
    };
    let known = format!("sent: {} heard, {} rebuilt, {} never known{told}", grouped(heard), grouped(rebuilt), grouped(never));
    line("symbols", sent.symbols, known);
    let (missing, flows) = (sent.adus.saturating_sub(got.adus), counted(sent.flows.len() as u32, "flow"));
    line("ADUs", sent.adus, format!("sent: {} handed out, {} missing; {flows}", grouped(got.adus), grouped(missing)));
    line("bytes", sent.bytes, format!("sent: {} handed out, each compared with what was sent", grouped(got.bytes)));
    let beside = if options.interleave > 0 { "repair, heads and padding" } else { "repair and heads" };
    line("", sent.link_bytes, format!("with {beside}, {}", rate(sent.link_bytes, run.time)));

    let calls = [
        ("sender: add an ADU", &sent.add),
        ("sender: make repair", &sent.make),
        ("receiver: source packet", &got.source),
        ("receiver: repair packet", &got.repair),
        ("receiver: ADU, handed out", &got.adu),
        ("receiver: ADU, not yet", &got.adu_refused),
    ];
    text.push_str(&times(options, &calls));
    text.push_str(&out_of_reach(got));
    text
}

/// What came of the comparisons of two receivers.
fn compared(bond: u32, paths: &Paths) -> String {
    let (comparisons, count) = (plural(paths.compared, "comparison"), paths.differences.count);
    let differences = format!("{} {}", grouped(count), plural(count, "difference"));
    let parted = paths.parted.as_ref().map_or(String::new(), |parted| format!("; none since {parted}"));
    format!("{comparisons}, after every {bond} packets: {differences} in symbols known, their bytes, heard or solved, and ADUs{parted}")
}

/// The packets that were refused for their place, where there are any.
fn out_of_reach(got: &Got) -> String {
    let mut text = String::new();
    let (behind, ahead) = (got.refused[8], got.refused[9]);
    if behind > 0 {
        let early = match got.early {
            0 => String::new(),
            early => format!(", {} of them reaching back before the joining packet's first symbol", grouped(early)),
        };
        let _ = writeln!(text, "{} packets arrived behind the window (refusal 8){early}", grouped(behind));
    }
    if ahead > 0 {
        let _ = writeln!(text, "{} packets arrived too far ahead of the window (refusal 9)", grouped(ahead));
    }
    text
}

/// The verdict, last.
pub fn verdict(run: &Run) -> String {
    let faults = run.faults();
    if faults.is_empty() && run.got.adus == 0 {
        return String::from("Nothing was handed out.\n");
    }
    if faults.is_empty() {
        return format!("Right: all {} ADUs handed out equal those sent, flow and every byte.\n", grouped(run.got.adus));
    }
    let mut text = String::new();
    for fault in faults {
        let _ = writeln!(text, "WRONG: {fault}");
    }
    text
}

#[cfg(test)]
mod tests {
    use crate::tally::Got;

    /// The joining packet is named for those packets alone that reach back before it, even where there are symbols before it.
    #[test]
    fn packets_out_of_reach() {
        let told = |behind, early, ahead| {
            let mut got = Got { joined: Some(5), early, ..Got::default() };
            (got.refused[8], got.refused[9]) = (behind, ahead);
            super::out_of_reach(&got)
        };
        let behind = "1,200 packets arrived behind the window (refusal 8)";
        let early = ", 37 of them reaching back before the joining packet's first symbol";
        let ahead = "3 packets arrived too far ahead of the window (refusal 9)\n";
        assert_eq!(told(0, 0, 0), "");
        assert_eq!(told(0, 0, 3), ahead);
        assert_eq!(told(1200, 0, 0), format!("{behind}\n"));
        assert_eq!(told(1200, 37, 3), format!("{behind}{early}\n{ahead}"));
    }

    #[test]
    fn digits_are_grouped() {
        assert_eq!([0u64, 999, 1000, 1_234_567].map(super::grouped), ["0", "999", "1,000", "1,234,567"].map(String::from));
    }
}
