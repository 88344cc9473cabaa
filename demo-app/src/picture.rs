//! The run as a picture: every source symbol with its fate, a burst on the link and in the stream, one burst packet by packet, the delays.

use crate::grid::COLUMNS;
use crate::link::Kind;
use crate::options::Options;
use crate::report::{counted, each, field, grids, grouped, losses, percent, switched_on, windows};
use crate::stream::ceiling;
use crate::tally::{longest, Fate, Packet, Run};
use std::cmp::Reverse;
use std::fmt::Write;
use std::ops::Range;

/// Light, and dark where the reader prefers it.
const STYLE: &str = "\
text{font-family:system-ui,-apple-system,'Segoe UI',Roboto,'DejaVu Sans',sans-serif;font-size:13px;fill:#1b2430}\
.b{fill:#fff}.l{stroke:#fff;fill:none}.p{fill:#f3f5f8}.t{font-size:24px;font-weight:700}.n{font-size:26px;font-weight:700}\
.h{font-size:15px;font-weight:600}.m,.s{fill:#5a6675}.s{font-size:11px}.a{stroke:#b9c2cd;fill:none}\
.c{fill:#93a4b7}.f0{fill:#ccd5df}.f1{fill:#25b07c}.f2{fill:#1d86b8}.f3{fill:#5a4fcf}.f4{fill:#e2402b}\
.o{stroke:#e2402b;fill:none;stroke-width:1.3}.w{stroke:#d99a1c;stroke-width:2.2;fill:none}\
.x{stroke:#e2402b;stroke-width:1.3;fill:none;stroke-dasharray:2 3}\
.g{stroke:#25b07c;stroke-width:1.2;fill:none}\
@media(prefers-color-scheme:dark){text{fill:#e6ebf1}.b{fill:#10151b}.l{stroke:#10151b}.p{fill:#1a212a}.m,.s{fill:#97a3b1}.a{stroke:#455261}\
.c{fill:#66788c}.f0{fill:#3a4653}.f1{fill:#35d399}.f2{fill:#38aee8}.f3{fill:#9b8cff}\
.f4{fill:#ff5d47}.o,.x{stroke:#ff5d47}.w{stroke:#f0b840}.g{stroke:#35d399}}";

const WIDE: f64 = 1200.0;
const MARGIN: f64 = 40.0;
/// Cells in a row of the map, and the most cells in it.
const ROW: usize = 200;
const MOST_CELLS: usize = 20_000;
/// The packets within which a rebuilt symbol counts as soon, and as later; beyond them it is late.
const SOON: u64 = 10;
const LATER: u64 = 25;

/// The class of a colour: heard, rebuilt (by delay), never known, and that because it came before the receiver joined; the worst of several
/// symbols is the largest.
const HEARD: usize = 0;
const NEVER: usize = 4;
const BEFORE: usize = 5;

/// The class attribute of a colour; what came before joining is a paler never known.
fn colour(class: usize) -> String {
    match class {
        BEFORE => format!("f{NEVER}\" opacity=\".35"),
        class => format!("f{class}"),
    }
}

fn rebuilt_class(delay: u64) -> usize {
    match delay {
        0..=SOON => 1,
        d if d <= LATER => 2,
        _ => 3,
    }
}

struct Svg(String);

impl Svg {
    fn rect(&mut self, class: &str, x: f64, y: f64, w: f64, h: f64) {
        let _ = write!(self.0, "<rect class=\"{class}\" x=\"{}\" y=\"{}\" width=\"{}\" height=\"{}\"/>", n(x), n(y), n(w), n(h));
    }

    fn round(&mut self, class: &str, x: f64, y: f64, w: f64, h: f64) {
        let (x, y, w, h) = (n(x), n(y), n(w), n(h));
        let _ = write!(self.0, "<rect class=\"{class}\" x=\"{x}\" y=\"{y}\" width=\"{w}\" height=\"{h}\" rx=\"6\"/>");
    }

    fn path(&mut self, class: &str, path: &str) {
        if !path.is_empty() {
            let _ = write!(self.0, "<path class=\"{class}\" d=\"{path}\"/>");
        }
    }

    /// A path of lines of this width, half transparent.
    fn faint(&mut self, class: &str, width: f64, path: &str) {
        if !path.is_empty() {
            let _ = write!(self.0, "<path class=\"{class}\" opacity=\".5\" style=\"stroke-width:{}\" d=\"{path}\"/>", n(width));
        }
    }

    fn text(&mut self, class: &str, x: f64, y: f64, text: &str) {
        self.anchored(class, "start", x, y, text);
    }

    fn anchored(&mut self, class: &str, anchor: &str, x: f64, y: f64, text: &str) {
        let anchor = if anchor == "start" { String::new() } else { format!(" text-anchor=\"{anchor}\"") };
        let text = text.replace('&', "&amp;").replace('<', "&lt;").replace('>', "&gt;");
        let _ = write!(self.0, "<text class=\"{class}\" x=\"{}\" y=\"{}\"{anchor}>{text}</text>", n(x), n(y));
    }
}

/// A coordinate, to a tenth.
fn n(value: f64) -> String {
    let text = format!("{value:.1}");
    text.strip_suffix(".0").map_or(text.clone(), String::from)
}

/// The next multiple of five, from five on.
fn fives(number: u64) -> u64 {
    (number.max(1) + 4) / 5 * 5
}

/// About how wide a text is.
fn width(text: &str) -> f64 {
    text.chars().map(|c| if "il., ".contains(c) { 4.4 } else { 8.1 }).sum()
}

fn bar(path: &mut String, x: f64, y: f64, w: f64, h: f64) {
    let _ = write!(path, "M{} {}h{}v{}h-{}z", n(x), n(y), n(w), n(h), n(w));
}

/// The runs of equal elements of a list.
fn runs<T: PartialEq>(list: &[T]) -> Vec<Range<usize>> {
    let mut runs = Vec::new();
    let mut start = 0;
    for end in 1..=list.len() {
        if list.get(end) != Some(&list[start]) {
            runs.push(start..end);
            start = end;
        }
    }
    runs
}

/// What the picture shows of the run: by position, the number of the source packet and the class of the colour.
struct Seen<'a> {
    run: &'a Run,
    /// Whether packets are sent in another order than they are made in.
    spread: bool,
    sent_at: Vec<u32>,
    delays: Vec<u64>,
}

impl Seen<'_> {
    fn delay(&self, position: u64) -> Option<u64> {
        match self.run.fate(position) {
            Fate::Rebuilt(by) => Some(u64::from(by.saturating_sub(self.sent_at.get(position as usize).copied()?))),
            _ => None,
        }
    }

    fn class(&self, position: u64) -> usize {
        match self.run.fate(position) {
            Fate::Heard => HEARD,
            Fate::Never if position < self.run.before() => BEFORE,
            Fate::Never => NEVER,
            Fate::Rebuilt(_) => rebuilt_class(self.delay(position).unwrap_or(0)),
        }
    }
}

pub fn draw(options: &Options, run: &Run) -> String {
    let mut sent_at = Vec::new();
    for (number, packet) in (0u32..).zip(&run.sent.packets).filter(|(_, p)| p.kind == Kind::Source) {
        sent_at.extend((0..packet.symbols).map(|_| number));
    }
    let mut seen = Seen { run, spread: options.interleave > 0, sent_at, delays: Vec::new() };
    seen.delays = (0..run.sent.symbols).filter_map(|p| seen.delay(p)).collect();
    seen.delays.sort_unstable();

    let mut svg = Svg(String::new());
    let mut y = heading(&mut svg, options, run);
    y = map(&mut svg, &seen, y + 44.0);
    if seen.spread {
        y = spread(&mut svg, run, options.interleave, y + 44.0);
    }
    let below = y + 44.0;
    let left = burst(&mut svg, &seen, below, MARGIN, 760.0);
    let right = delays(&mut svg, &seen, below, 850.0, WIDE - MARGIN - 850.0);
    let tall = n(left.max(right) + MARGIN);
    let (_, rebuilt, never) = run.symbols();
    let about = format!("{rebuilt} lost symbols rebuilt and {never} never known, of {} sent.", run.sent.symbols);
    format!(
        "<svg xmlns=\"http://www.w3.org/2000/svg\" viewBox=\"0 0 {WIDE} {tall}\" role=\"img\"><title>RFC 8681 over a lossy link</title>\
         <desc>{about}</desc><style>{STYLE}</style><rect class=\"b\" width=\"{WIDE}\" height=\"{tall}\"/>{}</svg>\n",
        svg.0
    )
}

/// Title and figures. Gives where they end.
fn heading(svg: &mut Svg, options: &Options, run: &Run) -> f64 {
    let (heard, rebuilt, never) = run.symbols();
    let (source, _, source_lost) = run.packets(Kind::Source);
    let (repair, _, repair_lost) = run.packets(Kind::Repair);
    let (packets, lost) = (source + repair, source_lost + repair_lost);
    svg.text("t", MARGIN, 56.0, "RFC 8681 over a lossy link");
    let Options { scheme, symbol_size, every, repairs, seed, .. } = options;
    let told = format!(
        "scheme {}, {}; symbols of {} bytes, {}; {} after every {}; {}{}; seed {seed}",
        scheme.number(),
        field(*scheme),
        grouped(u64::from(*symbol_size)),
        windows(options),
        counted(*repairs, "repair symbol"),
        each(*every, "ADU"),
        losses(options),
        switched_on(options)
    );
    svg.text("m", MARGIN, 80.0, &told);
    let tiles = [
        (grouped(packets), format!("packets, {} of them repair", grouped(repair))),
        (grouped(lost), format!("packets lost, {}", percent(lost, packets))),
        (grouped(heard), format!("of {} symbols heard", grouped(run.sent.symbols))),
        (grouped(rebuilt), format!("rebuilt, {} never known", grouped(never))),
        (grouped(run.got.adus), format!("of {} ADUs handed out", grouped(run.sent.adus))),
    ];
    let (gap, y) = (14.0, 100.0);
    let wide = (WIDE - 2.0 * MARGIN + gap) / tiles.len() as f64 - gap;
    for (i, (number, what)) in tiles.iter().enumerate() {
        let x = MARGIN + i as f64 * (wide + gap);
        svg.round("p", x, y, wide, 72.0);
        svg.text("n", x + 14.0, y + 34.0, number);
        svg.text("m", x + 14.0, y + 57.0, what);
    }
    y + 72.0
}

/// A cell for each symbol, row after row. Gives where the map ends.
fn map(svg: &mut Svg, seen: &Seen, y: f64) -> f64 {
    let symbols = usize::try_from(seen.run.sent.symbols).unwrap_or(usize::MAX);
    let in_cell = ceiling(symbols, MOST_CELLS).max(1);
    let cells = ceiling(symbols, in_cell);
    let classes: Vec<usize> = (0..cells)
        .map(|cell| (cell * in_cell..((cell + 1) * in_cell).min(symbols)).map(|p| seen.class(p as u64)).max().unwrap_or(HEARD))
        .collect();
    let what = if in_cell == 1 { String::from("a cell is a symbol") } else { format!("a cell is the worst of {in_cell} symbols") };
    svg.text("h", MARGIN, y, "Every source symbol");
    let before = classes.contains(&BEFORE);
    let order = if seen.spread { ", in the order made" } else { ", in the order sent" };
    svg.text("m", MARGIN + 184.0, y, &format!("{what}{}", if before { "" } else { order }));
    legend(svg, y, before);

    let (left, step) = (MARGIN + 56.0, 7.0);
    let (wide, tall) = ((WIDE - MARGIN - left) / ROW as f64, 5.6);
    let top = y + 16.0;
    let mut paths = vec![String::new(); BEFORE + 1];
    for (row, line) in classes.chunks(ROW).enumerate() {
        let y = top + row as f64 * step;
        for run in runs(line) {
            bar(&mut paths[line[run.start]], left + run.start as f64 * wide, y, run.len() as f64 * wide, tall);
        }
        if row % 5 == 0 {
            svg.anchored("s", "end", left - 8.0, y + tall, &grouped((row * ROW * in_cell) as u64));
        }
    }
    for (class, path) in paths.iter().enumerate() {
        svg.path(&colour(class), path);
    }
    let bottom = top + ceiling(cells, ROW) as f64 * step;
    let mut lines = String::new();
    for column in 1..ROW {
        let _ = write!(lines, "M{} {}V{}", n(left + column as f64 * wide), n(top), n(bottom));
    }
    svg.path("l", &lines);
    bottom
}

fn legend(svg: &mut Svg, y: f64, before: bool) {
    let mut names = vec![
        (String::from("heard"), HEARD),
        (format!("rebuilt within {SOON} packets"), 1),
        (format!("within {LATER}"), 2),
        (String::from("later"), 3),
        (String::from("never known"), NEVER),
    ];
    if before {
        names.push((String::from("before joining"), BEFORE));
    }
    keys(svg, y, &names.iter().map(|(name, class)| (name.as_str(), colour(*class))).collect::<Vec<_>>());
}

/// Names with the classes of their colours, up to the right margin.
fn keys(svg: &mut Svg, y: f64, names: &[(&str, String)]) {
    let mut x = WIDE - MARGIN + 18.0 - names.iter().map(|(name, _)| width(name) + 35.0).sum::<f64>();
    for (name, class) in names {
        svg.rect(class, x, y - 10.0, 11.0, 11.0);
        svg.text("m", x + 17.0, y, name);
        x += width(name) + 35.0;
    }
}

/// The grid with the longest run of losses: its packets in send order, and below them in the order made, row by row. Gives where it ends.
fn spread(svg: &mut Svg, run: &Run, rows: u32, y: f64) -> f64 {
    svg.text("h", MARGIN, y, "A burst, spread");
    let columns = COLUMNS as usize;
    let cells = rows as usize * columns;
    let lost_of = |grid: &[u32]| longest(grid.iter().map(|&number| run.lost(number)));
    // Only the last grid can have fewer packets than cells.
    let grids_sent = run.sent.order.chunks(cells).enumerate();
    let Some((at, grid)) = grids_sent.max_by_key(|(at, grid)| (lost_of(grid), Reverse(*at))).filter(|(_, grid)| lost_of(grid) > 0) else {
        svg.text("m", MARGIN, y + 30.0, "No packet was lost.");
        return y + 40.0;
    };
    let first = at * cells;
    let of_row = |row: &[Packet]| row.iter().filter(|p| p.lost).count();
    let worst = run.sent.packets[first..first + grid.len()].chunks(columns).map(of_row).max().unwrap_or(0);
    let burst = counted(lost_of(grid) as u32, "packet");
    svg.text("m", MARGIN + 138.0, y, &format!("{}: {burst} lost in a row on the link, {worst} of a grid's row at most", grids(rows)));

    let (wide, tall, apart) = (WIDE - 2.0 * MARGIN, 18.0, 72.0);
    let above = wide / cells as f64;
    let (gap, between) = ((above * 1.2).min(10.0), (above * 0.12).min(1.5));
    let row = (wide + gap) / f64::from(rows);
    let below = (row - gap) / columns as f64;
    let (upper, lower) = (y + 36.0, y + 36.0 + tall + apart);
    let (mut arrived, mut unheard, mut lost, mut lines) = <(String, String, String, String)>::default();
    for (place, &number) in grid.iter().enumerate() {
        let (packet, made) = (&run.sent.packets[number as usize], number as usize - first);
        let x = MARGIN + place as f64 * above;
        let to = MARGIN + (made / columns) as f64 * row + (made % columns) as f64 * below;
        let path = match (packet.lost, packet.unheard) {
            (true, _) => &mut lost,
            (_, true) => &mut unheard,
            _ => &mut arrived,
        };
        // What is lost stays visible where cells are narrow.
        let least = if packet.lost { 1.2 } else { 0.0 };
        bar(path, x, upper, (above - between).max(least), tall);
        bar(path, to, lower, (below - between).max(least), tall);
        if packet.lost {
            let _ = write!(lines, "M{} {}L{} {}", n(x + above / 2.0), n(upper + tall), n(to + below / 2.0), n(lower));
        }
    }
    svg.faint("o", (above / 6.0).clamp(0.2, 1.0), &lines);
    svg.path("c", &arrived);
    svg.path(&colour(HEARD), &unheard);
    svg.path(&colour(NEVER), &lost);
    svg.text("s", MARGIN, upper - 8.0, "on the link, in send order");
    let (from, to) = (grouped(first as u64), grouped((first + grid.len() - 1) as u64));
    svg.text("s", MARGIN, lower + tall + 16.0, &format!("in the order made, row by row: packets {from} to {to}"));
    let mut names = vec![("arrived", String::from("c")), ("lost", colour(NEVER))];
    if !unheard.is_empty() {
        names.push(("receiver off", colour(HEARD)));
    }
    keys(svg, y, &names);
    lower + tall + 16.0
}

/// The burst worth a look: of the runs of lost packets that were rebuilt whole, within a time that can be drawn, the one with the
/// most symbols; its packets, and those up to the last that it took.
fn chosen(seen: &Seen) -> Option<(Range<usize>, usize)> {
    let packets = &seen.run.sent.packets;
    let mut best: Option<(u64, Range<usize>, usize)> = None;
    let lost: Vec<bool> = packets.iter().map(|p| p.lost).collect();
    for range in runs(&lost).into_iter().filter(|run| lost[run.start]) {
        let positions = packets[range.clone()].iter().filter(|p| p.kind == Kind::Source).flat_map(|p| p.first..p.end());
        let solved: Option<Vec<u32>> = positions.map(|p| if let Fate::Rebuilt(by) = seen.run.fate(p) { Some(by) } else { None }).collect();
        let Some(solved) = solved else { continue };
        let Some(last) = solved.iter().max().map(|&by| by as usize) else { continue };
        if last - range.start <= 56 && best.as_ref().map_or(true, |(most, ..)| solved.len() as u64 > *most) {
            best = Some((solved.len() as u64, range, last));
        }
    }
    best.map(|(_, range, last)| (range, last))
}

/// One burst: time from left to right, positions downward. Gives where it ends.
fn burst(svg: &mut Svg, seen: &Seen, y: f64, left: f64, wide: f64) -> f64 {
    svg.text("h", left, y, "One burst");
    let packets = &seen.run.sent.packets;
    let Some((lost, last)) = chosen(seen) else {
        svg.text("m", left, y + 30.0, "No run of lost packets was rebuilt whole.");
        return y + 40.0;
    };
    let shown = lost.start.saturating_sub(4)..(last + 4).min(packets.len());
    let sources = || packets[shown.clone()].iter().filter(|p| p.kind == Kind::Source);
    let (Some(low), Some(high)) = (sources().map(|p| p.first).min(), sources().map(Packet::end).max()) else { return y };
    let symbols: u64 = packets[lost.clone()].iter().filter(|p| p.kind == Kind::Source).map(|p| u64::from(p.symbols)).sum();
    let (count, later) = (lost.len(), last - lost.start);
    let told = if seen.spread {
        let (lost, later) = (counted(count as u32, "packet"), counted(later as u32, "packet"));
        format!("{lost} lost in a row in the order made, {}: known again {later} later", counted(symbols as u32, "symbol"))
    } else {
        format!("{count} packets lost in a row, {symbols} symbols: known again {later} packets later")
    };
    svg.text("m", left + 90.0, y, &told);

    let (axis, top, tall) = (left + 56.0, y + 44.0, 380.0);
    let (column, row) = ((wide - 56.0) / shown.len() as f64, tall / (high - low) as f64);
    let x_of = |number: usize| axis + (number - shown.start) as f64 * column;
    let y_of = |position: u64| top + (position.clamp(low, high) - low) as f64 * row;
    svg.rect("p", axis, top, wide - 56.0, tall);
    let (mut heard, mut outline, mut windows, mut gone, mut threads, mut dots) =
        <(String, String, String, String, String, String)>::default();
    for number in shown.clone() {
        let packet = &packets[number];
        let (x, middle) = (x_of(number), x_of(number) + column / 2.0);
        let (from, to) = (y_of(packet.first), y_of(packet.end()));
        match (packet.kind, packet.lost) {
            _ if packet.unheard => {}
            (Kind::Source, false) => bar(&mut heard, x + 1.0, from + 0.5, column - 2.0, to - from - 1.0),
            (Kind::Source, true) => bar(&mut outline, x + 1.5, from + 1.0, column - 3.0, to - from - 2.0),
            (_, false) => {
                let _ = write!(windows, "M{} {}V{}", n(middle), n(from), n(to));
            }
            (_, true) => {
                let _ = write!(gone, "M{} {}V{}", n(middle), n(from), n(to));
            }
        }
    }
    for number in shown.clone().filter(|&number| packets[number].kind == Kind::Source) {
        for position in packets[number].first..packets[number].end() {
            let Fate::Rebuilt(by) = seen.run.fate(position) else { continue };
            let y = y_of(position) + row / 2.0;
            let end = (by as usize).min(shown.end - 1);
            let _ = write!(threads, "M{} {}H{}", n(x_of(number) + column), n(y), n(x_of(end) + column / 2.0));
            if by as usize == end {
                let side = row.clamp(3.0, 7.0);
                bar(&mut dots, x_of(end) + column / 2.0 - side / 2.0, y - side / 2.0, side, side);
            }
        }
    }
    svg.path("w", &windows);
    svg.path("x", &gone);
    svg.path("c", &heard);
    svg.path("o", &outline);
    svg.path("g", &threads);
    svg.path("f1", &dots);

    // Keys above, ticks at the sides.
    let mut x = axis;
    for (name, class) in [("source packet", "c"), ("lost", "o"), ("repair packet, over its window", "w"), ("lost", "x"), ("rebuilt", "f1")]
    {
        match class {
            "w" | "x" => svg.path(class, &format!("M{} {}V{}", n(x + 5.0), n(top - 20.0), n(top - 8.0))),
            _ => svg.rect(class, x, top - 19.0, 10.0, 10.0),
        }
        svg.text("m", x + 16.0, top - 10.0, name);
        x += width(name) + 36.0;
    }
    let every = fives((high - low) / 8);
    for position in (low..high).filter(|p| p % every == 0) {
        svg.anchored("s", "end", axis - 8.0, y_of(position) + 8.0, &grouped(position));
    }
    for number in shown.clone().filter(|number| number % 10 == 0) {
        svg.anchored("s", "middle", x_of(number) + column / 2.0, top + tall + 16.0, &grouped(number as u64));
    }
    let order = if seen.spread { "in the order made" } else { "on the link" };
    svg.text("s", axis, top + tall + 34.0, &format!("packets {order}, left to right; positions of source symbols, downward"));
    top + tall + 34.0
}

/// How many packets passed until a lost symbol was rebuilt. Gives where it ends.
fn delays(svg: &mut Svg, seen: &Seen, y: f64, left: f64, wide: f64) -> f64 {
    svg.text("h", left, y, "Delay until rebuilt");
    let (Some(&median), Some(&worst)) = (seen.delays.get(seen.delays.len() / 2), seen.delays.last()) else {
        svg.text("m", left, y + 30.0, "No symbol was rebuilt.");
        return y + 40.0;
    };
    svg.text("m", left, y + 24.0, &format!("in packets: median {median}, worst {worst}"));
    let (top, tall) = (y + 44.0, 380.0);
    let each = worst / 40 + 1;
    let bins = worst / each + 1;
    let mut counts = vec![0u64; bins as usize];
    seen.delays.iter().for_each(|delay| counts[(delay / each) as usize] += 1);
    let most = counts.iter().copied().max().unwrap_or(1).max(1);
    let column = wide / bins as f64;
    svg.rect("p", left, top, wide, tall);
    let mut paths = vec![String::new(); NEVER + 1];
    for (bin, &count) in (0u64..).zip(&counts).filter(|(_, &count)| count > 0) {
        let h = (tall - 24.0) * count as f64 / most as f64;
        bar(&mut paths[rebuilt_class(bin * each)], left + bin as f64 * column + 0.5, top + tall - h, (column - 1.0).max(0.5), h);
    }
    for (class, path) in paths.iter().enumerate() {
        svg.path(&format!("f{class}"), path);
    }
    let tick = fives(bins * each / 5);
    for delay in (0..bins * each).filter(|d| d % tick == 0) {
        let x = left + (delay / each) as f64 * column + column / 2.0;
        svg.anchored("s", "middle", x, top + tall + 16.0, &grouped(delay));
    }
    svg.anchored("s", "end", left + wide - 6.0, top + 16.0, &format!("tallest: {} symbols", grouped(most)));
    let after = if seen.spread { "packets made after its own" } else { "packets on the link after its own" };
    svg.text("s", left, top + tall + 34.0, after);
    top + tall + 34.0
}
