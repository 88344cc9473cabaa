//! Short runs of known outcome. The damaged ones show that the comparison can fail.

use crate::block;
use crate::ends;
use crate::grid::COLUMNS;
use crate::link::Kind;
use crate::options::{self, Options};
use crate::picture;
use crate::report;
use crate::stream::ceiling;
use crate::tally::{Fate, Packet, Run};
use rlc8681::Scheme;
use std::ffi::OsString;

type Check = fn() -> Result<(), String>;

/// Prints what came out wrong, or that nothing did. True where nothing did.
pub fn run() -> bool {
    let checks: [(&str, Check); 54] = [
        ("scheme 10 rebuilds", || rebuilds(short())),
        ("scheme 9 rebuilds", || rebuilds(Options { scheme: Scheme::Gf2, density: 7, ..short() })),
        ("small symbols, odd width, many repairs", || {
            rebuilds(Options { symbol_size: 5, width: 255, repairs: 16, every: 40, density: 11, ..short() })
        }),
        ("heavy loss, long bursts", || right(&Options { loss: 60.0, burst: 20.0, ..short() }).map(drop)),
        ("no loss, nothing missing", || lossless(Options { loss: 0.0, ..short() })),
        ("all lost, nothing handed out", || silent(Options { loss: 100.0, ..short() })),
        ("joining at a source packet", || joins(Options { join: 301, ..short() }, Kind::Source)),
        ("joining at a repair packet", || joins(Options { join: 300, ..short() }, Kind::Repair)),
        // Here the link loses the first packet, and the second arrives
        ("joining at the second packet", || joins(Options { loss: 30.0, seed: 48, ..short() }, Kind::Source)),
        ("strays are refused, and change nothing", || strays(short())),
        ("strays alone join nothing", || silent(Options { loss: 100.0, stray: 1, ..short() })),
        // The first packet that the receiver hears is a stray
        ("a stray, then joining", || joins(Options { join: 301, stray: 7, ..short() }, Kind::Source)),
        ("a stray that is taken is noticed", || taken(Options { open_to_strays: true, ..short() })),
        ("the same seed, the same run", || repeats(short())),
        ("a symbol rebuilt first and heard later is heard", || heard_later(short())),
        ("a wrong origin is noticed", || misheard(short())),
        ("a damaged source packet is noticed", || noticed(short(), Damage::Source)),
        ("a damaged repair packet that solves is noticed", || noticed(short(), Damage::Solving)),
        ("a damaged repair packet over known symbols is refused", || noticed(short(), Damage::Implied)),
        ("long bursts, a grid: more symbols known", || {
            [2, 5, 8681].iter().try_for_each(|&seed| spreads(Options { loss: 8.0, burst: 10.0, seed, ..grid(16) }))
        }),
        ("as many lost in a row as a grid has rows: of each row at most one", spread_apart),
        ("a grid of one row changes nothing", || same_order(grid(1))),
        ("no loss, a last grid that is not full: nothing missing", || not_full(Options { loss: 0.0, ..grid(16) })),
        ("a grid, all lost, nothing handed out", || silent(Options { loss: 100.0, ..grid(5) })),
        ("a grid, scheme 9, small symbols, many repairs", || {
            rebuilds(Options { scheme: Scheme::Gf2, density: 7, symbol_size: 7, width: 255, repairs: 16, every: 40, ..grid(255) })
        }),
        // The receiver is switched on while a grid is sent, and hears the last cells of its rows
        ("a grid, joining at a source packet", || joins(Options { join: 312, ..grid(16) }, Kind::Source)),
        ("a grid, joining at a repair packet", || joins(Options { join: 306, ..grid(16) }, Kind::Repair)),
        ("a grid, strays are refused, and change nothing", || strays(grid(16))),
        ("a grid, a symbol rebuilt first and heard later is heard", || heard_later(grid(16))),
        ("a grid, a damaged source packet is noticed", || noticed(grid(16), Damage::Source)),
        ("a grid, a damaged repair packet is noticed", || noticed(grid(16), Damage::Solving)),
        ("two links, scheme 10: both receivers show the same", || {
            [2, 3, 16, 64].iter().try_for_each(|&bond| bonded(links(bond)).map(drop))
        }),
        ("two links, scheme 9: both receivers show the same", || {
            [2, 3, 16, 64].iter().try_for_each(|&bond| bonded(Options { scheme: Scheme::Gf2, density: 7, ..links(bond) }).map(drop))
        }),
        ("two links, small symbols, widest window, many repairs", || {
            bonded(Options { symbol_size: 5, width: 191, repairs: 16, every: 40, density: 11, ..links(64) }).map(drop)
        }),
        ("two links, heavy loss: starts differ, and nothing else", || {
            starts_differ(Options { symbol_size: 4, width: 10, loss: 45.0, burst: 1.0, every: 1, ..links(16) })
        }),
        ("two links, joining at a source packet", || joins(Options { join: 301, ..links(16) }, Kind::Source)),
        ("two links, joining at a repair packet", || joins(Options { join: 300, ..links(16) }, Kind::Repair)),
        ("two links, all lost, nothing handed out", || silent(Options { loss: 100.0, ..links(16) })),
        ("two links, strays are refused, and change nothing", || strays(links(16))),
        ("two links, a symbol rebuilt first and heard later is heard", || heard_later(links(16))),
        // The comparison comes before other repair can make up for it
        ("two links, a packet that the second receiver misses is noticed", || missed(links(2))),
        ("two links, a packet that one receiver alone refuses ends the comparison", || parts(links(16))),
        ("a still in blocks: lost symbols are solved", || solves(still(20))),
        ("a still in blocks of 170 ADUs", || solves(still(170))),
        ("a still in blocks of one ADU, repeated three times", || solves(Options { burst: 1.0, repairs: 3, every: 1, ..still(1) })),
        ("a still in blocks, small symbols, much repair, a block of 255 symbols", || {
            solves(Options { symbol_size: 4, repairs: 16, every: 1, loss: 60.0, ..still(15) })
        }),
        ("a still in blocks, heavy loss: a block is whole, or just what was heard", || {
            in_part(Options { loss: 35.0, burst: 4.0, ..still(12) })
        }),
        ("a still in blocks, no loss: all is heard", || {
            recovered(&Options { loss: 0.0, ..still(20) }).and_then(|run| fates(&run.all(), (300, 0, 0)))
        }),
        ("a still in blocks, all lost: nothing is recovered", || {
            recovered(&Options { loss: 100.0, ..still(20) }).and_then(|run| fates(&run.all(), (0, 0, 300)))
        }),
        ("as many lost as a block has repair packets, and one more", lost_of_a_block),
        ("a still in blocks, the same seed, the same run", || {
            let (one, two) = (recovered(&still(20))?, recovered(&still(20))?);
            demand(one.blocks == two.blocks, || String::from("the runs differ"))
        }),
        ("a still in blocks, a damaged packet is noticed", || damaged_still(still(20))),
        ("a still in blocks, a damaged identifier is noticed", || damaged_still(Options { symbol_size: 4, ..still(20) })),
        ("a still in blocks, settings, rows and result tell of it", told_of_blocks),
    ];
    let mut failed = 0;
    for (name, check) in checks {
        if let Err(why) = check() {
            failed += 1;
            crate::complain(&format!("self-test: {name}: {why}"));
        }
    }
    let grids = ["--interleave=256", "--interleave=1 --symbol-size=1485"];
    let links = ["--bond=1", "--bond=65", "--bond=16 --width=240", "--bond=16 --interleave=4"];
    let blocks = ["--block=256", "--block=171", "--block=8 --bond=4", "--block=8 --interleave=4", "--block=8 --join=1"];
    let usage = [&["--loss=x", "--width=0", "--what", "--seed"][..], &grids, &links, &blocks].concat();
    for line in &usage {
        if options::read(line.split(' ').map(OsString::from)).is_ok() {
            failed += 1;
            crate::complain(&format!("self-test: {line} was taken"));
        }
    }
    crate::say(&format!("self-test: {} passed, {failed} failed\n", checks.len() + usage.len() - failed));
    failed == 0
}

fn short() -> Options {
    Options { symbols: 1500, seed: 1, ..Options::default() }
}

fn grid(rows: u32) -> Options {
    Options { interleave: rows, ..short() }
}

fn links(bond: u32) -> Options {
    Options { bond, ..short() }
}

fn still(adus: u32) -> Options {
    Options { block: adus, symbols: 300, ..short() }
}

/// The same stream without a grid.
fn plain(options: &Options) -> Options {
    Options { interleave: 0, one_symbol: true, ..options.clone() }
}

fn silently(options: &Options) -> Result<Run, String> {
    ends::run(options, |_| ())
}

fn demand(holds: bool, otherwise: impl FnOnce() -> String) -> Result<(), String> {
    if holds {
        Ok(())
    } else {
        Err(otherwise())
    }
}

/// A run without fault, which joins at the first packet that arrives, knows nothing of what is before that packet's first symbol, and hands
/// out at least the ADUs whose source packets arrived. The link keeps the order, so that nothing else is behind (8).
fn right(options: &Options) -> Result<Run, String> {
    let run = silently(options)?;
    demand(run.faults().is_empty(), || run.faults().join("; "))?;
    let first = run.sent.packets.iter().find(|p| p.arrives()).map(|p| p.first);
    demand(run.got.joined == first, || format!("joined at {:?} and not at {first:?}", run.got.joined))?;
    demand((0..run.before()).all(|p| run.fate(p) == Fate::Never), || String::from("a symbol before the joining packet's first is known"))?;
    let (behind, early) = (run.got.refused[8], run.got.early);
    demand(behind == early, || format!("{behind} times refusal 8, {early} of them by joining"))?;
    let (_, arrived, _) = run.packets(Kind::Source);
    demand(run.got.adus >= arrived, || format!("{} ADUs of {arrived} source packets", run.got.adus))?;
    let (strays, refused) = (run.sent.stray_packets, run.got.strays);
    demand(strays == refused && (strays > 0) == (options.stray > 0), || format!("{refused} of {strays} strays refused"))?;
    let paths = &run.got.paths;
    let compared = (paths.compared > 0) == (options.bond > 0 && first.is_some()) && paths.parted.is_none();
    demand(compared, || format!("{} comparisons of two receivers", paths.compared))?;
    Ok(run)
}

/// Strays, however many, are refused at both ends, and all else is as it is without them.
fn strays(options: Options) -> Result<(), String> {
    let without = right(&Options { stray: 0, ..options.clone() })?;
    demand(without.sent.strays == 0 && !report::result(&options, &without).contains("strays"), || String::from("strays in a run without"))?;
    for stray in [1, 7, 50] {
        let options = Options { stray, ..options.clone() };
        let run = right(&options)?;
        let wanted = (run.sent.adus + stray - 1) / stray;
        let (by_sender, by_receiver) = (run.sent.strays, run.got.strays);
        demand(by_sender == wanted && by_receiver == wanted, || format!("{by_sender} and {by_receiver} of {wanted} strays refused"))?;
        demand(report::result(&options, &run).contains("\nstrays"), || String::from("the report does not tell"))?;
        let same = run.got.fates == without.got.fates && run.got.bytes == without.got.bytes && run.got.refused == without.got.refused;
        let counts = run.got.paths.recounted == without.got.paths.recounted;
        demand(same && counts, || String::from("strays changed the run"))?;
    }
    Ok(())
}

/// A receiver that announces every flow takes the strays.
fn taken(options: Options) -> Result<(), String> {
    let run = silently(&options)?;
    demand(run.got.strays == 0 && run.got.differences.count > 0 && !run.faults().is_empty(), || String::from("nothing was noticed"))
}

/// A receiver that does not hear the beginning joins at a packet of this kind. After a source packet the repair that reaches back before it
/// is refused; a repair packet joins where it begins, so that it takes all that follows.
fn joins(options: Options, by: Kind) -> Result<(), String> {
    let run = right(&options)?;
    let joining = run.sent.packets.iter().find(|p| p.arrives()).ok_or("nothing arrived")?;
    demand(joining.kind == by && run.before() > 0, || format!("joined at {} by another kind", run.before()))?;
    demand((run.got.refused[8] > 0) == (by == Kind::Source), || format!("{} times refusal 8", run.got.refused[8]))?;
    let svg = picture::draw(&options, &run);
    demand(svg.contains("before joining"), || String::from("the picture does not tell"))?;
    let (heard, rebuilt, never) = run.symbols();
    demand(rebuilt > 0 && never >= run.before() && heard + rebuilt + never == run.sent.symbols, || format!("{:?}", run.symbols()))
}

fn rebuilds(options: Options) -> Result<(), String> {
    let run = right(&options)?;
    let (heard, rebuilt, never) = run.symbols();
    demand(rebuilt > 0 && heard + rebuilt + never == run.sent.symbols, || format!("{heard} heard, {rebuilt} rebuilt, {never} never"))?;
    let svg = picture::draw(&options, &run);
    demand(svg.starts_with("<svg") && svg.len() < 1_000_000, || format!("a picture of {} bytes", svg.len()))
}

fn lossless(options: Options) -> Result<(), String> {
    let run = right(&options)?;
    demand(run.symbols() == (run.sent.symbols, 0, 0) && run.got.adus == run.sent.adus, || format!("{:?}", run.symbols()))
}

fn silent(options: Options) -> Result<(), String> {
    let run = right(&options)?;
    demand(run.symbols() == (0, 0, run.sent.symbols) && run.got.adus == 0, || format!("{:?}", run.symbols()))
}

fn repeats(options: Options) -> Result<(), String> {
    let (one, two) = (right(&options)?, right(&options)?);
    demand(one.got.fates == two.got.fates && one.got.bytes == two.got.bytes, || String::from("the runs differ"))
}

/// The place, among the packets that arrive, of the twenty-first that fits, by its number and itself.
fn twenty_first(run: &Run, fits: impl Fn(u32, &Packet) -> bool) -> Result<u64, String> {
    let arriving = (0..).zip(&run.sent.packets).filter(|(_, p)| p.arrives());
    let mut fitting = (0..).zip(arriving).filter(|(_, (number, p))| fits(*number, p));
    fitting.nth(20).map(|(place, _)| place).ok_or(String::from("no such packet"))
}

/// A source packet comes so late that repair has brought its symbols before. They are heard all the same, and the figures are those of the
/// run in which it comes in time; where it is damaged it is refused (11), and they stay rebuilt.
fn heard_later(options: Options) -> Result<(), String> {
    let whole = right(&options)?;
    let late = Some(twenty_first(&whole, |_, p| p.kind == Kind::Source)?);
    let run = right(&Options { late, ..options.clone() })?;
    let later = run.got.later;
    demand(whole.got.later == 0 && later > 0, || format!("{later} symbols heard later"))?;
    demand(run.symbols() == whole.symbols(), || format!("{:?} and not {:?}", run.symbols(), whole.symbols()))?;
    let damaged = silently(&Options { late, corrupt: late, ..options })?;
    let (heard, rebuilt, never) = whole.symbols();
    demand(damaged.got.refused[11] == 1 && damaged.misheard() == 0, || String::from("a damaged packet was heard"))?;
    demand(damaged.symbols() == (heard - later, rebuilt + later, never), || format!("{:?} with a damaged packet", damaged.symbols()))
}

/// One symbol that was heard is told as rebuilt; one that was rebuilt, or never known, as heard.
fn misheard(options: Options) -> Result<(), String> {
    let mut run = right(&Options { loss: 30.0, ..options })?;
    let found = |wanted: fn(&Fate) -> bool| run.got.fates.iter().position(wanted).ok_or("no such symbol");
    let heard = found(|fate| *fate == Fate::Heard)?;
    let others = [found(|fate| matches!(fate, Fate::Rebuilt(_)))?, found(|fate| *fate == Fate::Never)?];
    for (position, told) in [(heard, Fate::Rebuilt(0)), (others[0], Fate::Heard), (others[1], Fate::Heard)] {
        let fate = std::mem::replace(&mut run.got.fates[position], told);
        demand(run.misheard() == 1 && !run.faults().is_empty(), || format!("{fate:?} as {told:?} was not noticed"))?;
        run.got.fates[position] = fate;
    }
    demand(run.faults().is_empty(), || run.faults().join("; "))
}

/// Which packet is damaged, or missed.
#[derive(Clone, Copy, PartialEq, Eq)]
enum Damage {
    Source,
    /// A repair packet that made symbols known.
    Solving,
    /// A repair packet whose symbols were all known.
    Implied,
}

/// The place, among the packets that arrive, of the one that is damaged.
fn damaged(whole: &Run, damage: Damage) -> Result<u64, String> {
    let known_before = |number: u32, p: &Packet| {
        (p.first..p.end()).all(|position| match whole.fate(position) {
            Fate::Never => false,
            Fate::Heard => true,
            Fate::Rebuilt(by) => by < number,
        })
    };
    let fits = |number: u32, p: &Packet| match damage {
        Damage::Source => p.kind == Kind::Source,
        Damage::Solving => p.kind == Kind::Repair && whole.got.fates.contains(&Fate::Rebuilt(number)),
        Damage::Implied => p.kind == Kind::Repair && known_before(number, p),
    };
    twenty_first(whole, fits)
}

/// A bit of one packet changes after the link: the comparison sees it, or the receiver refuses (11).
fn noticed(options: Options, damage: Damage) -> Result<(), String> {
    let whole = right(&options)?;
    let run = silently(&Options { corrupt: Some(damaged(&whole, damage)?), ..options })?;
    let seen = if damage == Damage::Implied { run.got.refused[11] } else { run.got.differences.count };
    demand(seen > 0 && !run.faults().is_empty(), || String::from("nothing was noticed"))
}

/// Bursts take fewer symbols for good where a grid spreads them; report and picture tell of it.
fn spreads(options: Options) -> Result<(), String> {
    let plain = plain(&options);
    let (with, without) = (right(&options)?, right(&plain)?);
    let (never, otherwise) = (with.symbols().2, without.symbols().2);
    demand(with.sent.symbols == without.sent.symbols && never < otherwise, || format!("{never} never known, without a grid {otherwise}"))?;
    let ((on_link, in_stream, _), (longest, ..)) = (with.lost_at_most(), without.lost_at_most());
    demand(on_link == longest && in_stream < on_link, || {
        format!("{on_link} and {longest} lost in a row, {in_stream} in the stream's order")
    })?;
    for (options, run, told) in [(&options, &with, true), (&plain, &without, false)] {
        demand(report::settings(options).contains("\n  order") == told, || String::from("the settings tell something else"))?;
        demand(report::result(options, run).contains("\norder") == told, || String::from("the report tells something else"))?;
        demand(picture::draw(options, run).contains("A burst, spread") == told, || String::from("the picture shows something else"))?;
    }
    Ok(())
}

/// As many neighbours on the link as a grid has rows, in one grid or in two, are all of other rows. One more, or no grid, and they are not.
fn spread_apart() -> Result<(), String> {
    for rows in [2, 16, 255] {
        let options = Options { symbols: 3000, symbol_size: 64, loss: 0.0, ..grid(rows) };
        let (rows, cells) = (u64::from(rows), u64::from(rows * COLUMNS));
        let lost_of = |options: Options, first: u64, count: u64| {
            let run = right(&Options { lose: first..first + count, ..options })?;
            let (on_link, _, of_row) = run.lost_at_most();
            let lost = run.sent.packets.iter().filter(|p| p.lost).count() as u64;
            demand(lost == count && on_link == count, || format!("{lost} lost, {on_link} in a row, and not {count}"))?;
            Ok::<u64, String>(of_row)
        };
        for first in [0, 3, 5 * rows - 1, cells - rows / 2 - 1] {
            let of_row = lost_of(options.clone(), first, rows)?;
            demand(of_row == 1, || format!("{rows} rows: {of_row} lost of a row, from {first} on"))?;
        }
        let (more, plain) = (lost_of(options.clone(), 3, rows + 1)?, lost_of(plain(&options), 0, rows)?);
        demand(more == 2 && plain > 1, || format!("{rows} rows: {more} lost of a row by one more, {plain} without a grid"))?;
    }
    Ok(())
}

/// The cells of a grid of one row are sent in the order in which they are filled, so that all is as it is without a grid.
fn same_order(options: Options) -> Result<(), String> {
    let (one, two) = (right(&options)?, right(&plain(&options))?);
    let same = one.got.fates == two.got.fates && one.got.bytes == two.got.bytes && one.got.refused == two.got.refused;
    demand(same && one.symbols().1 > 0, || String::from("a grid of one row changed the run"))
}

/// All that a last grid holds arrives, though it is not full.
fn not_full(options: Options) -> Result<(), String> {
    let run = right(&options)?;
    let (packets, cells) = (run.sent.packets.len(), (options.interleave * COLUMNS) as usize);
    demand(packets > cells && packets % cells > 0, || format!("{packets} packets in grids of {cells} cells"))?;
    lossless(options)
}

/// The receivers are compared as often as they must be, and count otherwise on the way; settings and report tell of it.
fn bonded(options: Options) -> Result<Run, String> {
    let run = right(&options)?;
    let paths = &run.got.paths;
    let arriving = (0u32..).zip(&run.sent.packets).filter(|(_, p)| p.arrives());
    let mut rounds: Vec<u32> = arriving.map(|(number, _)| number / options.bond).collect();
    rounds.dedup();
    demand(paths.compared == rounds.len() as u64, || format!("{} comparisons and not {}", paths.compared, rounds.len()))?;
    let taken = run.got.arrived - run.got.refused.iter().sum::<u64>();
    demand(paths.accepted == taken && paths.recounted > 0, || {
        format!("{} of {} packets counted otherwise, {taken} accepted", paths.recounted, paths.accepted)
    })?;
    for (options, told) in [(&options, true), (&Options { bond: 0, ..options.clone() }, false)] {
        let texts = [report::settings(options).contains("\n  links"), report::result(options, &run).contains("\npaths")];
        demand(texts == [told; 2], || String::from("settings or report tell something else"))?;
    }
    Ok(run)
}

/// Where much is lost for good, one receiver can know of a start that the other does not know of.
fn starts_differ(options: Options) -> Result<(), String> {
    let run = bonded(options)?;
    demand(run.got.paths.starts > 0, || String::from("all starts are the same"))
}

/// A packet does not come to the second receiver. That is noticed, but where the packets before it say all that it says.
fn missed(options: Options) -> Result<(), String> {
    let whole = right(&options)?;
    for (damage, seen) in [(Damage::Source, true), (Damage::Solving, true), (Damage::Implied, false)] {
        let run = silently(&Options { missed: Some(damaged(&whole, damage)?), ..options.clone() })?;
        let paths = &run.got.paths;
        demand(paths.accepted + 1 == whole.got.paths.accepted, || format!("{} packets accepted", paths.accepted))?;
        demand((paths.differences.count > 0) == seen && run.faults().is_empty() != seen, || {
            format!("{} differences; {}", paths.differences.count, run.faults().join("; "))
        })?;
    }
    Ok(())
}

/// After damage the order decides which packet is refused: from there on the receivers have not accepted the same. That is told.
fn parts(options: Options) -> Result<(), String> {
    let whole = right(&options)?;
    let run = silently(&Options { corrupt: Some(damaged(&whole, Damage::Source)?), ..options.clone() })?;
    let (paths, faults) = (&run.got.paths, run.faults().join("; "));
    let fewer = paths.compared < whole.got.paths.compared;
    demand(fewer && paths.differences.count == 0, || format!("{} comparisons; {faults}", paths.compared))?;
    let told = [faults, report::result(&options, &run)].iter().all(|text| text.contains("receiver alone (11)"));
    demand(told && paths.parted.is_some(), || String::from("it is not told"))
}

/// A run of a still without fault, all of whose symbols were sent, with repair for them.
fn recovered(options: &Options) -> Result<block::Run, String> {
    let run = block::run(options, |_, _| ())?;
    demand(run.differences.count == 0, || block::verdict(&run))?;
    let (all, blocks) = (run.all(), ceiling(options.symbols as usize, options.block as usize));
    let sums = all.source.sent == options.symbols && all.heard + all.solved + all.missing == options.symbols;
    demand(sums && run.blocks.len() == blocks, || format!("{all:?} in {} blocks", run.blocks.len()))?;
    demand((all.missing == 0) == (all.bytes == run.bytes), || format!("{} of {} bytes", all.bytes, run.bytes))?;
    Ok(run)
}

fn fates(fate: &block::Fate, wanted: (u64, u64, u64)) -> Result<(), String> {
    demand((fate.heard, fate.solved, fate.missing) == wanted, || format!("{fate:?} and not {wanted:?}"))
}

/// Losses, and all is known at the end.
fn solves(options: Options) -> Result<(), String> {
    let run = recovered(&options)?;
    let all = run.all();
    demand(all.solved > 0 && all.missing == 0, || format!("{all:?}"))
}

/// Some blocks are whole, some of them solved, and others are not.
fn in_part(options: Options) -> Result<(), String> {
    let run = recovered(&options)?;
    let count = |f: fn(&block::Fate) -> bool| run.blocks.iter().filter(|fate| f(fate)).count();
    let (solved, missing) = (count(|fate| fate.solved > 0), count(|fate| fate.missing > 0));
    demand(solved > 0 && missing > 0 && run.whole() + missing == run.blocks.len(), || format!("{solved} solved, {missing} in part"))
}

/// Of blocks of 20 ADUs and 10 repair packets: 10 packets lost are solved, and of 11 those that are ADUs are missing, wherever they lie.
fn lost_of_a_block() -> Result<(), String> {
    for (first, adus) in [(0, 10), (7, 10), (14, 6), (20, 0)] {
        let lose = |count| Options { loss: 0.0, lose: 30 + first..30 + first + count, ..still(20) };
        let (ten, eleven) = (recovered(&lose(10))?, recovered(&lose(11)));
        fates(&ten.blocks[1], (20 - adus, adus, 0))?;
        fates(&ten.blocks[2], (20, 0, 0))?;
        // One more is the next ADU, a repair packet, or the next block's first ADU, which its own repair brings
        let eleven = eleven?;
        match first {
            0 | 7 => fates(&eleven.blocks[1], (9, 0, 11))?,
            14 => fates(&eleven.blocks[1], (14, 0, 6))?,
            _ => fates(&eleven.blocks[1], (20, 0, 0)).and_then(|()| fates(&eleven.blocks[2], (19, 1, 0)))?,
        }
    }
    Ok(())
}

/// A bit of one packet changes after the link, of a source packet or of a repair packet: it is refused, or others are, or what is shown differs.
fn damaged_still(options: Options) -> Result<(), String> {
    for corrupt in [0, 10, 19, 20, 29] {
        let run = block::run(&Options { loss: 0.0, corrupt: Some(corrupt), ..options.clone() }, |_, _| ())?;
        demand(run.differences.count > 0 && block::verdict(&run).starts_with("WRONG"), || {
            format!("packet {corrupt}: nothing was noticed")
        })?;
    }
    Ok(())
}

/// What is printed of a still, before, for each block, and after.
fn told_of_blocks() -> Result<(), String> {
    let options = still(20);
    let mut rows = String::new();
    let run = block::run(&options, |place, fate| rows += &block::row(place, fate))?;
    let (settings, result) = (block::settings(&options), block::result(&options, &run));
    demand(settings.contains("of 20 ADUs and 10 repair symbols"), || settings)?;
    demand(rows.lines().count() == 15 && rows.lines().all(|row| row.ends_with("of 10 arrived")), || rows)?;
    let all = run.all();
    let told =
        [format!("300 sent: {} heard, {} solved, 0 missing", all.heard, all.solved), String::from("15 sent: 15 recovered whole, 0 in")];
    demand(told.iter().all(|words| result.contains(words)), || result)?;
    demand(block::verdict(&run).starts_with("Right: all 300 symbols"), || block::verdict(&run))
}
