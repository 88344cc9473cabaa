//! Heard or solved (document 02, No. 6): the symbol call tells of a known symbol whether a source packet that was accepted has named its
//! position. Library, Rust types and second decoder go side by side, and each answer is written out too.

mod library;
mod reference;

use library::pair::Receivers;
use reference::coefficients::combination;
use reference::random::Random;
use reference::{repair_packet, source_packet, Answer, Setting};
use std::ops::Range;

/// What the symbol call answers.
const HEARD: Answer = Ok((0, 1));
const SOLVED: Answer = Ok((0, 0));
const UNKNOWN: Answer = Err(12);

const ROOM: usize = usize::MAX;

/// The flow of all ADUs. Where nothing else is said, each position has an ADU of one byte, which is the position's last.
const FLOW: u8 = 1;

fn source(position: u64) -> Vec<u8> {
    source_packet(&[position as u8], position)
}

/// A receiver of symbols of 4 bytes.
struct Fed {
    receivers: Receivers,
    random: Random,
}

impl Fed {
    fn open(scheme: u32, width: usize) -> Fed {
        let mut random = Random::new(width as u64);
        Fed { receivers: Receivers::open(Setting { scheme, symbol_size: 4, width }, &mut random), random }
    }

    fn receive(&mut self, flow: Option<u8>, packet: &[u8]) -> Answer {
        self.receivers.receive(&mut self.random, flow, packet)
    }

    /// Takes the source packet of a position.
    fn hear(&mut self, position: u64) -> Answer {
        self.receive(Some(FLOW), &source(position))
    }

    /// Takes a repair packet over some positions: with one alone it solves that one. Gives how many became known.
    fn mend(&mut self, positions: Range<u64>) -> Result<u64, u32> {
        let setting = self.receivers.setting();
        let symbols: Vec<Vec<u8>> = positions.clone().flat_map(|position| setting.cut(FLOW, &[position as u8])).collect();
        self.mend_with(positions.start, &symbols)
    }

    /// The same over positions that hold these symbols.
    fn mend_with(&mut self, position: u64, symbols: &[Vec<u8>]) -> Result<u64, u32> {
        let sum = combination(self.receivers.setting().field(), 1, 15, symbols, 4)?;
        self.receive(None, &repair_packet(1, 15, symbols.len() as u16, position, &[sum])).map(|(known, _)| known)
    }

    /// What the symbol call answers for some positions: what all three say.
    fn origins(&mut self, positions: Range<u64>) -> Vec<Answer> {
        let origin = |position| {
            self.receivers.look(&mut self.random, position as u32);
            self.receivers.reference.symbol(ROOM, position as u32)
        };
        positions.map(origin).collect()
    }

    fn origin(&mut self, position: u64) -> Answer {
        self.origins(position..position + 1)[0]
    }
}

/// Runs this with fresh receivers of both schemes and of each width, and a position to join at: 0, in the millions, just below the wrap.
fn each(widths: &[usize], run: impl Fn(&mut Fed, u64)) {
    for &width in widths {
        for (scheme, first) in [(9, 0), (10, 4_100_000), (9, u64::from(u32::MAX)), (10, u64::from(u32::MAX) - 1)] {
            run(&mut Fed::open(scheme, width), first);
        }
    }
}

/// The source packet that comes later makes nothing known, and counts; one that comes again changes nothing, and neither does repair.
#[test]
fn solved_first_and_heard_later() {
    each(&[1, 2, 3, 255], |fed, first| {
        assert_eq!(fed.origin(first), UNKNOWN);
        assert_eq!(fed.mend(first..first + 1), Ok(1));
        assert_eq!(fed.origin(first), SOLVED);
        assert_eq!(fed.mend(first..first + 1), Ok(0));
        assert_eq!(fed.origin(first), SOLVED);
        for _ in 0..2 {
            assert_eq!(fed.hear(first), Ok((0, 0)));
            assert_eq!(fed.origin(first), HEARD);
            assert_eq!(fed.mend(first..first + 1), Ok(0));
            assert_eq!(fed.origin(first), HEARD);
        }
    });
}

/// A source packet that is refused counts for nothing, whether it names the position (11, 4, and 8 where the window has room for its two
/// symbols) or another (9).
#[test]
fn refused_packets_are_not_heard() {
    each(&[1, 2, 3, 255], |fed, first| {
        let two = fed.receivers.setting().width.min(2);
        let refused = [
            (FLOW, source_packet(&[!(first as u8)], first), 11),
            (FLOW + 1, source(first), 11),
            (FLOW, source_packet(&vec![first as u8; 4 * fed.receivers.setting().width - 2], first), 4),
            (FLOW, source_packet(&vec![first as u8; two], first + (1 << 32) - 1), 8),
            (FLOW, source(first + 65_536), 9),
        ];
        assert_eq!(fed.mend(first..first + 1), Ok(1));
        for origin in [SOLVED, HEARD] {
            for (flow, packet, refusal) in &refused {
                assert_eq!(fed.receive(Some(*flow), packet), Err(*refusal));
                assert_eq!(fed.origin(first), origin, "after refusal {refusal}");
            }
            assert_eq!(fed.hear(first), Ok((0, 0)));
        }
    });
}

/// The window moves on, by one and by its width and more, for a source packet or for a repair packet: what stays is heard as before, and
/// what comes in is not, though it stands where something stood that was heard.
#[test]
fn positions_that_come_into_the_window() {
    for by_source in [false, true] {
        each(&[1, 2, 3, 8, 60], |fed, first| {
            let width = fed.receivers.setting().width as u64;
            let mut window = first..first + width;
            assert!(window.clone().all(|position| fed.hear(position) == Ok((1, 0))));
            for ahead in [width, width + 1, 2 * width - 1, 2 * width, 2 * width + 1, 65_535] {
                let stay = window.end;
                let last = window.start + ahead;
                window = last + 1 - width..last + 1;
                let known = if by_source { fed.hear(last).map(|(known, _)| known) } else { fed.mend(last..last + 1) };
                assert_eq!(known, Ok(1));
                assert_eq!(fed.origin(last), if by_source { HEARD } else { SOLVED }, "{ahead} ahead");
                for position in window.start..last {
                    if position < stay {
                        assert_eq!(fed.origin(position), HEARD, "{position} stays");
                    } else {
                        assert_eq!(fed.origin(position), UNKNOWN, "{position} comes in");
                        assert_eq!(fed.mend(position..position + 1), Ok(1));
                        assert_eq!(fed.origin(position), SOLVED, "{position} is solved");
                    }
                }
                assert!(window.clone().all(|position| fed.hear(position) == Ok((0, 0))));
                assert!(fed.origins(window.clone()).iter().all(|&origin| origin == HEARD));
            }
        });
    }
}

/// A source packet of three symbols, of which some were solved before: all three are heard after it, and neighbours that were solved are
/// not. One that differs from a symbol that was solved is refused, and none of its symbols is heard.
#[test]
fn source_packets_of_several_symbols() {
    for solved in 0..8u64 {
        each(&[5, 6], |fed, first| {
            let adu = [1, 2, 3, 4, 5, 6, 7, 8, 9];
            let symbols = fed.receivers.setting().cut(FLOW, &adu);
            let before = |i: u64| solved >> i & 1 == 1;
            assert_eq!(fed.mend(first..first + 1), Ok(1));
            assert_eq!(fed.mend(first + 4..first + 5), Ok(1));
            for i in (0..3).filter(|&i| before(i)) {
                assert_eq!(fed.mend_with(first + 1 + i, &symbols[i as usize..=i as usize]), Ok(1));
            }
            let origins = fed.origins(first..first + 5);
            if before(2) {
                let unlike = [1, 2, 3, 4, 5, 6, 7, 8, 10];
                assert_eq!(fed.receive(Some(FLOW), &source_packet(&unlike, first + 1)), Err(11));
                assert_eq!(fed.origins(first..first + 5), origins);
            }
            let known = (0..3).filter(|&i| !before(i)).count() as u64;
            assert_eq!(fed.receive(Some(FLOW), &source_packet(&adu, first + 1)), Ok((known, 0)));
            let after = [SOLVED, HEARD, HEARD, HEARD, SOLVED];
            assert_eq!(fed.origins(first..first + 5), after, "{origins:?} before");
            // Two positions leave, and the rest of the packet's stays as it is
            let width = fed.receivers.setting().width as u64;
            assert_eq!(fed.mend(first + width + 1..first + width + 2), Ok(1));
            assert_eq!(fed.origins(first + 2..first + 5), after[2..]);
        });
    }
}

/// What a source packet makes known beside its own symbols is solved, until its own source packet comes.
#[test]
fn symbols_that_a_source_packet_solves() {
    each(&[3, 4, 255], |fed, first| {
        assert_eq!(fed.mend(first..first + 3), Ok(0));
        assert_eq!(fed.origins(first..first + 3), [UNKNOWN; 3]);
        assert_eq!(fed.hear(first + 2), Ok((1, 0)));
        assert_eq!(fed.hear(first), Ok((2, 0)));
        assert_eq!(fed.origins(first..first + 3), [HEARD, SOLVED, HEARD]);
        assert_eq!(fed.mend(first..first + 3), Ok(0));
        assert_eq!(fed.origins(first..first + 3), [HEARD, SOLVED, HEARD]);
        assert_eq!(fed.hear(first + 1), Ok((0, 0)));
        assert_eq!(fed.origins(first..first + 3), [HEARD; 3]);
    });
}
