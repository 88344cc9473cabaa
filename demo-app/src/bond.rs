//! Two bonded links: packets go over them in turn, and those of the slower one come late to a second receiver. Once it has had the same packets
//! as the first, which takes them as they were sent, it must show the same.

use crate::link::Kind;
use crate::options::Options;
use crate::report::grouped;
use crate::tally::Differences;
use rlc8681::{Received, Receiver, Refusal};
use std::fmt;

/// What a packet call answers.
pub type Answer = Result<Received, Refusal>;

/// What became of the two receivers.
#[derive(Default)]
pub struct Paths {
    /// How often all that they show was compared, and what was not the same.
    pub compared: u64,
    pub differences: Differences,
    /// The packets that both accepted, and those of them to which they answered unlike counts.
    pub accepted: u64,
    pub recounted: u64,
    /// How often an ADU call said 13 in one of them alone.
    pub starts: u64,
    /// Why nothing is compared any more.
    pub parted: Option<Parted>,
}

/// A packet, by its number, that one receiver alone refused: from there on the two have not accepted the same.
pub struct Parted {
    number: u32,
    by: &'static str,
    why: Refusal,
}

impl fmt::Display for Parted {
    fn fmt(&self, f: &mut fmt::Formatter<'_>) -> fmt::Result {
        let Parted { number, by, why } = self;
        write!(f, "packet {} was refused by the {by} receiver alone ({})", grouped(u64::from(*number)), why.number())
    }
}

impl Paths {
    /// Notes what the two receivers answered to a packet.
    fn answered(&mut self, number: u32, first: Answer, second: Answer) {
        let (by, why) = match (first, second) {
            _ if self.parted.is_some() => return,
            (Ok(one), Ok(two)) => {
                self.accepted += 1;
                self.recounted += u64::from(one.known != two.known);
                return;
            }
            // A refusal leaves both as they were.
            (Err(_), Err(_)) => return,
            (Err(why), Ok(_)) => ("first", why),
            (Ok(_), Err(why)) => ("second", why),
        };
        self.parted = Some(Parted { number, by, why });
    }

    /// What speaks against the run, in words. The windows are wide enough that no packet is behind in one receiver alone; too far ahead one
    /// can be, after a loss of tens of thousands.
    pub fn faults(&self) -> Vec<String> {
        let Differences { count, first } = &self.differences;
        let differ = first.as_ref().map(|first| format!("{count} times the two receivers differ; first {first}"));
        let parted = self.parted.as_ref().filter(|parted| parted.why != Refusal::Ahead).map(Parted::to_string);
        differ.into_iter().chain(parted).collect()
    }
}

/// A packet that the first receiver has taken, with its answer.
struct Taken {
    number: u32,
    kind: Kind,
    flow: u8,
    packet: Vec<u8>,
    answer: Answer,
}

/// The second receiver, and the packets that have yet to come to it.
pub struct Bond {
    receiver: Receiver,
    /// How many packets are sent between comparisons, and how often so many were sent before the one at hand.
    every: u32,
    round: u32,
    joined: bool,
    /// Those of the slower link.
    waiting: Vec<Taken>,
    /// The packets so far, and the number among them of the one that is missed, if one is.
    arrived: u64,
    missed: Option<u64>,
    /// What the ADU calls write to.
    out: [Vec<u8>; 2],
    pub paths: Paths,
}

impl Bond {
    /// The second receiver is opened like the first, and fresh.
    pub fn new(options: &Options, receiver: Receiver) -> Bond {
        let (every, missed, out) = (options.bond, options.missed, [vec![0; 65_535], vec![0; 65_535]]);
        Bond { receiver, every, round: 0, joined: false, waiting: Vec::new(), arrived: 0, missed, out, paths: Paths::default() }
    }

    /// Whether a packet with this number comes after those that are compared together.
    pub fn is_over(&self, number: u32) -> bool {
        number / self.every != self.round
    }

    /// The first receiver took a packet, and gave this answer. The second takes it now, or where it came over the slower link, before the next
    /// comparison. Until one is accepted, none is slow, so that both join at the same.
    pub fn take(&mut self, number: u32, kind: Kind, flow: u8, packet: &[u8], answer: Answer) {
        let taken = Taken { number, kind, flow, packet: packet.to_vec(), answer };
        let (slow, missed) = (self.joined && number % 2 == 0, self.missed == Some(self.arrived));
        self.joined |= answer.is_ok();
        self.round = number / self.every;
        self.arrived += 1;
        match (missed, slow) {
            (true, _) => {}
            (_, true) => self.waiting.push(taken),
            _ => self.receive(&taken),
        }
    }

    fn receive(&mut self, taken: &Taken) {
        let answer = match taken.kind {
            Kind::Source => self.receiver.receive_source(taken.flow, &taken.packet),
            _ => self.receiver.receive_repair(&taken.packet),
        };
        self.paths.answered(taken.number, taken.answer, answer);
    }

    /// Whether a packet of this flow, a stray, is refused because of it.
    pub fn refuses(&mut self, flow: u8, packet: &[u8]) -> bool {
        self.receiver.receive_source(flow, packet) == Err(Refusal::Unannounced)
    }

    /// What the slower link brought is taken, so that both receivers have had the same packets. What they show is compared, where they have a
    /// window: it begins at this position.
    pub fn meet(&mut self, first: &Receiver, base: Option<u64>) {
        for taken in std::mem::take(&mut self.waiting) {
            self.receive(&taken);
        }
        if let (Some(base), None) = (base, &self.paths.parted) {
            self.compare(first, base as u32);
        }
    }

    /// Compares all that the two show of every ESI of the window, and of one past each of its edges.
    fn compare(&mut self, first: &Receiver, base: u32) {
        self.paths.compared += 1;
        let before = base.wrapping_sub(1);
        for place in 0..self.receiver.width() + 2 {
            let esi = before.wrapping_add(place);
            if (first.symbol(esi) == Err(Refusal::Behind)) != (esi == before) {
                self.paths.differences.add(|| format!("at ESI {esi}: the window does not begin at ESI {base}"));
            }
            self.compare_symbol(first, esi);
            self.compare_adu(first, esi);
        }
    }

    fn compare_symbol(&mut self, first: &Receiver, esi: u32) {
        let (one, two) = (first.origin(esi), self.receiver.origin(esi));
        if one != two {
            self.paths.differences.add(|| format!("at ESI {esi}: {one:?} in the first, {two:?} in the second"));
        } else if first.symbol(esi) != self.receiver.symbol(esi) {
            self.paths.differences.add(|| format!("at ESI {esi}: the bytes of the symbol"));
        }
    }

    /// The ADU call answers and writes the same in both, but where one of them knows no start.
    fn compare_adu(&mut self, first: &Receiver, esi: u32) {
        let [one, two] = &mut self.out;
        let (one, two) = (first.adu(esi, one), self.receiver.adu(esi, two));
        if one == two {
            return;
        }
        if [one.err(), two.err()].contains(&Some(Refusal::NoStart)) {
            self.paths.starts += 1;
        } else {
            self.paths.differences.add(|| format!("at ESI {esi}: the ADU"));
        }
    }
}

#[cfg(test)]
mod tests {
    use super::{Answer, Bond, Paths};
    use crate::link::Kind;
    use crate::options::Options;
    use rlc8681::{Flows, Received, Receiver, Refusal, Scheme};

    /// The source packet of the ADU with this one byte.
    fn source(esi: u8) -> (Kind, Vec<u8>) {
        (Kind::Source, vec![esi, 0, 0, 0, esi])
    }

    /// The sum of the symbols of these ADUs.
    fn repair(first: u8, last: u8) -> (Kind, Vec<u8>) {
        let count = last - first + 1;
        let bytes = (first..=last).fold(0, |sum, byte| sum ^ byte);
        (Kind::Repair, vec![0, 0, 0xf0, count, 0, 0, 0, first, count % 2, 0, count % 2, bytes])
    }

    /// Symbol 1 is known from the two repair packets while it is in the first receiver's window, and tells that there is a start at 2. To the
    /// second receiver the shorter one comes last, when 1 has left the window. In its last source packet, this change is made to the byte.
    fn met(missed: Option<u64>, change: u8, base: u64) -> Paths {
        let open = || Receiver::open(Scheme::Gf2, 4, 3, &Flows::only(&[1])).unwrap();
        let mut first = open();
        let mut bond = Bond::new(&Options { bond: 8, missed, ..Options::default() }, open());
        for (number, (kind, mut packet)) in [(1, source(0)), (3, repair(1, 3)), (4, repair(2, 3)), (5, source(4)), (7, source(3))] {
            let answer = if kind == Kind::Source { first.receive_source(1, &packet) } else { first.receive_repair(&packet) };
            assert!(!bond.is_over(number));
            packet[0] ^= if number == 7 { change } else { 0 };
            bond.take(number, kind, 1, &packet, answer);
        }
        assert!(bond.is_over(8) && bond.refuses(2, &source(9).1));
        bond.meet(&first, Some(base));
        bond.paths
    }

    #[test]
    fn starts_and_counts_may_differ_and_nothing_else() {
        let paths = met(None, 0, 2);
        assert_eq!((paths.compared, paths.differences.first, paths.starts), (1, None, 1));
        assert_eq!((paths.accepted, paths.recounted), (5, 1));
        assert!(paths.parted.is_none());
    }

    #[test]
    fn differences_are_told() {
        // Without the last packet the second receiver knows neither 2 nor 3.
        let paths = met(Some(4), 0, 2);
        assert_eq!((paths.compared, paths.differences.count, paths.accepted), (1, 2, 4));
        assert!(paths.faults()[0].contains("ESI 2: Ok(Solved) in the first, Err(Unknown) in the second"), "{:?}", paths.faults());
        // With another symbol 3 it knows another 2, too; it hands out 3 alone.
        let paths = met(None, 1, 2);
        assert_eq!((paths.differences.count, paths.starts, paths.accepted), (3, 1, 5));
        assert!(paths.faults()[0].contains("ESI 2: the bytes"), "{:?}", paths.faults());
        // The window begins at 2.
        assert!([1, 3].iter().all(|&base| met(None, 0, base).differences.count > 0));
    }

    #[test]
    fn a_packet_that_one_refuses_parts_them() {
        let known = |known| -> Answer { Ok(Received { known, draws: 0 }) };
        let told = |answers: [(Answer, Answer); 3]| {
            let mut paths = Paths::default();
            (0..).zip(answers).for_each(|(number, (first, second))| paths.answered(number, first, second));
            (paths.accepted, paths.recounted, paths.parted.as_ref().map(ToString::to_string), paths.faults().len())
        };
        let (behind, ahead) = (Err(Refusal::Behind), Err(Refusal::Ahead));
        let by = |who, number| Some(format!("packet 1 was refused by the {who} receiver alone ({number})"));
        assert_eq!(told([(known(1), known(2)), (behind, ahead), (known(0), known(0))]), (2, 1, None, 0));
        assert_eq!(told([(known(1), known(2)), (known(1), behind), (known(0), known(1))]), (1, 1, by("second", 8), 1));
        assert_eq!(told([(known(1), known(1)), (ahead, known(1)), (behind, known(1))]), (1, 0, by("first", 9), 0));
    }
}
