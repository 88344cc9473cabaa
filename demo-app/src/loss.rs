//! Which packets the link loses: Gilbert's model of two states. In the good state every packet arrives, in the bad state none does.

use crate::random::Random;

pub struct Loss {
    random: Random,
    bad: bool,
    /// The chance to go from good to bad, and from bad to good, before a packet.
    enter: f64,
    leave: f64,
}

impl Loss {
    /// A link that loses `percent` of the packets in runs of `burst` on average. Independent losses have runs of 1 / (1 - share); a
    /// shorter burst than that is taken as this one.
    pub fn new(seed: u64, percent: f64, burst: f64) -> Loss {
        let share = percent / 100.0;
        let random = Random::new(seed);
        if share >= 1.0 {
            return Loss { random, bad: false, enter: 1.0, leave: 0.0 };
        }
        let burst = burst.max(1.0 / (1.0 - share));
        Loss { random, bad: false, enter: share / (1.0 - share) / burst, leave: 1.0 / burst }
    }

    /// Whether the next packet is lost.
    pub fn loses(&mut self) -> bool {
        let draw = self.random.unit();
        self.bad = if self.bad { draw >= self.leave } else { draw < self.enter };
        self.bad
    }
}

#[cfg(test)]
mod tests {
    use super::Loss;

    /// Percent lost and mean run of losses among two million packets.
    fn measured(percent: f64, burst: f64) -> (f64, f64) {
        let mut loss = Loss::new(1, percent, burst);
        let lost: Vec<bool> = (0..2_000_000).map(|_| loss.loses()).collect();
        let count = lost.iter().filter(|&&l| l).count() as f64;
        let runs = lost.windows(2).filter(|w| !w[0] && w[1]).count() as f64;
        (count / 20_000.0, count / runs.max(1.0))
    }

    #[test]
    fn share_and_burst_are_those_asked_for() {
        for (percent, burst, run) in [(5.0, 3.0, 3.0), (20.0, 1.0, 1.25), (1.0, 10.0, 10.0), (0.0, 3.0, 0.0)] {
            let (share, length) = measured(percent, burst);
            assert!((share - percent).abs() <= 0.05 * percent + 0.1, "{share} of {percent}");
            assert!((length - run).abs() <= 0.1 * run, "{length} of {run}");
        }
        assert_eq!(measured(100.0, 3.0).0, 100.0);
    }
}
