//! How far a run is: one line that is written again and again on a terminal, a line for every fifth of the stream elsewhere.

use crate::ends::Progress;
use crate::report::grouped;
use std::io::{self, IsTerminal, Write};
use std::sync::atomic::Ordering::Relaxed;
use std::time::{Duration, Instant};

pub struct Line {
    terminal: bool,
    shown: Option<Instant>,
    fifths: u64,
}

impl Line {
    pub fn new() -> Line {
        Line { terminal: io::stdout().is_terminal(), shown: None, fifths: 0 }
    }

    pub fn show(&mut self, progress: &Progress) {
        let done = progress.thousandths.load(Relaxed);
        let recently = self.shown.is_some_and(|shown| shown.elapsed() < Duration::from_millis(80));
        if if self.terminal { recently } else { done / 200 <= self.fifths } {
            return;
        }
        self.shown = Some(Instant::now());
        self.fifths = done / 200;
        let count = |number: &std::sync::atomic::AtomicU64| grouped(number.load(Relaxed));
        let text = format!(
            "{:>3} %  packets {}, lost {}  symbols rebuilt {}  ADUs handed out {}",
            done / 10,
            count(&progress.packets),
            count(&progress.lost),
            count(&progress.rebuilt),
            count(&progress.adus)
        );
        let mut out = io::stdout().lock();
        let _ = if self.terminal { write!(out, "\r{text}\x1b[K") } else { writeln!(out, "{text}") };
        let _ = out.flush();
    }

    /// Leaves no trace on a terminal.
    pub fn clear(&mut self) {
        if self.terminal {
            crate::say("\r\x1b[K");
        }
    }
}
