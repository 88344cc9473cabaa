//! A stream through sender, a lossy link and receiver of RFC 8681, or a still in blocks. Everything handed out is compared with what was sent.

mod block;
mod bond;
mod ends;
mod grid;
mod link;
mod loss;
mod options;
mod picture;
mod progress;
mod random;
mod report;
mod self_test;
mod stream;
mod tally;

use options::{Options, Wish};
use std::io::{self, Write};
use std::path::Path;
use std::process::ExitCode;
use std::{env, fs};

const HELP: &str = include_str!("../help.txt");
const WRONG: u8 = 1;
const USAGE: u8 = 2;

/// Writes to standard output; nobody may be listening.
fn say(text: &str) {
    let mut out = io::stdout().lock();
    let _ = out.write_all(text.as_bytes()).and_then(|()| out.flush());
}

fn complain(text: &str) {
    let _ = writeln!(io::stderr().lock(), "demo: {text}");
}

fn main() -> ExitCode {
    match options::read(env::args_os().skip(1)) {
        Ok(Wish::Help) => say(HELP),
        Ok(Wish::SelfTest) => return if self_test::run() { ExitCode::SUCCESS } else { ExitCode::from(WRONG) },
        Ok(Wish::Run(options)) => return show(&options),
        Err(why) => {
            complain(&format!("{why} (--help tells the options)"));
            return ExitCode::from(USAGE);
        }
    }
    ExitCode::SUCCESS
}

fn show(options: &Options) -> ExitCode {
    if let Some(Err(why)) = options.file.as_deref().map(stream::readable) {
        complain(&why);
        return ExitCode::from(USAGE);
    }
    if options.block > 0 {
        return show_still(options);
    }
    say(&report::settings(options));
    let mut line = progress::Line::new();
    let run = ends::run(options, |progress| line.show(progress));
    line.clear();
    let run = match run {
        Ok(run) => run,
        Err(why) => {
            complain(&why);
            return ExitCode::from(WRONG);
        }
    };
    say(&report::result(options, &run));
    let written = match write(&options.svg, &picture::draw(options, &run)) {
        Ok(()) => {
            say(&format!("picture: {}\n", options.svg.display()));
            true
        }
        Err(why) => {
            complain(&format!("the picture cannot be written to {}: {why}", options.svg.display()));
            false
        }
    };
    say(&report::verdict(&run));
    if written && run.faults().is_empty() {
        ExitCode::SUCCESS
    } else {
        ExitCode::from(WRONG)
    }
}

fn show_still(options: &Options) -> ExitCode {
    say(&block::settings(options));
    let run = match block::run(options, |place, fate| say(&block::row(place, fate))) {
        Ok(run) => run,
        Err(why) => {
            complain(&why);
            return ExitCode::from(WRONG);
        }
    };
    say(&block::result(options, &run));
    say(&block::verdict(&run));
    if run.differences.count == 0 {
        ExitCode::SUCCESS
    } else {
        ExitCode::from(WRONG)
    }
}

/// Writes the picture. Only the default path's folder is made where it is missing.
fn write(path: &Path, text: &str) -> io::Result<()> {
    let usual = Path::new(options::SVG);
    if let (true, Some(folder)) = (path == usual, usual.parent()) {
        fs::create_dir_all(folder)?;
    }
    fs::write(path, text)
}
