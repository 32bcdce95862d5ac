//! A second sequencer, to be run beside the proved one. It follows the pages in docs/, in plain Rust without the crates,
//! and shares no code with them.
//!
//! - `twin` reads a list of calls, one a line, and prints after each call `refused N` or the trail's new lines; with
//!   `--words` each line has its word in front.
//! - `twin lines` reads trail lines and prints each behind its word.
//! - `twin trial SEED LISTS` runs that many lists of calls by chance and holds their trails against the rules.
mod calls;
mod chance;
mod ramp;
mod segment;
mod sequencer;
mod trail;
mod trial;

use sequencer::Sequencer;
use std::io::Read;
use trail::{Record, Trail};

/// The printed trail is emptied after each call, and so has always room.
const ROOM: usize = 64;

fn main() {
    let args: Vec<String> = std::env::args().skip(1).collect();
    match args.iter().map(String::as_str).collect::<Vec<_>>().as_slice() {
        [] => play(&input(), false),
        ["--words"] => play(&input(), true),
        ["lines"] => lines(&input()),
        ["trial", seed, lists] => trial::run(seed.parse().expect("a seed"), lists.parse().expect("a number of lists")),
        _ => fail("usage: twin [--words | lines | trial SEED LISTS]"),
    }
}

fn input() -> String {
    let mut text = String::new();
    std::io::stdin().read_to_string(&mut text).expect("text on standard input");
    text
}

fn fail(message: &str) -> ! {
    eprintln!("twin: {message}");
    std::process::exit(1)
}

fn shown(record: Record, words: bool) -> String {
    if words { format!("{:08X} {}", record.word(), record.line()) } else { record.line() }
}

fn lines(text: &str) {
    for line in text.lines() {
        match Record::read(line) {
            Some(record) => println!("{}", shown(record, true)),
            None => fail(&format!("no line of a trail: {line}")),
        }
    }
}

/// Runs the calls of a text. Blank lines and those that begin with `#` do nothing.
fn play(text: &str, words: bool) {
    let mut lines = text.lines().filter(|l| !l.trim().is_empty() && !l.starts_with('#')).peekable();
    let first = lines.next().unwrap_or_else(|| fail("no segment"));
    let mut segment = calls::segment(first).unwrap_or_else(|| fail(&format!("no segment: {first}")));
    while let Some(stage) = lines.peek().and_then(|l| calls::stage(l)) {
        segment = segment.under(stage).unwrap_or_else(|| fail("a stage's setting is outside its limits"));
        lines.next();
    }
    let mut sequencer = Sequencer::new(segment);
    for line in lines {
        if question(&sequencer, line) {
            continue;
        }
        for call in calls::read(line).unwrap_or_else(|| fail(&format!("no call: {line}"))) {
            let mut trail = Trail::new(ROOM);
            match sequencer.call(call, &mut trail) {
                Ok(()) => trail.records.into_iter().for_each(|record| println!("{}", shown(record, words))),
                Err(number) => println!("refused {number}"),
            }
        }
    }
}

/// Answers a line that asks (`block B`, `axis A`), and says whether it was one.
fn question(sequencer: &Sequencer, line: &str) -> bool {
    let Some((what, number)) = line.trim().split_once(' ') else { return false };
    let Ok(number) = number.parse::<usize>() else { return false };
    let answer = match what {
        "block" => sequencer.block(number).map(|(outputs, cause)| {
            let names = ["busy", "active", "done", "aborted", "error"];
            let on: Vec<&str> = names.into_iter().zip(outputs).filter(|(_, is)| *is).map(|(name, _)| name).collect();
            format!("block {number} [{}] cause {} {} {}", on.join(" "), cause.0, cause.1, cause.2)
        }),
        "axis" => sequencer.axis(number).map(|(state, v, d, waiting, active)| {
            let active = active.map_or("none".to_string(), |block| block.to_string());
            format!("axis {number} {} v {v} d {d} waiting {waiting} active {active}", state.name())
        }),
        _ => return false,
    };
    println!("{}", answer.unwrap_or_else(|refusal| format!("refused {refusal}")));
    true
}
