//! Calls as lines of text.
use crate::segment::{Kind, Segment, Stage};
use crate::sequencer::{Answer, Command, Sequencer};
use crate::trail::Trail;

#[derive(Clone, Copy, PartialEq, Eq, Debug)]
pub enum Call {
    On(usize),
    Off(usize),
    Execute { block: usize, axis: usize, command: Command, buffered: bool },
    Release(usize),
    Reset(usize),
    Trip(usize, i64),
    Cycle,
}

impl Sequencer {
    pub fn call(&mut self, call: Call, trail: &mut Trail) -> Answer {
        match call {
            Call::On(axis) => self.power_on(axis, trail),
            Call::Off(axis) => self.power_off(axis, trail),
            Call::Execute { block, axis, command, buffered } => self.execute(block, axis, command, buffered, trail),
            Call::Release(block) => self.release(block, trail),
            Call::Reset(axis) => self.reset(axis, trail),
            Call::Trip(axis, code) => self.trip(axis, code, trail),
            Call::Cycle => self.cycle(trail),
        }
    }
}

/// The line of a call.
pub fn line_of(call: Call) -> String {
    let mode = |buffered: bool| if buffered { "buffer" } else { "abort" };
    match call {
        Call::On(axis) => format!("on {axis}"),
        Call::Off(axis) => format!("off {axis}"),
        Call::Execute { block, axis, command, buffered } => match command {
            Command::To { position, top, ramp } => {
                format!("to {block} {axis} {position} {top} {ramp} {}", mode(buffered))
            }
            Command::By { distance, top, ramp } => {
                format!("by {block} {axis} {distance} {top} {ramp} {}", mode(buffered))
            }
            Command::Run { velocity, ramp } => format!("run {block} {axis} {velocity} {ramp} {}", mode(buffered)),
            Command::Halt { ramp } => format!("halt {block} {axis} {ramp} {}", mode(buffered)),
            Command::Stop { ramp } => format!("stop {block} {axis} {ramp}"),
        },
        Call::Release(block) => format!("release {block}"),
        Call::Reset(axis) => format!("reset {axis}"),
        Call::Trip(axis, code) => format!("trip {axis} {code}"),
        Call::Cycle => "cycle 1".to_string(),
    }
}

/// The calls of a line; `cycle K` is K of them. None if the line is no call.
pub fn read(line: &str) -> Option<Vec<Call>> {
    let f: Vec<&str> = line.split_whitespace().collect();
    let n = |k: usize| f.get(k)?.parse::<i64>().ok();
    let id = |k: usize| f.get(k)?.parse::<usize>().ok();
    let buffered = |k: usize| match *f.get(k)? {
        "abort" => Some(false),
        "buffer" => Some(true),
        _ => None,
    };
    let given = |command: Command, mode: Option<bool>| {
        Some(Call::Execute { block: id(1)?, axis: id(2)?, command, buffered: mode? })
    };
    let (call, fields) = match *f.first()? {
        "on" => (Call::On(id(1)?), 2),
        "off" => (Call::Off(id(1)?), 2),
        "to" => (given(Command::To { position: n(3)?, top: n(4)?, ramp: n(5)? }, buffered(6))?, 7),
        "by" => (given(Command::By { distance: n(3)?, top: n(4)?, ramp: n(5)? }, buffered(6))?, 7),
        "run" => (given(Command::Run { velocity: n(3)?, ramp: n(4)? }, buffered(5))?, 6),
        "halt" => (given(Command::Halt { ramp: n(3)? }, buffered(4))?, 5),
        "stop" => (given(Command::Stop { ramp: n(3)? }, Some(false))?, 4),
        "release" => (Call::Release(id(1)?), 2),
        "reset" => (Call::Reset(id(1)?), 2),
        "trip" => (Call::Trip(id(1)?, n(2)?), 3),
        "cycle" => return (f.len() == 2).then(|| vec![Call::Cycle; id(1).unwrap_or(0)]),
        _ => return None,
    };
    (f.len() == fields).then(|| vec![call])
}

/// The segment of a first line; none if it is no such line or a setting is outside its limits.
pub fn segment(line: &str) -> Option<Segment> {
    let (kind, settings) = line.trim().split_once(' ')?;
    let n: Vec<i64> = settings.split_whitespace().map(str::parse).collect::<Result<_, _>>().ok()?;
    match (kind, n.as_slice()) {
        ("virtual", &[count, start, low, high]) => Segment::new(Kind::Virtual, count, start, low, high),
        ("cia402", &[count, start, low, high, lag]) => Segment::new(Kind::Cia402 { lag }, count, start, low, high),
        _ => None,
    }
}

/// The stage of a line behind the first, if it is one.
pub fn stage(line: &str) -> Option<Stage> {
    let f: Vec<&str> = line.split_whitespace().collect();
    match f.as_slice() {
        ["mirror", mask] => mask.parse().ok().map(Stage::Mirror),
        ["soft", low, high] => Some(Stage::Soft(low.parse().ok()?, high.parse().ok()?)),
        _ => None,
    }
}
