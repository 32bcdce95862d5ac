//! Lists of calls by chance, and what their trails must obey. The reader here knows the rules of a trail and none of the
//! sequencer's own fields.
use crate::calls::{Call, line_of};
use crate::chance::Chance;
use crate::ramp::{move_step, stopping};
use crate::segment::{Kind, Segment, Stage};
use crate::sequencer::{Command, Sequencer};
use crate::trail::{Cause, Outcome, Record, State, Trail};
use std::collections::BTreeMap;

// ---- reading a trail

/// Where a block's round stands, read from its words alone.
#[derive(Clone, Copy, PartialEq, Debug)]
enum Round {
    Out,
    Accepted { axis: usize, command: u32 },
    Begun { axis: usize, command: u32, target: Option<i64> },
}

/// What must come right behind a record.
#[derive(Clone, Copy, PartialEq, Debug)]
enum Due {
    Nothing,
    Target { block: usize },
    Place { target: Option<i64> },
}

struct Reader {
    rounds: [Round; 32],
    states: [State; 8],
    due: Due,
    accepts: u64,
    ends: u64,
}

fn arrow(old: State, new: State) -> bool {
    use State::*;
    match (old, new) {
        (Errorstop, Errorstop) | (Disabled, Disabled) => false,
        (_, Errorstop) | (_, Disabled) | (Disabled, Standstill) => true,
        (Standstill, Stopping | Discrete | Continuous) => true,
        (Stopping, Standstill) => true,
        (Discrete, Standstill | Stopping | Continuous) => true,
        (Continuous, Stopping | Discrete) => true,
        _ => false,
    }
}

impl Reader {
    fn new() -> Reader {
        Reader { rounds: [Round::Out; 32], states: [State::Disabled; 8], due: Due::Nothing, accepts: 0, ends: 0 }
    }

    /// Takes one record more; the axis and target of a move that it ended done, or what is wrong.
    fn take(&mut self, record: Record) -> Result<Option<(usize, i64)>, String> {
        let wrong = |what: &str| Err(format!("{what}: {}", record.line()));
        let due = std::mem::replace(&mut self.due, Due::Nothing);
        match (due, record) {
            (Due::Target { block }, Record::Target(p)) => {
                let Round::Begun { target, .. } = &mut self.rounds[block] else {
                    return wrong("a target without a begin");
                };
                *target = Some(p);
                return Ok(None);
            }
            (Due::Place { target }, Record::Place(p)) => {
                return if target.is_some_and(|t| t != p) {
                    wrong("done elsewhere than at the target")
                } else {
                    Ok(None)
                };
            }
            (Due::Target { .. }, _) => return wrong("a target is missing before"),
            (Due::Place { .. }, _) => return wrong("a place is missing before"),
            (Due::Nothing, Record::Target(_) | Record::Place(_)) => return wrong("a position behind no begin or end"),
            _ => {}
        }
        match record {
            Record::Accept { axis, block, command, .. } => {
                if self.rounds[block] != Round::Out {
                    return wrong("an accept within a round");
                }
                self.rounds[block] = Round::Accepted { axis, command };
                self.accepts += 1;
            }
            Record::Begin { axis, block } => {
                let Round::Accepted { axis: own, command } = self.rounds[block] else {
                    return wrong("a begin out of turn");
                };
                let rival = self.rounds.iter().any(|r| matches!(r, Round::Begun { axis: other, .. } if *other == axis));
                if own != axis || rival {
                    return wrong("a begin on another axis, or beside another");
                }
                self.rounds[block] = Round::Begun { axis, command, target: None };
                if command <= 2 {
                    self.due = Due::Target { block };
                }
            }
            Record::End { axis, block, outcome } => {
                let (own, target) = match self.rounds[block] {
                    Round::Begun { axis, target, .. } => (axis, target),
                    Round::Accepted { axis, .. } if outcome != Outcome::Done => (axis, None),
                    _ => return wrong("an end out of turn"),
                };
                if own != axis {
                    return wrong("an end on another axis");
                }
                self.rounds[block] = Round::Out;
                self.ends += 1;
                if outcome == Outcome::Done {
                    self.due = Due::Place { target };
                    return Ok(target.map(|t| (axis, t)));
                }
            }
            Record::State { axis, old, new } => {
                if self.states[axis] != old || !arrow(old, new) {
                    return wrong("a state out of the chain");
                }
                self.states[axis] = new;
            }
            _ => {}
        }
        Ok(None)
    }
}

/// The order of words in a call: accept or cycle first, then axis by axis ends, begin, target, state.
fn ordered(call: Call, records: &[Record]) -> bool {
    let mut rest = records;
    match (call, records.first()) {
        (Call::Execute { .. }, Some(Record::Accept { .. })) | (Call::Cycle, Some(Record::Cycle(_))) => {
            rest = &records[1..]
        }
        (Call::Execute { .. } | Call::Cycle, _) => return false,
        _ => {}
    }
    let mut last = (0, 0);
    rest.iter().all(|record| {
        let place = match *record {
            Record::End { axis, .. } => (axis, 1),
            Record::Place(_) => (last.0, 1),
            Record::Begin { axis, .. } => (axis, 2),
            Record::Target(_) => (last.0, 3),
            Record::State { axis, .. } => (axis, 4),
            Record::Accept { .. } | Record::Cycle(_) => return false,
        };
        let fits = place > last || place == last && place.1 == 1;
        last = place;
        fits
    })
}

// ---- calls by chance

fn some_segment(chance: &mut Chance) -> Segment {
    let kind = match chance.from(0, 2) {
        0 => Kind::Virtual,
        1 => Kind::Cia402 { lag: chance.from(1, 6) },
        _ => Kind::Wild(Chance::new(chance.from(0, i64::MAX - 1) as u64)),
    };
    let (low, high) = (chance.from(-30, 0), chance.from(0, 30));
    let mut segment = Segment::new(kind, chance.from(1, 8), chance.from(-5, 5), low, high).expect("lawful settings");
    if chance.once_in(4) {
        segment = segment.shaken(chance);
    }
    for _ in 0..chance.from(0, 2) * chance.from(0, 2) {
        let stage = match chance.once_in(2) {
            true => Stage::Mirror(chance.from(0, 255) as u32),
            false => Stage::Soft(chance.from(-30, 2), chance.from(-2, 30)),
        };
        segment = segment.under(stage).expect("lawful settings");
    }
    segment
}

/// A value, mostly from its usual range, now and then at or beyond its limit.
fn value(chance: &mut Chance, low: i64, high: i64, limit: i64) -> i64 {
    match chance.from(0, 60) {
        0 => limit,
        1 => limit + 1,
        2 => -limit - 1,
        3 => 0,
        _ => chance.from(low, high),
    }
}

fn some_command(chance: &mut Chance) -> Command {
    let (top, ramp) = (value(chance, 1, 8, 10_000), value(chance, 1, 4, 10_000));
    match chance.from(0, 9) {
        0..=3 => Command::To { position: value(chance, -25, 25, 200_000_000), top, ramp },
        4..=6 => Command::By { distance: value(chance, -12, 12, 200_000_000), top, ramp },
        7 => Command::Run { velocity: value(chance, -3, 3, 10_000), ramp },
        8 => Command::Halt { ramp },
        _ => Command::Stop { ramp },
    }
}

fn some_call(chance: &mut Chance, axes: i64) -> Call {
    let beyond = chance.once_in(20) as i64;
    let axis = if chance.once_in(2) { 0 } else { chance.from(0, axes - 1 + beyond) as usize };
    let block = chance.from(0, 31 + beyond) as usize;
    match chance.from(0, 99) {
        0..=9 => Call::On(axis),
        10 => Call::Off(axis),
        11..=49 => Call::Execute { block, axis, command: some_command(chance), buffered: !chance.once_in(3) },
        50..=61 => Call::Release(block),
        62..=65 => Call::Reset(axis),
        66 => Call::Trip(axis, chance.from(0, 16)),
        _ => Call::Cycle,
    }
}

// ---- the trial

#[derive(Default)]
struct Seen {
    calls: u64,
    refused: BTreeMap<u32, u64>,
    ends: BTreeMap<String, u64>,
    most: BTreeMap<&'static str, usize>,
    handed_over: u64,
    moves_done: u64,
}

fn kind_of(call: Call) -> &'static str {
    match call {
        Call::Cycle => "cycle",
        Call::Execute { .. } => "execute",
        _ => "another call",
    }
}

impl Seen {
    fn note(&mut self, call: Call, records: &[Record]) {
        let most = self.most.entry(kind_of(call)).or_default();
        *most = records.len().max(*most);
        for record in records {
            match record {
                Record::End { outcome: Outcome::Error(Cause(layer, depth, code)), .. } => {
                    let code = if *layer == 3 { "any".to_string() } else { code.to_string() };
                    *self.ends.entry(format!("error {layer} {depth} {code}")).or_default() += 1;
                }
                Record::End { outcome, .. } => {
                    *self.ends.entry(format!("{outcome:?}").to_lowercase()).or_default() += 1
                }
                Record::Begin { .. } if call == Call::Cycle => self.handed_over += 1,
                _ => {}
            }
        }
    }
}

/// One call, held against the rules.
fn hold(
    sequencer: &mut Sequencer,
    call: Call,
    trail: &mut Trail,
    reader: &mut Reader,
    seen: &mut Seen,
) -> Result<(), String> {
    let (before, words_before, accepts) = (sequencer.clone(), trail.records.len(), reader.accepts);
    seen.calls += 1;
    if let Err(number) = sequencer.call(call, trail) {
        *seen.refused.entry(number).or_default() += 1;
        let unchanged = *sequencer == before && trail.records.len() == words_before;
        return if unchanged { Ok(()) } else { Err("a refused call changed something".to_string()) };
    }
    let new = &trail.records[words_before..];
    if !ordered(call, new) {
        return Err("words out of order in a call".to_string());
    }
    let mut arrived = Vec::new();
    for record in new {
        arrived.extend(reader.take(*record)?);
    }
    if reader.due != Due::Nothing {
        return Err("a target or a place is missing at the call's end".to_string());
    }
    for (axis, target) in &arrived {
        let look = sequencer.segment.look(*axis);
        if look.demand != *target || look.actual != *target {
            return Err(format!("axis {axis} is done at {target} and shows {} and {}", look.demand, look.actual));
        }
    }
    if reader.accepts != accepts + matches!(call, Call::Execute { .. }) as u64 {
        return Err("an accept without an execute, or an execute without one".to_string());
    }
    seen.moves_done += arrived.len() as u64;
    seen.note(call, new);
    standing(sequencer, reader)
}

/// What the table holds is what the trail says.
fn standing(sequencer: &Sequencer, reader: &Reader) -> Result<(), String> {
    let mut busy = 0;
    for (block, round) in reader.rounds.iter().enumerate() {
        let (outputs, _) = sequencer.block(block).expect("a block");
        let read = [*round != Round::Out, matches!(round, Round::Begun { .. })];
        if outputs[..2] != read {
            return Err(format!("block {block} shows other than its words say"));
        }
        busy += outputs[0] as u64;
    }
    if reader.accepts != reader.ends + busy {
        return Err("accepted commands are not accounted for".to_string());
    }
    for axis in 0..sequencer.axes.len() {
        let (state, v, d, waiting, active) = sequencer.axis(axis).expect("an axis");
        let begun = reader.rounds.iter().filter(|r| matches!(r, Round::Begun { axis: a, .. } if *a == axis)).count();
        let waits = reader.rounds.iter().filter(|r| matches!(r, Round::Accepted { axis: a, .. } if *a == axis)).count();
        let lawful = match state {
            State::Discrete | State::Continuous => begun == 1,
            State::Stopping => begun <= 1 && waits == 0,
            _ => begun == 0 && waits == 0 && v == 0 && d == 0,
        };
        if state != reader.states[axis] || active.is_some() != (begun == 1) || waiting != waits || waits > 4 || !lawful
        {
            return Err(format!("axis {axis} shows other than the words say"));
        }
    }
    Ok(())
}

fn one_list(chance: &mut Chance, seen: &mut Seen) {
    let segment = some_segment(chance);
    let setting = format!("{segment:?}");
    let mut sequencer = Sequencer::new(segment);
    let mut trail = Trail::new(if chance.once_in(8) { chance.from(0, 200) as usize } else { 1_000_000 });
    let mut reader = Reader::new();
    let mut made = Vec::new();
    for _ in 0..chance.from(1, 300) {
        let call = some_call(chance, sequencer.axes.len() as i64);
        made.push(line_of(call));
        if let Err(what) = hold(&mut sequencer, call, &mut trail, &mut reader, seen) {
            println!("{what}\nover {setting}\nafter these calls:\n{}", made.join("\n"));
            std::process::exit(1);
        }
    }
}

/// The worked cases of the ramp and of words, and the calls that write the most words.
fn cases() {
    assert_eq!(stopping(7, 3), 12);
    assert_eq!([move_step(5, 0, 2, 1), move_step(2, 2, 2, 1), move_step(-5, 0, 2, 1)], [1, 1, -1]);
    let (mut d, mut v) = (1, 5);
    for step in [3, 1, 0, -2, -1, 0] {
        v = move_step(d, v, 5, 2);
        d -= v;
        assert_eq!(v, step);
    }
    assert_eq!(Record::Target(-1).word(), 0x77FF_FFFF);
    let outcome = Outcome::Error(Cause(2, 0, 15));
    assert_eq!(Record::End { axis: 1, block: 2, outcome }.word(), 0x3102_320F);
    assert_eq!((most_in_execute(), most_in_cycle()), (9, 49));
}

fn enabled(axes: i64) -> (Sequencer, Trail) {
    let mut sequencer = Sequencer::new(Segment::new(Kind::Virtual, axes, 0, 0, 1).expect("lawful settings"));
    let mut trail = Trail::new(1_000);
    for axis in 0..axes as usize {
        assert_eq!(sequencer.power_on(axis, &mut trail), Ok(()));
    }
    assert_eq!(sequencer.cycle(&mut trail), Ok(()));
    (sequencer, trail)
}

/// A run with four waiting behind it is replaced by a move.
fn most_in_execute() -> usize {
    let (mut sequencer, mut trail) = enabled(1);
    let command = Command::Run { velocity: 1, ramp: 1 };
    for block in 0..5 {
        assert_eq!(sequencer.execute(block, 0, command, true, &mut trail), Ok(()));
    }
    let before = trail.records.len();
    assert_eq!(sequencer.execute(5, 0, Command::To { position: 1, top: 1, ramp: 1 }, false, &mut trail), Ok(()));
    trail.records.len() - before
}

/// All blocks are taken, four on each axis; all first moves are done in one cycle, and no next one has its target in range.
fn most_in_cycle() -> usize {
    let (mut sequencer, mut trail) = enabled(8);
    for block in 0..32 {
        let distance = if block < 8 { 1 } else { 5 };
        let command = Command::By { distance, top: 1, ramp: 1 };
        assert_eq!(sequencer.execute(block, block % 8, command, true, &mut trail), Ok(()));
    }
    let mut most = 0;
    for _ in 0..3 {
        let before = trail.records.len();
        assert_eq!(sequencer.cycle(&mut trail), Ok(()));
        most = most.max(trail.records.len() - before);
    }
    most
}

pub fn run(seed: u64, lists: u64) {
    cases();
    let mut chance = Chance::new(seed);
    let mut seen = Seen::default();
    for _ in 0..lists {
        one_list(&mut chance, &mut seen);
    }
    println!("lists {lists}, calls {}, moves done {}, hand-overs {}", seen.calls, seen.moves_done, seen.handed_over);
    let shown = |m: &BTreeMap<String, u64>| m.iter().map(|(k, n)| format!("{k}: {n}")).collect::<Vec<_>>().join(", ");
    println!("ends: {}", shown(&seen.ends));
    println!("refused: {}", shown(&seen.refused.iter().map(|(k, n)| (k.to_string(), *n)).collect()));
    println!("most words in one call: {}", shown(&seen.most.iter().map(|(k, n)| (k.to_string(), *n as u64)).collect()));
    println!("all trails as the rules have them");
}
