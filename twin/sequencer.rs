//! The sequencer: 32 blocks of commands over a segment.
use crate::ramp::{move_step, velocity_step};
use crate::segment::{Look, Power, Segment};
use crate::trail::{Cause, Outcome, Record, State, Trail};
use std::collections::VecDeque;

#[derive(Clone, Copy, PartialEq, Eq, Debug)]
pub enum Command {
    To { position: i64, top: i64, ramp: i64 },
    By { distance: i64, top: i64, ramp: i64 },
    Run { velocity: i64, ramp: i64 },
    Halt { ramp: i64 },
    Stop { ramp: i64 },
}

impl Command {
    fn number(self) -> u32 {
        match self {
            Command::To { .. } => 1,
            Command::By { .. } => 2,
            Command::Run { .. } => 3,
            Command::Halt { .. } => 4,
            Command::Stop { .. } => 5,
        }
    }

    /// Whether every value is within its limits.
    fn fits(self) -> bool {
        let rate = |r: i64| (1..=10_000).contains(&r);
        match self {
            Command::To { position: way, top, ramp } | Command::By { distance: way, top, ramp } => {
                way.abs() <= 200_000_000 && rate(top) && rate(ramp)
            }
            Command::Run { velocity, ramp } => velocity.abs() <= 10_000 && rate(ramp),
            Command::Halt { ramp } | Command::Stop { ramp } => rate(ramp),
        }
    }

    /// Where a move that begins now would go.
    fn target(self, look: Look) -> Option<i64> {
        match self {
            Command::To { position, .. } => Some(position),
            Command::By { distance, .. } => Some(look.demand + distance),
            _ => None,
        }
    }

    fn state(self) -> State {
        match self {
            Command::Run { .. } => State::Continuous,
            Command::Stop { .. } => State::Stopping,
            _ => State::Discrete,
        }
    }
}

#[derive(Clone, Copy, PartialEq, Eq, Debug)]
pub enum Status {
    Idle,
    Waiting,
    Active,
    Ended(Outcome),
}

/// A block; `job` is the axis and the command of its last execute, until it is released.
#[derive(Clone, Copy, PartialEq, Eq, Debug)]
pub struct Block {
    pub status: Status,
    pub job: Option<(usize, Command)>,
}

impl Block {
    pub fn busy(self) -> bool {
        matches!(self.status, Status::Waiting | Status::Active)
    }
}

/// An axis. `line` has the blocks of its commands: the first is active, the others wait.
#[derive(Clone, PartialEq, Eq, Debug)]
pub struct Axis {
    pub state: State,
    pub velocity: i64,
    pub to_go: i64,
    pub requested: bool,
    pub line: VecDeque<usize>,
    /// The block whose stop brought the present state stopping.
    pub held_by: Option<usize>,
}

#[derive(Clone, PartialEq, Eq, Debug)]
pub struct Sequencer {
    pub segment: Segment,
    pub blocks: Vec<Block>,
    pub axes: Vec<Axis>,
    pub cycles: u32,
}

/// What a call answers: nothing, or the number of its refusal.
pub type Answer = Result<(), u32>;

fn refuse_if(condition: bool, number: u32) -> Answer {
    if condition { Err(number) } else { Ok(()) }
}

fn outside(target: i64, look: Look) -> bool {
    target < look.low || target > look.high
}

impl Sequencer {
    pub fn new(segment: Segment) -> Sequencer {
        let axis = Axis {
            state: State::Disabled,
            velocity: 0,
            to_go: 0,
            requested: false,
            line: VecDeque::new(),
            held_by: None,
        };
        let axes = vec![axis; segment.axes()];
        Sequencer { segment, blocks: vec![Block { status: Status::Idle, job: None }; 32], axes, cycles: 0 }
    }

    // ---- the calls

    pub fn power_on(&mut self, axis: usize, trail: &mut Trail) -> Answer {
        self.may_power(axis, trail)?;
        self.axes[axis].requested = true;
        self.segment.power_on(axis);
        Ok(())
    }

    pub fn power_off(&mut self, axis: usize, trail: &mut Trail) -> Answer {
        self.may_power(axis, trail)?;
        self.axes[axis].requested = false;
        self.segment.power_off(axis);
        self.end_all(axis, Outcome::Aborted, trail);
        self.rest(axis, State::Disabled, trail);
        Ok(())
    }

    pub fn execute(
        &mut self,
        block: usize,
        axis: usize,
        command: Command,
        buffered: bool,
        trail: &mut Trail,
    ) -> Answer {
        refuse_if(block > 31, 1)?;
        refuse_if(self.blocks[block].status != Status::Idle, 2)?;
        refuse_if(axis >= self.axes.len(), 4)?;
        refuse_if(!command.fits() || buffered && matches!(command, Command::Stop { .. }), 5)?;
        let state = self.axes[axis].state;
        refuse_if(!matches!(state, State::Standstill | State::Discrete | State::Continuous), 6)?;
        let waits = buffered && !self.axes[axis].line.is_empty();
        refuse_if(waits && self.axes[axis].line.len() == 5, 7)?;
        let look = self.segment.look(axis);
        let checked = !(waits && matches!(command, Command::By { .. }));
        refuse_if(checked && command.target(look).is_some_and(|p| outside(p, look)), 8)?;
        refuse_if(trail.free() < 16, 9)?;

        trail.write(Record::Accept { axis, block, command: command.number(), buffered });
        self.blocks[block] = Block { status: Status::Waiting, job: Some((axis, command)) };
        if waits {
            self.axes[axis].line.push_back(block);
        } else {
            self.end_all(axis, Outcome::Aborted, trail);
            self.axes[axis].line.push_back(block);
            self.begin(axis, trail);
        }
        Ok(())
    }

    pub fn release(&mut self, block: usize, trail: &mut Trail) -> Answer {
        refuse_if(block > 31, 1)?;
        refuse_if(self.blocks[block].busy(), 3)?;
        refuse_if(trail.free() < 16, 9)?;
        self.blocks[block] = Block { status: Status::Idle, job: None };
        if let Some(axis) = self.axes.iter().position(|y| y.held_by == Some(block)) {
            self.enter(axis, State::Standstill, trail);
        }
        Ok(())
    }

    pub fn reset(&mut self, axis: usize, trail: &mut Trail) -> Answer {
        refuse_if(axis >= self.axes.len(), 4)?;
        refuse_if(self.axes[axis].state != State::Errorstop, 6)?;
        refuse_if(trail.free() < 16, 9)?;
        self.segment.clear(axis);
        self.axes[axis].requested = false;
        self.enter(axis, State::Disabled, trail);
        Ok(())
    }

    pub fn trip(&mut self, axis: usize, code: i64, trail: &mut Trail) -> Answer {
        refuse_if(axis >= self.axes.len(), 4)?;
        refuse_if(!(1..=15).contains(&code), 5)?;
        refuse_if(trail.free() < 16, 9)?;
        self.segment.trip(axis, code as u32);
        if self.axes[axis].state != State::Errorstop {
            self.fail(axis, Cause(3, 0, self.segment.look(axis).fault), trail);
        }
        Ok(())
    }

    pub fn cycle(&mut self, trail: &mut Trail) -> Answer {
        refuse_if(trail.free() < 64, 9)?;
        self.cycles = (self.cycles + 1) % (1 << 28);
        trail.write(Record::Cycle(self.cycles));
        let refusals: Vec<Option<Cause>> = (0..self.axes.len()).map(|axis| self.step(axis)).collect();
        self.segment.cycle();
        for (axis, refusal) in refusals.into_iter().enumerate() {
            self.settle(axis, refusal, trail);
        }
        Ok(())
    }

    // ---- the questions

    /// Busy, Active, Done, CommandAborted, Error and the cause.
    pub fn block(&self, block: usize) -> Result<([bool; 5], Cause), u32> {
        refuse_if(block > 31, 1)?;
        let shown = self.blocks[block];
        let active = shown.status == Status::Active;
        Ok(match shown.status {
            Status::Ended(Outcome::Done) => ([false, false, true, false, false], Cause(0, 0, 0)),
            Status::Ended(Outcome::Aborted) => ([false, false, false, true, false], Cause(0, 0, 0)),
            Status::Ended(Outcome::Error(cause)) => ([false, false, false, false, true], cause),
            _ => ([shown.busy(), active, false, false, false], Cause(0, 0, 0)),
        })
    }

    /// State, v, d, how many wait, and the block of the active command.
    pub fn axis(&self, axis: usize) -> Result<(State, i64, i64, usize, Option<usize>), u32> {
        refuse_if(axis >= self.axes.len(), 4)?;
        let y = &self.axes[axis];
        Ok((y.state, y.velocity, y.to_go, y.line.len().saturating_sub(1), y.line.front().copied()))
    }

    // ---- what calls have in common

    fn may_power(&self, axis: usize, trail: &Trail) -> Answer {
        refuse_if(axis >= self.axes.len(), 4)?;
        refuse_if(self.axes[axis].state == State::Errorstop, 6)?;
        refuse_if(trail.free() < 16, 9)
    }

    fn command(&self, block: usize) -> Command {
        self.blocks[block].job.expect("a command in the line has a job").1
    }

    fn enter(&mut self, axis: usize, state: State, trail: &mut Trail) {
        let y = &mut self.axes[axis];
        let old = y.state;
        y.state = state;
        if state != State::Stopping {
            y.held_by = None;
        }
        if old != state {
            trail.write(Record::State { axis, old, new: state });
        }
    }

    fn rest(&mut self, axis: usize, state: State, trail: &mut Trail) {
        self.axes[axis].velocity = 0;
        self.axes[axis].to_go = 0;
        self.enter(axis, state, trail);
    }

    /// The first command of the line ends and leaves it.
    fn end_first(&mut self, axis: usize, outcome: Outcome, trail: &mut Trail) {
        let block = self.axes[axis].line.pop_front().expect("a command ends that is in the line");
        self.blocks[block].status = Status::Ended(outcome);
        trail.write(Record::End { axis, block, outcome });
    }

    fn end_all(&mut self, axis: usize, outcome: Outcome, trail: &mut Trail) {
        while !self.axes[axis].line.is_empty() {
            self.end_first(axis, outcome, trail);
        }
    }

    /// The first command of the line begins.
    fn begin(&mut self, axis: usize, trail: &mut Trail) {
        let block = self.axes[axis].line[0];
        let look = self.segment.look(axis);
        let target = self.command(block).target(look);
        self.blocks[block].status = Status::Active;
        trail.write(Record::Begin { axis, block });
        if let Some(p) = target {
            trail.write(Record::Target(p));
        }
        self.axes[axis].to_go = target.map_or(0, |p| p - look.demand);
        let state = self.command(block).state();
        if state == State::Stopping {
            self.axes[axis].held_by = Some(block);
        }
        self.enter(axis, state, trail);
    }

    fn fail(&mut self, axis: usize, cause: Cause, trail: &mut Trail) {
        self.end_all(axis, Outcome::Error(cause), trail);
        self.segment.power_off(axis);
        self.rest(axis, State::Errorstop, trail);
    }

    // ---- a cycle

    /// The axis follows, if it has an active command; the cause if that is refused.
    fn step(&mut self, axis: usize) -> Option<Cause> {
        let block = *self.axes[axis].line.front()?;
        let y = &self.axes[axis];
        let (v, d) = (y.velocity, y.to_go);
        let step = match self.command(block) {
            Command::To { top, ramp, .. } | Command::By { top, ramp, .. } => move_step(d, v, top, ramp),
            Command::Run { velocity, ramp } => velocity_step(v, velocity, ramp),
            Command::Halt { ramp } | Command::Stop { ramp } => velocity_step(v, 0, ramp),
        };
        self.axes[axis].velocity = step;
        if matches!(self.command(block), Command::To { .. } | Command::By { .. }) {
            self.axes[axis].to_go = d - step;
        }
        let position = self.segment.look(axis).demand + step;
        self.segment.follow(axis, position).err().map(|refused| Cause(2, refused.depth, refused.code))
    }

    /// The first case that applies to the axis, after the segment's cycle.
    fn settle(&mut self, axis: usize, refusal: Option<Cause>, trail: &mut Trail) {
        let look = self.segment.look(axis);
        let state = self.axes[axis].state;
        if look.fault != 0 && state != State::Errorstop {
            return self.fail(axis, Cause(3, 0, look.fault), trail);
        }
        if let Some(cause) = refusal {
            return self.fail(axis, cause, trail);
        }
        if state == State::Disabled && self.axes[axis].requested && look.power == Power::On {
            return self.enter(axis, State::Standstill, trail);
        }
        let Some(&block) = self.axes[axis].line.front() else { return };
        let y = &self.axes[axis];
        match self.command(block) {
            Command::Run { velocity, .. } => {
                if y.velocity == velocity && y.line.len() > 1 {
                    self.end_first(axis, Outcome::Aborted, trail);
                    self.hand_over(axis, trail);
                }
            }
            _ => {
                if y.velocity == 0 && y.to_go == 0 && look.actual == look.demand {
                    self.end_first(axis, Outcome::Done, trail);
                    trail.write(Record::Place(look.actual));
                    self.hand_over(axis, trail);
                }
            }
        }
    }

    /// The first that waits begins, if one does and its target is in range.
    fn hand_over(&mut self, axis: usize, trail: &mut Trail) {
        let Some(&block) = self.axes[axis].line.front() else {
            if self.axes[axis].state != State::Stopping {
                self.enter(axis, State::Standstill, trail);
            }
            return;
        };
        let look = self.segment.look(axis);
        if self.command(block).target(look).is_some_and(|p| outside(p, look)) {
            return self.fail(axis, Cause(1, 0, 8), trail);
        }
        self.begin(axis, trail);
    }
}
