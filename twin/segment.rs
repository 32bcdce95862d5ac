//! Drive segments: a row of axes at the bottom, and the stages over it.
use crate::chance::Chance;

pub const FAR: i64 = 100_000_000;

#[derive(Clone, Copy, PartialEq, Eq, Debug)]
pub enum Power {
    Off,
    Coming,
    On,
}

/// What an axis shows.
#[derive(Clone, Copy, PartialEq, Eq, Debug)]
pub struct Look {
    pub power: Power,
    pub demand: i64,
    pub actual: i64,
    pub fault: u32,
    pub low: i64,
    pub high: i64,
}

/// Why a follow was refused, and how many stages handed that up.
#[derive(Clone, Copy, PartialEq, Eq, Debug)]
pub struct Refused {
    pub code: u32,
    pub depth: u32,
}

/// How the axes at the bottom behave beyond the meaning that every segment has.
#[derive(Clone, PartialEq, Eq, Debug)]
pub enum Kind {
    Virtual,
    /// Drives that move by no more than the lag in a cycle.
    Cia402 {
        lag: i64,
    },
    /// Whatever the meaning allows, by chance: power may come late, faults arise, actual may be anywhere.
    Wild(Chance),
}

/// A drive. `stage` counts the CiA 402 states from 1 to 7; a virtual or wild axis only uses 2 (off or coming), 5 (on) and
/// 7 (fault).
#[derive(Clone, PartialEq, Eq, Debug)]
struct Drive {
    stage: u8,
    requested: bool,
    fault: u32,
    demand: i64,
    actual: i64,
}

#[derive(Clone, Copy, PartialEq, Eq, Debug)]
pub enum Stage {
    Mirror(u32),
    Soft(i64, i64),
}

/// A bottom and the stages over it, the lowest first.
#[derive(Clone, PartialEq, Eq, Debug)]
pub struct Segment {
    kind: Kind,
    low: i64,
    high: i64,
    drives: Vec<Drive>,
    stages: Vec<Stage>,
}

impl Segment {
    /// A segment of `count` axes, all off at `start`; none (17) if a setting is outside its limits.
    pub fn new(kind: Kind, count: i64, start: i64, low: i64, high: i64) -> Option<Segment> {
        let far = |p: i64| p.abs() > FAR;
        let lag_fits = match kind {
            Kind::Cia402 { lag } => (1..=100_000).contains(&lag),
            _ => true,
        };
        if !(1..=8).contains(&count) || far(start) || far(low) || far(high) || !lag_fits {
            return None;
        }
        let stage = if matches!(kind, Kind::Cia402 { .. }) { 1 } else { 2 };
        let drive = Drive { stage, requested: false, fault: 0, demand: start, actual: start };
        Some(Segment { kind, low, high, drives: vec![drive; count as usize], stages: Vec::new() })
    }

    /// One stage more on top; none (17) if its setting is outside its limits.
    pub fn under(mut self, stage: Stage) -> Option<Segment> {
        match stage {
            Stage::Soft(low, high) if low.abs() > FAR || high.abs() > FAR => return None,
            _ => self.stages.push(stage),
        }
        Some(self)
    }

    pub fn axes(&self) -> usize {
        self.drives.len()
    }

    pub fn look(&self, axis: usize) -> Look {
        let drive = &self.drives[axis];
        let power = match (drive.stage, drive.requested) {
            (5, _) => Power::On,
            (1..=4, true) => Power::Coming,
            _ => Power::Off,
        };
        let (fault, demand, actual) = (drive.fault, drive.demand, drive.actual);
        let mut look = Look { power, demand, actual, fault, low: self.low, high: self.high };
        for stage in &self.stages {
            match *stage {
                Stage::Mirror(mask) if turns(mask, axis) => {
                    look.demand = -look.demand;
                    look.actual = -look.actual;
                    (look.low, look.high) = (-look.high, -look.low);
                }
                Stage::Mirror(_) => {}
                Stage::Soft(low, high) => {
                    look.low = look.low.max(low);
                    look.high = look.high.min(high);
                }
            }
        }
        look
    }

    pub fn power_on(&mut self, axis: usize) {
        let drive = &mut self.drives[axis];
        if drive.fault == 0 {
            drive.requested = true;
        }
    }

    pub fn power_off(&mut self, axis: usize) {
        let drive = &mut self.drives[axis];
        drive.requested = false;
        if (3..=5).contains(&drive.stage) {
            drive.stage = 2;
        }
    }

    pub fn follow(&mut self, axis: usize, position: i64) -> Result<(), Refused> {
        let height = self.stages.len();
        let refused = |code: u32, handed_up: usize| Err(Refused { code, depth: handed_up.min(15) as u32 });
        if self.drives[axis].fault != 0 {
            return refused(12, height);
        }
        if self.drives[axis].stage != 5 {
            return refused(13, height);
        }
        let mut p = position;
        for (k, stage) in self.stages.iter().enumerate().rev() {
            match *stage {
                Stage::Mirror(mask) if turns(mask, axis) => p = -p,
                Stage::Mirror(_) => {}
                Stage::Soft(low, high) if low <= p && p <= high => {}
                Stage::Soft(..) => return refused(15, height - 1 - k),
            }
        }
        if p < self.low || p > self.high {
            return refused(15, height);
        }
        self.drives[axis].demand = p;
        Ok(())
    }

    pub fn trip(&mut self, axis: usize, code: u32) {
        let drive = &mut self.drives[axis];
        if drive.fault == 0 {
            drive.fault = code;
            drive.stage = if matches!(self.kind, Kind::Cia402 { .. }) { 6 } else { 7 };
            drive.requested = false;
        }
    }

    pub fn clear(&mut self, axis: usize) {
        let drive = &mut self.drives[axis];
        drive.fault = 0;
        if drive.stage >= 6 {
            drive.stage = 2;
        }
    }

    pub fn cycle(&mut self) {
        for drive in &mut self.drives {
            match &mut self.kind {
                Kind::Virtual => drive.cycle_virtual(),
                Kind::Cia402 { lag } => drive.cycle_cia402(*lag),
                Kind::Wild(chance) => drive.cycle_wild(chance),
            }
        }
    }

    /// The same axes, however they may stand when a sequencer is made over them.
    pub fn shaken(mut self, chance: &mut Chance) -> Segment {
        for drive in &mut self.drives {
            match chance.from(0, 3) {
                0 => drive.requested = true,
                1 => drive.stage = 5,
                2 => (drive.fault, drive.stage) = (chance.from(1, 15) as u32, 7),
                _ => {}
            }
            drive.demand = chance.from(-20, 20);
        }
        self
    }
}

fn turns(mask: u32, axis: usize) -> bool {
    mask >> axis & 1 == 1
}

impl Drive {
    fn cycle_virtual(&mut self) {
        match self.stage {
            5 => self.actual = self.demand,
            _ => self.demand = self.actual,
        }
        if self.stage == 2 && self.requested {
            self.stage = 5;
        }
    }

    fn cycle_cia402(&mut self, lag: i64) {
        match self.stage {
            5 => self.actual += (self.demand - self.actual).clamp(-lag, lag),
            _ => self.demand = self.actual,
        }
        match self.stage {
            1 | 3 | 4 | 6 => self.stage += 1,
            2 if self.requested => self.stage = 3,
            _ => {}
        }
    }

    fn cycle_wild(&mut self, chance: &mut Chance) {
        let was_on = self.stage == 5;
        if self.stage == 2 && self.requested && chance.once_in(2) {
            self.stage = 5;
        }
        match chance.from(0, 9) {
            0 => self.actual = chance.from(-FAR, FAR),
            1 | 2 => self.actual = (self.demand + chance.from(-1, 1)).clamp(-FAR, FAR),
            _ => self.actual = self.demand,
        }
        let arose = self.fault == 0 && chance.once_in(40);
        if arose {
            (self.fault, self.stage, self.requested) = (chance.from(1, 15) as u32, 7, false);
        }
        if !was_on || arose {
            self.demand = self.actual;
        }
    }
}
