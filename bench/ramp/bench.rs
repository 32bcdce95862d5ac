//! Holds the proved ramp step to plain Rust: equal answers, and steps to be counted by callgrind.
use std::env;
use std::hint::black_box;

#[repr(C)]
#[derive(Clone, Copy)]
struct Motion {
    distance_to_go: i32,
    velocity: i32,
}

#[repr(C)]
#[derive(Clone, Copy)]
struct Rate {
    increments: u32,
}

#[repr(C)]
#[derive(Clone, Copy, PartialEq, Eq, Debug)]
struct Stepped {
    step: i32,
    remaining: i32,
}

type RampStep = unsafe extern "C" fn(Motion, Rate, Rate) -> Stepped;

unsafe extern "C" {
    fn ramp_bench_step(motion: Motion, max_velocity: Rate, max_acceleration: Rate) -> Stepped;
}

/// The twin: the same way to the step, in plain Rust.
mod twin {
    use super::{Motion, Rate, Stepped};

    #[derive(Clone, Copy)]
    struct Braking {
        speed: u32,
        count: u32,
        ends: u32,
    }

    impl Braking {
        fn from(speed: u32, deceleration: u32) -> Braking {
            let last = (speed - 1) % deceleration + 1;
            Braking { speed, count: (speed - 1) / deceleration + 1, ends: speed + last }
        }

        fn twice_distance(self) -> u32 {
            self.count * self.ends
        }

        fn slower(self, distance: u32) -> u32 {
            self.speed - (self.ends - 2 * distance / self.count + 1) / 2
        }
    }

    fn largest_step(cap: u32, distance: u32, deceleration: u32) -> u32 {
        let mut step = cap;
        loop {
            let braking = Braking::from(step, deceleration);
            if braking.twice_distance() <= 2 * distance {
                break step;
            }
            step = braking.slower(distance);
        }
    }

    /// How many steps that loop tries.
    pub fn tries(cap: u32, distance: u32, deceleration: u32) -> u32 {
        let mut step = cap;
        let mut count = 1;
        loop {
            let braking = Braking::from(step, deceleration);
            if braking.twice_distance() <= 2 * distance {
                break count;
            }
            step = braking.slower(distance);
            count += 1;
        }
    }

    pub fn twice_stopping_distance(speed: u32, deceleration: u32) -> u32 {
        Braking::from(speed, deceleration).twice_distance()
    }

    fn step_on(distance: u32, speed: u32, top: u32, rate: u32) -> u32 {
        let cap = (speed + rate).min(top);
        let slowest = speed.saturating_sub(rate);
        if twice_stopping_distance(cap, rate) <= 2 * distance {
            return cap.max(slowest);
        }
        if twice_stopping_distance(slowest + 1, rate) > 2 * distance {
            return slowest;
        }
        largest_step(cap, distance, rate)
    }

    fn step_to(distance: u32, velocity: i32, top: u32, rate: u32) -> i32 {
        if velocity < 0 {
            return (velocity + rate as i32).min(0);
        }
        step_on(distance, velocity as u32, top, rate) as i32
    }

    #[unsafe(no_mangle)]
    #[inline(never)]
    pub extern "C" fn twin_step(motion: Motion, max_velocity: Rate, max_acceleration: Rate) -> Stepped {
        let Motion { distance_to_go, velocity } = motion;
        let (top, rate) = (max_velocity.increments, max_acceleration.increments);
        let step = if distance_to_go < 0 {
            -step_to((-distance_to_go) as u32, -velocity, top, rate)
        } else {
            step_to(distance_to_go as u32, velocity, top, rate)
        };
        Stepped { step, remaining: distance_to_go - step }
    }
}

/// The rule as it is said: the sum term by term, and each step from the cap down by one.
mod naive {
    use super::{Motion, Stepped};

    pub fn stopping_distance(speed: i64, rate: i64) -> i64 {
        let (mut sum, mut term) = (0, speed);
        while term > 0 {
            sum += term;
            term -= rate;
        }
        sum
    }

    fn step_to(distance: i64, velocity: i64, top: i64, rate: i64) -> i64 {
        if velocity < 0 {
            return (velocity + rate).min(0);
        }
        let mut step = (velocity + rate).min(top);
        while stopping_distance(step, rate) > distance {
            step -= 1;
        }
        step.max(velocity - rate)
    }

    pub fn step(motion: Motion, top: u32, rate: u32) -> Stepped {
        let (d, v) = (motion.distance_to_go as i64, motion.velocity as i64);
        let step = if d < 0 {
            -step_to(-d, -v, top as i64, rate as i64)
        } else {
            step_to(d, v, top as i64, rate as i64)
        };
        Stepped { step: step as i32, remaining: (d - step) as i32 }
    }
}

struct Random(u64);

impl Random {
    fn next(&mut self) -> u64 {
        self.0 ^= self.0 << 13;
        self.0 ^= self.0 >> 7;
        self.0 ^= self.0 << 17;
        self.0
    }

    fn below(&mut self, n: u64) -> u64 {
        self.next() % n
    }

    /// From 1 to 10,000: small, middling, large, or an end.
    fn rate(&mut self) -> u32 {
        let most = [10, 100, 1_000, 10_000][self.below(4) as usize];
        match self.below(16) {
            0 => 1,
            1 => 10_000,
            _ => 1 + self.below(most) as u32,
        }
    }

    /// A move: its velocity at either end or between, its distance any or near to where a step just stops.
    fn case(&mut self) -> (Motion, u32, u32) {
        let (top, rate) = (self.rate().max(self.rate()), self.rate());
        let speed = match self.below(8) {
            0 => 10_000,
            1 => top as i64,
            _ => self.below(10_001) as i64,
        };
        let distance = match self.below(4) {
            0 => self.below(350_000_001) as i64,
            1 => self.below(20_000) as i64,
            _ => {
                let near = (speed - rate as i64 + self.below(2 * rate as u64 + 1) as i64).clamp(1, 10_000);
                twin::twice_stopping_distance(near as u32, rate) as i64 / 2 + self.below(5) as i64 - 2
            }
        };
        let (turn, away) = (1 - 2 * self.below(2) as i64, 1 - 2 * i64::from(self.below(8) == 0));
        let motion = Motion { distance_to_go: (turn * distance.max(0)) as i32, velocity: (turn * away * speed) as i32 };
        (motion, top, rate)
    }
}

fn proved(motion: Motion, top: u32, rate: u32) -> Stepped {
    unsafe { ramp_bench_step(motion, Rate { increments: top }, Rate { increments: rate }) }
}

fn plain(motion: Motion, top: u32, rate: u32) -> Stepped {
    twin::twin_step(motion, Rate { increments: top }, Rate { increments: rate })
}

fn hold(motion: Motion, top: u32, rate: u32, one_by_one: bool) {
    let step = proved(motion, top, rate);
    let Motion { distance_to_go: d, velocity: v } = motion;
    assert_eq!(step, plain(motion, top, rate), "twin at d {d} v {v} V {top} A {rate}");
    if one_by_one {
        assert_eq!(step, naive::step(motion, top, rate), "rule at d {d} v {v} V {top} A {rate}");
    }
}

/// Every small move one by one, then random ones.
fn compare(count: u64) {
    let mut small = 0u64;
    for rate in 1..=12 {
        for top in 1..=12 {
            for velocity in -14..=14 {
                for distance_to_go in -120..=120 {
                    hold(Motion { distance_to_go, velocity }, top, rate, true);
                    small += 1;
                }
            }
        }
    }
    let mut random = Random(88_172_645_463_325_252);
    for i in 0..count {
        let (motion, top, rate) = random.case();
        hold(motion, top, rate, i % 500 == 0);
    }
    println!("equal to the twin: all of {small} small and {count} random moves; to the rule one by one: {}", small + count.div_ceil(500));
}

/// How many steps the loop tries, or 0 where it is not come to.
fn tries(motion: Motion, top: u32, rate: u32) -> u32 {
    let turn = if motion.distance_to_go < 0 { -1 } else { 1 };
    let (distance, velocity) = ((turn * motion.distance_to_go) as u32, turn * motion.velocity);
    if velocity < 0 || twin::twice_stopping_distance((velocity as u32).saturating_sub(rate) + 1, rate) > 2 * distance {
        return 0;
    }
    twin::tries((velocity as u32 + rate).min(top), distance, rate)
}

/// The most steps that the loop tries, and the first move found with so many.
fn search(count: u64) {
    let (mut most, mut worst) = (0, (0, 0, 0, 0));
    let mut try_move = |motion: Motion, top: u32, rate: u32| {
        let n = tries(motion, top, rate);
        if n > most {
            most = n;
            worst = (motion.distance_to_go.abs(), motion.velocity.abs(), top, rate);
        }
    };
    for rate in 1..=40 {
        for top in 1..=40 {
            for velocity in 0..=40 {
                for distance_to_go in 0..=naive::stopping_distance(top.into(), rate.into()) as i32 {
                    try_move(Motion { distance_to_go, velocity }, top, rate);
                }
            }
        }
    }
    let mut random = Random(1_181_783_497_276_652_981);
    for _ in 0..count {
        let (motion, top, rate) = random.case();
        try_move(motion, top, rate);
    }
    println!("{most} {} {} {} {}", worst.0, worst.1, worst.2, worst.3);
}

/// Steps a move on until it stands at its target or the count is used up, and says how many steps it made.
fn go(step: RampStep, mut motion: Motion, top: u32, rate: u32, count: u32) -> u32 {
    for n in 0..count {
        if motion.distance_to_go == 0 && motion.velocity == 0 {
            return n;
        }
        let next = unsafe { step(motion, Rate { increments: top }, Rate { increments: rate }) };
        motion = Motion { distance_to_go: next.remaining, velocity: next.step };
    }
    count
}

fn scenario(step: RampStep, name: &str, turn: i32, numbers: &[i32]) -> u32 {
    let rate = numbers.first().map_or(1, |n| *n as u32);
    let motion = |d: i32, v: i32| Motion { distance_to_go: turn * d, velocity: turn * v };
    match name {
        "cruise" => go(step, motion(100_000_000, 5_000), 5_000, 50, 10_000),
        "speeding" => go(step, motion(100_000_000, 0), 10_000, 1, 9_000),
        "braking" => {
            let speed = (40 * rate as i32).min(10_000);
            let distance = naive::stopping_distance(speed.into(), rate.into()) as i32;
            (0..20).map(|n| go(step, motion(distance + n * speed / 20, speed), speed as u32, rate, u32::MAX)).sum()
        }
        "one" => {
            for _ in 0..1_000 {
                let motion = black_box(motion(numbers[0], numbers[1]));
                let (top, rate) = (Rate { increments: numbers[2] as u32 }, Rate { increments: numbers[3] as u32 });
                black_box(unsafe { step(motion, top, rate) });
            }
            1_000
        }
        _ => panic!("no scenario {name}"),
    }
}

fn main() {
    let words: Vec<String> = env::args().skip(1).collect();
    let number = |i: usize| words[i].parse::<i64>().expect("a number");
    match words[0].as_str() {
        "compare" => compare(number(1) as u64),
        "search" => search(number(1) as u64),
        implementation => {
            let step: RampStep = if implementation == "proved" { ramp_bench_step } else { twin::twin_step };
            let turn = if words[2] == "-" { -1 } else { 1 };
            let numbers: Vec<i32> = (3..words.len()).map(|i| number(i) as i32).collect();
            println!("{}", scenario(step, &words[1], turn, &numbers));
        }
    }
}
