//! How far an axis steps in a cycle, by the plain rule.

/// The stopping distance of the speed `w`: w + (w − a) + (w − 2a) + .., positive terms only.
pub fn stopping(w: i64, a: i64) -> i64 {
    let mut sum = 0;
    let mut term = w;
    while term > 0 {
        sum += term;
        term -= a;
    }
    sum
}

/// The step of a move with `d` to go, at velocity `v`, with this top speed and ramp.
pub fn move_step(d: i64, v: i64, top: i64, a: i64) -> i64 {
    if d < 0 {
        return -move_step(-d, -v, top, a);
    }
    if v < 0 {
        return (v + a).min(0);
    }
    let mut step = (v + a).min(top);
    while step > 0 && stopping(step, a) > d {
        step -= 1;
    }
    step.max(v - a)
}

/// The step of a velocity `v` towards `goal`, by at most `a`.
pub fn velocity_step(v: i64, goal: i64, a: i64) -> i64 {
    if goal > v { goal.min(v + a) } else { goal.max(v - a) }
}
