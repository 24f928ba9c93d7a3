//! Which lines a fact rests on.

use super::plan::{Plan, Turn, PASSING};
use super::shown::{Shown, Steps, Written};
use super::Line;
use crate::bits::{Bits, Set, EMPTY};

/// The lines on which the fact for the asking house rests, in their order. Every line shows a new
/// fact and rests on lines above it only, so one pass from the last line to the first is enough.
pub fn kept(plan: &Plan, shown: &Shown) -> Option<Vec<Line>> {
    let row = shown.wanted_row(plan)?;
    let mut needed = vec![EMPTY; plan.rows];
    needed[usize::from(row)].insert(plan.asked.house);
    let mut kept = Vec::new();
    for &Written { turn, house, steps } in shown.lines.iter().rev() {
        let turn = &plan.turns[usize::from(turn)];
        if needed[usize::from(turn.target)].has(house) {
            need_grounds(plan, turn, &steps, &mut needed);
            kept.push(Line { certificate: turn.certificate, steps });
        }
    }
    kept.reverse();
    Some(kept)
}

/// A line's steps are needed, and its issuer's right.
#[inline]
fn need_grounds(plan: &Plan, turn: &Turn, steps: &Steps, needed: &mut [Bits]) {
    if let Some(giver) = turn.giver {
        needed[usize::from(PASSING)].insert(giver);
    }
    let Some(first_row) = turn.first_row else {
        return;
    };
    let mut row = first_row;
    for (level, &house) in steps[..turn.count()].iter().enumerate() {
        needed[usize::from(row)].insert(house);
        if level + 1 < turn.count() {
            row = plan.later(turn, level + 1).row(house);
        }
    }
}
