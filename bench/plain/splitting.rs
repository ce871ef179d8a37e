//! Flips of many controls, split into ones of at most two (Barenco and others 1995).
use crate::gates::{Control, Gate, Op};

pub enum Stop {
    NoIdle,
    Gates,
}

/// The gates in place of these on so many lines, of which there are at most so many.
pub fn split(gates: Vec<Gate>, lines: u32, limit: usize) -> Result<Vec<Gate>, Stop> {
    let mut narrow = Vec::with_capacity(gates.len());
    for gate in gates {
        match gate.op {
            Op::Flip(target) => split_flip(gate.controls, target, lines, &mut narrow)?,
            Op::Swap(first, second) => {
                let mut controls = gate.controls;
                controls.push(Control {
                    line: first,
                    positive: true,
                });
                narrow.push(Gate::flip(&[second], first));
                split_flip(controls, second, lines, &mut narrow)?;
                narrow.push(Gate::flip(&[second], first));
            }
        }
        if narrow.len() > limit {
            return Err(Stop::Gates);
        }
    }
    Ok(narrow)
}

fn split_flip(
    mut controls: Vec<Control>,
    target: u32,
    lines: u32,
    narrow: &mut Vec<Gate>,
) -> Result<(), Stop> {
    let negative: Vec<u32> = controls
        .iter()
        .filter(|control| !control.positive)
        .map(|control| control.line)
        .collect();
    narrow.extend(negative.iter().map(|&line| Gate::flip(&[], line)));
    if controls.len() <= 2 {
        for control in &mut controls {
            control.positive = true;
        }
        narrow.push(Gate {
            controls,
            op: Op::Flip(target),
        });
    } else {
        let controls: Vec<u32> = controls.iter().map(|control| control.line).collect();
        split_wide(&controls, target, lines, narrow)?;
    }
    narrow.extend(negative.iter().map(|&line| Gate::flip(&[], line)));
    Ok(())
}

/// A flip of three or more controls, by the idle lines, the greatest first.
fn split_wide(
    controls: &[u32],
    target: u32,
    lines: u32,
    narrow: &mut Vec<Gate>,
) -> Result<(), Stop> {
    let is_idle = |line: &u32| *line != target && !controls.contains(line);
    let idle: Vec<u32> = (0..lines)
        .rev()
        .filter(is_idle)
        .take(controls.len() - 2)
        .collect();
    if idle.len() == controls.len() - 2 {
        ladder(controls, target, &idle, narrow);
        return Ok(());
    }
    let first = *idle.first().ok_or(Stop::NoIdle)?;
    let (front, back) = controls.split_at(controls.len().div_ceil(2));
    let (upper, lower) = ([back, &[first]].concat(), [back, &[target]].concat());
    for _ in 0..2 {
        narrow_or_ladder(&upper, target, falling(front), narrow);
        narrow_or_ladder(front, first, falling(&lower), narrow);
    }
    Ok(())
}

fn falling(lines: &[u32]) -> Vec<u32> {
    let mut falling = lines.to_vec();
    falling.sort_unstable_by(|one, other| other.cmp(one));
    falling
}

fn narrow_or_ladder(controls: &[u32], target: u32, idle: Vec<u32>, narrow: &mut Vec<Gate>) {
    if controls.len() <= 2 {
        narrow.push(Gate::flip(controls, target));
    } else {
        ladder(controls, target, &idle, narrow);
    }
}

fn ladder(controls: &[u32], target: u32, idle: &[u32], narrow: &mut Vec<Gate>) {
    let last = controls.len() - 2;
    let step = |place: usize| {
        let onto = if place == last { target } else { idle[place] };
        if place == 0 {
            Gate::flip(&controls[..2], onto)
        } else {
            Gate::flip(&[controls[place + 1], idle[place - 1]], onto)
        }
    };
    narrow.extend((1..=last).rev().chain(0..=last).map(step));
    narrow.extend((1..last).rev().chain(0..last).map(step));
}
