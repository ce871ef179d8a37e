//! Fewer gates with the same line map: pairs that cancel go out, and blocks of CX give way to their
//! elimination.
mod blocks;
mod index;
mod marks;
mod spans;
mod sweep;

use crate::gates::{Gate, Op};

#[derive(Clone, Copy)]
pub enum Controls {
    Zero,
    One(u32),
    Two(u32, u32),
}

use Controls::{One, Two, Zero};

impl Controls {
    fn contains(self, line: u32) -> bool {
        match self {
            Zero => false,
            One(one) => line == one,
            Two(first, second) => line == first || line == second,
        }
    }

    fn are_like(self, other: Controls) -> bool {
        match (self, other) {
            (Zero, Zero) => true,
            (One(one), One(other)) => one == other,
            (Two(a, b), Two(c, d)) => (a, b) == (c, d) || (a, b) == (d, c),
            _ => false,
        }
    }
}

#[derive(Clone, Copy)]
pub struct Flip {
    controls: Controls,
    target: u32,
}

impl Flip {
    fn is_like(self, other: Flip) -> bool {
        self.target == other.target && self.controls.are_like(other.controls)
    }

    fn is_free_of(self, other: Flip) -> bool {
        !other.controls.contains(self.target) && !self.controls.contains(other.target)
    }

    fn is_cx(self) -> bool {
        matches!(self.controls, One(_))
    }
}

pub fn tidy(gates: &[Gate], lines: usize) -> Vec<Gate> {
    let mut flips: Vec<Flip> = gates.iter().map(flip_of).collect();
    loop {
        let settled = index::settled(lines, &flips);
        match blocks::first_longer(&settled) {
            None => return settled.iter().map(gate_of).collect(),
            Some(longer) => flips = sweep::swept(lines, settled, &longer),
        }
    }
}

fn flip_of(gate: &Gate) -> Flip {
    let controls = match gate.controls[..] {
        [] => Zero,
        [one] => One(one.line),
        [first, second, ..] => Two(first.line, second.line),
    };
    let (Op::Flip(target) | Op::Swap(target, _)) = gate.op;
    Flip { controls, target }
}

fn gate_of(flip: &Flip) -> Gate {
    match flip.controls {
        Zero => Gate::flip(&[], flip.target),
        One(one) => Gate::flip(&[one], flip.target),
        Two(first, second) => Gate::flip(&[first, second], flip.target),
    }
}
