//! Gates and lists of them.

#[derive(Clone, Copy)]
pub struct Control {
    pub line: u32,
    pub positive: bool,
}

#[derive(Clone, Copy)]
pub enum Op {
    Flip(u32),
    Swap(u32, u32),
}

#[derive(Clone)]
pub struct Gate {
    pub controls: Vec<Control>,
    pub op: Op,
}

impl Gate {
    /// The flip of a line where all controls are 1.
    pub fn flip(controls: &[u32], target: u32) -> Gate {
        let controls = controls
            .iter()
            .map(|&line| Control {
                line,
                positive: true,
            })
            .collect();
        Gate {
            controls,
            op: Op::Flip(target),
        }
    }

    /// The lines, those that are changed last.
    pub fn lines(&self) -> impl Iterator<Item = u32> + '_ {
        let (first, second) = match self.op {
            Op::Flip(target) => (target, None),
            Op::Swap(first, second) => (first, Some(second)),
        };
        self.controls
            .iter()
            .map(|control| control.line)
            .chain([first])
            .chain(second)
    }
}

/// A gate's depth is one more than the greatest depth of an earlier gate on one of its lines.
pub fn depth(gates: &[Gate], lines: usize) -> usize {
    let mut depths = vec![0; lines];
    let mut greatest = 0;
    for gate in gates {
        let depth = 1 + gate
            .lines()
            .map(|line| depths[line as usize])
            .max()
            .unwrap_or(0);
        for line in gate.lines() {
            depths[line as usize] = depth;
        }
        greatest = greatest.max(depth);
    }
    greatest
}
