//! Forward parts of plans: nodes are put on work lines and taken off.
use crate::gates::{Gate, Op};
use std::cmp::Reverse;
use std::collections::BinaryHeap;

pub const MOST_LINES: u32 = 4_096;
pub const MOST_GATES: usize = 1_000_000;

pub enum Over {
    Lines(u32),
    Gates,
}

/// A graph whose nodes are put on lines, by the lines of their bases.
pub trait Plannable {
    fn inputs(&self) -> u32;
    fn outputs(&self) -> u32;
    fn last_uses(&self) -> &[u32];
    fn operands(&self, node: u32) -> impl Iterator<Item = u32>;
    fn toggle(&self, node: u32, target: u32, line: impl Fn(u32) -> u32, gates: &mut Vec<Gate>);
    fn copy(&self, output: u32, target: u32, line: impl Fn(u32) -> u32, gates: &mut Vec<Gate>);

    fn nodes(&self) -> u32 {
        self.last_uses().len() as u32
    }

    /// The nodes that are operands of a node.
    fn below(&self, node: u32) -> impl Iterator<Item = u32> {
        self.operands(node)
            .filter(|&base| base >= self.inputs())
            .map(|base| base - self.inputs())
    }
}

/// A circuit's gates, and how many lines it has.
pub struct Plan {
    pub gates: Vec<Gate>,
    pub lines: u32,
}

pub struct Forward<'g, G> {
    graph: &'g G,
    ends: u32,
    held: Vec<Option<u32>>,
    given_back: BinaryHeap<Reverse<u32>>,
    peak: u32,
    gates: Vec<Gate>,
    weight: usize,
}

impl<'g, G: Plannable> Forward<'g, G> {
    pub fn new(graph: &'g G) -> Result<Self, Over> {
        let ends = graph.inputs() + graph.outputs();
        if ends > MOST_LINES {
            return Err(Over::Lines(ends));
        }
        let held = vec![None; graph.nodes() as usize];
        Ok(Forward {
            graph,
            ends,
            held,
            given_back: BinaryHeap::new(),
            peak: 0,
            gates: Vec::new(),
            weight: 0,
        })
    }

    pub fn is_held(&self, node: u32) -> bool {
        self.held[node as usize].is_some()
    }

    /// Whether each operand is an input or held.
    pub fn is_ready(&self, node: u32) -> bool {
        self.graph.below(node).all(|below| self.is_held(below))
    }

    fn take(&mut self) -> Result<u32, Over> {
        if let Some(Reverse(line)) = self.given_back.pop() {
            return Ok(line);
        }
        let line = self.ends + self.peak;
        if line == MOST_LINES {
            return Err(Over::Lines(MOST_LINES + 1));
        }
        self.peak += 1;
        Ok(line)
    }

    fn give(&mut self, node: u32) {
        self.given_back
            .extend(self.held[node as usize].take().map(Reverse));
    }

    /// Weighs the gates from a place on.
    fn weigh(&mut self, from: usize) -> Result<(), Over> {
        self.weight += self.gates[from..].iter().map(weight).sum::<usize>();
        if 2 * self.weight > MOST_GATES {
            Err(Over::Gates)
        } else {
            Ok(())
        }
    }

    /// Puts a node on the least free line, or takes it off its line.
    pub fn toggle(&mut self, node: u32) -> Result<(), Over> {
        let own = self.held[node as usize];
        let target = own.map_or_else(|| self.take(), Ok)?;
        let from = self.gates.len();
        self.graph.toggle(
            node,
            target,
            line_of(self.graph, &self.held),
            &mut self.gates,
        );
        self.weigh(from)?;
        if own.is_some() {
            self.give(node);
        } else {
            self.held[node as usize] = Some(target);
        }
        Ok(())
    }

    /// Takes a node off its line by flips under these cubes of inputs.
    pub fn clear(&mut self, node: u32, cubes: Vec<Vec<crate::gates::Control>>) -> Result<(), Over> {
        let target = self.held[node as usize].expect("the node is held");
        let from = self.gates.len();
        self.gates.extend(cubes.into_iter().map(|controls| Gate {
            controls,
            op: Op::Flip(target),
        }));
        self.give(node);
        self.weigh(from)
    }

    /// The gates, the outputs copied to their lines, and the gates reversed.
    pub fn finish(self) -> Result<Plan, Over> {
        let mut gates = self.gates;
        let count = gates.len();
        for output in 0..self.graph.outputs() {
            let target = self.graph.inputs() + output;
            self.graph
                .copy(output, target, line_of(self.graph, &self.held), &mut gates);
        }
        if 2 * self.weight + gates.len() - count > MOST_GATES {
            return Err(Over::Gates);
        }
        gates.reserve(count);
        for place in (0..count).rev() {
            gates.push(gates[place].clone());
        }
        Ok(Plan {
            gates,
            lines: self.ends + self.peak,
        })
    }
}

fn line_of<G: Plannable>(graph: &G, held: &[Option<u32>]) -> impl Fn(u32) -> u32 {
    let inputs = graph.inputs();
    move |base| {
        if base < inputs {
            base
        } else {
            held[(base - inputs) as usize].expect("the node is held")
        }
    }
}

fn weight(gate: &Gate) -> usize {
    let negative = gate
        .controls
        .iter()
        .filter(|control| !control.positive)
        .count();
    let controls = gate.controls.len();
    2 * negative + if controls <= 2 { 1 } else { 4 * (controls - 2) }
}
