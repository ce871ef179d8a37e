//! The writes of a run folded to constants, inputs and nodes.
use crate::gates::Gate;
use crate::machine::{Bit, Tape, Write};
use crate::planning::Plannable;

/// A node by its bases: an input's number, or the number of inputs and that of a node.
#[derive(Clone, Copy)]
pub enum Node {
    Not(u32),
    Xor(u32, u32),
    And(u32, u32),
}

#[derive(Clone, Copy)]
pub enum Folded {
    Constant(bool),
    Base(u32),
}

use Folded::{Base, Constant};

impl Node {
    pub fn operands(self) -> impl DoubleEndedIterator<Item = u32> + Clone {
        let (first, second) = match self {
            Node::Not(first) => (first, None),
            Node::Xor(first, second) | Node::And(first, second) => (first, Some(second)),
        };
        [first].into_iter().chain(second)
    }
}

/// The nodes that an output rests on, what each output became, and the last use of each node.
pub struct Graph {
    pub inputs: u32,
    pub nodes: Vec<Node>,
    pub outputs: Vec<Folded>,
    pub last_uses: Vec<u32>,
}

impl Graph {
    pub fn new(tape: &Tape) -> Graph {
        let mut graph = Graph {
            inputs: tape.inputs,
            nodes: Vec::new(),
            outputs: Vec::new(),
            last_uses: Vec::new(),
        };
        let mut became: Vec<Folded> = Vec::with_capacity(tape.writes.len());
        let folded = |became: &[Folded], bit: Bit| match bit {
            Bit::Input(number) => Base(number),
            Bit::Write(number) => became[number as usize],
        };
        for write in &tape.writes {
            became.push(match *write {
                Write::Constant(bit) => Constant(bit),
                Write::Xor(left, right) => graph.xor(folded(&became, left), folded(&became, right)),
                Write::And(left, right) => graph.and(folded(&became, left), folded(&became, right)),
            });
        }
        graph.outputs = tape
            .outputs
            .iter()
            .map(|&bit| folded(&became, bit))
            .collect();
        graph.keep_used();
        let nodes = graph.nodes.iter().map(|node| node.operands());
        graph.last_uses = last_uses(
            graph.inputs,
            nodes,
            graph.outputs.iter().filter_map(|output| output.base()),
        );
        graph
    }

    fn node(&mut self, node: Node) -> Folded {
        self.nodes.push(node);
        Base(self.inputs + self.nodes.len() as u32 - 1)
    }

    fn xor(&mut self, left: Folded, right: Folded) -> Folded {
        match (left, right) {
            (Constant(left), Constant(right)) => Constant(left ^ right),
            (Constant(false), base) | (base, Constant(false)) => base,
            (Constant(true), Base(base)) | (Base(base), Constant(true)) => {
                self.node(Node::Not(base))
            }
            (Base(left), Base(right)) if left == right => Constant(false),
            (Base(left), Base(right)) => self.node(Node::Xor(left, right)),
        }
    }

    fn and(&mut self, left: Folded, right: Folded) -> Folded {
        match (left, right) {
            (Constant(false), _) | (_, Constant(false)) => Constant(false),
            (Constant(true), other) | (other, Constant(true)) => other,
            (Base(left), Base(right)) if left == right => Base(left),
            (Base(left), Base(right)) => self.node(Node::And(left, right)),
        }
    }

    /// Only the nodes that an output rests on stay, numbered anew.
    fn keep_used(&mut self) {
        let inputs = self.inputs;
        let mut used = vec![false; self.nodes.len()];
        let mark = |used: &mut [bool], base: u32| {
            if base >= inputs {
                used[(base - inputs) as usize] = true;
            }
        };
        self.outputs
            .iter()
            .filter_map(|output| output.base())
            .for_each(|base| mark(&mut used, base));
        for number in (0..self.nodes.len()).rev() {
            if used[number] {
                self.nodes[number]
                    .operands()
                    .for_each(|base| mark(&mut used, base));
            }
        }
        let mut numbers = Vec::with_capacity(used.len());
        let mut count = inputs;
        for &is_used in &used {
            numbers.push(count);
            count += u32::from(is_used);
        }
        let new = |base: u32| {
            if base < inputs {
                base
            } else {
                numbers[(base - inputs) as usize]
            }
        };
        let kept = self
            .nodes
            .iter()
            .zip(&used)
            .filter(|(_, is_used)| **is_used);
        self.nodes = kept.map(|(node, _)| renamed(*node, new)).collect();
        for output in &mut self.outputs {
            if let Base(base) = output {
                *base = new(*base);
            }
        }
    }
}

impl Folded {
    pub fn base(self) -> Option<u32> {
        if let Base(base) = self {
            Some(base)
        } else {
            None
        }
    }
}

fn renamed(node: Node, new: impl Fn(u32) -> u32) -> Node {
    match node {
        Node::Not(first) => Node::Not(new(first)),
        Node::Xor(first, second) => Node::Xor(new(first), new(second)),
        Node::And(first, second) => Node::And(new(first), new(second)),
    }
}

/// The greatest node that is made of each node, the number of nodes where an output is, or itself.
pub fn last_uses<N: Iterator<Item = u32>>(
    inputs: u32,
    nodes: impl ExactSizeIterator<Item = N>,
    outputs: impl Iterator<Item = u32>,
) -> Vec<u32> {
    let count = nodes.len() as u32;
    let mut last_uses: Vec<u32> = (0..count).collect();
    for (number, operands) in nodes.enumerate() {
        for base in operands.filter(|&base| base >= inputs) {
            last_uses[(base - inputs) as usize] = number as u32;
        }
    }
    for base in outputs.filter(|&base| base >= inputs) {
        last_uses[(base - inputs) as usize] = count;
    }
    last_uses
}

impl Plannable for Graph {
    fn inputs(&self) -> u32 {
        self.inputs
    }

    fn outputs(&self) -> u32 {
        self.outputs.len() as u32
    }

    fn last_uses(&self) -> &[u32] {
        &self.last_uses
    }

    fn operands(&self, node: u32) -> impl Iterator<Item = u32> {
        self.nodes[node as usize].operands()
    }

    fn toggle(&self, node: u32, target: u32, line: impl Fn(u32) -> u32, gates: &mut Vec<Gate>) {
        match self.nodes[node as usize] {
            Node::Not(first) => {
                gates.extend([Gate::flip(&[line(first)], target), Gate::flip(&[], target)])
            }
            Node::Xor(first, second) => {
                gates.extend([first, second].map(|base| Gate::flip(&[line(base)], target)))
            }
            Node::And(first, second) => {
                gates.push(Gate::flip(&[line(first), line(second)], target))
            }
        }
    }

    fn copy(&self, output: u32, target: u32, line: impl Fn(u32) -> u32, gates: &mut Vec<Gate>) {
        match self.outputs[output as usize] {
            Base(base) => gates.push(Gate::flip(&[line(base)], target)),
            Constant(true) => gates.push(Gate::flip(&[], target)),
            Constant(false) => {}
        }
    }
}
