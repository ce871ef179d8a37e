//! Lean plans: a graph as sums of bits and of products, of which few stand on lines of their own.
use crate::gates::Gate;
use crate::graph::{Folded, Graph, Node, last_uses};
use crate::pebbling::pebble;
use crate::planning::{Forward, Over, Plan, Plannable};
use crate::sums::{MOST_SHORT, Product, Sum};
use std::collections::HashMap;

/// The nodes, which have no constant, and the outputs as sums.
pub struct LeanGraph {
    inputs: u32,
    nodes: Vec<Sum>,
    outputs: Vec<Sum>,
    last_uses: Vec<u32>,
}

/// The sums of a graph's nodes while it is gone through, and the nodes of the lean graph.
struct Walk<'g> {
    graph: &'g Graph,
    shared: Vec<bool>,
    sums: Vec<Option<Sum>>,
    numbers: HashMap<Sum, u32>,
}

impl LeanGraph {
    pub fn new(graph: &Graph) -> LeanGraph {
        let mut walk = Walk {
            graph,
            shared: shared_nodes(graph),
            sums: Vec::new(),
            numbers: HashMap::new(),
        };
        for (number, &node) in graph.nodes.iter().enumerate() {
            let sum = walk.sum_of(node);
            let sum = if walk.shared[number] {
                walk.standing(sum)
            } else {
                sum
            };
            walk.sums.push(Some(sum));
        }
        let outputs: Vec<Sum> = graph
            .outputs
            .iter()
            .map(|&output| walk.output(output))
            .collect();
        let mut numbered: Vec<(Sum, u32)> = walk.numbers.into_iter().collect();
        numbered.sort_unstable_by_key(|(_, number)| *number);
        let nodes: Vec<Sum> = numbered.into_iter().map(|(sum, _)| sum).collect();
        let last_uses = last_uses(
            graph.inputs,
            nodes.iter().map(Sum::operands),
            outputs.iter().flat_map(Sum::operands),
        );
        LeanGraph {
            inputs: graph.inputs,
            nodes,
            outputs,
            last_uses,
        }
    }
}

impl Walk<'_> {
    fn sum_of(&mut self, node: Node) -> Sum {
        match node {
            Node::Not(first) => self.take(first).negated(),
            Node::Xor(first, second) => self.take(first).plus(self.take(second)),
            Node::And(first, second) => self.take(first).times(&self.take(second)),
        }
    }

    /// The sum of a base, which is moved out where it is not shared.
    fn take(&mut self, base: u32) -> Sum {
        let Some(number) = base.checked_sub(self.graph.inputs) else {
            return Sum::bit(base, false);
        };
        let sum = &mut self.sums[number as usize];
        let sum = if self.shared[number as usize] {
            sum.clone()
        } else {
            sum.take()
        };
        sum.expect("a sum that is not shared is used once")
    }

    /// What stands for a shared sum: a node, where it is not short.
    fn standing(&mut self, mut sum: Sum) -> Sum {
        if sum.products.is_empty() && sum.bits.len() <= MOST_SHORT {
            return sum;
        }
        let one = std::mem::take(&mut sum.one);
        let next = self.graph.inputs + self.numbers.len() as u32;
        Sum::bit(*self.numbers.entry(sum).or_insert(next), one)
    }

    fn output(&mut self, output: Folded) -> Sum {
        match output {
            Folded::Constant(one) => Sum {
                one,
                ..Sum::default()
            },
            Folded::Base(base) => self.take(base),
        }
    }
}

/// Whether each node is a factor, or is used more than once.
fn shared_nodes(graph: &Graph) -> Vec<bool> {
    let mut uses = vec![0; graph.nodes.len()];
    let mut add = |base: u32, count: usize| {
        if base >= graph.inputs {
            uses[(base - graph.inputs) as usize] += count;
        }
    };
    for node in &graph.nodes {
        let count = if matches!(node, Node::And(..)) { 2 } else { 1 };
        node.operands().for_each(|base| add(base, count));
    }
    graph
        .outputs
        .iter()
        .filter_map(|output| output.base())
        .for_each(|base| add(base, 1));
    uses.into_iter().map(|uses| uses > 1).collect()
}

impl Plannable for LeanGraph {
    fn inputs(&self) -> u32 {
        self.inputs
    }

    fn outputs(&self) -> u32 {
        self.outputs.len() as u32
    }

    fn last_uses(&self) -> &[u32] {
        &self.last_uses
    }

    fn operands(&self, node: u32) -> impl Iterator<Item = u32> {
        self.nodes[node as usize].operands()
    }

    fn toggle(&self, node: u32, target: u32, line: impl Fn(u32) -> u32, gates: &mut Vec<Gate>) {
        push_sum(&self.nodes[node as usize], target, line, gates);
    }

    fn copy(&self, output: u32, target: u32, line: impl Fn(u32) -> u32, gates: &mut Vec<Gate>) {
        push_sum(&self.outputs[output as usize], target, line, gates);
    }
}

/// The gates that add a sum to a line.
fn push_sum(sum: &Sum, target: u32, line: impl Fn(u32) -> u32, gates: &mut Vec<Gate>) {
    gates.extend(
        sum.bits
            .iter()
            .map(|&base| Gate::flip(&[line(base)], target)),
    );
    for product in &sum.products {
        push_product(product, target, &line, gates);
    }
    if sum.one {
        gates.push(Gate::flip(&[], target));
    }
}

/// Each factor is gathered on one of its own lines for the moment of the CCX.
fn push_product(product: &Product, target: u32, line: impl Fn(u32) -> u32, gates: &mut Vec<Gate>) {
    let Product { first, second } = product;
    let own = |factor: &[u32], other: &[u32]| {
        *factor
            .iter()
            .rev()
            .find(|&base| !other.contains(base))
            .expect("no factor is a part of the other")
    };
    let owns = [own(first, second), own(second, first)];
    let start = gates.len();
    for (own, factor) in owns.into_iter().zip([first, second]) {
        let others = factor.iter().filter(|&&base| base != own);
        gates.extend(others.map(|&base| Gate::flip(&[line(base)], line(own))));
    }
    let end = gates.len();
    gates.push(Gate::flip(&owns.map(&line), target));
    for place in (start..end).rev() {
        gates.push(gates[place].clone());
    }
}

/// Each node in turn; then those whose last use it is go, where their operands are held.
fn ready(graph: &LeanGraph) -> Result<Plan, Over> {
    let mut forward = Forward::new(graph)?;
    for number in 0..graph.nodes() {
        forward.toggle(number)?;
        let mut below: Vec<u32> = graph.below(number).collect();
        below.sort_unstable();
        below.dedup();
        for &below in below.iter().rev() {
            if graph.last_uses[below as usize] == number && forward.is_ready(below) {
                forward.toggle(below)?;
            }
        }
    }
    forward.finish()
}

/// The better one of the ready plan and the first by pebbling that fits, or the refusal of the last
/// one.
pub fn lean(graph: &Graph) -> Result<Plan, Over> {
    let graph = LeanGraph::new(graph);
    match (ready(&graph), pebble(&graph)) {
        (Ok(ready), Ok(pebbled)) => {
            let size = |plan: &Plan| (toffoli_gates(plan), plan.lines, plan.gates.len());
            Ok(if size(&pebbled) < size(&ready) {
                pebbled
            } else {
                ready
            })
        }
        (Ok(plan), Err(_)) => Ok(plan),
        (Err(_), plan) => plan,
    }
}

fn toffoli_gates(plan: &Plan) -> usize {
    plan.gates
        .iter()
        .filter(|gate| gate.controls.len() == 2)
        .count()
}
