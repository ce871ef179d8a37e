//! Pebbling by halves (Bennett 1989), down to blocks of so many nodes.
use crate::planning::{Forward, Over, Plan, Plannable};
use std::collections::BTreeSet;

type Nodes = BTreeSet<u32>;

struct Pebbling<'g, G> {
    graph: &'g G,
    block: u32,
    forward: Forward<'g, G>,
}

/// The plan of the first block size that fits, or the refusal of the last one.
pub fn pebble<G: Plannable>(graph: &G) -> Result<Plan, Over> {
    let mut block = graph.nodes().max(1).next_power_of_two();
    loop {
        match pebble_by(graph, block) {
            Err(_) if block > 1 => block /= 2,
            plan => return plan,
        }
    }
}

fn pebble_by<G: Plannable>(graph: &G, block: u32) -> Result<Plan, Over> {
    let mut pebbling = Pebbling {
        graph,
        block,
        forward: Forward::new(graph)?,
    };
    let given = (0..graph.nodes())
        .filter(|&node| graph.last_uses()[node as usize] == graph.nodes())
        .collect();
    pebbling.rise(0, graph.nodes(), given)?;
    pebbling.forward.finish()
}

impl<G: Plannable> Pebbling<'_, G> {
    /// The nodes, and all from `low` on that they rest on.
    fn resting(&self, nodes: Nodes, low: u32) -> Nodes {
        let mut waiting: Vec<u32> = nodes.iter().copied().collect();
        let mut found = nodes;
        while let Some(node) = waiting.pop() {
            waiting.extend(
                self.graph
                    .below(node)
                    .filter(|&below| below >= low && found.insert(below)),
            );
        }
        found
    }

    fn toggle(&mut self, mut nodes: impl Iterator<Item = u32>) -> Result<(), Over> {
        nodes.try_for_each(|node| self.forward.toggle(node))
    }

    /// Where the upper half begins, and the nodes of the lower one that are needed from there on.
    fn halves(&self, low: u32, high: u32) -> (u32, Nodes) {
        let middle = low + (high - low).div_ceil(2);
        (
            middle,
            (low..middle)
                .filter(|&node| self.graph.last_uses()[node as usize] >= middle)
                .collect(),
        )
    }

    /// Of the nodes of a range those that are held go over to those that are wanted.
    fn change(
        &mut self,
        low: u32,
        high: u32,
        mut held: Nodes,
        mut wanted: Nodes,
    ) -> Result<(), Over> {
        if held == wanted {
            return Ok(());
        }
        if high - low <= self.block {
            let touched = self.resting(&held ^ &wanted, low);
            self.toggle(touched.difference(&held).copied())?;
            let left = &(&held | &touched) - &wanted;
            return self.toggle(left.into_iter().rev());
        }
        let (middle, needed) = self.halves(low, high);
        let (held_right, right) = (held.split_off(&middle), wanted.split_off(&middle));
        let between = &wanted | &needed;
        self.change(low, middle, held, between.clone())?;
        self.change(middle, high, held_right, right)?;
        self.change(low, middle, between, wanted)
    }

    /// The wanted nodes of a range of which none is held, with what they rest on in the last block.
    fn rise(&mut self, low: u32, high: u32, mut wanted: Nodes) -> Result<(), Over> {
        if high - low <= self.block {
            let resting = self.resting(wanted, low);
            return self.toggle(resting.into_iter());
        }
        let (middle, needed) = self.halves(low, high);
        let right = wanted.split_off(&middle);
        self.change(low, middle, Nodes::new(), &wanted | &needed)?;
        self.rise(middle, high, right)
    }
}
