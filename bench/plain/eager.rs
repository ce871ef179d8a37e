//! The eager plan: each node is cleaned after its last use.
use crate::cubes::merge;
use crate::graph::{Graph, Node};
use crate::planning::{Forward, Over, Plan, Plannable};
use std::cmp::Ordering;
use std::collections::HashSet;

const MOST_MONOMIALS: usize = 64;

/// A product of inputs, which rise.
pub type Monomial = Vec<u32>;

/// A sum of monomials in the dictionary's order.
pub type Polynomial = Vec<Monomial>;

pub fn eager(graph: &Graph) -> Result<Plan, Over> {
    let mut forward = Forward::new(graph)?;
    let mut known: Vec<Option<Polynomial>> = (0..graph.inputs)
        .map(|input| Some(vec![vec![input]]))
        .collect();
    for number in 0..graph.nodes() {
        forward.toggle(number)?;
        let mut last: Vec<u32> = graph
            .below(number)
            .filter(|&below| graph.last_uses[below as usize] == number)
            .collect();
        last.sort_unstable_by(|one, other| other.cmp(one));
        for &below in &last {
            clean(&mut forward, below, &known[(graph.inputs + below) as usize])?;
        }
        known.push(value_of(graph.nodes[number as usize], &known));
        for below in last {
            known[(graph.inputs + below) as usize] = None;
        }
    }
    forward.finish()
}

fn clean(forward: &mut Forward<Graph>, node: u32, value: &Option<Polynomial>) -> Result<(), Over> {
    match value {
        _ if !forward.is_held(node) => Ok(()),
        _ if forward.is_ready(node) => forward.toggle(node),
        Some(value) => forward.clear(node, merge(value)),
        None => Ok(()),
    }
}

/// The polynomial of a node, where those of its operands are known and it has few monomials.
fn value_of(node: Node, known: &[Option<Polynomial>]) -> Option<Polynomial> {
    let known = |base: u32| known[base as usize].as_ref();
    let value = match node {
        Node::Not(first) => sum(known(first)?, &[Monomial::new()]),
        Node::Xor(first, second) => sum(known(first)?, known(second)?),
        Node::And(first, second) => product(known(first)?, known(second)?),
    };
    (value.len() <= MOST_MONOMIALS).then_some(value)
}

fn sum(left: &[Monomial], right: &[Monomial]) -> Polynomial {
    let mut sum = Vec::with_capacity(left.len() + right.len());
    let (mut i, mut j) = (0, 0);
    while i < left.len() && j < right.len() {
        let order = left[i].cmp(&right[j]);
        match order {
            Ordering::Less => sum.push(left[i].clone()),
            Ordering::Greater => sum.push(right[j].clone()),
            Ordering::Equal => {}
        }
        i += usize::from(order.is_le());
        j += usize::from(order.is_ge());
    }
    sum.extend_from_slice(&left[i..]);
    sum.extend_from_slice(&right[j..]);
    sum
}

fn product(left: &[Monomial], right: &[Monomial]) -> Polynomial {
    let mut product = HashSet::new();
    for one in left {
        for other in right {
            let both = union(one, other);
            if !product.remove(&both) {
                product.insert(both);
            }
        }
    }
    let mut product: Polynomial = product.into_iter().collect();
    product.sort_unstable();
    product
}

fn union(left: &[u32], right: &[u32]) -> Monomial {
    let mut union = Vec::with_capacity(left.len() + right.len());
    let (mut i, mut j) = (0, 0);
    while i < left.len() && j < right.len() {
        let (x, y) = (left[i], right[j]);
        union.push(x.min(y));
        i += usize::from(x <= y);
        j += usize::from(y <= x);
    }
    union.extend_from_slice(&left[i..]);
    union.extend_from_slice(&right[j..]);
    union
}
