//! Few cubes in place of the monomials of a polynomial: those that differ in one input at most are
//! joined.
use crate::eager::Monomial;
use crate::gates::Control;

/// Literals of different inputs, which rise.
type Cube = Vec<Control>;

pub fn merge(polynomial: &[Monomial]) -> Vec<Cube> {
    let positive = |inputs: &Monomial| {
        inputs
            .iter()
            .map(|&line| Control {
                line,
                positive: true,
            })
            .collect()
    };
    let mut cubes: Vec<Cube> = polynomial.iter().map(positive).collect();
    while let Some((first, second)) = close_pair(&cubes) {
        let right = cubes.remove(second);
        let left = cubes.remove(first);
        if distance(&left, &right) > 0 {
            cubes.push(joined(&left, &right));
        }
    }
    cubes
}

fn close_pair(cubes: &[Cube]) -> Option<(usize, usize)> {
    let pairs = (0..cubes.len())
        .flat_map(|first| (first + 1..cubes.len()).map(move |second| (first, second)));
    pairs
        .into_iter()
        .find(|&(first, second)| distance(&cubes[first], &cubes[second]) <= 1)
}

/// How many inputs differ in their states.
fn distance(left: &[Control], right: &[Control]) -> usize {
    let (mut i, mut j, mut count) = (0, 0, 0);
    while i < left.len() && j < right.len() {
        let (one, other) = (left[i], right[j]);
        count += usize::from(one.line != other.line || one.positive != other.positive);
        i += usize::from(one.line <= other.line);
        j += usize::from(other.line <= one.line);
    }
    count + (left.len() - i) + (right.len() - j)
}

/// The cube with the third state of the one input whose states differ.
fn joined(left: &[Control], right: &[Control]) -> Cube {
    let flipped = |control: &Control| Control {
        line: control.line,
        positive: !control.positive,
    };
    let mut cube = Vec::with_capacity(left.len().max(right.len()));
    let (mut i, mut j) = (0, 0);
    while i < left.len() && j < right.len() {
        let (one, other) = (left[i], right[j]);
        if one.line < other.line {
            cube.push(flipped(&one));
        } else if other.line < one.line {
            cube.push(flipped(&other));
        } else if one.positive == other.positive {
            cube.push(one);
        }
        i += usize::from(one.line <= other.line);
        j += usize::from(other.line <= one.line);
    }
    cube.extend(left[i..].iter().chain(&right[j..]).map(flipped));
    cube
}
