//! The blocks of a list of flips, runs of CX gates on few lines, and their eliminations.
use super::{Controls, Flip};

const MOST_BLOCK_LINES: usize = 64;

/// What a walk passes over at once: a flip that is no CX or a block; and the elimination of a
/// block, where it is shorter.
pub struct Front {
    pub length: usize,
    pub shorter: Option<Vec<Flip>>,
}

/// A block that is longer than its elimination.
pub struct Longer {
    pub start: usize,
    pub end: usize,
    pub shorter: Vec<Flip>,
}

pub fn first_longer(flips: &[Flip]) -> Option<Longer> {
    let mut start = 0;
    while start < flips.len() {
        let front = front_of(&flips[start..]);
        let end = start + front.length;
        if let Some(shorter) = front.shorter {
            return Some(Longer {
                start,
                end,
                shorter,
            });
        }
        start = end;
    }
    None
}

pub fn front_of(flips: &[Flip]) -> Front {
    if !flips[0].is_cx() {
        return Front {
            length: 1,
            shorter: None,
        };
    }
    let (length, lines) = block_of(flips);
    let shorter = elimination(&lines, &flips[..length]);
    Front {
        length,
        shorter: (shorter.len() < length).then_some(shorter),
    }
}

/// How many flips the first block takes, and the lines that they touch, which rise.
fn block_of(flips: &[Flip]) -> (usize, Vec<u32>) {
    let mut lines: Vec<u32> = Vec::new();
    for (length, flip) in flips.iter().enumerate() {
        let Controls::One(from) = flip.controls else {
            return (length, lines);
        };
        let new = [from, flip.target]
            .iter()
            .filter(|line| lines.binary_search(line).is_err())
            .count();
        if lines.len() + new > MOST_BLOCK_LINES {
            return (length, lines);
        }
        for line in [from, flip.target] {
            if let Err(place) = lines.binary_search(&line) {
                lines.insert(place, line);
            }
        }
    }
    (flips.len(), lines)
}

/// The CX gates in place of a block on these lines, by Gauss and Jordan on the rows of its lines.
fn elimination(lines: &[u32], block: &[Flip]) -> Vec<Flip> {
    let mut rows: Vec<u64> = (0..lines.len()).map(|place| 1 << place).collect();
    let place_of = |line: u32| lines.binary_search(&line).unwrap();
    for flip in block {
        if let Controls::One(from) = flip.controls {
            rows[place_of(flip.target)] ^= rows[place_of(from)];
        }
    }
    let mut noted = Vec::new();
    for column in 0..rows.len() {
        let has_column = |row: u64| row >> column & 1 == 1;
        let mut add = |rows: &mut [u64], from: usize, onto: usize| {
            rows[onto] ^= rows[from];
            noted.push(Flip {
                controls: Controls::One(lines[from]),
                target: lines[onto],
            });
        };
        if !has_column(rows[column]) {
            if let Some(from) = (column + 1..rows.len()).find(|&row| has_column(rows[row])) {
                add(&mut rows, from, column);
            }
        }
        for onto in 0..rows.len() {
            if onto != column && has_column(rows[onto]) {
                add(&mut rows, column, onto);
            }
        }
    }
    noted.reverse();
    noted
}
