//! Flips that are put one behind another, with an index of their lines.
use super::{Controls, Flip};

/// Flips in slots, of which some are emptied; for each line the places of those that have it as
/// target, and as a control.
struct Index {
    slots: Vec<Option<Flip>>,
    by_target: Vec<Vec<usize>>,
    by_control: Vec<Vec<usize>>,
}

/// Each flip goes out with the latest one like it behind which only flips stand that are free of
/// it, or stays.
pub fn settled(lines: usize, flips: &[Flip]) -> Vec<Flip> {
    let mut index = Index {
        slots: Vec::new(),
        by_target: vec![Vec::new(); lines],
        by_control: vec![Vec::new(); lines],
    };
    for &flip in flips {
        index.put(flip);
    }
    index.slots.into_iter().flatten().collect()
}

impl Index {
    fn put(&mut self, flip: Flip) {
        let bound = self.bound(flip);
        match self.partner(flip, bound) {
            Some(place) => self.slots[place] = None,
            None => self.append(flip),
        }
    }

    /// One more than the latest place of a flip that is not free of this one, or 0.
    fn bound(&mut self, flip: Flip) -> usize {
        let slots = &self.slots;
        let as_control = behind_last(&mut self.by_control[flip.target as usize], slots);
        let mut as_target = |line: u32| behind_last(&mut self.by_target[line as usize], slots);
        match flip.controls {
            Controls::Zero => as_control,
            Controls::One(one) => as_control.max(as_target(one)),
            Controls::Two(first, second) => as_control.max(as_target(first)).max(as_target(second)),
        }
    }

    /// The latest place, not before the bound, of a flip like this one.
    fn partner(&self, flip: Flip, bound: usize) -> Option<usize> {
        let places = self.likely_places(flip).iter().rev().copied();
        places
            .take_while(|&place| place >= bound)
            .find(|&place| self.slots[place].is_some_and(|other| flip.is_like(other)))
    }

    /// The shortest list that has the places of all flips like this one.
    fn likely_places(&self, flip: Flip) -> &[usize] {
        let of_target = &self.by_target[flip.target as usize];
        let of_control = |line: u32| &self.by_control[line as usize];
        match flip.controls {
            Controls::Zero => of_target,
            Controls::One(one) => shorter(of_target, of_control(one)),
            Controls::Two(first, second) => {
                shorter(of_target, shorter(of_control(first), of_control(second)))
            }
        }
    }

    fn append(&mut self, flip: Flip) {
        let place = self.slots.len();
        self.by_target[flip.target as usize].push(place);
        match flip.controls {
            Controls::Zero => {}
            Controls::One(one) => self.by_control[one as usize].push(place),
            Controls::Two(first, second) => {
                self.by_control[first as usize].push(place);
                self.by_control[second as usize].push(place);
            }
        }
        self.slots.push(Some(flip));
    }
}

/// One more than the latest place whose slot has a flip, or 0. Places behind it go off the list.
fn behind_last(places: &mut Vec<usize>, slots: &[Option<Flip>]) -> usize {
    while let Some(&place) = places.last() {
        if slots[place].is_some() {
            return place + 1;
        }
        places.pop();
    }
    0
}

fn shorter<'a>(one: &'a Vec<usize>, other: &'a Vec<usize>) -> &'a Vec<usize> {
    if other.len() < one.len() { other } else { one }
}
