//! Many blocks replaced in one walk, each with the pairs that come of it.
use super::Flip;
use super::blocks::{Longer, front_of};
use super::marks::{Kinds, Marks};
use super::spans::Spans;

/// Flips that were walked over, and flips of which those from a place on are still to come.
struct Sweep {
    lines: usize,
    done: Vec<Flip>,
    behind: Spans,
    kinds: Kinds,
    flips: Vec<Flip>,
    ahead: Spans,
    at: usize,
}

/// The first block that is longer than its elimination gives way to it, the pairs that come of it
/// go out, and so on.
pub fn swept(lines: usize, flips: Vec<Flip>, first: &Longer) -> Vec<Flip> {
    let kinds = Kinds::new(&flips);
    let (behind, ahead) = (Spans::default(), Spans::default());
    let mut sweep = Sweep {
        lines,
        done: Vec::new(),
        behind,
        kinds,
        flips,
        ahead,
        at: 0,
    };
    sweep.take(first.start);
    sweep.give_way(first.end - first.start, &first.shorter);
    while sweep.at < sweep.flips.len() {
        sweep.walk_on();
    }
    sweep.done
}

impl Sweep {
    /// Over what comes next, if a look at it would find nothing, or on to a block that gives way.
    fn walk_on(&mut self) {
        let known = self.known_length();
        if known > 0 {
            return self.take_block(known);
        }
        let front = front_of(&self.flips[self.at..]);
        match front.shorter {
            Some(shorter) => self.give_way(front.length, &shorter),
            None => self.take_block(front.length),
        }
    }

    /// How many come next that need no look: those that had one, or a row of flips that are no CX.
    fn known_length(&mut self) -> usize {
        let known = self.ahead.length_at(self.at);
        let rest = &self.flips[self.at..];
        if known > 0 {
            return known.min(rest.len());
        }
        rest.iter()
            .position(|flip| flip.is_cx())
            .unwrap_or(rest.len())
    }

    /// The elimination in place of the block that comes next; then the walk goes back to the first
    /// block that may have changed.
    fn give_way(&mut self, count: usize, shorter: &[Flip]) {
        let block = &self.flips[self.at..self.at + count];
        let mut marks = Marks::new(self.lines);
        marks.change(block, shorter);
        let start = self.done.len();
        self.kinds.remove_all(block);
        self.kinds.add_all(shorter);
        self.behind.close(start);
        self.done.extend_from_slice(shorter);
        self.at += count;
        self.ahead.drop_before(self.at);
        self.go_back(start);
        let least = self.put_new(&mut marks, shorter.len());
        let least = self.meet_others(&mut marks).min(least);
        self.behind
            .pass_on(least, self.done.len(), &mut self.ahead, self.at);
        self.go_back(self.behind.last_end());
    }

    fn take_block(&mut self, count: usize) {
        let start = self.done.len();
        self.take(count);
        self.behind.push(start, self.done.len());
    }

    fn take(&mut self, count: usize) {
        self.done
            .extend_from_slice(&self.flips[self.at..self.at + count]);
        self.at += count;
    }

    /// Back to where so many were walked over.
    fn go_back(&mut self, to: usize) {
        let back = self.done.split_off(to);
        self.at -= back.len();
        self.flips[self.at..self.at + back.len()].copy_from_slice(&back);
    }

    /// Takes each of the new flips, which come next, or takes it out with one like it. Says the
    /// least place that changed.
    fn put_new(&mut self, marks: &mut Marks, new: usize) -> usize {
        let mut least = self.done.len();
        for _ in 0..new {
            let flip = self.flips[self.at];
            let place = self.done.len();
            match self.cancel(self.at) {
                Some(other) => {
                    marks.free(flip);
                    least = least.min(other);
                }
                None => {
                    self.take(1);
                    least = least.min(place);
                }
            }
        }
        least
    }

    fn meet_others(&mut self, marks: &mut Marks) -> usize {
        let mut least = self.done.len();
        marks.begin(least);
        for next in self.at..self.flips.len() {
            if !marks.are_open() {
                break;
            }
            least = least.min(self.meet(marks, next));
        }
        least
    }

    /// Takes out a flip that is still to come, if it was freed and has one like it.
    fn meet(&mut self, marks: &mut Marks, next: usize) -> usize {
        let flip = self.flips[next];
        if !marks.touch(flip) {
            return self.done.len();
        }
        let may_meet = marks.let_through(flip) && self.kinds.may_have_another(flip);
        match if may_meet { self.cancel(next) } else { None } {
            Some(other) => {
                marks.free_behind(flip, other, &self.done);
                other
            }
            None => {
                marks.pass(flip);
                self.done.len()
            }
        }
    }

    /// Takes out a flip that is still to come with the last like it, where all between are free of
    /// it, and those before it are walked over. Says the place of that other one.
    fn cancel(&mut self, next: usize) -> Option<usize> {
        let flip = self.flips[next];
        let place = last_like(&self.done, flip)?;
        if !self.flips[self.at..next]
            .iter()
            .all(|&other| flip.is_free_of(other))
        {
            return None;
        }
        self.take(next - self.at);
        let other = self.done.remove(place);
        self.kinds.remove_all(&[other, other]);
        self.behind.close(place);
        self.ahead.open(self.at);
        self.at += 1;
        Some(place)
    }
}

/// The place of the last flip like this one, if all behind it are free of this one.
fn last_like(flips: &[Flip], flip: Flip) -> Option<usize> {
    for (place, &other) in flips.iter().enumerate().rev() {
        if flip.is_like(other) {
            return Some(place);
        }
        if !flip.is_free_of(other) {
            return None;
        }
    }
    None
}
