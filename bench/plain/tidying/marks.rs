//! Where a pair can come of a change.
use super::{Controls, Flip};

// What is noted of a line: flips that were passed over have it as target, or as a control; flips
// with it as target, or as a control, were freed; new flips touch it; a flip of it behind those
// that were passed over can come to the change.
const TARGET: u8 = 1;
const CONTROL: u8 = 2;
const FREED_TARGET: u8 = 4;
const FREED_CONTROL: u8 = 8;
const NEW: u8 = 16;
const OPEN: u8 = 32;

/// The lines of a change, with what the flips behind it that were passed over have of them; and
/// where these begin.
pub struct Marks {
    words: Vec<u8>,
    open_lines: usize,
    passed: usize,
}

impl Marks {
    pub fn new(lines: usize) -> Marks {
        Marks {
            words: vec![0; lines],
            open_lines: 0,
            passed: 0,
        }
    }

    pub fn are_open(&self) -> bool {
        self.open_lines > 0
    }

    pub fn touch(&self, flip: Flip) -> bool {
        self.has(flip.target, OPEN) || self.has_any(flip.controls, OPEN)
    }

    /// Whether the flip can come to the change, and was freed or is on new lines.
    pub fn let_through(&self, flip: Flip) -> bool {
        let is_stopped = self.has(flip.target, CONTROL) || self.has_any(flip.controls, TARGET);
        let is_freed =
            self.has(flip.target, FREED_TARGET) || self.has_any(flip.controls, FREED_CONTROL);
        let is_renewed =
            flip.is_cx() && self.has_any(flip.controls, NEW) && self.has(flip.target, NEW);
        !is_stopped && (is_freed || is_renewed)
    }

    fn has_any(&self, controls: Controls, mark: u8) -> bool {
        match controls {
            Controls::Zero => false,
            Controls::One(one) => self.has(one, mark),
            Controls::Two(first, second) => self.has(first, mark) || self.has(second, mark),
        }
    }

    fn has(&self, line: u32, mark: u8) -> bool {
        self.words[line as usize] & mark != 0
    }

    /// A block gives way to new flips.
    pub fn change(&mut self, block: &[Flip], new: &[Flip]) {
        for &flip in block {
            self.free(flip);
        }
        for &flip in new {
            self.add_lines(flip, NEW, NEW, true);
        }
    }

    /// The flip goes: those that it stopped are freed.
    pub fn free(&mut self, flip: Flip) {
        self.add_lines(flip, FREED_CONTROL, FREED_TARGET, true);
    }

    pub fn begin(&mut self, behind: usize) {
        self.passed = behind;
    }

    /// The flip goes, with the one at a place, behind flips that were passed over and now are
    /// walked over.
    pub fn free_behind(&mut self, flip: Flip, place: usize, walked: &[Flip]) {
        if place < self.passed {
            self.passed -= 1;
        }
        self.free(flip);
        for &other in &walked[self.passed.min(walked.len())..] {
            self.pass(other);
        }
    }

    pub fn pass(&mut self, flip: Flip) {
        self.add_lines(flip, TARGET, CONTROL, false);
    }

    /// Notes a flip on its lines, or only on those that are lines of the change already.
    fn add_lines(&mut self, flip: Flip, of_target: u8, of_controls: u8, all: bool) {
        self.add(flip.target, of_target, all);
        match flip.controls {
            Controls::Zero => {}
            Controls::One(one) => self.add(one, of_controls, all),
            Controls::Two(first, second) => {
                self.add(first, of_controls, all);
                self.add(second, of_controls, all);
            }
        }
    }

    fn add(&mut self, line: u32, bit: u8, all: bool) {
        let word = &mut self.words[line as usize];
        if *word == 0 && !all || *word & bit != 0 {
            return;
        }
        let was_open = *word & OPEN != 0;
        *word = with_openness(*word | bit);
        self.open_lines += usize::from(*word & OPEN != 0);
        self.open_lines -= usize::from(was_open);
    }
}

fn with_openness(word: u8) -> u8 {
    let has = |bit: u8| word & bit != 0;
    let is_open = has(FREED_TARGET) && !has(CONTROL)
        || has(FREED_CONTROL) && !has(TARGET)
        || has(NEW) && !(has(TARGET) && has(CONTROL));
    if is_open { word | OPEN } else { word & !OPEN }
}

const MOST_KINDS: usize = 1 << 18;

/// How many flips of each kind there are; two kinds may share their number.
pub struct Kinds {
    counts: Vec<u32>,
}

impl Kinds {
    pub fn new(flips: &[Flip]) -> Kinds {
        let mut kinds = Kinds {
            counts: vec![0; MOST_KINDS],
        };
        kinds.add_all(flips);
        kinds
    }

    pub fn may_have_another(&self, flip: Flip) -> bool {
        self.counts[kind_of(flip)] > 1
    }

    pub fn add_all(&mut self, flips: &[Flip]) {
        for &flip in flips {
            self.counts[kind_of(flip)] += 1;
        }
    }

    pub fn remove_all(&mut self, flips: &[Flip]) {
        for &flip in flips {
            self.counts[kind_of(flip)] -= 1;
        }
    }
}

/// The same of flips that are alike.
fn kind_of(flip: Flip) -> usize {
    let (sum, product) = match flip.controls {
        Controls::Zero => (0, 0),
        Controls::One(one) => (one, 1),
        Controls::Two(first, second) => (first.wrapping_add(second), first.wrapping_mul(second)),
    };
    let controls = sum
        .wrapping_mul(40_503)
        .wrapping_add(product.wrapping_mul(97));
    flip.target.wrapping_mul(31_337).wrapping_add(controls) as usize % MOST_KINDS
}
