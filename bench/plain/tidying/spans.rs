//! Where a walk need not look again.

/// From a place up to another: a block that is not longer than its elimination, or flips in a row
/// that are no CX.
#[derive(Clone, Copy)]
struct Span {
    start: usize,
    end: usize,
}

/// Spans behind a place, which rise, or ahead of it, which fall: the last one is the nearest. An
/// empty one is that of a block that changed.
#[derive(Default)]
pub struct Spans {
    spans: Vec<Span>,
}

impl Spans {
    pub fn push(&mut self, start: usize, end: usize) {
        self.spans.push(Span { start, end });
    }

    pub fn last_end(&self) -> usize {
        self.spans.last().map_or(0, |span| span.end)
    }

    /// Those behind `end` that do not end before a place go over to those ahead, where `end` is the
    /// place `at`.
    pub fn pass_on(&mut self, least: usize, end: usize, ahead: &mut Spans, at: usize) {
        while self.last_end() >= least {
            let Some(span) = self.spans.pop() else { return };
            ahead.push(at - (end - span.start), at - (end - span.end));
        }
    }

    pub fn drop_before(&mut self, place: usize) {
        while self.spans.last().is_some_and(|span| span.start < place) {
            self.spans.pop();
        }
    }

    /// How long the one is that begins at a place, or 0. Those that begin before it go.
    pub fn length_at(&mut self, place: usize) -> usize {
        self.drop_before(place);
        self.spans
            .last()
            .filter(|span| span.start == place)
            .map_or(0, |span| span.end - span.start)
    }

    /// The flip at a place went out: those behind it come nearer to the start.
    pub fn close(&mut self, place: usize) {
        for span in self
            .spans
            .iter_mut()
            .rev()
            .take_while(|span| span.end >= place)
        {
            if place < span.start {
                *span = Span {
                    start: span.start - 1,
                    end: span.end - 1,
                };
            } else {
                span.end = span.start;
            }
        }
    }

    /// The same: those before it come nearer to the end.
    pub fn open(&mut self, place: usize) {
        for span in self
            .spans
            .iter_mut()
            .rev()
            .take_while(|span| span.start <= place)
        {
            if span.end < place {
                *span = Span {
                    start: span.start + 1,
                    end: span.end + 1,
                };
            } else {
                span.end = span.start;
            }
        }
    }
}
