//! The best documents that one of several words has: by stretches of documents over which the bounds are taken once.
//!
//! A stretch whose bounds together pass no threshold is passed over; the documents of any other go through a window,
//! but for the blocks that cannot matter. The lists whose bounds together pass no threshold come last, from the
//! greatest bound down, and only for documents that still can.
use crate::index::BLOCK;
use crate::score::{Clause, Combine};
use crate::sink::Sink;
use crate::window::{Window, WINDOW};
use std::ops::Range;

/// A stretch has so many documents at least for each list, or a look at all lists would cost more than it saves.
const LEAST_FOR_LIST: usize = 64;
/// A posting that is looked up costs as much as so many that are walked over.
const LOOK_UP: usize = 8;

/// What a run for the best came to.
#[derive(Default)]
pub struct Work {
    pub postings: usize,
    pub stretches: usize,
    /// documents whose score was compared with the threshold
    pub ticks: usize,
}

/// A list, and how far it has come.
struct Run<'a> {
    clause: Clause<'a>,
    posting: usize,
    /// the block that the stretch begins in, or behind, and its bound
    block: usize,
    block_bound: i64,
    /// the greatest bound of the blocks that have documents of the stretch, or 0
    bound: i64,
}

impl<'a> Run<'a> {
    fn new(clause: &Clause<'a>) -> Self {
        let block_bound = clause.scorer.bound(&clause.list.blocks[0]);
        Run {
            clause: *clause,
            posting: 0,
            block: 0,
            block_bound,
            bound: 0,
        }
    }

    fn last(&self) -> u32 {
        self.clause.list.blocks[self.block].last
    }

    fn bound_of(&self, block: usize) -> i64 {
        self.clause.scorer.bound(&self.clause.list.blocks[block])
    }

    /// Moves on to the block that has the first document not below this one; false where there is none.
    fn settle(&mut self, document: u32) -> bool {
        let list = self.clause.list;
        if list.documents[list.len() - 1] < document {
            return false;
        }
        if self.last() < document {
            while self.last() < document {
                self.block += 1;
            }
            self.block_bound = self.bound_of(self.block);
        }
        true
    }

    /// The first document that may come, not below this one.
    fn next_document(&self, from: u32) -> u32 {
        let posting = self.posting.max(self.block * BLOCK);
        self.clause.list.documents.get(posting).map_or(from, |&it| it.max(from))
    }

    /// Bounds its postings up to this document.
    fn bound_until(&mut self, last: u32) {
        if self.next_document(0) > last {
            self.bound = 0;
            return;
        }
        self.bound = self.block_bound;
        while self.last() < last && self.block + 1 < self.clause.list.blocks.len() {
            self.block += 1;
            self.block_bound = self.bound_of(self.block);
            self.bound = self.bound.max(self.block_bound);
        }
    }
}

/// The documents of a stretch.
#[derive(Clone, Copy)]
struct Stretch {
    first: u32,
    last: u32,
}

struct Search<'a, C: Combine> {
    combine: C,
    /// by their bounds over the stretch, the least first
    runs: Vec<Run<'a>>,
    /// the bounds of the runs before each of them, joined
    below: Vec<C::State>,
    /// the bounds of each and of those behind it, joined
    above: Vec<C::State>,
    /// so many runs at the front pass no threshold together
    minor: usize,
    window: Window<C>,
    work: Work,
}

/// Hands on documents that one of the clauses has, all of those that score above the sink's threshold among them.
pub fn best_of_any<C: Combine, S: Sink>(clauses: &[Clause], combine: C, sink: &mut S) -> Work {
    let mut search = Search {
        combine,
        runs: clauses.iter().map(Run::new).collect(),
        below: vec![C::State::default(); clauses.len() + 1],
        above: vec![C::State::default(); clauses.len() + 1],
        minor: 0,
        window: Window::new(),
        work: Work {
            postings: clauses.iter().map(|it| it.list.len()).sum(),
            ..Work::default()
        },
    };
    let mut from = 0;
    while let Some(stretch) = search.next_stretch(from) {
        from = stretch.last + 1;
        search.work.stretches += 1;
        if search.bound(stretch, sink.threshold()) {
            search.go_through(stretch, sink.threshold());
            search.drain(stretch, sink);
        }
    }
    search.work
}

impl<C: Combine> Search<'_, C> {
    /// The stretch begins with the next document, and ends where a block does, unless that would be too soon.
    fn next_stretch(&mut self, from: u32) -> Option<Stretch> {
        self.runs.retain_mut(|run| run.settle(from));
        let first = self.runs.iter().map(|run| run.next_document(from)).min()?;
        let end = self.runs.iter().map(Run::last).min()?;
        let least = (LEAST_FOR_LIST * self.runs.len()).min(WINDOW) as u32;
        Some(Stretch {
            first,
            last: end.clamp(first + least - 1, first + WINDOW as u32 - 1),
        })
    }

    /// Whether a document of the stretch may score above the threshold.
    fn bound(&mut self, stretch: Stretch, threshold: i64) -> bool {
        for run in &mut self.runs {
            run.bound_until(stretch.last);
        }
        self.runs.sort_unstable_by_key(|run| run.bound);
        let count = self.runs.len();
        self.minor = 0;
        for number in 0..count {
            self.below[number + 1] = C::join(self.below[number], self.runs[number].bound);
            if !self.combine.is_above(self.below[number + 1], threshold) {
                self.minor = number + 1;
            }
        }
        if self.minor == count {
            return false;
        }
        // to look at each document of the window only pays where the others are the smaller part
        let size = |runs: &[Run]| {
            runs.iter()
                .filter(|it| it.bound > 0)
                .map(|it| it.clause.list.len())
                .sum::<usize>()
        };
        if size(&self.runs[self.minor..]) * 2 > size(&self.runs[..self.minor]) {
            self.minor = 0;
        }
        self.above[count] = C::State::default();
        for number in (0..count).rev() {
            self.above[number] = C::join(self.above[number + 1], self.runs[number].bound);
        }
        true
    }

    fn go_through(&mut self, stretch: Stretch, threshold: i64) {
        for number in (0..self.runs.len()).rev() {
            if self.runs[number].bound == 0 {
                continue;
            }
            let mut left = usize::MAX;
            if number < self.minor {
                left = self.drop_hopeless(stretch, number, threshold);
                if left == 0 {
                    return;
                }
            }
            let run = &mut self.runs[number];
            run.posting = run.clause.list.seek(run.posting, stretch.first);
            if left.saturating_mul(LOOK_UP) < BLOCK {
                self.look_up(stretch, number);
            } else {
                self.walk(stretch, number, threshold);
            }
        }
    }

    /// Takes out the documents that score too little whatever the lists up to this one add; answers how many are left.
    fn drop_hopeless(&mut self, stretch: Stretch, number: usize, threshold: i64) -> usize {
        let mut left = 0;
        for word in 0..words_of(stretch) {
            let mut bits = self.window.bits[word];
            while bits != 0 {
                let bit = bits.trailing_zeros();
                bits &= bits - 1;
                let state = &mut self.window.states[word * 64 + bit as usize];
                if self
                    .combine
                    .is_above(C::merge(*state, self.below[number + 1]), threshold)
                {
                    left += 1;
                } else {
                    *state = C::State::default();
                    self.window.bits[word] &= !(1 << bit);
                }
            }
        }
        left
    }

    /// Adds the list's scores of the documents that are in the window, each looked up.
    fn look_up(&mut self, stretch: Stretch, number: usize) {
        let Run { clause, posting, .. } = &mut self.runs[number];
        for word in 0..words_of(stretch) {
            let mut bits = self.window.bits[word];
            while bits != 0 {
                let at = word * 64 + bits.trailing_zeros() as usize;
                bits &= bits - 1;
                let document = stretch.first + at as u32;
                *posting = clause.list.seek(*posting, document);
                if clause.list.documents.get(*posting) == Some(&document) {
                    self.window.states[at] = C::join(self.window.states[at], clause.score(*posting));
                }
            }
        }
    }

    /// Goes through the list's blocks, but for those of which no document can matter.
    fn walk(&mut self, stretch: Stretch, number: usize, threshold: i64) {
        let is_minor = number < self.minor;
        let others = C::merge(self.below[number], self.above[number + 1]);
        let run = &mut self.runs[number];
        let list = run.clause.list;
        while run.posting < list.len() && list.documents[run.posting] <= stretch.last {
            let block = run.posting / BLOCK;
            let mut end = list.len().min((block + 1) * BLOCK);
            if list.documents[end - 1] > stretch.last {
                end = run.posting + list.documents[run.posting..end].partition_point(|&it| it <= stretch.last);
            }
            if self.combine.is_above(C::join(others, run.bound_of(block)), threshold) {
                let clause = run.clause;
                let fill = match (is_minor, clause.scorer.is_small) {
                    (true, true) => fill::<C, true, true>,
                    (true, false) => fill::<C, true, false>,
                    (false, true) => fill::<C, false, true>,
                    (false, false) => fill::<C, false, false>,
                };
                fill(&mut self.window, &clause, run.posting..end, stretch.first);
            }
            run.posting = end;
        }
    }

    fn drain<S: Sink>(&mut self, stretch: Stretch, sink: &mut S) {
        for word in 0..words_of(stretch) {
            let mut bits = std::mem::take(&mut self.window.bits[word]);
            while bits != 0 {
                let at = word * 64 + bits.trailing_zeros() as usize;
                bits &= bits - 1;
                let state = std::mem::take(&mut self.window.states[at]);
                self.work.ticks += 1;
                if self.combine.is_above(state, sink.threshold()) {
                    sink.take(stretch.first + at as u32, self.combine.value(state));
                }
            }
        }
    }
}

/// Puts postings of one block into the window; ONLY those of documents that are in it.
#[inline(never)]
fn fill<C: Combine, const ONLY: bool, const IS_SMALL: bool>(
    window: &mut Window<C>,
    clause: &Clause,
    postings: Range<usize>,
    first: u32,
) {
    let documents = &clause.list.documents[postings.clone()];
    let bounds = &clause.list.bounds[postings.start..postings.end + 1];
    let states = &mut window.states[..WINDOW];
    for (pair, &document) in bounds.windows(2).zip(documents) {
        let at = (document - first) as usize & (WINDOW - 1);
        if ONLY {
            if window.bits[at / 64] >> (at % 64) & 1 == 0 {
                continue;
            }
        } else {
            window.bits[at / 64] |= 1 << (at % 64);
        }
        states[at] = C::join(
            states[at],
            clause.scorer.score_as::<IS_SMALL>(document, pair[1] - pair[0]),
        );
    }
}

fn words_of(stretch: Stretch) -> usize {
    (stretch.last - stretch.first) as usize / 64 + 1
}
