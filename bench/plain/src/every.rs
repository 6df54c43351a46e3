//! Documents that every one of some lists has, with those that may match beside them, or must not.
use crate::index::{whole, Block, List, BLOCK};
use crate::meeting::{keep, leave, Meeting};
use crate::score::Clause;
use crate::sink::Sink;
use crate::window::WINDOW;
use std::ops::Range;

/// A list that is so many times as long is searched rather than gone through.
const MUCH_LONGER: usize = 16;
/// Windows of fewer documents of the rarest list are not worth it.
const FEWEST: usize = 8;

/// The lists that all must match, the rarest first, and how far each has come.
pub struct Every<'a> {
    pub clauses: Vec<Clause<'a>>,
    reached: Vec<usize>,
    blocks: Vec<usize>,
    meeting: Meeting,
    is_by_windows: bool,
    windows: usize,
    /// the documents that were found, and of each list their postings
    pub documents: Vec<u32>,
    pub postings: Vec<Vec<u32>>,
}

impl<'a> Every<'a> {
    /// `clauses` is not empty, and the rarest of them comes first.
    pub fn new(clauses: Vec<Clause<'a>>, documents: usize) -> Self {
        let windows = documents / WINDOW + 1;
        let rarest = clauses[0].list.len();
        let is_alike = clauses[1..].iter().any(|it| it.list.len() < rarest * MUCH_LONGER);
        Every {
            reached: vec![0; clauses.len()],
            blocks: vec![0; clauses.len()],
            postings: vec![Vec::new(); clauses.len()],
            is_by_windows: is_alike && rarest >= FEWEST * windows,
            meeting: Meeting::new(),
            documents: Vec::new(),
            windows,
            clauses,
        }
    }

    /// The next postings of the rarest list that are taken together.
    pub fn next_part(&mut self) -> Option<Range<usize>> {
        let documents = &self.clauses[0].list.documents;
        let from = self.reached[0];
        let first = *documents.get(from)?;
        let to = if self.is_by_windows {
            let end = (first | (WINDOW as u32 - 1)) as usize + 1;
            from + documents[from..]
                .iter()
                .take(WINDOW)
                .take_while(|&&it| (it as usize) < end)
                .count()
        } else {
            documents.len().min((from / BLOCK + 1) * BLOCK)
        };
        self.reached[0] = to;
        Some(from..to)
    }

    /// Meets one more list with the documents that are left; its postings stand in the meeting.
    fn meet(
        meeting: &mut Meeting,
        is_by_windows: bool,
        windows: usize,
        documents: &[u32],
        list: &List,
        from: usize,
    ) -> usize {
        if is_by_windows && list.len() / windows < documents.len() * MUCH_LONGER {
            meeting.by_window(documents, list, from)
        } else {
            meeting.by_search(documents, list, from)
        }
    }

    /// Finds which documents of this part all lists have; with their postings where these are wanted.
    pub fn find(&mut self, part: Range<usize>, with_postings: bool) {
        let documents = &mut self.documents;
        documents.clear();
        documents.extend_from_slice(&self.clauses[0].list.documents[part.clone()]);
        if with_postings {
            self.postings[0].clear();
            self.postings[0].extend(part.start as u32..part.end as u32);
        }
        for number in 1..self.clauses.len() {
            if documents.is_empty() {
                return;
            }
            let (list, from) = (self.clauses[number].list, self.reached[number]);
            self.reached[number] = Self::meet(
                &mut self.meeting,
                self.is_by_windows,
                self.windows,
                documents,
                list,
                from,
            );
            keep(documents, self.meeting.met());
            if with_postings {
                let (before, behind) = self.postings.split_at_mut(number);
                before.iter_mut().for_each(|it| keep(it, self.meeting.met()));
                behind[0].clear();
                behind[0].extend(self.meeting.met().iter().map(|it| it.1));
            }
        }
    }

    /// No document of this part scores more by these lists.
    pub fn bound(&mut self, part: &Range<usize>) -> i64 {
        let first = self.clauses[0].list.documents[part.start];
        let last = self.clauses[0].list.documents[part.end - 1];
        let is_by_windows = self.is_by_windows;
        let each = self.clauses.iter().zip(&mut self.blocks).enumerate();
        each.map(|(number, (clause, block))| {
            if is_by_windows || number == 0 {
                bound_between(clause, block, first, last)
            } else {
                clause.scorer.bound(&clause.list.whole)
            }
        })
        .sum()
    }

    /// The block of the rarest list that bounds it over this part: its greatest frequency, and its least length.
    pub fn rarest(&self, part: &Range<usize>) -> Block {
        whole(&self.clauses[0].list.blocks[part.start / BLOCK..(part.end - 1) / BLOCK + 1])
    }
}

/// The greatest bound of the blocks that may have a document from `first` to `last`.
fn bound_between(clause: &Clause, block: &mut usize, first: u32, last: u32) -> i64 {
    let blocks = &clause.list.blocks;
    while *block + 1 < blocks.len() && blocks[*block].last < first {
        *block += 1;
    }
    let mut bound = clause.scorer.bound(&blocks[*block]);
    let mut number = *block;
    while number + 1 < blocks.len() && blocks[number].last < last {
        number += 1;
        bound = bound.max(clause.scorer.bound(&blocks[number]));
    }
    bound
}

/// The lists that may match, and those that must not.
pub struct Beside<'a> {
    pub should: Vec<Clause<'a>>,
    pub least: u32,
    pub must_not: Vec<&'a List>,
}

/// Hands on the documents that every clause has, and as many of the others as it takes.
pub fn every<S: Sink>(clauses: Vec<Clause>, beside: &Beside, documents: usize, sink: &mut S) {
    let mut all = Every::new(clauses, documents);
    let mut should_at = vec![0; beside.should.len()];
    let mut not_at = vec![0; beside.must_not.len()];
    let most: i64 = beside.should.iter().map(|it| it.scorer.bound(&it.list.whole)).sum();
    let (mut scores, mut counts) = (Vec::new(), Vec::new());
    while let Some(part) = all.next_part() {
        if S::IS_SCORED && sink.threshold() >= 0 && all.bound(&part) + most <= sink.threshold() {
            continue;
        }
        all.find(part, S::IS_SCORED);
        if !beside.must_not.is_empty() {
            all.leave_out(&beside.must_not, &mut not_at, S::IS_SCORED);
        }
        all.score::<S>(&mut scores);
        if S::IS_SCORED || beside.least > 0 {
            all.add(beside, &mut should_at, &mut scores, &mut counts);
        }
        for (place, &document) in all.documents.iter().enumerate() {
            if beside.least == 0 || counts[place] >= beside.least {
                sink.take(document, if S::IS_SCORED { scores[place] } else { 1 });
            }
        }
    }
}

impl Every<'_> {
    fn leave_out(&mut self, lists: &[&List], reached: &mut [usize], with_postings: bool) {
        for (list, from) in lists.iter().zip(reached) {
            if self.documents.is_empty() {
                return;
            }
            *from = Self::meet(
                &mut self.meeting,
                self.is_by_windows,
                self.windows,
                &self.documents,
                list,
                *from,
            );
            leave(&mut self.documents, self.meeting.met());
            if with_postings {
                self.postings.iter_mut().for_each(|it| leave(it, self.meeting.met()));
            }
        }
    }

    fn score<S: Sink>(&self, scores: &mut Vec<i64>) {
        scores.clear();
        if !S::IS_SCORED {
            return;
        }
        scores.resize(self.documents.len(), 0);
        for (clause, postings) in self.clauses.iter().zip(&self.postings) {
            for (score, &posting) in scores.iter_mut().zip(postings) {
                *score += clause.score(posting as usize);
            }
        }
    }

    fn add(&mut self, beside: &Beside, reached: &mut [usize], scores: &mut [i64], counts: &mut Vec<u32>) {
        counts.clear();
        counts.resize(self.documents.len(), 0);
        for (clause, from) in beside.should.iter().zip(reached) {
            if self.documents.is_empty() {
                return;
            }
            *from = Self::meet(
                &mut self.meeting,
                self.is_by_windows,
                self.windows,
                &self.documents,
                clause.list,
                *from,
            );
            for &(place, posting) in self.meeting.met() {
                counts[place as usize] += 1;
                if let Some(score) = scores.get_mut(place as usize) {
                    *score += clause.score(posting as usize);
                }
            }
        }
    }
}
