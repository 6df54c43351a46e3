//! Phrases: of the documents that have all the words, those where these stand one behind the other.
use crate::every::Every;
use crate::score::{Clause, Scorer};
use crate::sink::Sink;

/// The words of a phrase: the rarest comes first, each with what is added to its positions to compare them.
pub struct Phrase {
    pub shifts: Vec<u32>,
    pub slop: u32,
    pub weight: u64,
}

/// Hands on the documents that have the phrase.
pub fn phrase<S: Sink>(clauses: Vec<Clause>, phrase: &Phrase, lengths: &[u8], sink: &mut S) {
    let most = clauses[0].list.whole.frequency;
    let scorer = Scorer::new(phrase.weight, most, lengths);
    let mut all = Every::new(clauses, lengths.len());
    let mut lists = Vec::with_capacity(phrase.shifts.len());
    while let Some(part) = all.next_part() {
        if S::IS_SCORED && sink.threshold() >= 0 && scorer.bound(&all.rarest(&part)) <= sink.threshold() {
            continue;
        }
        all.find(part, true);
        for (place, &document) in all.documents.iter().enumerate() {
            lists.clear();
            let clauses = all.clauses.iter().zip(&all.postings);
            lists.extend(clauses.map(|(clause, postings)| clause.list.positions(postings[place] as usize)));
            let count = if lists.len() == 2 && phrase.slop == 0 {
                meetings(lists[0], lists[1], phrase.shifts[0], phrase.shifts[1], S::IS_SCORED)
            } else {
                starts(&mut lists, phrase, S::IS_SCORED)
            };
            if count > 0 {
                sink.take(document, if S::IS_SCORED { scorer.score(document, count) } else { 1 });
            }
        }
    }
}

/// How many positions of the two are the same, shifted; one where only that is asked.
fn meetings(one: &[u32], other: &[u32], shift: u32, other_shift: u32, all: bool) -> u32 {
    let (mut left, mut right, mut count) = (0, 0, 0);
    while left < one.len() && right < other.len() {
        let (a, b) = (one[left] + shift, other[right] + other_shift);
        if a == b {
            count += 1;
            if !all {
                return count;
            }
        }
        left += (a <= b) as usize;
        right += (b <= a) as usize;
    }
    count
}

/// How many times the phrase starts: each time the least of the next positions, where the greatest of them is near.
fn starts(lists: &mut [&[u32]], phrase: &Phrase, all: bool) -> u32 {
    let mut count = 0;
    loop {
        let (mut least, mut greatest) = (u32::MAX, 0);
        for (list, shift) in lists.iter().zip(&phrase.shifts) {
            let Some(position) = list.first() else { return count };
            least = least.min(position + shift);
            greatest = greatest.max(position + shift);
        }
        if greatest - least <= phrase.slop {
            count += 1;
            if !all {
                return count;
            }
        }
        for (list, shift) in lists.iter_mut().zip(&phrase.shifts) {
            *list = &list[(list[0] + shift == least) as usize..];
        }
    }
}
