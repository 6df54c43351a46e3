//! Which way answers a query.
use crate::every::{every, Beside};
use crate::index::{Index, BLOCK};
use crate::phrase::{phrase, Phrase};
use crate::query::Query;
use crate::score::{AtLeast, Clause, Combine, Greatest, Sum, Unscored};
use crate::sink::Sink;
use crate::stretches::{best_of_any, Work};
use crate::window::any;

/// Hands the documents that match to the sink: all of them, or at least those that score above its threshold where
/// `is_pruned`. Answers what a pruned run came to.
pub fn answer<S: Sink>(index: &Index, query: &Query, is_pruned: bool, sink: &mut S) -> Work {
    match query {
        Query::None => {}
        Query::Word(word) => return one(&clauses(index, &[*word]), is_pruned, sink),
        Query::Phrase { slop, words } => phrase_of(index, *slop, words, sink),
        Query::Prefix { most, prefix } => {
            let lists = index.expansions(*most, prefix);
            let clauses: Vec<_> = lists.into_iter().map(|it| Clause::new(it, &index.lengths)).collect();
            any(&clauses, &[], index.lengths.len(), Unscored, sink);
        }
        Query::Greatest { tie, words } => {
            return union(index, &clauses(index, words), Greatest(*tie), is_pruned, sink);
        }
        Query::Boolean {
            least,
            must,
            should,
            must_not,
        } => {
            if !must.is_empty() {
                conjunction(index, *least, [must, should, must_not], sink);
            } else if *least as usize <= should.len() {
                return disjunction(index, *least, should, must_not, is_pruned, sink);
            }
        }
    }
    Work::default()
}

fn clauses<'a>(index: &'a Index, words: &[&[u8]]) -> Vec<Clause<'a>> {
    words
        .iter()
        .filter_map(|it| index.list(it))
        .map(|it| Clause::new(it, &index.lengths))
        .collect()
}

/// The documents of a word, or of none.
fn one<S: Sink>(clauses: &[Clause], is_pruned: bool, sink: &mut S) -> Work {
    let Some(clause) = clauses.first() else {
        return Work::default();
    };
    let list = clause.list;
    if !S::IS_SCORED {
        sink.take_slice(&list.documents);
        return Work::default();
    }
    let mut work = Work {
        postings: list.len(),
        ..Work::default()
    };
    for (number, block) in list.blocks.iter().enumerate() {
        work.stretches += 1;
        if is_pruned && clause.scorer.bound(block) <= sink.threshold() {
            continue;
        }
        let (from, to) = (number * BLOCK, list.len().min((number + 1) * BLOCK));
        work.ticks += to - from;
        for (pair, &document) in list.bounds[from..to + 1].windows(2).zip(&list.documents[from..to]) {
            sink.take(document, clause.scorer.score(document, pair[1] - pair[0]));
        }
    }
    work
}

fn union<C: Combine, S: Sink>(index: &Index, clauses: &[Clause], combine: C, is_pruned: bool, sink: &mut S) -> Work {
    if clauses.len() < 2 {
        return one(clauses, is_pruned, sink);
    }
    if is_pruned {
        return best_of_any(clauses, combine, sink);
    }
    if S::IS_SCORED {
        any(clauses, &[], index.lengths.len(), combine, sink);
    } else {
        any(clauses, &[], index.lengths.len(), Unscored, sink);
    }
    Work::default()
}

fn disjunction<S: Sink>(
    index: &Index,
    least: u32,
    should: &[&[u8]],
    must_not: &[&[u8]],
    is_pruned: bool,
    sink: &mut S,
) -> Work {
    let clauses = clauses(index, should);
    if least < 2 && must_not.is_empty() {
        return union(index, &clauses, Sum, is_pruned, sink);
    }
    let documents = index.lengths.len();
    let without: Vec<_> = must_not.iter().filter_map(|it| index.list(it)).collect();
    if least > 1 {
        any(&clauses, &without, documents, AtLeast(least), sink);
    } else if S::IS_SCORED {
        any(&clauses, &without, documents, Sum, sink);
    } else {
        any(&clauses, &without, documents, Unscored, sink);
    }
    Work::default()
}

fn conjunction<S: Sink>(index: &Index, least: u32, [must, should, must_not]: [&Vec<&[u8]>; 3], sink: &mut S) {
    let mut all = clauses(index, must);
    let should = clauses(index, should);
    if all.len() < must.len() || (least as usize) > should.len() {
        return;
    }
    all.sort_by_key(|it| it.list.len());
    let must_not = must_not.iter().filter_map(|it| index.list(it)).collect();
    every(
        all,
        &Beside {
            should,
            least,
            must_not,
        },
        index.lengths.len(),
        sink,
    );
}

fn phrase_of<S: Sink>(index: &Index, slop: u32, words: &[&[u8]], sink: &mut S) {
    let all = clauses(index, words);
    if all.len() < words.len() {
        return;
    }
    let weight = all.iter().map(|it| it.list.weight).sum();
    let mut shifted: Vec<_> = all.into_iter().zip((0..words.len() as u32).rev()).collect();
    shifted.sort_by_key(|it| it.0.list.len());
    let (all, shifts) = shifted.into_iter().unzip();
    phrase(all, &Phrase { shifts, slop, weight }, &index.lengths, sink);
}
