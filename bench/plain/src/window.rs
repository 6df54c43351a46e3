//! Unions by windows: a window's documents as bits, and what their scores come to beside these.
use crate::index::List;
use crate::score::{Clause, Combine};
use crate::sink::Sink;

pub const WINDOW: usize = 4096;
const WORDS: usize = WINDOW / 64;
/// No clause hangs here.
const NONE: u32 = u32::MAX;

pub struct Window<C: Combine> {
    pub bits: [u64; WORDS],
    pub states: Box<[C::State]>,
}

impl<C: Combine> Window<C> {
    pub fn new() -> Self {
        Window {
            bits: [0; WORDS],
            states: vec![C::State::default(); WINDOW].into(),
        }
    }

    /// Puts in the clause's postings from this one on, of documents of the window that starts here; answers which
    /// posting is the next.
    fn fill(&mut self, clause: &Clause, from: usize, start: u32) -> usize {
        if clause.scorer.is_small {
            self.fill_as::<true>(clause, from, start)
        } else {
            self.fill_as::<false>(clause, from, start)
        }
    }

    #[inline(never)]
    fn fill_as<const IS_SMALL: bool>(&mut self, clause: &Clause, from: usize, start: u32) -> usize {
        let (documents, bounds) = (&clause.list.documents[from..], &clause.list.bounds[from..]);
        let states = &mut self.states[..WINDOW];
        let mut count = 0;
        for (pair, &document) in bounds.windows(2).zip(documents) {
            let at = (document - start) as usize;
            if at >= WINDOW {
                break;
            }
            count += 1;
            self.bits[at / 64] |= 1 << (at % 64);
            if C::IS_SCORED {
                states[at] = C::join(
                    states[at],
                    clause.scorer.score_as::<IS_SMALL>(document, pair[1] - pair[0]),
                );
            }
        }
        from + count
    }

    /// Hands on the documents of the window, but for those that are hidden, and empties it.
    fn drain<S: Sink>(&mut self, hidden: &[u64; WORDS], start: u32, combine: C, sink: &mut S) {
        for (word, hidden) in hidden.iter().enumerate() {
            let mut bits = std::mem::take(&mut self.bits[word]);
            let first = start + word as u32 * 64;
            if !C::IS_SCORED {
                sink.take_bits(first, bits & !hidden);
                continue;
            }
            while bits != 0 {
                let bit = bits.trailing_zeros();
                bits &= bits - 1;
                let state = std::mem::take(&mut self.states[word * 64 + bit as usize]);
                if hidden >> bit & 1 == 0 && combine.is_found(state) {
                    sink.take(first + bit, combine.value(state));
                }
            }
        }
    }
}

/// Clauses that hang on the window in which their next document lies, so that a window costs its own clauses alone.
struct Hung {
    heads: Vec<u32>,
    next: Vec<u32>,
}

impl Hung {
    fn new(clauses: usize, documents: usize) -> Self {
        Hung {
            heads: vec![NONE; documents / WINDOW + 1],
            next: vec![NONE; clauses],
        }
    }

    fn hang(&mut self, clause: u32, document: u32) {
        let head = &mut self.heads[document as usize / WINDOW];
        self.next[clause as usize] = std::mem::replace(head, clause);
    }
}

/// Hands on the documents that one of the clauses has, and none of `without`.
pub fn any<C: Combine, S: Sink>(clauses: &[Clause], without: &[&List], documents: usize, combine: C, sink: &mut S) {
    let mut hung = Hung::new(clauses.len(), documents);
    for (number, clause) in clauses.iter().enumerate() {
        hung.hang(number as u32, clause.list.documents[0]);
    }
    let mut postings = vec![0; clauses.len()];
    let mut excluded = vec![0; without.len()];
    let mut window = Window::<C>::new();
    let mut hidden = [0; WORDS];
    for number in 0..hung.heads.len() {
        let start = (number * WINDOW) as u32;
        let mut head = std::mem::replace(&mut hung.heads[number], NONE);
        if head == NONE {
            continue;
        }
        while head != NONE {
            let (clause, posting) = (&clauses[head as usize], &mut postings[head as usize]);
            let behind = hung.next[head as usize];
            *posting = window.fill(clause, *posting, start);
            if let Some(&document) = clause.list.documents.get(*posting) {
                hung.hang(head, document);
            }
            head = behind;
        }
        for (list, posting) in without.iter().zip(&mut excluded) {
            *posting = hide(&mut hidden, list, *posting, start);
        }
        window.drain(&hidden, start, combine, sink);
        hidden.fill(0);
    }
}

fn hide(hidden: &mut [u64; WORDS], list: &List, from: usize, start: u32) -> usize {
    let mut posting = list.seek(from, start);
    while let Some(&document) = list.documents.get(posting) {
        let at = (document - start) as usize;
        if at >= WINDOW {
            break;
        }
        hidden[at / 64] |= 1 << (at % 64);
        posting += 1;
    }
    posting
}
