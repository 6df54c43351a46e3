//! What a word scores in a document, and how the scores of several come together.
use crate::index::{Block, List};
use std::sync::OnceLock;

/// Divisors whose inverses are kept: a frequency and a length of 255 at most, of nearly all postings.
const DIVISORS: usize = 512;

/// 2^64 over each divisor, rounded up: by it a quotient of 32 bits is one multiplication.
static INVERSES: OnceLock<[u64; DIVISORS]> = OnceLock::new();

/// How the postings of a list score.
#[derive(Clone, Copy)]
pub struct Scorer<'a> {
    weight: u64,
    /// no product passes 32 bits, and no divisor has no inverse
    pub is_small: bool,
    inverses: &'a [u64; DIVISORS],
    lengths: &'a [u8],
}

impl<'a> Scorer<'a> {
    /// `most` is the greatest frequency that is to be scored.
    pub fn new(weight: u64, most: u32, lengths: &'a [u8]) -> Self {
        let inverse = |divisor: usize| if divisor < 2 { 0 } else { u64::MAX / divisor as u64 + 1 };
        let is_small = most < 256 && weight < 1 << 24;
        Scorer {
            weight,
            is_small,
            inverses: INVERSES.get_or_init(|| std::array::from_fn(inverse)),
            lengths,
        }
    }

    /// `weight * frequency / (frequency + length)`, rounded down. The inverse is exact for products below 2^32, and a
    /// document of one word has a divisor of 2.
    #[inline(always)]
    fn small(&self, frequency: u32, length: u8) -> i64 {
        let product = (self.weight as u32).wrapping_mul(frequency) as u128;
        ((product * self.inverses[(frequency as usize + length as usize) % DIVISORS] as u128) >> 64) as i64
    }

    fn large(&self, frequency: u32, length: u8) -> i64 {
        (self.weight as u128 * frequency as u128 / (frequency as u128 + length as u128)) as i64
    }

    /// Where IS_SMALL is `is_small`.
    #[inline(always)]
    pub fn score_as<const IS_SMALL: bool>(&self, document: u32, frequency: u32) -> i64 {
        let length = self.lengths[document as usize];
        if IS_SMALL {
            self.small(frequency, length)
        } else {
            self.large(frequency, length)
        }
    }

    #[inline(always)]
    pub fn score(&self, document: u32, frequency: u32) -> i64 {
        if self.is_small {
            self.score_as::<true>(document, frequency)
        } else {
            self.score_as::<false>(document, frequency)
        }
    }

    /// No posting of the block scores more.
    #[inline]
    pub fn bound(&self, block: &Block) -> i64 {
        if self.is_small {
            self.small(block.frequency, block.length)
        } else {
            self.large(block.frequency, block.length)
        }
    }
}

/// A list that is asked for, and how it scores.
#[derive(Clone, Copy)]
pub struct Clause<'a> {
    pub list: &'a List,
    pub scorer: Scorer<'a>,
}

impl<'a> Clause<'a> {
    pub fn new(list: &'a List, lengths: &'a [u8]) -> Self {
        Clause {
            list,
            scorer: Scorer::new(list.weight, list.whole.frequency, lengths),
        }
    }

    #[inline(always)]
    pub fn score(&self, posting: usize) -> i64 {
        self.scorer
            .score(self.list.documents[posting], self.list.frequency(posting))
    }
}

/// How the scores of a document's clauses come together. `value` rises with each of the scores, so that joined bounds
/// bound the value of joined scores.
pub trait Combine: Copy {
    type State: Copy + Default;
    const IS_SCORED: bool = true;
    fn join(state: Self::State, score: i64) -> Self::State;
    /// What the scores of both come to together.
    fn merge(one: Self::State, other: Self::State) -> Self::State;
    fn value(self, state: Self::State) -> i64;
    /// Whether the document counts as found.
    #[inline(always)]
    fn is_found(self, _state: Self::State) -> bool {
        true
    }
    /// Whether the value is above the threshold.
    #[inline(always)]
    fn is_above(self, state: Self::State, threshold: i64) -> bool {
        self.value(state) > threshold
    }
}

/// No scores at all.
#[derive(Clone, Copy)]
pub struct Unscored;

impl Combine for Unscored {
    type State = ();
    const IS_SCORED: bool = false;
    #[inline(always)]
    fn join(_state: (), _score: i64) {}
    fn merge(_one: (), _other: ()) {}
    fn value(self, _state: ()) -> i64 {
        1
    }
}

#[derive(Clone, Copy)]
pub struct Sum;

impl Combine for Sum {
    type State = i64;
    #[inline(always)]
    fn join(state: i64, score: i64) -> i64 {
        state + score
    }
    #[inline(always)]
    fn merge(one: i64, other: i64) -> i64 {
        one + other
    }
    #[inline(always)]
    fn value(self, state: i64) -> i64 {
        state
    }
}

/// The greatest score, and so many thousandths of the others.
#[derive(Clone, Copy)]
pub struct Greatest(pub u32);

impl Combine for Greatest {
    /// the greatest and the sum
    type State = (i64, i64);
    #[inline(always)]
    fn join(state: (i64, i64), score: i64) -> (i64, i64) {
        (state.0.max(score), state.1 + score)
    }
    #[inline(always)]
    fn merge(one: (i64, i64), other: (i64, i64)) -> (i64, i64) {
        (one.0.max(other.0), one.1 + other.1)
    }
    #[inline(always)]
    fn value(self, (greatest, sum): (i64, i64)) -> i64 {
        let others = sum - greatest;
        match others.checked_mul(self.0 as i64) {
            Some(it) => greatest + it / 1000,
            None => greatest + (others as i128 * self.0 as i128 / 1000) as i64,
        }
    }
    /// The value is at most the sum, which spares most divisions.
    #[inline(always)]
    fn is_above(self, state: (i64, i64), threshold: i64) -> bool {
        state.1 > threshold && (state.0 > threshold || self.value(state) > threshold)
    }
}

/// The sum, of documents that so many clauses have.
#[derive(Clone, Copy)]
pub struct AtLeast(pub u32);

impl Combine for AtLeast {
    type State = (i64, u32);
    #[inline(always)]
    fn join(state: (i64, u32), score: i64) -> (i64, u32) {
        (state.0 + score, state.1 + 1)
    }
    fn merge(one: (i64, u32), other: (i64, u32)) -> (i64, u32) {
        (one.0 + other.0, one.1 + other.1)
    }
    fn value(self, state: (i64, u32)) -> i64 {
        state.0
    }
    fn is_found(self, state: (i64, u32)) -> bool {
        state.1 >= self.0
    }
}
