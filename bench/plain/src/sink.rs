//! What becomes of the documents that are found: they are listed, counted, or the best of them kept.

/// Takes the documents that a query finds, ascending.
pub trait Sink {
    const IS_SCORED: bool;
    fn take(&mut self, document: u32, score: i64);
    /// 64 documents from `first` on, those whose bits are set; only where no score is wanted.
    fn take_bits(&mut self, first: u32, mut bits: u64) {
        while bits != 0 {
            self.take(first + bits.trailing_zeros(), 1);
            bits &= bits - 1;
        }
    }
    /// Ascending documents; only where no score is wanted.
    fn take_slice(&mut self, documents: &[u32]) {
        for &document in documents {
            self.take(document, 1);
        }
    }
    /// A document that scores no more may be kept back.
    #[inline(always)]
    fn threshold(&self) -> i64 {
        -1
    }
}

const PAIRS: &[u8; 200] = b"0001020304050607080910111213141516171819\
2021222324252627282930313233343536373839\
4041424344454647484950515253545556575859\
6061626364656667686970717273747576777879\
8081828384858687888990919293949596979899";

/// Writes the digits, two at a time, from the last.
#[inline]
pub fn write_number(out: &mut Vec<u8>, mut number: u64) {
    let mut room = [0u8; 20];
    let mut from = room.len();
    while number >= 100 {
        let pair = (number % 100) as usize * 2;
        number /= 100;
        from -= 2;
        room[from..from + 2].copy_from_slice(&PAIRS[pair..pair + 2]);
    }
    let pair = number as usize * 2;
    from -= 2;
    room[from..from + 2].copy_from_slice(&PAIRS[pair..pair + 2]);
    let zero = (number < 10) as usize;
    out.extend_from_slice(&room[from + zero..]);
}

fn write_pair(out: &mut Vec<u8>, document: u32, score: i64) {
    write_number(out, document as u64);
    out.push(b':');
    write_number(out, score as u64);
    out.push(b' ');
}

/// Lists the documents.
pub struct Documents<'a>(pub &'a mut Vec<u8>);

impl Sink for Documents<'_> {
    const IS_SCORED: bool = false;
    #[inline(always)]
    fn take(&mut self, document: u32, _score: i64) {
        write_number(self.0, document as u64);
        self.0.push(b' ');
    }
}

/// Lists the documents with their scores.
pub struct Scores<'a>(pub &'a mut Vec<u8>);

impl Sink for Scores<'_> {
    const IS_SCORED: bool = true;
    #[inline(always)]
    fn take(&mut self, document: u32, score: i64) {
        write_pair(self.0, document, score);
    }
}

/// Lists those above a threshold, which is then the score of the last one listed.
pub struct Above<'a> {
    pub out: &'a mut Vec<u8>,
    pub threshold: i64,
}

impl Sink for Above<'_> {
    const IS_SCORED: bool = true;
    #[inline(always)]
    fn take(&mut self, document: u32, score: i64) {
        if score > self.threshold {
            self.threshold = score;
            write_pair(self.out, document, score);
        }
    }
    #[inline(always)]
    fn threshold(&self) -> i64 {
        self.threshold
    }
}

#[derive(Default)]
pub struct Count(pub u64);

impl Sink for Count {
    const IS_SCORED: bool = false;
    #[inline(always)]
    fn take(&mut self, _document: u32, _score: i64) {
        self.0 += 1;
    }
    #[inline(always)]
    fn take_bits(&mut self, _first: u32, bits: u64) {
        self.0 += bits.count_ones() as u64;
    }
    fn take_slice(&mut self, documents: &[u32]) {
        self.0 += documents.len() as u64;
    }
}

/// Keeps the best: by score downwards, and those of one score by number upwards.
pub struct Best {
    most: usize,
    threshold: i64,
    kept: Vec<(u32, i64)>,
}

impl Best {
    pub fn new(most: usize) -> Self {
        Best {
            most,
            threshold: if most == 0 { i64::MAX } else { -1 },
            kept: Vec::with_capacity(most.min(1 << 16)),
        }
    }

    pub fn write(&self, out: &mut Vec<u8>) {
        for &(document, score) in &self.kept {
            write_pair(out, document, score);
        }
    }
}

impl Sink for Best {
    const IS_SCORED: bool = true;
    #[inline]
    fn take(&mut self, document: u32, score: i64) {
        if score <= self.threshold {
            return;
        }
        if self.kept.len() == self.most {
            self.kept.pop();
        }
        // documents ascend, so one that scores the same comes behind
        let place = self.kept.partition_point(|it| it.1 >= score);
        self.kept.insert(place, (document, score));
        if self.kept.len() == self.most {
            self.threshold = self.kept[self.most - 1].1;
        }
    }
    #[inline(always)]
    fn threshold(&self) -> i64 {
        self.threshold
    }
}
