//! Documents as lists of postings: for each word flat arrays, and a bound for each block of them.
use std::cell::OnceCell;
use std::collections::HashMap;
use std::hash::{BuildHasherDefault, Hasher};

/// How many postings of a list have a bound together.
pub const BLOCK: usize = 128;
/// The weight of a word that was given none.
const WEIGHT: u64 = 1000;
/// The greatest length that a score knows of.
const LONGEST: usize = 255;

/// Eight bytes of a word at a time, each mixed in by one multiplication.
#[derive(Default)]
pub struct WordHasher(u64);

impl Hasher for WordHasher {
    fn write(&mut self, bytes: &[u8]) {
        for part in bytes.chunks(8) {
            let mut eight = [0; 8];
            eight[..part.len()].copy_from_slice(part);
            self.0 = (self.0.rotate_left(5) ^ u64::from_le_bytes(eight)).wrapping_mul(0x517c_c1b7_2722_0a95);
        }
    }
    fn finish(&self) -> u64 {
        self.0 ^ (self.0 >> 29)
    }
}

/// What bounds the scores of a block: its greatest frequency at its least length.
#[derive(Clone, Copy)]
pub struct Block {
    pub last: u32,
    pub frequency: u32,
    pub length: u8,
}

/// What bounds all of the blocks.
pub fn whole(blocks: &[Block]) -> Block {
    Block {
        last: blocks.iter().map(|it| it.last).max().unwrap_or(0),
        frequency: blocks.iter().map(|it| it.frequency).max().unwrap_or(0),
        length: blocks.iter().map(|it| it.length).min().unwrap_or(0),
    }
}

/// The postings of a word.
pub struct List {
    /// ascending
    pub documents: Vec<u32>,
    /// The positions of posting `i` stand from `bounds[i]` to `bounds[i + 1]`, so the difference is its frequency.
    pub bounds: Vec<u32>,
    pub positions: Vec<u32>,
    pub blocks: Vec<Block>,
    /// what bounds all of it
    pub whole: Block,
    pub weight: u64,
}

impl List {
    fn new(weight: u64) -> Self {
        let whole = whole(&[]);
        List {
            documents: Vec::new(),
            bounds: vec![0],
            positions: Vec::new(),
            blocks: Vec::new(),
            whole,
            weight,
        }
    }

    fn add(&mut self, document: u32, position: u32) {
        if self.documents.last() == Some(&document) {
            *self.bounds.last_mut().unwrap() += 1;
        } else {
            self.documents.push(document);
            self.bounds.push(self.positions.len() as u32 + 1);
        }
        self.positions.push(position);
    }

    pub fn len(&self) -> usize {
        self.documents.len()
    }

    pub fn frequency(&self, posting: usize) -> u32 {
        self.bounds[posting + 1] - self.bounds[posting]
    }

    pub fn positions(&self, posting: usize) -> &[u32] {
        &self.positions[self.bounds[posting] as usize..self.bounds[posting + 1] as usize]
    }

    fn bound_blocks(&mut self, lengths: &[u8]) {
        let frequency = |posting| self.bounds[posting + 1] - self.bounds[posting];
        let block = |(number, part): (usize, &[u32])| Block {
            last: *part.last().unwrap(),
            frequency: (number * BLOCK..number * BLOCK + part.len())
                .map(frequency)
                .max()
                .unwrap(),
            length: part.iter().map(|&it| lengths[it as usize]).min().unwrap(),
        };
        self.blocks = self.documents.chunks(BLOCK).enumerate().map(block).collect();
        self.whole = whole(&self.blocks);
    }

    fn shrink(&mut self) {
        self.documents.shrink_to_fit();
        self.bounds.shrink_to_fit();
        self.positions.shrink_to_fit();
    }

    /// The first posting, from this one on, of a document not below `target`.
    pub fn seek(&self, from: usize, target: u32) -> usize {
        let documents = &self.documents;
        let (mut low, mut step) = (from, 1);
        if low >= documents.len() || documents[low] >= target {
            return low;
        }
        // documents[low] is below the target
        while low + step < documents.len() && documents[low + step] < target {
            low += step;
            step *= 2;
        }
        let high = (low + step).min(documents.len());
        low + 1 + documents[low + 1..high].partition_point(|&it| it < target)
    }
}

#[derive(Default)]
pub struct Index {
    /// held at 255
    pub lengths: Vec<u8>,
    numbers: HashMap<Box<[u8]>, u32, BuildHasherDefault<WordHasher>>,
    lists: Vec<List>,
    /// of the words that were given one
    weights: HashMap<Box<[u8]>, u64, BuildHasherDefault<WordHasher>>,
    is_sealed: bool,
    /// the words in byte order, each with its list, once a prefix was asked for
    sorted: OnceCell<Vec<(Box<[u8]>, u32)>>,
}

/// The words of a line, which spaces and tabs part.
pub fn words(line: &[u8]) -> impl Iterator<Item = &[u8]> {
    line.split(|&it| it == b' ' || it == b'\t').filter(|it| !it.is_empty())
}

impl Index {
    pub fn add(&mut self, line: &[u8]) {
        let document = self.lengths.len() as u32;
        let mut length = 0;
        for word in words(line) {
            let number = self.number_of(word);
            self.lists[number].add(document, length as u32);
            length += 1;
        }
        self.lengths.push(length.min(LONGEST) as u8);
        self.is_sealed = false;
    }

    fn number_of(&mut self, word: &[u8]) -> usize {
        if let Some(&number) = self.numbers.get(word) {
            return number as usize;
        }
        let number = self.lists.len();
        self.numbers.insert(word.into(), number as u32);
        self.lists
            .push(List::new(self.weights.get(word).copied().unwrap_or(WEIGHT)));
        self.sorted.take();
        number
    }

    /// Makes the bounds of all blocks, where documents were added.
    pub fn seal(&mut self) {
        if !self.is_sealed {
            for list in &mut self.lists {
                list.shrink();
                list.bound_blocks(&self.lengths);
            }
            self.is_sealed = true;
        }
    }

    pub fn weigh(&mut self, word: &[u8], weight: u64) {
        self.weights.insert(word.into(), weight);
        if let Some(&number) = self.numbers.get(word) {
            self.lists[number as usize].weight = weight;
        }
    }

    pub fn list(&self, word: &[u8]) -> Option<&List> {
        self.numbers.get(word).map(|&number| &self.lists[number as usize])
    }

    /// The lists of the first words in byte order that begin so.
    pub fn expansions(&self, most: usize, prefix: &[u8]) -> Vec<&List> {
        let sorted = self.sorted.get_or_init(|| {
            let mut sorted: Vec<_> = self
                .numbers
                .iter()
                .map(|(word, &number)| (word.clone(), number))
                .collect();
            sorted.sort();
            sorted
        });
        let from = sorted.partition_point(|(word, _)| **word < *prefix);
        let begun = sorted[from..].iter().take_while(|(word, _)| word.starts_with(prefix));
        begun
            .take(most)
            .map(|&(_, number)| &self.lists[number as usize])
            .collect()
    }
}
