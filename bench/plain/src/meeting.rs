//! Which of some documents a list has: by a window of bits where both are alike long, and else by galloping.
use crate::index::List;
use crate::window::WINDOW;

/// Finds which of some documents a list has.
pub struct Meeting {
    bits: [u64; WINDOW / 64],
    /// which of the documents stands here; room is made once it is wanted
    places: Vec<u16>,
    /// of each document that was met which it is, and the list's posting of it
    met: Vec<(u32, u32)>,
    count: usize,
}

impl Meeting {
    pub fn new() -> Self {
        Meeting {
            bits: [0; WINDOW / 64],
            places: Vec::new(),
            met: Vec::new(),
            count: 0,
        }
    }

    pub fn met(&self) -> &[(u32, u32)] {
        &self.met[..self.count]
    }

    /// Room for as many as may be met, and for one that is not met behind them.
    fn make_room(&mut self, documents: usize) {
        if self.met.len() <= documents {
            self.met.resize(documents + 1, (0, 0));
        }
    }

    /// All the documents lie in one window. Answers which posting is the next.
    pub fn by_window(&mut self, documents: &[u32], list: &List, from: usize) -> usize {
        let (first, last) = (documents[0], documents[documents.len() - 1]);
        let start = first & !(WINDOW as u32 - 1);
        self.make_room(documents.len());
        self.places.resize(WINDOW, 0);
        let places = &mut self.places[..WINDOW];
        for (place, &document) in documents.iter().enumerate() {
            let at = (document - start) as usize & (WINDOW - 1);
            self.bits[at / 64] |= 1 << (at % 64);
            places[at] = place as u16;
        }
        let (mut posting, mut count) = (list.seek(from, first), 0);
        for &document in &list.documents[posting..] {
            if document > last {
                break;
            }
            let at = (document - start) as usize & (WINDOW - 1);
            // it is written in any case, and kept where the bit is set: there is no branch to guess
            self.met[count] = (at as u32, posting as u32);
            count += (self.bits[at / 64] >> (at % 64) & 1) as usize;
            posting += 1;
        }
        for met in &mut self.met[..count] {
            met.0 = self.places[met.0 as usize] as u32;
        }
        for &document in documents {
            self.bits[(document - start) as usize / 64 % (WINDOW / 64)] = 0;
        }
        self.count = count;
        posting
    }

    pub fn by_search(&mut self, documents: &[u32], list: &List, mut from: usize) -> usize {
        self.make_room(documents.len());
        self.count = 0;
        for (place, &document) in documents.iter().enumerate() {
            from = list.seek(from, document);
            if list.documents.get(from) == Some(&document) {
                self.met[self.count] = (place as u32, from as u32);
                self.count += 1;
            }
        }
        from
    }
}

/// Keeps what was met.
pub fn keep(column: &mut Vec<u32>, met: &[(u32, u32)]) {
    for (to, it) in met.iter().enumerate() {
        column[to] = column[it.0 as usize];
    }
    column.truncate(met.len());
}

/// Takes out what was met.
pub fn leave(column: &mut Vec<u32>, met: &[(u32, u32)]) {
    let (mut to, mut next) = (0, 0);
    for from in 0..column.len() {
        if next < met.len() && met[next].0 as usize == from {
            next += 1;
        } else {
            column[to] = column[from];
            to += 1;
        }
    }
    column.truncate(to);
}
