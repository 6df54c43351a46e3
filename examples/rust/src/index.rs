//! The calls of `bindings/c/birchagain.h`, for Rust: an index that frees itself, and refusals as errors.

use std::fmt;
use std::ptr::null_mut;
use std::time::{SystemTime, UNIX_EPOCH};

#[repr(C)]
struct Handle {
    at: *mut u8,
}

/// A document that was found, by its number, and its score.
#[repr(C)]
#[derive(Clone, Copy, Debug, Default, PartialEq, Eq)]
pub struct Hit {
    pub document: u64,
    pub score: i64,
}

extern "C" {
    fn birchagain_open(index: *mut Handle) -> u32;
    fn birchagain_free(index: *mut Handle);
    fn birchagain_add_text(index: *mut Handle, text: *const u8, length: usize) -> u32;
    fn birchagain_delete(index: *mut Handle, document: u64) -> u32;
    fn birchagain_end_segment(index: *mut Handle) -> u32;
    fn birchagain_documents(index: *mut Handle, out: *mut u64) -> u32;
    fn birchagain_weigh(index: *mut Handle, word: *const u8, length: usize, weight: i64) -> u32;
    fn birchagain_frequencies(
        index: *mut Handle,
        bytes: *const u8,
        length: usize,
        ends: *const usize,
        words: usize,
        out: *mut u64,
        room: usize,
    ) -> u32;
    fn birchagain_count(index: *mut Handle, language: u32, query: *const u8, length: usize, out: *mut u64) -> u32;
    fn birchagain_top(
        index: *mut Handle,
        language: u32,
        query: *const u8,
        length: usize,
        out: *mut Hit,
        room: usize,
        filled: *mut usize,
    ) -> u32;
    fn birchagain_page(
        index: *mut Handle,
        language: u32,
        query: *const u8,
        length: usize,
        from: u64,
        out: *mut u64,
        room: usize,
        filled: *mut usize,
    ) -> u32;
    fn birchagain_query_words(
        language: u32,
        query: *const u8,
        length: usize,
        bytes: *mut u8,
        bytes_room: usize,
        ends: *mut usize,
        ends_room: usize,
        filled: *mut usize,
        words: *mut usize,
    ) -> u32;
    fn birchagain_check_query(language: u32, query: *const u8, length: usize, place: *mut usize) -> u32;
    fn birchagain_to_bytes(
        index: *mut Handle,
        moment: u64,
        known: *const u64,
        known_length: usize,
        out: *mut u8,
        room: usize,
        size: *mut usize,
    ) -> u32;
    fn birchagain_from_bytes(index: *mut Handle, bytes: *const u8, length: usize) -> u32;
    fn birchagain_rarity(documents: u64, held: u64) -> u64;
    fn birchagain_status_text(status: u32, out: *mut u8, room: usize) -> usize;
}

// the status of a call that an array is too small for
const NO_ROOM: u32 = 86;

// nanoseconds since 1970
fn now() -> u64 {
    let since = SystemTime::now().duration_since(UNIX_EPOCH);
    since.map_or(0, |it| it.as_nanos() as u64)
}

/// A query's text, and its language.
#[derive(Clone, Copy, Debug)]
pub enum Query<'a> {
    /// In the language that people type.
    Typed(&'a str),
    /// In that of scripts.
    Script(&'a str),
}

impl Query<'_> {
    // the number of its language, where its text lies, and how long it is
    fn passed(&self) -> (u32, *const u8, usize) {
        match self {
            Query::Typed(text) => (0, text.as_ptr(), text.len()),
            Query::Script(text) => (1, text.as_ptr(), text.len()),
        }
    }

    /// Its words that weigh anything: all but the beginnings of others.
    pub fn words(&self) -> Result<Vec<String>, Refusal> {
        let (language, text, length) = self.passed();
        // its words are not more than its bytes, nor are theirs
        let (mut bytes, mut ends, mut filled, mut count) = (vec![0; length], vec![0; length], 0, 0);
        done(unsafe {
            birchagain_query_words(
                language,
                text,
                length,
                bytes.as_mut_ptr(),
                length,
                ends.as_mut_ptr(),
                length,
                &mut filled,
                &mut count,
            )
        })?;
        let mut start = 0;
        let word_to = |end: &usize| {
            let word = String::from_utf8_lossy(&bytes[start..*end]).into_owned();
            start = *end;
            word
        };
        Ok(ends[..count].iter().map(word_to).collect())
    }

    /// How many bytes stand before what isn't understood in it, if that is told.
    pub fn place(&self) -> Option<usize> {
        let (language, text, length) = self.passed();
        let mut place = usize::MAX;
        unsafe { birchagain_check_query(language, text, length, &mut place) };
        Some(place).filter(|it| *it <= length)
    }
}

/// Why a call was refused: its status.
#[derive(Clone, Copy, Debug, PartialEq, Eq)]
pub struct Refusal(pub u32);

impl fmt::Display for Refusal {
    fn fmt(&self, f: &mut fmt::Formatter<'_>) -> fmt::Result {
        let mut text = [0; 256];
        let length = unsafe { birchagain_status_text(self.0, text.as_mut_ptr(), text.len()) };
        f.write_str(&String::from_utf8_lossy(&text[..length.min(text.len())]))
    }
}

impl std::error::Error for Refusal {}

fn done(status: u32) -> Result<(), Refusal> {
    match status {
        0 => Ok(()),
        status => Err(Refusal(status)),
    }
}

/// Documents that are added and deleted in any order. It may go to another thread, and no two threads call it at once,
/// since all calls want it for themselves.
pub struct Index {
    handle: Handle,
}

// as the library has it proved of its handle
unsafe impl Send for Index {}

impl Index {
    /// An index without documents.
    pub fn new() -> Result<Index, Refusal> {
        let mut index = Index { handle: Handle { at: null_mut() } };
        done(unsafe { birchagain_open(&mut index.handle) })?;
        Ok(index)
    }

    /// Adds a document with the words of a text, which spaces part.
    pub fn add(&mut self, text: &str) -> Result<(), Refusal> {
        done(unsafe { birchagain_add_text(&mut self.handle, text.as_ptr(), text.len()) })
    }

    /// Deletes a document.
    pub fn delete(&mut self, document: u64) -> Result<(), Refusal> {
        done(unsafe { birchagain_delete(&mut self.handle, document) })
    }

    /// Ends the segment that takes documents, and opens another.
    pub fn end_segment(&mut self) -> Result<(), Refusal> {
        done(unsafe { birchagain_end_segment(&mut self.handle) })
    }

    /// How many documents were added, deleted ones too.
    pub fn documents(&mut self) -> Result<u64, Refusal> {
        let mut count = 0;
        done(unsafe { birchagain_documents(&mut self.handle, &mut count) })?;
        Ok(count)
    }

    /// Gives a word its weight from now on.
    pub fn weigh(&mut self, word: &str, weight: i64) -> Result<(), Refusal> {
        done(unsafe { birchagain_weigh(&mut self.handle, word.as_ptr(), word.len(), weight) })
    }

    /// How many documents hold each of these words.
    pub fn frequencies(&mut self, words: &[&str]) -> Result<Vec<u64>, Refusal> {
        let bytes = words.concat();
        let ends: Vec<usize> = words
            .iter()
            .scan(0, |end, word| {
                *end += word.len();
                Some(*end)
            })
            .collect();
        let mut held = vec![0; words.len()];
        done(unsafe {
            birchagain_frequencies(
                &mut self.handle,
                bytes.as_ptr(),
                bytes.len(),
                ends.as_ptr(),
                ends.len(),
                held.as_mut_ptr(),
                held.len(),
            )
        })?;
        Ok(held)
    }

    /// How many documents match a query.
    pub fn count(&mut self, query: Query<'_>) -> Result<u64, Refusal> {
        let (language, text, length) = query.passed();
        let mut count = 0;
        done(unsafe { birchagain_count(&mut self.handle, language, text, length, &mut count) })?;
        Ok(count)
    }

    /// The best documents for a query, at most so many.
    pub fn top(&mut self, query: Query<'_>, most: usize) -> Result<Vec<Hit>, Refusal> {
        let (language, text, length) = query.passed();
        let (mut hits, mut filled) = (vec![Hit::default(); most], 0);
        let at = hits.as_mut_ptr();
        done(unsafe { birchagain_top(&mut self.handle, language, text, length, at, most, &mut filled) })?;
        hits.truncate(filled);
        Ok(hits)
    }

    /// The documents that match a query, by number upwards from one on, at most so many.
    pub fn page(&mut self, query: Query<'_>, from: u64, most: usize) -> Result<Vec<u64>, Refusal> {
        let (language, text, length) = query.passed();
        let (mut page, mut filled) = (vec![0; most], 0);
        let at = page.as_mut_ptr();
        done(unsafe { birchagain_page(&mut self.handle, language, text, length, from, at, most, &mut filled) })?;
        page.truncate(filled);
        Ok(page)
    }

    /// The index as bytes, of which [`Index::from_bytes`] makes it again. The segment that takes documents has to be ended
    /// before, where it has any.
    pub fn to_bytes(&mut self) -> Result<Vec<u8>, Refusal> {
        let mut bytes = Vec::new();
        loop {
            let (known, mut size) = ([0_u64; 0], 0);
            let status = unsafe {
                birchagain_to_bytes(
                    &mut self.handle,
                    now(),
                    known.as_ptr(),
                    known.len(),
                    bytes.as_mut_ptr(),
                    bytes.len(),
                    &mut size,
                )
            };
            if status != NO_ROOM {
                return done(status).map(|()| bytes);
            }
            bytes.resize(size, 0);
        }
    }

    /// The index that some bytes are.
    pub fn from_bytes(bytes: &[u8]) -> Result<Index, Refusal> {
        let mut index = Index { handle: Handle { at: null_mut() } };
        done(unsafe { birchagain_from_bytes(&mut index.handle, bytes.as_ptr(), bytes.len()) })?;
        Ok(index)
    }
}

impl Drop for Index {
    fn drop(&mut self) {
        unsafe { birchagain_free(&mut self.handle) }
    }
}

/// What a word weighs that so many of the documents hold.
pub fn rarity(documents: u64, held: u64) -> u64 {
    unsafe { birchagain_rarity(documents, held) }
}
