//! Answers scripts of documents and flat queries of words, as docs/SCRIPT.md has them, over lists of its own: what a
//! program can be that does just that. `work K Q` says what a run for the best K came to, in place of these: the
//! postings of its words, its stretches, and the documents that it scored.
mod answer;
mod every;
mod index;
mod meeting;
mod phrase;
mod query;
mod score;
mod sink;
mod stretches;
mod window;

use answer::answer;
use index::Index;
use query::{parse, Query};
use sink::{Above, Best, Count, Documents, Scores};
use std::io::{Read, Write};

/// So much is read at once, and written at once.
const ROOM: usize = 1 << 16;

/// The line's first word, and what stands behind it.
fn cut(line: &[u8]) -> (&[u8], &[u8]) {
    let line = line.trim_ascii_start();
    line.split_at(line.iter().position(|&it| it == b' ').unwrap_or(line.len()))
}

fn number<T: std::str::FromStr>(word: &[u8]) -> Option<T> {
    std::str::from_utf8(word).ok()?.parse().ok()
}

/// Writes the answer, with a space behind each part; None where the line asks for something else.
fn ask(index: &Index, verb: &[u8], rest: &[u8], out: &mut Vec<u8>) -> Option<()> {
    let with_number = |rest| {
        let (word, rest) = cut(rest);
        Some((number(word)?, parse(rest)?))
    };
    let all = |query: &Query, out: &mut Vec<u8>| answer(index, query, false, &mut Documents(out));
    match verb {
        b"docs" => drop(all(&parse(rest)?, out)),
        b"scores" => drop(answer(index, &parse(rest)?, false, &mut Scores(out))),
        b"count" => {
            let mut count = Count::default();
            answer(index, &parse(rest)?, false, &mut count);
            sink::write_number(out, count.0);
            out.push(b' ');
        }
        b"prune" => {
            let (threshold, query) = with_number(rest)?;
            answer(index, &query, true, &mut Above { out, threshold });
        }
        b"top" | b"work" => {
            let (most, query): (i64, _) = with_number(rest)?;
            let mut best = Best::new(usize::try_from(most).ok()?);
            let work = answer(index, &query, true, &mut best);
            if verb == b"top" {
                best.write(out);
            } else {
                write!(out, "{} {} {} ", work.postings, work.stretches, work.ticks).ok()?;
            }
        }
        _ => return None,
    }
    Some(())
}

fn take_line(index: &mut Index, line: &[u8], out: &mut Vec<u8>) {
    let (verb, rest) = cut(line);
    match verb {
        b"" => {}
        b"doc" => index.add(rest),
        b"weight" => {
            let (word, rest) = cut(rest);
            match number(rest.trim_ascii()) {
                Some(weight) => index.weigh(word, weight),
                None => out.extend_from_slice(b"not understood\n"),
            }
        }
        _ => {
            index.seal();
            let start = out.len();
            if ask(index, verb, rest, out).is_none() {
                out.extend_from_slice(b"not understood ");
            }
            if out.len() > start {
                out.pop();
            }
            out.push(b'\n');
        }
    }
}

fn main() -> std::io::Result<()> {
    let (mut input, mut output) = (std::io::stdin().lock(), std::io::stdout().lock());
    let mut index = Index::default();
    let (mut given, mut out) = (Vec::with_capacity(2 * ROOM), Vec::with_capacity(2 * ROOM));
    loop {
        let kept = given.len();
        given.resize(kept + ROOM, 0);
        let count = input.read(&mut given[kept..])?;
        given.truncate(kept + count);
        if count == 0 {
            given.push(b'\n');
        }
        let mut done = 0;
        // what was kept has no end of a line
        let mut from = kept;
        while let Some(length) = given[from..].iter().position(|&it| it == b'\n') {
            take_line(&mut index, &given[done..from + length], &mut out);
            from += length + 1;
            done = from;
            if out.len() >= ROOM {
                output.write_all(&out)?;
                out.clear();
            }
        }
        given.drain(..done);
        output.write_all(&out)?;
        output.flush()?;
        out.clear();
        if count == 0 {
            // the system takes the memory back at once
            std::process::exit(0);
        }
    }
}
