//! The queries of the script language that are asked here: flat ones, of words.
use crate::index::words;

#[derive(Debug)]
pub enum Query<'a> {
    None,
    Word(&'a [u8]),
    Phrase {
        slop: u32,
        words: Vec<&'a [u8]>,
    },
    Prefix {
        most: usize,
        prefix: &'a [u8],
    },
    Boolean {
        least: u32,
        must: Vec<&'a [u8]>,
        should: Vec<&'a [u8]>,
        must_not: Vec<&'a [u8]>,
    },
    Greatest {
        tie: u32,
        words: Vec<&'a [u8]>,
    },
}

fn number<'a>(of: &mut impl Iterator<Item = &'a [u8]>) -> Option<u32> {
    std::str::from_utf8(of.next()?).ok()?.parse().ok()
}

fn term<'a>(of: &mut impl Iterator<Item = &'a [u8]>) -> Option<&'a [u8]> {
    (of.next()? == b"term").then_some(())?;
    of.next()
}

/// None where it is another form, or nothing of the language.
pub fn parse(line: &[u8]) -> Option<Query<'_>> {
    let mut rest = words(line);
    let query = match rest.next()? {
        b"none" => Query::None,
        b"term" => Query::Word(rest.next()?),
        b"phrase" => {
            let (slop, count) = (number(&mut rest)?, number(&mut rest)?);
            Query::Phrase {
                slop,
                words: (0..count).map(|_| rest.next()).collect::<Option<_>>()?,
            }
        }
        b"prefix" => {
            let (most, count) = (number(&mut rest)?, number(&mut rest)?);
            (count == 1).then_some(())?;
            Query::Prefix {
                most: most as usize,
                prefix: rest.next()?,
            }
        }
        b"bool" => boolean(&mut rest)?,
        b"max" => {
            let (tie, count) = (number(&mut rest)?, number(&mut rest)?);
            Query::Greatest {
                tie,
                words: (0..count).map(|_| term(&mut rest)).collect::<Option<_>>()?,
            }
        }
        _ => return None,
    };
    rest.next().is_none().then_some(query)
}

fn boolean<'a>(rest: &mut impl Iterator<Item = &'a [u8]>) -> Option<Query<'a>> {
    let (least, count) = (number(rest)?, number(rest)?);
    let (mut must, mut should, mut must_not) = (Vec::new(), Vec::new(), Vec::new());
    for _ in 0..count {
        let clauses = match rest.next()? {
            b"+" => &mut must,
            b"?" => &mut should,
            b"-" => &mut must_not,
            _ => return None,
        };
        clauses.push(term(rest)?);
    }
    Some(Query::Boolean {
        least,
        must,
        should,
        must_not,
    })
}
