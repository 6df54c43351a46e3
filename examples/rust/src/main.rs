//! The library from Rust, without a crate: what is rare among a few documents weighs much.

mod index;

use index::{rarity, Index, Query, Refusal};
use std::thread;

fn main() -> Result<(), Refusal> {
    let texts = ["an old apple tree", "an apple a day", "woodpeckers nest in old trees"];
    let mut index = Index::new()?;
    for text in texts {
        index.add(text)?;
    }
    index.end_segment()?;
    index.delete(1)?;
    assert_eq!(index.delete(3), Err(Refusal(67)));
    let query = Query::Typed("old apple owl");
    let words = query.words()?;
    let words: Vec<&str> = words.iter().map(String::as_str).collect();
    let documents = index.documents()?;
    let held = index.frequencies(&words)?;
    for (word, held) in words.iter().zip(held) {
        let weight = rarity(documents, held);
        println!("{word}: in {held} of {documents}, weighs {weight}");
        index.weigh(word, weight as i64)?;
    }
    for hit in index.top(query, 10)? {
        println!("{}  {}", hit.score, texts[hit.document as usize]);
    }
    assert_eq!(index.count(query)?, 2);
    assert_eq!(index.count(Query::Script("bool 0 2 + term old - term apple"))?, 1);
    assert_eq!(index.page(Query::Typed("tre*"), 1, 10)?, [2]);
    let open = Query::Typed("old \"apple");
    println!("{} (at byte {})", index.count(open).unwrap_err(), open.place().unwrap_or(0));
    // what its bytes are is the same index
    let bytes = index.to_bytes()?;
    let mut copy = Index::from_bytes(&bytes)?;
    assert_eq!(copy.top(query, 10)?, index.top(query, 10)?);
    assert_eq!(Index::from_bytes(&bytes[1..]).err(), Some(Refusal(80)));
    println!("{} documents as bytes, {} found", copy.documents()?, copy.count(query)?);
    // it may go to another thread
    let index = thread::spawn(move || index.add("an owl").map(|()| index)).join().expect("the thread ended");
    println!("{}", index?.weigh("owl", -1).unwrap_err());
    Ok(())
}
