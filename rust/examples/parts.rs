//! The example of the repository's README.

use jogcairn::{read, Book, Word};

fn main() -> Result<(), jogcairn::Refusal> {
    let fan: Word = "ပန်ကာ".parse()?; // a word in its stored spelling, with its key
    let pipe: Word = "ပိုက်".parse()?;
    assert!(pipe < fan); // the dictionary's order

    for syllable in read(&fan)? {
        println!("{:04X?} {:?}", syllable.part, syllable.record.bytes());
    }

    let mut bytes = [0; 256]; // a book without records
    let mut book = Book::new(&mut bytes);
    book.add(&fan, 2041)?;
    book.add(&pipe, 17)?;
    book.add(&"ပတ္တာ".parse::<Word>()?, 52)?;
    for entry in book.entries()? {
        println!("{entry} {}", entry.stock());
    }
    let typed: Word = "ပတ်".parse()?; // the first syllable of a hinge
    for entry in book.entries_with_prefix(&typed)? {
        println!("{typed} is continued by {entry} {}", entry.stock());
    }
    match "က္".parse::<Word>() {
        Ok(word) => println!("{word}"),
        Err(refusal) => println!("{refusal}"),
    }
    Ok(())
}
