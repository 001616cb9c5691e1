//! A tokenizer of texts for a language model: words with the blank before them, numbers, signs, and runs of blanks, of which the last
//! blank goes with the word that follows.

use fancy_regex::Regex;

const PIECES: &str = r"'(?:[sdmt]|ll|ve|re)| ?\p{L}+| ?\p{N}+| ?[^\s\p{L}\p{N}]+|\s+(?!\S)|\s+";

fn main() -> Result<(), fancy_regex::Error> {
    let pieces = Regex::new(PIECES)?;
    for text in [
        "Hello world, it's 2024!",
        "we'll   see  what\n\n  they've done...  ",
        "naïve Köln: 東京 1,000,000 €",
    ] {
        let found: Result<Vec<&str>, _> = pieces
            .find_iter(text)
            .map(|piece| piece.map(|piece| piece.as_str()))
            .collect();
        println!("{:?}", found?);
    }
    Ok(())
}
