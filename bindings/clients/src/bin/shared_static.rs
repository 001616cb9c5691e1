//! A regex in a static that threads share.

use fancy_regex::Regex;
use std::sync::OnceLock;
use std::thread;

fn words() -> &'static Regex {
    static WORDS: OnceLock<Regex> = OnceLock::new();
    WORDS.get_or_init(|| Regex::new(r"\b(\w)\w*\1\b").expect("the pattern is right"))
}

fn main() {
    let texts = ["a river", "roar and rear", "none here", "did dad"];
    let counts = texts.map(|text| thread::spawn(move || words().find_iter(text).count()));
    for (text, count) in texts.into_iter().zip(counts) {
        println!("{text}: {}", count.join().expect("the thread ends"));
    }
}
