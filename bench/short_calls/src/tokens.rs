//! Tokenizers of language models over a page of text: all tokens by `find_iter`.

use crate::find_all::sum_of_ends;
use crate::{Call, Goal};

const GPT2: &str = r"'(?:[sdmt]|ll|ve|re)| ?\p{L}+| ?\p{N}+| ?[^\s\p{L}\p{N}]+|\s+(?!\S)|\s+";
const CL100K: &str = r"'(?i:[sdmt]|ll|ve|re)|[^\r\n\p{L}\p{N}]?\p{L}+|\p{N}{1,3}| ?[^\s\p{L}\p{N}]+[\r\n]*|\s*[\r\n]+|\s+(?!\S)|\s+";
const PAGE: &str = "The tokenizer's page: it has words, 2024 numbers, and (some) signs.\n\n  We'll see what they've done with   blanks,\n\
    and 1,000,000 other things -- naïve ones, too -- that stand in a text of this kind.\n";

/// The number of tokens, and the sum of their ends.
macro_rules! all_tokens {
    ($regex:expr, $text:expr) => {
        $regex
            .find_iter($text)
            .map(|token| token.unwrap().end())
            .sum()
    };
}

/// All tokens of a page by `find_iter`, beside the crate and beside one call of the library for all matches.
fn tokens(name: &str, pattern: &str) -> [Call; 2] {
    let text = PAGE.repeat(8);
    let name = format!("{name}'s tokens by `find_iter`");
    let ours = || -> Box<dyn Fn() -> usize> {
        let regex = proved_fancy_regex::Regex::new(pattern).unwrap();
        let text = text.clone();
        Box::new(move || all_tokens!(regex, &text))
    };
    let theirs = fancy_regex::Regex::new(pattern).unwrap();
    let their_text = text.clone();
    let beside_the_crate = Call {
        name: name.clone(),
        goal: Goal::OfTheCrate(0.5),
        ours: ours(),
        other: Box::new(move || all_tokens!(theirs, &their_text)),
    };
    let beside_find_all = Call {
        name,
        goal: Goal::OfFindAll,
        ours: ours(),
        other: Box::new(sum_of_ends(pattern, text.clone(), text.len())),
    };
    [beside_the_crate, beside_find_all]
}

pub fn calls() -> Vec<Call> {
    [tokens("GPT-2", GPT2), tokens("cl100k", CL100K)]
        .into_iter()
        .flatten()
        .collect()
}
