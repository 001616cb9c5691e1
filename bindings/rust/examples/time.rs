//! Times a search of the text on standard input, in nanoseconds of processor time: PATTERN COUNT. The search is made COUNT times.

use proved_fancy_regex::Regex;
use std::env;
use std::io::{self, Read};

extern "C" {
    /// The processor time of this process so far, in millionths of a second.
    fn clock() -> std::os::raw::c_long;
}

fn main() {
    let words: Vec<String> = env::args().skip(1).collect();
    let (pattern, count) = match words.as_slice() {
        [pattern, count] => (pattern, count),
        _ => {
            eprintln!("usage: time PATTERN COUNT");
            std::process::exit(2);
        }
    };
    let count: u32 = count.parse().unwrap();
    let mut text = String::new();
    io::stdin().read_to_string(&mut text).unwrap();
    let regex = Regex::new(pattern).unwrap();
    let start = unsafe { clock() };
    let mut sum = 0u64;
    for _ in 0..count {
        sum += regex
            .find(&text)
            .unwrap()
            .map_or(1, |found| found.end() as u64);
    }
    let passed = unsafe { clock() } - start;
    println!(
        "{} ns a search, sum {sum}",
        passed * 1000 / i64::from(count.max(1))
    );
}
