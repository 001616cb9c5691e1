//! Replaces matches by a template and by a function, and splits a text at its matches.

use fancy_regex::{Captures, Regex};

fn main() -> Result<(), fancy_regex::Error> {
    let name = Regex::new(r"(?<last>\w+), (?<first>\w+)")?;
    println!("{}", name.replace_all("Springsteen, Bruce; Mitchell, Joni", "$first $last"));
    let price = Regex::new(r"(?<=\$)\d{1,6}\b")?;
    let doubled = |groups: &Captures<'_>| match groups[0].parse::<u32>() {
        Ok(number) => (number * 2).to_string(),
        Err(_) => groups[0].to_string(),
    };
    println!("{}", price.replace_all("tea $4, cake $12", doubled));
    for piece in Regex::new(r"\s*,\s*")?.split("a, b,c ,d") {
        println!("[{}]", piece?);
    }
    Ok(())
}
