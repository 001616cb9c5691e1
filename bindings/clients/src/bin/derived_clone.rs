//! A type with regexes that derives `Clone` and `Debug`.

use fancy_regex::{Error, Regex, RegexSet};

/// A rule of a log reader: lines that match are counted under its name.
#[derive(Clone, Debug)]
struct Rule {
    name: &'static str,
    line: Regex,
}

#[derive(Clone, Debug)]
struct Reader {
    rules: Vec<Rule>,
    any: RegexSet,
}

impl Reader {
    fn new(rules: &[(&'static str, &str)]) -> Result<Reader, Error> {
        let rule = |&(name, pattern): &(&'static str, &str)| {
            let line = Regex::new(pattern)?;
            Ok::<Rule, Error>(Rule { name, line })
        };
        Ok(Reader {
            rules: rules.iter().map(rule).collect::<Result<_, _>>()?,
            any: RegexSet::new(rules.iter().map(|rule| rule.1))?,
        })
    }

    fn name_of(&self, line: &str) -> Result<&'static str, Error> {
        for rule in &self.rules {
            if rule.line.is_match(line)? {
                return Ok(rule.name);
            }
        }
        Ok("other")
    }
}

fn main() -> Result<(), Error> {
    let reader = Reader::new(&[
        ("failure", r"^(?!.*\bretry\b).*\bfailed\b"),
        ("retry", r"\bretry (?<number>\d+)(?= of )"),
    ])?;
    let copy = reader.clone();
    drop(reader);
    for line in ["disk failed", "failed, retry 2 of 5", "all is well"] {
        println!("{line}: {}", copy.name_of(line)?);
    }
    println!("{:?}", copy.clone().rules);
    println!("{:?}", copy.any);
    Ok(())
}
