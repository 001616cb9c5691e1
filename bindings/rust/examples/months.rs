//! Prints the months of a text, and the text with them turned round.

use proved_fancy_regex::Regex;

fn main() -> Result<(), proved_fancy_regex::Error> {
    let text = "2018-04 and 2020-01";
    let regex = Regex::new(r"(?<year>\d{4})-(?<month>\d{2})")?;
    for groups in regex.captures_iter(text) {
        let groups = groups?;
        println!("month {} of {}", &groups["month"], &groups["year"]);
    }
    println!("{}", regex.replace_all(text, "$month/$year"));
    Ok(())
}
