use fancy_regex::Regex;

fn main() -> Result<(), fancy_regex::Error> {
    let regex = Regex::new(r"(?<year>\d{4})-(?<month>\d{2})")?;
    for groups in regex.captures_iter("2018-04 and 2020-01") {
        let groups = groups?;
        println!("month {} of {}", &groups["month"], &groups["year"]);
    }
    Ok(())
}
