//! All settings of a text, with the groups of each.

use fancy_regex::Regex;

fn main() -> Result<(), fancy_regex::Error> {
    let setting = Regex::new(r"(?<key>\w+)=(\w+)?")?;
    let text = "width=80 height=24 title=";
    for found in setting.find_iter(text) {
        println!("{:?}", found?.range());
    }
    for groups in setting.captures_iter(text) {
        let groups = groups?;
        let value = groups.get(2).map_or("nothing", |value| value.as_str());
        println!("{} is {value}", &groups["key"]);
    }
    Ok(())
}
