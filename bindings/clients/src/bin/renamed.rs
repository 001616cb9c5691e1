//! The wrapper under a name that the program chose.

use renamed::{Error, Regex};

fn main() -> Result<(), Error> {
    let price = Regex::new(r"(?<=\$)\d+(?:\.\d\d)?")?;
    for found in price.find_iter("tea $3.50, cake $4, 20 guests") {
        println!("{}", found?.as_str());
    }
    Ok(())
}
