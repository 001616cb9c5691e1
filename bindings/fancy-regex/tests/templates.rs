//! Uses of the API of fancy-regex 0.20.0, one function for each: templates and replacers.

use fancy_regex::{Captures, Expander, NoExpand, Regex, Replacer, ReplacerRef};
use std::borrow::Cow;

#[test]
fn expander_escape() {
    assert_eq!(
        Expander::default().escape("Has a literal $ sign."),
        "Has a literal $$ sign."
    );
    assert!(matches!(Expander::python().escape("a"), Cow::Borrowed("a")));
}

#[test]
fn expander_quote() {
    #[allow(deprecated)]
    let quoted: Cow<'_, str> = Expander::default().quote("$");
    assert_eq!(quoted, "$$");
}

#[test]
fn expander_check() {
    let re = Regex::new("(a)").unwrap();
    assert!(Expander::default().check("$1", &re).is_ok());
    assert!(Expander::default().check("$2", &re).is_err());
}

#[test]
fn expander_expansion() {
    let groups = Regex::new("(.)(.)")
        .unwrap()
        .captures("ab")
        .unwrap()
        .unwrap();
    let text: String = Expander::default().expansion("$2$1", &groups);
    assert_eq!(text, "ba");
}

#[test]
fn expander_of_python() {
    let groups = Regex::new("(?<x>.)(.)")
        .unwrap()
        .captures("ab")
        .unwrap()
        .unwrap();
    assert_eq!(Expander::python().expansion(r"\2\g<x>\\", &groups), r"ba\");
}

#[test]
fn expander_append_expansion() {
    let groups = Regex::new("(.)").unwrap().captures("a").unwrap().unwrap();
    let mut to = String::from("-");
    Expander::default().append_expansion(&mut to, "$1", &groups);
    assert_eq!(to, "-a");
}

#[test]
fn expander_write_expansion() {
    let groups = Regex::new("(.)").unwrap().captures("a").unwrap().unwrap();
    let mut to: Vec<u8> = Vec::new();
    let written: std::io::Result<()> = Expander::default().write_expansion(&mut to, "$1", &groups);
    assert!(written.is_ok() && to == b"a");
}

#[test]
fn expander_write_expansion_vec() {
    let groups = Regex::new("(.)").unwrap().captures("a").unwrap().unwrap();
    let mut to: Vec<u8> = Vec::new();
    let written: std::fmt::Result = Expander::default().write_expansion_vec(&mut to, "$1", &groups);
    assert!(written.is_ok() && to == b"a");
}

#[test]
fn expander_shows_itself() {
    assert!(format!("{:?}", Expander::default()).contains("Expander"));
}

#[test]
fn replacer_is_a_text() {
    let re = Regex::new("(a)").unwrap();
    let owned = String::from("<$1>");
    assert_eq!(re.replace("a", &owned), "<a>");
    assert_eq!(re.replace("a", owned), "<a>");
}

#[test]
fn replacer_is_a_cow() {
    let re = Regex::new("(a)").unwrap();
    let cow: Cow<'_, str> = Cow::Borrowed("<$1>");
    assert_eq!(re.replace("a", &cow), "<a>");
    assert_eq!(re.replace("a", cow), "<a>");
}

#[test]
fn replacer_is_a_function_of_borrowed_text() {
    let re = Regex::new("(a)").unwrap();
    assert_eq!(re.replace("a", |_: &Captures<'_, str>| "b"), "b");
    let mut count = 0;
    let counted = re.replace_all("aa", |_: &Captures<'_, str>| {
        count += 1;
        count.to_string()
    });
    assert_eq!(counted, "12");
}

#[test]
fn replacer_is_no_template() {
    assert_eq!(
        Regex::new("(a)").unwrap().replace("a", NoExpand("$1")),
        "$1"
    );
    assert!(format!("{:?}", NoExpand("$1").clone()).contains("NoExpand"));
}

#[test]
fn replacer_of_a_program() {
    struct Swap;

    impl Replacer for Swap {
        fn replace_append(&mut self, caps: &Captures<'_, str>, dst: &mut String) {
            dst.push_str(&caps[2]);
            dst.push_str(caps.get(1).unwrap().as_str());
        }
    }

    assert_eq!(
        Regex::new("(.)(.)").unwrap().replace_all("abcd", Swap),
        "badc"
    );
}

#[test]
fn replacer_without_expansion() {
    struct Same;

    impl Replacer for Same {
        fn replace_append(&mut self, _: &Captures<'_, str>, _: &mut String) {}
        fn no_expansion(&mut self) -> Option<Cow<'_, str>> {
            Some(Cow::Borrowed("-"))
        }
    }

    assert_eq!(Regex::new("a").unwrap().replace("a", Same), "-");
}

#[test]
fn replacer_by_ref() {
    fn replace_all_twice<R: Replacer>(re: Regex, src: &str, mut rep: R) -> String {
        let dst = re.replace_all(src, rep.by_ref());
        let dst = re.replace_all(&dst, rep.by_ref());
        dst.into_owned()
    }
    assert_eq!(replace_all_twice(Regex::new("a").unwrap(), "aa", "b"), "bb");
}

#[test]
fn replacer_ref_has_a_type() {
    let mut template = "b";
    let lent: ReplacerRef<'_, &str> = template.by_ref();
    assert!(format!("{lent:?}").contains("ReplacerRef"));
}

#[test]
fn replacer_is_boxed() {
    struct Boxed(Box<dyn Fn(&str) -> String>);

    impl Replacer for Boxed {
        fn replace_append(&mut self, caps: &Captures<'_, str>, dst: &mut String) {
            dst.push_str(&(self.0)(&caps[0]));
        }
    }

    let upper = Boxed(Box::new(|text| text.to_uppercase()));
    assert_eq!(
        Regex::new(r"\b\w").unwrap().replace_all("ab cd", upper),
        "Ab Cd"
    );
}
