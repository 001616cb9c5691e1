//! The examples in the documentation of the crate that was ported, each with what it prints there. Left out are the two of texts that are
//! not UTF-8.

use proved_fancy_regex::{
    seek_pattern_is_useful, Captures, Expander, NoExpand, Regex, RegexBuilder, RegexInput,
    RegexOptionsBuilder, RegexSet, Replacer,
};
use std::sync::Arc;

#[test]
fn expander_escape() {
    assert_eq!(
        Expander::default().escape("Has a literal $ sign."),
        "Has a literal $$ sign."
    );
}

#[test]
fn start_bytes() {
    let builder = RegexOptionsBuilder::new();
    let set = builder.start_bytes(r"fn|let|impl").unwrap().unwrap();
    assert_eq!(set.iter().collect::<Vec<_>>(), vec![b'f', b'i', b'l']);
    assert!(builder.start_bytes(r"a?").unwrap().is_none());
}

#[test]
fn required_bytes() {
    let builder = RegexOptionsBuilder::new();
    let set = builder.required_bytes(r"a?b").unwrap();
    assert_eq!(set.iter().collect::<Vec<_>>(), vec![b'b']);
}

#[test]
fn seek_filter() {
    let mut builder = RegexOptionsBuilder::new();
    builder.seek_filter(seek_pattern_is_useful);
    let mut builder = RegexOptionsBuilder::new();
    builder.seek_filter(|pat| pat.len() > 3 && seek_pattern_is_useful(pat));
}

#[test]
fn from_regexes() {
    let re1 = Arc::new(
        RegexBuilder::new(r"hello")
            .case_insensitive(true)
            .build()
            .unwrap(),
    );
    let re2 = Arc::new(Regex::new(r"\d+").unwrap());
    let re3 = Arc::new(Regex::new(r"(?<=\w)end").unwrap());
    let set = RegexSet::from_regexes([re1, re2, re3], Default::default()).unwrap();
    let mut matches = set.find_input(RegexInput::new("HELLO")).unwrap().unwrap();
    let m = matches.next().unwrap().unwrap();
    assert_eq!(m.pattern(), 0);
    assert_eq!(m.as_str(), "HELLO");
    assert!(matches.next().is_none());
}

#[test]
fn oniguruma_mode() {
    let haystack = "turbo::<Fish>";
    let regex = r"\<\w*\>";
    let word_bounds = Regex::new(regex).unwrap();
    assert_eq!(
        word_bounds.find(haystack).unwrap().unwrap().as_str(),
        "turbo"
    );
    let literals = RegexBuilder::new(regex)
        .oniguruma_mode(true)
        .build()
        .unwrap();
    assert_eq!(literals.find(haystack).unwrap().unwrap().as_str(), "<Fish>");
}

#[test]
fn is_match() {
    let re = Regex::new(r"(\w+) \1").unwrap();
    assert!(re.is_match("mirror mirror on the wall").unwrap());
}

#[test]
fn find_iter() {
    let re = Regex::new(r"\w+(?=!)").unwrap();
    let mut matches = re.find_iter("so fancy! even with! iterators!");
    assert_eq!(matches.next().unwrap().unwrap().as_str(), "fancy");
    assert_eq!(matches.next().unwrap().unwrap().as_str(), "with");
    assert_eq!(matches.next().unwrap().unwrap().as_str(), "iterators");
    assert!(matches.next().is_none());
}

#[test]
fn find() {
    let re = Regex::new(r"\w+(?=!)").unwrap();
    assert_eq!(re.find("so fancy!").unwrap().unwrap().as_str(), "fancy");
}

#[test]
fn find_from_pos() {
    let re = Regex::new(r"(?m:^)(\d+)").unwrap();
    let text = "1 test 123\n2 foo";
    let mat = re.find_from_pos(text, 7).unwrap().unwrap();
    assert_eq!(mat.start(), 11);
    assert_eq!(mat.end(), 12);
}

#[test]
fn captures_iter() {
    let re = Regex::new(r"(\d{4})-(\d{2})").unwrap();
    let text = "It was between 2018-04 and 2020-01";
    let mut all_captures = re.captures_iter(text);

    let first = all_captures.next().unwrap().unwrap();
    assert_eq!(first.get(1).unwrap().as_str(), "2018");
    assert_eq!(first.get(2).unwrap().as_str(), "04");
    assert_eq!(first.get(0).unwrap().as_str(), "2018-04");

    let second = all_captures.next().unwrap().unwrap();
    assert_eq!(second.get(1).unwrap().as_str(), "2020");
    assert_eq!(second.get(2).unwrap().as_str(), "01");
    assert_eq!(second.get(0).unwrap().as_str(), "2020-01");

    assert!(all_captures.next().is_none());
}

#[test]
fn captures() {
    let re = Regex::new(r"(\d{4})-(\d{2})-(\d{2})").unwrap();
    let text = "The date was 2018-04-07";
    let captures = re.captures(text).unwrap().unwrap();
    assert_eq!(captures.get(1).unwrap().as_str(), "2018");
    assert_eq!(captures.get(2).unwrap().as_str(), "04");
    assert_eq!(captures.get(3).unwrap().as_str(), "07");
    assert_eq!(captures.get(0).unwrap().as_str(), "2018-04-07");
}

#[test]
fn captures_from_pos() {
    let re = Regex::new(r"(?m:^)(\d+)").unwrap();
    let text = "1 test 123\n2 foo";
    let captures = re.captures_from_pos(text, 7).unwrap().unwrap();
    let group = captures.get(1).unwrap();
    assert_eq!(group.as_str(), "2");
    assert_eq!(group.start(), 11);
    assert_eq!(group.end(), 12);
    let captures = re.captures(&text[7..]).unwrap().unwrap();
    assert_eq!(captures.get(1).unwrap().as_str(), "123");
}

#[test]
fn replace() {
    let re = Regex::new("[^01]+").unwrap();
    assert_eq!(re.replace("1078910", ""), "1010");

    let re = Regex::new(r"([^,\s]+),\s+(\S+)").unwrap();
    let result = re.replace("Springsteen, Bruce", |caps: &Captures<'_, str>| {
        format!("{} {}", &caps[2], &caps[1])
    });
    assert_eq!(result, "Bruce Springsteen");

    let re = Regex::new(r"(?P<last>[^,\s]+),\s+(?P<first>\S+)").unwrap();
    let result = re.replace("Springsteen, Bruce", "$first $last");
    assert_eq!(result, "Bruce Springsteen");

    let re = Regex::new(r"(?P<first>\w+)\s+(?P<second>\w+)").unwrap();
    let result = re.replace("deep fried", "${first}_$second");
    assert_eq!(result, "deep_fried");

    let re = Regex::new(r"(?P<last>[^,\s]+),\s+(\S+)").unwrap();
    let result = re.replace("Springsteen, Bruce", NoExpand("$2 $last"));
    assert_eq!(result, "$2 $last");
}

#[test]
fn by_ref() {
    fn replace_all_twice<R: Replacer>(re: Regex, src: &str, mut rep: R) -> String {
        let dst = re.replace_all(src, rep.by_ref());
        let dst = re.replace_all(&dst, rep.by_ref());
        dst.into_owned()
    }
    assert_eq!(
        replace_all_twice(Regex::new("a").unwrap(), "ab", "aa"),
        "aaaab"
    );
}

#[test]
fn split() {
    let re = Regex::new(r"[ \t]+").unwrap();
    let target = "a b \t  c\td    e";
    let fields: Vec<&str> = re.split(target).map(|x| x.unwrap()).collect();
    assert_eq!(fields, vec!["a", "b", "c", "d", "e"]);
}

#[test]
fn splitn() {
    let re = Regex::new(r"[ \t]+").unwrap();
    let target = "a b \t  c\td    e";
    let fields: Vec<&str> = re.splitn(target, 3).map(|x| x.unwrap()).collect();
    assert_eq!(fields, vec!["a", "b", "c\td    e"]);
}

#[test]
fn set() {
    let set = RegexSet::new([r"\d+", r"\w+", r"\.\d+", r"(?<=\$)\d+\.\d+"]).unwrap();
    let mut matches = set.find_input(RegexInput::new("$29.99")).unwrap().unwrap();

    let first = matches.next().unwrap().unwrap();
    assert_eq!(first.pattern(), 0);
    assert_eq!(first.as_str(), "29");
    assert_eq!(first.start(), 1);

    let second = matches.next().unwrap().unwrap();
    assert_eq!(second.pattern(), 1);
    assert_eq!(second.as_str(), "29");

    let third = matches.next().unwrap().unwrap();
    assert_eq!(third.pattern(), 3);
    assert_eq!(third.as_str(), "29.99");
    assert!(matches.next().is_none());
}

#[test]
fn set_match() {
    let set = RegexSet::new([r"\w+"]).unwrap();
    let mut matches = set.find_input(RegexInput::new("abc")).unwrap().unwrap();
    let m = matches.next().unwrap().unwrap();
    assert_eq!(m.pattern(), 0);
    assert_eq!(m.get().as_str(), "abc");
    assert_eq!(m.start(), 0);
    assert_eq!(m.end(), 3);
    assert_eq!(m.captures().len(), 1);
}

#[test]
fn readme() {
    let slow = Regex::new("(a|b|ab)*bc").unwrap();
    assert!(!slow.is_match(&("ab".repeat(28) + "ac")).unwrap());
    let raw_string = Regex::new(r##"r(#*)".*?"\1"##).unwrap();
    let found = raw_string
        .find(r###"let s = r##"a "# b"##;"###)
        .unwrap()
        .unwrap();
    assert_eq!(found.as_str(), r###"r##"a "# b"##"###);
}
