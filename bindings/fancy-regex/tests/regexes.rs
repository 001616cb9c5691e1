//! Uses of the API of fancy-regex 0.20.0, one function for each: regexes, their matches and their iterators.

use fancy_regex::{
    escape, BytesMode, CaptureMatches, CaptureNames, Captures, Input, Match, MatchBytes, Matches,
    Regex, RegexBuilder, RegexInput, Split, SplitN, SubCaptureMatches,
};
use std::borrow::Cow;
use std::iter::FusedIterator;
use std::ops::Range;
use std::panic::{catch_unwind, RefUnwindSafe, UnwindSafe};
use std::str::FromStr;
use std::sync::{Arc, Mutex, OnceLock, RwLock};
use std::thread;

#[test]
fn new() {
    let re: fancy_regex::Result<Regex> = Regex::new("a");
    assert!(re.is_ok());
}

#[test]
fn as_str() {
    let re = Regex::new(r"(a+)b\1").unwrap();
    let text: &str = re.as_str();
    assert_eq!(text, r"(a+)b\1");
}

#[test]
fn debug_shows_the_pattern() {
    assert_eq!(format!("{:?}", Regex::new("a|b").unwrap()), "a|b");
}

#[test]
fn display_shows_the_pattern() {
    assert_eq!(Regex::new("a|b").unwrap().to_string(), "a|b");
}

#[test]
fn from_str() {
    let re = Regex::from_str("a").unwrap();
    assert_eq!(re.as_str(), "a");
}

#[test]
fn parse() {
    let re: Regex = "a".parse().unwrap();
    assert_eq!(re.as_str(), "a");
}

#[test]
fn try_from_str() {
    let re = Regex::try_from("a").unwrap();
    assert_eq!(re.as_str(), "a");
}

#[test]
fn try_from_string() {
    let re = Regex::try_from(String::from("a")).unwrap();
    assert_eq!(re.as_str(), "a");
}

#[test]
fn clone() {
    let re = Regex::new("a").unwrap();
    let other = re.clone();
    drop(re);
    assert!(other.is_match("a").unwrap());
}

#[test]
fn derived_clone() {
    #[derive(Clone, Debug)]
    struct Rule {
        regex: Regex,
    }
    let rule = Rule {
        regex: Regex::new("a").unwrap(),
    };
    assert_eq!(rule.clone().regex.as_str(), "a");
}

#[test]
fn send_and_sync() {
    fn shared<T: Send + Sync + 'static>() {}
    shared::<Regex>();
}

#[test]
fn unwind_safe() {
    fn safe<T: UnwindSafe + RefUnwindSafe>() {}
    safe::<Regex>();
}

#[test]
fn searched_inside_catch_unwind() {
    let re = Regex::new("a").unwrap();
    let caught = catch_unwind(|| re.is_match("a").unwrap());
    assert!(caught.unwrap());
}

#[test]
fn in_a_static() {
    static WORD: OnceLock<Regex> = OnceLock::new();
    let re = WORD.get_or_init(|| Regex::new(r"\w").unwrap());
    assert!(re.is_match("a").unwrap());
}

#[test]
fn in_an_arc_of_threads() {
    let re = Arc::new(Regex::new("a").unwrap());
    let other = Arc::clone(&re);
    let found = thread::spawn(move || other.is_match("a").unwrap());
    assert!(found.join().unwrap() && re.is_match("a").unwrap());
}

#[test]
fn in_scoped_threads() {
    let re = Regex::new("a").unwrap();
    thread::scope(|scope| {
        scope.spawn(|| assert!(re.is_match("a").unwrap()));
        scope.spawn(|| assert!(!re.is_match("b").unwrap()));
    });
}

#[test]
fn in_a_mutex_and_a_lock() {
    let re = Mutex::new(Regex::new("a").unwrap());
    let other = RwLock::new(re.lock().unwrap().clone());
    assert!(other.read().unwrap().is_match("a").unwrap());
}

#[test]
fn in_a_thread_local() {
    thread_local! {
        static RE: Regex = Regex::new("a").unwrap();
    }
    assert!(RE.with(|re| re.is_match("a").unwrap()));
}

#[test]
fn boxed_as_a_predicate() {
    let re = Regex::new("a").unwrap();
    let is_match: Box<dyn Fn(&str) -> bool + Send + Sync> =
        Box::new(move |text| re.is_match(text).unwrap());
    assert!(is_match("a"));
}

#[test]
fn is_match() {
    let found: fancy_regex::Result<bool> =
        Regex::new(r"(\w+) \1").unwrap().is_match("mirror mirror");
    assert!(found.unwrap());
}

#[test]
fn is_match_of_a_string() {
    let text = String::from("aa");
    assert!(Regex::new(r"(.)\1").unwrap().is_match(&text).unwrap());
}

#[test]
fn is_match_of_bytes() {
    let text: &[u8] = b"aa";
    assert!(Regex::new(r"(.)\1").unwrap().is_match(text).unwrap());
}

#[test]
fn is_match_of_an_array() {
    assert!(Regex::new(r"(.)\1").unwrap().is_match(b"aa").unwrap());
}

#[test]
fn is_match_of_a_slice() {
    let text = String::from("-aa");
    assert!(Regex::new(r"^(.)\1").unwrap().is_match(&text[1..]).unwrap());
}

#[test]
fn is_match_input() {
    let re = Regex::new("a").unwrap();
    assert!(!re
        .is_match_input(RegexInput::new("ab").from_pos(1))
        .unwrap());
}

#[test]
fn find() {
    let re = Regex::new(r"\w+(?=!)").unwrap();
    let found: Option<Match<'_>> = re.find("so fancy!").unwrap();
    assert_eq!(found.unwrap().as_str(), "fancy");
}

#[test]
fn find_in_a_string() {
    let text = String::from("so fancy!");
    let found: Match<'_> = Regex::new(r"\w+(?=!)")
        .unwrap()
        .find(&text)
        .unwrap()
        .unwrap();
    assert_eq!(found.range(), 3..8);
}

#[test]
fn find_in_bytes() {
    let text: &[u8] = b"so fancy!";
    let found: MatchBytes<'_> = Regex::new(r"\w+(?=!)")
        .unwrap()
        .find(text)
        .unwrap()
        .unwrap();
    assert_eq!(found.as_bytes(), b"fancy");
}

#[test]
fn find_returns_a_text_that_outlives_the_regex() {
    fn first(text: &str) -> &str {
        let re = Regex::new(r"\w+").unwrap();
        re.find(text).unwrap().map_or("", |found| found.as_str())
    }
    assert_eq!(first("- ab"), "ab");
}

#[test]
fn find_input() {
    let re = Regex::new("a").unwrap();
    let found = re.find_input(RegexInput::new("aba").from_pos(1)).unwrap();
    assert_eq!(found.unwrap().start(), 2);
}

#[test]
fn find_from_pos() {
    let re = Regex::new(r"(?m:^)(\d+)").unwrap();
    assert_eq!(
        re.find_from_pos("1 test 123\n2 foo", 7)
            .unwrap()
            .unwrap()
            .start(),
        11
    );
}

#[test]
fn find_from_pos_in_bytes() {
    let re = Regex::new("a").unwrap();
    assert_eq!(re.find_from_pos(b"aba", 1).unwrap().unwrap().start(), 2);
}

#[test]
fn find_iter() {
    let re = Regex::new(r"\w+(?=!)").unwrap();
    let mut found = re.find_iter("so fancy! even with!");
    assert_eq!(found.next().unwrap().unwrap().as_str(), "fancy");
    assert_eq!(found.next().unwrap().unwrap().as_str(), "with");
    assert!(found.next().is_none());
}

#[test]
fn find_iter_is_collected() {
    let re = Regex::new("a").unwrap();
    let found: Result<Vec<Match<'_>>, fancy_regex::Error> = re.find_iter("aba").collect();
    assert_eq!(found.unwrap().len(), 2);
}

#[test]
fn find_iter_of_a_string() {
    let text = String::from("aba");
    assert_eq!(Regex::new("a").unwrap().find_iter(&text).count(), 2);
}

#[test]
fn find_iter_of_bytes() {
    let starts: Vec<usize> = Regex::new("a")
        .unwrap()
        .find_iter(b"aba")
        .map(|m| m.unwrap().start())
        .collect();
    assert_eq!(starts, [0, 2]);
}

#[test]
fn find_iter_input() {
    let re = Regex::new("a").unwrap();
    assert_eq!(
        re.find_iter_input(RegexInput::new("aba").from_pos(1))
            .count(),
        1
    );
}

#[test]
fn matches_have_a_type() {
    struct Words<'r, 't> {
        found: Matches<'r, 't, str>,
    }
    let re = Regex::new(r"\w+").unwrap();
    let words = Words {
        found: re.find_iter("a b"),
    };
    assert_eq!(words.found.count(), 2);
}

#[test]
fn matches_tell_their_regex() {
    let re = Regex::new("a").unwrap();
    let found = re.find_iter("a");
    let told: &Regex = found.regex();
    assert_eq!(told.as_str(), "a");
}

#[test]
fn matches_tell_their_text() {
    let re = Regex::new("a").unwrap();
    let text: &str = re.find_iter("ab").text();
    assert_eq!(text, "ab");
}

#[test]
fn matches_tell_their_input() {
    let re = Regex::new("a").unwrap();
    let mut found = re.find_iter("ab");
    found.next();
    let input: &RegexInput<'_, str> = found.input();
    assert_eq!(input.start(), 1);
}

#[test]
fn matches_show_themselves() {
    let re = Regex::new("a").unwrap();
    assert!(format!("{:?}", re.find_iter("a")).contains("Matches"));
}

#[test]
fn captures() {
    let re = Regex::new(r"(\d{4})-(\d{2})").unwrap();
    let groups: Option<Captures<'_, str>> = re.captures("on 2018-04").unwrap();
    assert_eq!(groups.unwrap().get(2).unwrap().as_str(), "04");
}

#[test]
fn captures_of_a_string() {
    let text = String::from("2018-04");
    let groups = Regex::new(r"(\d{4})-(\d{2})")
        .unwrap()
        .captures(&text)
        .unwrap()
        .unwrap();
    assert_eq!(groups.get(1).unwrap().as_str(), "2018");
}

#[test]
fn captures_of_bytes() {
    let text: &[u8] = b"2018-04";
    let groups: Captures<'_, [u8]> = Regex::new(r"-(\d+)")
        .unwrap()
        .captures(text)
        .unwrap()
        .unwrap();
    assert_eq!(groups.get(1).unwrap().as_bytes(), b"04");
}

#[test]
fn captures_input() {
    let re = Regex::new("(a)").unwrap();
    let groups = re
        .captures_input(RegexInput::new("aba").from_pos(1))
        .unwrap()
        .unwrap();
    assert_eq!(groups.get(1).unwrap().start(), 2);
}

#[test]
fn captures_from_pos() {
    let re = Regex::new(r"(?m:^)(\d+)").unwrap();
    let groups = re
        .captures_from_pos("1 test 123\n2 foo", 7)
        .unwrap()
        .unwrap();
    assert_eq!(groups.get(1).unwrap().end(), 12);
}

#[test]
fn captures_iter() {
    let re = Regex::new(r"(\d{4})-(\d{2})").unwrap();
    for groups in re.captures_iter("2018-04 and 2020-01") {
        assert_eq!(groups.unwrap().len(), 3);
    }
}

#[test]
fn captures_iter_input() {
    let re = Regex::new("(a)").unwrap();
    assert_eq!(
        re.captures_iter_input(RegexInput::new("aba").from_pos(1))
            .count(),
        1
    );
}

#[test]
fn capture_matches_have_a_type() {
    let re = Regex::new("(a)").unwrap();
    let all: CaptureMatches<'_, '_, str> = re.captures_iter("a");
    assert_eq!(all.count(), 1);
}

#[test]
fn capture_matches_tell_their_text() {
    let re = Regex::new("(a)").unwrap();
    let text: &str = re.captures_iter("ab").text();
    assert_eq!(text, "ab");
}

#[test]
fn capture_matches_tell_their_regex() {
    let re = Regex::new("(a)").unwrap();
    let told: &Regex = re.captures_iter("ab").regex();
    assert_eq!(told.as_str(), "(a)");
}

#[test]
fn capture_matches_show_themselves() {
    let re = Regex::new("(a)").unwrap();
    assert!(format!("{:?}", re.captures_iter("a")).contains("CaptureMatches"));
}

#[test]
fn captures_len() {
    let number: usize = Regex::new("(a)(?:b)(c)").unwrap().captures_len();
    assert_eq!(number, 3);
}

#[test]
fn capture_names() {
    let re = Regex::new("(?<a>.)(.)(?P<b>.)").unwrap();
    let names: Vec<Option<&str>> = re.capture_names().collect();
    assert_eq!(names, [None, Some("a"), None, Some("b")]);
}

#[test]
fn capture_names_have_a_type() {
    fn named(names: CaptureNames<'_>) -> usize {
        names.flatten().count()
    }
    assert_eq!(named(Regex::new("(?<a>.)").unwrap().capture_names()), 1);
}

#[test]
fn capture_names_show_themselves() {
    let re = Regex::new("(?<a>.)").unwrap();
    assert_eq!(format!("{:?}", re.capture_names()), "<CaptureNames>");
}

#[test]
fn groups_by_number() {
    let groups = Regex::new("(a)|(b)")
        .unwrap()
        .captures("b")
        .unwrap()
        .unwrap();
    assert!(groups.get(1).is_none() && groups.get(3).is_none());
    let second: Match<'_> = groups.get(2).unwrap();
    assert_eq!(second.as_str(), "b");
}

#[test]
fn groups_by_name() {
    let groups = Regex::new("(?<x>a)")
        .unwrap()
        .captures("a")
        .unwrap()
        .unwrap();
    assert_eq!(groups.name("x").map(|found| found.as_str()), Some("a"));
    assert!(groups.name("y").is_none());
}

#[test]
fn groups_in_order() {
    let groups = Regex::new("(a)(b)?")
        .unwrap()
        .captures("a")
        .unwrap()
        .unwrap();
    let all: Vec<Option<Match<'_>>> = groups.iter().collect();
    assert_eq!((all.len(), all[2]), (3, None));
}

#[test]
fn groups_by_index() {
    let groups = Regex::new("(a)(?<n>b)")
        .unwrap()
        .captures("ab")
        .unwrap()
        .unwrap();
    assert_eq!((&groups[0], &groups[2], &groups["n"]), ("ab", "b", "b"));
}

#[test]
fn groups_tell_their_number() {
    assert_eq!(
        Regex::new("(a)(b)?")
            .unwrap()
            .captures("a")
            .unwrap()
            .unwrap()
            .len(),
        3
    );
}

#[test]
fn groups_tell_their_input() {
    let groups = Regex::new("b").unwrap().captures("abc").unwrap().unwrap();
    let bytes: &[u8] = groups.input_as_bytes();
    assert_eq!(bytes, b"abc");
}

#[test]
fn groups_expand_a_template() {
    let groups = Regex::new("(a)(b)")
        .unwrap()
        .captures("ab")
        .unwrap()
        .unwrap();
    let mut to = String::from("-");
    groups.expand("$2${1}$$", &mut to);
    assert_eq!(to, "-ba$");
}

#[test]
fn groups_show_themselves() {
    let groups = Regex::new("(a)").unwrap().captures("a").unwrap().unwrap();
    assert!(format!("{groups:?}").contains("Captures"));
}

#[test]
fn groups_are_a_parameter() {
    fn second(groups: &Captures<'_, str>) -> String {
        groups[2].to_string()
    }
    let groups = Regex::new("(a)(b)")
        .unwrap()
        .captures("ab")
        .unwrap()
        .unwrap();
    assert_eq!(second(&groups), "b");
}

#[test]
fn groups_of_any_input_are_a_parameter() {
    fn number<S: Input + ?Sized>(groups: &Captures<'_, S>) -> usize {
        groups.iter().flatten().count()
    }
    let re = Regex::new("(a)(b)?").unwrap();
    assert_eq!(number(&re.captures("a").unwrap().unwrap()), 2);
    assert_eq!(number(&re.captures(b"ab").unwrap().unwrap()), 3);
}

#[test]
fn groups_outlive_the_regex() {
    fn groups<'t>(text: &'t str) -> Captures<'t, str> {
        Regex::new("(a)").unwrap().captures(text).unwrap().unwrap()
    }
    assert_eq!(&groups("a")[1], "a");
}

#[test]
fn sub_captures_have_a_type() {
    let groups = Regex::new("(a)").unwrap().captures("a").unwrap().unwrap();
    let all: SubCaptureMatches<'_, '_, str> = groups.iter();
    assert_eq!(all.count(), 2);
}

#[test]
fn sub_captures_show_themselves() {
    let groups = Regex::new("(a)").unwrap().captures("a").unwrap().unwrap();
    assert!(format!("{:?}", groups.iter()).contains("SubCaptureMatches"));
}

#[test]
fn match_places() {
    let found = Regex::new("b").unwrap().find("abc").unwrap().unwrap();
    let range: Range<usize> = found.range();
    assert_eq!((found.start(), found.end(), range), (1, 2, 1..2));
}

#[test]
fn match_is_copied() {
    let found = Regex::new("b").unwrap().find("abc").unwrap().unwrap();
    let other = found;
    assert_eq!(found, other);
}

#[test]
fn match_shows_itself() {
    let found = Regex::new("b").unwrap().find("abc").unwrap().unwrap();
    assert!(format!("{found:?}").contains("Match"));
}

#[test]
fn match_into_text() {
    let text: &str = Regex::new("b")
        .unwrap()
        .find("abc")
        .unwrap()
        .unwrap()
        .into();
    assert_eq!(text, "b");
}

#[test]
fn match_into_range() {
    let range: Range<usize> = Regex::new("b")
        .unwrap()
        .find("abc")
        .unwrap()
        .unwrap()
        .into();
    assert_eq!(range, 1..2);
}

#[test]
fn bytes_match_places() {
    let found = Regex::new("b").unwrap().find(b"abc").unwrap().unwrap();
    assert_eq!((found.start(), found.end(), found.range()), (1, 2, 1..2));
}

#[test]
fn bytes_match_is_copied() {
    let found = Regex::new("b").unwrap().find(b"abc").unwrap().unwrap();
    let other = found;
    assert_eq!(found, other);
}

#[test]
fn bytes_match_into_bytes() {
    let bytes: &[u8] = Regex::new("b")
        .unwrap()
        .find(b"abc")
        .unwrap()
        .unwrap()
        .into();
    assert_eq!(bytes, b"b");
}

#[test]
fn bytes_match_into_range() {
    let range: Range<usize> = Regex::new("b")
        .unwrap()
        .find(b"abc")
        .unwrap()
        .unwrap()
        .into();
    assert_eq!(range, 1..2);
}

#[test]
fn bytes_match_shows_itself() {
    let found = Regex::new("b").unwrap().find(b"abc").unwrap().unwrap();
    assert!(format!("{found:?}").contains("MatchBytes"));
}

#[test]
fn bytes_modes() {
    assert_eq!(BytesMode::default(), BytesMode::Unicode);
    let modes = [
        BytesMode::Unicode,
        BytesMode::Ascii,
        BytesMode::UnicodeBytes,
    ];
    assert_eq!(
        modes
            .iter()
            .filter(|&&mode| mode == BytesMode::Ascii)
            .count(),
        1
    );
}

#[test]
fn split() {
    let re = Regex::new(r"[ \t]+").unwrap();
    let fields: Vec<&str> = re.split("a b \t  c").map(|x| x.unwrap()).collect();
    assert_eq!(fields, ["a", "b", "c"]);
}

#[test]
fn split_has_a_type() {
    let re = Regex::new(",").unwrap();
    let pieces: Split<'_, '_> = re.split("a,b");
    assert!(format!("{pieces:?}").contains("Split"));
}

#[test]
fn split_is_fused() {
    fn fused(pieces: impl FusedIterator) -> usize {
        pieces.count()
    }
    assert_eq!(fused(Regex::new(",").unwrap().split("a,b")), 2);
}

#[test]
fn splitn() {
    let re = Regex::new(",").unwrap();
    let pieces: Result<Vec<&str>, _> = re.splitn("a,b,c", 2).collect();
    assert_eq!(pieces.unwrap(), ["a", "b,c"]);
}

#[test]
fn splitn_has_a_type() {
    let re = Regex::new(",").unwrap();
    let pieces: SplitN<'_, '_> = re.splitn("a,b,c", 2);
    assert_eq!(pieces.size_hint(), (0, Some(2)));
    assert!(format!("{pieces:?}").contains("SplitN"));
}

#[test]
fn splitn_is_fused() {
    fn fused(pieces: impl FusedIterator) -> usize {
        pieces.count()
    }
    assert_eq!(fused(Regex::new(",").unwrap().splitn("a,b", 1)), 1);
}

#[test]
fn replace() {
    assert_eq!(Regex::new("[^01]+").unwrap().replace("1078910", ""), "1010");
}

#[test]
fn replace_borrows() {
    let re = Regex::new("x").unwrap();
    assert!(matches!(re.replace("abc", ""), Cow::Borrowed("abc")));
}

#[test]
fn replace_by_a_template() {
    let re = Regex::new(r"(?P<last>[^,\s]+),\s+(?P<first>\S+)").unwrap();
    let result: Cow<'_, str> = re.replace("Springsteen, Bruce", "$first $last");
    assert_eq!(result, "Bruce Springsteen");
}

#[test]
fn replace_by_a_function() {
    let re = Regex::new(r"([^,\s]+),\s+(\S+)").unwrap();
    let result = re.replace("Springsteen, Bruce", |caps: &Captures<'_, str>| {
        format!("{} {}", &caps[2], &caps[1])
    });
    assert_eq!(result, "Bruce Springsteen");
}

#[test]
fn replace_all() {
    assert_eq!(Regex::new("a").unwrap().replace_all("aba", "-"), "-b-");
}

#[test]
fn replacen() {
    assert_eq!(Regex::new("a").unwrap().replacen("aaa", 2, "-"), "--a");
}

#[test]
fn try_replacen() {
    let replaced: fancy_regex::Result<Cow<'_, str>> =
        Regex::new("a").unwrap().try_replacen("aa", 0, "-");
    assert_eq!(replaced.unwrap(), "--");
}

#[test]
fn try_replacen_tells_errors() {
    let re = RegexBuilder::new(r"(a|aa)+\1b")
        .backtrack_limit(10)
        .build()
        .unwrap();
    assert!(re.try_replacen(&"a".repeat(30), 0, "$1").is_err());
}

#[test]
fn escapes() {
    let pattern: Cow<'_, str> = escape("fo*o");
    assert_eq!(pattern.into_owned(), r"fo\*o");
    assert!(matches!(escape("@foo"), Cow::Borrowed("@foo")));
}
