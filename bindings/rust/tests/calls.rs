//! Each call of the wrapper, on the examples of the crate that was ported and on errors.

use proved_fancy_regex::{
    escape, Captures, CompileError, Error, Expander, ParseError, Regex, RegexBuilder, RegexInput,
    RegexOptionsBuilder, RegexSet, RegexSetOptions, Replacer, RuntimeError,
};
use std::borrow::Cow;
use std::sync::Arc;

fn spans(pattern: &str, text: &str) -> Vec<(usize, usize)> {
    let regex = Regex::new(pattern).unwrap();
    let found = regex.find_iter(text).map(|m| m.unwrap());
    found.map(|m| (m.start(), m.end())).collect()
}

#[test]
fn finds_and_captures() {
    let regex = Regex::new(r"(?<!\$)(\d+)(x)?").unwrap();
    assert!(regex.is_match("$1 23").unwrap());
    let groups = regex.captures("$1 23").unwrap().unwrap();
    assert_eq!(groups.len(), 3);
    assert_eq!(&groups[1], "23");
    assert_eq!(groups.get(0).unwrap().range(), 3..5);
    assert!(groups.get(2).is_none() && groups.get(3).is_none());
    assert_eq!(groups.iter().filter(Option::is_some).count(), 2);
    assert!(regex.find("a").unwrap().is_none());
}

#[test]
fn iterates_as_the_crate_does() {
    assert_eq!(
        spans(r"\w+(?=!)", "so fancy! even with! iterators!"),
        [(3, 8), (15, 19), (21, 30)]
    );
    assert_eq!(spans("a*", "baé"), [(0, 0), (1, 2), (4, 4)]);
    assert_eq!(spans("", "é"), [(0, 0), (2, 2)]);
    assert_eq!(spans(r"\Ga?", "aab"), [(0, 1), (1, 2)]);
    assert_eq!(spans(r"\G[ab]\K", "aab"), [(1, 1), (3, 3)]);
}

/// What an iteration gives, and the start of its next search after each item.
fn items(regex: &Regex, text: &str) -> Vec<(Result<(usize, usize), Error>, usize)> {
    let mut matches = regex.find_iter(text);
    let mut items = Vec::new();
    while let Some(found) = matches.next() {
        items.push((found.map(|m| (m.start(), m.end())), matches.input().start()));
    }
    assert!(matches.next().is_none());
    items
}

/// The same without a search ahead: that of groups makes one search for each match.
#[test]
fn matches_that_are_found_ahead_are_those_of_single_searches() {
    let text = "one two  aa é x, aaab b ".repeat(9) + "aaaaaaaaaaaaaaaaaaaaaaaaaaa";
    for pattern in [
        r"\w+",
        r"\w*",
        "",
        "a*",
        r"\G\w",
        r"(?=a)|\w\w",
        r"\b",
        r"\w\K",
        r"(\w)\1",
        r"(?!.*b)(a|aa)+\1,|\w ",
    ] {
        let regex = RegexBuilder::new(pattern)
            .backtrack_limit(1000)
            .build()
            .unwrap();
        let single: Vec<_> = regex
            .captures_iter(&text)
            .map(|groups| groups.map(|groups| groups.get(0).unwrap().range()))
            .map(|found| found.map(|range| (range.start, range.end)))
            .collect();
        let items = items(&regex, &text);
        assert!(single.len() > 2, "{pattern}");
        assert!(items.iter().map(|item| &item.0).eq(&single), "{pattern}");
        for (found, next) in &items {
            // A search begins where the match before it ended, or a character after it.
            let follows = |&(_, end): &(usize, usize)| (end..end + 3).contains(next);
            assert!(found.as_ref().map_or(true, follows), "{pattern}");
        }
    }
}

#[test]
fn splits_and_replaces() {
    let comma = Regex::new(",(?=b)").unwrap();
    let pieces: Result<Vec<_>, _> = comma.split("a,b,c").collect();
    assert_eq!(pieces.unwrap(), ["a", "b,c"]);
    let words = Regex::new(r"(\w+) (\w+)").unwrap();
    let swapped = words.replace_all("hello world", |g: &Captures| format!("{} {}", &g[2], &g[1]));
    assert_eq!(swapped, "world hello");
}

#[test]
fn the_rest_comes_after_an_error() {
    let slow = RegexBuilder::new(r",|(a|b|ab)*\1c")
        .backtrack_limit(100)
        .build()
        .unwrap();
    let text = "x,abababababababab";
    let mut pieces = slow.split(text);
    assert_eq!(pieces.next(), Some(Ok("x")));
    assert!(matches!(pieces.next(), Some(Err(Error::RuntimeError(_)))));
    assert_eq!(pieces.next(), Some(Ok("abababababababab")));
    assert_eq!(pieces.next(), None);
    let mut first = slow.splitn(text, 2);
    assert_eq!(first.next(), Some(Ok("x")));
    assert_eq!(first.next(), Some(Ok("abababababababab")));
    assert_eq!(first.next(), None);
    let mut matches = slow.find_iter(text);
    assert!(matches.next().unwrap().is_ok() && matches.next().unwrap().is_err());
    assert!(matches.next().is_none());
}

#[test]
fn a_place_inside_a_character_is_an_error() {
    let error = Regex::new("a").unwrap().find_from_pos("é", 1).unwrap_err();
    assert_eq!(error, RuntimeError::InsideCharacter.into());
    assert_eq!(
        error.to_string(),
        "Error executing regex: search begins inside a character"
    );
}

/// A replacer that has the same text for all matches, and no other.
struct Same;

impl Replacer for Same {
    fn replace_append(&mut self, _groups: &Captures<'_>, _to: &mut String) {
        panic!("the same text is known");
    }

    fn no_expansion(&mut self) -> Option<Cow<'_, str>> {
        Some(Cow::Borrowed("$1"))
    }
}

#[test]
fn the_same_text_is_put_for_all() {
    let regex = RegexOptionsBuilder::new().build("b".to_string()).unwrap();
    assert_eq!(regex.replace_all("abcb", Same), "a$1c$1");
    assert_eq!(regex.replacen("abcb", 1, Same), "a$1cb");
    assert_eq!(regex.replacen("abcb", 1, &Cow::Borrowed("<$0>")), "a<b>cb");
    assert!(matches!(regex.replace_all("ac", Same), Cow::Borrowed("ac")));
}

#[test]
fn searches_from_a_place() {
    let regex = Regex::new(r"\bb").unwrap();
    assert!(regex.find_from_pos("ab", 1).unwrap().is_none());
    assert!(regex.find_from_pos("b", 2).unwrap().is_none());
    assert_eq!(regex.find_from_pos("b b", 1).unwrap().unwrap().start(), 2);
}

#[test]
fn options_are_kept() {
    let mut builder = RegexBuilder::new("a|ab");
    assert_eq!(builder.build().unwrap().find("AB").unwrap(), None);
    let found = builder
        .case_insensitive(true)
        .leftmost_longest(true)
        .build()
        .unwrap();
    assert_eq!(found.find("AB").unwrap().unwrap().end(), 2);
}

#[test]
fn errors_are_told() {
    let error = Regex::new("a)").unwrap_err();
    assert!(matches!(error, Error::ParseError(1, _)));
    assert_eq!(
        error.to_string(),
        "Parsing error at position 1: General parsing error: end of string not reached"
    );
    let slow = RegexBuilder::new(r"(a|b|ab)*\1c")
        .backtrack_limit(100)
        .build()
        .unwrap();
    assert!(matches!(
        slow.find("abababababababab"),
        Err(Error::RuntimeError(_))
    ));
    assert_eq!(slow.find("c").unwrap(), None);
}

#[test]
fn errors_have_causes() {
    for (pattern, wanted) in [
        ("(a", ParseError::UnclosedOpenParen),
        ("\\", ParseError::TrailingBackslash),
        (r"\y", ParseError::InvalidEscape(r"\y".to_string())),
        (r"\xz", ParseError::InvalidHex),
        (r"\x{110000}", ParseError::InvalidCodepointValue),
        ("[a", ParseError::InvalidClass),
        ("(?w)", ParseError::UnknownFlag("(?w".to_string())),
        ("(?u)a(?-u)", ParseError::ChangingUnicodeModeUnsupported),
        ("+", ParseError::TargetNotRepeatable),
        ("(?<>a)", ParseError::InvalidGroupName),
        (
            r"\k<b>",
            ParseError::InvalidGroupNameBackref("b".to_string()),
        ),
    ] {
        match Regex::new(pattern) {
            Err(Error::ParseError(_, cause)) => assert_eq!(cause, wanted, "{pattern}"),
            other => panic!("{pattern}: {other:?}"),
        }
    }
    for (pattern, wanted) in [
        ("[z-a]", CompileError::InnerError("[z-a]".to_string())),
        ("(?<=a+)b", CompileError::LookBehindNotConst),
        (r"\2(a)", CompileError::InvalidBackref(2)),
        (r"(\g<1>|a)", CompileError::LeftRecursiveSubroutineCall(1)),
        (r"a\g<0>", CompileError::NeverEndingRecursion),
        ("a{3,2}", CompileError::RepeatBoundsReversed),
        (
            "(*COMMIT)a",
            CompileError::FeatureNotYetSupported("control verb".to_string()),
        ),
        (
            r"\g<3>",
            CompileError::SubroutineCallTargetNotFound("3".to_string()),
        ),
    ] {
        let refused = Regex::new(pattern).map(drop);
        assert_eq!(refused, Err(wanted.into()), "{pattern}");
    }
}

#[test]
fn an_anchored_search_finds_what_starts_there() {
    let regex = Regex::new(r"a\K(b)(c)?").unwrap();
    let input = RegexInput::new("-abab").anchored(true);
    assert!(regex.find_input(input.clone()).unwrap().is_none());
    let groups = regex
        .captures_input(input.clone().from_pos(1))
        .unwrap()
        .unwrap();
    let spans: Vec<_> = groups.iter().map(|m| m.map(|m| m.range())).collect();
    assert_eq!(spans, [Some(2..3), Some(2..3), None]);
    let all = regex.find_iter_input(input.from_pos(1));
    let spans: Vec<_> = all.map(|m| m.unwrap().range()).collect();
    assert_eq!(spans, [2..3, 4..5]);
    let far = Regex::new(r"(a|aa)+\1x|b").unwrap();
    let text = format!("b{}", "a".repeat(60));
    let input = RegexInput::new(&text).anchored(true);
    assert_eq!(far.find_input(input).unwrap().unwrap().range(), 0..1);
}

#[test]
fn a_set_tells_the_place_of_its_matches() {
    let starts = |patterns: &[&str], input: RegexInput<'_>| {
        let set = RegexSet::new(patterns).unwrap();
        let found = set.find_input(input).unwrap();
        found.map(|found| (found.start(), found.map(|m| m.unwrap().start()).collect()))
    };
    let text = RegexInput::new("éab-ab");
    assert_eq!(starts(&[r"a\Kb"], text.clone()), Some((2, vec![3])));
    assert_eq!(
        starts(&[r"a\Kb", "ab"], text.clone()),
        Some((2, vec![3, 2]))
    );
    assert_eq!(starts(&[r"\Ga\Kb"], text.clone()), None);
    let anchored = text.clone().anchored(true);
    assert_eq!(starts(&["b", r"a\Kb"], anchored.clone()), None);
    let there = anchored.from_pos(5);
    assert_eq!(starts(&["b", r"a\Kb"], there.clone()), Some((5, vec![6])));
    assert_eq!(starts(&[], there), None);
}

#[test]
fn bytes_are_searched_if_they_are_utf8() {
    let regex = Regex::new("(é)b").unwrap();
    let bytes = "aéb".as_bytes();
    let groups = regex.captures(bytes).unwrap().unwrap();
    assert_eq!(groups.get(1).unwrap().as_bytes(), "é".as_bytes());
    assert_eq!(regex.find_iter(b"b").count(), 0);
    let error = regex.is_match(b"\x80").unwrap_err();
    assert_eq!(error, RuntimeError::NotUtf8.into());
    assert_eq!(regex.find_iter(b"\x80").count(), 1);
    assert!(matches!(
        regex.find_from_pos(bytes, 2),
        Err(Error::RuntimeError(RuntimeError::InsideCharacter))
    ));
}

#[test]
fn what_the_library_cannot_be_asked_for_is_an_error() {
    let regex = Regex::new("b").unwrap();
    let cut = RegexInput::new("abc").range(0..2);
    assert!(matches!(
        regex.find_input(cut.clone()),
        Err(Error::RuntimeError(RuntimeError::InputNotSupported(_)))
    ));
    assert!(regex.find_iter_input(cut.from_pos(3)).next().is_none());
    let built = RegexBuilder::new("b")
        .disallow_empty_match_at_eof_after_newline(true)
        .build();
    assert!(matches!(built, Err(Error::CompileError(_))));
}

#[test]
fn regexes_go_to_other_threads() {
    let regex = Regex::new("b").unwrap();
    let found = std::thread::spawn(move || regex.is_match("abc").unwrap()).join();
    assert!(found.unwrap());
}

#[test]
fn templates_are_expanded() {
    let regex = Regex::new(r"(?<first>\w)(\w)?").unwrap();
    assert_eq!(
        regex.capture_names().collect::<Vec<_>>(),
        [None, Some("first"), None]
    );
    for (template, wanted) in [
        ("$first.$2", "a.b"),
        ("${first}x$$", "ax$"),
        ("$firstx", ""),
        ("${1}$", "a$"),
        ("${1", "${1"),
        ("$0é", ""),
        ("${0}é", "abé"),
        ("$9$other", ""),
    ] {
        assert_eq!(regex.replace_all("ab", template), wanted, "{template}");
    }
    assert_eq!(regex.replacen("ab cd e", 2, "-"), "- - e");
    assert_eq!(Regex::new("").unwrap().replace_all("é", "-"), "-é-");
    assert_eq!(Regex::new("").unwrap().replace_all("é", ""), "é");
}

#[test]
fn python_templates_are_expanded() {
    let regex = Regex::new("(?<first>.)(.)?").unwrap();
    let groups = regex.captures("ab").unwrap().unwrap();
    for (template, wanted) in [
        (r"\1.\g<2>.\g<first>", "a.b.a"),
        (r"\\1\0", r"\1ab"),
        (r"\10\g<x>\x$1", r"\x$1"),
        (r"\18446744073709551616", "6"),
        (r"\g<1\", r"\g<1\"),
    ] {
        assert_eq!(Expander::python().expansion(template, &groups), wanted);
    }
    let mut out = Vec::new();
    let default = Expander::default();
    default
        .write_expansion(&mut out, "$first$$", &groups)
        .unwrap();
    assert_eq!(out, b"a$");
    assert_eq!(Expander::python().escape(r"a\b"), r"a\\b");
    assert!(matches!(default.escape("ab"), Cow::Borrowed("ab")));
}

#[test]
fn templates_are_checked() {
    let numbers = Regex::new("(a)").unwrap();
    let names = Regex::new("(?<a>a)").unwrap();
    let default = Expander::default();
    assert_eq!(default.check("$1$$${0}", &numbers), Ok(()));
    assert_eq!(Expander::python().check(r"\g<a>\0", &names), Ok(()));
    for (template, regex) in [("$2", &numbers), ("$b", &numbers), ("$1", &names)] {
        let refused = default.check(template, regex);
        assert!(matches!(refused, Err(Error::CompileError(_))), "{template}");
    }
    let loose = default.check("a$", &numbers).unwrap_err();
    assert!(matches!(&loose, Error::ParseError(0, _)));
    assert_eq!(
        loose.to_string(),
        "Parsing error at position 0: General parsing error: parse error in template while expanding"
    );
    assert_eq!(default.check("$1", &numbers), Ok(()));
}

#[test]
fn texts_are_escaped() {
    assert_eq!(escape("a.b\n"), "a\\.b\\n");
    assert!(matches!(escape("é"), Cow::Borrowed("é")));
    let long = "(".repeat(1000);
    let regex = Regex::new(&escape(&long)).unwrap();
    assert_eq!(regex.find(&long).unwrap().unwrap().range(), 0..1000);
}

#[test]
fn bytes_are_known_by_their_options() {
    let mut options = RegexOptionsBuilder::new();
    options.case_insensitive(true);
    let set = options.start_bytes("k").unwrap().unwrap();
    assert!(set.contains(b'K') && set.contains(b'k') && !set.contains(b'j'));
    let error = options.start_bytes("a)").unwrap_err();
    assert!(matches!(error, Error::ParseError(1, _)));
    assert!(matches!(
        options.required_bytes("(").unwrap_err(),
        Error::ParseError(1, _)
    ));
}

#[test]
fn groups_have_many_names() {
    let pattern: String = (0..300).map(|n| format!("(?<n{n}>a?)(?:b)")).collect();
    let regex = Regex::new(&pattern).unwrap();
    assert_eq!(regex.captures_len(), 301);
    let names: Vec<_> = regex.capture_names().skip(1).flatten().collect();
    assert_eq!((names.len(), names[299]), (300, "n299"));
}

#[test]
fn conversions() {
    let regex = Regex::try_from("b+").unwrap();
    let found = regex.find("abb").unwrap().unwrap();
    assert_eq!(<&str>::from(found), "bb");
    assert_eq!(std::ops::Range::from(found), 1..3);
    let mut builder = RegexBuilder::new("a");
    let other = builder.pattern("c".to_string()).build().unwrap();
    assert_eq!(other.as_str(), "c");
}

#[test]
fn sets_of_regexes_keep_their_options() {
    let any_case = RegexBuilder::new("a")
        .case_insensitive(true)
        .build()
        .unwrap();
    let regexes = [any_case, Regex::new("a").unwrap()].map(Arc::new);
    let set = RegexSet::from_regexes(regexes.clone(), RegexSetOptions::new()).unwrap();
    let numbers = |text| {
        let found = set.find_input(RegexInput::new(text)).unwrap().unwrap();
        found.map(|m| m.unwrap().pattern()).collect::<Vec<_>>()
    };
    assert_eq!((numbers("bA"), numbers("ba")), (vec![0], vec![0, 1]));
    assert!(regexes[0].is_match("A").unwrap());
    let empty = RegexSet::from_regexes([], RegexSetOptions::new()).unwrap();
    assert!(empty.is_empty());
}

#[test]
fn groups_of_members_are_told() {
    let set = RegexSet::new(["b", "(?<n>a)|(?<m>b)(c)", r"(.)(?<n>c)(?<n>d)?", r"b\Kc"]).unwrap();
    for _ in 0..2 {
        let found = set.find_input(RegexInput::new("-bcd")).unwrap().unwrap();
        let found: Vec<_> = found.map(|m| m.unwrap()).collect();
        let spans = |number: usize| {
            let groups = found[number].captures().iter();
            groups.map(|m| m.map(|m| m.range())).collect::<Vec<_>>()
        };
        assert_eq!(spans(0), [Some(1..2)]);
        assert_eq!(spans(1), [Some(1..3), None, Some(1..2), Some(2..3)]);
        assert_eq!(spans(2), [Some(1..4), Some(1..2), Some(2..3), Some(3..4)]);
        assert_eq!((found[3].pattern(), spans(3)), (3, vec![Some(2..3)]));
        assert_eq!(&found[1].captures()["m"], "b");
        assert!(found[1].captures().name("n").is_none());
        assert_eq!(&found[2].captures()["n"], "d");
    }
    let patterns: Vec<_> = (0..40).map(|n| format!("(a)(?<n{n}>b)")).collect();
    let many = RegexSet::new(&patterns).unwrap();
    for _ in 0..2 {
        let found = many.find_input(RegexInput::new("xab")).unwrap().unwrap();
        assert_eq!((found.haystack(), found.regex_set().len()), ("xab", 40));
        for (n, m) in found.map(|m| m.unwrap()).enumerate() {
            assert_eq!((m.pattern(), &m.captures()[&*format!("n{n}")]), (n, "b"));
        }
    }
}

#[test]
fn sets_are_searched() {
    let mut options = RegexOptionsBuilder::new();
    options.case_insensitive(true);
    let set = RegexSet::new_with_options(["b", "(?=ab)", "AB?"], &options).unwrap();
    assert_eq!(set.len(), 3);
    let found = set.find_input(RegexInput::new("xab")).unwrap().unwrap();
    let found: Vec<_> = found
        .map(|m| m.unwrap())
        .map(|m| (m.pattern(), m.start(), m.end()))
        .collect();
    assert_eq!(found, [(1, 1, 1), (2, 1, 3)]);
    let found = set
        .find_input(RegexInput::new("xab").from_pos(2))
        .unwrap()
        .unwrap();
    assert_eq!(
        found.map(|m| m.unwrap().get().start()).collect::<Vec<_>>(),
        [2]
    );
    assert!(set.find_input(RegexInput::new("x")).unwrap().is_none());
    assert!(set
        .find_input(RegexInput::new("b").from_pos(2))
        .unwrap()
        .is_none());
    let none: [&str; 0] = [];
    assert!(RegexSet::new(none)
        .unwrap()
        .find_input(RegexInput::new("b"))
        .unwrap()
        .is_none());
    assert!(matches!(
        RegexSet::new(["a", "b)"]),
        Err(Error::ParseError(1, _))
    ));
    let slow = RegexSet::new_with_options(
        [r"(a|b|ab)*\1c"],
        RegexOptionsBuilder::new().backtrack_limit(100),
    )
    .unwrap();
    assert!(matches!(
        slow.find_input(RegexInput::new("abababababababab")),
        Err(Error::RuntimeError(_))
    ));
}

#[test]
fn long_texts_are_replaced() {
    let regex = Regex::new("é").unwrap();
    let replaced = regex.replace_all(&"é".repeat(1000), "<$0$0>").into_owned();
    assert_eq!(replaced, "<éé>".repeat(1000));
    assert!(matches!(
        regex.replace_all("abc", "x"),
        Cow::Borrowed("abc")
    ));
    assert_eq!(
        regex
            .find_input(RegexInput::new("éé").from_pos(2))
            .unwrap()
            .unwrap()
            .start(),
        2
    );
}

#[test]
fn searches_answer_as_those_of_a_new_regex() {
    let long = "ab ".repeat(40_000);
    let texts = [
        "",
        "abab",
        "ab=12 12",
        &long[..],
        "aaaaaaaaaaaaaaaaaaaaaaaaaaaa",
        "12 12",
        "é=1",
    ];
    for pattern in [
        r"(\w)+=(\d+)",
        r"(\d+) \1",
        r"(?:a|b|ab)*c",
        r"(a|aa)+\1b|(\d)",
        r"(?=.*1)\w+",
    ] {
        let build = || {
            RegexBuilder::new(pattern)
                .backtrack_limit(1000)
                .build()
                .unwrap()
        };
        let used = build();
        for text in texts.iter().chain(texts.iter().rev()) {
            let spans = |regex: &Regex| -> Result<Option<Vec<_>>, Error> {
                let groups = regex.captures(*text)?;
                Ok(groups.map(|g| g.iter().map(|m| m.map(|m| m.range())).collect()))
            };
            assert_eq!(spans(&used), spans(&build()), "{pattern}");
            let whole = |regex: &Regex| regex.find(*text).map(|m| m.map(|m| m.range()));
            assert_eq!(whole(&used), whole(&build()), "{pattern}");
            assert_eq!(used.is_match(*text), build().is_match(*text), "{pattern}");
        }
    }
}
