//! Uses of the API of fancy-regex 0.20.0, one function for each: inputs, sets and byte sets.

use fancy_regex::{
    ByteSet, Captures, Input, Match, Regex, RegexBuilder, RegexInput, RegexOptionsBuilder,
    RegexSet, RegexSetMatch, RegexSetOptions,
};
use std::ops::Range;
use std::panic::RefUnwindSafe;
use std::sync::Arc;

#[test]
fn new() {
    let input: RegexInput<'_, str> = RegexInput::new("abc");
    assert_eq!((input.start(), input.get_range()), (0, 0..3));
}

#[test]
fn new_of_bytes() {
    let input: RegexInput<'_, [u8]> = RegexInput::new(&b"abc"[..]);
    assert_eq!(input.haystack(), b"abc");
}

#[test]
fn from_text() {
    let input: RegexInput<'_, str> = "abc".into();
    assert_eq!(input.haystack(), "abc");
}

#[test]
fn haystack() {
    let text: &str = RegexInput::new("abc").haystack();
    assert_eq!(text, "abc");
}

#[test]
fn start() {
    assert_eq!(RegexInput::new("abc").from_pos(2).start(), 2);
}

#[test]
fn get_range() {
    let range: Range<usize> = RegexInput::new("abc").range(1..2).get_range();
    assert_eq!(range, 1..2);
}

#[test]
fn range_to_the_end() {
    let input = RegexInput::new("aba").range(1..3);
    assert_eq!(
        Regex::new("a")
            .unwrap()
            .find_input(input)
            .unwrap()
            .unwrap()
            .start(),
        2
    );
}

#[test]
fn start_text() {
    let input = RegexInput::new("abc").start_text(true).start_text(false);
    assert!(Regex::new("a").unwrap().is_match_input(input).unwrap());
}

#[test]
fn end_text() {
    let input = RegexInput::new("abc").end_text(false).end_text(true);
    assert!(Regex::new("c$").unwrap().is_match_input(input).unwrap());
}

#[test]
fn continue_from_previous_match_end() {
    let input = RegexInput::new("ba")
        .from_pos(1)
        .continue_from_previous_match_end(false);
    assert!(!Regex::new(r"\Ga").unwrap().is_match_input(input).unwrap());
}

#[test]
fn anchored() {
    let re = Regex::new("abc").unwrap();
    assert!(re
        .find_input(RegexInput::new("zabc").anchored(true))
        .unwrap()
        .is_none());
    let there = RegexInput::new("zabc").from_pos(1).anchored(true);
    assert_eq!(re.find_input(there).unwrap().unwrap().range(), 1..4);
}

#[test]
fn cloned() {
    let input = RegexInput::new("abc").from_pos(1);
    assert_eq!(input.clone().start(), 1);
    assert_eq!(RegexInput::new(&b"a"[..]).clone().start(), 0);
}

#[test]
fn shows_itself() {
    assert!(format!("{:?}", RegexInput::new("abc")).contains("RegexInput"));
}

#[test]
fn input_is_kept_in_a_struct() {
    struct Cursor<'t> {
        input: RegexInput<'t, str>,
    }
    let cursor = Cursor {
        input: RegexInput::new("abc"),
    };
    assert_eq!(cursor.input.from_pos(3).start(), 3);
}

#[test]
fn input_trait_of_texts() {
    fn length<S: Input + ?Sized>(input: &S) -> (usize, bool) {
        (input.len(), input.is_empty())
    }
    assert_eq!(length("abc"), (3, false));
    assert_eq!(length(&String::new()), (0, true));
}

#[test]
fn input_trait_of_bytes() {
    fn bytes<S: Input + ?Sized>(input: &S) -> &[u8] {
        input.as_bytes()
    }
    assert_eq!(bytes(&b"abc"[..]), b"abc");
    assert_eq!(bytes(b"abc"), b"abc");
}

#[test]
fn input_trait_of_references() {
    fn is_ascii<S: Input>(input: S) -> bool {
        input.is_ascii()
    }
    assert!(is_ascii("abc") && !is_ascii("é") && is_ascii(&b"abc"[..]));
}

#[test]
fn input_boundaries() {
    assert!(Input::is_char_boundary("é", 2) && !Input::is_char_boundary("é", 1));
    assert_eq!(Input::prev_codepoint_ix("aé", 3), 1);
    assert_eq!("aé".advance_position(1), 3);
}

#[test]
fn input_boundaries_of_bytes() {
    let bytes: &[u8] = "aé".as_bytes();
    assert!(!Input::is_char_boundary(bytes, 2));
    assert_eq!(
        (bytes.prev_codepoint_ix(3), bytes.advance_position(1)),
        (1, 2)
    );
}

#[test]
fn make_match() {
    let found: Match<'_> = "abc".make_match(1, 2);
    assert_eq!(found.as_str(), "b");
}

#[test]
fn make_match_of_any_input() {
    fn cut<S: Input + ?Sized>(input: &S) -> S::Match<'_> {
        input.make_match(0, 1)
    }
    assert_eq!(cut("abc").as_str(), "a");
    assert_eq!(cut(b"abc").as_bytes(), b"a");
}

#[test]
fn own_input() {
    struct Line(String);

    impl Input for Line {
        type Match<'t> = Range<usize>;

        fn len(&self) -> usize {
            self.0.len()
        }
        fn as_bytes(&self) -> &[u8] {
            self.0.as_bytes()
        }
        fn is_char_boundary(&self, ix: usize) -> bool {
            self.0.is_char_boundary(ix)
        }
        fn is_ascii(&self) -> bool {
            self.0.is_ascii()
        }
        fn prev_codepoint_ix(&self, i: usize) -> usize {
            self.0.prev_codepoint_ix(i)
        }
        fn make_match(&self, start: usize, end: usize) -> Range<usize> {
            start..end
        }
        fn advance_position(&self, i: usize) -> usize {
            self.0.advance_position(i)
        }
    }

    let found: Option<Range<usize>> = Regex::new("b")
        .unwrap()
        .find(&Line("abc".to_string()))
        .unwrap();
    assert_eq!(found, Some(1..2));
}

#[test]
fn any_input_is_searched() {
    fn first<'t, S: Input + ?Sized>(re: &Regex, input: &'t S) -> Option<S::Match<'t>> {
        re.find(input).unwrap()
    }
    let re = Regex::new("b").unwrap();
    assert!(first(&re, "abc").is_some() && first(&re, b"abc").is_some());
}

#[test]
fn set_of_an_array() {
    let set: RegexSet = RegexSet::new(["a", "b"]).unwrap();
    assert_eq!(set.len(), 2);
}

#[test]
fn set_of_borrowed_patterns() {
    let patterns = vec![String::from("a"), String::from("b")];
    assert_eq!(RegexSet::new(&patterns).unwrap().len(), 2);
}

#[test]
fn set_of_an_iterator() {
    assert_eq!(
        RegexSet::new((0..3).map(|n| format!("a{{{n}}}")))
            .unwrap()
            .len(),
        3
    );
}

#[test]
fn set_with_options() {
    let mut options = RegexOptionsBuilder::new();
    options.multi_line(true);
    let set = RegexSet::new_with_options(["^b"], &options).unwrap();
    assert!(set.find_input(RegexInput::new("a\nb")).unwrap().is_some());
}

#[test]
fn set_of_regexes() {
    let re1 = Arc::new(
        RegexBuilder::new("hello")
            .case_insensitive(true)
            .build()
            .unwrap(),
    );
    let re2 = Arc::new(Regex::new(r"\d+").unwrap());
    let set = RegexSet::from_regexes([re1, re2], Default::default()).unwrap();
    assert!(set.find_input(RegexInput::new("HELLO")).unwrap().is_some());
}

#[test]
fn set_of_a_vector_of_regexes() {
    let regexes: Vec<Arc<Regex>> = vec![Arc::new(Regex::new("a").unwrap())];
    assert_eq!(
        RegexSet::from_regexes(regexes, RegexSetOptions::new())
            .unwrap()
            .len(),
        1
    );
}

#[test]
fn set_is_empty() {
    assert!(RegexSet::new(Vec::<String>::new()).unwrap().is_empty());
}

#[test]
fn set_is_cloned() {
    let set = RegexSet::new(["a"]).unwrap();
    assert_eq!(set.clone().len(), 1);
}

#[test]
fn set_shows_itself() {
    assert!(format!("{:?}", RegexSet::new(["a"]).unwrap()).contains("RegexSet"));
}

#[test]
fn set_is_shared() {
    fn shared<T: Send + Sync + RefUnwindSafe>() {}
    shared::<RegexSet>();
}

#[test]
fn set_is_searched() {
    let set = RegexSet::new([r"\d+", r"\w+", r"(?<=\$)\d+\.\d+"]).unwrap();
    let mut matches = set
        .find_input(RegexInput::new("$29.99"))
        .unwrap()
        .expect("there is one");
    let first = matches.next().unwrap().unwrap();
    assert_eq!(
        (first.pattern(), first.start(), first.end(), first.as_str()),
        (0, 1, 3, "29")
    );
    assert_eq!(matches.count(), 2);
}

#[test]
fn set_is_searched_from_a_place() {
    let set = RegexSet::new(["."]).unwrap();
    assert!(set
        .find_input(RegexInput::new("a").from_pos(2))
        .unwrap()
        .is_none());
}

#[test]
fn set_is_searched_anchored() {
    let set = RegexSet::new(["b"]).unwrap();
    assert!(set
        .find_input(RegexInput::new("ab").anchored(true))
        .unwrap()
        .is_none());
    assert!(set
        .find_input(RegexInput::new("ab").from_pos(1).anchored(true))
        .unwrap()
        .is_some());
}

#[test]
fn set_is_searched_in_bytes() {
    let set = RegexSet::new(["b"]).unwrap();
    let mut found = set.find_input(RegexInput::new(b"ab")).unwrap().unwrap();
    assert_eq!(found.next().unwrap().unwrap().get().as_bytes(), b"b");
}

#[test]
fn set_matches_tell_their_set() {
    let set = RegexSet::new(["a", "b"]).unwrap();
    let found = set.find_input(RegexInput::new("a")).unwrap().unwrap();
    let told: &RegexSet = found.regex_set();
    assert_eq!(told.len(), 2);
}

#[test]
fn set_matches_tell_their_haystack() {
    let set = RegexSet::new(["b"]).unwrap();
    let found = set.find_input(RegexInput::new("ab")).unwrap().unwrap();
    assert_eq!((found.haystack(), found.start()), ("ab", 1));
}

#[test]
fn set_matches_show_themselves() {
    let set = RegexSet::new(["b"]).unwrap();
    let found = set.find_input(RegexInput::new("ab")).unwrap().unwrap();
    assert!(format!("{found:?}").contains("RegexSetMatchesAt"));
}

/// The first member of a set that matches in `ab`.
fn first_member(set: &RegexSet) -> RegexSetMatch<'_, str> {
    let mut found = set.find_input(RegexInput::new("ab")).unwrap().unwrap();
    found.next().unwrap().unwrap()
}

#[test]
fn set_match_has_groups() {
    let set = RegexSet::new(["a(?<n>.)"]).unwrap();
    let found = first_member(&set);
    let groups: &Captures<'_, str> = found.captures();
    assert_eq!((groups.len(), &groups["n"]), (2, "b"));
}

#[test]
fn set_match_is_a_match() {
    let set = RegexSet::new(["b"]).unwrap();
    let found: RegexSetMatch<'_, str> = first_member(&set);
    let whole: Match<'_> = found.get();
    assert_eq!(whole.range(), 1..2);
}

#[test]
fn set_match_shows_itself() {
    let set = RegexSet::new(["b"]).unwrap();
    let found = first_member(&set);
    assert!(format!("{found:?}").contains("RegexSetMatch"));
}

#[test]
fn set_options() {
    let options = RegexSetOptions::new()
        .delegate_size_limit(11)
        .delegate_dfa_size_limit(22);
    assert!(format!("{:?}", options.clone()).contains("RegexSetOptions"));
}

#[test]
fn set_options_of_automata() {
    let options = RegexSetOptions::default()
        .meta_nfa_size_limit(None)
        .meta_hybrid_cache_capacity(33);
    let options = options
        .overlapping_dfa_cache_capacity(44)
        .overlapping_dfa_skip_cache_capacity_check(false);
    assert!(RegexSet::from_regexes([Arc::new(Regex::new("a").unwrap())], options).is_ok());
}

#[test]
fn byte_set() {
    let set: ByteSet = RegexOptionsBuilder::new().required_bytes("a?b").unwrap();
    let bytes: Vec<u8> = set.iter().collect();
    assert_eq!(bytes, [b'b']);
}
