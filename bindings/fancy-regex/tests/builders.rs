//! Uses of the API of fancy-regex 0.20.0, one function for each: builders.

use fancy_regex::{
    seek_pattern_is_useful, ByteSet, BytesMode, Regex, RegexBuilder, RegexOptionsBuilder,
};

#[test]
fn regex_builder() {
    let re: fancy_regex::Result<Regex> = RegexBuilder::new("a").build();
    assert!(re.is_ok());
}

#[test]
fn regex_builder_takes_another_pattern() {
    let mut builder = RegexBuilder::new("a");
    let re = builder.pattern("b".to_string()).build().unwrap();
    assert_eq!(re.as_str(), "b");
}

#[test]
fn regex_builder_builds_again() {
    let mut builder = RegexBuilder::new("a");
    builder.case_insensitive(true);
    let first = builder.build().unwrap();
    let second = builder.multi_line(true).build().unwrap();
    assert!(first.is_match("A").unwrap() && second.is_match("A").unwrap());
}

#[test]
fn regex_builder_shows_itself() {
    assert!(format!("{:?}", RegexBuilder::new("a")).contains("RegexBuilder"));
}

#[test]
fn options_builder_takes_an_owned_pattern() {
    let re: Regex = RegexOptionsBuilder::new().build("a".into()).unwrap();
    assert_eq!(re.as_str(), "a");
}

#[test]
fn options_builder_has_a_default() {
    let options = RegexOptionsBuilder::default();
    assert!(options.build(String::from("a")).is_ok());
}

#[test]
fn options_builder_builds_many() {
    let mut options = RegexOptionsBuilder::new();
    options.case_insensitive(true).multi_line(true);
    for pattern in ["a", "b"] {
        assert!(options
            .build(pattern.to_string())
            .unwrap()
            .is_match("AB")
            .unwrap());
    }
}

#[test]
fn options_builder_shows_itself() {
    assert!(format!("{:?}", RegexOptionsBuilder::new()).contains("RegexOptionsBuilder"));
}

#[test]
fn options_start_bytes() {
    let builder = RegexOptionsBuilder::new();
    let set: Option<ByteSet> = builder.start_bytes("fn|let").unwrap();
    assert_eq!(set.unwrap().iter().collect::<Vec<_>>(), [b'f', b'l']);
    assert!(builder.start_bytes("a?").unwrap().is_none());
}

#[test]
fn options_required_bytes() {
    let set: fancy_regex::Result<ByteSet> = RegexOptionsBuilder::new().required_bytes("a?b");
    assert_eq!(set.unwrap().iter().count(), 1);
}

#[test]
fn options_build_delegate_prefilter() {
    assert!(RegexOptionsBuilder::new()
        .build_delegate_prefilter(false)
        .build("a".to_string())
        .is_ok());
}

#[test]
fn seek_filter_is_a_closure() {
    let mut builder = RegexOptionsBuilder::new();
    builder.seek_filter(|pat| pat.len() > 3 && seek_pattern_is_useful(pat));
    assert!(builder.build("a".to_string()).is_ok());
}

#[test]
fn regex_builder_case_insensitive() {
    let mut builder = RegexBuilder::new("[a-c]+");
    let chained: &mut RegexBuilder = builder.case_insensitive(true);
    assert!(chained.build().unwrap().is_match("abc").unwrap());
}

#[test]
fn regex_builder_multi_line() {
    let mut builder = RegexBuilder::new("[a-c]+");
    let chained: &mut RegexBuilder = builder.multi_line(true);
    assert!(chained.build().unwrap().is_match("abc").unwrap());
}

#[test]
fn regex_builder_ignore_whitespace() {
    let mut builder = RegexBuilder::new("[a-c]+");
    let chained: &mut RegexBuilder = builder.ignore_whitespace(true);
    assert!(chained.build().unwrap().is_match("abc").unwrap());
}

#[test]
fn regex_builder_dot_matches_new_line() {
    let mut builder = RegexBuilder::new("[a-c]+");
    let chained: &mut RegexBuilder = builder.dot_matches_new_line(true);
    assert!(chained.build().unwrap().is_match("abc").unwrap());
}

#[test]
fn regex_builder_verbose_mode() {
    let mut builder = RegexBuilder::new("[a-c]+");
    let chained: &mut RegexBuilder = builder.verbose_mode(true);
    assert!(chained.build().unwrap().is_match("abc").unwrap());
}

#[test]
fn regex_builder_unicode_mode() {
    let mut builder = RegexBuilder::new("[a-c]+");
    let chained: &mut RegexBuilder = builder.unicode_mode(false);
    assert!(chained.build().unwrap().is_match("abc").unwrap());
}

#[test]
fn regex_builder_backtrack_limit() {
    let mut builder = RegexBuilder::new("[a-c]+");
    let chained: &mut RegexBuilder = builder.backtrack_limit(1000);
    assert!(chained.build().unwrap().is_match("abc").unwrap());
}

#[test]
fn regex_builder_delegate_size_limit() {
    let mut builder = RegexBuilder::new("[a-c]+");
    let chained: &mut RegexBuilder = builder.delegate_size_limit(1 << 20);
    assert!(chained.build().unwrap().is_match("abc").unwrap());
}

#[test]
fn regex_builder_delegate_dfa_size_limit() {
    let mut builder = RegexBuilder::new("[a-c]+");
    let chained: &mut RegexBuilder = builder.delegate_dfa_size_limit(1 << 20);
    assert!(chained.build().unwrap().is_match("abc").unwrap());
}

#[test]
fn regex_builder_delegate_dfa_skip_cache_capacity_check() {
    let mut builder = RegexBuilder::new("[a-c]+");
    let chained: &mut RegexBuilder = builder.delegate_dfa_skip_cache_capacity_check(false);
    assert!(chained.build().unwrap().is_match("abc").unwrap());
}

#[test]
fn regex_builder_max_prog_size() {
    let mut builder = RegexBuilder::new("[a-c]+");
    let chained: &mut RegexBuilder = builder.max_prog_size(1000);
    assert!(chained.build().unwrap().is_match("abc").unwrap());
}

#[test]
fn regex_builder_oniguruma_mode() {
    let mut builder = RegexBuilder::new("[a-c]+");
    let chained: &mut RegexBuilder = builder.oniguruma_mode(true);
    assert!(chained.build().unwrap().is_match("abc").unwrap());
}

#[test]
fn regex_builder_bytes_mode() {
    let mut builder = RegexBuilder::new("[a-c]+");
    let chained: &mut RegexBuilder = builder.bytes_mode(BytesMode::Unicode);
    assert!(chained.build().unwrap().is_match("abc").unwrap());
}

#[test]
fn regex_builder_crlf() {
    let mut builder = RegexBuilder::new("[a-c]+");
    let chained: &mut RegexBuilder = builder.crlf(true);
    assert!(chained.build().unwrap().is_match("abc").unwrap());
}

#[test]
fn regex_builder_find_not_empty() {
    let mut builder = RegexBuilder::new("[a-c]+");
    let chained: &mut RegexBuilder = builder.find_not_empty(true);
    assert!(chained.build().unwrap().is_match("abc").unwrap());
}

#[test]
fn regex_builder_leftmost_longest() {
    let mut builder = RegexBuilder::new("[a-c]+");
    let chained: &mut RegexBuilder = builder.leftmost_longest(true);
    assert!(chained.build().unwrap().is_match("abc").unwrap());
}

#[test]
fn regex_builder_ignore_numbered_groups_when_named_groups_exist() {
    let mut builder = RegexBuilder::new("[a-c]+");
    let chained: &mut RegexBuilder = builder.ignore_numbered_groups_when_named_groups_exist(true);
    assert!(chained.build().unwrap().is_match("abc").unwrap());
}

#[test]
fn regex_builder_seek() {
    let mut builder = RegexBuilder::new("[a-c]+");
    let chained: &mut RegexBuilder = builder.seek(true);
    assert!(chained.build().unwrap().is_match("abc").unwrap());
}

#[test]
fn regex_builder_seek_filter() {
    let mut builder = RegexBuilder::new("[a-c]+");
    let chained: &mut RegexBuilder = builder.seek_filter(seek_pattern_is_useful);
    assert!(chained.build().unwrap().is_match("abc").unwrap());
}

#[test]
fn regex_builder_disallow_empty_match_at_eof_after_newline() {
    let mut builder = RegexBuilder::new("[a-c]+");
    let chained: &mut RegexBuilder = builder.disallow_empty_match_at_eof_after_newline(false);
    assert!(chained.build().unwrap().is_match("abc").unwrap());
}

#[test]
fn regex_builder_allow_input_assertion_overrides() {
    let mut builder = RegexBuilder::new("[a-c]+");
    let chained: &mut RegexBuilder = builder.allow_input_assertion_overrides(true);
    assert!(chained.build().unwrap().is_match("abc").unwrap());
}

#[test]
fn options_builder_case_insensitive() {
    let mut builder = RegexOptionsBuilder::new();
    let chained: &mut RegexOptionsBuilder = builder.case_insensitive(true);
    assert!(chained
        .build("[a-c]+".to_string())
        .unwrap()
        .is_match("abc")
        .unwrap());
}

#[test]
fn options_builder_multi_line() {
    let mut builder = RegexOptionsBuilder::new();
    let chained: &mut RegexOptionsBuilder = builder.multi_line(true);
    assert!(chained
        .build("[a-c]+".to_string())
        .unwrap()
        .is_match("abc")
        .unwrap());
}

#[test]
fn options_builder_ignore_whitespace() {
    let mut builder = RegexOptionsBuilder::new();
    let chained: &mut RegexOptionsBuilder = builder.ignore_whitespace(true);
    assert!(chained
        .build("[a-c]+".to_string())
        .unwrap()
        .is_match("abc")
        .unwrap());
}

#[test]
fn options_builder_dot_matches_new_line() {
    let mut builder = RegexOptionsBuilder::new();
    let chained: &mut RegexOptionsBuilder = builder.dot_matches_new_line(true);
    assert!(chained
        .build("[a-c]+".to_string())
        .unwrap()
        .is_match("abc")
        .unwrap());
}

#[test]
fn options_builder_verbose_mode() {
    let mut builder = RegexOptionsBuilder::new();
    let chained: &mut RegexOptionsBuilder = builder.verbose_mode(true);
    assert!(chained
        .build("[a-c]+".to_string())
        .unwrap()
        .is_match("abc")
        .unwrap());
}

#[test]
fn options_builder_unicode_mode() {
    let mut builder = RegexOptionsBuilder::new();
    let chained: &mut RegexOptionsBuilder = builder.unicode_mode(false);
    assert!(chained
        .build("[a-c]+".to_string())
        .unwrap()
        .is_match("abc")
        .unwrap());
}

#[test]
fn options_builder_backtrack_limit() {
    let mut builder = RegexOptionsBuilder::new();
    let chained: &mut RegexOptionsBuilder = builder.backtrack_limit(1000);
    assert!(chained
        .build("[a-c]+".to_string())
        .unwrap()
        .is_match("abc")
        .unwrap());
}

#[test]
fn options_builder_delegate_size_limit() {
    let mut builder = RegexOptionsBuilder::new();
    let chained: &mut RegexOptionsBuilder = builder.delegate_size_limit(1 << 20);
    assert!(chained
        .build("[a-c]+".to_string())
        .unwrap()
        .is_match("abc")
        .unwrap());
}

#[test]
fn options_builder_delegate_dfa_size_limit() {
    let mut builder = RegexOptionsBuilder::new();
    let chained: &mut RegexOptionsBuilder = builder.delegate_dfa_size_limit(1 << 20);
    assert!(chained
        .build("[a-c]+".to_string())
        .unwrap()
        .is_match("abc")
        .unwrap());
}

#[test]
fn options_builder_delegate_dfa_skip_cache_capacity_check() {
    let mut builder = RegexOptionsBuilder::new();
    let chained: &mut RegexOptionsBuilder = builder.delegate_dfa_skip_cache_capacity_check(false);
    assert!(chained
        .build("[a-c]+".to_string())
        .unwrap()
        .is_match("abc")
        .unwrap());
}

#[test]
fn options_builder_max_prog_size() {
    let mut builder = RegexOptionsBuilder::new();
    let chained: &mut RegexOptionsBuilder = builder.max_prog_size(1000);
    assert!(chained
        .build("[a-c]+".to_string())
        .unwrap()
        .is_match("abc")
        .unwrap());
}

#[test]
fn options_builder_oniguruma_mode() {
    let mut builder = RegexOptionsBuilder::new();
    let chained: &mut RegexOptionsBuilder = builder.oniguruma_mode(true);
    assert!(chained
        .build("[a-c]+".to_string())
        .unwrap()
        .is_match("abc")
        .unwrap());
}

#[test]
fn options_builder_bytes_mode() {
    let mut builder = RegexOptionsBuilder::new();
    let chained: &mut RegexOptionsBuilder = builder.bytes_mode(BytesMode::Unicode);
    assert!(chained
        .build("[a-c]+".to_string())
        .unwrap()
        .is_match("abc")
        .unwrap());
}

#[test]
fn options_builder_crlf() {
    let mut builder = RegexOptionsBuilder::new();
    let chained: &mut RegexOptionsBuilder = builder.crlf(true);
    assert!(chained
        .build("[a-c]+".to_string())
        .unwrap()
        .is_match("abc")
        .unwrap());
}

#[test]
fn options_builder_find_not_empty() {
    let mut builder = RegexOptionsBuilder::new();
    let chained: &mut RegexOptionsBuilder = builder.find_not_empty(true);
    assert!(chained
        .build("[a-c]+".to_string())
        .unwrap()
        .is_match("abc")
        .unwrap());
}

#[test]
fn options_builder_leftmost_longest() {
    let mut builder = RegexOptionsBuilder::new();
    let chained: &mut RegexOptionsBuilder = builder.leftmost_longest(true);
    assert!(chained
        .build("[a-c]+".to_string())
        .unwrap()
        .is_match("abc")
        .unwrap());
}

#[test]
fn options_builder_ignore_numbered_groups_when_named_groups_exist() {
    let mut builder = RegexOptionsBuilder::new();
    let chained: &mut RegexOptionsBuilder =
        builder.ignore_numbered_groups_when_named_groups_exist(true);
    assert!(chained
        .build("[a-c]+".to_string())
        .unwrap()
        .is_match("abc")
        .unwrap());
}

#[test]
fn options_builder_seek() {
    let mut builder = RegexOptionsBuilder::new();
    let chained: &mut RegexOptionsBuilder = builder.seek(true);
    assert!(chained
        .build("[a-c]+".to_string())
        .unwrap()
        .is_match("abc")
        .unwrap());
}

#[test]
fn options_builder_seek_filter() {
    let mut builder = RegexOptionsBuilder::new();
    let chained: &mut RegexOptionsBuilder = builder.seek_filter(seek_pattern_is_useful);
    assert!(chained
        .build("[a-c]+".to_string())
        .unwrap()
        .is_match("abc")
        .unwrap());
}

#[test]
fn options_builder_disallow_empty_match_at_eof_after_newline() {
    let mut builder = RegexOptionsBuilder::new();
    let chained: &mut RegexOptionsBuilder =
        builder.disallow_empty_match_at_eof_after_newline(false);
    assert!(chained
        .build("[a-c]+".to_string())
        .unwrap()
        .is_match("abc")
        .unwrap());
}

#[test]
fn options_builder_allow_input_assertion_overrides() {
    let mut builder = RegexOptionsBuilder::new();
    let chained: &mut RegexOptionsBuilder = builder.allow_input_assertion_overrides(true);
    assert!(chained
        .build("[a-c]+".to_string())
        .unwrap()
        .is_match("abc")
        .unwrap());
}
