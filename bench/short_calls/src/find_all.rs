//! The library's call for all matches of a text, as C calls it.

use std::ffi::c_void;
use std::ptr;

#[repr(C)]
struct Handle {
    at: *mut c_void,
    live: bool,
}

#[repr(C)]
#[derive(Clone, Copy)]
struct Span {
    start: usize,
    end: usize,
}

#[repr(C)]
struct Options {
    backtrack_limit: usize,
    max_prog_size: usize,
    has_max_prog_size: bool,
    case_insensitive: bool,
    multi_line: bool,
    ignore_whitespace: bool,
    dot_matches_new_line: bool,
    crlf: bool,
    unicode_mode: bool,
    others: [bool; 5],
}

/// The status of a call that did what was asked.
const DONE: i32 = 1;

extern "C" {
    fn fancy_regex_raw_build(
        handle: *mut Handle,
        pattern: *const u8,
        length: usize,
        options: *const Options,
    ) -> i32;
    fn fancy_regex_raw_find_all(
        handle: *mut Handle,
        text: *const u8,
        length: usize,
        is_utf8: bool,
        spans: *mut Span,
        room: usize,
        count: *mut usize,
    ) -> i32;
}

/// A call that answers the sum of the ends of all matches of a text of at most so many matches. What it owns is never freed.
pub fn sum_of_ends(pattern: &str, text: String, most: usize) -> impl Fn() -> usize {
    let options = Options {
        backtrack_limit: 1_000_000,
        max_prog_size: 0,
        has_max_prog_size: false,
        case_insensitive: false,
        multi_line: false,
        ignore_whitespace: false,
        dot_matches_new_line: false,
        crlf: false,
        unicode_mode: true,
        others: [false; 5],
    };
    let handle = Box::leak(Box::new(Handle {
        at: ptr::null_mut(),
        live: false,
    })) as *mut Handle;
    let status =
        unsafe { fancy_regex_raw_build(handle, pattern.as_ptr(), pattern.len(), &options) };
    assert_eq!(status, DONE, "{pattern} is built");
    let spans = vec![Span { start: 0, end: 0 }; most].leak().as_mut_ptr();
    move || {
        let mut count = 0;
        // The text is UTF-8, and the handle and the spans are used by this call alone.
        let status = unsafe {
            fancy_regex_raw_find_all(
                handle,
                text.as_ptr(),
                text.len(),
                true,
                spans,
                most,
                &mut count,
            )
        };
        assert!(status == DONE && count <= most);
        (0..count)
            .map(|place| unsafe { (*spans.add(place)).end })
            .sum()
    }
}
