//! The functions of the static library, as `bindings/c/fancy_regex.h` declares them, and the heap that it asks for memory.

use std::ffi::c_void;
use std::ptr;

/// What a handle is in memory; empty, or made by the library.
#[repr(C)]
pub struct Handle {
    at: *mut c_void,
    live: bool,
}

impl Handle {
    pub const EMPTY: Handle = Handle {
        at: ptr::null_mut(),
        live: false,
    };
}

#[repr(C)]
#[derive(Clone, Copy, Debug, PartialEq, Eq)]
pub struct Span {
    pub start: usize,
    pub end: usize,
}

impl Span {
    pub const UNSET: Span = Span {
        start: usize::MAX,
        end: usize::MAX,
    };
}

#[repr(C)]
#[derive(Clone, Copy, Debug, PartialEq, Eq)]
pub struct Member {
    pub pattern: usize,
    pub start: usize,
    pub end: usize,
}

impl Member {
    pub const NONE: Member = Member {
        pattern: 0,
        start: 0,
        end: 0,
    };

    pub fn span(&self) -> Span {
        Span {
            start: self.start,
            end: self.end,
        }
    }
}

#[repr(C)]
#[derive(Clone, Copy, Debug)]
pub struct Options {
    pub backtrack_limit: usize,
    pub max_prog_size: usize,
    pub has_max_prog_size: bool,
    pub case_insensitive: bool,
    pub multi_line: bool,
    pub ignore_whitespace: bool,
    pub dot_matches_new_line: bool,
    pub crlf: bool,
    pub unicode_mode: bool,
    pub find_not_empty: bool,
    pub ignore_numbered_groups: bool,
    pub seek: bool,
    pub oniguruma_mode: bool,
    pub leftmost_longest: bool,
}

impl Options {
    pub const DEFAULT: Options = Options {
        backtrack_limit: 1_000_000,
        max_prog_size: 0,
        has_max_prog_size: false,
        case_insensitive: false,
        multi_line: false,
        ignore_whitespace: false,
        dot_matches_new_line: false,
        crlf: false,
        unicode_mode: true,
        find_not_empty: false,
        ignore_numbered_groups: false,
        seek: false,
        oniguruma_mode: false,
        leftmost_longest: false,
    };
}

#[repr(C)]
pub struct Query {
    pub position: usize,
    pub is_utf8: bool,
    pub continues: bool,
}

pub const NO_MATCH: i32 = 0;
pub const DONE: i32 = 1;
pub const NO_PATTERN: i32 = -6;
pub const REFUSED: i32 = -7;
pub const LIMIT: i32 = -8;
pub const MEMORY: i32 = -9;

extern "C" {
    pub fn fancy_regex_raw_build(
        handle: *mut Handle,
        pattern: *const u8,
        length: usize,
        options: *const Options,
    ) -> i32;
    pub fn fancy_regex_raw_free(handle: *mut Handle);
    pub fn fancy_regex_raw_find(
        handle: *mut Handle,
        text: *const u8,
        length: usize,
        query: *const Query,
        span: *mut Span,
    ) -> i32;
    pub fn fancy_regex_raw_find_row(
        handle: *mut Handle,
        text: *const u8,
        length: usize,
        query: *const Query,
        spans: *mut Span,
        room: usize,
        count: *mut usize,
    ) -> i32;
    pub fn fancy_regex_raw_is_match(
        handle: *mut Handle,
        text: *const u8,
        length: usize,
        query: *const Query,
    ) -> i32;
    pub fn fancy_regex_raw_captures(
        handle: *mut Handle,
        text: *const u8,
        length: usize,
        query: *const Query,
        spans: *mut Span,
        room: usize,
    ) -> i32;
    pub fn fancy_regex_raw_replace_all(
        handle: *mut Handle,
        text: *const u8,
        length: usize,
        is_utf8: bool,
        with: *const u8,
        with_length: usize,
        out: *mut u8,
        room: usize,
        out_length: *mut usize,
    ) -> i32;
    pub fn fancy_regex_raw_set_build(
        handle: *mut Handle,
        patterns: *const u8,
        length: usize,
        ends: *const usize,
        count: usize,
        options: *const Options,
    ) -> i32;
    pub fn fancy_regex_raw_set_captures(
        handle: *mut Handle,
        text: *const u8,
        length: usize,
        query: *const Query,
        groups: *mut Member,
        room: usize,
        count: *mut usize,
    ) -> i32;
    pub fn fancy_regex_raw_set_build_mixed(
        handle: *mut Handle,
        patterns: *const u8,
        length: usize,
        ends: *const usize,
        count: usize,
        options: *const Options,
        options_count: usize,
    ) -> i32;
    pub fn fancy_regex_raw_start_bytes(
        handle: *mut Handle,
        pattern: *const u8,
        length: usize,
        options: *const Options,
        table: *mut bool,
        room: usize,
    ) -> i32;
    pub fn fancy_regex_raw_required_bytes(
        handle: *mut Handle,
        pattern: *const u8,
        length: usize,
        options: *const Options,
        table: *mut bool,
        room: usize,
    ) -> i32;
    pub fn fancy_regex_raw_template_check(
        handle: *mut Handle,
        template: *const u8,
        length: usize,
        is_python: bool,
    ) -> i32;
    pub fn fancy_regex_raw_escape(
        text: *const u8,
        length: usize,
        out: *mut u8,
        room: usize,
        out_length: *mut usize,
    ) -> i32;
    pub fn fancy_regex_raw_group_names(
        handle: *mut Handle,
        out: *mut u8,
        room: usize,
        out_length: *mut usize,
    ) -> i32;
    pub fn fancy_regex_raw_fault_place(handle: *mut Handle) -> usize;
    pub fn fancy_regex_raw_fault_text(handle: *mut Handle, out: *mut u8, room: usize) -> usize;
}

mod heap {
    use std::ffi::c_void;
    use std::ptr;

    extern "C" {
        fn malloc(size: usize) -> *mut c_void;
        fn realloc(block: *mut c_void, size: usize) -> *mut c_void;
        fn free(block: *mut c_void);
    }

    /// Whether there was memory, and where.
    #[repr(C)]
    pub struct Tried {
        ok: bool,
        p: *mut c_void,
    }

    fn tried(p: *mut c_void) -> Tried {
        let ok = !p.is_null();
        let p = if ok {
            p
        } else {
            ptr::NonNull::dangling().as_ptr()
        };
        Tried { ok, p }
    }

    #[no_mangle]
    unsafe extern "C" fn rattle_alloc(size: usize, align: usize) -> Tried {
        tried(malloc(if size != 0 { size } else { align }))
    }

    #[no_mangle]
    unsafe extern "C" fn rattle_realloc(
        block: *mut c_void,
        _kept: usize,
        size: usize,
        align: usize,
    ) -> Tried {
        tried(realloc(block, if size != 0 { size } else { align }))
    }

    #[no_mangle]
    unsafe extern "C" fn rattle_dealloc(block: *mut c_void) {
        free(block);
    }
}
