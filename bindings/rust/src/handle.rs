//! A handle of the library, with a safe method for each call on it. All unsafe calls of the wrapper stand here.

use crate::error::{CompileError, Error, ParseError, Result, RuntimeError};
use crate::input::Search;
use crate::raw::{self, Handle, Member, Options, Query, Span};
use std::cell::UnsafeCell;

/// A handle of the library, which it frees. It may move to another thread, but only one thread has it at a time: it is not `Sync`, and
/// the library calls nothing of the wrapper but the heap, so no two calls on it overlap.
pub(crate) struct Owned(UnsafeCell<Handle>);

// What a handle holds names no thread, which is proved of the library's type `Handle`, whose two fields these are. Beyond that proof
// this rests on two things: the heap of `raw.rs` may be called from every thread, and frees what another one allocated, as the C
// library's does; and moving an `Owned` orders the calls, as Rust's `Send` asks of whoever moves it.
unsafe impl Send for Owned {}

impl Drop for Owned {
    fn drop(&mut self) {
        // The handle is one that the library made, and no call runs on it.
        unsafe { raw::fancy_regex_raw_free(self.at()) }
    }
}

/// A call of the library that marks bytes in a table.
pub(crate) type Marks =
    unsafe extern "C" fn(*mut Handle, *const u8, usize, *const Options, *mut bool, usize) -> i32;

/// A call of the library that writes what a search finds into a row of so much room, and tells a count.
type WriteRow<T> = unsafe extern "C" fn(
    *mut Handle,
    *const u8,
    usize,
    *const Query,
    *mut T,
    usize,
    *mut usize,
) -> i32;

impl Owned {
    /// The empty handle.
    pub fn empty() -> Owned {
        Owned(UnsafeCell::new(Handle::EMPTY))
    }

    #[inline]
    fn at(&self) -> *mut Handle {
        self.0.get()
    }

    /// Builds a regex into the handle, which is emptied first.
    pub fn build(&self, pattern: &str, options: &Options) -> Result<()> {
        // The pattern and the options are borrowed for the call.
        let status = unsafe {
            raw::fancy_regex_raw_build(self.at(), pattern.as_ptr(), pattern.len(), options)
        };
        self.told(status).map(drop)
    }

    /// Builds a set into the handle, which is emptied first.
    pub fn build_set(&self, patterns: &Listed, options: &Options) -> Result<()> {
        // The patterns, their ends and the options are borrowed for the call.
        let status = unsafe {
            raw::fancy_regex_raw_set_build(
                self.at(),
                patterns.text.as_ptr(),
                patterns.text.len(),
                patterns.ends.as_ptr(),
                patterns.ends.len(),
                options,
            )
        };
        self.told(status).map(drop)
    }

    /// Builds a set of patterns with options of their own, of which there are as many, into the handle, which is emptied first.
    pub fn build_mixed(&self, patterns: &Listed, options: &[Options]) -> Result<()> {
        // As above.
        let status = unsafe {
            raw::fancy_regex_raw_set_build_mixed(
                self.at(),
                patterns.text.as_ptr(),
                patterns.text.len(),
                patterns.ends.as_ptr(),
                patterns.ends.len(),
                options.as_ptr(),
                options.len(),
            )
        };
        self.told(status).map(drop)
    }

    /// Whether there is a match.
    #[inline]
    pub fn is_match(&self, search: &Search<'_>) -> Result<bool> {
        // The text is UTF-8, as the query says, and borrowed for the call, as the query is.
        let status = unsafe {
            raw::fancy_regex_raw_is_match(
                self.at(),
                search.text.as_ptr(),
                search.text.len(),
                &search.query(),
            )
        };
        self.told(status)
    }

    /// The span of the first match.
    #[inline]
    pub fn find(&self, search: &Search<'_>) -> Result<Option<Span>> {
        let mut span = Span::UNSET;
        // The text is UTF-8, as the query says, and borrowed for the call, as the query and the span are.
        let status = unsafe {
            raw::fancy_regex_raw_find(
                self.at(),
                search.text.as_ptr(),
                search.text.len(),
                &search.query(),
                &mut span,
            )
        };
        Ok(self.told(status)?.then_some(span))
    }

    /// Writes a row of matches, and returns how many: the first match of the search, and those of searches that begin where the match
    /// before them ended. An empty match is the last of its row. There are none only where the first search has no match.
    #[inline]
    pub fn find_row(&self, search: &Search<'_>, spans: &mut [Span]) -> Result<usize> {
        self.write_row(raw::fancy_regex_raw_find_row, search, spans)
    }

    /// Writes the spans of the groups of the first match, and tells whether there is one.
    pub fn captures(&self, search: &Search<'_>, spans: &mut [Span]) -> Result<bool> {
        // As in `find`; the room is that of the slice.
        let status = unsafe {
            raw::fancy_regex_raw_captures(
                self.at(),
                search.text.as_ptr(),
                search.text.len(),
                &search.query(),
                spans.as_mut_ptr(),
                spans.len(),
            )
        };
        self.told(status)
    }

    /// The groups of the members of a set that match at the earliest place, in the order of the members. There is room for so many at
    /// first; a search that finds more is made again.
    pub fn set_captures(&self, search: &Search<'_>, room: usize) -> Result<Vec<Member>> {
        let mut groups = vec![Member::NONE; room];
        let mut count = self.set_captures_into(search, &mut groups)?;
        if count > groups.len() {
            groups.resize(count, Member::NONE);
            count = self.set_captures_into(search, &mut groups)?;
        }
        groups.truncate(count);
        Ok(groups)
    }

    /// Writes as many groups as there is room for, and returns how many there are.
    fn set_captures_into(&self, search: &Search<'_>, groups: &mut [Member]) -> Result<usize> {
        self.write_row(raw::fancy_regex_raw_set_captures, search, groups)
    }

    /// Has `call` write into the row, and returns the count that it tells.
    #[inline]
    fn write_row<T>(&self, call: WriteRow<T>, search: &Search<'_>, row: &mut [T]) -> Result<usize> {
        let mut count = 0;
        // As in `find`; the room is that of the slice.
        let status = unsafe {
            call(
                self.at(),
                search.text.as_ptr(),
                search.text.len(),
                &search.query(),
                row.as_mut_ptr(),
                row.len(),
                &mut count,
            )
        };
        self.told(status)?;
        Ok(count)
    }

    /// The text with each match replaced by a template.
    pub fn replace_all(&self, text: &str, template: &str) -> Result<String> {
        let room = text.len() + text.len() / 4 + 64;
        filled(room, |out| {
            let mut length = 0;
            // The text is UTF-8, as the call says; all is borrowed for the call, and the room is that of the slice.
            let status = unsafe {
                raw::fancy_regex_raw_replace_all(
                    self.at(),
                    text.as_ptr(),
                    text.len(),
                    true,
                    template.as_ptr(),
                    template.len(),
                    out.as_mut_ptr(),
                    out.len(),
                    &mut length,
                )
            };
            self.told(status)?;
            Ok(length)
        })
    }

    /// The names of the groups, a line for each; the line of a group without a name is empty.
    pub fn group_lines(&self) -> Result<String> {
        filled(64, |out| {
            let mut length = 0;
            // The room is that of the slice.
            let status = unsafe {
                raw::fancy_regex_raw_group_names(
                    self.at(),
                    out.as_mut_ptr(),
                    out.len(),
                    &mut length,
                )
            };
            self.told(status)?;
            Ok(length)
        })
    }

    /// The first fault of a template from the left.
    pub fn check_template(&self, template: &str, is_python: bool) -> Result<()> {
        // The template is borrowed for the call.
        let status = unsafe {
            raw::fancy_regex_raw_template_check(
                self.at(),
                template.as_ptr(),
                template.len(),
                is_python,
            )
        };
        self.told(status).map(drop)
    }

    /// Marks bytes of a pattern in a table, and tells whether they are known. The handle is emptied first.
    pub fn mark(
        &self,
        marks: Marks,
        pattern: &str,
        options: &Options,
        table: &mut [bool; 256],
    ) -> Result<bool> {
        // The pattern and the options are borrowed for the call, and the room is that of the table.
        let status = unsafe {
            marks(
                self.at(),
                pattern.as_ptr(),
                pattern.len(),
                options,
                table.as_mut_ptr(),
                table.len(),
            )
        };
        self.told(status)
    }

    /// Whether the call did what was asked and there is an answer; else the error that its status tells.
    #[inline]
    fn told(&self, status: i32) -> Result<bool> {
        match status {
            raw::DONE => Ok(true),
            raw::NO_MATCH => Ok(false),
            other => Err(self.error_of(other)),
        }
    }

    /// The error that the status of the last call tells.
    #[cold]
    fn error_of(&self, status: i32) -> Error {
        match status {
            raw::NO_PATTERN => {
                let cause = ParseError::of(&self.fault_text());
                Error::ParseError(self.fault_place(), cause)
            }
            raw::REFUSED => CompileError::of(&self.fault_text()).into(),
            raw::LIMIT => RuntimeError::of(&self.fault_text()).into(),
            raw::MEMORY => Error::Memory,
            other => {
                unreachable!("status {other} of a handle and a text that are as they should be")
            }
        }
    }

    fn fault_place(&self) -> usize {
        unsafe { raw::fancy_regex_raw_fault_place(self.at()) }
    }

    /// The text of the last fault of this handle.
    fn fault_text(&self) -> String {
        let text = filled(64, |out| {
            // The room is that of the slice.
            let length =
                unsafe { raw::fancy_regex_raw_fault_text(self.at(), out.as_mut_ptr(), out.len()) };
            Ok(length)
        });
        text.unwrap_or_default()
    }
}

/// The text as a pattern that matches exactly it.
pub(crate) fn escaped(text: &str) -> Result<String> {
    filled(text.len() + 16, |out| {
        let mut length = 0;
        // The text is borrowed for the call, and the room is that of the slice.
        let status = unsafe {
            raw::fancy_regex_raw_escape(
                text.as_ptr(),
                text.len(),
                out.as_mut_ptr(),
                out.len(),
                &mut length,
            )
        };
        if status != raw::DONE {
            return Err(Error::Memory);
        }
        Ok(length)
    })
}

/// The text that a call writes into as much room as there is, and whose length it returns; with room for so many bytes at first.
fn filled(room: usize, write: impl Fn(&mut [u8]) -> Result<usize>) -> Result<String> {
    let mut text = vec![0; room];
    let mut length = write(&mut text)?;
    if length > text.len() {
        text.resize(length, 0);
        length = write(&mut text)?;
    }
    text.truncate(length);
    Ok(String::from_utf8(text).expect("the text is UTF-8"))
}

/// Patterns one after another, and where each of them ends.
pub(crate) struct Listed {
    text: String,
    ends: Vec<usize>,
}

impl Listed {
    pub fn of<'p>(patterns: impl Iterator<Item = &'p str>) -> Listed {
        let mut listed = Listed {
            text: String::new(),
            ends: Vec::new(),
        };
        for pattern in patterns {
            listed.text.push_str(pattern);
            listed.ends.push(listed.text.len());
        }
        listed
    }
}

impl Search<'_> {
    /// The query of this search. Its text is a `str`, so it is UTF-8.
    #[inline]
    fn query(&self) -> Query {
        Query {
            position: self.position,
            is_utf8: true,
            continues: self.continues,
        }
    }
}
