use crate::captures::Captures;
use crate::error::Result;
use crate::handle::escaped;
use crate::regex::Regex;
use std::borrow::Cow;
use std::fmt;
use std::io;

/// Expands, checks and escapes templates. In the default form `$name`, `${name}` and the same with a number stand for the text of a group,
/// and `$$` for `$`; in the form of Python `\\g<name>`, `\\g<1>` and `\\1` do, and `\\\\` stands for `\\`. A group that does not exist or
/// took no part has no text. A sign that begins nothing stands for itself.
///
/// ```
/// use proved_fancy_regex::{Expander, Regex};
///
/// let regex = Regex::new("(?<year>[0-9]+)-([0-9]+)").unwrap();
/// let groups = regex.captures("2018-04").unwrap().unwrap();
/// assert_eq!(Expander::python().expansion(r"\2 of \g<year>", &groups), "04 of 2018");
/// ```
#[derive(Clone, Copy, Debug)]
pub struct Expander {
    is_python: bool,
}

impl Default for Expander {
    /// The expander of the default form, with `$`.
    fn default() -> Expander {
        Expander { is_python: false }
    }
}

impl Expander {
    /// The expander of the form of Python, with `\\`: `\g<name>`, `\g<1>` and `\1` are references, and a number is as long as it can be.
    ///
    /// ```
    /// use proved_fancy_regex::{Expander, Regex};
    ///
    /// let groups = Regex::new("(?<a>.)(.)").unwrap().captures("xy").unwrap().unwrap();
    /// assert_eq!(Expander::python().expansion(r"\2\g<a>\\", &groups), r"yx\");
    /// ```
    pub fn python() -> Expander {
        Expander { is_python: true }
    }

    /// Accepts a template whose references are all to groups of the regex, and whose signs all begin something.
    ///
    /// ```
    /// use proved_fancy_regex::{CompileError, Expander, Regex};
    ///
    /// let regex = Regex::new("(a)").unwrap();
    /// assert_eq!(Expander::default().check("$1$$", &regex), Ok(()));
    /// assert_eq!(Expander::default().check("$2", &regex), Err(CompileError::InvalidBackref(2).into()));
    /// ```
    ///
    /// # Errors
    ///
    /// That of the first fault from the left: the `CompileError`s `InvalidBackref` for a number that no group has, `NamedBackrefOnly` for
    /// a number above 0 where groups have names, and `InvalidGroupNameBackref` for a name that no group has; a `ParseError` for a sign that
    /// begins nothing. `Memory` where memory runs out.
    pub fn check(&self, template: &str, regex: &Regex) -> Result<()> {
        regex.check_template(template, self.is_python)
    }

    /// The text with each sign doubled: a template that expands to the text. A text without a sign is borrowed.
    ///
    /// ```
    /// assert_eq!(proved_fancy_regex::Expander::default().escape("5 $"), "5 $$");
    /// ```
    pub fn escape<'t>(&self, text: &'t str) -> Cow<'t, str> {
        let sign = self.sign();
        if !text.contains(sign) {
            return Cow::Borrowed(text);
        }
        Cow::Owned(text.replace(sign, &String::from_iter([sign, sign])))
    }

    #[doc(hidden)]
    #[deprecated(note = "`escape` is its name")]
    pub fn quote<'t>(&self, text: &'t str) -> Cow<'t, str> {
        self.escape(text)
    }

    /// What the template stands for in a match.
    ///
    /// ```
    /// use proved_fancy_regex::{Expander, Regex};
    ///
    /// let groups = Regex::new("(.)(.)").unwrap().captures("xy").unwrap().unwrap();
    /// assert_eq!(Expander::default().expansion("$2$1", &groups), "yx");
    /// ```
    pub fn expansion(&self, template: &str, groups: &Captures<'_, str>) -> String {
        let mut text = String::new();
        self.append_expansion(&mut text, template, groups);
        text
    }

    /// Appends what the template stands for in a match.
    ///
    /// ```
    /// use proved_fancy_regex::{Expander, Regex};
    ///
    /// let groups = Regex::new("(.)(.)").unwrap().captures("xy").unwrap().unwrap();
    /// let mut text = String::from("-");
    /// Expander::default().append_expansion(&mut text, "$2$1", &groups);
    /// assert_eq!(text, "-yx");
    /// ```
    pub fn append_expansion(&self, to: &mut String, template: &str, groups: &Captures<'_, str>) {
        let sign = self.sign();
        let mut rest = template;
        while let Some(at) = rest.find(sign) {
            to.push_str(&rest[..at]);
            rest = self.reference(&rest[at + sign.len_utf8()..], groups, to);
        }
        to.push_str(rest);
    }

    /// Writes what the template stands for in a match.
    ///
    /// ```
    /// use proved_fancy_regex::{Expander, Regex};
    ///
    /// let groups = Regex::new("(.)(.)").unwrap().captures("xy").unwrap().unwrap();
    /// let mut bytes = Vec::new();
    /// Expander::default().write_expansion(&mut bytes, "$2$1", &groups).unwrap();
    /// assert_eq!(bytes, b"yx");
    /// ```
    ///
    /// # Errors
    ///
    /// Those of the writer.
    pub fn write_expansion(
        &self,
        mut to: impl io::Write,
        template: &str,
        groups: &Captures<'_, str>,
    ) -> io::Result<()> {
        to.write_all(self.expansion(template, groups).as_bytes())
    }

    /// Appends what the template stands for in a match, in UTF-8. It never fails.
    ///
    /// ```
    /// use proved_fancy_regex::{Expander, Regex};
    ///
    /// let groups = Regex::new("(.)(.)").unwrap().captures("xy").unwrap().unwrap();
    /// let mut bytes = Vec::new();
    /// Expander::default().write_expansion_vec(&mut bytes, "$2$1", &groups).unwrap();
    /// assert_eq!(bytes, b"yx");
    /// ```
    ///
    /// # Errors
    ///
    /// None.
    pub fn write_expansion_vec(
        &self,
        to: &mut Vec<u8>,
        template: &str,
        groups: &Captures<'_, str>,
    ) -> fmt::Result {
        to.extend_from_slice(self.expansion(template, groups).as_bytes());
        Ok(())
    }

    fn sign(&self) -> char {
        if self.is_python {
            '\\'
        } else {
            '$'
        }
    }

    /// Appends what the text after a sign refers to, and returns the rest.
    fn reference<'t>(&self, tail: &'t str, groups: &Captures<'_, str>, to: &mut String) -> &'t str {
        if let Some(rest) = tail.strip_prefix(self.sign()) {
            to.push(self.sign());
            return rest;
        }
        let (name, rest) = match self.delimited(tail).or_else(|| self.bare(tail)) {
            Some(parts) => parts,
            None => {
                to.push(self.sign());
                return tail;
            }
        };
        let by_number = || groups.get(name.parse().ok()?);
        if let Some(found) = groups.name(name).or_else(by_number) {
            to.push_str(found.as_str());
        }
        rest
    }

    /// A name between its signs, and the rest of the text.
    fn delimited<'t>(&self, tail: &'t str) -> Option<(&'t str, &'t str)> {
        let (open, close) = if self.is_python {
            ("g<", ">")
        } else {
            ("{", "}")
        };
        let (name, rest) = leading(tail.strip_prefix(open)?, is_name_part)?;
        Some((name, rest.strip_prefix(close)?))
    }

    /// A name or a number that no sign ends, and the rest: the longest name, or in the form of Python the longest number below 2^64.
    fn bare<'t>(&self, tail: &'t str) -> Option<(&'t str, &'t str)> {
        if !self.is_python {
            return leading(tail, is_name_part);
        }
        let (digits, _) = leading(tail, |c| c.is_ascii_digit())?;
        let length = (1..=digits.len())
            .rev()
            .find(|&n| digits[..n].parse::<u64>().is_ok())?;
        Some(tail.split_at(length))
    }
}

fn is_name_part(c: char) -> bool {
    c == '_' || c.is_alphanumeric()
}

/// The longest beginning of such characters, if there is one, and the rest.
fn leading(tail: &str, is_part: impl Fn(char) -> bool) -> Option<(&str, &str)> {
    let end = tail.find(|c| !is_part(c)).unwrap_or(tail.len());
    (end > 0).then(|| tail.split_at(end))
}

/// The text as a pattern that matches exactly it; a text without a character that has a meaning in patterns is borrowed.
///
/// ```
/// assert_eq!(proved_fancy_regex::escape("a.b"), r"a\.b");
/// ```
///
/// # Panics
///
/// If memory runs out.
pub fn escape(text: &str) -> Cow<'_, str> {
    match escaped(text) {
        Ok(pattern) if pattern == text => Cow::Borrowed(text),
        Ok(pattern) => Cow::Owned(pattern),
        Err(error) => panic!("{error}"),
    }
}
