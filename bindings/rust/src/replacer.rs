use crate::captures::Captures;
use std::borrow::Cow;

/// What stands in the place of a match: a template with `$name` and `$1`, a text as it stands, or what a function answers. Templates are
/// the texts `&str`, `String`, `&String`, `Cow<str>` and `&Cow<str>`.
///
/// ```
/// use proved_fancy_regex::{Captures, Regex, Replacer};
///
/// struct Count(usize);
///
/// impl Replacer for Count {
///     fn replace_append(&mut self, _groups: &Captures<'_, str>, to: &mut String) {
///         self.0 += 1;
///         to.push_str(&self.0.to_string());
///     }
/// }
/// let regex = Regex::new("[a-z]").unwrap();
/// assert_eq!(regex.replace_all("a-b-c", Count(0)), "1-2-3");
/// ```
pub trait Replacer {
    /// Appends what stands in the place of the match. Group 0 of the groups is always there.
    ///
    /// ```
    /// use proved_fancy_regex::{Regex, Replacer};
    ///
    /// let groups = Regex::new("a(.)").unwrap().captures("ab").unwrap().unwrap();
    /// let mut text = String::from("-");
    /// "$1$1".replace_append(&groups, &mut text);
    /// assert_eq!(text, "-bb");
    /// ```
    fn replace_append(&mut self, groups: &Captures<'_, str>, to: &mut String);

    /// The text that stands in the place of each match, if it is the same for all of them. Then the groups are not searched for.
    ///
    /// ```
    /// use proved_fancy_regex::Replacer;
    ///
    /// assert_eq!("-".no_expansion().as_deref(), Some("-"));
    /// assert_eq!("$1".no_expansion(), None);
    /// ```
    fn no_expansion(&mut self) -> Option<Cow<'_, str>> {
        None
    }

    /// The template that says what is appended, if the replacer is one.
    #[doc(hidden)]
    fn template(&self) -> Option<&str> {
        None
    }

    /// A replacer that uses this one, so that it can be used again.
    ///
    /// ```
    /// use proved_fancy_regex::{Regex, Replacer};
    ///
    /// fn replace_twice<R: Replacer>(regex: &Regex, text: &str, mut replacer: R) -> String {
    ///     let once = regex.replace(text, replacer.by_ref());
    ///     regex.replace(&once, replacer.by_ref()).into_owned()
    /// }
    /// assert_eq!(replace_twice(&Regex::new("a").unwrap(), "aaa", "b"), "bba");
    /// ```
    fn by_ref(&mut self) -> ReplacerRef<'_, Self> {
        ReplacerRef(self)
    }
}

/// A replacer that is lent, from [`Replacer::by_ref`].
///
/// ```
/// use proved_fancy_regex::{Regex, Replacer, ReplacerRef};
///
/// let mut template = "b";
/// let lent: ReplacerRef<'_, &str> = template.by_ref();
/// assert_eq!(Regex::new("a").unwrap().replace("a", lent), "b");
/// ```
#[derive(Debug)]
pub struct ReplacerRef<'a, R: ?Sized>(&'a mut R);

impl<R: Replacer + ?Sized> Replacer for ReplacerRef<'_, R> {
    fn replace_append(&mut self, groups: &Captures<'_, str>, to: &mut String) {
        self.0.replace_append(groups, to);
    }

    fn no_expansion(&mut self) -> Option<Cow<'_, str>> {
        self.0.no_expansion()
    }

    fn template(&self) -> Option<&str> {
        self.0.template()
    }
}

/// A text in which no `$` begins a reference.
///
/// ```
/// use proved_fancy_regex::{NoExpand, Regex};
///
/// assert_eq!(Regex::new("a").unwrap().replace("a", NoExpand("$0")), "$0");
/// ```
#[derive(Clone, Copy, Debug)]
pub struct NoExpand<'t>(pub &'t str);

impl Replacer for NoExpand<'_> {
    fn replace_append(&mut self, _groups: &Captures<'_, str>, to: &mut String) {
        to.push_str(self.0);
    }

    fn no_expansion(&mut self) -> Option<Cow<'_, str>> {
        Some(Cow::Borrowed(self.0))
    }
}

/// Templates: texts in which `$` begins a reference.
macro_rules! templates {
    ($($text:ty),*) => {
        $(impl Replacer for $text {
            fn replace_append(&mut self, groups: &Captures<'_, str>, to: &mut String) {
                groups.expand(self, to);
            }

            fn no_expansion(&mut self) -> Option<Cow<'_, str>> {
                without_references(self)
            }

            fn template(&self) -> Option<&str> {
                Some(self)
            }
        })*
    };
}

templates!(&str, &String, String, Cow<'_, str>, &Cow<'_, str>);

/// The text, if no `$` is in it.
fn without_references(text: &str) -> Option<Cow<'_, str>> {
    (!text.contains('$')).then_some(Cow::Borrowed(text))
}

impl<F: FnMut(&Captures<'_, str>) -> T, T: AsRef<str>> Replacer for F {
    fn replace_append(&mut self, groups: &Captures<'_, str>, to: &mut String) {
        to.push_str(self(groups).as_ref());
    }
}
