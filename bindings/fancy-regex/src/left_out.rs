//! What of the crate is not there: each block must not compile. All are of the tree of a pattern, which the library for C does not hand
//! out, or of the inside of the crate.
//!
//! ```compile_fail
//! let tree = fancy_regex::Expr::parse_tree("a").unwrap();
//! ```
//!
//! ```compile_fail
//! let tree = fancy_regex::Expr::parse_tree_with_flags("a", 0).unwrap();
//! ```
//!
//! ```compile_fail
//! fn is_empty(expr: &fancy_regex::Expr) -> bool {
//!     matches!(expr, fancy_regex::Expr::Empty)
//! }
//! ```
//!
//! ```compile_fail
//! let mut text = String::new();
//! fancy_regex::Expr::Empty.to_str(&mut text, 0);
//! ```
//!
//! ```compile_fail
//! let children: fancy_regex::ExprChildrenIter<'_> = fancy_regex::Expr::Empty.children_iter();
//! ```
//!
//! ```compile_fail
//! let children: fancy_regex::ExprChildrenIterMut<'_> = fancy_regex::Expr::Empty.children_iter_mut();
//! ```
//!
//! ```compile_fail
//! assert!(!fancy_regex::Expr::Empty.has_descendant(|expr| expr.is_leaf_node()));
//! ```
//!
//! ```compile_fail
//! let nodes = (fancy_regex::Assertion::StartText, fancy_regex::LookAround::LookAhead);
//! ```
//!
//! ```compile_fail
//! let nodes = (fancy_regex::Absent::Clear, fancy_regex::BacktrackingControlVerb::Fail);
//! ```
//!
//! ```compile_fail
//! let node = fancy_regex::AstNode::SubroutineCall(fancy_regex::CaptureGroupTarget::ByNumber(0));
//! ```
//!
//! ```compile_fail
//! use fancy_regex::internal::{compile, run_trace, Insn, Prog};
//! let shown = fancy_regex::DebugRegex(&fancy_regex::Regex::new("a").unwrap()).to_string();
//! ```
