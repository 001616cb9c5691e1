//! Times calls on short texts by two libraries in one run, and counts the blocks of memory that each asks for: the wrapper of the proved
//! port, and the crate fancy-regex. Tokenizers are timed beside the library's own call for all matches too. Prints a table in Markdown.

mod counted_heap;
mod find_all;
mod tokens;

use std::hint::black_box;

extern "C" {
    /// The processor time of this process so far, in millionths of a second.
    fn clock() -> std::os::raw::c_long;
}

/// A call of the wrapper that is timed beside another. Each answers a number, which has to be the same.
pub struct Call {
    /// What stands in the table.
    pub name: String,
    /// What the time has to be at most.
    pub goal: Goal,
    pub ours: Box<dyn Fn() -> usize>,
    pub other: Box<dyn Fn() -> usize>,
}

/// The goal of a call.
pub enum Goal {
    /// So many nanoseconds, and no block of memory.
    Nanoseconds(f64),
    /// So much of the time of the crate, which is the other.
    OfTheCrate(f64),
    /// The time of one call of `fancy_regex_find_all`, which is the other.
    OfFindAll,
}

/// The time of a call in nanoseconds, and the blocks of memory that it asks for.
#[derive(Clone, Copy)]
struct Cost {
    nanoseconds: f64,
    blocks: f64,
}

/// The processor time of this process so far, in nanoseconds.
fn processor_nanoseconds() -> f64 {
    (unsafe { clock() }) as f64 * 1e3
}

fn cost(call: &dyn Fn() -> usize, repeats: usize) -> Cost {
    let before = counted_heap::blocks();
    let start = processor_nanoseconds();
    for _ in 0..repeats {
        black_box(call());
    }
    let passed = processor_nanoseconds() - start;
    Cost {
        nanoseconds: passed / repeats as f64,
        blocks: (counted_heap::blocks() - before) as f64 / repeats as f64,
    }
}

/// The number of calls that take about ten milliseconds.
fn repeats_of(call: &dyn Fn() -> usize) -> usize {
    let mut repeats = 1;
    while cost(call, repeats).nanoseconds * (repeats as f64) < 1e7 {
        repeats *= 2;
    }
    repeats
}

/// The least costs of both in so many rounds, in which they take turns.
fn costs(call: &Call, rounds: usize) -> (Cost, Cost) {
    let repeats = [repeats_of(&call.ours), repeats_of(&call.other)];
    let mut least = [cost(&call.ours, repeats[0]), cost(&call.other, repeats[1])];
    for _ in 1..rounds {
        let next = [cost(&call.ours, repeats[0]), cost(&call.other, repeats[1])];
        for (least, next) in least.iter_mut().zip(next) {
            least.nanoseconds = least.nanoseconds.min(next.nanoseconds);
            least.blocks = least.blocks.min(next.blocks);
        }
    }
    (least[0], least[1])
}

impl Goal {
    fn is_met(&self, ours: Cost, other: Cost) -> bool {
        match self {
            Goal::Nanoseconds(most) => ours.nanoseconds <= *most && ours.blocks == 0.0,
            Goal::OfTheCrate(most) => ours.nanoseconds <= most * other.nanoseconds,
            Goal::OfFindAll => ours.nanoseconds <= other.nanoseconds,
        }
    }

    fn text(&self) -> String {
        match self {
            Goal::Nanoseconds(most) => format!("{most} ns, no block"),
            Goal::OfTheCrate(most) => format!("{most} of the crate"),
            Goal::OfFindAll => "`fancy_regex_find_all`".to_string(),
        }
    }
}

/// `is_match` of a pattern on a text.
fn is_match(pattern: &str, text: &'static str, goal: Goal) -> Call {
    let ours = proved_fancy_regex::Regex::new(pattern).unwrap();
    let theirs = fancy_regex::Regex::new(pattern).unwrap();
    Call {
        name: format!("`{pattern}`, `is_match` on `{text}`"),
        goal,
        ours: Box::new(move || ours.is_match(black_box(text)).unwrap() as usize),
        other: Box::new(move || theirs.is_match(black_box(text)).unwrap() as usize),
    }
}

fn main() {
    let rounds = std::env::args()
        .nth(1)
        .map_or(7, |word| word.parse().expect("ROUNDS is a number"));
    let mut calls = vec![
        is_match("fox", "brown fox!", Goal::Nanoseconds(60.0)),
        is_match(r"\d+", "abcdefg 12", Goal::Nanoseconds(60.0)),
        is_match("^[a-z ]+$", "brown foxs", Goal::Nanoseconds(60.0)),
        is_match(r"^(\w+)\s(\w+)", "brown foxs", Goal::Nanoseconds(60.0)),
        is_match(r"(?=.*\d)[a-z]+", "brown fox1", Goal::OfTheCrate(1.0)),
    ];
    calls.extend(tokens::calls());
    println!(
        "| call | ours, ns | its blocks | the other, ns | its blocks | ours over it | goal | met |"
    );
    println!("|---|---|---|---|---|---|---|---|");
    for call in &calls {
        assert_eq!((call.ours)(), (call.other)(), "{}", call.name);
        let (ours, other) = costs(call, rounds);
        println!(
            "| {} | {:.1} | {:.2} | {:.1} | {:.2} | {:.2} | {} | {} |",
            call.name,
            ours.nanoseconds,
            ours.blocks,
            other.nanoseconds,
            other.blocks,
            ours.nanoseconds / other.nanoseconds,
            call.goal.text(),
            if call.goal.is_met(ours, other) {
                "yes"
            } else {
                "no"
            },
        );
    }
}
