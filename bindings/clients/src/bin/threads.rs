//! Eight threads on one regex and one set, each with its own texts: every answer has to be that of the text, and every error that of
//! the thread's own search. Prints how many searches there were. The argument is the number of rounds of each thread: 2,000 if it is
//! left out.

use fancy_regex::{Error, Regex, RegexBuilder, RegexInput, RegexSet, RuntimeError};
use std::sync::Arc;
use std::thread;

const THREADS: usize = 8;

/// What the threads share.
struct Shared {
    pair: Regex,
    slow: Regex,
    set: RegexSet,
}

impl Shared {
    fn new() -> Result<Shared, Error> {
        Ok(Shared {
            pair: Regex::new(r"(?<left>\w+)=(?<right>\d+)(?!\d)")?,
            slow: RegexBuilder::new(r"(a|aa)+\1b|(\d)\2")
                .backtrack_limit(200)
                .build()?,
            set: RegexSet::new([r"(\w)\1", r"\d+(?=;)", "x"])?,
        })
    }

    /// The searches of one round of a thread.
    fn search(&self, thread: usize, round: usize) -> Result<usize, Error> {
        let text = format!("{} name{thread}={round}; xx", "-".repeat(round % 50));
        let groups = self.pair.captures(&text)?.expect("there is a pair");
        assert_eq!(&groups["left"], format!("name{thread}"));
        assert_eq!(groups[2].parse(), Ok(round));
        let replaced = self.pair.replace_all(&text, "${right}");
        assert!(replaced.contains(&format!("{round}; xx")));
        let at = groups.get(2).expect("it took part").start();
        let input = RegexInput::new(&text[..]).from_pos(at);
        let found = self.set.find_input(input.clone())?.expect("there is one");
        let numbers: Vec<usize> = found
            .map(|member| member.map(|m| m.pattern()))
            .collect::<Result<_, _>>()?;
        assert!(numbers.contains(&1));
        let anchored = self.pair.find_input(input.anchored(true))?;
        assert!(anchored.is_none());
        self.search_slowly(thread, round)?;
        self.search_all(thread, round)?;
        Ok(6)
    }

    /// A search for all matches.
    fn search_all(&self, thread: usize, round: usize) -> Result<(), Error> {
        let text = format!("a={thread} b={round} c=0");
        let pairs = self.pair.find_iter(&text).map(|pair| Ok(pair?.as_str()));
        let pairs: Vec<&str> = pairs.collect::<Result<_, Error>>()?;
        assert_eq!(pairs, text.split(' ').collect::<Vec<_>>());
        Ok(())
    }

    /// A search that passes the limit in every second round.
    fn search_slowly(&self, thread: usize, round: usize) -> Result<(), Error> {
        if (thread + round) % 2 == 0 {
            let found = self.slow.find("aaa-77")?.expect("there is one");
            assert_eq!(found.range(), 4..6);
            return Ok(());
        }
        let error = self.slow.find(&"a".repeat(30)).expect_err("it is slow");
        assert_eq!(
            error,
            Error::RuntimeError(RuntimeError::BacktrackLimitExceeded)
        );
        Ok(())
    }
}

fn main() -> Result<(), Error> {
    let rounds = std::env::args().nth(1).and_then(|word| word.parse().ok());
    let rounds = rounds.unwrap_or(2000);
    let shared = Arc::new(Shared::new()?);
    let threads: Vec<_> = (0..THREADS)
        .map(|thread| {
            let shared = Arc::clone(&shared);
            thread::spawn(move || (0..rounds).map(|round| shared.search(thread, round)).sum())
        })
        .collect();
    let mut searches = 0;
    for thread in threads {
        let made: Result<usize, Error> = thread.join().expect("the thread ends");
        searches += made?;
    }
    println!("{searches} searches");
    Ok(())
}
