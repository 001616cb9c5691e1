//! The generated texts.

/// The words of a text, without digits and upper-case letters.
const WORDS: [&str; 8] = [
    "abab ", "foo ", "bar\n", "aab ", "zebra ", "the ", "quick ", "é ",
];

/// The lines of a source text.
const LINES: [&str; 12] = [
    "// Counts the words of a line, and says which of them is the longest.\n",
    "pub fn longest_word(line: &str) -> Option<&str> {\n",
    "    let mut best: Option<&str> = None;\n",
    "    for word in line.split(' ') {\n",
    "        if best.map_or(true, |b| b.len() < word.len()) {\n",
    "            best = Some(word); /* the first of equals stays */\n",
    "    println!(\"{}:\\t\\\"{}\\\"\", 0x1F + index * 10_000, name);\n",
    "const LIMIT: u64 = 1_000_000; static RATIO: f64 = 2.5e-3;\n",
    "    match self.state { State::Open(n) if n >= 3 => n << 2, _ => 0b1010 }\n",
    "#[derive(Clone, Debug)]\nstruct Reader<'a, T> { buffer: Vec<T>, place: usize, name: &'a str }\n",
    "        }\n    }\n    best\n}\n\n",
    "    while i != end && !is_done { i += 1; total -= price[i] % 7; }\n",
];

/// Words, of about this many bytes.
pub fn words(size: usize) -> String {
    made(&WORDS, size)
}

/// A source text, of about this many bytes.
pub fn source(size: usize) -> String {
    made(&LINES, size)
}

/// A text of about this many bytes: the pieces in a pseudorandom order, the same in each run.
fn made(pieces: &[&str], size: usize) -> String {
    let mut text = String::with_capacity(size + 100);
    let mut number: u32 = 1;
    while text.len() < size {
        number = number.wrapping_mul(1_103_515_245).wrapping_add(12_345);
        text.push_str(pieces[(number >> 16) as usize % pieces.len()]);
    }
    text
}
