//! The command line.

pub const USAGE: &str = "\
compare [check] [--seed N] [--count N] [GROUP..]   compare both sides on the same inputs
compare bench [GROUP..]                            time both sides, print the ratios
compare vectors [--seed N]                         write the Rust's answers that `vectors` replays
groups: tables passes blocks tickets planes records wht quant choice; to time: also refused previews, not tables";

pub enum Mode {
    Check,
    Bench,
    Vectors,
}

pub struct Args {
    pub mode: Mode,
    pub seed: u64,
    /// How many random cases of each group.
    pub count: u64,
    pub groups: Vec<String>,
}

/// Reads the words after the program's name; gives back what is wrong with them, if anything is.
pub fn read(words: impl Iterator<Item = String>) -> Result<Args, String> {
    let mut words = words.peekable();
    let mode = match words.peek().map(String::as_str) {
        Some("bench") => Mode::Bench,
        Some("vectors") => Mode::Vectors,
        _ => Mode::Check,
    };
    words.next_if(|word| ["check", "bench", "vectors"].contains(&word.as_str()));
    let mut args = Args { mode, seed: 1, count: 10_000, groups: Vec::new() };
    while let Some(word) = words.next() {
        match word.as_str() {
            "--seed" => args.seed = number(&word, words.next())?,
            "--count" => args.count = number(&word, words.next())?,
            _ if word.starts_with('-') => return Err(format!("{word} is no option")),
            _ => args.groups.push(word),
        }
    }
    Ok(args)
}

fn number(option: &str, word: Option<String>) -> Result<u64, String> {
    word.and_then(|word| word.parse().ok()).ok_or_else(|| format!("{option} takes a number"))
}
