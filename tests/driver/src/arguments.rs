//! The command line.

use std::path::PathBuf;

pub const USAGE: &str = "\
driver: compares the peer with the proved library, with the program, and with itself

  --library        compare with the proved static library (built with the feature `proved`)
  --program FILE   compare with the program, run as a child on standard input
  --long           twenty times as many cases, recordings of 4,096 rows, and the histogram
  --histogram      print how often each answer came up
  --seed N         another run (default 1)
  --only NAME N    the one case of that family and seed, as a failure prints them
";

pub struct Arguments {
    pub library: bool,
    pub program: Option<PathBuf>,
    pub long: bool,
    pub histogram: bool,
    pub seed: u64,
    pub only: Option<(String, u64)>,
}

pub fn parse(mut words: impl Iterator<Item = String>) -> Result<Arguments, String> {
    let mut arguments = Arguments {
        library: false,
        program: None,
        long: false,
        histogram: false,
        seed: 1,
        only: None,
    };
    while let Some(word) = words.next() {
        let mut value = || words.next().ok_or(format!("{word} wants a value"));
        match word.as_str() {
            "--library" => arguments.library = true,
            "--program" => arguments.program = Some(PathBuf::from(value()?)),
            "--long" => (arguments.long, arguments.histogram) = (true, true),
            "--histogram" => arguments.histogram = true,
            "--seed" => arguments.seed = number(&value()?)?,
            "--only" => arguments.only = Some((value()?, number(&value()?)?)),
            _ => return Err(format!("unknown word {word}")),
        }
    }
    Ok(arguments)
}

fn number(word: &str) -> Result<u64, String> {
    word.parse().map_err(|_| format!("{word} is no number"))
}
