//! The command line.

pub const HELP: &str = "\
bench [--runs R] [--only NAME]
bench --only NAME --side library|plain --loops K
bench --names

Times the library beside plain Rust (`model::plain`) in one process, library and plain in turns, each measurement 20 ms
or longer. Before it is timed, every contest is run on both sides and the answers are compared byte for byte. Prints the
medians, their ratio in time (library/plain, below 1 when the library is faster), the least and greatest ratio of the
pairs, and for how much of the time the process was on a processor: well below 100%, the line was disturbed.

  --runs R     pairs of measurements; 31 if not given
  --only NAME  this contest alone; --names prints all. A name's beginning takes all that begin so.
  --side, --loops
               runs one side alone, K loops, and prints how many items a loop has. For instructions a tick, count with
               two numbers of loops and divide the difference by the items between:
                 perf stat -e instructions:u bench --only run-2-busy --side library --loops 10
                 perf stat -e instructions:u bench --only run-2-busy --side library --loops 110
               then (second - first) / (100 x items). Without counters,
                 valgrind --tool=callgrind bench --only run-2-busy --side library --loops 2
               and again with --loops 12, counts them as well, and says in which function.";

pub struct Asked {
    pub runs: usize,
    pub only: Option<String>,
    pub side: Option<Which>,
    pub loops: usize,
}

#[derive(Clone, Copy, PartialEq, Eq)]
pub enum Which {
    Library,
    Plain,
}

pub enum Command {
    Measure(Asked),
    Names,
    Help,
}

pub fn parse(mut words: impl Iterator<Item = String>) -> Result<Command, String> {
    let mut asked = Asked { runs: 31, only: None, side: None, loops: 1 };
    while let Some(word) = words.next() {
        match word.as_str() {
            "--help" | "-h" => return Ok(Command::Help),
            "--names" => return Ok(Command::Names),
            "--runs" => asked.runs = number(&word, words.next())?,
            "--loops" => asked.loops = number(&word, words.next())?,
            "--only" => asked.only = Some(words.next().ok_or("--only takes a name; see --names")?),
            "--side" => asked.side = Some(side(words.next())?),
            _ => return Err(format!("{word}: not known; see --help")),
        }
    }
    if asked.side.is_some() && asked.only.is_none() {
        return Err("--side goes with --only NAME".to_string());
    }
    Ok(Command::Measure(asked))
}

fn side(word: Option<String>) -> Result<Which, String> {
    match word.as_deref() {
        Some("library") => Ok(Which::Library),
        Some("plain") => Ok(Which::Plain),
        _ => Err("--side takes library or plain".to_string()),
    }
}

fn number(name: &str, word: Option<String>) -> Result<usize, String> {
    word.unwrap_or_default().parse().map_err(|_| format!("{name} takes a number"))
}
